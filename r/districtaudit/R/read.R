#' Reads a graph of GerryChain or networkx
#'
#' Reads JSON in networkx's adjacency layout, as GerryChain's `Graph.to_json` writes it, and prepares
#' it as [audit_prepare()] does.
#'
#' @param path The file.
#' @param ... The arguments of [audit_prepare()] other than `map`, `adjacency`, `lengths` and `id`.
#' @param length The name of the edges' lengths, as `"shared_perim"`; NULL if there are none.
#' @return What [audit_prepare()] returns.
#' @export
audit_read <- function(path, ..., length = NULL) {
  graph <- jsonlite::fromJSON(path, simplifyMatrix = FALSE)
  if (!is.data.frame(graph$nodes) || !is.list(graph$adjacency)) {
    refuse("PrepareRefused", path, " has no graph in networkx's adjacency layout")
  }
  if (isTRUE(graph$directed)) {
    refuse("PrepareRefused", path, " has a directed graph")
  }
  if (!is.null(length) && !any(vapply(graph$adjacency, function(row) length %in% names(row), NA))) {
    refuse("PrepareRefused", "no edge of ", path, " has a column ", length)
  }
  edges <- do.call(rbind, lapply(seq_along(graph$adjacency), function(place) {
    row <- graph$adjacency[[place]]
    if (length(row) == 0) {
      return(NULL)
    }
    long <- if (is.null(length)) 0 else if (is.null(row[[length]])) NA else row[[length]]
    data.frame(from = place, to = match(row$id, graph$nodes$id), long)
  }))
  if (length(graph$adjacency) != nrow(graph$nodes) || anyNA(edges$to)) {
    refuse("PrepareRefused", path, " has neighbors that are no nodes")
  }
  # A graph of networkx has an edge if either of its ends lists the other; no unit is its neighbor.
  back <- data.frame(from = edges$to, to = edges$from, long = edges$long)
  edges <- rbind(edges, back)
  edges <- edges[edges$from != edges$to, ]
  edges <- edges[!duplicated(edges), ]
  if (anyDuplicated(edges[c("from", "to")]) > 0) {
    at <- edges[anyDuplicated(edges[c("from", "to")]), ]
    refuse(
      "PrepareRefused", "edge ", as_plain(graph$nodes$id[at$from]), " - ", as_plain(graph$nodes$id[at$to]),
      ": ", length, " has several values"
    )
  }
  unit <- factor(edges$from, seq_along(graph$adjacency))
  both <- unname(split(edges$to, unit))
  audit_prepare(
    graph$nodes, ..., adjacency = structure(both, class = "sgbp"), id = "id", length = length,
    lengths = if (!is.null(length)) unname(split(edges$long, unit)), files = path
  )
}
