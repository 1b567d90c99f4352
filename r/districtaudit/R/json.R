# Writes the JSON that the program reads. Numbers are written digit by digit: jsonlite would write
# 1e+09, which is no whole number to the program.

quote_json <- function(texts) {
  texts <- enc2utf8(as.character(texts))
  texts <- gsub("\\", "\\\\", texts, fixed = TRUE)
  texts <- gsub("\"", "\\\"", texts, fixed = TRUE)
  if (any(grepl("[\001-\037]", texts))) {
    for (code in 1:31) {
      texts <- gsub(rawToChar(as.raw(code)), sprintf("\\u%04x", code), texts, fixed = TRUE)
    }
  }
  paste0("\"", texts, "\"")
}

# Returns each value as JSON: whole numbers as digits, everything else as a text.
as_json <- function(values) {
  if (is.logical(values)) {
    return(ifelse(values, "true", "false"))
  }
  if (is.numeric(values)) sprintf("%.0f", values) else quote_json(values)
}

# Returns ids and labels as texts, numbers as their digits.
as_plain <- function(ids) if (is.numeric(ids)) sprintf("%.0f", ids) else as.character(ids)

# Returns the graph as networkx's adjacency layout in one line. `columns` is a list of vectors by
# name; `adjacency` has the places of each unit's neighbors, from 1, and `long` the lengths of these
# edges under the name `length`.
graph_json <- function(ids, columns, adjacency, length = NULL, long = NULL) {
  shown <- as_json(ids)
  fields <- lapply(names(columns), function(name) {
    paste0(quote_json(name), ": ", as_json(columns[[name]]))
  })
  fields <- c(fields, list(paste0("\"id\": ", shown)))
  nodes <- paste0("{", do.call(paste, c(fields, sep = ", ")), "}")
  head <- if (is.null(long)) "{" else paste0("{", quote_json(length), ": ")
  rows <- vapply(seq_along(adjacency), function(unit) {
    places <- adjacency[[unit]]
    if (length(places) == 0) {
      return("[]")
    }
    entries <- if (is.null(long)) head else paste0(head, as_json(long[[unit]]), ", ")
    paste0("[", paste0(entries, "\"id\": ", shown[places], "}", collapse = ", "), "]")
  }, "")
  paste0(
    "{\"directed\": false, \"multigraph\": false, \"graph\": [], \"nodes\": [",
    paste(nodes, collapse = ", "), "], \"adjacency\": [", paste(rows, collapse = ", "), "]}\n"
  )
}

# Returns a value as JSON in lines: a list with names is an object, one without names is an array,
# and any other value is one number, text, truth value, or NULL.
value_json <- function(value, indent = "\n") {
  if (is.null(value)) {
    return("null")
  }
  if (!is.list(value)) {
    is_fraction <- is.numeric(value) && value != floor(value)
    return(if (is_fraction) format(value, digits = 15) else as_json(value))
  }
  is_object <- !is.null(names(value))
  marks <- if (is_object) c("{", "}") else c("[", "]")
  if (length(value) == 0) {
    return(paste(marks, collapse = ""))
  }
  inner <- paste0(indent, " ")
  entries <- vapply(value, value_json, "", indent = inner)
  if (is_object) entries <- paste0(quote_json(names(value)), ": ", entries)
  paste0(marks[1], inner, paste(entries, collapse = paste0(",", inner)), indent, marks[2])
}
