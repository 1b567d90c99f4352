# The neighbors of each unit, as places from 1.

# Returns the neighbors and lengths that a caller gives, of the units that stay. The neighbors are
# spdep's `nb`, sf's `sgbp`, redist's lists (places from 0), or any list of places.
given_edges <- function(adjacency, lengths, units) {
  if (is.null(adjacency)) {
    return(list(long = lengths))
  }
  count <- length(units$all)
  if (!is.list(adjacency) || length(adjacency) != count) {
    refuse(
      "PrepareRefused", "adjacency must be a list with the neighbors of each of the ", count,
      " units, not ", if (is.list(adjacency)) paste("of", length(adjacency)) else class(adjacency)[1]
    )
  }
  rows <- test_symmetric(from_one(adjacency, count), units$all)
  if (!is.null(lengths)) test_form(lengths, rows)
  stays <- lapply(rows[units$at], function(row) row %in% units$at)
  keep <- function(values) Map(function(row, which) row[which], values[units$at], stays)
  list(
    rows = lapply(unname(keep(rows)), function(row) match(row, units$at)),
    long = if (!is.null(lengths)) unname(keep(lengths))
  )
}

# Returns the neighbors of polygons: a common line, or with `queen` also a common point.
#
# Only the boundaries count, so that polygons that overlap a little keep their common line.
touching <- function(shapes, queen) {
  if (is.null(shapes)) {
    refuse("PrepareRefused", "adjacency is missing: without it, map must be a data frame of sf")
  }
  sharing <- if (queen) {
    sf::st_intersects(shapes, shapes)
  } else {
    sf::st_relate(shapes, shapes, pattern = "****1****")
  }
  lapply(seq_along(sharing), function(unit) setdiff(sharing[[unit]], unit))
}

# Returns places from 1. A list of places from 0 has a 0 and never the number of units; a list of
# places from 1 has that number and no 0, but in spdep's `nb`, where a lone 0 means no neighbor.
from_one <- function(adjacency, count) {
  is_nb <- inherits(adjacency, "nb")
  is_from_one <- is_nb || inherits(adjacency, "sgbp")
  rows <- lapply(unclass(adjacency), function(row) {
    if (is_nb && identical(as.integer(row), 0L)) integer() else row
  })
  every <- unlist(rows)
  whole <- is.numeric(every) && all(is.finite(every)) && all(every == floor(every))
  if (length(every) > 0 && (!whole || min(every) < 0 || max(every) > count)) {
    refuse("PrepareRefused", "adjacency has a value that is no place of a unit, 1 to ", count)
  }
  if (any(every == 0) && (is_from_one || any(every == count))) {
    refuse(
      "PrepareRefused", "adjacency has 0 and ", count, ", so its places count neither from 0 nor",
      " from 1"
    )
  }
  moved <- lapply(rows, function(row) row + 1)
  if (is_from_one || length(every) == 0 || any(every == count)) {
    return(rows)
  }
  if (any(every == 0)) {
    return(moved)
  }
  # The first or last unit has no neighbor. A list that is shifted by one is mostly not symmetric.
  if (is_symmetric(rows) && is_symmetric(moved)) {
    refuse(
      "PrepareRefused", "adjacency has neither 0 nor ", count, ", so its places may count from 0 or",
      " from 1: structure(adjacency, class = \"nb\") counts from 1"
    )
  }
  if (is_symmetric(moved)) moved else rows
}

is_symmetric <- function(rows) {
  from <- rep(seq_along(rows), lengths(rows))
  to <- unlist(rows)
  all(paste(to, from) %in% paste(from, to))
}

# Refuses a neighbor that does not list the unit in turn: such a list is mostly shifted by one. A
# unit that lists itself, or another one twice, is refused, too.
test_symmetric <- function(rows, ids) {
  from <- rep(seq_along(rows), lengths(rows))
  to <- unlist(rows)
  say <- function(bad, what) {
    if (any(bad)) {
      at <- which(bad)[1]
      refuse(
        "PrepareRefused", "adjacency: unit ", shown(ids[from[at]]), " lists unit ",
        shown(ids[to[at]]), what
      )
    }
  }
  say(from == to, ", which is itself")
  say(duplicated(paste(from, to)), " twice")
  say(!(paste(to, from) %in% paste(from, to)), ", which does not list it")
  rows
}

# Returns neighbors and lengths with the pairs of units that are to be joined, and the changes.
join_units <- function(rows, long, join, ids) {
  if (length(join) == 2 && !is.list(join)) join <- list(join)
  changes <- list()
  for (pair in join) {
    at <- match(as_plain(unlist(pair)), as_plain(ids))
    if (length(at) != 2 || anyNA(at)) {
      refuse(
        "PrepareRefused", "join must be a list of pairs of ids, and ", shown(unlist(pair)),
        " are not two ids of units"
      )
    }
    if (at[1] == at[2]) {
      refuse("PrepareRefused", "unit ", as_plain(ids[at[1]]), " cannot be joined to itself")
    }
    are_neighbors <- at[2] %in% rows[[at[1]]]
    for (ends in if (are_neighbors) list() else list(at, rev(at))) {
      rows[[ends[1]]] <- c(rows[[ends[1]]], ends[2])
      if (!is.null(long)) long[[ends[1]]] <- c(long[[ends[1]]], 0)
    }
    names <- as_json(ids[at])
    done <- if (are_neighbors) "were neighbors already" else "made neighbors"
    changes <- c(changes, list(new_change(
      paste("units", names[1], "and", names[2], done), is_of_values = !are_neighbors
    )))
  }
  list(rows = rows, long = long, changes = changes)
}

# Returns the number of the part of the graph in which each unit lies.
parts_of <- function(rows) {
  part <- integer(length(rows))
  for (start in seq_along(rows)) {
    if (part[start] == 0) {
      count <- max(part) + 1L
      todo <- start
      while (length(todo) > 0) {
        part[todo] <- count
        todo <- unique(unlist(rows[todo]))
        todo <- todo[part[todo] == 0]
      }
    }
  }
  part
}

# Returns a line for each district that is in several parts: the units of its small parts and, of
# polygons, the two units of it that are nearest to each other across its greatest gap.
districts_apart <- function(map, shapes) {
  labels <- map$data[[map$columns$district]]
  lines <- lapply(in_order(labels), function(label) {
    inside <- which(labels == label)
    place <- integer(length(labels))
    place[inside] <- seq_along(inside)
    part <- parts_of(lapply(map$adjacency[inside], function(row) place[row][place[row] > 0]))
    if (max(part) == 1) {
      return(NULL)
    }
    apart <- part != which.max(tabulate(part))
    paste0(
      "district ", as_json(label), " is in ", max(part), " parts; ", sum(apart), " of its ", length(inside),
      " units lie apart: ", shown(map$ids[inside[apart]], 10), near_pair(map$ids, shapes, inside, apart)
    )
  })
  unlist(lines)
}

# Returns in words which unit that lies apart is nearest to the rest of its district, and to which unit.
near_pair <- function(ids, shapes, inside, apart) {
  if (is.null(shapes)) {
    return("")
  }
  one <- inside[apart]
  other <- inside[!apart]
  other <- other[suppressMessages(sf::st_nearest_feature(shapes[one], shapes[other]))]
  at <- which.min(as.numeric(sf::st_distance(shapes[one], shapes[other], by_element = TRUE)))
  paste0("; nearest to the rest are ", as_json(ids[one[at]]), " and ", as_json(ids[other[at]]))
}
