#' Prepares a map for the program
#'
#' Checks the columns of a map and writes the graph that the program reads. Values that are missing
#' are refused by unit, or changed as `missing` says. Values that are not whole are refused, too, or
#' rounded with `numbers = "nearest"` (halves to even). `changes` of the answer lists each of these.
#'
#' Factors are labels for districts and regions, and are refused as numbers. The order of the rows
#' is that of the units in [audit_trace()] and in plans without row names.
#'
#' @param map A data frame with a row for each unit: of `sf`, a plain one with `adjacency`, or a
#'   `redist_map`. Of the last its neighbors, populations, existing plan and tolerance are used, if
#'   no others are named.
#' @param population,first,second,district The names of the columns of people, of both parties'
#'   votes, and of the enacted plan's districts.
#' @param adjacency The neighbors of each unit: a list of places, `nb` of spdep, or NULL. Places
#'   from 0, as redist has them, are recognized. NULL finds neighbors by the polygons' common lines.
#' @param ... Rules for every call: `slack` or `tolerance`, `max_cut`, `max_split` and so on, as
#'   [audit_run()] takes them. `slack` and `group_share` count hundredths of a percent.
#' @param elections Several elections in place of `first` and `second`: a list of pairs of columns by
#'   name, `list(GOV18 = c("G18D", "G18R"), SEN20 = c("S20D", "S20R"))`.
#' @param id The name of the column of ids; NULL takes the numbers of the rows.
#' @param region,group,group_of,freeze The names of further columns; NULL if there is none.
#' @param length The name of the edges' lengths, as `"shared_perim"`, for the question `cut-length`
#'   and the rule `max_length`; NULL if there are none. Of polygons they are the common borders, in
#'   the units of the coordinates. They are made whole, so give meters and not kilometers.
#' @param lengths The lengths, if they are not those of the polygons: a list as `adjacency`, with a
#'   length for each neighbor.
#' @param join Pairs of ids of units to be made neighbors, as an island and its ferry's port:
#'   `list(c("A", "B"))`. Their edge has a length of 0.
#' @param numbers `"error"` or `"nearest"`.
#' @param missing `"error"` refuses missing values. `"zero"` makes 0 of those of people, votes and the
#'   group, and refuses a missing district or region. `"drop"` leaves a unit out that misses any of
#'   these. A missing id or `freeze` is always refused.
#' @param queen TRUE makes polygons with only a common point neighbors, too.
#' @param files The paths of the files from which the map was read. A manifest keeps their SHA-256.
#' @return An object of class `audit_map`, a list with `json` (the graph), `ids`, `data` (the
#'   columns), `adjacency` (places from 1), `lengths`, `columns`, `elections`, `rules`, `changes`
#'   (values that became others; `from` is NA where they were missing), `left_out` (the ids of units
#'   that were dropped), `islands` (the ids of units without a neighbor), `parts` (the number of the
#'   part of the graph in which each unit lies), `apart` and `stray` (a line for each district that is
#'   in several parts, which the program will refuse, or has so few units that its label may be a
#'   slip), `warnings` and `custody`. Raises an error of class `PrepareRefused`.
#' @examples
#' units <- data.frame(
#'   pop = c(1, 1, 1, 1), a = c(3, 1, 2, 2), b = c(1, 3, 2, 2), d = c("east", "east", "west", "west")
#' )
#' ring <- list(c(2, 4), c(1, 3), c(2, 4), c(3, 1))
#' audit_prepare(units, "pop", "a", "b", "d", adjacency = ring, slack = 5000)
#' @export
audit_prepare <- function(map, population = attr(map, "pop_col"), first = NULL, second = NULL,
                          district = attr(map, "existing_col"), adjacency = NULL, ...,
                          elections = NULL, id = NULL, region = NULL, group = NULL,
                          group_of = NULL, freeze = NULL, length = NULL, lengths = NULL,
                          join = NULL, numbers = c("error", "nearest"),
                          missing = c("error", "zero", "drop"), queen = FALSE, files = NULL) {
  numbers <- match.arg(numbers)
  missing <- match.arg(missing)
  if (!is.data.frame(map)) {
    refuse("PrepareRefused", "map must be a data frame, not of class ", class(map)[1])
  }
  if (is.null(population) || is.null(district)) {
    refuse("ArgumentRefused", "population and district must be named")
  }
  columns <- list(
    pop = population, first = first, second = second, district = district, region = region,
    group = group, group_of = group_of, freeze = freeze, length = length
  )
  columns <- columns[!vapply(columns, is.null, NA)]
  elections <- elections_in(elections, first, second)
  test_columns(columns, elections, lengths)
  rules <- rules_of(rules_of_map(map, list(...)))
  asked <- asked_columns(columns, elections)
  units <- kept_units(map, asked, ids_of(map, id), missing)
  read <- read_columns(map, asked, units, numbers, missing)
  edges <- edges_of(map, units, adjacency, queen, length, lengths, join)
  made <- structure(class = "audit_map", list(
    json = graph_json(units$ids, read$data, edges$rows, length, edges$long), id = id, ids = units$ids,
    data = read$data, adjacency = edges$rows, lengths = edges$long, columns = columns,
    elections = elections, rules = rules, changes = read$changes, left_out = units$all[-units$at],
    islands = units$ids[lengths(edges$rows) == 0], parts = parts_of(edges$rows)
  ))
  if (length(units$at) == length(units$all)) made$left_out <- units$all[0]
  made$apart <- districts_apart(made, edges$shapes)
  made$stray <- stray_districts(made)
  made$warnings <- c(map_warnings(made), edges$warnings)
  made$custody <- custody_of(
    made, left_out(map, id, made), c(units$changes, edges$changes), numbers, missing, id, join, queen,
    files
  )
  warn_all(made$warnings)
  made
}

# Returns elections as a list of pairs by name; NULL if there is just one.
elections_in <- function(elections, first = NULL, second = NULL) {
  if (is.null(elections)) {
    if (is.null(first) || is.null(second)) {
      refuse("ArgumentRefused", "first and second, or elections, must be named")
    }
    return(NULL)
  }
  if (!is.null(first) || !is.null(second)) {
    refuse(
      "ArgumentRefused", "elections is given, and first or second too: each election has its own",
      " columns"
    )
  }
  pairs <- vapply(elections, function(one) is.character(one) && length(one) == 2 && !anyNA(one), NA)
  is_named <- !is.null(names(elections)) && all(nzchar(names(elections))) && !anyDuplicated(names(elections))
  if (!is.list(elections) || length(elections) == 0 || !all(pairs) || !is_named) {
    refuse(
      "ArgumentRefused", "elections is a list of pairs of columns, each with a name of its own, as",
      " list(GOV18 = c(\"G18D\", \"G18R\"))"
    )
  }
  elections
}

# Refuses columns that make another audit than the one that is meant.
test_columns <- function(columns, elections, lengths) {
  pairs <- if (is.null(elections)) list(c(columns$first, columns$second)) else elections
  for (pair in pairs) {
    if (pair[1] == pair[2]) refuse("PrepareRefused", "both parties' votes are the column ", pair[1])
  }
  if (columns$district %in% c(columns$pop, unlist(pairs))) {
    refuse(
      "PrepareRefused", "the column ", columns$district, " is named as that of districts and of people",
      " or votes"
    )
  }
  if (!is.null(columns$group_of) && is.null(columns[["group"]])) {
    refuse("ArgumentRefused", "group_of is given without group: name the column of the group")
  }
  if (!is.null(lengths) && is.null(columns[["length"]])) {
    refuse("ArgumentRefused", "lengths is given without length: name it, as \"shared_perim\"")
  }
}

# Returns the rules of a call; a redist_map has its own bounds on population.
rules_of_map <- function(map, given) {
  bounds <- attr(map, "pop_bounds")
  if (inherits(map, "redist_map") && length(bounds) == 3 && is.null(given$slack) && is.null(given$tolerance)) {
    given$tolerance <- round(bounds[3] / bounds[2] - 1, 9)
  }
  given
}

# Returns the neighbors, the lengths of the edges, and what was changed and is doubtful about them.
edges_of <- function(map, units, adjacency, queen, length, lengths, join) {
  if (is.null(adjacency) && !is.null(attr(map, "adj_col"))) {
    adjacency <- map[[attr(map, "adj_col")]]
  }
  by_polygons <- is.null(adjacency) || (!is.null(length) && is.null(lengths))
  shapes <- if (by_polygons && inherits(map, "sf")) shapes_of(map, units)
  given <- given_edges(adjacency, lengths, units)
  rows <- if (is.null(adjacency)) touching(shapes, queen) else given$rows
  found <- list(long = NULL, changes = list(), warnings = list())
  in_degrees <- !is.null(length) && !is.null(shapes) && are_degrees(map, shapes)
  if (!is.null(length)) {
    if (is.null(lengths) && is.null(shapes)) {
      refuse("PrepareRefused", "lengths is missing: without it, map must be a data frame of sf")
    }
    long <- if (is.null(lengths)) lengths_of_borders(shapes, rows) else given$long
    found <- whole_lengths(length, long, rows, units$ids)
    # Of lengths in degrees the other warning says what to do.
    if (in_degrees) found$warnings <- list()
  }
  if (!is.null(shapes)) found$warnings <- c(found$warnings, border_warnings(shapes, in_degrees))
  joined <- join_units(rows, found$long, join, units$ids)
  list(
    rows = joined$rows, long = joined$long, changes = c(found$changes, joined$changes),
    warnings = found$warnings, shapes = shapes
  )
}

# Returns the names of the map's columns that the program does not read.
left_out <- function(map, id, made) {
  shape <- attr(map, "sf_column")
  sort(setdiff(names(map), c(id, shape, attr(map, "adj_col"), names(made$data))), method = "radix")
}

ids_of <- function(map, id) {
  if (nrow(map) == 0) {
    refuse("PrepareRefused", "the map has no rows")
  }
  if (is.null(id)) {
    return(seq_len(nrow(map)))
  }
  values <- column_of(map, id)
  bad <- is_missing(values)
  if (any(bad)) {
    refuse("PrepareRefused", "column ", id, ": an id is missing in the rows ", shown(which(bad)))
  }
  values <- if (is.factor(values)) as.character(values) else values
  is_whole <- is.numeric(values) && !inherits(values, "integer64") && all(values == floor(values)) &&
    all(abs(values) <= 2^53)
  if (!is.character(values) && !is_whole) {
    refuse("PrepareRefused", "column ", id, " must have texts or whole numbers as ids")
  }
  if (anyDuplicated(values) > 0) {
    refuse(
      "PrepareRefused", "column ", id, ": several units have the id ",
      as_plain(values[anyDuplicated(values)])
    )
  }
  values
}

# Returns the names of the columns that are read, each with its role.
asked_columns <- function(columns, elections) {
  votes <- unlist(elections, use.names = FALSE)
  c(columns[setdiff(names(columns), "length")], named(as.list(votes), rep("first", length(votes))))
}

# Returns the columns that the program reads, and the changes of their values.
read_columns <- function(map, asked, units, numbers, missing) {
  data <- list()
  changes <- list()
  for (place in seq_along(asked)) {
    role <- names(asked)[place]
    name <- asked[[place]]
    values <- column_of(map, name)[units$at]
    if (role %in% c("district", "region")) {
      data[[name]] <- labels_of(values, name, units$ids, " (missing = \"drop\" leaves the units out)")
    } else if (role == "freeze") {
      data[[name]] <- frozen_of(values, name, units$ids)
    } else if (!name %in% names(data)) {
      read <- counts_of(values, name, units$ids, numbers, missing)
      data[[name]] <- read$values
      changes[[name]] <- read$changes
    }
  }
  all <- do.call(rbind, unname(changes))
  rownames(all) <- NULL
  list(data = data, changes = all)
}

#' @export
print.audit_map <- function(x, ...) {
  missing <- is.na(x$changes$from)
  cat(
    length(x$ids), " units, ", sum(lengths(x$adjacency)) / 2, " edges, ",
    length(unique(x$data[[x$columns$district]])), " districts, ", sum(!missing), " values made whole, ",
    if (any(missing)) paste(sum(missing), "missing values made 0, "), length(x$warnings), " warnings\n",
    sep = ""
  )
  say <- function(...) cat(..., "\n", sep = "")
  if (length(x$left_out) > 0) {
    say("units left out, for missing values: ", length(x$left_out), ": ", shown(x$left_out))
  }
  if (length(x$islands) > 0) {
    say("units without a neighbor: ", length(x$islands), ": ", shown(x$islands))
  }
  if (max(x$parts) > 1) {
    say(
      "the graph is in ", max(x$parts), " parts, and a district lies in one of them (join = ",
      "list(c(A, B)) makes neighbors of two units)"
    )
  }
  for (line in c(x$apart, x$stray, notes_on(x), columns_without_limit(x))) say(line)
  files <- vapply(x$custody$files, `[[`, "", "name")
  say(
    "raw files: ",
    if (length(files) > 0) shown(files) else "none is named (files =), so no manifest has their SHA-256"
  )
  for (one in x$warnings) say("warning: ", class(one)[1], ": ", conditionMessage(one))
  invisible(x)
}

# Returns lines on the rules and votes of each call, and on units with more of a group than there are.
notes_on <- function(map) {
  rules <- c(if (is.null(map$rules$slack)) list(slack = 500), map$rules)
  pairs <- pairs_of(map)
  group <- map$columns[["group"]]
  whole <- if (is.null(map$columns$group_of)) map$columns$pop else map$columns$group_of
  over <- if (!is.null(group)) map$ids[map$data[[group]] > map$data[[whole]]]
  c(
    paste0("rules: ", paste(names(rules), rules, sep = "=", collapse = ", ")),
    paste0("votes: ", paste0(
      names(map$elections), if (!is.null(map$elections)) " ", "first ", vapply(pairs, `[`, "", 1), ", second ",
      vapply(pairs, `[`, "", 2), collapse = "; "
    )),
    if (length(over) > 0) paste0("units with more in ", group, " than in ", whole, ": ", length(over), ": ", shown(over))
  )
}

# Returns a line for each column whose rule is not limited, so that it limits nothing.
columns_without_limit <- function(map) {
  limits <- list(region = c("max_split", "max_splits", "max_split_regions"), group = "group_districts")
  open <- Filter(function(role) {
    !is.null(map$columns[[role]]) && !any(limits[[role]] %in% names(map$rules))
  }, names(limits))
  vapply(open, function(role) {
    paste0(
      role, " ", map$columns[[role]], " limits nothing yet, without ", paste(limits[[role]], collapse = " or ")
    )
  }, "")
}

#' Writes the graph of a prepared map
#'
#' @param map What [audit_prepare()] returned.
#' @param path The file to write.
#' @return The path, invisibly. The file has the bytes that the program reads in each call.
#' @export
audit_write <- function(map, path) {
  invisible(write_text(map$json, path))
}
