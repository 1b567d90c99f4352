# Several plans on one map.

#' Audits several plans on one map
#'
#' @inheritParams audit_run
#' @param graph What [audit_prepare()] returned.
#' @param plans A matrix with a row for each unit and a plan in each column, such as redist's, or a
#'   data frame of this form. Its units are matched by row names, or by the data frame's column of
#'   ids, which is named as the map's or `id`. Without these, the rows are in the map's order. Names
#'   may have spaces; a plan without a name gets one.
#' @param districts `"same"` refuses a plan with another number of districts than the enacted plan.
#' @return An object of class `audit_reports`: a list of reports by name, that of the enacted plan,
#'   named as its column, and then each plan's.
#' @export
audit_plans <- function(graph, plans, key, ask, ..., districts = c("same", "any"),
                        limits_from = NULL) {
  if (!inherits(graph, "audit_map")) {
    refuse("ArgumentRefused", "graph must be what audit_prepare() returned")
  }
  given <- list(key = key, ask = ask, ...)
  options <- options_of(graph, given)
  need_election(graph, options, "audit_plans")
  table <- table_of(graph, plans, match.arg(districts))
  found <- call_warnings(graph, options, given, limits_from)
  made <- record_program("plans", graph, options, text = paste0(graph$json, table))
  reports <- lapply(split_plans(made$out), new_report, made$call, found, limits_from)
  warn_of_frozen(reports, "plan")
  new_reports(reports, names(reports), "plan")
}

# Refuses a map of several elections where one has to be named.
need_election <- function(graph, options, name) {
  if (inherits(graph, "audit_map") && !is.null(graph$elections) && (is.null(options$first) || is.null(options$second))) {
    refuse(
      "ArgumentRefused", "the map has several elections, and ", name, "() takes one: give first = \"",
      graph$elections[[1]][1], "\", second = \"", graph$elections[[1]][2], "\" or another pair"
    )
  }
}

# Returns the reports of a text of the command `plans`, by the names of the plans.
split_plans <- function(text) {
  lines <- lines_of(text)
  heads <- grep("^plan ", lines)
  ends <- c(heads[-1] - 1, length(lines))
  reports <- mapply(function(from, to) {
    audit_report(paste0(lines[seq(from + 1, to)], "\n", collapse = ""))
  }, heads, ends, SIMPLIFY = FALSE)
  named(reports, sub("^plan ", "", lines[heads]))
}

# Returns the table of plans as the program reads it.
table_of <- function(graph, plans, districts) {
  if (inherits(plans, "redist_plans")) {
    plans <- attr(plans, "plans")
  }
  if (!is.matrix(plans) && !is.data.frame(plans)) {
    refuse("ArgumentRefused", "plans must be a matrix or a data frame, units by plans")
  }
  ids <- row_ids(graph, plans)
  if (is.data.frame(plans)) plans <- plans[setdiff(names(plans), id_column(graph, plans))]
  colnames(plans) <- plan_names(graph, plans)
  columns <- lapply(seq_len(ncol(plans)), function(place) {
    labels <- labels_of(plans[, place, drop = TRUE], colnames(plans)[place], ids)
    count <- length(unique(labels))
    wanted <- length(unique(graph$data[[graph$columns$district]]))
    if (districts == "same" && count != wanted) {
      refuse(
        "PrepareRefused", "plan ", colnames(plans)[place], " has ", count, " districts, and the",
        " enacted plan ", wanted, " (districts = \"any\" allows this)"
      )
    }
    padded(labels)
  })
  field <- function(values) {
    text <- enc2utf8(as_plain(values))
    paste0("\"", gsub("\"", "\"\"", text, fixed = TRUE), "\"")
  }
  head <- paste(field(c("id", colnames(plans))), collapse = ",")
  rows <- do.call(paste, c(list(field(ids)), lapply(columns, field), sep = ","))
  paste0(paste(c(head, rows), collapse = "\n"), "\n")
}

# Returns labels as texts. Whole numbers get zeros in front, to one width: the program orders the
# texts of a table by their bytes, and so a plan has its districts in the order of their numbers.
padded <- function(labels) {
  texts <- as_plain(labels)
  is_whole <- all(grepl("^(0|[1-9][0-9]*)$", texts))
  if (is_whole) paste0(strrep("0", max(nchar(texts)) - nchar(texts)), texts) else texts
}

# Returns the names of the plans; a plan without a name gets one.
plan_names <- function(graph, plans) {
  names <- if (is.null(colnames(plans))) rep("", ncol(plans)) else colnames(plans)
  empty <- is.na(names) | !nzchar(names)
  names[empty] <- paste0("plan", seq_along(names))[empty]
  twice <- c(graph$columns$district, names)
  twice <- twice[duplicated(twice)]
  if (length(names) == 0 || length(twice) > 0) {
    refuse(
      "PrepareRefused", if (length(twice) == 0) "there is no plan" else
        paste0("several plans have the name ", twice[1], " (the enacted plan is ", graph$columns$district, ")")
    )
  }
  names
}

# Returns the name of a data frame's column of ids; none if it has no such column.
id_column <- function(graph, plans) {
  if (is.data.frame(plans)) intersect(c(graph$id, "id"), names(plans))[1] else NA
}

# Returns the ids of a table's rows: of a column of ids, of row names, or else those of the map.
row_ids <- function(graph, plans) {
  known <- as_plain(graph$ids)
  column <- id_column(graph, plans)
  automatic <- is.data.frame(plans) && .row_names_info(plans) < 0
  names <- if (!is.na(column)) as_plain(plans[[column]]) else if (!automatic) rownames(plans)
  if (is.null(names)) {
    if (nrow(plans) != length(known)) {
      refuse(
        "PrepareRefused", "plans has ", nrow(plans), " rows, and the map ", length(known), " units"
      )
    }
    return(graph$ids)
  }
  strange <- setdiff(names, known)
  if (length(strange) > 0 || length(names) != length(known) || anyDuplicated(names) > 0) {
    refuse(
      "PrepareRefused", if (is.na(column)) "the row names of plans" else paste("the column", column, "of plans"),
      " are not the map's ids: ",
      if (length(strange) > 0) shown(strange) else if (anyDuplicated(names) > 0)
        paste(shown(names[duplicated(names)]), "twice") else paste("missing", shown(setdiff(known, names)))
    )
  }
  names
}
