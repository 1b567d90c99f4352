#' Reads the plans that a run visits
#'
#' Calls the program's command `trace`.
#'
#' @inheritParams audit_run
#' @param graph What [audit_prepare()] returned.
#' @param ids The trajectories: an id or a range such as `0:3`. Walks have the ids from 0, and the
#'   trajectories to ends those behind.
#' @param thin The number of steps between two plans.
#' @param last Whether the last plan of each trajectory is there even if the number of its steps is
#'   no multiple of `thin`.
#' @return A matrix of class `audit_trace` with a row for each unit and a column for each plan, as
#'   redist has plans. Its values are numbers of districts from 1; the attribute `districts` has
#'   their labels. `as.data.frame` gives a row for each plan: its trajectory, step, number of moves,
#'   and score for each question.
#' @export
audit_trace <- function(graph, key, ask, ids = 0, thin = 1000, ..., last = FALSE,
                        limits_from = NULL) {
  if (!inherits(graph, "audit_map")) {
    refuse("ArgumentRefused", "graph must be what audit_prepare() returned")
  }
  given <- list(key = key, ask = ask, ids = ids, thin = thin, ...)
  options <- options_of(graph, given)
  need_election(graph, options, "audit_trace")
  call_warnings(graph, options, given, limits_from)
  lines <- lines_of(ask_program("trace", graph, options))
  if (lines[1] != "district-trace 1" || lines[length(lines)] != "end") {
    refuse("ReportRefused", "the text does not begin with district-trace 1 and end with end")
  }
  read_trace(lines, graph, if (last) 1 else as.numeric(thin))
}

# Returns the matrix of the plans whose steps are multiples of a number.
read_trace <- function(lines, graph, multiple) {
  asks <- regmatches(lines, regexec(paste0("^ask ", ASK, " ", START, "$"), lines))
  asks <- Filter(length, asks)
  sections <- grep("^trace ", lines)
  labels <- graph$data[[graph$columns$district]]
  districts <- in_order(labels)
  enacted <- match(labels, districts)
  ends <- c(sections[-1], length(lines)) - 1
  read <- mapply(function(from, to) {
    id <- as.numeric(strsplit(lines[from], " ", fixed = TRUE)[[1]][3])
    read_section(lines[seq(from + 1, to)], id, enacted, length(asks))
  }, sections, ends, SIMPLIFY = FALSE)
  plans <- do.call(cbind, lapply(read, `[[`, "plans"))
  table <- do.call(rbind, lapply(read, `[[`, "table"))
  for (place in seq_along(asks)) {
    name <- paste0(asks[[place]][2], ":", asks[[place]][3])
    table[[name]] <- table[[paste0("value", place)]] / as.numeric(asks[[place]][5])
    table[[paste0("value", place)]] <- NULL
  }
  kept <- table$step %% multiple == 0
  plans <- plans[, kept, drop = FALSE]
  table <- table[kept, , drop = FALSE]
  rownames(table) <- NULL
  rownames(plans) <- as.character(as_plain(graph$ids))
  structure(plans, class = c("audit_trace", class(plans)), districts = districts, plans = table)
}

# Returns the plans of one trajectory: each line changes the plan of the line before.
read_section <- function(lines, id, plan, asks) {
  plans <- matrix(0L, length(plan), length(lines))
  values <- matrix(0, length(lines), 2 + asks)
  for (at in seq_along(lines)) {
    parts <- strsplit(lines[at], " ", fixed = TRUE)[[1]]
    values[at, ] <- as.numeric(parts[seq_len(2 + asks)])
    changes <- parts[-seq_len(2 + asks)]
    if (length(changes) > 0) {
      pairs <- matrix(as.integer(unlist(strsplit(changes, ":", fixed = TRUE))), nrow = 2)
      plan[pairs[1, ] + 1] <- pairs[2, ] + 1L
    }
    plans[, at] <- plan
  }
  table <- data.frame(trajectory = id, values)
  names(table) <- c("trajectory", "step", "moved", if (asks > 0) paste0("value", seq_len(asks)))
  list(plans = plans, table = table)
}

#' @export
as.data.frame.audit_trace <- function(x, row.names = NULL, optional = FALSE, ...) attr(x, "plans")

#' @export
print.audit_trace <- function(x, ...) {
  cat(ncol(x), "plans of", nrow(x), "units\n")
  invisible(x)
}
