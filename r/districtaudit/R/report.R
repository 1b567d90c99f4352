# Reads the program's reports.

FRAME <- c(
  "test", "ask", "score", "tail", "start", "start_numerator", "start_denominator", "walk",
  "second_walk", "moved", "visited", "in_tail", "share", "bound", "rank", "of", "p",
  "stopped_after", "start_place"
)
START <- "start (-?[0-9]+)/([1-9][0-9]*)"
ASK <- "(seats|mean-median|gap|cut-edges|cut-length) (low|high)"
NUMBER <- "(0|[1-9][0-9]*)"
DECIMAL <- "([0-9]+\\.[0-9]{9})"
# For each kind of line its form, and the columns that its numbers fill.
FORMS <- list(
  walk = list(
    form = paste("^walk", NUMBER, "moved", NUMBER, ASK, START, "count", NUMBER, "of", NUMBER, "bound", DECIMAL),
    fills = c("walk", "moved", "score", "tail", "start_numerator", "start_denominator", "in_tail", "visited", "bound")
  ),
  pair = list(
    form = paste("^pair", NUMBER, NUMBER, ASK, START, "count", NUMBER, "of", NUMBER, "bound", DECIMAL),
    fills = c(
      "walk", "second_walk", "score", "tail", "start_numerator", "start_denominator", "in_tail",
      "visited", "bound"
    )
  ),
  ends = list(
    form = paste("^ends", ASK, START, "rank", NUMBER, "of", NUMBER, "p", DECIMAL),
    fills = c("score", "tail", "start_numerator", "start_denominator", "rank", "of", "p")
  ),
  stop = list(
    form = paste0("^stop ", ASK, " ", START, " place ", NUMBER, " value ", NUMBER, "/", NUMBER, " p ", DECIMAL),
    fills = c("score", "tail", "start_numerator", "start_denominator", "stopped_after", "rank", "of", "p")
  ),
  serial = list(
    form = paste("^serial", ASK, START, "place", NUMBER, "rank", NUMBER, "of", NUMBER, "p", DECIMAL),
    fills = c("score", "tail", "start_numerator", "start_denominator", "start_place", "rank", "of", "p")
  )
)
# The lines that are no test.
OTHER <- paste0(
  "^(district-audit [12]|source|columns|key|units|population|max-cut|max-split|max-splits|",
  "group-districts|group-share|frozen|cut-length|max-length|cut-weight|walks|stop [0-9]+$|shift|end$)"
)

# Returns the lines of a text, which must end with a line end.
lines_of <- function(text) {
  if (!endsWith(text, "\n")) {
    refuse("ReportRefused", "the text is empty, or its last line does not end")
  }
  strsplit(text, "\n", fixed = TRUE)[[1]]
}

#' Reads a report
#'
#' @param text The text of a report, as the program prints it.
#' @return An object of class `audit_report`, a list with `text`, `lines`, `tests` (the data frame
#'   that `as.data.frame` returns), and `shift`, nine counts or NULL. The data frame has a row for
#'   each line of a test, and the columns of the Python package's frames. Of a walk or a pair,
#'   `in_tail` of `visited` plans are as extreme as the enacted plan, and `bound` is the report's.
#'   Of the other tests, `rank` of `of` is the enacted plan's rank, and `p` the p-value. The exact
#'   score is `start_numerator / start_denominator`. Raises an error of class `ReportRefused`, with
#'   the line.
#' @export
audit_report <- function(text) {
  lines <- lines_of(text)
  if (!grepl("^district-audit [12]$", lines[1]) || lines[length(lines)] != "end") {
    refuse("ReportRefused", "the text does not begin with district-audit and end with end")
  }
  known <- grepl(OTHER, lines)
  rows <- lapply(seq_along(lines), function(at) {
    if (known[at]) NULL else read_line(lines[at], at)
  })
  tests <- do.call(rbind, c(list(empty_row()[0, ]), Filter(Negate(is.null), rows)))
  rownames(tests) <- NULL
  shift <- grep("^shift ", lines, value = TRUE)
  structure(class = "audit_report", list(
    text = text, lines = lines, tests = tests,
    shift = if (length(shift) == 1) shift_of(shift)
  ))
}

named <- function(values, names) {
  names(values) <- names
  values
}

empty_row <- function() {
  row <- as.data.frame(named(as.list(rep(NA_real_, length(FRAME))), FRAME))
  for (name in c("test", "ask", "score", "tail")) row[[name]] <- NA_character_
  row
}

# Returns the row of one line of a test.
read_line <- function(line, at) {
  kind <- sub(" .*", "", line)
  found <- if (kind %in% names(FORMS)) regmatches(line, regexec(paste0(FORMS[[kind]]$form, "$"), line))[[1]]
  if (length(found) == 0) {
    refuse("ReportRefused", "line ", at, " has no form of a report: ", line)
  }
  row <- empty_row()
  for (place in seq_along(FORMS[[kind]]$fills)) {
    name <- FORMS[[kind]]$fills[place]
    value <- found[place + 1]
    row[[name]] <- if (name %in% c("score", "tail")) value else as.numeric(value)
  }
  row$test <- kind
  row$ask <- paste0(row$score, ":", row$tail)
  row$start <- row$start_numerator / row$start_denominator
  row$share <- row$in_tail / row$visited
  row
}

# Returns the counts of visited plans by their difference in seats.
shift_of <- function(line) {
  counts <- as.numeric(strsplit(line, " ", fixed = TRUE)[[1]][-1])
  named(counts, c("-4 or below", "-3", "-2", "-1", "0", "1", "2", "3", "4 or above"))
}

#' @export
as.data.frame.audit_report <- function(x, row.names = NULL, optional = FALSE, ...) x$tests

#' @export
print.audit_report <- function(x, ...) {
  cat(x$text)
  invisible(x)
}

#' @export
as.character.audit_report <- function(x, ...) x$text
