# One audit under several limits.

# The limits that may be varied.
VARIED <- c("max_cut", "max_length", "max_split", "max_splits", "max_split_regions", "slack", "cut_weight")

#' Audits a plan under several limits
#'
#' Calls [audit_run()] for each value of one limit, with the same key: does the result hang on the
#' limit? Each number is a test. Announce one limit as the one that decides, or multiply the least
#' number by how many there are.
#'
#' @inheritParams audit_run
#' @param ... The options of [audit_run()], of which one limit has several values: `max_cut`,
#'   `max_length`, `max_split`, `max_splits`, `max_split_regions`, `slack` or `cut_weight`, as
#'   `max_cut = c(280, 320, 400)`. The default of a limit stands for none: 400000 for `max_cut`, 64
#'   for `cut_weight`. `save`, `resume` and several elections are not taken.
#' @return An object of class `audit_reports`: a list of reports, named as `"max_cut=280"`, in the
#'   order of the limits. `as.data.frame` is one table, `autoplot` one picture, and
#'   [audit_to_files()] writes one study, of which the Python package makes one page. Errors are those
#'   of [audit_run()], and begin with the limit. The least value is audited first, so a limit that the
#'   plan breaks is mostly refused at once.
#' @export
audit_over_limits <- function(graph, key, ask, ..., limits_from = NULL) {
  given <- list(key = key, ask = ask, ...)
  name <- varied_limit(given)
  need_election(graph, options_of(graph, given[names(given) != name]), "audit_over_limits")
  values <- unique(given[[name]])
  names <- paste0(name, "=", vapply(values, word_of, "", name = name))
  warned <- list()
  reports <- list()
  for (at in order(values)) {
    given[[name]] <- values[at]
    reports[[names[at]]] <- withCallingHandlers(
      tryCatch(do.call(audit_run, c(list(graph), given, list(limits_from = limits_from))), AuditError = function(why) {
        why$message <- paste0(names[at], ": ", conditionMessage(why))
        stop(why)
      }),
      MapWarning = function(one) {
        one$limit <- names[at]
        warned <<- c(warned, list(one))
        invokeRestart("muffleWarning")
      }
    )
  }
  warn_all(name_limits(warned, length(values)))
  new_reports(reports[names], names, "limit")
}

# Returns warnings each once; those that are not of all limits begin with their limits.
name_limits <- function(warned, count) {
  texts <- vapply(warned, conditionMessage, "")
  lapply(which(!duplicated(texts)), function(at) {
    of <- vapply(warned[texts == texts[at]], `[[`, "", "limit")
    one <- warned[[at]]
    if (length(of) < count) one$message <- paste0(paste(of, collapse = ", "), ": ", texts[at])
    one
  })
}

# Returns the name of the limit that has several values; refuses a call that is none of several limits.
varied_limit <- function(given) {
  several <- names(given)[lengths(given) > 1 & names(given) != "ask"]
  is_one <- length(several) == 1 && several %in% VARIED && is.numeric(given[[several]])
  if (!is_one || anyNA(given[[several]]) || length(unique(given[[several]])) < 2) {
    refuse(
      "ArgumentRefused", "one limit has several values, of ", paste(VARIED, collapse = ", "),
      ", as max_cut = c(280, 320, 400)", if ("tolerance" %in% several) "; slack takes several, tolerance one"
    )
  }
  for (name in intersect(c("elections", "folder", "overwrite", "save", "resume"), names(given))) {
    refuse(
      "ArgumentRefused", "audit_over_limits() has no ", name,
      if (name == "elections") ": call it for each election, with first and second"
    )
  }
  several
}
