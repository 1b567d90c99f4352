# Reports with the record of their call, and several reports of one question.

# Returns a report with its call, its warnings and the source of its limits.
new_report <- function(report, call, warnings, limits_from) {
  report$call <- call
  report$warnings <- warnings
  report$limits_from <- limits_from
  report
}

# Returns several reports of one question by name; `kind` is election, plan or limit.
new_reports <- function(reports, names, kind) {
  structure(unname(reports), names = names, kind = kind, class = c("audit_reports", "list"))
}

#' @export
as.data.frame.audit_reports <- function(x, row.names = NULL, optional = FALSE, ...) {
  frames <- lapply(names(x), function(name) {
    tests <- x[[name]]$tests
    cbind(named(list(rep(name, nrow(tests))), attr(x, "kind")), tests, stringsAsFactors = FALSE)
  })
  found <- do.call(rbind, frames)
  rownames(found) <- NULL
  found
}

#' @export
print.audit_reports <- function(x, ...) {
  for (name in names(x)) cat(attr(x, "kind"), " ", name, "\n", x[[name]]$text, sep = "")
  invisible(x)
}
