#' Walks without showing a score
#'
#' Shows how far walks lead and how long a run will take, but nothing of any score, so that nobody can
#' choose by one. Use it to choose the steps of a run, its slack and its limits before the run is
#' announced, and disclose it as a pilot.
#'
#' @param graph What [audit_prepare()] returned.
#' @param steps The steps of each walk of the pilot.
#' @param announced The steps of a walk of the run, whose time is estimated.
#' @param walks The number of walks of the pilot.
#' @param key A key of the pilot, and never that of the run. NULL is that of the text `pilot`.
#' @param ... Slack and rules, as for [audit_check()]; no questions.
#' @return An object of class `audit_pilot`, a list with `units`, `steps`, `moved` (the steps of each
#'   walk that changed the plan), `changed` (the units whose district at its end is another one than
#'   in the enacted plan), `seconds` (the processor time of a step) and `announced`.
#' @export
audit_pilot <- function(graph, steps = 1e6, announced = 1e9, walks = 2, key = NULL, ...) {
  if (!inherits(graph, "audit_map")) {
    refuse("ArgumentRefused", "graph must be what audit_prepare() returned")
  }
  given <- list(...)
  if (any(names(given) %in% c("ask", "scores", "elections"))) {
    refuse("ArgumentRefused", "a pilot asks no question")
  }
  key <- if (is.null(key)) audit_key("pilot") else key
  pair <- if (is.null(graph$elections)) list() else as.list(named(graph$elections[[1]], c("first", "second")))
  walk <- function(...) {
    before <- proc.time()
    given <- c(list(graph, key, "cut-edges:low"), list(...), pair, given)
    trace <- withCallingHandlers(do.call(audit_trace, given), NoCompactnessLimit = function(one) {
      invokeRestart("muffleWarning")
    })
    list(trace = trace, seconds = sum((proc.time() - before)[c("user.child", "sys.child")]))
  }
  # The time of a walk of one step is that of the start.
  start <- walk(walks = 1, steps = 1, thin = 1)$seconds
  walked <- walk(walks = walks, ids = seq_len(walks) - 1, steps = steps, thin = steps)
  at_end <- attr(walked$trace, "plans")$step == steps
  plans <- unclass(walked$trace)[, at_end, drop = FALSE]
  enacted <- match(graph$data[[graph$columns$district]], attr(walked$trace, "districts"))
  structure(class = "audit_pilot", list(
    units = length(graph$ids), steps = steps, moved = attr(walked$trace, "plans")$moved[at_end],
    changed = unname(colSums(plans != enacted)),
    seconds = max(0, walked$seconds - start) / (walks * steps), announced = announced
  ))
}

#' @export
print.audit_pilot <- function(x, ...) {
  cat(paste0(
    "walk ", seq_along(x$moved) - 1, ": ", digits(x$moved), " of ", digits(x$steps), " steps changed the",
    " plan; at its end ", x$changed, " of ", x$units, " units lie in another district than at its",
    " start\n"
  ), sep = "")
  seconds <- round(x$seconds * x$announced)
  cat(
    "a walk of ", digits(x$announced), " steps takes ",
    if (seconds < 1) "less than a second" else paste("about", seconds, "seconds"), " on one processor\n",
    sep = ""
  )
  if (2 * max(x$changed) < x$units) {
    cat("less than half of the units changed: longer walks compare with more different plans\n")
  }
  invisible(x)
}
