#' Draws a report
#'
#' A method of ggplot2's generic `autoplot`. It shows each bound of a walk or pair and each p-value, a
#' row for each question and test, on a logarithmic axis from 0.001 or less to 1. Bounds above 1 say
#' nothing and stand at 1.
#'
#' @param object An `audit_report`, or `audit_reports`: with a panel for each election or plan; of
#'   several limits with a panel for each question and test, and a row for each limit.
#' @param ... Not used.
#' @return An object of ggplot2.
#' @exportS3Method ggplot2::autoplot
autoplot.audit_report <- function(object, ...) draw_tests(number_rows(object$tests), "question and test")

#' @rdname autoplot.audit_report
#' @exportS3Method ggplot2::autoplot
autoplot.audit_reports <- function(object, ...) {
  kind <- attr(object, "kind")
  rows <- number_rows(as.data.frame(object))
  # Reports keep their order: the enacted plan first, limits as they were given.
  rows[[kind]] <- factor(rows[[kind]], unique(names(object)))
  if (kind != "limit") {
    return(draw_tests(rows, "question and test") + ggplot2::facet_wrap(stats::reformulate(kind), ncol = 1))
  }
  rows$panel <- factor(rows$row, rev(levels(rows$row)))
  rows$row <- factor(rows$limit, rev(levels(rows$limit)))
  draw_tests(rows, "limit") + ggplot2::facet_wrap(~panel, ncol = 1)
}

# Returns a row for each number, with the number that is drawn and the name of its row.
number_rows <- function(tests) {
  tests$number <- pmin(ifelse(is.na(tests$p), tests$bound, tests$p), 1)
  names <- paste(tests$ask, tests$test)
  # The vertical axis begins below.
  tests$row <- factor(names, rev(unique(names[order(match(tests$ask, unique(tests$ask)))])))
  tests
}

draw_tests <- function(rows, title) {
  # In aes() this stands for the data; it is set here for checkers, which find no such variable.
  .data <- NULL
  # A bound is rounded up, so it is never 0.
  ggplot2::ggplot(rows, ggplot2::aes(.data[["number"]], .data[["row"]], shape = .data[["test"]])) +
    ggplot2::geom_vline(xintercept = 0.05, linetype = "dashed", colour = "gray50") +
    ggplot2::geom_point(size = 3) +
    # Open shapes: where two numbers are equal, neither is hidden.
    ggplot2::scale_shape_manual(values = c(walk = 1, pair = 0, ends = 5, stop = 5, serial = 2)) +
    ggplot2::scale_x_log10(
      limits = c(min(0.001, rows$number), 1), breaks = c(10^(-9:-3), 0.01, 0.05, 0.2, 1),
      labels = function(at) format(at, drop0trailing = TRUE, scientific = FALSE, trim = TRUE)
    ) +
    ggplot2::labs(
      x = "bound or p-value", y = title, shape = "test",
      caption = "Bounds above 1 say nothing and stand at 1. Dashed: 0.05."
    )
}
