# One audit under several limits: its reports, table and study are those of the Python package.

LIMIT_CALL <- list(key = KEY, ask = c("gap:high", "cut-edges:low"), walks = 2, steps = 2000, ends = 9, hub_steps = 500)
# The grid's enacted plan has 125 cut edges.
LIMITS_TRIED <- list(
  max_cut = c(300, 140, 400000), cut_weight = c(40, 33.25, 64), slack = c(1000, 500, 2000)
)

grid_map <- function(...) quietly(audit_read(sample_graph("grid.json"), "TOTPOP", "DEM", "REP", "CD", ...))

over_grid <- function(..., graph = grid_map(slack = 1000)) {
  given <- c(list(graph), LIMIT_CALL)
  more <- list(...)
  given[names(more)] <- more
  do.call(audit_over_limits, given)
}

test_that("reports under several limits, and their table, are those of the Python package", {
  skip_without_program()
  jobs <- lapply(names(LIMITS_TRIED), function(name) {
    list(
      command = "over_limits", graph = sample_graph("grid.json"), prepare = c(GRID, slack = 1000),
      call = c(LIMIT_CALL, LIMITS_TRIED[name])
    )
  })
  python <- by_python_all(jobs)
  for (at in seq_along(LIMITS_TRIED)) {
    found <- quietly(do.call(over_grid, LIMITS_TRIED[at]))
    expect_s3_class(found, "audit_reports")
    expect_equal(attr(found, "kind"), "limit")
    text <- paste0("limit ", names(found), "\n", vapply(found, `[[`, "", "text"), collapse = "")
    expect_identical(text, python[[at]]$text)
    expected <- utils::read.csv(text = python[[at]]$lines, stringsAsFactors = FALSE)
    frame <- as.data.frame(found)
    expect_equal(nrow(frame), nrow(expected))
    for (column in c("limit", "test", "ask", "moved", "in_tail", "bound", "rank", "of", "p")) {
      expect_equal(frame[[column]], as.vector(expected[[column]], typeof(frame[[column]])), info = column)
    }
  }
  expect_equal(names(found), c("slack=1000", "slack=500", "slack=2000"))
})

test_that("the study of several limits is verified, and becomes one page on which one limit decides", {
  skip_without_program()
  skip_if_not_installed("digest")
  folder <- tempfile("limits-")
  dir.create(folder)
  path <- file.path(folder, "limits.txt")
  found <- quietly(over_grid(max_cut = c(300, 140, 400000), limits_from = "older plans"))
  audit_to_files(found, path, decides = "max_cut=140 ends gap:high")
  expect_setequal(
    list.files(folder),
    c(paste0("limits.txt.max_cut_", c("300", "140", "400000")), paste0("limits.txt", c(".graph.json", ".changes.csv", ".manifest.json")))
  )
  manifest <- paste0(path, ".manifest.json")
  expect_true(all(audit_verify(manifest, raw = dirname(sample_graph("grid.json")))$agrees))
  made <- jsonlite::fromJSON(manifest, simplifyVector = FALSE)
  expect_equal(made$kind, "limit")
  expect_equal(vapply(made$reports, function(one) one$names[[1]], ""), names(found))
  jobs <- lapply(c("verify", "exhibit"), function(command) {
    list(command = command, graph = manifest, call = if (command == "verify") list(program = find_program()))
  })
  python <- by_python_all(jobs)
  expect_length(grep("^(report|words|graph|program|changes) True$", python[[1]]$lines), 3 + 3 + 1 + 1 + 1)
  expect_length(grep("False$", python[[1]]$lines), 0)
  page <- python[[2]]$text
  expect_match(page, "3 audits of this plan, which differ in one limit alone: max_cut=300, max_cut=140, max_cut=400000")
  expect_match(page, "the p-value of the parallel test on gap:high, limit max_cut=140")
  expect_false(grepl("The page does not know of a number", page))
  expect_error(audit_to_files(found, path, decides = "ends gap:high"), "more than one number", class = "ArgumentRefused")
})

test_that("a call of several limits is refused where it is none", {
  map <- grid_map(slack = 1000)
  refused <- function(pattern, ...) expect_error(over_grid(..., graph = map), pattern, class = "ArgumentRefused")
  refused("one limit has several values, of max_cut")
  refused("one limit has several values", max_cut = 300)
  refused("one limit has several values", max_cut = c(300, 300))
  refused("one limit has several values", max_cut = c(300, NA))
  refused("one limit has several values", max_cut = c(300, 140), slack = c(500, 1000))
  refused("one limit has several values", steps = c(100, 200))
  refused("slack takes several, tolerance one", tolerance = c(0.05, 0.1))
  refused("has no save", max_cut = c(300, 140), save = 1)
  refused("has no folder", max_cut = c(300, 140), folder = tempdir())
  refused("has no elections: call it for each election", max_cut = c(300, 140), elections = list(A = c("DEM", "REP")))
  several <- quietly(audit_read(
    sample_graph("grid.json"), "TOTPOP", district = "CD", elections = list(A = c("DEM", "REP")), slack = 1000
  ))
  expect_error(over_grid(max_cut = c(300, 140), graph = several), "give first = \"DEM\", second = \"REP\"", class = "ArgumentRefused")
})

test_that("a limit that the plan breaks is named, and the least is tried first", {
  skip_without_program()
  end <- tryCatch(quietly(over_grid(max_cut = c(300, 124, 100))), error = identity)
  expect_s3_class(end, "GraphRefused")
  expect_match(conditionMessage(end), "^max_cut=100: plan: 125 cut edges, more than 100")
  expect_equal(end$status, 2L)
})

test_that("warnings of several limits are each given once, and each report keeps its own", {
  skip_without_program()
  found <- character()
  said <- character()
  reports <- withCallingHandlers(
    over_grid(max_cut = c(125, 300, 400000)), MapWarning = function(one) {
      found <<- c(found, class(one)[1])
      said <<- c(said, conditionMessage(one))
      invokeRestart("muffleWarning")
    }
  )
  # 125 is the enacted plan's own number, and without a limit a question on votes means little.
  expect_setequal(found, c("LimitAtOwnNumber", "NoCompactnessLimit", "FrozenWalk"))
  expect_match(said[found == "LimitAtOwnNumber"], "^max_cut=125: max_cut=125, and the enacted plan has 125")
  expect_match(said[found == "NoCompactnessLimit"], "^max_cut=400000: gap:high: no rule")
  # Limits of 300 and more hinder none of these short walks, which are the same.
  expect_match(said[found == "FrozenWalk"], "^max_cut=(125|300, max_cut=400000): walk ", all = TRUE)
  all <- quietly(over_grid(cut_weight = c(40, 33)))
  expect_length(all, 2)
  kinds <- lapply(reports, function(one) vapply(one$warnings, function(two) class(two)[1], ""))
  expect_equal(unname(kinds), list("LimitAtOwnNumber", character(), "NoCompactnessLimit"))
})

test_that("the picture of several limits has a row for each, in their order, and hides no number", {
  skip_if_not_installed("ggplot2")
  skip_without_program()
  found <- quietly(over_grid(max_cut = c(300, 140, 400000)))
  plot <- ggplot2::autoplot(found)
  built <- ggplot2::ggplot_build(plot)
  points <- built$data[[2]]
  frame <- as.data.frame(found)
  expect_equal(nrow(points), nrow(frame))
  expect_equal(10^points$x, pmin(ifelse(is.na(frame$p), frame$bound, frame$p), 1))
  # The axis goes up, so the first limit is the last level.
  expect_equal(levels(plot$data$row), c("max_cut=400000", "max_cut=140", "max_cut=300"))
  expect_equal(levels(plot$data$panel), c("gap:high walk", "gap:high ends", "cut-edges:low walk", "cut-edges:low ends"))
  expect_equal(as.numeric(points$y), 4 - match(frame$limit, c("max_cut=300", "max_cut=140", "max_cut=400000")))
  expect_equal(built$layout$panel_params[[1]]$x.range[2] >= 0, TRUE)
})
