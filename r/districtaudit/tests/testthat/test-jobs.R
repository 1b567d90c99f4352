# The same jobs by this package and by the Python package: the reports are equal, byte for byte, and
# so are the numbers of the frames.

JOBS <- list(
  walks_and_ends = list("grid.json", c(GRID, slack = 1000), list(
    walks = 2, steps = 2000, ends = 19, hub_steps = 500, ask = c("seats:low", "gap:high", "cut-edges:low")
  )),
  pairs = list("grid.json", c(GRID, slack = 1000), list(
    walks = 5, steps = 1000, ask = c("cut-edges:low", "mean-median:high"), pairs = TRUE
  )),
  serial = list("grid.json", c(GRID, slack = 1000), list(steps = 127, ask = c("gap:low", "seats:high"), serial = TRUE)),
  early_stopping = list("grid.json", c(GRID, slack = 1000), list(
    ends = 60, hub_steps = 300, stop = 5, workers = 3, ask = c("gap:high", "cut-edges:high")
  )),
  histogram = list("grid.json", c(GRID, slack = 1000), list(walks = 2, steps = 3000, shift = TRUE, ask = c("seats:low", "seats:high"))),
  counties = list("groups.json", c(GROUPS, region = "county"), list(
    walks = 2, steps = 2000, max_splits = 2, max_split_regions = 2, ask = c("seats:low", "gap:low")
  )),
  majorities = list("groups.json", c(GROUPS, group = "bvap", group_of = "vap"), list(
    steps = 2000, ends = 9, group_districts = 2, group_share = 4500, ask = c("gap:low", "cut-edges:low")
  )),
  weight = list("grid.json", c(GRID, tolerance = 0.1), list(
    walks = 2, steps = 2000, cut_weight = 33.25, max_cut = 300, ask = c("seats:low", "cut-edges:high")
  )),
  lengths = list("grid.json", c(GRID, slack = 1000, length = "shared_perim"), list(
    walks = 2, steps = 2000, max_length = 150, pairs = TRUE, ask = c("cut-length:low", "seats:low")
  )),
  # Half a mile becomes 0, which is even.
  lengths_made_whole = list("counties.json", c(GROUPS, slack = 5000, length = "shared_perim"), list(
    steps = 500, ask = c("cut-length:high", "cut-edges:low")
  )),
  rounded = list("ny8.json", list(
    population = "POP8", first = "OWNING", second = "OTHERS", district = "PLAN8", numbers = "nearest",
    slack = 1000
  ), list(walks = 2, steps = 2000, ask = c("gap:high", "mean-median:low"))),
  texts_as_ids = list("counties.json", c(GROUPS, region = "county", slack = 5000), list(
    steps = 500, ends = 9, hub_steps = 100, max_split = 2, ask = c("seats:low", "cut-edges:low")
  ))
)

test_that("there are twelve jobs", {
  expect_length(JOBS, 12)
})

# Returns the Python package's answer to a job; all are made in one call.
python_job <- function(name) {
  if (is.null(FOUND$jobs)) {
    FOUND$jobs <- by_python_all(lapply(JOBS, function(job) {
      list(command = "run", graph = sample_graph(job[[1]]), prepare = job[[2]], call = c(job[[3]], key = KEY))
    }))
  }
  FOUND$jobs[[name]]
}

for (name in names(JOBS)) {
  test_that(paste("a report is that of the Python package:", name), {
    skip_without_program()
    job <- JOBS[[name]]
    path <- sample_graph(job[[1]])
    call <- c(job[[3]], key = KEY)
    python <- python_job(name)
    map <- quietly(do.call(audit_read, c(path, job[[2]])))
    report <- quietly(do.call(audit_run, c(list(map), call)))
    expect_identical(report$text, python$text)
    expected <- utils::read.csv(text = python$lines, stringsAsFactors = FALSE)
    frame <- as.data.frame(report)
    expect_equal(nrow(frame), nrow(expected))
    for (column in intersect(names(expected), names(frame))) {
      come <- frame[[column]]
      wanted <- as.vector(expected[[column]], typeof(come))
      expect_equal(is.na(come), is.na(wanted), info = column)
      expect_equal(come[!is.na(come)], wanted[!is.na(wanted)], info = column)
    }
    expect_true(all(c("in_tail", "visited", "rank", "of", "bound", "p") %in% names(expected)))
  })
}

test_that("a file goes to the program as it is, with its digest in the report", {
  skip_without_program()
  path <- sample_graph("groups.json")
  call <- c(GROUPS, list(key = KEY, ask = "gap:low", steps = 300, source = TRUE))
  python <- by_python("run", path, NULL, call)
  report <- quietly(do.call(audit_run, c(list(path), call)))
  expect_identical(report$text, python$text)
  # What FORMATS' example of this file says, which sha256sum gives, too.
  expect_match(report$text, "source sha256 6f9889bef0fe3f996cd3977c2b9b56981a3ba05c92f1c46f76faadf2ab9747d5 bytes 18851")
})

test_that("check and plans are those of the Python package", {
  skip_without_program()
  path <- sample_graph("grid.json")
  map <- quietly(do.call(audit_read, c(path, GRID, slack = 1000)))
  python <- by_python("check", path, c(GRID, slack = 1000), list(max_cut = 200))
  expect_identical(audit_check(map, max_cut = 200)$text, python$text)
  table <- in_repository("examples", "plans.csv")
  call <- list(key = KEY, ask = "cut-edges:low", steps = 500)
  python <- by_python("plans", path, c(GRID, slack = 1000), call, table)
  plans <- utils::read.csv(table, colClasses = "character")
  given <- as.matrix(plans[-1])
  rownames(given) <- plans$id
  # Units are matched by their ids, so the order of the rows does not count.
  reports <- quietly(audit_plans(map, given[rev(seq_len(nrow(given))), ], KEY, "cut-edges:low", steps = 500))
  text <- paste0("plan ", names(reports), "\n", vapply(reports, as.character, ""), collapse = "")
  expect_identical(text, python$text)
})

test_that("a trace has the plans of the Python package", {
  skip_without_program()
  path <- sample_graph("grid.json")
  call <- list(key = KEY, ask = c("seats:low", "cut-edges:low"), steps = 2500, ends = 2, walks = 1, hub_steps = 900)
  python <- by_python("trace", path, c(GRID, slack = 1000), c(call, list(ids = "0-2", thin = 500)))
  map <- quietly(do.call(audit_read, c(path, GRID, slack = 1000)))
  trace <- quietly(do.call(audit_trace, c(list(map), call, list(ids = 0:2, thin = 500))))
  labels <- vapply(python$lines, function(line) strsplit(line, " ")[[1]], character(300), USE.NAMES = FALSE)
  expect_equal(matrix(attr(trace, "districts")[trace], 300), labels)
  # Walk 0 has plans after 0, 500, .., 2500 steps; each of the two others after 0 and 500.
  expect_equal(ncol(trace), 6 + 2 * 2)
  every <- quietly(do.call(audit_trace, c(list(map), call, list(ids = 0:2, thin = 500, last = TRUE))))
  expect_equal(as.data.frame(every)$step[7:12], c(0, 500, 900, 0, 500, 900))
  frame <- as.data.frame(trace)
  expect_equal(frame$step[frame$trajectory == 0], c(0, 500, 1000, 1500, 2000, 2500))
  # The score of each plan, counted here from its districts.
  cut <- apply(trace, 2, function(plan) sum(vapply(seq_along(plan), function(unit) {
    sum(plan[map$adjacency[[unit]]] != plan[unit])
  }, 0)) / 2)
  expect_equal(frame[["cut-edges:low"]], unname(cut))
})
