# Calls: the words of the program, its errors as conditions, and what is refused before.

test_that("each value is passed as the program takes it", {
  words <- districtaudit:::words_of("run", districtaudit:::rules_of(list(
    tolerance = 0.05, cut_weight = 33.25, max_length = 1717986918000000, steps = 1e9, pairs = TRUE,
    shift = FALSE, ask = c(seats = "low", gap = "high"), population = "P"
  )))
  given <- words[-1][c(FALSE, TRUE)]
  names(given) <- words[-1][c(TRUE, FALSE)]
  expect_equal(given[["--slack"]], "500")
  expect_equal(given[["--cut-weight"]], "33.25")
  expect_equal(given[["--max-length"]], "1717986918000000")
  expect_equal(given[["--steps"]], "1000000000")
  expect_equal(given[c("--pairs", "--shift")], c("--pairs" = "yes", "--shift" = "no"))
  expect_equal(given[["--ask"]], "seats:low,gap:high")
  expect_equal(given[["--pop"]], "P")
})

test_that("no word is read by a shell", {
  skip_without_program()
  units <- small_units()
  strange <- "a 'b' \"$HOME\" `id`; \\ * \u00e9\n|"
  names(units)[names(units) == "a"] <- strange
  map <- prepare_small(units, first = strange)
  text <- audit_check(map, source = TRUE)$text
  # As FORMATS says of a column's name: a JSON text.
  expected <- "columns \"pop\" \"a 'b' \\\"$HOME\\\" `id`; \\\\ * \u00e9\\n|\" \"b\" \"d\"\n"
  expect_match(text, expected, fixed = TRUE)
})

test_that("each end of the program is a condition", {
  skip_without_program()
  map <- prepare_small()
  fails <- function(code, class, status, line, labels = "") {
    end <- tryCatch(code, error = identity)
    expect_s3_class(end, class)
    expect_s3_class(end, "AuditError")
    expect_equal(end$status, status)
    expect_equal(end$line, line)
    expect_equal(end$labels, labels)
    invisible(end)
  }
  fails(audit_check(map, wrong = 1), "WordsRefused", 1L, "words: unknown name --wrong")
  fails(audit_run(map, "zz", "cut-edges:low"), "WordsRefused", 1L, "words: bad value for --key")
  fails(audit_run(map, KEY, "cut-edges:low", pairs = TRUE), "WordsRefused", 1L, "words: pairs need two walks")
  # Each district is two lines of six squares, so its border with the next one has six sides.
  fails(audit_check(map, max_cut = 11), "GraphRefused", 2L, "plan: 12 cut edges, more than 11")
  units <- small_units()
  units$pop[1] <- 9000
  fails(
    audit_check(prepare_small(units)), "GraphRefused", 2L,
    "plan: district 0 has population 20000, outside 11734 to 17600", "district 0 is 1"
  )
  broken <- tempfile()
  writeLines("{", broken)
  fails(do.call(audit_check, c(broken, GRID)), "GraphRefused", 2L, "graph: not JSON")
  folder <- tempfile()
  dir.create(folder)
  run <- function(...) {
    quietly(audit_run(map, KEY, "cut-edges:low", walks = 3, steps = 50, save = 1, folder = folder, ...))
  }
  end <- fails(run(budget = 2), "WorkLeft", 7L, "stopped: 2 of 3 done")
  expect_equal(c(end$done, end$total), c(2, 3))
  expect_error(run(), "resume = TRUE goes on", class = "ArgumentRefused")
  whole <- quietly(audit_run(map, KEY, "cut-edges:low", walks = 3, steps = 50))
  expect_identical(run(resume = TRUE)$text, whole$text)
  expect_identical(run(overwrite = TRUE)$text, whole$text)
  other <- tryCatch(run(resume = TRUE, max_cut = 30), error = identity)
  expect_s3_class(other, "CheckpointRefused")
  expect_match(other$line, "^checkpoint: other job ")
})

test_that("arguments are refused before a call", {
  map <- prepare_small()
  refused <- function(code, pattern) expect_error(code, pattern, class = "ArgumentRefused")
  refused(audit_check(map, tolerance = 5), "0.05 is 5 percent")
  refused(audit_check(map, tolerance = 0.1, slack = 10), "slack is given twice")
  refused(audit_check(map, 5), "an argument has no name")
  refused(audit_check(map, slack = NA), "slack has no value, or NA")
  refused(audit_check(map, slack = 1:2), "slack must be one value")
  refused(audit_check(map, slack = list(1)), "slack must not be of class list")
  refused(audit_trace(map, KEY, "seats:low", ids = c(0, 2)), "ids must be one id, or a range")
  refused(audit_check("no such file"), "graph must be what audit_prepare")
  refused(audit_plans("no such file", 1, KEY, "seats:low"), "graph must be what audit_prepare")
  refused(audit_trace("no such file", KEY, "seats:low"), "graph must be what audit_prepare")
  refused(audit_plans(map, 1:36, KEY, "seats:low"), "plans must be a matrix")
  expect_error(audit_plans(map, matrix(1:2, 35, 2), KEY, "gap:low"), "35 rows, and the map 36", class = "PrepareRefused")
  expect_error(audit_plans(map, matrix(1:2, 36, 2), KEY, "gap:low"), "has 2 districts, and the enacted plan 3", class = "PrepareRefused")
  named <- matrix(small_units()$d, 36, 1, dimnames = list(c("x", 1:35), "plan"))
  expect_error(audit_plans(map, named, KEY, "gap:low"), "not the map's ids: x", class = "PrepareRefused")
})

test_that("a program that is missing is named", {
  before <- options(districtaudit.program = "/no/such/program")
  on.exit(options(before))
  expect_error(find_program(), "there is no program /no/such/program", class = "ProgramFailed")
  expect_error(audit_check(prepare_small()), class = "ProgramFailed")
})

test_that("NULL drops a column or rule of the prepared map", {
  skip_without_program()
  units <- small_units()
  units$county <- paste("county", units$column)
  map <- prepare_small(units, region = "county", max_cut = 20)
  expect_match(audit_check(map)$text, "max-split 200 regions 6")
  expect_match(audit_check(map)$text, "max-cut 20")
  expect_false(grepl("max-", audit_check(map, region = NULL, max_cut = NULL)$text))
})

test_that("the table of districts has their people and votes", {
  skip_without_program()
  table <- audit_check(prepare_small())$districts
  expect_equal(table$district, 1:3)
  expect_equal(table$units, rep(12, 3))
  expect_equal(table$population, rep(12000, 3))
  # The votes of a unit rise by ten from one line of six squares to the next, from 210 on.
  expect_equal(table$first, c(2580, 2820, 3060))
  expect_equal(table$second, rep(2760, 3))
})
