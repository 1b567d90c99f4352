# Missing values: refused, made 0 or left out, as by the Python package.

# Returns the small units with values that are missing: votes of two units, people of one, a county of
# one, and the district of a corner.
gaps <- function() {
  units <- small_units()
  units$county <- paste("county", (units$column + 1) %/% 2)
  units$a[c(10, 36)] <- NA
  units$pop[1] <- NA
  units$b[16] <- NaN
  units
}

GAPS <- list(
  zero = list(gaps, list(missing = "zero")),
  drop = list(gaps, list(missing = "drop")),
  drop_a_county = list(function() { u <- gaps(); u$county[6] <- NA; u }, list(missing = "drop", region = "county")),
  drop_a_district = list(function() { u <- gaps(); u$d[36] <- NA; u }, list(missing = "drop")),
  drop_and_round = list(
    function() { u <- gaps(); u$b[5] <- 7.25; u }, list(missing = "drop", numbers = "nearest")
  ),
  zero_and_round = list(
    function() { u <- gaps(); u$b[5] <- 7.25; u }, list(missing = "zero", numbers = "nearest")
  )
)
GAP_COLUMNS <- list(population = "pop", first = "a", second = "b", district = "d", slack = 3000)
GAP_CALL <- list(key = KEY, ask = c("seats:low", "cut-edges:low"), steps = 3000, source = TRUE)

# Writes units as a graph whose missing values are null.
write_gaps <- function(units) {
  path <- tempfile(fileext = ".json")
  rows <- lapply(small_neighbors(), function(row) data.frame(id = units$id[row]))
  writeLines(jsonlite::toJSON(
    list(directed = FALSE, multigraph = FALSE, nodes = units, adjacency = rows),
    auto_unbox = TRUE, digits = NA, na = "null"
  ), path)
  path
}

# Returns the lines of the changes of a prepared map, as python_call.py writes them.
change_lines <- function(map) {
  vapply(map$custody$changes, function(one) {
    paste(one$kind, paste(districtaudit:::as_plain(one$units), collapse = " "), one$moved, sep = "|")
  }, "")
}

test_that("missing values become what the Python package makes of them", {
  skip_without_program()
  paths <- lapply(GAPS, function(gap) write_gaps(gap[[1]]()))
  jobs <- unlist(lapply(names(GAPS), function(name) {
    prepare <- c(GAP_COLUMNS, GAPS[[name]][[2]])
    list(
      list(command = "run", graph = paths[[name]], prepare = prepare, call = GAP_CALL),
      list(command = "changes", graph = paths[[name]], prepare = prepare)
    )
  }), recursive = FALSE)
  python <- by_python_all(jobs)
  # `0` and `0.0` are one number.
  plain <- function(lines) sort(sub("[.]0+$", "", lines))
  for (at in seq_along(GAPS)) {
    name <- names(GAPS)[at]
    map <- quietly(do.call(audit_read, c(paths[[name]], GAP_COLUMNS, GAPS[[name]][[2]])))
    report <- quietly(do.call(audit_run, c(list(map), GAP_CALL)))
    without_source <- function(text) sub("source [^\n]*\n", "", text)
    expect_identical(without_source(report$text), without_source(python[[2 * at - 1]]$text), info = name)
    expect_equal(plain(change_lines(map)), plain(python[[2 * at]]$lines), info = name)
  }
})

test_that("units that are left out are named, and the others keep their neighbors and lengths", {
  units <- gaps()
  long <- lapply(small_neighbors(), function(row) rep(7, length(row)))
  map <- quietly(prepare_small(units, id = "id", missing = "drop", length = "long", lengths = long))
  expect_equal(map$left_out, c("u11", "u42", "u43", "u66"))
  expect_equal(length(map$ids), 32)
  # Each pair of units that stay and are neighbors by their squares, counted here anew.
  stays <- !units$id %in% map$left_out
  expect_equal(map$ids, units$id[stays])
  expect_equal(lapply(map$adjacency, sort), small_neighbors(units[stays, ]))
  expect_equal(lengths(map$lengths), lengths(map$adjacency))
  expect_equal(unique(unlist(map$lengths)), 7)
  expect_output(print(map), "units left out, for missing values: 4: u11, u42, u43, u66")
  zero <- quietly(prepare_small(units, id = "id", missing = "zero"))
  expect_equal(zero$data$a[c(10, 36)], c(0, 0))
  expect_equal(zero$data$pop[1], 0)
  expect_equal(zero$changes$from, c(NA_real_, NA, NA, NaN))
  expect_equal(zero$changes$to, rep(0, 4))
  expect_equal(length(zero$left_out), 0)
  expect_output(print(zero), "0 values made whole, 4 missing values made 0")
  expect_equal(zero$custody$arguments$missing, "zero")
})

test_that("what cannot be made 0 or left out is refused", {
  refused <- function(change, pattern, ...) {
    expect_error(quietly(prepare_small(change(small_units()), id = "id", ...)), pattern, class = "PrepareRefused")
  }
  refused(function(u) { u$d[4] <- NA; u }, "a label is missing in 1 units: u41 .missing = \"drop\" leaves", missing = "zero")
  refused(function(u) { u$pop <- NA_real_; u }, "no unit has a value in the column pop", missing = "zero")
  refused(function(u) { u$a <- NA; u }, "no unit has a value in the column a", missing = "drop")
  refused(function(u) { u$a[1:18] <- NA; u$b[19:36] <- NA; u }, "all would be left out", missing = "drop")
  refused(function(u) { u$f <- rep(c(1, NA), 18); u }, "column f: a value is missing in 18 units", freeze = "f", missing = "drop")
  refused(function(u) { u$id[3] <- " "; u }, "an id is missing in the rows 3", missing = "drop")
  refused(function(u) { u$a[2] <- NA; u }, "join must be a list of pairs of ids", missing = "drop", join = list(c("u21", "u66")))
  # A text that stands for a missing value would be a district of its own.
  for (text in c("NA", "nan", "None", " n/a ")) {
    refused(function(u) { u$d <- as.character(u$d); u$d[4] <- text; u }, "a label reads as a missing value in 1 units: u41", missing = "drop")
  }
  expect_error(prepare_small(missing = "keep"), "should be one of")
})

test_that("a plan without ids is not matched by rows with a map from which units were left out", {
  map <- quietly(prepare_small(gaps(), id = "id", missing = "drop"))
  expect_error(
    audit_plans(map, matrix(small_units()$d, 36, 1), KEY, "gap:low"), "36 rows, and the map 32 units",
    class = "PrepareRefused"
  )
})

test_that("a unit that is left out needs no polygon", {
  skip_if_not_installed("sf")
  units <- small_units()
  units$a[8] <- NA
  shapes <- lapply(seq_len(36), function(at) {
    corner <- 500 * c(units$column[at], units$row[at])
    if (at == 8) return(sf::st_polygon())
    sf::st_polygon(list(cbind(corner[1] + 500 * c(0, 1, 1, 0, 0), corner[2] + 500 * c(0, 0, 1, 1, 0))))
  })
  map <- sf::st_sf(units, geometry = sf::st_sfc(shapes, crs = 26918))
  made <- quietly(audit_prepare(map, "pop", "a", "b", "d", id = "id", slack = 2000, length = "long", missing = "drop"))
  expect_equal(lapply(made$adjacency, sort), small_neighbors(units[-8, ]))
  # 60 sides of 500 meters, without the four of the unit that is left out.
  expect_equal(sum(unlist(made$lengths)) / 2, 56 * 500)
})
