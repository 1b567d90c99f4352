# Maps: what is written, and what is refused.

test_that("a map becomes the graph that networkx reads", {
  units <- small_units()
  units$id[1] <- "a \"b\" \\ \u00e9\n"
  units$pop[2] <- 1e9
  map <- quietly(prepare_small(units, id = "id"))
  graph <- jsonlite::fromJSON(map$json, simplifyMatrix = FALSE)
  expect_equal(graph$nodes$id, units$id)
  expect_equal(graph$nodes$pop, units$pop)
  expect_match(map$json, "\"pop\": 1000000000,", fixed = TRUE)
  expect_equal(graph$nodes$d, units$d)
  expect_equal(graph$adjacency[[1]]$id, units$id[c(2, 7)])
  path <- audit_write(map, tempfile())
  expect_equal(readChar(path, file.size(path), useBytes = TRUE), map$json, ignore_attr = TRUE)
})

test_that("values that are missing or no counts are refused by unit", {
  units <- small_units()
  refused <- function(change, pattern, ...) {
    expect_error(prepare_small(change(units), id = "id", ...), pattern, class = "PrepareRefused")
  }
  refused(function(u) { u$pop[8] <- NA; u }, "column pop: a value is missing in 1 units: u22")
  refused(function(u) { u$a[1:2] <- NaN; u }, "column a: a value is missing in 2 units: u11, u21")
  refused(function(u) { u$b[3] <- 1.5; u }, "column b: a value is not whole .* u31")
  refused(function(u) { u$b[3] <- -1; u }, "column b: a value is not from 0 to 1000000000 in 1 units: u31")
  refused(function(u) { u$b[3] <- 1e9 + 1; u }, "not from 0 to 1000000000")
  refused(function(u) { u$b[3] <- Inf; u }, "not from 0 to 1000000000")
  refused(function(u) { u$pop <- as.character(u$pop); u }, "column pop is of class character")
  refused(function(u) { u$d[4] <- NA; u }, "column d: a label is missing in 1 units: u41")
  refused(function(u) { u$d[4] <- 1.5; u }, "column d: a label is no whole number")
  refused(function(u) { u$d <- as.character(u$d); u$d[4] <- "01"; u }, "column d: labels look alike: \"1\", \"01\"")
  refused(function(u) { u$d <- u$d > 1; u }, "column d must have texts or whole numbers")
  refused(function(u) { u$id[2] <- "u11"; u }, "several units have the id u11")
  refused(function(u) { u$id[2] <- NA; u }, "an id is missing")
  refused(function(u) { u$f <- rep(c(TRUE, NA), 18); u }, "column f: a value is missing", freeze = "f")
  refused(identity, "the map has no column Pop; there is pop", population = "Pop")
  expect_error(audit_prepare(list(), "pop", "a", "b", "d"), "must be a data frame", class = "PrepareRefused")
  expect_error(audit_prepare(units, first = "a", second = "b"), class = "ArgumentRefused")
})

test_that("numbers = \"nearest\" rounds, and tells each change", {
  units <- small_units()
  units$a[1:3] <- c(1.5, 2.5, 7.2)
  map <- quietly(prepare_small(units, id = "id", numbers = "nearest"))
  expect_equal(map$changes, data.frame(
    unit = c("u11", "u21", "u31"), column = "a", from = c(1.5, 2.5, 7.2), to = c(2, 2, 7),
    stringsAsFactors = FALSE
  ))
})

test_that("neighbors may be places from 0 or 1, or of spdep", {
  ones <- small_neighbors()
  expected <- prepare_small()$json
  expect_identical(prepare_small(adjacency = lapply(ones, function(row) row - 1))$json, expected)
  expect_identical(prepare_small(adjacency = structure(ones, class = "nb"))$json, expected)
  refused <- function(adjacency, pattern) {
    expect_error(prepare_small(adjacency = adjacency), pattern, class = "PrepareRefused")
  }
  refused(ones[-1], "each of the 36 units, not of 35")
  refused(c(list(c(0, 2)), ones[-1]), "neither from 0 nor from 1")
  refused(c(list(c(2, 37)), ones[-1]), "no place of a unit")
  refused(c(list(2), ones[-1]), "unit 7 lists unit 1, which does not list it")
  expect_error(
    audit_prepare(small_units(), "pop", "a", "b", "d"), "adjacency is missing",
    class = "PrepareRefused"
  )
})

test_that("neighbors of an sf map share a line, or with queen a point", {
  skip_if_not_installed("sf")
  units <- small_units()
  squares <- lapply(seq_len(36), function(at) {
    x <- units$column[at]
    y <- units$row[at]
    sf::st_polygon(list(cbind(x + c(0, 1, 1, 0, 0), y + c(0, 0, 1, 1, 0))))
  })
  map <- sf::st_sf(units, geometry = sf::st_sfc(squares))
  read <- audit_prepare(map, "pop", "a", "b", "d", slack = 2000)
  expect_equal(lapply(read$adjacency, sort), small_neighbors())
  queen <- audit_prepare(map, "pop", "a", "b", "d", queen = TRUE)
  # 60 common sides, and two diagonals at each of the 25 inner corners.
  expect_equal(sum(lengths(queen$adjacency)) / 2, 60 + 2 * 25)
  skip_if_not_installed("spdep")
  nb <- spdep::poly2nb(map, queen = FALSE)
  expect_identical(audit_prepare(map, "pop", "a", "b", "d", adjacency = nb)$json, read$json)
})

test_that("a redist_map brings its neighbors and columns", {
  units <- small_units()
  units$adj <- lapply(small_neighbors(), function(row) as.integer(row - 1))
  map <- structure(
    units, class = c("redist_map", "data.frame"), pop_col = "pop", adj_col = "adj",
    existing_col = "d", ndists = 3L
  )
  expect_identical(audit_prepare(map, first = "a", second = "b")$json, prepare_small()$json)
})
