# Slips of a new user, each with the condition that it must give.

test_that("lengths of polygons are those of the common sides, and an island is joined by ids", {
  skip_if_not_installed("sf")
  skip_without_program()
  map <- prepare_map(small_map(island = TRUE), length = "long")
  expect_equal(map$islands, "u66")
  expect_error(audit_check(map), "u66", class = "GraphRefused")
  expect_output(print(map), "units without a neighbor: 1: u66")
  joined <- prepare_map(small_map(island = TRUE), length = "long", join = list(c("u66", "u56")))
  # 12 sides of 500 meters lie between the three districts, but one end of them is the island.
  expect_match(audit_check(joined)$text, "cut-length 6000")
  expect_equal(sum(unlist(joined$lengths)) / 2, 58 * 500)
  expect_equal(max(joined$parts), 1)
  refused <- function(pair, pattern) {
    expect_error(prepare_map(small_map(island = TRUE), join = list(pair)), pattern, class = "PrepareRefused")
  }
  refused(c("u66", "u99"), "are not two ids of units")
  refused(c("u66", "u66"), "cannot be joined to itself")
})

test_that("a district that is cut apart is told with its units, and with the pair that joins it", {
  skip_if_not_installed("sf")
  skip_without_program()
  # A bay between the columns 3 and 4 reaches from the last row down to row 3: 3 units of each row are
  # 1000 meters off. District 3, of rows 5 and 6, and district 2, of rows 3 and 4, are cut apart.
  units <- small_units()
  side <- 500
  shapes <- lapply(seq_len(36), function(at) {
    corner <- side * c(units$column[at], units$row[at]) + c(if (units$column[at] > 3 && units$row[at] > 3) 2 * side else 0, 0)
    if (units$row[at] == 3) return(sf::st_polygon(list(cbind(
      corner[1] + side * c(0, if (units$column[at] == 6) 3 else 1, if (units$column[at] == 6) 3 else 1, 0, 0),
      corner[2] + side * c(0, 0, 1, 1, 0)
    ))))
    sf::st_polygon(list(cbind(corner[1] + side * c(0, 1, 1, 0, 0), corner[2] + side * c(0, 0, 1, 1, 0))))
  })
  map <- prepare_map(sf::st_sf(units, geometry = sf::st_sfc(shapes, crs = 26918)))
  line <- paste0(
    "district 3 is in 2 parts; 6 of its 12 units lie apart: u45, u55, u65, u46, u56, u66; nearest to",
    " the rest are \"u45\" and \"u35\""
  )
  expect_equal(map$apart, line)
  expect_output(print(map), line, fixed = TRUE)
  end <- tryCatch(audit_check(map), error = identity)
  expect_s3_class(end, "GraphRefused")
  expect_match(conditionMessage(end), line, fixed = TRUE)
  joined <- prepare_map(sf::st_sf(units, geometry = sf::st_sfc(shapes, crs = 26918)), join = list(c("u45", "u35")))
  expect_length(joined$apart, 0)
  expect_s3_class(audit_check(joined), "audit_plan_check")
  # Without polygons no distance is known.
  rows <- small_neighbors()
  rows[[36]] <- integer()
  rows[c(30, 35)] <- lapply(rows[c(30, 35)], setdiff, 36)
  expect_equal(prepare_small(adjacency = rows, id = "id")$apart, "district 3 is in 2 parts; 1 of its 12 units lie apart: u66")
})

test_that("a stray label of a district is told with its units", {
  skip_without_program()
  units <- small_units()
  units$d[36] <- 99
  map <- prepare_small(units, id = "id")
  # One unit is a ninth of the usual nine, and no slip.
  expect_equal(map$stray, NULL)
  place <- expand.grid(column = 1:12, row = 1:12)
  units <- data.frame(
    place, id = paste0("u", seq_len(144)), pop = 1000, a = 200, b = 230, d = ifelse(place$row > 6, 2, 1)
  )
  units$d[c(143, 144)] <- 99
  rows <- lapply(small_neighbors(units), as.integer)
  map <- prepare_small(units, id = "id", adjacency = rows)
  line <- "district 99 has 2 units alone, of 3 districts: u143, u144; is its label a slip?"
  expect_equal(map$stray, line)
  expect_output(print(map), line, fixed = TRUE)
  expect_match(tryCatch(audit_check(map), error = conditionMessage), line, fixed = TRUE)
})

test_that("a refused word comes with what to write", {
  skip_without_program()
  map <- prepare_small(max_cut = 30)
  refused <- function(code, pattern) expect_error(code, pattern, fixed = TRUE, class = "WordsRefused")
  refused(audit_run(map, "the announced text", "gap:low"), "bad value for --key: 64 hexadecimal digits, as audit_key() makes")
  refused(audit_run(map, KEY, "seats"), "bad value for --ask: a score and a tail, as \"seats:low\"")
  refused(audit_run(map, KEY, "gap:low", step = 5), "unknown name --step: the program's `run --help` lists the options")
})

test_that("a print says what a map lacks: limits, raw files", {
  units <- small_units()
  units$county <- paste("county", units$column)
  units$g <- 300
  units$g[c(2, 36)] <- 1001
  shown <- capture.output(print(prepare_small(units, region = "county", group = "g", id = "id")))
  expect_true("rules: slack=2000" %in% shown)
  expect_true("votes: first a, second b" %in% shown)
  expect_true("units with more in g than in pop: 2: u21, u66" %in% shown)
  expect_true("region county limits nothing yet, without max_split or max_splits or max_split_regions" %in% shown)
  expect_true("group g limits nothing yet, without group_districts" %in% shown)
  expect_true("raw files: none is named (files =), so no manifest has their SHA-256" %in% shown)
  path <- tempfile(fileext = ".gpkg")
  writeLines("raw", path)
  shown <- capture.output(print(prepare_small(units, region = "county", max_splits = 40, files = path)))
  expect_false(any(grepl("limits nothing", shown)))
  expect_true(paste("raw files:", basename(path)) %in% shown)
  expect_true("rules: slack=2000, max_splits=40" %in% shown)
  units[c("c", "e")] <- 1
  given <- list(A = c("a", "b"), "B 2" = c("c", "e"))
  shown <- capture.output(print(prepare_small(units, first = NULL, second = NULL, elections = given, slack = NULL)))
  expect_true("rules: slack=500" %in% shown)
  expect_true("votes: A first a, second b; B 2 first c, second e" %in% shown)
})

test_that("a check says of which election its votes are", {
  skip_without_program()
  units <- small_units()
  units$c <- 1
  units$e <- 2
  map <- prepare_small(units, first = NULL, second = NULL, elections = list(X = c("a", "b"), Y = c("c", "e")))
  expect_output(print(audit_check(map)), "first is a, second is b")
  expect_output(print(audit_check(map, first = "c", second = "e")), "first is c, second is e")
})

test_that("ids above 99999 keep their digits in changes", {
  units <- small_units()
  units$id <- 99998 + seq_len(36)
  units$a[2] <- 210.25
  map <- quietly(prepare_small(units, id = "id", numbers = "nearest"))
  expect_equal(map$changes$unit, "100000")
  expect_equal(map$custody$changes[[1]]$units, 100000)
})

test_that("polygons that mislead are refused, or have a warning", {
  skip_if_not_installed("sf")
  degrees <- small_map(side = 0.25, crs = 4326)
  expect_equal(classes_of(prepare_map(degrees, length = "long")), "CoordinatesInDegrees")
  apart <- small_map()
  shrunk <- lapply(sf::st_geometry(small_map()), function(one) (one - sf::st_centroid(one)) * 0.995 + sf::st_centroid(one))
  sf::st_geometry(apart) <- sf::st_sfc(shrunk, crs = 26918)
  expect_warning(prepare_map(apart), class = "BordersNotShared")
  kilometers <- small_map(side = 0.7)
  expect_warning(prepare_map(kilometers, length = "long"), class = "LengthsRounded") |> suppressWarnings()
  points <- sf::st_set_geometry(small_map(), sf::st_centroid(sf::st_geometry(small_map())))
  expect_error(prepare_map(points), "no polygon: u11", class = "PrepareRefused")
  bow <- small_map()
  bow$geometry[[8]] <- sf::st_polygon(list(500 * cbind(c(0, 1, 0, 1, 0), c(0, 0, 1, 1, 0))))
  expect_error(prepare_map(bow), "1 units have an invalid polygon: u22", class = "PrepareRefused")
  bow$geometry[[8]] <- sf::st_polygon()
  expect_error(prepare_map(bow), "1 units have no geometry: u22", class = "PrepareRefused")
})

test_that("a column that is not what it should be is refused by its name", {
  refused <- function(change, pattern, ..., class = "PrepareRefused") {
    expect_error(prepare_small(change(small_units()), id = "id", ...), pattern, class = class)
  }
  refused(function(u) { u$a[3] <- NA; u }, "column a: a value is missing in 1 units: u31")
  refused(function(u) { u$pop <- factor(u$pop); u }, "column pop is of class factor")
  refused(function(u) { u$pop[3] <- 999.5; u }, "column pop: a value is not whole .* u31")
  refused(function(u) { u$id[2] <- "u11"; u }, "several units have the id u11")
  refused(identity, "both parties' votes are the column a", second = "a")
  refused(identity, "is named as that of districts and of people", district = "pop")
  refused(identity, "group_of is given without group", group_of = "a", class = "ArgumentRefused")
  refused(identity, "for 50 percent write group_share = 5000", group = "a", group_share = 0.5, class = "ArgumentRefused")
  refused(identity, "for 5 percent write slack = 500", slack = 0.05, class = "ArgumentRefused")
  refused(function(u) u[0, ], "the map has no rows", adjacency = list())
})

test_that("a factor of districts is its labels", {
  units <- small_units()
  units$d <- factor(units$d, levels = c("3", "2", "1"), labels = c("south", "middle", "north"))
  map <- prepare_small(units)
  expect_equal(unique(map$data$d), c("north", "middle", "south"))
})

test_that("a redist_map's own tolerance is the audit's", {
  units <- small_units()
  units$adj <- lapply(small_neighbors(), function(row) as.integer(row - 1))
  map <- structure(
    units, class = c("redist_map", "data.frame"), pop_col = "pop", adj_col = "adj",
    existing_col = "d", ndists = 3L, pop_bounds = 12000 * c(0.98, 1, 1.02)
  )
  expect_equal(audit_prepare(map, first = "a", second = "b")$rules$slack, "200")
  expect_equal(audit_prepare(map, first = "a", second = "b", slack = 50)$rules$slack, "50")
})

test_that("plans are matched by ids, whatever the order, and labels above 9 keep theirs", {
  map <- prepare_small(id = "id")
  plan <- (small_units()$column + 1) %/% 2
  frame <- data.frame(id = small_units()$id, p = plan, stringsAsFactors = FALSE)
  table <- districtaudit:::table_of(map, frame[36:1, ], "same")
  expect_match(table, "\"u66\",\"3\"\n\"u56\",\"3\"\n\"u46\",\"2\"", fixed = TRUE)
  expect_error(districtaudit:::table_of(map, rbind(frame[-1, ], frame[2, ]), "same"), "twice", class = "PrepareRefused")
  twice <- cbind(p = plan, p = plan)
  expect_error(districtaudit:::table_of(map, twice, "same"), "several plans have the name p", class = "PrepareRefused")
  # Texts are ordered by their bytes, so 10 would come before 9.
  expect_equal(districtaudit:::padded(c(9, 10)), c("09", "10"))
  expect_equal(districtaudit:::padded(c("A", "10")), c("A", "10"))
  named <- districtaudit:::plan_names(map, matrix(plan, 36, 2, dimnames = list(NULL, c("my plan", ""))))
  expect_equal(named, c("my plan", "plan2"))
})

test_that("lengths that are given are read as they are, and refused by edge", {
  rows <- small_neighbors()
  long <- lapply(rows, function(row) rep(7, length(row)))
  map <- prepare_small(length = "long", lengths = long)
  expect_match(map$json, "{\"long\": 7, \"id\": 2}", fixed = TRUE)
  refused <- function(change, pattern) {
    expect_error(prepare_small(length = "long", lengths = change(long), id = "id"), pattern, class = "PrepareRefused")
  }
  refused(function(l) { l[[1]][1] <- NA; l }, "edge u11 - u21: long is missing")
  refused(function(l) { l[[1]][1] <- 8; l }, "edge u11 - u21: long is another one in the other direction")
  refused(function(l) { l[[1]][1] <- -1; l }, "is not from 0 to 4294967295")
  refused(function(l) l[-1], "a list as adjacency is")
  expect_error(prepare_small(length = "long"), "lengths is missing", class = "PrepareRefused")
  expect_error(prepare_small(lengths = long), "lengths is given without length", class = "ArgumentRefused")
})
