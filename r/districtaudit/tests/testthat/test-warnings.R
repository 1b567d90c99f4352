# Numbers that mean nothing: the warnings are those of the Python package.

SLIPS <- list(
  none = list(identity, character()),
  no_people = list(function(u) { u$pop <- 0; u$a <- 0; u$b <- 1; u }, c("NoPeople", "MoreVotesThanPeople")),
  district_without_people = list(
    function(u) { u$pop[u$d == 2] <- 0; u[u$d == 2, c("a", "b")] <- 0; u },
    c("DistrictWithoutPeople", "DistrictWithoutVotes")
  ),
  district_without_votes = list(function(u) { u[u$d == 3, c("a", "b")] <- 0; u }, "DistrictWithoutVotes"),
  more_votes_than_people = list(function(u) { u$a <- 900; u }, "MoreVotesThanPeople"),
  a_unit_with_more_votes = list(function(u) { u$a[5] <- 1800; u }, "MoreVotesThanPeople"),
  rounded = list(function(u) { u$a <- u$a / 100 + 0.4; u }, c("ColumnRounded", "DistrictRounded")),
  district_rounded = list(function(u) { u$a <- u$a + 0.25; u }, "DistrictRounded"),
  shares = list(function(u) { u$a <- u$row / 10; u }, "SharesNotCounts"),
  percentages = list(function(u) { u$pop <- 2000; u$a <- 10.5; u }, "PercentagesNotCounts"),
  sums_of_percentages = list(
    function(u) { u$a <- 50 + 5 * u$row + 0.25; u$b <- 100 - u$a; u },
    c("PercentagesNotCounts", "DistrictRounded")
  ),
  all_frozen = list(function(u) { u$f <- 1; u }, "AllUnitsFrozen", list(freeze = "f")),
  a_frozen_district = list(
    function(u) { u$f <- as.integer(u$d == 1); u }, "DistrictFrozen", list(freeze = "f")
  ),
  a_district_that_cannot_change = list(
    function(u) { u$f <- as.integer(u$row <= 3); u }, c("DistrictFrozen", "DistrictCannotChange"),
    list(freeze = "f")
  ),
  # The three districts are two rows each: 12 cut edges, and no column of six units in one district.
  limit_on_cut_edges = list(identity, "LimitAtOwnNumber", list(max_cut = 12)),
  limit_near_the_own_number = list(identity, "LimitAtOwnNumber", list(max_cut = 13)),
  limit_off_the_own_number = list(identity, character(), list(max_cut = 14)),
  limit_on_districts_in_a_region = list(
    identity, "LimitAtOwnNumber", list(region = "column", max_split = 3)
  ),
  # Six regions in three districts each are 12 splits of 6 regions.
  limit_on_splits = list(
    identity, "LimitAtOwnNumber", list(region = "column", max_splits = 12, max_split_regions = 8)
  ),
  limit_on_split_regions = list(
    identity, "LimitAtOwnNumber", list(region = "column", max_split_regions = 6)
  ),
  limit_on_majorities = list(
    function(u) { u$g <- ifelse(u$d == 1, 600, 400); u }, "LimitAtOwnNumber",
    list(group = "g", group_districts = 1)
  )
)

# Writes units as they are, for the Python package.
write_raw <- function(units) {
  path <- tempfile(fileext = ".json")
  rows <- lapply(small_neighbors(), function(row) data.frame(id = units$id[row]))
  text <- jsonlite::toJSON(
    list(directed = FALSE, multigraph = FALSE, nodes = units, adjacency = rows),
    auto_unbox = TRUE, digits = NA
  )
  writeLines(text, path)
  path
}

# Returns the classes of the Python package's warnings of all slips, which one call makes.
python_warnings <- function() {
  jobs <- lapply(SLIPS, function(slip) {
    more <- if (length(slip) > 2) slip[[3]] else list()
    list(command = "warnings", graph = write_raw(slip[[1]](small_units())), prepare = c(
      list(population = "pop", first = "a", second = "b", district = "d", numbers = "nearest"), more
    ))
  })
  lapply(by_python_all(jobs), function(one) unique(as.character(one$lines)))
}

test_that("each slip has the warnings of the Python package", {
  python <- python_warnings()
  for (name in names(SLIPS)) expect_setequal(python[[name]], SLIPS[[name]][[2]])
})

for (name in names(SLIPS)) {
  test_that(paste("a slip has its warning:", name), {
    slip <- SLIPS[[name]]
    units <- slip[[1]](small_units())
    more <- if (length(slip) > 2) slip[[3]] else list()
    classes <- classes_of(map <- do.call(prepare_small, c(list(units, numbers = "nearest", slack = 500), more)))
    expect_setequal(classes, slip[[2]])
    expect_setequal(unique(vapply(map$warnings, function(one) class(one)[1], "")), slip[[2]])
    expect_setequal(vapply(map$custody$warnings, `[[`, "", "kind"), slip[[2]])
  })
}

# Slips of polygons: how the small map is changed, and the warnings.
SHAPE_SLIPS <- list(
  none = list(function() small_map(), character()),
  borders_that_are_drawn_apart = list(function() {
    map <- small_map()
    shrink <- function(one) (one - sf::st_centroid(one)) * 0.995 + sf::st_centroid(one)
    sf::st_geometry(map) <- sf::st_sfc(lapply(sf::st_geometry(map), shrink), crs = 26918)
    map
  }, "BordersNotShared"),
  degrees = list(function() small_map(side = 0.25, crs = 4326), "CoordinatesInDegrees"),
  degrees_without_a_coordinate_system = list(function() small_map(side = 0.25, crs = sf::NA_crs_), "CoordinatesInDegrees"),
  lengths_in_kilometers = list(function() small_map(side = 0.625), "LengthsRounded")
)

for (name in names(SHAPE_SLIPS)) {
  test_that(paste("a slip of polygons has its warning:", name), {
    skip_if_not_installed("sf")
    map <- SHAPE_SLIPS[[name]][[1]]()
    expect_setequal(classes_of(prepare_map(map, length = "long")), SHAPE_SLIPS[[name]][[2]])
  })
}

# Slips of a call: its arguments, and the warnings.
CALL_SLIPS <- list(
  none = list(list(ask = "seats:low", max_cut = 30), character()),
  partisan_question_without_a_limit = list(list(ask = "seats:low"), "NoCompactnessLimit"),
  limit_at_the_own_number = list(list(ask = "seats:low", max_cut = 13), "LimitAtOwnNumber"),
  # 50 counts hundredths of a percent. All three districts have more.
  share_of_a_group_in_percent = list(
    list(ask = "cut-edges:low", group_share = 50, group_districts = 1), "SmallGroupShare"
  ),
  walk_that_changes_little = list(list(ask = "cut-edges:low", steps = 10), "FrozenWalk")
)

for (name in names(CALL_SLIPS)) {
  test_that(paste("a slip of a call has its warning:", name), {
    skip_without_program()
    units <- small_units()
    units$g <- 300
    map <- prepare_small(units, group = "g")
    given <- c(list(map, KEY), CALL_SLIPS[[name]][[1]])
    if (is.null(given$steps)) given$steps <- 5000
    expect_setequal(classes_of(do.call(audit_run, given)), CALL_SLIPS[[name]][[2]])
  })
}

test_that("a partisan question without a limit on compactness has a warning", {
  skip_without_program()
  map <- prepare_small()
  ask <- function(...) classes_of(audit_run(map, KEY, steps = 5000, ...))
  expect_equal(ask(ask = "seats:low"), "NoCompactnessLimit")
  expect_equal(ask(ask = c("cut-edges:low", "gap:high")), "NoCompactnessLimit")
  expect_equal(ask(ask = "cut-edges:low"), character())
  expect_equal(ask(ask = "seats:low", max_cut = 30), character())
  expect_equal(ask(ask = "seats:low", cut_weight = 40), character())
  expect_equal(ask(ask = "seats:low", max_cut = 400000), "NoCompactnessLimit")
})

test_that("a walk that hardly changes the plan has a warning", {
  skip_without_program()
  map <- prepare_small()
  expect_equal(classes_of(audit_run(map, KEY, "cut-edges:low", steps = 10)), "FrozenWalk")
  expect_equal(classes_of(audit_run(map, KEY, "cut-edges:low", steps = 5000)), character())
  said <- tryCatch(audit_run(map, KEY, "cut-edges:low", steps = 10), FrozenWalk = conditionMessage)
  # No more than ten steps can change the plan.
  expect_match(said, "^walk 0 changed the plan [0-9]+ times in 10 steps")
})

test_that("limits_from silences the warning of a limit, and is kept", {
  skip_without_program()
  map <- prepare_small()
  ask <- function(...) audit_run(map, KEY, "cut-edges:low", steps = 5000, max_cut = 12, ...)
  expect_equal(classes_of(report <- ask()), c("LimitAtOwnNumber", "FrozenWalk"))
  expect_s3_class(report$warnings[[1]], "LimitAtOwnNumber")
  expect_equal(classes_of(report <- ask(limits_from = "law")), "FrozenWalk")
  expect_equal(report$limits_from, "law")
  expect_length(report$warnings, 0)
  expect_error(ask(limits_from = ""), "limits_from is a text", class = "ArgumentRefused")
  # What a map was prepared with is told once.
  map <- quietly(prepare_small(max_cut = 13))
  expect_equal(classes_of(audit_check(map)), character())
  expect_equal(classes_of(audit_check(map, max_cut = 12)), "LimitAtOwnNumber")
})

test_that("a share of a group below one percent has a warning", {
  units <- small_units()
  units$g <- 300
  expect_equal(classes_of(prepare_small(units, group = "g", group_share = 50)), "SmallGroupShare")
  expect_equal(classes_of(prepare_small(units, group = "g", group_share = 5000)), character())
})
