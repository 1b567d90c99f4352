# The polygons of a map, and the lengths of their common borders. sf does all geometry.

MOST_LENGTH <- 4294967295
# Below this part of shared borders, neighbors and lengths are wrong.
LEAST_SHARED <- 0.9

# Returns the polygons of the units that stay, in a plane. Refuses what is no polygon, by unit.
shapes_of <- function(map, units) {
  if (!requireNamespace("sf", quietly = TRUE)) {
    refuse("PrepareRefused", "the package sf is missing: install it, or give adjacency")
  }
  # Neighbors are a matter of shared points, and the same in any plane.
  shapes <- suppressWarnings(sf::st_set_crs(sf::st_geometry(map), NA))[units$at]
  say <- function(bad, what, hint = "") {
    if (any(bad)) {
      refuse("PrepareRefused", sum(bad), " units ", what, ": ", shown(units$ids[bad]), hint)
    }
  }
  say(sf::st_is_empty(shapes), "have no geometry")
  kinds <- as.character(sf::st_geometry_type(shapes))
  say(!kinds %in% c("POLYGON", "MULTIPOLYGON"), "have a geometry that is no polygon")
  valid <- sf::st_is_valid(shapes)
  say(is.na(valid) | !valid, "have an invalid polygon", " (sf::st_make_valid() repairs most)")
  shapes
}

# Returns the length of the boundary that each two units have in common, by their places.
common_lengths <- function(lines, others = lines) {
  left <- sf::st_sf(one = seq_along(lines), geometry = lines)
  right <- sf::st_sf(other = seq_along(others), geometry = others)
  both <- suppressWarnings(sf::st_intersection(left, right))
  both <- both[both$one != both$other, ]
  data.frame(one = both$one, other = both$other, length = as.numeric(sf::st_length(both)))
}

# Returns the lengths of the borders to each unit's neighbors, in the order of `rows`.
lengths_of_borders <- function(shapes, rows) {
  found <- common_lengths(sf::st_boundary(shapes))
  unit <- factor(rep(seq_along(rows), lengths(rows)), seq_along(rows))
  long <- found$length[match(paste(unit, unlist(rows)), paste(found$one, found$other))]
  long[is.na(long)] <- 0
  unname(split(long[seq_along(unit)], unit))
}

# Returns the part of the borders between neighbors that both polygons have.
#
# The borders are the parts of the boundaries that are within a hundredth of a unit's usual width of
# the other polygon. Neighbors that are drawn apart share nothing of these.
measure_shared <- function(shapes) {
  areas <- sort(as.numeric(sf::st_area(shapes)))
  width <- sqrt(areas[length(areas) %/% 2 + 1]) / 100
  lines <- sf::st_boundary(shapes)
  same <- common_lengths(lines)
  near <- common_lengths(lines, sf::st_buffer(lines, width, nQuadSegs = 4))
  pair_of <- function(found) paste(pmin(found$one, found$other), pmax(found$one, found$other))
  near <- tapply(near$length, pair_of(near), sum)
  same <- tapply(same$length, pair_of(same), mean)
  # Behind each end of a border the lines are near for another width, and so at a corner.
  long <- as.vector(near) / 2 - 2 * width
  both <- as.vector(same[names(near)])
  both[is.na(both)] <- 0
  whole <- sum(pmax(both, ifelse(long > 6 * width, long, 0)))
  if (whole > 0) min(1, sum(both) / whole) else 1
}

# Returns the warnings of polygons that do not meet, and those of lengths in degrees.
border_warnings <- function(shapes, in_degrees) {
  found <- list()
  if (in_degrees) {
    found <- list(new_warning(
      "CoordinatesInDegrees", "the map's coordinates are degrees, in which lengths mean nothing:",
      " project it first, as sf::st_transform(map, 5070) does for the United States"
    ))
  }
  shared <- measure_shared(shapes)
  if (shared < LEAST_SHARED) {
    found <- c(found, list(new_warning(
      "BordersNotShared", "only ", sprintf("%.1f", 100 * shared), " percent of the borders between",
      " neighbors are lines that both polygons have, so that neighbors are missing and lengths are",
      " wrong: repair the map, or give adjacency"
    )))
  }
  found
}

# Returns whether coordinates are longitudes and latitudes. Without a coordinate system they are
# taken for such if all are in their range and most are no whole numbers.
are_degrees <- function(map, shapes) {
  if (!is.na(sf::st_crs(map))) {
    return(isTRUE(sf::st_is_longlat(map)))
  }
  corners <- vapply(shapes, function(shape) as.numeric(sf::st_bbox(shape)), numeric(4))
  in_range <- all(abs(corners[c(1, 3), ]) <= 180) && all(abs(corners[c(2, 4), ]) <= 90)
  in_range && 2 * sum(corners != floor(corners)) > length(corners)
}

# Returns lengths made whole, with the changes and warnings; refuses those that are no lengths.
whole_lengths <- function(name, given, rows, ids) {
  test_form(given, rows)
  test_lengths(name, given, rows, ids)
  whole <- lapply(given, round)
  before <- unlist(given)
  after <- unlist(whole)
  broken <- before != after
  if (!any(broken)) {
    return(list(long = whole, changes = list(), warnings = list()))
  }
  text <- paste0(
    "lengths of edges in ", name, ": ", sum(broken) / 2, " of ", length(before) / 2, " made whole by",
    " `nearest`, halves the even one, which changes their sum by ",
    signif(sum(after - before) / 2, 6)
  )
  lost <- sum(abs(after - before))
  list(
    long = whole, changes = list(new_change(text, is_of_values = TRUE)),
    warnings = if (lost * 100 > sum(before)) {
      list(new_warning(
        "LengthsRounded", "lengths of edges in ", name, ": making them whole changes them by ",
        signif(100 * lost / sum(before), 3), " percent in all; multiply them first, as to",
        " centimeters"
      ))
    }
  )
}

# Refuses lengths that have not one number for each neighbor.
test_form <- function(given, rows) {
  if (!is.list(given) || !identical(as.numeric(lengths(given)), as.numeric(lengths(rows)))) {
    refuse(
      "PrepareRefused", "lengths must be a list as adjacency is, with a length for each neighbor"
    )
  }
}

# Refuses lengths that are missing, out of range, or others in the other direction.
test_lengths <- function(name, given, rows, ids) {
  from <- rep(seq_along(rows), lengths(rows))
  to <- unlist(rows)
  long <- unlist(given)
  if (length(long) > 0 && !is.numeric(long)) {
    refuse("PrepareRefused", "lengths must be numbers, not of class ", class(long)[1])
  }
  say <- function(bad, what) {
    bad[is.na(bad)] <- TRUE
    if (any(bad)) {
      at <- which(bad)[1]
      refuse(
        "PrepareRefused", "edge ", as_plain(ids[from[at]]), " - ", as_plain(ids[to[at]]), ": ", name,
        what, " (", sum(bad), " such lengths)"
      )
    }
  }
  say(is.na(long), " is missing")
  say(long < 0 | round(long) > MOST_LENGTH, " is not from 0 to 4294967295")
  back <- long[match(paste(to, from), paste(from, to))]
  say(back != long, " is another one in the other direction")
}
