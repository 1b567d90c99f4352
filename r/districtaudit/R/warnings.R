# Numbers of a map that mean nothing, or not what was meant, each as a warning.

PARTISAN <- c("seats", "mean-median", "gap")
# Options that limit how sprawling a plan may be, each with the value that limits nothing.
COMPACT <- c(max_cut = "400000", max_length = "1717986918000000", cut_weight = "64")

map_warnings <- function(map) {
  data <- map$data
  name <- map$columns
  people <- data[[name$pop]]
  district <- as_plain(data[[name$district]])
  of_votes <- lapply(pairs_of(map), function(pair) {
    votes <- data[[pair[1]]] + data[[pair[2]]]
    vote_warnings(votes, people, district, map$ids, paste(pair, collapse = " and "), name$pop)
  })
  c(
    if (!is.null(name$freeze)) frozen_warnings(map, district),
    people_warnings(people, district, name$pop),
    unlist(of_votes, recursive = FALSE),
    rounding_warnings(map),
    if (!is.null(name[["group"]])) share_warnings(map$rules),
    limit_warnings(map, c(map$columns, map$rules))
  )
}

# Returns the columns of both parties' votes, of each election.
pairs_of <- function(map) {
  if (is.null(map$elections)) list(c(map$columns$first, map$columns$second)) else unname(map$elections)
}

# Returns the labels of the districts whose values add up to 0.
empty_districts <- function(values, district) {
  sums <- tapply(values, district, sum)
  names(sums)[sums == 0]
}

people_warnings <- function(people, district, column) {
  if (sum(people) == 0) {
    return(list(new_warning(
      "NoPeople", "column ", column, ": the population is 0 in every unit, so that every plan is",
      " within the bounds on population"
    )))
  }
  empty <- empty_districts(people, district)
  if (length(empty) == 0) {
    return(list())
  }
  list(new_warning("DistrictWithoutPeople", "districts without people in ", column, ": ", shown(empty)))
}

vote_warnings <- function(votes, people, district, ids, both, column) {
  found <- list()
  empty <- empty_districts(votes, district)
  if (length(empty) > 0) {
    found <- list(new_warning(
      "DistrictWithoutVotes", "districts without votes in ", both,
      ", which nobody wins and which have no share: ", shown(empty)
    ))
  }
  if (sum(votes) > sum(people)) {
    found <- c(found, list(new_warning(
      "MoreVotesThanPeople", digits(sum(votes)), " votes in ", both, ", and ", digits(sum(people)),
      " people in ", column
    )))
  }
  over <- votes > 0 & votes >= 2 * people
  if (any(over)) {
    found <- c(found, list(new_warning(
      "MoreVotesThanPeople", "units with at least twice as many votes in ", both, " as people in ",
      column, ": ", sum(over), " of ", length(over), ": ", shown(ids[over])
    )))
  }
  found
}

# Returns the warnings of columns that are no counts, and of losses where fractions were made whole.
rounding_warnings <- function(map) {
  map$changes <- map$changes[!is.na(map$changes$from), ]
  found <- lapply(unique(map$changes$column), function(column) column_warnings(map, column))
  of_pairs <- lapply(pairs_of(map), function(pair) {
    sums <- before_of(map, pair[1]) + before_of(map, pair[2])
    if (any(pair %in% map$changes$column) && all(sums >= 99 & sums <= 101)) {
      list(new_warning(
        "PercentagesNotCounts", "columns ", pair[1], " and ", pair[2], " look like percentages and",
        " not like counts: they add up to 100 in each unit"
      ))
    }
  })
  unlist(c(found, of_pairs), recursive = FALSE)
}

# Returns a column's values before they were made whole.
before_of <- function(map, column) {
  changes <- map$changes[map$changes$column == column, ]
  values <- map$data[[column]]
  values[match(changes$unit, as_plain(map$ids))] <- changes$from
  values
}

column_warnings <- function(map, column) {
  before <- before_of(map, column)
  after <- map$data[[column]]
  if (all(before <= 1)) {
    return(list(new_warning(
      "SharesNotCounts", "column ", column, " looks like shares and not like counts: all its values",
      " are from 0 to 1, and made whole they say nothing"
    )))
  }
  people <- mean(map$data[[map$columns$pop]])
  if (all(before <= 100) && column != map$columns$pop && people > 1000) {
    return(list(new_warning(
      "PercentagesNotCounts", "column ", column, " may have percentages and not counts: all its",
      " values are from 0 to 100, and a unit has ", floor(people), " people on average"
    )))
  }
  loss_warnings(map, column, before, after)
}

# Returns warnings if rounding changes a column by more than one percent in all, or a district's
# total by more than one.
loss_warnings <- function(map, column, before, after) {
  found <- list()
  lost <- sum(abs(after - before))
  if (lost * 100 > sum(before)) {
    found <- list(new_warning(
      "ColumnRounded", "column ", column, ": making its values whole changes them by ",
      signif(100 * lost / sum(before), 3), " percent in all"
    ))
  }
  moved <- tapply(after - before, as_plain(map$data[[map$columns$district]]), sum)
  over <- names(moved)[abs(moved) > 1]
  if (length(over) > 0) {
    found <- c(found, list(new_warning(
      "DistrictRounded", "column ", column, ": making its values whole changes the total of ",
      length(over), " of ", length(moved), " districts by more than 1: ", shown(over)
    )))
  }
  found
}

share_warnings <- function(rules) {
  share <- suppressWarnings(as.numeric(if (is.null(rules$group_share)) 5000 else rules$group_share))
  if (is.na(share) || share >= 100) {
    return(list())
  }
  list(new_warning(
    "SmallGroupShare", "group_share=", share, " is ", share / 100, " percent, since it counts",
    " hundredths of a percent: for ", share, " percent write ", 100 * share, ", for a majority 5000"
  ))
}

# Returns a warning of a partisan question if no option limits compactness.
question_warnings <- function(options) {
  for (name in names(COMPACT)) {
    if (!is.null(options[[name]]) && options[[name]] != COMPACT[[name]]) {
      return(list())
    }
  }
  asks <- strsplit(if (is.null(options$ask)) "" else options$ask, ",", fixed = TRUE)[[1]]
  partisan <- asks[sub(":.*", "", asks) %in% PARTISAN]
  if (length(partisan) == 0) {
    return(list())
  }
  list(new_warning(
    "NoCompactnessLimit", paste(partisan, collapse = ", "), ": no rule limits compactness, so that",
    " most of the compared plans are far more sprawling than an enacted plan (max_cut, max_length",
    " or cut_weight limits this)"
  ))
}

# Returns the warnings of frozen units, which keep districts as they are.
frozen_warnings <- function(map, district) {
  column <- map$columns$freeze
  frozen <- map$data[[column]] > 0
  if (all(frozen)) {
    return(list(new_warning(
      "AllUnitsFrozen", "all units are frozen by ", column, ": no walk can change the plan"
    )))
  }
  around <- vapply(map$adjacency, function(places) all(frozen[places]), NA)
  whole <- names(which(tapply(frozen, district, all)))
  closed <- whole[vapply(whole, function(one) all(around[district == one]), NA)]
  c(
    if (length(whole) > 0) list(new_warning(
      "DistrictFrozen", "all units of these districts are frozen by ", column, ", so that no unit",
      " leaves them: ", shown(whole)
    )),
    if (length(closed) > 0) list(new_warning(
      "DistrictCannotChange", "no walk can change these districts, since the units around them are",
      " frozen, too: ", shown(closed)
    ))
  )
}

# The limits, each with the value that limits nothing and what it counts.
LIMITS <- list(
  max_cut = c("400000", "cut edges"), max_length = c("1717986918000000", "as the length of its cut edges"),
  max_split = c("200", "districts in one region"), max_splits = c("995000", "splits of regions"),
  max_split_regions = c("5000", "split regions"),
  group_districts = c("0", "districts with a majority of the group")
)

# Returns the enacted plan's own numbers, by the names of the limits that count them.
own_numbers <- function(map, options) {
  district <- map$data[[map$columns$district]]
  from <- rep(seq_along(map$adjacency), lengths(map$adjacency))
  cut <- district[from] != district[unlist(map$adjacency)]
  found <- list(max_cut = sum(cut) / 2)
  if (!is.null(options$length) && !is.null(map$lengths)) {
    found$max_length <- sum(unlist(map$lengths)[cut]) / 2
  }
  if (!is.null(options$region)) {
    regions <- tapply(as_plain(district), as_plain(map$data[[options$region]]), function(one) length(unique(one)))
    found$max_split <- max(regions)
    found$max_splits <- sum(regions) - length(regions)
    found$max_split_regions <- sum(regions > 1)
  }
  if (!is.null(options[["group"]])) {
    of <- if (is.null(options$group_of)) options$pop else options$group_of
    share <- as.numeric(if (is.null(options$group_share)) 5000 else options$group_share)
    sums <- rowsum(cbind(map$data[[options[["group"]]]], map$data[[of]]), as_plain(district))
    found$group_districts <- sum(10000 * sums[, 1] > share * sums[, 2])
  }
  found
}

# Returns a warning of each limit that is, or is nearly, the enacted plan's own number.
limit_warnings <- function(map, options) {
  set <- Filter(function(name) options[[name]] != LIMITS[[name]][1], intersect(names(LIMITS), names(options)))
  if (length(set) == 0 || !inherits(map, "audit_map")) {
    return(list())
  }
  own <- own_numbers(map, options)
  unlist(lapply(intersect(names(own), set), function(name) {
    limit <- suppressWarnings(as.numeric(options[[name]]))
    number <- own[[name]]
    is_near <- !is.na(limit) && (limit == number ||
      name != "group_districts" && number <= limit && 10 * (limit - number) < number)
    if (is_near) {
      list(new_warning(
        "LimitAtOwnNumber", name, "=", digits(limit), ", and the enacted plan has ", digits(number),
        " ", LIMITS[[name]][2], ": a limit made from the enacted plan makes it look extreme, and",
        " p-values false. Take limits from the law or from older plans, and if this one is, say",
        " limits_from = \"law\" or the like"
      ))
    }
  }), recursive = FALSE)
}

# Warns of walks that changed the plan never, or fewer times than there are units. The reports have
# the names of plans or elections, as `what` says.
warn_of_frozen <- function(reports, what = "") {
  said <- unlist(lapply(seq_along(reports), function(place) {
    few <- few_moves(reports[[place]])
    if (length(few) > 0 && nzchar(what)) paste0(what, " ", names(reports)[place], ": ", few) else few
  }))
  if (length(said) > 0) {
    why <- paste(
      "such walks say little about other plans, and nothing where they changed none: walk more steps,",
      "or loosen slack or the rules"
    )
    warn_all(list(new_warning("FrozenWalk", paste(c(said, why), collapse = "\n"))))
  }
}

# Returns which walks of a report made fewer moves than there are units, in words.
few_moves <- function(report) {
  walks <- unique(report$tests[report$tests$test == "walk", c("walk", "moved")])
  units <- as.numeric(sub("^units ([0-9]+) .*", "\\1", grep("^units ", report$lines, value = TRUE)[1]))
  few <- walks[walks$moved < units, ]
  if (nrow(few) == 0) {
    return(character())
  }
  least <- few[which.min(few$moved), ]
  steps <- sub("^walks [0-9]+ steps ([0-9]+) .*", "\\1", grep("^walks ", report$lines, value = TRUE)[1])
  paste0(
    "walk ", least$walk, " changed the plan ", digits(least$moved), " times in ", steps, " steps (", nrow(few), " of ",
    nrow(walks), " walks fewer times than there are units, ", units, ")"
  )
}

# Returns the warnings of a call that a map's own do not have; `known` is what was given before.
call_warnings <- function(graph, options, given, limits_from) {
  if (!is.null(limits_from) && (!is.character(limits_from) || length(limits_from) != 1 || is.na(limits_from) ||
                                !nzchar(trimws(limits_from)))) {
    refuse(
      "ArgumentRefused", "limits_from is a text on where the limits come from, as \"law\" or",
      " \"older plans\""
    )
  }
  found <- c(
    question_warnings(options),
    if (!is.null(given$group_share)) share_warnings(options),
    if (is.null(limits_from)) limit_warnings(graph, options)
  )
  of_map <- if (inherits(graph, "audit_map")) graph$warnings
  is_limit <- vapply(of_map, inherits, NA, "LimitAtOwnNumber")
  known <- vapply(of_map, conditionMessage, "")
  new <- Filter(function(one) !conditionMessage(one) %in% known, found)
  warn_all(new)
  of_map <- of_map[!is_limit | (known %in% vapply(found, conditionMessage, ""))]
  c(of_map, new)
}
