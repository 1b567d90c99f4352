# The values of columns: counts, labels and ids.

MOST <- 1e9

# Returns a column of the map, or refuses its name.
column_of <- function(map, name) {
  if (!is.character(name) || length(name) != 1 || is.na(name)) {
    refuse("ArgumentRefused", "a column must be named by one text")
  }
  if (!name %in% names(map)) {
    near <- names(map)[agrepl(name, names(map), ignore.case = TRUE)]
    hint <- if (length(near) > 0) paste0("; there is ", shown(near)) else ""
    refuse("PrepareRefused", "the map has no column ", name, hint)
  }
  map[[name]]
}

# Texts that other programs write for a missing value.
MISSING_TEXTS <- c(
  "nan", "NaN", "NAN", "-nan", "<NA>", "NA", "N/A", "n/a", "#N/A", "NaT", "None", "null", "NULL"
)

# Returns which values are missing: NA, NaN, and texts of nothing but white space.
is_missing <- function(values) {
  if (is.factor(values)) values <- as.character(values)
  is.na(values) | (is.character(values) & !nzchar(trimws(values)))
}

# Returns the units that stay: their places and ids, all ids, and which were left out for what.
kept_units <- function(map, asked, ids, missing) {
  at <- seq_along(ids)
  changes <- list()
  for (name in unique(unlist(asked))) {
    if (all(is_missing(column_of(map, name)))) {
      refuse("PrepareRefused", "no unit has a value in the column ", name)
    }
  }
  if (missing == "drop") {
    needed <- unique(unlist(asked[names(asked) != "freeze"]))
    lacks <- lapply(named(needed, needed), function(name) which(is_missing(map[[name]])))
    lacks <- Filter(length, lacks)
    changes <- lapply(names(lacks), function(name) {
      new_change(paste("units left out, for a missing", name), ids[lacks[[name]]], is_of_values = TRUE)
    })
    at <- setdiff(at, unlist(lacks))
    if (length(at) == 0) {
      refuse("PrepareRefused", "no unit has a value in each column, so that all would be left out")
    }
  }
  list(all = ids, at = at, ids = ids[at], changes = changes)
}

# Returns whole numbers, and the changes that made them so as a data frame.
counts_of <- function(values, name, ids, numbers, missing) {
  if (!is.numeric(values) || inherits(values, "integer64")) {
    refuse(
      "PrepareRefused", "column ", name, " is of class ", class(values)[1],
      ", not of numbers: convert it, as by as.numeric(as.character(..))"
    )
  }
  say <- function(bad, what, hint = "") {
    if (any(bad)) {
      refuse("PrepareRefused", "column ", name, ": ", what, " in ", sum(bad), " units: ", shown(ids[bad]), hint)
    }
  }
  whole <- round(values)
  absent <- is.na(values)
  if (missing == "zero") {
    whole[absent] <- 0
  } else {
    say(absent, "a value is missing", " (missing = \"zero\" makes it 0, \"drop\" leaves the unit out)")
  }
  say(!absent & (values < 0 | values > MOST), "a value is not from 0 to 1000000000")
  broken <- absent | values != whole
  if (numbers == "error") {
    say(broken & !absent, "a value is not whole (numbers = \"nearest\" rounds it)")
  }
  changes <- data.frame(
    unit = as_plain(ids[broken]), column = rep(name, sum(broken)), from = values[broken],
    to = whole[broken], stringsAsFactors = FALSE
  )
  list(values = whole, changes = changes)
}

# Returns labels: texts, or whole numbers.
labels_of <- function(values, name, ids = seq_along(values), hint = "") {
  if (is.factor(values)) {
    values <- as.character(values)
  }
  if (!is.character(values) && (!is.numeric(values) || inherits(values, "integer64"))) {
    refuse("PrepareRefused", "column ", name, " must have texts or whole numbers as labels")
  }
  say <- function(bad, what, hint = "") {
    if (any(bad)) {
      refuse("PrepareRefused", "column ", name, ": ", what, " in ", sum(bad), " units: ", shown(ids[bad]), hint)
    }
  }
  say(is_missing(values), "a label is missing", hint)
  if (is.character(values)) {
    say(trimws(values) %in% MISSING_TEXTS, "a label reads as a missing value", ", as the text NA does: make it NA")
  }
  if (is.numeric(values) && any(values != floor(values) | abs(values) > 2^53)) {
    refuse("PrepareRefused", "column ", name, ": a label is no whole number")
  }
  if (is.character(values)) test_alike(values, name)
  values
}

# Refuses labels that differ only by spaces, leading zeros or ".0", such as "1" and "01".
test_alike <- function(values, name) {
  labels <- unique(values)
  plain <- gsub("[[:space:]]+", " ", trimws(labels))
  plain <- sub("^0*([0-9]+)(\\.0*)?$", "\\1", plain, perl = TRUE)
  twice <- plain[duplicated(plain)]
  if (length(twice) > 0) {
    refuse(
      "PrepareRefused", "column ", name, ": labels look alike: ",
      shown(quote_json(labels[plain == twice[1]]))
    )
  }
}

# Returns labels in the order in which the program numbers districts and regions.
in_order <- function(labels) {
  sort(unique(if (is.character(labels)) enc2utf8(labels) else labels), method = "radix")
}

# Returns what keeps a unit frozen: true, or a whole number above 0.
frozen_of <- function(values, name, ids) {
  if (anyNA(values)) {
    refuse(
      "PrepareRefused", "column ", name, ": a value is missing in ", sum(is.na(values)), " units: ",
      shown(ids[is.na(values)])
    )
  }
  if (is.logical(values)) values else counts_of(values, name, ids, "error", "error")$values
}
