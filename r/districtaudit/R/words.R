# The options of a call as the program's words. The program alone decides which names and values
# are allowed.

COLUMNS <- c("pop", "first", "second", "district", "region", "group", "group_of", "freeze", "length")

#' Makes a key from an announced text
#'
#' @param text The text, whose bytes in UTF-8 count.
#' @return The SHA-256 of these bytes, as 64 hexadecimal digits. Needs R 4.5 or the package digest.
#' @examples
#' if (requireNamespace("digest", quietly = TRUE)) audit_key("the announced text")
#' @export
audit_key <- function(text) {
  if (!is.character(text) || length(text) != 1 || is.na(text)) {
    refuse("ArgumentRefused", "text must be one text")
  }
  path <- write_text(text, tempfile())
  on.exit(unlink(path))
  found <- sha256_of(path)
  if (is.na(found)) {
    refuse("ArgumentRefused", "SHA-256 needs the package digest, or R 4.5")
  }
  found
}

# Returns the SHA-256 of a file's bytes; NA if nothing here computes it.
sha256_of <- function(path) {
  if (requireNamespace("digest", quietly = TRUE)) {
    return(digest::digest(path, algo = "sha256", file = TRUE))
  }
  tools <- asNamespace("tools")
  if (!exists("sha256sum", tools)) {
    return(NA_character_)
  }
  unname(get("sha256sum", tools)(path))
}

# Returns a whole number as digits.
digits <- function(value) format(value, scientific = FALSE, trim = TRUE, digits = 15)

# Returns one value as the program takes it.
word_of <- function(name, value) {
  if (length(value) == 0 || anyNA(value)) {
    refuse("ArgumentRefused", name, " has no value, or NA")
  }
  if (is.raw(value)) {
    return(paste(as.character(value), collapse = ""))
  }
  if (name == "ask" && !is.null(names(value))) {
    value <- paste0(names(value), ":", unlist(value))
  }
  if (name == "ids" && is.numeric(value) && length(value) > 1) {
    if (any(diff(value) != 1)) {
      refuse("ArgumentRefused", "ids must be one id, or a range such as 0:3")
    }
    return(paste0(digits(min(value)), "-", digits(max(value))))
  }
  if (name != "ask" && length(value) > 1) {
    refuse("ArgumentRefused", name, " must be one value, not ", length(value))
  }
  if (is.logical(value)) {
    return(if (value) "yes" else "no")
  }
  if (is.numeric(value)) {
    return(digits(value))
  }
  if (!is.character(value)) {
    refuse("ArgumentRefused", name, " must not be of class ", class(value)[1])
  }
  paste(value, collapse = ",")
}

# Returns rules by the program's names; `tolerance`, `population` and `scores` have other names
# there.
rules_of <- function(given) {
  if (length(given) > 0 && (is.null(names(given)) || any(!nzchar(names(given))))) {
    refuse("ArgumentRefused", "an argument has no name")
  }
  given <- given[!vapply(given, is.null, NA)]
  other <- c(population = "pop", scores = "ask")
  renamed <- names(given) %in% names(other)
  names(given)[renamed] <- other[names(given)[renamed]]
  is_tolerance <- names(given) == "tolerance"
  given[is_tolerance] <- lapply(given[is_tolerance], slack_of)
  test_percent(given)
  names(given)[is_tolerance] <- "slack"
  twice <- names(given)[duplicated(names(given))]
  if (length(twice) > 0) {
    refuse("ArgumentRefused", twice[1], " is given twice")
  }
  mapply(word_of, names(given), given, SIMPLIFY = FALSE)
}

# Refuses parts where the program counts hundredths of a percent.
test_percent <- function(given) {
  for (name in intersect(names(given), c("slack", "group_share"))) {
    value <- given[[name]]
    if (is.numeric(value) && length(value) == 1 && !is.na(value) && value > 0 && value < 1) {
      refuse(
        "ArgumentRefused", name, " counts hundredths of a percent: for ", 100 * value,
        " percent write ", name, " = ", 10000 * value
      )
    }
  }
}

# Returns hundredths of a percent.
slack_of <- function(tolerance) {
  slack <- if (is.numeric(tolerance) && length(tolerance) == 1) tolerance * 10000 else NA
  if (is.na(slack) || abs(slack - round(slack)) > 1e-6 || slack < 0 || slack > 10000) {
    refuse(
      "ArgumentRefused", "tolerance is a part of the ideal population from 0 to 1, in steps of",
      " 0.0001: 0.05 is 5 percent"
    )
  }
  round(slack)
}

# The rules that say nothing without a column.
NEED <- list(
  region = c("max_split", "max_splits", "max_split_regions"),
  group = c("group_of", "group_districts", "group_share"), length = "max_length"
)

# Returns the options of a call: those of the prepared map, and over them those of the call.
options_of <- function(graph, given) {
  dropped <- names(given)[vapply(given, is.null, NA)]
  dropped <- c(dropped, unlist(NEED[intersect(names(NEED), dropped)]))
  given <- rules_of(given)
  if (!inherits(graph, "audit_map")) {
    return(given)
  }
  kept <- c(graph$columns, graph$rules)
  kept <- kept[setdiff(names(kept), dropped)]
  options <- c(kept[setdiff(names(kept), names(given))], given)
  for (role in intersect(COLUMNS, names(given))) {
    name <- given[[role]]
    known <- if (role == "length") graph$columns$length else names(graph$data)
    if (nzchar(name) && !name %in% known) {
      refuse(
        "ArgumentRefused", "the prepared map has no column ", name, " (", role,
        "): name it in audit_prepare()"
      )
    }
  }
  options
}

words_of <- function(command, options) {
  names <- paste0("--", gsub("_", "-", names(options), fixed = TRUE))
  c(command, if (length(options) > 0) as.vector(rbind(names, unlist(options))))
}
