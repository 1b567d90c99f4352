# Errors and warnings as conditions with classes, so that a caller can handle one kind of them.

CLASSES <- c(
  "WordsRefused", "GraphRefused", "MemoryRefused", "ReadFault", "WriteFault",
  "CheckpointUnreadable", "WorkLeft", "CheckpointRefused", "SaveFault"
)

# Raises an error of this class before the program is called.
refuse <- function(class, ...) {
  stop(structure(
    class = c(class, "AuditError", "error", "condition"),
    list(message = paste0(...), call = NULL, status = NA_integer_, line = "", labels = "")
  ))
}

# What to write in place of words that the program refuses, by the end of its line.
HINTS <- c(
  "--ask" = paste0(
    "a score and a tail, as \"seats:low\" or c(\"gap:high\", \"cut-edges:low\"); the scores are seats,",
    " mean-median, gap, cut-edges and cut-length"
  ),
  "--key" = "64 hexadecimal digits, as audit_key() makes of an announced text"
)

# Returns what to write instead; "" for any line that is not about words.
hint_for <- function(status, line) {
  if (status != 1) {
    return("")
  }
  known <- HINTS[sub(".* ", "", line)]
  paste0(": ", if (is.na(known)) "the program's `run --help` lists the options" else known)
}

# Raises the error that a status of the program stands for. `faults` are lines on the map that say
# more than the program's one line.
stop_for_status <- function(status, line, labels = "", report = NULL, faults = NULL) {
  known <- status >= 1 && status <= length(CLASSES)
  said <- if (nzchar(line)) paste0(line, hint_for(status, line)) else paste("the program ended with status", status)
  if (nzchar(labels)) said <- paste0(said, " (", labels, ")")
  fields <- list(
    message = paste(c(said, faults), collapse = "\n"), call = NULL, status = as.integer(status),
    line = line, labels = labels
  )
  if (known && CLASSES[status] == "WorkLeft") {
    numbers <- as.numeric(regmatches(line, gregexpr("[0-9]+", line))[[1]])
    fields$done <- numbers[1]
    fields$total <- numbers[2]
  }
  fields$report <- report
  class <- if (known) CLASSES[status] else "ProgramFailed"
  stop(structure(class = c(class, "AuditError", "error", "condition"), fields))
}

# Returns a warning of this class, which warn_all() gives to R later.
new_warning <- function(class, ...) {
  structure(
    class = c(class, "MapWarning", "warning", "condition"),
    list(message = paste0(...), call = NULL)
  )
}

warn_all <- function(found) {
  for (one in found) warning(one)
  invisible(found)
}

# Returns the first of some labels as one text, and says how many more there are.
shown <- function(labels, most = 5) {
  labels <- as_plain(labels)
  text <- paste(labels[seq_len(min(most, length(labels)))], collapse = ", ")
  if (length(labels) > most) paste0(text, " and ", length(labels) - most, " more") else text
}

# Returns a change of a preparation: its kind in words, the ids of its units (none: it is of the
# whole map), the change of its column's sum, and whether values or edges became others.
new_change <- function(kind, units = integer(), moved = 0, is_of_values = FALSE) {
  list(kind = kind, units = units, moved = moved, is_of_values = is_of_values)
}
