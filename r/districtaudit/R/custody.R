# The chain of custody: the files that were read, what was done to them, and the program that read
# the result, as the Python package's manifests have them.

SHOWN_UNITS <- 100
# The files that belong to a shapefile, beside the one with its geometries.
SHAPEFILE <- c(".shx", ".dbf", ".prj", ".cpg")

# Returns a file by its name without folders, its SHA-256 and its size.
file_of <- function(path, name = basename(path)) {
  list(name = name, sha256 = sha256_of(path), bytes = file.size(path))
}

sha256_of_text <- function(text) {
  path <- write_text(text, tempfile())
  on.exit(unlink(path))
  sha256_of(path)
}

is_same <- function(one, other) {
  identical(one$sha256, other$sha256) && one$bytes == other$bytes
}

read_clock <- function() format(Sys.time(), "%Y-%m-%dT%H:%M:%S+00:00", tz = "UTC")

# Returns the program at a path, with what the file `NAME.origin` beside it says of its build. That
# file counts only if it names the SHA-256 of this program.
program_of <- function(path) {
  found <- c(file_of(path), list(commit = NULL, toolchain = NULL, proved = FALSE))
  found[c("commit", "toolchain")] <- list(NULL)
  beside <- paste0(path, ".origin")
  lines <- if (file.exists(beside)) readLines(beside, warn = FALSE)
  said <- named(as.list(sub("^[^ ]* ?", "", lines)), sub(" .*", "", lines))
  if (!identical(said$sha256, found$sha256)) {
    return(found)
  }
  known <- function(text) if (!is.null(text) && !text %in% c("", "unknown")) text
  found["commit"] <- list(known(if (is.null(said$commit)) said$checkout else said$commit))
  found["toolchain"] <- list(known(said$kit))
  found$proved <- identical(said$proved, "yes")
  found
}

# Returns the versions of R and of the packages that may have taken part.
find_versions <- function() {
  found <- list(R = paste(R.version$major, R.version$minor, sep = "."))
  for (name in c("districtaudit", "jsonlite", "digest", "sf", "spdep", "redist")) {
    if (nzchar(system.file(package = name))) {
      found[[name]] <- as.character(utils::packageVersion(name))
    }
  }
  found
}

# Returns the record of a preparation.
custody_of <- function(map, others, made, numbers, missing, id, join, queen, files) {
  for (path in files) {
    if (!file.exists(path) || dir.exists(path)) refuse("ArgumentRefused", "files: there is no file ", path)
    more <- if (grepl("\\.shp$", path, ignore.case = TRUE)) {
      paste0(sub("\\.[^.]*$", "", path), SHAPEFILE)
    } else {
      character()
    }
    files <- unique(c(files, more[file.exists(more)]))
  }
  names <- map$columns
  names(names)[names(names) == "pop"] <- "population"
  rules <- lapply(map$rules, function(word) if (grepl("^[0-9]+$", word)) as.numeric(word) else word)
  arguments <- c(names, rules)
  if (!is.null(map$elections)) arguments$elections <- lapply(map$elections, as.list)
  if (!is.null(id)) arguments$id <- id
  if (numbers != "error") arguments$numbers <- numbers
  if (missing != "error") arguments$missing <- missing
  if (queen) arguments$queen <- TRUE
  if (length(join) > 0) {
    arguments$join <- lapply(if (is.list(join)) unname(join) else list(join), function(pair) unname(as.list(pair)))
  }
  changes <- c(count_changes(map), made)
  if (length(others) > 0) {
    changes <- c(changes, list(new_change(paste("columns left out:", paste(others, collapse = ", ")))))
  }
  list(
    files = lapply(files, file_of), arguments = arguments, changes = changes,
    warnings = kept_warnings(map$warnings), versions = find_versions()
  )
}

# Returns a change for each column of which values were made whole, or 0 where they were missing.
count_changes <- function(map) {
  change_of <- function(made, kind, moved) {
    if (nrow(made) > 0) list(new_change(kind, map$ids[match(made$unit, as_plain(map$ids))], moved, TRUE))
  }
  unlist(lapply(unique(map$changes$column), function(column) {
    made <- map$changes[map$changes$column == column, ]
    whole <- made[!is.na(made$from), ]
    c(
      change_of(
        whole, paste0("column ", column, ": fractions made whole by `nearest`"), sum(whole$to - whole$from)
      ),
      change_of(made[is.na(made$from), ], paste0("column ", column, ": missing values made 0"), 0)
    )
  }), recursive = FALSE)
}

# Returns warnings as a manifest keeps them, each once.
kept_warnings <- function(warnings) {
  kept <- lapply(warnings, function(one) list(kind = class(one)[1], text = conditionMessage(one)))
  unname(kept[!duplicated(kept)])
}

# Returns a preparation as a manifest has it.
kept_custody <- function(custody) {
  custody$changes <- lapply(custody$changes, function(one) {
    shown <- one$units[seq_len(min(SHOWN_UNITS, length(one$units)))]
    list(
      kind = one$kind, count = length(one$units), first = as.list(shown), moved = one$moved,
      of_values = one$is_of_values
    )
  })
  if (length(custody$arguments) == 0) custody$arguments <- named(list(), character())
  custody
}

# Returns each change as a row of CSV: its kind and the unit's id.
table_of_changes <- function(custody) {
  quoted <- function(texts) paste0("\"", gsub("\"", "\"\"", texts, fixed = TRUE), "\"")
  rows <- lapply(custody$changes, function(one) {
    paste(quoted(one$kind), if (length(one$units) > 0) quoted(as_plain(one$units)) else "", sep = ",")
  })
  paste0(paste(c("kind,unit", unlist(rows)), collapse = "\n"), "\n")
}
