#' Checks the files of a study
#'
#' Compares the reports, graphs, program, raw files and changes with the SHA-256 in their manifest.
#' Files are looked for beside the manifest, by their names. The Python command
#' `python -m district_audit verify` compares more: the words with the reports, the changes with the
#' preparation, the program's origin, and versions.
#'
#' @param manifest The path of the manifest, as [audit_to_files()] or the Python package writes it.
#' @param program The path of the program; NULL does not check it.
#' @param raw The folder of the raw files; NULL takes that of the manifest.
#' @return A data frame of class `audit_verified` with a row for each file: `what`, `name`, `agrees`
#'   (NA: it is not there), and `line`. Raises an error of class `ManifestRefused`.
#' @export
audit_verify <- function(manifest, program = find_program(), raw = NULL) {
  made <- read_manifest(manifest)
  folder <- dirname(manifest)
  beside <- function(file) file.path(folder, file$name)
  reports <- lapply(made$reports, function(entry) compare_file("report", entry$report, beside(entry$report)))
  graphs <- unique(lapply(made$reports, `[[`, "graph"))
  raws <- lapply(made$preparation$files, function(file) {
    compare_file("raw file", file, file.path(if (is.null(raw)) folder else raw, file$name))
  })
  found <- do.call(rbind, c(
    reports, lapply(graphs, function(file) compare_file("graph", file, beside(file))),
    list(compare_file("program", made$program, program)), raws,
    if (!is.null(made$changes)) list(compare_file("changes", made$changes, beside(made$changes)))
  ))
  structure(found, class = c("audit_verified", "data.frame"))
}

# Reads a manifest; refuses what is none.
read_manifest <- function(path) {
  if (!is.character(path) || length(path) != 1 || !file.exists(path)) {
    refuse("ManifestRefused", "manifest must be the path of a file")
  }
  made <- tryCatch(jsonlite::fromJSON(path, simplifyVector = FALSE), error = function(why) {
    refuse("ManifestRefused", "the manifest is not valid JSON: ", conditionMessage(why))
  })
  if (!is.list(made) || !identical(made$format, "district-audit manifest 2")) {
    refuse("ManifestRefused", "the format is not \"district-audit manifest 2\"")
  }
  files <- c(
    lapply(made$reports, `[[`, "report"), lapply(made$reports, `[[`, "graph"), list(made$program),
    made$preparation$files, if (!is.null(made$changes)) list(made$changes)
  )
  usable <- vapply(files, function(file) {
    name <- file$name
    is.character(name) && !name %in% c("", ".", "..") && !grepl("/", name, fixed = TRUE) &&
      is.character(file$sha256) && grepl("^[0-9a-f]{64}$", file$sha256) && is.numeric(file$bytes)
  }, NA)
  if (length(made$reports) == 0 || !all(usable)) {
    refuse("ManifestRefused", "the manifest names no report, or a file without its SHA-256")
  }
  made
}

# Compares a file with what a manifest says of it.
compare_file <- function(what, wanted, path) {
  row <- function(agrees, ...) {
    data.frame(what, name = wanted$name, agrees, line = paste0(...), stringsAsFactors = FALSE)
  }
  if (is.null(path) || !file.exists(path) || dir.exists(path)) {
    return(row(NA, what, " ", wanted$name, ": not checked, the file is not there"))
  }
  here <- file_of(path)
  if (is.na(here$sha256)) {
    refuse("ArgumentRefused", "SHA-256 needs the package digest, or R 4.5")
  }
  if (is_same(here, wanted)) {
    return(row(TRUE, what, " ", path, ": agrees, sha256 ", here$sha256))
  }
  row(
    FALSE, what, " ", path, ": DIFFERS: the manifest says sha256 ", wanted$sha256, ", ", wanted$bytes,
    " bytes; the file has ", here$sha256, ", ", here$bytes, " bytes"
  )
}

#' @export
print.audit_verified <- function(x, ...) {
  cat(x$line, sep = "\n")
  cat(
    sum(x$agrees, na.rm = TRUE), "agree,", sum(!x$agrees, na.rm = TRUE), "differ,",
    sum(is.na(x$agrees)), "not checked\n"
  )
  invisible(x)
}
