# Studies: all reports of one question as files, with one manifest.

MANIFEST <- ".manifest.json"
GRAPH <- ".graph.json"
CHANGES <- ".changes.csv"

#' Writes reports and their manifest as files
#'
#' Writes a *study*: all reports of one question, the bytes that the program read, the changes of the
#' preparation, and one manifest with the SHA-256 of each file, the program, its words, the warnings
#' and the versions. The Python package reads it, too, and a report that is filed without the others
#' of its study is found by its manifest.
#'
#' @section The exhibit:
#' This package writes no page for a court: the Python package `district_audit` does, from these
#' files. After `audit_to_files(reports, "audit.txt")`, in Python:
#'
#' ```
#' import district_audit
#' study = district_audit.load_study("audit.txt.manifest.json")
#' for name, report in study.items():          # the name of a single report is ""
#'     report.exhibit(f"exhibit-{name}.html", graph="audit.txt.graph.json", parties=("Blue", "Red"))
#' ```
#'
#' Of several limits `study.exhibit("limits.html")` is one page, and of several plans
#' `district_audit.exhibit_plans("plans.html", study)`; a page on one of several plans takes no `graph`.
#' `python -m district_audit verify audit.txt.manifest.json` checks the study, as
#' [audit_verify()] does. `scripts/recheck.py audit.txt.graph.json audit.txt` recomputes a report that
#' was made with `source = TRUE`; others need the words of their columns, which the manifest has.
#'
#' @param reports What [audit_run()], [audit_plans()] or [audit_over_limits()] returned.
#' @param path The path of the report. The manifest is `PATH.manifest.json`. `PATH.graph.json` has the
#'   bytes that the program read, unless these are a file's. `PATH.changes.csv` has each change of the
#'   preparation, if there are any. The report of an election or limit is `PATH.NAME`.
#' @param decides The number that was announced before the run as the one that counts, as
#'   `"ends seats:low"` or, of an election, plan or limit, `"GOV18 ends seats:low"`.
#' @return The path of the manifest, invisibly. Raises an error of class `ArgumentRefused` before it
#'   writes a file, if the reports have no record of their call or no number is named as `decides`.
#' @export
audit_to_files <- function(reports, path, decides = NULL) {
  is_one <- inherits(reports, "audit_report")
  if (!is_one && !inherits(reports, "audit_reports")) {
    refuse("ArgumentRefused", "reports must be what audit_run(), audit_plans() or audit_over_limits() returned")
  }
  all <- if (is_one) named(list(reports), "") else unclass(reports)
  kind <- if (is_one) "report" else attr(reports, "kind")
  test_study(all, path)
  test_decides(all, decides)
  call <- all[[1]]$call
  graph <- write_graph(path, call)
  entries <- write_reports(path, kind, all, graph)
  changes <- if (length(call$custody$changes) > 0) {
    write_whole(table_of_changes(call$custody), paste0(path, CHANGES))
    file_of(paste0(path, CHANGES))
  }
  manifest <- list(
    format = "district-audit manifest 2", kind = kind, reports = entries, program = call$program,
    preparation = if (!is.null(call$custody)) kept_custody(call$custody), changes = changes,
    warnings = kept_warnings(unlist(lapply(unname(all), `[[`, "warnings"), recursive = FALSE)),
    decides = decides, limits_from = all[[1]]$limits_from, versions = find_versions(),
    processors = max(1, parallel::detectCores(), na.rm = TRUE)
  )
  invisible(write_whole(paste0(value_json(manifest), "\n"), paste0(path, MANIFEST)))
}

# Refuses reports that cannot be written as one study.
test_study <- function(all, path) {
  made <- lapply(all, `[[`, "call")
  if (any(vapply(made, is.null, NA))) {
    refuse(
      "ArgumentRefused", "a report was read from a text, so that its call is not known: give what",
      " audit_run() or audit_plans() returned"
    )
  }
  if (anyNA(vapply(made, function(one) one$program$sha256, ""))) {
    refuse("ArgumentRefused", "SHA-256 needs the package digest, or R 4.5: install it and audit again")
  }
  if (length(unique(vapply(made, function(one) one$program$sha256, ""))) > 1) {
    refuse("ArgumentRefused", "the reports were made by several builds of the program: audit again")
  }
  if (!is.character(path) || length(path) != 1 || !dir.exists(dirname(path))) {
    refuse("ArgumentRefused", "path must be that of a file in a folder that is there")
  }
}

# Returns the names of a report's numbers, as "walk 0 gap:high" or "ends seats:low".
number_names <- function(report) {
  tests <- report$tests
  walk <- ifelse(is.na(tests$walk), "", paste0(" ", tests$walk))
  second <- ifelse(is.na(tests$second_walk), "", paste0(" ", tests$second_walk))
  found <- paste0(tests$test, walk, second, " ", tests$ask)
  walks <- tests$test == "walk"
  if (length(unique(tests$walk[walks])) == 1) found <- c(found, paste("walk", tests$ask[walks]))
  found
}

# Refuses a number that no report has, or several.
test_decides <- function(all, decides) {
  if (is.null(decides)) {
    return()
  }
  rows <- do.call(rbind, lapply(seq_along(all), function(place) {
    short <- number_names(all[[place]])
    data.frame(short, whole = trimws(paste(names(all)[place], short)), stringsAsFactors = FALSE)
  }))
  count <- sum(rows$short %in% decides | rows$whole %in% decides)
  if (count != 1) {
    refuse(
      "ArgumentRefused", "decides: ", if (count == 0) "no number" else "more than one number",
      " of the reports has this name; they have ", shown(unique(rows$whole), 12)
    )
  }
}

# Writes what the program read, unless it is a file's bytes, and returns its entry.
write_graph <- function(path, call) {
  if (!is.null(call$path)) {
    here <- if (file.exists(call$path)) file_of(call$path)
    if (is.null(here) || !is_same(here, call$read)) {
      refuse("ArgumentRefused", "the file ", call$path, " has changed since the call: audit again")
    }
    return(here)
  }
  write_whole(call$text, paste0(path, GRAPH))
  file_of(paste0(path, GRAPH))
}

# Writes the text of each call, and returns the entries of the manifest.
write_reports <- function(path, kind, all, graph) {
  entry <- function(place, names, text, call) {
    write_whole(text, place)
    list(
      names = as.list(names), command = as.list(call$words), graph = graph,
      map_sha256 = call$map_sha256, report = file_of(place), started = call$started,
      ended = call$ended
    )
  }
  if (kind == "plan") {
    text <- paste0("plan ", names(all), "\n", vapply(all, `[[`, "", "text"), collapse = "")
    return(list(entry(path, names(all), text, all[[1]]$call)))
  }
  ends <- if (kind == "report") "" else paste0(".", unique_names(names(all)))
  lapply(seq_along(all), function(place) {
    one <- all[[place]]
    entry(paste0(path, ends[place]), names(all)[place], one$text, one$call)
  })
}

# Returns an end of a file's name for each name; no two are equal, also without case.
unique_names <- function(names) {
  taken <- sub("^\\.", "", c(MANIFEST, GRAPH, CHANGES))
  vapply(names, function(name) {
    one <- gsub("[^A-Za-z0-9._-]", "_", name)
    while (tolower(one) %in% taken || endsWith(tolower(one), GRAPH)) one <- paste0(one, "_")
    taken <<- c(taken, tolower(one))
    one
  }, "", USE.NAMES = FALSE)
}

# Writes a file so that it has all of a text or, after an interruption, its old bytes.
write_whole <- function(text, path) {
  room <- tempfile(paste0(".", basename(path), "."), dirname(path))
  on.exit(unlink(room))
  write_text(text, room)
  if (!file.rename(room, path)) {
    refuse("ArgumentRefused", path, " cannot be written")
  }
  path
}
