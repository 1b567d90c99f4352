# Calls of the program.

# Returns the file that the program reads, and whether it is to be removed.
input_of <- function(graph) {
  if (inherits(graph, "audit_map")) {
    return(write_text(graph$json, tempfile("audit-graph-", fileext = ".json")))
  }
  if (!is.character(graph) || length(graph) != 1 || !file.exists(graph)) {
    refuse("ArgumentRefused", "graph must be what audit_prepare() returned, or the path of a file")
  }
  graph
}

# Calls a command and returns its text; raises an error if the status is not 0.
ask_program <- function(command, graph, options, input = input_of(graph), folder = NULL) {
  if (!identical(input, graph)) on.exit(unlink(input))
  end <- call_program(words_of(command, options), input, folder)
  if (grepl("NOT PROVED", sub("\n.*", "", end$out), fixed = TRUE)) {
    refuse("NotProved", "the program was built without a proof: install one that is proved")
  }
  if (end$status != 0) {
    report <- if (end$status == 9 && nzchar(end$out)) audit_report(end$out)
    stop_for_status(end$status, end$note, named_in(end$note, graph), report, faults_for(end$note, graph))
  }
  end$out
}

# Calls a command and returns its text with the record of the call, as a manifest keeps it. `text` is
# what the program reads, if it is not the map's own graph.
record_program <- function(command, graph, options, folder = NULL, text = NULL) {
  started <- read_clock()
  program <- program_of(find_program())
  if (is.null(text) && inherits(graph, "audit_map")) text <- graph$json
  input <- if (is.null(text)) input_of(graph) else write_text(text, tempfile("audit-graph-"))
  if (!identical(input, graph)) on.exit(unlink(input))
  read <- file_of(input)
  out <- ask_program(command, graph, options, input, folder)
  is_map <- inherits(graph, "audit_map")
  list(out = out, call = list(
    words = words_of(command, options), program = program, started = started, ended = read_clock(),
    read = read, text = text, path = if (!is_map) normalizePath(graph),
    map_sha256 = if (is_map) sha256_of_text(graph$json) else read$sha256,
    custody = if (is_map) graph$custody
  ))
}

# Returns what the numbers of an error line stand for, in the user's labels.
named_in <- function(line, graph) {
  if (!inherits(graph, "audit_map") || !grepl("^(plan|graph)", line)) {
    return("")
  }
  regions <- if (!is.null(graph$columns$region)) in_order(graph$data[[graph$columns$region]])
  lists <- list(
    unit = graph$ids, node = graph$ids, region = regions,
    district = in_order(graph$data[[graph$columns$district]])
  )
  found <- regmatches(line, gregexpr("\\b(unit|node|region|district) [0-9]+", line))[[1]]
  said <- vapply(strsplit(found, " "), function(pair) {
    label <- lists[[pair[1]]][as.numeric(pair[2]) + 1]
    if (length(label) == 0 || is.na(label)) "" else paste(pair[1], pair[2], "is", as_json(label))
  }, "")
  paste(said[nzchar(said)], collapse = ", ")
}

# Returns the lines on the map's districts that say more than the program's line of a refusal.
faults_for <- function(line, graph) {
  if (!inherits(graph, "audit_map")) {
    return(NULL)
  }
  if (grepl("^plan: district [0-9]+ has no path ", line)) graph$apart else
    if (grepl("^plan: district [0-9]+ has population ", line)) graph$stray
}

# Returns a line for each district with a tenth of the usual number of units or fewer: its label may
# be a slip, and it changes the ideal population of all others.
stray_districts <- function(map) {
  labels <- map$data[[map$columns$district]]
  ordered <- in_order(labels)
  lines <- lapply(ordered, function(label) {
    inside <- map$ids[labels == label]
    if (10 * length(inside) * length(ordered) <= length(labels)) {
      paste0(
        "district ", as_json(label), " has ", length(inside), " units alone, of ", length(ordered),
        " districts: ", shown(inside, 10), "; is its label a slip?"
      )
    }
  })
  unlist(lines)
}

#' Checks an enacted plan
#'
#' Has the program judge the enacted plan by the rules, without a walk.
#'
#' @param graph What [audit_prepare()] returned, or the path of a graph in JSON. With a path the
#'   columns are arguments: `population`, `first`, `second`, `district`.
#' @param ... The program's options by name, with `_` in place of `-`: `slack` or `tolerance`,
#'   `max_cut`, `region`, `max_split`, `group`, `group_districts`, `freeze`, `source` and so on. NULL
#'   drops an option that the prepared map has.
#' @param limits_from Where the limits come from, as `"law"` or `"older plans"`. Left out, a limit that
#'   is the enacted plan's own number, or nearly, gives the warning `LimitAtOwnNumber`.
#' @return An object of class `audit_plan_check`: a list with `text` and `lines`, and for a prepared
#'   map `districts`, a data frame with a row for each district, and `votes`, the columns of its votes
#'   (with several elections those of the first, unless others are named). Raises an error of class
#'   `GraphRefused` if the plan is illegal.
#' @export
audit_check <- function(graph, ..., limits_from = NULL) {
  options <- options_of(graph, list(...))
  if (inherits(graph, "audit_map") && !is.null(graph$elections) && is.null(options$first)) {
    # Whether a plan is legal does not depend on votes.
    options[c("first", "second")] <- as.list(graph$elections[[1]])
  }
  call_warnings(graph, options, list(...), limits_from)
  text <- ask_program("check", graph, options)
  lines <- lines_of(text)
  if (lines[1] != "plan-check 1") {
    refuse("ProgramFailed", "the program printed no check: ", lines[1])
  }
  structure(class = "audit_plan_check", list(
    text = text, lines = lines, districts = if (inherits(graph, "audit_map")) districts_of(graph, options),
    votes = c(first = options$first, second = options$second)
  ))
}

# Returns the people and votes of each district.
districts_of <- function(map, options) {
  labels <- map$data[[options$district]]
  ordered <- in_order(labels)
  total <- function(values) vapply(ordered, function(one) sum(values[labels == one]), 0)
  first <- unname(total(map$data[[options$first]]))
  second <- unname(total(map$data[[options$second]]))
  data.frame(
    district = ordered, units = unname(total(rep(1, length(labels)))),
    population = unname(total(map$data[[options$pop]])), first = first, second = second,
    first_share = ifelse(first + second > 0, first / (first + second), NA),
    stringsAsFactors = FALSE
  )
}

#' @export
print.audit_plan_check <- function(x, ...) {
  cat(x$text)
  if (!is.null(x$districts)) {
    cat("first is ", x$votes[["first"]], ", second is ", x$votes[["second"]], "\n", sep = "")
    print(x$districts)
  }
  invisible(x)
}

#' Runs an audit
#'
#' Calls the program's command `run`, which walks from the enacted plan and reports how extreme the
#' plan is among the plans visited. With several elections it is called once for each, with the same
#' key and so with the same plans.
#'
#' @inheritParams audit_check
#' @param key The key of all draws: 64 hexadecimal digits, as [audit_key()] makes them.
#' @param ask The questions: texts such as `"seats:low"`, or a named vector, `c(seats = "low")`.
#' @param ... The program's options by name, with `_` in place of `-`: `walks`, `steps`, `ends`,
#'   `hub_steps`, `workers`, `pairs`, `stop`, `serial`, `shift`, `cut_weight`, `save`, `resume`,
#'   `budget` and so on, and those of [audit_check()].
#' @param elections Several elections, as [audit_prepare()] takes them. Left out, they are those of
#'   the prepared map, if it has any and `first` and `second` are not given.
#' @param folder The folder of the checkpoints of a run with `save`. Each of several elections has a
#'   folder of its name in it.
#' @param overwrite Whether a run may start anew in a folder that has checkpoints.
#' @return An object of class `audit_report`; see [audit_report()]. With several elections an object
#'   of class `audit_reports`: a list of reports by name, for `as.data.frame`, `autoplot` and
#'   [audit_to_files()]. Raises an error of class `WorkLeft`, with `done` and `total`, if the budget
#'   ends before the run; the same call with `resume = TRUE` goes on. Warns with class `FrozenWalk` of
#'   walks that changed the plan fewer times than there are units.
#' @export
audit_run <- function(graph, key, ask, ..., elections = NULL, limits_from = NULL, folder = NULL,
                      overwrite = FALSE) {
  given <- list(key = key, ask = ask, ...)
  if (!is.null(given$blind)) {
    refuse("ArgumentRefused", "a blind run shows no report: call audit_pilot()")
  }
  chosen <- chosen_elections(graph, elections, given)
  pairs <- if (is.null(chosen)) list(NULL) else chosen
  asked <- lapply(pairs, function(pair) {
    options_of(graph, c(given, if (!is.null(pair)) list(first = pair[1], second = pair[2])))
  })
  folders <- folders_of(asked, folder, names(chosen))
  Map(function(options, place) test_folder(options, place, overwrite), asked, folders)
  found <- call_warnings(graph, asked[[1]], given, limits_from)
  reports <- Map(function(options, place) {
    made <- record_program("run", graph, options, place)
    new_report(audit_report(made$out), made$call, found, limits_from)
  }, asked, folders)
  if (is.null(chosen)) {
    warn_of_frozen(unname(reports))
    return(reports[[1]])
  }
  warn_of_frozen(reports, "election")
  new_reports(reports, names(chosen), "election")
}

# Returns the elections of a call, or NULL if it has one without a name.
chosen_elections <- function(graph, elections, given) {
  if (!is.null(elections)) {
    return(elections_in(elections, given$first, given$second))
  }
  if (inherits(graph, "audit_map") && is.null(given$first) && is.null(given$second)) graph$elections
}

saves_of <- function(options) !is.null(options$save) && options$save != "0"

# Returns the folder of each run. Those of several elections are made, if the runs save.
folders_of <- function(asked, folder, names) {
  if (is.null(names) || !saves_of(asked[[1]])) {
    return(rep(list(folder), length(asked)))
  }
  if (any(grepl("[/\\\\]", names)) || any(names %in% c(".", ".."))) {
    refuse("ArgumentRefused", "with save, each election has a folder of its name: ", shown(names))
  }
  places <- file.path(if (is.null(folder)) "." else folder, names)
  for (place in places) dir.create(place, showWarnings = FALSE)
  as.list(places)
}

# Refuses a folder that is not there, or that has the checkpoints of another run.
test_folder <- function(options, folder, overwrite) {
  if (!is.null(folder) && !dir.exists(folder)) {
    refuse("ArgumentRefused", "there is no folder ", folder)
  }
  if (saves_of(options) && !identical(options$resume, "yes") && !overwrite) {
    found <- file.path(if (is.null(folder)) "." else folder, c("audit-0.ckpt", "audit-1.ckpt"))
    if (any(file.exists(found))) {
      refuse(
        "ArgumentRefused", "the folder has checkpoints of a run: resume = TRUE goes on,",
        " overwrite = TRUE starts anew"
      )
    }
  }
}
