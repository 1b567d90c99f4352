# Studies: the Python package reads, verifies and shows what this package writes.

# Returns a folder of its own.
new_folder <- function() {
  path <- tempfile("study-")
  dir.create(path)
  path
}

# Returns a map of two elections, one of whose columns is made whole.
two_elections <- function(...) {
  units <- small_units()
  units$c <- 240 + 5 * units$column + 0.5 * (units$row == 1)
  units$e <- 235
  given <- list(
    units, "pop", district = "d", adjacency = small_neighbors(), slack = 2000, max_cut = 30, id = "id",
    elections = list("GOV 18" = c("a", "b"), SEN20 = c("c", "e")), numbers = "nearest"
  )
  more <- list(...)
  given[names(more)] <- more
  quietly(do.call(audit_prepare, given))
}

RUN <- list(key = KEY, ask = c("seats:low", "gap:high"), walks = 2, steps = 3000, ends = 9, hub_steps = 500)

test_that("elections have a report each, which are those of single calls", {
  skip_without_program()
  map <- two_elections()
  reports <- do.call(audit_run, c(list(map), RUN))
  expect_equal(names(reports), c("GOV 18", "SEN20"))
  single <- do.call(audit_run, c(list(map, first = "c", second = "e"), RUN))
  expect_s3_class(single, "audit_report")
  expect_identical(reports$SEN20$text, single$text)
  frame <- as.data.frame(reports)
  expect_equal(unique(frame$election), c("GOV 18", "SEN20"))
  expect_equal(nrow(frame), 2 * 6)
  # The same key makes the same walk.
  moved <- tapply(frame$moved, list(frame$election, frame$walk), unique)
  expect_equal(moved[1, ], moved[2, ])
  given <- do.call(audit_run, c(list(map, elections = list(X = c("c", "e"))), RUN))
  expect_identical(given$X$text, single$text)
  folder <- new_folder()
  saved <- do.call(audit_run, c(list(map, folder = folder, save = 1), RUN))
  expect_true(all(dir.exists(file.path(folder, names(saved)))))
  expect_identical(lapply(saved, `[[`, "text"), lapply(reports, `[[`, "text"))
  expect_error(
    do.call(audit_run, c(list(map, folder = folder, save = 1), RUN)), "resume = TRUE",
    class = "ArgumentRefused"
  )
})

test_that("elections are refused where they are not those that are meant", {
  map <- two_elections()
  refused <- function(code, pattern, class = "ArgumentRefused") expect_error(code, pattern, class = class)
  refused(two_elections(elections = c("a", "b")), "elections is a list of pairs of columns")
  refused(two_elections(elections = list(c("a", "b"))), "each with a name of its own")
  refused(two_elections(elections = list(X = c("a", "b"), X = c("c", "e"))), "a name of its own")
  refused(two_elections(elections = list(X = "a")), "elections is a list of pairs of columns")
  refused(two_elections(first = "a", second = "b"), "each election has its own columns")
  refused(two_elections(elections = list(X = c("a", "a"))), "votes are the column a", "PrepareRefused")
  refused(audit_run(map, KEY, "gap:low", elections = list(X = c("a", "x"))), "has no column x")
  refused(audit_plans(map, matrix(1, 36, 1), KEY, "gap:low"), "give first = \"a\", second = \"b\"")
  refused(audit_trace(map, KEY, "gap:low"), "give first = \"a\", second = \"b\"")
  refused(audit_run(map, KEY, "gap:low", blind = TRUE), "audit_pilot")
  refused(audit_pilot(map, ask = "gap:low"), "a pilot asks no question")
})

test_that("a check needs no election, and shows the votes of the first or the one that is named", {
  skip_without_program()
  map <- two_elections()
  expect_equal(audit_check(map)$districts$second, rep(12 * 230, 3))
  expect_equal(audit_check(map, first = "c", second = "e")$districts$second, rep(12 * 235, 3))
})

test_that("the Python package verifies studies, and makes exhibits that name all their reports", {
  skip_without_program()
  skip_if_not_installed("digest")
  folder <- new_folder()
  map <- two_elections()
  place <- function(name) file.path(folder, name)
  one <- do.call(audit_run, c(list(map, first = "a", second = "b", limits_from = "law"), RUN))
  audit_to_files(one, place("one.txt"))
  audit_to_files(do.call(audit_run, c(list(map), RUN)), place("both.txt"), decides = "SEN20 ends seats:low")
  plans <- cbind("rows of two" = small_units()$d, columns = (small_units()$column + 1) %/% 2)
  of_plans <- do.call(audit_plans, c(list(map, plans[, 2, drop = FALSE], first = "a", second = "b"), RUN))
  audit_to_files(of_plans, place("plans.txt"))
  file.copy(sample_graph("groups.json"), place("graph.json"))
  as_it_is <- quietly(do.call(audit_run, c(list(place("graph.json"), source = TRUE, steps = 3000), GROUPS, RUN[c("key", "ask")])))
  audit_to_files(as_it_is, place("file.txt"))
  names <- c("one.txt", "both.txt", "plans.txt", "file.txt")
  jobs <- c(
    lapply(names, function(name) {
      list(command = "verify", graph = place(paste0(name, ".manifest.json")), call = list(program = find_program()))
    }),
    lapply(names, function(name) list(command = "exhibit", graph = place(paste0(name, ".manifest.json"))))
  )
  found <- by_python_all(jobs)
  for (at in seq_along(names)) {
    lines <- found[[at]]$lines
    # R's packages are not installed in Python, so versions are not checked; and the origin of a
    # program is so only if it lies beside it.
    has_origin <- file.exists(paste0(find_program(), ".origin"))
    checked <- lines[!grepl(if (has_origin) "^versions" else "^(versions|origin)", lines)]
    expect_equal(unique(sub(".* ", "", checked)), "True", info = names[at])
    expect_true(all(c("report True", "words True", "graph True", "program True") %in% lines), info = names[at])
    mine <- audit_verify(place(paste0(names[at], ".manifest.json")))
    expect_true(all(mine$agrees), info = names[at])
    page <- found[[at + 4]]$text
    expect_match(page, "sha256 [0-9a-f]{64}|SHA-256", info = names[at])
    expect_false(grepl("other reports may exist", page), info = names[at])
  }
  both <- found[[6]]$text
  expect_match(both, "one of 2 elections of one call")
  expect_match(both, "the p-value of the parallel test on seats:low, election SEN20")
  expect_true(grepl("changes the total of|made whole", both))
  expect_true(any(found[[2]]$lines == "changes True"))
})

test_that("recheck.py recomputes each report of a study, and finds a changed count", {
  skip_without_program()
  skip_if_not_installed("digest")
  recheck <- in_repository("scripts", "recheck.py")
  folder <- new_folder()
  path <- file.path(folder, "audit.txt")
  audit_to_files(do.call(audit_run, c(list(two_elections(), source = TRUE, pairs = TRUE, cut_weight = 40), RUN)), path)
  check <- function(report) {
    note <- tempfile()
    on.exit(unlink(note))
    end <- system2(find_python(), shQuote(c(recheck, paste0(path, ".graph.json"), report)), stdout = note, stderr = FALSE)
    list(end = end, out = readLines(note))
  }
  for (name in c("GOV_18", "SEN20")) {
    found <- check(paste0(path, ".", name))
    expect_equal(found$end, 0)
    expect_equal(utils::tail(found$out, 1), "all that was asked agrees")
  }
  lines <- readLines(paste0(path, ".SEN20"))
  at <- grep("^ends seats", lines)
  lines[at] <- sub("rank [0-9]+ of 10 p [0-9.]+", "rank 1 of 10 p 0.100000000", lines[at])
  writeLines(lines, paste0(path, ".forged"))
  expect_equal(check(paste0(path, ".forged"))$end, 1)
})

test_that("a study has the manifest of the Python package", {
  skip_without_program()
  skip_if_not_installed("digest")
  folder <- new_folder()
  place <- function(name) file.path(folder, name)
  prepare <- c(GRID, list(slack = 1000, max_cut = 125))
  call <- c(RUN, list(decides = "ends gap:high", path = place("python.txt")))
  by_python("study", sample_graph("grid.json"), prepare, call)
  map <- quietly(do.call(audit_read, c(sample_graph("grid.json"), prepare)))
  report <- quietly(do.call(audit_run, c(list(map), RUN)))
  audit_to_files(report, place("r.txt"), decides = "ends gap:high")
  read <- function(name) jsonlite::fromJSON(place(paste0(name, ".txt.manifest.json")), simplifyVector = FALSE)
  here <- read("r")
  there <- read("python")
  expect_setequal(names(here), names(there))
  same <- c("format", "kind", "program", "decides", "limits_from", "processors")
  expect_equal(here[same], there[same])
  expect_equal(here$reports[[1]]$report[c("sha256", "bytes")], there$reports[[1]]$report[c("sha256", "bytes")])
  expect_setequal(names(here$reports[[1]]), names(there$reports[[1]]))
  expect_setequal(names(here$preparation), names(there$preparation))
  kinds <- function(made) sort(vapply(made$warnings, `[[`, "", "kind"))
  expect_equal(kinds(here), kinds(there))
  expect_equal(kinds(here), "LimitAtOwnNumber")
  raw <- function(made) lapply(made$preparation$files, `[`, c("name", "sha256", "bytes"))
  expect_equal(raw(here), raw(there))
  words <- function(made) {
    command <- unlist(made$reports[[1]]$command)
    sort(paste(command[-1][c(TRUE, FALSE)], command[-1][c(FALSE, TRUE)]))
  }
  expect_equal(words(here), words(there))
})

test_that("the change of one byte is found, and a missing file is not called good", {
  skip_without_program()
  skip_if_not_installed("digest")
  folder <- new_folder()
  path <- file.path(folder, "both.txt")
  audit_to_files(do.call(audit_run, c(list(two_elections()), RUN)), path)
  manifest <- paste0(path, ".manifest.json")
  files <- c("both.txt.GOV_18", "both.txt.SEN20", "both.txt.graph.json", "both.txt.changes.csv")
  expect_setequal(list.files(folder), c(files, "both.txt.manifest.json"))
  for (name in files) {
    place <- file.path(folder, name)
    before <- readBin(place, "raw", file.size(place))
    after <- before
    after[10] <- as.raw(bitwXor(as.integer(after[10]), 1L))
    writeBin(after, place)
    found <- audit_verify(manifest, program = NULL)
    expect_equal(found$name[found$agrees %in% FALSE], name)
    file.remove(place)
    found <- audit_verify(manifest, program = NULL)
    expect_setequal(found$name[is.na(found$agrees)], c(name, basename(find_program())))
    writeBin(before, place)
  }
  expect_equal(sum(audit_verify(manifest, program = NULL)$agrees, na.rm = TRUE), length(files))
  refused <- function(text, pattern) {
    other <- file.path(folder, "other.manifest.json")
    writeLines(text, other)
    expect_error(audit_verify(other), pattern, class = "ManifestRefused")
  }
  refused("{", "not valid JSON")
  refused("{\"format\": \"other\"}", "the format is not")
  refused("{\"format\": \"district-audit manifest 2\", \"reports\": []}", "names no report")
  outside <- sub("both.txt.GOV_18", "../both", readChar(manifest, file.size(manifest)), fixed = TRUE)
  refused(outside, "a file without its SHA-256")
  expect_error(audit_verify(file.path(folder, "none")), class = "ManifestRefused")
})

test_that("a study is refused before a file is written", {
  skip_without_program()
  report <- do.call(audit_run, c(list(two_elections(), first = "a", second = "b"), RUN))
  folder <- new_folder()
  path <- file.path(folder, "report.txt")
  refused <- function(code, pattern) expect_error(code, pattern, class = "ArgumentRefused")
  refused(audit_to_files(audit_report(report$text), path), "its call is not known")
  refused(audit_to_files(report$text, path), "must be what audit_run")
  refused(audit_to_files(report, path, decides = "ends cut-edges:low"), "no number of the reports has this name")
  refused(audit_to_files(report, file.path(folder, "none", "x")), "a folder that is there")
  both <- do.call(audit_run, c(list(two_elections()), RUN))
  refused(audit_to_files(both, path, decides = "ends seats:low"), "more than one number")
  expect_length(list.files(folder, all.files = TRUE, no.. = TRUE), 0)
  # A file whose bytes were read, and that is another one now.
  graph <- file.path(folder, "graph.json")
  file.copy(sample_graph("groups.json"), graph)
  report <- quietly(do.call(audit_run, c(list(graph, steps = 300), GROUPS, RUN[c("key", "ask")])))
  cat("\n", file = graph, append = TRUE)
  refused(audit_to_files(report, path), "has changed since the call")
})

test_that("the pilot has the moves of the Python package, and no score", {
  skip_without_program()
  prepare <- c(GRID, list(slack = 1000))
  python <- by_python("pilot", sample_graph("grid.json"), prepare, list(steps = 4000, walks = 2, announced = 1000))
  map <- quietly(do.call(audit_read, c(sample_graph("grid.json"), prepare)))
  pilot <- quietly(audit_pilot(map, steps = 4000, walks = 2, announced = 1000))
  expected <- jsonlite::fromJSON(python$text, simplifyVector = FALSE)
  expect_equal(pilot$units, expected[[1]])
  expect_equal(pilot$moved, unlist(expected[[2]]))
  expect_equal(pilot$changed, unlist(expected[[3]]))
  shown <- capture.output(print(pilot))
  expect_length(grep("^walk [01]: [0-9]+ of 4000 steps changed the plan", shown), 2)
  expect_false(any(grepl("seats|gap|edges", shown)))
  pilot[c("seconds", "announced")] <- list(1e-9, 1e6)
  expect_true("a walk of 1000000 steps takes less than a second on one processor" %in% capture.output(print(pilot)))
  pilot$announced <- 5e9
  expect_true("a walk of 5000000000 steps takes about 5 seconds on one processor" %in% capture.output(print(pilot)))
})

test_that("a build without a proof makes no report", {
  skip_on_os("windows")
  program <- tempfile("unproved-")
  writeLines(c("#!/bin/sh", "echo 'audit: NOT PROVED: this build was made without a proof'"), program)
  Sys.chmod(program, "755")
  before <- options(districtaudit.program = program)
  on.exit(options(before))
  expect_error(audit_check(two_elections()), "without a proof", class = "NotProved")
  expect_error(do.call(audit_run, c(list(two_elections()), RUN)), class = "NotProved")
})

test_that("many plans whose names have spaces are those of the Python package", {
  skip_without_program()
  map <- quietly(do.call(audit_read, c(sample_graph("grid.json"), GRID, slack = 1000)))
  plan <- map$data$CD
  # The plans of a short walk, twenty of them.
  trace <- quietly(audit_trace(map, KEY, "cut-edges:low", steps = 1900, thin = 100))
  labels <- matrix(attr(trace, "districts")[trace], nrow(trace))
  colnames(labels) <- paste("plan", seq_len(20), "of a walk")
  table <- tempfile(fileext = ".csv")
  rows <- data.frame(id = map$ids, labels, check.names = FALSE, stringsAsFactors = FALSE)
  utils::write.csv(rows, table, row.names = FALSE)
  call <- list(key = KEY, ask = "cut-edges:low", steps = 200)
  python <- by_python("plans", sample_graph("grid.json"), c(GRID, slack = 1000), call, table)
  reports <- quietly(do.call(audit_plans, c(list(map, labels), call)))
  expect_equal(names(reports), c("CD", colnames(labels)))
  text <- paste0("plan ", names(reports), "\n", vapply(reports, as.character, ""), collapse = "")
  expect_identical(text, python$text)
})
