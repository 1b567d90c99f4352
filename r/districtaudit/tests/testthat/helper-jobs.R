# What the tests need from outside of the package: the program, and the repository with its samples
# and its Python package. A test is skipped, by name, if one of them is not here.

KEY <- "2b7e151628aed2a6abf7158809cf4f3c762e7160f38b4da56a784d9045190cfe"

skip_without_program <- function() {
  if (inherits(try(find_program(), silent = TRUE), "try-error")) skip("no program district-audit")
}

# Returns a file of the repository. A copy of the package that R CMD check made is elsewhere, so a
# variable may name the repository.
in_repository <- function(...) {
  top <- Sys.getenv("DISTRICTAUDIT_REPOSITORY", file.path("..", "..", "..", ".."))
  path <- file.path(top, ...)
  if (!file.exists(path)) skip(paste("no repository with", file.path(...)))
  normalizePath(path)
}

sample_graph <- function(name) in_repository("examples", "data", name)

FOUND <- new.env()

# Returns a Python that has what the Python package needs for these jobs.
find_python <- function() {
  if (is.null(FOUND$python)) {
    FOUND$python <- ""
    for (name in c(Sys.getenv("DISTRICTAUDIT_PYTHON", "python3"), "/usr/bin/python3")) {
      path <- Sys.which(name)
      words <- c("-c", shQuote("import networkx, pandas"))
      if (!nzchar(FOUND$python) && nzchar(path) && system2(path, words, stderr = FALSE) == 0) {
        FOUND$python <- path
      }
    }
  }
  if (!nzchar(FOUND$python)) skip("no python3 with networkx and pandas")
  FOUND$python
}

# Returns the text and the lines that the Python package makes of each job, in one call.
by_python_all <- function(jobs) {
  package <- in_repository("python")
  python <- find_python()
  file <- tempfile("jobs-")
  on.exit(unlink(paste0(file, "*")))
  whole <- lapply(unname(jobs), function(job) {
    lapply(c(command = "command", graph = "graph", prepare = "prepare", call = "call", table = "table"), function(name) {
      if (name == "call" && length(job$call) == 0) structure(list(), names = character()) else job[[name]]
    })
  })
  writeLines(jsonlite::toJSON(whole, auto_unbox = TRUE, null = "null", digits = NA), file)
  err <- paste0(file, ".err")
  end <- system2(
    python, shQuote(c(normalizePath("python_call.py"), file)),
    env = paste0("PYTHONPATH=", shQuote(package)), stdout = FALSE, stderr = err
  )
  if (end != 0) stop(paste(readLines(err), collapse = "\n"))
  read <- function(path) if (file.size(path) > 0) readChar(path, file.size(path), useBytes = TRUE) else ""
  found <- lapply(seq_along(jobs), function(place) {
    list(
      text = read(paste0(file, ".", place, ".text")), lines = readLines(paste0(file, ".", place, ".csv"))
    )
  })
  names(found) <- names(jobs)
  found
}

# Returns the text and the lines that the Python package makes of a job.
by_python <- function(command, graph, prepare, call = list(), table = NULL) {
  by_python_all(list(list(command = command, graph = graph, prepare = prepare, call = call, table = table)))[[1]]
}

GRID <- list(population = "TOTPOP", first = "DEM", second = "REP", district = "CD")
GROUPS <- list(population = "pop", first = "a", second = "b", district = "d")

# Returns a prepared map without its warnings.
quietly <- function(...) suppressWarnings(...)

# Returns the classes of the warnings of an expression.
classes_of <- function(code) {
  found <- character()
  withCallingHandlers(code, MapWarning = function(one) {
    found <<- c(found, class(one)[1])
    invokeRestart("muffleWarning")
  })
  found
}

# Returns six by six units in three districts of two rows each, and their neighbors.
small_units <- function() {
  place <- expand.grid(column = 1:6, row = 1:6)
  data.frame(
    place,
    id = paste0("u", place$column, place$row), pop = 1000, a = 200 + 10 * place$row, b = 230,
    d = (place$row + 1) %/% 2, stringsAsFactors = FALSE
  )
}

small_neighbors <- function(units = small_units()) {
  apart <- as.matrix(dist(units[c("column", "row")]))
  lapply(seq_len(nrow(units)), function(unit) unname(which(apart[unit, ] == 1)))
}

# Prepares these units; `...` replaces arguments.
prepare_small <- function(units = small_units(), ...) {
  given <- list(
    map = units, population = "pop", first = "a", second = "b", district = "d",
    adjacency = small_neighbors(), slack = 2000
  )
  more <- list(...)
  given[names(more)] <- more
  do.call(audit_prepare, given)
}

# Returns the small units as squares of 500 meters; the last one lies apart with `island`.
small_map <- function(units = small_units(), side = 500, crs = 26918, island = FALSE) {
  shapes <- lapply(seq_len(36), function(at) {
    x <- side * units$column[at] + if (island && at == 36) 3 * side else 0
    y <- side * units$row[at]
    sf::st_polygon(list(cbind(x + side * c(0, 1, 1, 0, 0), y + side * c(0, 0, 1, 1, 0))))
  })
  sf::st_sf(units, geometry = sf::st_sfc(shapes, crs = crs))
}

# Prepares this map.
prepare_map <- function(map = small_map(), ...) {
  audit_prepare(map, "pop", "a", "b", "d", ..., id = "id", slack = 2000)
}
