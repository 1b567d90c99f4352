# Finds and calls the program.

#' Finds the program district-audit
#'
#' Looks at the option `districtaudit.program`, then at the environment variable `DISTRICT_AUDIT`,
#' then for `district-audit` in the search path.
#'
#' @return The path of the program. Raises an error of class `ProgramFailed` if there is none.
#' @examples
#' try(find_program())
#' @export
find_program <- function() {
  named <- getOption("districtaudit.program", Sys.getenv("DISTRICT_AUDIT"))
  path <- if (nzchar(named)) path.expand(named) else unname(Sys.which("district-audit"))
  if (!nzchar(path)) {
    refuse(
      "ProgramFailed", "the program district-audit is not in the search path: install it, or name",
      " it by options(districtaudit.program = \"PATH\") or the variable DISTRICT_AUDIT"
    )
  }
  if (!file.exists(path) || dir.exists(path)) {
    refuse("ProgramFailed", "there is no program ", path)
  }
  normalizePath(path)
}

# Returns texts as bytes of UTF-8 that R passes on as they are in any locale.
as_passed <- function(words) {
  words <- enc2utf8(words)
  Encoding(words) <- "unknown"
  words
}

# Calls the program on a file as its standard input, in a folder. Returns status, out and note.
#
# system2() has the words read by a shell, so each is quoted: quotes hold every character but a
# quote, which shQuote() writes outside of them.
call_program <- function(words, input, folder = NULL) {
  program <- find_program()
  input <- normalizePath(input, mustWork = TRUE)
  out <- tempfile("audit-out-")
  note <- tempfile("audit-note-")
  on.exit(unlink(c(out, note)), add = TRUE)
  if (!is.null(folder)) {
    before <- setwd(folder)
    on.exit(setwd(before), add = TRUE)
  }
  status <- suppressWarnings(system2(
    program, shQuote(as_passed(words), type = "sh"),
    stdin = input, stdout = out, stderr = note
  ))
  list(status = status, out = read_text(out), note = sub("\n.*", "", read_text(note)))
}

# Returns the text of a file, whose bytes are UTF-8.
read_text <- function(path) {
  size <- file.size(path)
  if (is.na(size) || size == 0) {
    return("")
  }
  text <- rawToChar(readBin(path, "raw", size))
  Encoding(text) <- "UTF-8"
  text
}

# Writes a text in UTF-8, byte for byte.
write_text <- function(text, path) {
  writeBin(charToRaw(enc2utf8(text)), path)
  path
}
