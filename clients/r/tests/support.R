# What the tests of the R package share. It holds no test.
#
# The program is that of the environment's SAMPLER, or else the one at the top of the repository, or of the archive. Where the tests stand apart from these, as
# they do when the package is checked, `root` is NA: the tests that need the shipped examples are left out then, and say so.
library(sampler)
own <- sub("^--file=", "", grep("^--file=", commandArgs(), value = TRUE)[1])
here <- if (is.na(own)) getwd() else dirname(normalizePath(own))
root <- dirname(dirname(dirname(here)))
if (!file.exists(file.path(root, "examples", "farms", "frame.csv"))) root <- NA
if (!nzchar(Sys.getenv("SAMPLER")) && !is.na(root)) Sys.setenv(SAMPLER = file.path(root, "sampler"))
has_program <- !is.null(program(FALSE))
real <- if (has_program) program()$path
if (has_program) Sys.setenv(SAMPLER = real)
sampler <- asNamespace("sampler")
file_of_tests <- if (is.na(own)) "tests" else basename(own)

passed <- 0
failed <- 0
expect <- function(what, holds) {
  if (isTRUE(holds)) {
    passed <<- passed + 1
  } else {
    failed <<- failed + 1
    message(file_of_tests, ": ", what)
  }
}

# Says how many passed, and ends with 1 where one didn't.
tell_and_end <- function() {
  unlink(work, recursive = TRUE)
  cat(file_of_tests, ": ", passed, " passed, ", failed, " failed\n", sep = "")
  if (failed) quit(status = 1)
}

# Ends where what a file of tests needs isn't there.
leave_out <- function(why) {
  cat(file_of_tests, ": ", passed, " passed, ", failed, " failed; the others were left out, since ", why, "\n", sep = "")
  quit(status = if (failed) 1 else 0)
}

work <- tempfile("work")
dir.create(work)
at <- function(name) file.path(work, name)
example <- function(name, file) file.path(root, "examples", name, file)
content <- function(path) readBin(path, "raw", file.size(path))
text_of <- function(path) { text <- rawToChar(content(path)); Encoding(text) <- "UTF-8"; text }
put <- function(name, text) { writeBin(charToRaw(enc2utf8(text)), at(name)); at(name) }
rows_of <- function(name) read.csv(example(name, "frame.csv"), check.names = FALSE, fileEncoding = "UTF-8-BOM", encoding = "UTF-8")
same <- function(one, other) identical(content(one), content(other))

# What the call refuses with, or NULL.
caught <- function(call) tryCatch({ call; NULL }, error = identity)

refused <- function(code, line, call, row = NA_integer_, column = NA_character_) {
  found <- caught(call)
  expect(paste("refusal", code, line, "and not", conditionMessage(found)), inherits(found, "sampler_refusal") && identical(found$line, line) && found$code == code &&
    identical(found$row, row) && identical(found$column, column) && nzchar(conditionMessage(found)))
}

# Runs a call with a script in the place of the program, whose path PROGRAM stands for.
with_program <- function(script, call) {
  path <- put("it's $HOME; `a` program", paste0("#!/bin/sh\n", gsub("PROGRAM", shQuote(real), script, fixed = TRUE)))
  Sys.chmod(path, "700")
  Sys.setenv(SAMPLER = path)
  on.exit(Sys.setenv(SAMPLER = real))
  force(call)
}

