# What a call is refused with, and what it warns of.

# The program refused, or failed. code, line: its exit code and the line that it put, "" with the codes 12 to 14. row, column: those that the line names, else
# NA. Row 1 is the first one after the header.
refuse <- function(code, line) {
  place <- function(pattern) {
    found <- regmatches(line, regexec(paste0("(?s)^error 4\\.[0-9]+ ", pattern, "\\z"), line, perl = TRUE))[[1]]
    if (length(found)) found[2] else NA_character_
  }
  row <- place("[a-z ]*row ([0-9]+)(?: column .*| isn't UTF-8)?")
  column <- place(if (is.na(row)) "(?:missing|repeated) column (.*)" else "[a-z ]*row [0-9]+ column (.*)")
  without_line <- c("12" = "a file couldn't be read", "13" = "a file couldn't be written, or the result couldn't be put", "14" = "memory ran out")
  said <- without_line[as.character(code)]
  message <- if (nzchar(line)) line else if (is.na(said)) paste("the program ended with code", code) else said[[1]]
  stop(structure(
    list(message = message, call = NULL, code = code, line = line, row = as.integer(row), column = column),
    class = c("sampler_refusal", "error", "condition")
  ))
}

# A value can't be written without a guess. column: its column, or its key in a design; row: as above, NA of a design or of a whole column.
bad_value <- function(column, row, reason) {
  message <- if (is.na(row)) paste0(column, ": ", reason) else paste0("column ", column, ", row ", row, ": ", reason)
  fields <- list(message = message, call = NULL, row = row, column = column, reason = reason)
  stop(structure(fields, class = c("sampler_bad_value", "error", "condition")))
}

# A warning of a class of its own.
tell <- function(class, message) warning(structure(list(message = message, call = NULL), class = c(class, "warning", "condition")))
