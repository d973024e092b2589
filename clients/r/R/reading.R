# From the program: what it wrote and put, as values.

# The records of a CSV file as a data frame of texts, as docs/formats.md has them: the first record has the names, and an empty line is none.
records <- function(bytes) {
  while (length(bytes) >= 3 && all(bytes[1:3] == as.raw(c(0xef, 0xbb, 0xbf)))) bytes <- bytes[-(1:3)]
  if (any(bytes == 0)) stop("a text with a zero byte, which R can't hold")
  bytes <- c(bytes, charToRaw("\n"))
  at <- which(bytes == charToRaw(",") | bytes == charToRaw("\n") | bytes == charToRaw("\r") | bytes == charToRaw("\""))
  mark <- bytes[at]
  is_quote <- mark == charToRaw("\"")
  is_open <- cumsum(is_quote) %% 2 == 1
  is_cut <- !is_quote & !is_open
  # A quote opens a field, closes one, or is one of two: behind one that opens, and before one that closes, there is a cut or another quote.
  beside <- c(at[1] == 1, diff(at) == 1, FALSE) & c(TRUE, is_cut | is_quote) & c(is_cut | is_quote, TRUE)
  if (is_open[length(at)] || !all(beside[which(is_quote & is_open)]) || !all(beside[which(is_quote & !is_open) + 1]))
    stop("a quote inside a field: read the file yourself, and give its data frame")
  cuts <- at[is_cut]
  is_last <- mark[is_cut] != charToRaw(",")
  from <- c(1, cuts[-length(cuts)] + 1)
  to <- cuts - 1
  is_field <- !(c(TRUE, is_last[-length(is_last)]) & is_last & from > to)
  from <- from[is_field]
  to <- to[is_field]
  width <- which(is_last[is_field])[1]
  in_quotes <- bytes[from] == charToRaw("\"") & to > from
  text <- rawToChar(bytes)
  Encoding(text) <- "latin1" # so that places are those of bytes
  parts <- substring(text, from + in_quotes, to - in_quotes)
  Encoding(parts) <- "UTF-8"
  parts[in_quotes] <- gsub("\"\"", "\"", parts[in_quotes], fixed = TRUE)
  columns <- lapply(seq_len(width), function(place) parts[seq(place, length(parts), width)][-1])
  structure(columns, names = parts[seq_len(width)], row.names = seq_len(length(parts) / width - 1), class = "data.frame")
}

# The numbers that exact fractions are nearest to, but for the rounding of two whole numbers and of their quotient.
number <- function(fractions) as.numeric(sub("/.*", "", fractions)) / as.numeric(sub(".*/", "", fractions))

# What a command lists of a frame: rows of ids and one fraction.
listed <- function(command, design, frame) {
  folder <- new_folder()
  on.exit(remove_folder(folder))
  carry(folder, design, frame)
  rows <- records(run(folder, command, inputs))
  rows$probability_exact <- rows$probability
  rows$probability <- number(rows$probability)
  in_kind(rows, frame)
}

# Rows in the kind of a frame: a data frame, a tibble or a data.table.
in_kind <- function(rows, frame) {
  if (inherits(frame, "data.table") && requireNamespace("data.table", quietly = TRUE)) return(data.table::as.data.table(rows))
  if (inherits(frame, "tbl_df")) {
    row.names(rows) <- NULL
    class(rows) <- c("tbl_df", "tbl", "data.frame")
  }
  rows
}

# The numbers of the sections of a log in which a step `wide` stands, with the steps `flight` before it; of one section alone where its number is given. A log of
# version 1 has no sections: each such step counts, and nothing is known of it.
wide_sections <- function(path, alone) {
  lines <- readLines(path, warn = FALSE, skipNul = TRUE)
  is_wide <- startsWith(lines, "wide ")
  if (lines[1] != "sampler-log 2") {
    unknown <- rep(NA_real_, sum(is_wide))
    return(data.frame(stratum = unknown, flights = unknown))
  }
  begins <- which(startsWith(lines, "stratum "))
  numbers <- as.numeric(vapply(strsplit(lines[begins], " ", fixed = TRUE), `[`, "", 2))
  if (!is.null(alone)) {
    is_it <- which(numbers == alone)[1]
    ends <- which(lines == lines[begins[is_it]] | startsWith(lines, paste0("done ", alone, " ")))
    end <- ends[ends > begins[is_it]][1]
    is_wide[seq_along(is_wide) < begins[is_it] | seq_along(is_wide) > end] <- FALSE
  }
  at <- which(is_wide)
  section <- findInterval(at, begins)
  flights <- cumsum(startsWith(lines, "flight "))
  data.frame(stratum = numbers[section], flights = as.numeric(flights[at] - flights[begins[section]]))
}

# The draw that stands in the folder: its rows are found by their ids, of which the program lets none stand twice.
drawn <- function(folder, given, frame, report, seed, alone = NULL) {
  writeBin(report, file.path(folder, "report.txt"))
  lines <- strsplit(strsplit(as_text(report), "\n", fixed = TRUE)[[1]], " ", fixed = TRUE)
  of <- function(kind) do.call(rbind, Filter(function(words) words[1] == kind, lines))
  column <- function(words, place) if (is.null(words)) character(0) else words[, place]
  numbers <- of("selected")
  left <- of("left")
  balance <- of("balance")
  estimates <- replace(column(balance, 4), column(balance, 4) == "wide", NA)
  selected <- records(bytes_of(file.path(folder, "sample.csv")))
  places <- match(selected$id, given$ids)
  if (anyNA(places)) stop("the ids of the frame aren't those that the program read")
  sample <- given$rows[places, , drop = FALSE]
  sample$weight <- number(selected$weight)
  sample$weight_exact <- selected$weight
  names <- names_of_strata(given)
  left <- data.frame(stratum = as.numeric(column(left, 2)), left = as.numeric(column(left, 3)))
  wide <- wide_sections(file.path(folder, "log.txt"), alone)
  place <- as.numeric(column(balance, 3))
  balance <- data.frame(
    stratum = as.numeric(column(balance, 2)), column = place, estimate = number(estimates), estimate_exact = estimates, total = as.numeric(column(balance, 5))
  )
  named <- function(rows) cbind(rows["stratum"], stratum_name = names[rows$stratum], rows[-1])
  balance <- named(balance)
  balance <- cbind(balance[1:3], column_name = as.character(unlist(given$design$balance))[place], balance[-(1:3)])
  structure(list(
    sample = in_kind(sample, frame),
    selected = as.numeric(numbers[2]), units = as.numeric(numbers[4]), steps = as.numeric(of("steps")[2]),
    left = named(left), balance = balance, wide = named(wide), design = given$design, seed = seed
  ), class = "sampler_draw")
}

# The lines of weights.csv: the sample of the program with a second column of weights, each rounded to twelve significant digits.
weights_lines <- function(folder) {
  selected <- records(bytes_of(file.path(folder, "sample.csv")))
  c("\"id\",\"weight_exact\",\"weight_rounded\"",
    paste(in_quotes(selected$id), in_quotes(selected$weight), sprintf("%.12g", number(selected$weight)), sep = ",", recycle0 = TRUE))
}
