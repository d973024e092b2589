# The commands. Their help pages are in man/.

check <- function(design, frame) {
  folder <- new_folder()
  on.exit(remove_folder(folder))
  given <- carry(folder, design, frame)
  found <- regmatches(put <- as_text(run(folder, "check", inputs)), gregexpr("[0-9]+", put))[[1]]
  # Of a file with a quote inside a field, which the program reads and this package doesn't, the strata aren't listed.
  of_strata <- tryCatch(strata_of(given), error = function(unread) NULL)
  structure(list(units = as.numeric(found[1]), strata = as.numeric(found[2]), of_strata = of_strata), class = "sampler_check")
}

probs <- function(design, frame) listed("probs", design, frame)

joint <- function(design, frame) listed("joint", design, frame)

seed_of <- function(sentence) {
  if (!is.character(sentence) || length(sentence) != 1 || is.na(sentence)) stop("a sentence is one text")
  sha256_of_bytes(charToRaw(utf8(sentence, "sentence")))
}

draw <- function(design, frame, seed = NULL, tape = NULL, record = NULL) {
  if (!is.null(seed) && !is.null(tape)) stop("a draw goes by a seed or by a tape, not by both")
  if (is.null(seed) && is.null(tape)) seed <- new_seed()
  if (!is.null(seed) && !(is.character(seed) && length(seed) == 1 && grepl("^[0123456789ABCDEFabcdef]{64}\\z", seed, perl = TRUE)))
    stop("a seed is a text of 64 hexadecimal digits (set.seed has no effect here); seed_of makes one of a sentence that was settled beforehand")
  is_kept <- FALSE
  folder <- new_folder(record)
  on.exit(if (!is_kept) remove_folder(folder))
  given <- carry(folder, design, frame, is_drawn = TRUE)
  if (!is.null(seed)) {
    write_lines(folder, "seed.txt", seed)
    source <- c("--seed", seed)
  } else {
    if (is.character(tape)) copy(tape, folder, "tape.txt") else write_lines(folder, "tape.txt", whole(tape, "tape"))
    source <- c("--tape", "tape.txt")
  }
  report <- run(folder, "draw", c(inputs, source, "--log", "log.txt", "--sample", "sample.csv"))
  result <- drawn(folder, given, frame, report, seed)
  if (!is.null(record)) complete(folder, design, frame)
  is_kept <- !is.null(record)
  # Behind the record, which is kept also where a warning is made an error.
  if (nrow(result$wide)) tell("sampler_wide", advice(result))
  result
}

# Writes what a record has more than the files of the program.
complete <- function(folder, design, frame) {
  write_lines(folder, "weights.csv", weights_lines(folder))
  write_lines(folder, "versions.txt", versions(design, frame))
}

replay <- function(design, frame, log, stratum = NULL, record = NULL) {
  if (length(stratum) > 1) stop("stratum: one number or one name")
  is_kept <- FALSE
  folder <- new_folder(record)
  on.exit(if (!is_kept) remove_folder(folder))
  given <- carry(folder, design, frame, is_drawn = TRUE)
  copy(log, folder, "log.txt")
  number <- if (is.character(stratum)) number_of(given, folder, stratum) else if (!is.null(stratum)) whole(stratum, "stratum")
  alone <- if (!is.null(number)) c("--stratum", number)
  report <- run(folder, "replay", c(inputs, "--log", "log.txt", alone, "--sample", "sample.csv"))
  result <- drawn(folder, given, frame, report, NULL, if (!is.null(number)) as.numeric(number))
  if (!is.null(record)) complete(folder, design, frame)
  is_kept <- !is.null(record)
  result
}

# The number, in digits, of the stratum that has a name.
number_of <- function(given, folder, name) {
  run(folder, "check", inputs)
  names <- strata_of(given)$name
  at <- match(utf8(name, "stratum"), names)
  if (is.na(at) && anyNA(names)) stop("the frame has no stratum ", sQuote(name, FALSE), "; the design has no strata")
  if (is.na(at)) {
    known <- paste(sQuote(utils::head(names, 20), FALSE), collapse = ", ")
    stop("the frame has no stratum ", sQuote(name, FALSE), "; it has ", known, if (length(names) > 20) ", ..")
  }
  sprintf("%d", at)
}

# 32 bytes of the operating system's source of randomness, as hexadecimal digits.
new_seed <- function() {
  source <- file("/dev/urandom", "rb", raw = TRUE)
  on.exit(close(source))
  paste(format(readBin(source, "raw", 32)), collapse = "")
}
