# Tests of what is promised by the theorem that is proved of the program: the answers of the library for made-up units, and what is said of a design.
#
#     R CMD INSTALL clients/r && Rscript clients/r/tests/test_bound.R
#
# With PYTHON in the environment made-up units of any size are compared with that Python's package too.
found <- sub("^--file=", "", grep("^--file=", commandArgs(), value = TRUE)[1])
source(file.path(if (is.na(found)) "." else dirname(found), "support.R"))
inside <- sampler

# ---------------------------------------------------------------------------------------------------------------------------------------------
# Numbers of any size

expect("a remainder", inside$rest_of(inside$product(c(2^31 - 1, 2^31 - 19, 2^40)), 2^31 - 1) == 0 &&
  inside$rest_of(inside$product(c(1e9 + 7, 1e9 + 9)), 2^31 - 1) == 2094140845 && inside$rest_of(inside$big(0), 7) == 0)
expect("a multiple", identical(inside$multiple_of_sizes(2^44, c(64, 63)), inside$product(c(2^44, 63))) && identical(inside$multiple_of_sizes(60, c(4, 6, 10)), inside$big(60)) &&
  identical(inside$multiple_of_sizes(2^49, 2^31 - 1), inside$product(c(2^49, 2^31 - 1))) && is.null(inside$multiple_of_sizes(2^49 - 1, c(2^31 - 1, 2^31 - 19))) &&
  identical(inside$multiple_of_sizes(1, numeric(0)), inside$big(1)))

# ---------------------------------------------------------------------------------------------------------------------------------------------
# The answers of the library

folder <- file.path(root, "crates", "narrow_cases")
if (!is.na(root) && file.exists(folder)) {
  lines <- grep("^#", readLines(file.path(folder, "stdin")), value = TRUE, invert = TRUE)
  answers <- sub(".*: ", "", readLines(file.path(folder, "stdout")))
  expect("as many answers as cases", length(lines) == length(answers) && setequal(answers, c("narrow", "not narrow", "no units")) && sum(answers == "no units") == 2)
  for (number in which(answers != "no units")) {
    parts <- strsplit(lines[number], ";", fixed = TRUE)[[1]]
    units <- matrix(as.double(unlist(strsplit(parts[-(1:2)], " ", fixed = TRUE))), ncol = max(0, length(parts) - 2))
    sizes <- if (length(units)) units[1, ] else numeric(0)
    columns <- lapply(seq_len(nrow(units))[-1], function(row) units[row, ])
    expect(parts[1], identical(inside$is_narrow(sizes, columns, as.double(parts[2])), answers[number] == "narrow"))
  }
}

# Of made-up units with numbers of any size the same is said as by the Python package.
python <- Sys.getenv("PYTHON")
if (nzchar(python) && !is.na(root)) {
  script <- c(
    "import random, sys",
    "sys.dont_write_bytecode = True",
    sprintf("sys.path.insert(0, r'%s')", file.path(root, "clients", "python")),
    "from sampler.bound import is_narrow",
    "chance = random.Random(65)",
    "for _ in range(1000):",
    "    units, columns = chance.randint(1, 6), chance.randint(0, 15)",
    "    bits = [chance.randint(0, chance.choice([1, 3, 12, 30])) for _ in range(columns + 1)]",
    "    sizes = [chance.randint(1, 2 ** bits[0]) for _ in range(units)]",
    "    values = [[chance.randint(0, 2**own) for _ in range(units)] for own in bits[1:]]",
    "    denominator = chance.randint(max(sizes) + 1, 2 ** chance.randint(31, 49))",
    "    print(int(is_narrow(sizes, values, denominator)), denominator, units, *sizes, *(value for column in values for value in column))"
  )
  writeLines(script, at("units.py"))
  said <- lapply(strsplit(system2(python, at("units.py"), stdout = TRUE), " ", fixed = TRUE), as.double)
  same_said <- vapply(said, function(one) {
    rows <- matrix(one[-(1:3)], nrow = one[3])
    identical(inside$is_narrow(rows[, 1], lapply(seq_len(ncol(rows))[-1], function(column) rows[, column]), one[2]), one[1] == 1)
  }, TRUE)
  expect("made-up units", length(said) == 1000 && all(same_said) && length(unique(vapply(said, function(one) one[1], 0))) == 2)
}

# ---------------------------------------------------------------------------------------------------------------------------------------------
# By what it is promised that no draw goes wide

if (!has_program) leave_out("no program was found")

# A frame whose probabilities are these numerators over the denominator, and a design of it.
frame_of <- function(numerators, columns, denominator, strata = "all") {
  rows <- data.frame(id = paste0("u", seq_along(numerators)), p = sprintf("%.0f/%.0f", numerators, denominator), stratum = strata)
  cbind(rows, structure(columns, names = paste0("x", seq_along(columns)), row.names = seq_along(numerators), class = "data.frame"))
}
design_for <- function(columns, method = "cube", ...) list(version = 2, method = method, id = "id", prob = "p", balance = paste0("x", seq_len(columns)), ...)
by_of <- function(design, frame) promise(design, frame)$strata$by

for (one in list(list(10000, "proved"), list(11360, "proved"), list(11361, "on paper"), list(20642, "on paper"), list(20643, NA_character_))) {
  most <- one[[1]]
  columns <- list(c(most, 0, 0, 7, most, 1, 1, 0), c(0, most, 0, 7, 2, most, 1, 0), c(0, 0, most, 7, 2, 1, 1, 0))
  frame <- frame_of(rep(1, 8), columns, 4)
  expect(paste("three columns to", most), identical(by_of(design_for(3), frame), one[[2]]) &&
    identical(by_of(design_for(3, "local_cube", near = "x1"), frame), one[[2]]) &&
    identical(by_of(design_for(3, "stratified_cube"), frame), if (one[[2]] %in% "proved") "on paper" else one[[2]]))
}
expect("a value below 0", identical(by_of(design_for(1), frame_of(rep(1, 4), list(c(-1, 0, 3, 2)), 2)), "on paper"))
expect("values that are no levels", identical(by_of(design_for(1), frame_of(c(2, 3, 3, 2, 2), list(c(1, 1, 2, 5, 7)), 6)), "proved") &&
  identical(by_of(design_for(1, "stratified_cube"), frame_of(c(2, 3, 3, 2, 2), list(c(1, 1, 2, 5, 7)), 6)), NA_character_) &&
  identical(by_of(design_for(1, "stratified_cube"), frame_of(c(2, 3, 3, 2, 2), list(c(2, 3, 6, 4, 8)), 6)), "on paper"))
strata <- rep(c("a", "b", "c"), c(4, 4, 2))
frame <- frame_of(c(1, 1, 1, 3, 1, 1, 1, 3, 3, 0), list(c(5, 0, 1, 2^31 - 1, 5, 0, -1, 1 - 2^31, 2^31 - 1, 9)), 3, strata)
expect("each stratum by itself", identical(promise(design_for(1, stratum = "stratum"), frame)$strata,
  data.frame(stratum = c("a", "b", "c"), free = c(3L, 3L, 0L), by = c("proved", "on paper", "proved"))))
expect("all strata together", identical(promise(design_for(1, "stratified_cube", stratum = "stratum"), frame)$strata,
  data.frame(stratum = NA_character_, free = 6L, by = "on paper")))
printed <- capture.output(print(promise(design_for(1, stratum = "stratum"), frame)))
expect("what is printed of it", any(grepl("no draw goes wide", printed)) && any(grepl("b +3 +on paper", printed)))
expect("another method", inherits(caught(promise(list(version = 1, method = "pivotal", id = "id", n = 1), data.frame(id = 1:2))), "error"))
expect("what the program refuses", inherits(caught(promise(design_for(1), frame_of(c(1, 1), list(c(2^31, 0)), 2))), "sampler_refusal"))

# What `fit` says of what it made.
if (!is.na(root)) {
  fitted <- fit(example("firms", "design.toml"), example("firms", "frame.csv"))
  expect("the firms", all(fitted$strata$by == "on paper") && "by an argument on paper (docs/narrow.md)" %in% capture.output(print(fitted)) &&
    identical(by_of(example("firms", "fitted/design.toml"), example("firms", "fitted/frame.csv")), "on paper"))
  expect("as they stand", identical(by_of(example("firms", "design.toml"), example("firms", "frame.csv")), NA_character_))
}
rows <- data.frame(id = 1:40, area = c("a", "b"), x = 0:39 %% 5 - 0:1)
given <- list(version = 2, method = "cube", id = "id", stratum = "area", n = 10, balance = "x")
some <- fit(given, rows)
words <- "by a theorem that is proved of the program (docs/proved.md)"
expect("some proved", identical(some$strata$by, c("proved", "on paper")) && identical(by_of(some$design, some$frame), some$strata$by) &&
  paste(words, "in 1 of 2 strata, and by an argument on paper (docs/narrow.md) in the others") %in% capture.output(print(some)))
rows$x <- abs(rows$x)
expect("all proved", words %in% capture.output(print(fit(given, rows))))

tell_and_end()
