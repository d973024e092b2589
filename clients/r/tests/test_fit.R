# Tests of fit: that it gives the same bytes as the Python package, on the shipped example and on made-up frames, and what it refuses.
#
#     R CMD INSTALL clients/r && Rscript clients/r/tests/test_fit.R
#
# With PYTHON in the environment the fitted files of that Python's package are compared on made-up frames too.
found <- sub("^--file=", "", grep("^--file=", commandArgs(), value = TRUE)[1])
source(file.path(if (is.na(found)) "." else dirname(found), "support.R"))
if (!has_program) leave_out("no program was found")
if (is.na(root)) leave_out("the shipped examples aren't beside it")
inside <- sampler

# The files that a fitted design and frame make.
carried <- function(fitted, name) {
  dir.create(at(name))
  inside$carry(at(name), fitted$design, fitted$frame)
  at(name)
}

# ---------------------------------------------------------------------------------------------------------------------------------------------
# The bound

for (columns in 1:15) for (strata in c(1, 2, 6, 12)) {
  steps <- inside$steps_beside(2520, columns, strata, 2^31 - 1)
  expect(paste("steps of", columns, "columns in", strata), inside$holds_exactly(2520, rep(steps, columns), strata) &&
    (steps == 2^31 - 1 || !inside$holds_exactly(2520, rep(steps + 1, columns), strata)))
}
page <- file.path(root, "docs", "narrow.md")
if (file.exists(page)) {
  lines <- grep("^\\| [0-9]", readLines(page), value = TRUE)
  for (columns in seq_along(lines)) {
    cells <- gsub("[ ,]", "", gsub("2^31 - 1", "2147483647", strsplit(lines[columns], "|", fixed = TRUE)[[1]][-1], fixed = TRUE))
    wanted <- c(columns, vapply(c(1, 60, 2520, 27720, 720720), function(multiple) inside$steps_beside(multiple, columns, 1, 2^31 - 1), 0))
    expect(paste("the table of docs/narrow.md in its line of", columns), identical(cells[1:6], sprintf("%.0f", wanted)))
  }
}
expect("a product of large numbers", identical(inside$product(c(2^44, 2^44, 3)), inside$times(inside$big(2^50), inside$product(c(2^38, 3)))))
expect("a number at the bound", inside$holds_exactly(2^43, c(1, 1, 1), 1) && !inside$holds_exactly(2^43 + 1, c(1, 1, 1), 1))
expect("a multiple as it grows", identical(inside$multiple_within(c(4, 6, 10), 60), 60) && is.null(inside$multiple_within(c(4, 6, 10), 59)) &&
  is.null(inside$multiple_within(1:1e5, 1e9)))

# ---------------------------------------------------------------------------------------------------------------------------------------------
# The shipped example

for (given in list(list(example("firms", "design.toml"), example("firms", "frame.csv")),
                   list(read_design(example("firms", "design.toml")), read.csv(example("firms", "frame.csv"))))) {
  fitted <- fit(given[[1]], given[[2]])
  record <- tempfile("record")
  drawn <- draw(fitted$design, fitted$frame, seed = readLines(example("firms", "seed.txt")), record = record)
  for (name in c("design.toml", "frame.csv", "log.txt", "sample.csv", "report.txt"))
    expect(paste("firms has another", name), same(file.path(record, name), example("firms/fitted", name)))
  expect("firms goes wide", nrow(drawn$wide) == 0)
  unlink(record, recursive = TRUE)
}
expect("what is printed", any(grepl("promised: no draw", capture.output(print(fitted)))))
expect("a formula", identical(fit(replace(given[[1]], "balance", list(~ turnover + wages)), given[[2]])$design$balance, c("turnover_fitted", "wages_fitted")))

# ---------------------------------------------------------------------------------------------------------------------------------------------
# Made-up frames, beside Python

python <- Sys.getenv("PYTHON")
if (nzchar(python)) {
  script <- c(
    "import csv, os, sys",
    "sys.dont_write_bytecode = True",
    sprintf("sys.path[:0] = [r'%s', r'%s']", file.path(root, "clients", "python"), file.path(root, "clients", "python", "tests")),
    "import fitting, sampler",
    "from sampler.frame import carry",
    "for number in map(int, sys.argv[2:]):",
    "    design, frame = fitting.made_up(number)",
    "    folder = os.path.join(sys.argv[1], str(number))",
    "    os.mkdir(folder)",
    "    with open(os.path.join(folder, 'given.csv'), 'w', newline='') as file:",
    "        writer = csv.DictWriter(file, list(frame[0]), lineterminator='\\n')",
    "        writer.writeheader()",
    "        writer.writerows(frame)",
    "    with open(os.path.join(folder, 'given.toml'), 'w') as file:",
    "        file.write(sampler.toml(design))",
    "    fitted = sampler.fit(design, frame)",
    "    carry(folder, fitted.design, fitted.frame)"
  )
  writeLines(script, at("fitted.py"))
  numbers <- c(0:14, 22, 35, 44)
  expect("Python ends well", system2(python, c(at("fitted.py"), work, numbers)) == 0)
  for (number in numbers) {
    fitted <- fit(file.path(at(number), "given.toml"), read.csv(file.path(at(number), "given.csv")))
    folder <- carried(fitted, paste0("r", number))
    expect(paste("another design of", number), same(file.path(folder, "design.toml"), file.path(at(number), "design.toml")))
    expect(paste("another frame of", number), same(file.path(folder, "frame.csv"), file.path(at(number), "frame.csv")))
  }
}

# ---------------------------------------------------------------------------------------------------------------------------------------------
# Probabilities as they are given

cube <- list(version = 2, method = "cube", id = "id", prob = "p", balance = "x")
for (given in list(0.3, "3/10")) {
  frame <- data.frame(id = 1:70, p = given, x = (0:69 * 37) %% 101)
  fitted <- fit(cube, frame)
  expect("equal probabilities are kept", all(fitted$frame$prob_fitted == "3/10") && all(fitted$frame$x_fitted == frame$x))
}
frame <- data.frame(id = 1:18, p = paste0(rep(1:3, 6), "/9"), x = rep(1:3, 6) * ((1:18 * 7) %% 20))
fitted <- fit(cube, frame)
expect("what fits is kept", all(inside$number(fitted$frame$prob_fitted) == inside$number(frame$p)) && all(fitted$frame$x_fitted == frame$x))
villages <- data.frame(id = 1:120, psu = paste0("v", 0:119 %/% 5), people = (1:120 * 77) %% 311 + 1, x = (1:120 * 13) %% 57)
two <- list(version = 2, method = "cube", id = "id", size = "people", n = 6, balance = "x", second = list(psu = "psu", method = "pivotal", n = 2))
fitted <- fit(two, villages)
drawn <- draw(fitted$design, fitted$frame, seed = strrep("0", 64))
expect("two stages", nrow(drawn$sample) == 12 && nrow(drawn$wide) == 0 && fitted$strata$number == 6)

# ---------------------------------------------------------------------------------------------------------------------------------------------
# What is refused, by name

unfitted <- function(message, class, ...) {
  found <- caught(fit(...))
  expect(paste("refusal", message, "and not", conditionMessage(found)), inherits(found, class) && identical(conditionMessage(found), message))
}
frame <- data.frame(id = 1:4, x = 0:3, p = 0.5)
unfitted("only a design by cube, local_cube or stratified_cube is fitted", "sampler_unfit", replace(cube, "method", "pivotal"), frame)
unfitted("balance names 1 to 15 columns, each once", "sampler_unfit", replace(cube, "balance", list(c("x", "x"))), frame)
unfitted("x_fitted: the frame has a column of this name already", "sampler_bad_value", cube, cbind(frame, x_fitted = 1))
unfitted("y: the frame has no column of this name", "sampler_bad_value", replace(cube, "balance", "y"), frame)
unfitted("column x, row 2: a value is missing", "sampler_bad_value", cube, transform(frame, x = c(1, NA, 2, 3)))
unfitted("column p, row 3: 1.5 is no probability", "sampler_bad_value", cube, transform(frame, p = c(0.5, 0.5, 1.5, 0.5)))
unfitted("stratum a: its 3 probabilities between 0 and 1 add up to 0.3: no whole number of them can be drawn", "sampler_unfit", c(cube, stratum = "s"),
  data.frame(id = 1:7, s = rep(c("b", "a"), 4:3), x = 1:7, p = rep(c(0.5, 0.1), 4:3)))
unfitted("column x: 0 steps are left, and 3 are needed", "sampler_unfit", cube, data.frame(id = 1:5, x = c(0:3, 1e12), p = c(0.5, 0.5, 0.5, 0.5, 1)), levels = 3)

tell_and_end()
