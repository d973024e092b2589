# Tests of trial, beside draws whose numbers are counted by hand.
#
#     R CMD INSTALL clients/r && Rscript clients/r/tests/test_trial.R
found <- sub("^--file=", "", grep("^--file=", commandArgs(), value = TRUE)[1])
source(file.path(if (is.na(found)) "." else dirname(found), "support.R"))
if (!has_program) leave_out("no program was found")
if (is.na(root)) leave_out("the shipped examples aren't beside it")

near <- function(one, other) isTRUE(all.equal(one, other, tolerance = 1e-9))

# The same draws by draw, and what their logs and reports say.
by_hand <- function(design, frame, columns, seeds) {
  lapply(seeds, function(seed) {
    record <- tempfile("record")
    drawn <- suppressWarnings(draw(design, frame, seed = seed, record = record))
    section <- NULL
    wide <- c()
    for (words in strsplit(readLines(file.path(record, "log.txt")), " ")) {
      if (words[1] == "stratum") {
        section <- words[2]
        flights <- 0
      }
      if (words[1] == "flight") flights <- flights + 1
      if (words[1] == "wide") wide[section] <- flights
    }
    lines <- strsplit(grep("^left", readLines(file.path(record, "report.txt")), value = TRUE), " ")
    unlink(record, recursive = TRUE)
    totals <- vapply(columns, function(column) sum(drawn$sample$weight * drawn$sample[[column]]), 0)
    list(wide = wide, left = vapply(lines, function(words) as.numeric(words[3]), 0), totals = totals, selected = nrow(drawn$sample))
  })
}

agree <- function(what, tried, counted, known) {
  flights <- lapply(seq_len(nrow(tried$strata)), function(one) unlist(lapply(counted, function(row) row$wide[as.character(one)])))
  flights <- lapply(flights, function(one) one[!is.na(one)])
  expect(paste(what, "wide"), near(tried$strata$wide, lengths(flights) / length(counted)))
  expect(paste(what, "flights"), near(tried$strata$flights, vapply(flights, function(one) if (length(one)) median(one) else NA_real_, 0)))
  left <- vapply(counted, function(row) row$left, numeric(nrow(tried$strata)))
  left <- matrix(left, nrow = nrow(tried$strata))
  expect(paste(what, "left"), near(tried$strata$left, apply(left, 1, median)) && near(tried$strata$most_left, apply(left, 1, max)))
  errors <- vapply(counted, function(row) row$totals / known - 1, known)
  errors <- matrix(errors, nrow = length(known))
  expect(paste(what, "known"), near(tried$columns$known, unname(known)))
  expect(paste(what, "errors"), near(unname(tried$errors), errors) && near(tried$columns$mean, rowMeans(errors)) && near(tried$columns$error, sqrt(rowMeans(errors^2))))
  expect(paste(what, "drawn"), near(tried$drawn, range(vapply(counted, function(row) row$selected, 0))))
}

seeds <- sprintf("%064d", 1:4)
n <- 1:90
frame <- data.frame(id = n, s = ifelse(n %% 3 == 0, "tame", "wild"), size = ifelse(n %% 3 == 0, 1, n^2 %% 601 + 200), x = (n * 7919) %% 10007, y = (n * 31) %% 997,
  z = (n * 17) %% 89)
design <- list(version = 1, method = "cube", id = "id", stratum = "s", size = "size", balance = c("x", "y"), n = 24)
tried <- trial(design, frame, columns = c("z", "x"), seeds = seeds)
expect("columns", identical(tried$columns$column, c("x", "y", "z")) && identical(tried$strata$stratum, c("wild", "tame")))
agree("as they stand", tried, by_hand(design, frame, c("x", "y", "z"), seeds), colSums(frame[c("x", "y", "z")]))
expect("one stratum went wide", identical(tried$strata$wide, c(1, 0)))
expect("what is printed", any(grepl("went wide", capture.output(print(tried)))))
fitted <- fit(design, frame)
tried <- trial(fitted, seeds = seeds[1:2])
agree("fitted", tried, by_hand(fitted$design, fitted$frame, c("x", "y"), seeds[1:2]), colSums(frame[c("x", "y")]))
expect("fitted goes wide", all(tried$strata$wide == 0))
tried <- trial(example("villages", "design.toml"), example("villages", "frame.csv"), draws = 3)
expect("villages", identical(tried$drawn, c(12, 12)) && nrow(tried$columns) == 0 && is.na(tried$strata$left))
expect("villages are printed", any(grepl("drawn: 12", capture.output(print(tried)))))
schools <- read.csv(example("schools", "frame.csv"))
tried <- trial(read_design(example("schools", "design.toml")), schools, draws = 3, columns = "pupils")
expect("schools", tried$columns$error < 1e-12 && identical(tried$strata$stratum, c("Kerrier", "Restormel", "Carrick", "Penwith")))
pdf(NULL)
plot(tried)
invisible(dev.off())
one <- data.frame(id = 1:10, x = 1:10 %% 2 * 2 - 1)
plain <- list(version = 1, method = "pivotal", id = "id", n = 4)
tried <- trial(plain, one, draws = 2, columns = "x")
expect("a total of nothing", is.na(tried$columns$mean) && is.na(tried$columns$error) && length(capture.output(print(tried))) > 3)
errors <- replicate(2, trial(plain, data.frame(id = 1:30, x = (1:30)^3), draws = 6, columns = "x")$errors, simplify = FALSE)
expect("seeds are new each time", !identical(errors[[1]], errors[[2]]))
for (seeds in list(character(0), strrep("0", 63)))
  expect("a seed is refused", inherits(tryCatch(trial(plain, one, seeds = seeds), error = identity), "error"))
found <- tryCatch(trial(plain, one, columns = "y"), error = conditionMessage)
expect(paste("a column that isn't there:", found), identical(found, "y: the frame has no column of this name"))

tell_and_end()
