# Tests of what R alone has: its own SHA-256, the reader of TOML, formulas, kinds of data frames, the methods of a draw, and the design for survey. They need the
# package's own files, and the program.
#
#     R CMD INSTALL clients/r && Rscript clients/r/tests/test_package.R
found <- sub("^--file=", "", grep("^--file=", commandArgs(), value = TRUE)[1])
source(file.path(if (is.na(found)) "." else dirname(found), "support.R"))
shipped <- function(name, file) system.file("extdata", name, file, package = "sampler")
seed <- strrep("0", 64)

# ---------------------------------------------------------------------------------------------------------------------------------------------
# SHA-256: the examples of its standard, each length around a block, and the system's own

sha <- function(text) sampler$sha256_of_bytes(charToRaw(text))
expect("of nothing", sha("") == "e3b0c44298fc1c149afbf4c8996fb92427ae41e4649b934ca495991b7852b855")
expect("of abc", sha("abc") == "ba7816bf8f01cfea414140de5dae2223b00361a396177a9cb410ff61f20015ad")
expect("of two blocks", sha("abcdbcdecdefdefgefghfghighijhijkijkljklmklmnlmnomnopnopq") == "248d6a61d20638b8e5c026930c3e6039a33ce45964ff2167f6ecedd419db06c1")
expect("a sentence", seed_of("Lottery of 5 December 2026: 4 11 19 28 33 47") == "ddf767ab2cb78217910048b13f0e22d5bdd3b0edef024a754b4355c1f6e1ed04")
expect("a sentence in Latin-1", { latin <- "\xe9"; Encoding(latin) <- "latin1"; seed_of(latin) == seed_of("\u00e9") && seed_of(latin) == sha("\u00e9") })
for (bad in list(1, c("a", "b"), NA_character_, NULL)) expect("no sentence", inherits(caught(seed_of(bad)), "error"))
if (nzchar(Sys.which("sha256sum"))) {
  for (size in c(0:3, 54:66, 118:130, 1000)) {
    bytes <- as.raw((seq_len(size) * 7919) %% 256)
    writeBin(bytes, at("it's a $file \\ 1"))
    expect(paste("of", size, "bytes"), identical(sampler$sha256_of_bytes(bytes), sampler$sha256_of_file(at("it's a $file \\ 1"))))
  }
}

# ---------------------------------------------------------------------------------------------------------------------------------------------
# TOML

read <- function(text) read_design(put("design.toml", text))
expect("all that a design has", identical(
  read("\ufeff# one\r\nversion = 2\r\n\tmethod = 'cube' # two\nid='''\n'a''''\nstratum = \"\"\"\\\n   x\\u00e9\\U0001F404\\t\\\"\"\"\"\"\nbalance = [ # three\n \"a\", 'b\\n',\n]\nnear=[]\nn = +1_000\n\n[ sizes ]\n\"a b\" = 0x1F\n\"\"=0b11\nplain-1_x = 3 # x\n[second]\npsu = \"#\"\nmethod.x = { y = true, \"z z\" = [[1, 2], \"a\"] }"),
  list(version = 2, method = "cube", id = "'a'", stratum = "x\u00e9\U0001f404\t\"\"", balance = c("a", "b\\n"), near = list(), n = 1000,
    sizes = structure(list(31, 3, 3), names = c("a b", "", "plain-1_x")), second = list(psu = "#", method = list(x = list(y = TRUE, "z z" = list(c(1, 2), "a")))))))
for (bad in c("n = 1.5", "n = [1", "n == 1", "= 1", "n = 1 2", "a = \"\\u0000\"")) expect(paste("a design that isn't read:", bad), inherits(caught(read(bad)), "error"))
for (name in c("schools", "woods")) {
  design <- read_design(shipped(name, "design.toml"))
  expect(paste(name, "is written and read otherwise"), identical(read(paste0(toml(design), collapse = "\n")), design))
}
expect("formulas", identical(toml(list(balance = ~ area + `two words`, near = ~x)), c("balance = [\"area\", \"two words\"]", "near = [\"x\"]")))
for (bad in list(~ log(area), y ~ area, ~ a * b, ~ 1, ~ a - b)) {
  found <- caught(toml(list(balance = bad)))
  expect(paste("the formula", deparse(bad)), inherits(found, "sampler_bad_value") && found$column == "balance")
}
expect("fractions", identical(fractions(c(0.0687898, 0.5, 1, 0), 120), c("8/120", "60/120", "120/120", "0/120")) && identical(fractions(numeric(0), 7), character(0)))
for (bad in list(1.5, -0.1, NA, "1/2")) expect("no probability", inherits(caught(fractions(bad, 10)), "sampler_bad_value"))
for (bad in list(0, 1.5, c(2, 3), NA)) expect("no denominator", inherits(caught(fractions(0.5, bad)), "error"))

if (!has_program) leave_out("no program was found: only what needs none was tried")

# ---------------------------------------------------------------------------------------------------------------------------------------------
# What is said by name, and where a draw went wide

schools <- read.csv(shipped("schools", "frame.csv"))
design <- list(version = 1, method = "pivotal", id = "school", stratum = "district", size = "pupils", n = 12)
drawn <- draw(design, schools, seed = seed, record = at("record"))
log <- file.path(at("record"), "log.txt")
by_name <- replay(design, schools, log, stratum = "Restormel")
expect("a stratum by its name", identical(by_name, replay(design, schools, log, stratum = 2)) && all(by_name$sample$district == "Restormel"))
expect("no such stratum", grepl("no stratum 'Restormell'; it has 'Kerrier', 'Restormel', 'Carrick', 'Penwith'", conditionMessage(caught(replay(design, schools, log, stratum = "Restormell")))))
expect("no strata", grepl("no strata", conditionMessage(caught(replay(design[-4], schools, log, stratum = "Restormel")))))
left_over <- put("left.csv", "place,canton\na,ZG\nb,ZG \nc,ZG\n,\nd,BE\n")
accepted <- check(list(version = 1, method = "systematic", id = "place", stratum = "canton", n = 4), left_over)
expect("what a spreadsheet leaves", identical(accepted$of_strata$name, c("ZG", "ZG ", "", "BE")) && identical(accepted$of_strata$units, c(2L, 1L, 1L, 1L)))
expect("check is printed", identical(capture.output(print(accepted))[1], "accepted 5 units in 4 strata"))
inner <- check(list(version = 1, method = "systematic", id = "id", n = 1), put("inner.csv", "id\na\"b\nc\"d\n"))
expect("a file that isn't read here", inner$units == 2 && is.null(inner$of_strata) && identical(capture.output(print(inner)), "accepted 2 units in 1 strata"))
expect("counts as sizes", identical(toml(list(sizes = table(c("b", "a", "b")))), c("", "[sizes]", "a = 1", "b = 2")))

# 40 firms in two strata: those of the south have small numbers, with which no draw goes wide, and those of the north large ones.
state <- 1
firms <- do.call(rbind, lapply(0:39, function(place) {
  high <- state %/% 65536 * 1103515245 %% 2^31
  state <<- ((high %% 2^15) * 65536 + (state %% 65536) * 1103515245 + 12345) %% 2^31
  if (place %% 4 == 0) data.frame(firm = paste0("s", place), branch = "south, \"old\"", staff = 1 + place %% 3, sales = state %/% 4096 %% 10, costs = place %% 7)
  else data.frame(firm = paste0("n", place), branch = "north ", staff = 30 + state %/% 4096 %% 570, sales = state %/% 65536 %% 9000, costs = state %/% 256 %% 9000)
}))
cube <- list(version = 2, method = "cube", id = "firm", stratum = "branch", size = "staff", balance = ~ sales + costs, n = 12)
# By hand: the sections with a step wide, and the flight steps before it.
counted <- function(path) {
  found <- NULL
  for (line in strsplit(readLines(path), " ")) {
    if (line[1] == "stratum") { number <- as.numeric(line[2]); flights <- 0 }
    if (line[1] == "flight") flights <- flights + 1
    if (line[1] == "wide") found <- rbind(found, c(number, flights))
  }
  found
}
warned <- function(call) withCallingHandlers({ told <<- NULL; call }, sampler_wide = function(wide) { told <<- c(told, conditionMessage(wide)); tryInvokeRestart("muffleWarning") })
drawn <- warned(draw(cube, firms, seed = seed, record = at("wide")))
by_hand <- counted(file.path(at("wide"), "log.txt"))
expect("where it went wide", nrow(drawn$wide) == 1 && identical(unname(as.matrix(drawn$wide[c("stratum", "flights")])), by_hand) && drawn$wide$stratum_name == "north " && drawn$wide$flights > 0)
expect("that it went wide", length(told) == 1 && grepl(paste0("stratum 'north ' went wide after ", drawn$wide$flights, " flight steps, with ", drawn$left$left[2], " units undecided"), told, fixed = TRUE) &&
  grepl("don't draw this one again", told) && !grepl("south", told))
expect("names in left and balance", identical(drawn$left$stratum_name, c("south, \"old\"", "north ")) && identical(drawn$balance$column_name, rep(c("sales", "costs"), 2)) &&
  identical(drawn$balance$stratum_name, rep(drawn$left$stratum_name, each = 2)))
one <- replay(cube, firms, file.path(at("wide"), "log.txt"), stratum = "north ")
expect("one stratum of it", identical(one$wide, drawn$wide) && nrow(replay(cube, firms, file.path(at("wide"), "log.txt"), stratum = 1)$wide) == 0)
drawn <- warned(draw(replace(cube, "method", "stratified_cube"), firms, seed = seed, record = at("all")))
expect("all strata in one", is.na(drawn$wide$stratum_name) && is.na(drawn$left$stratum_name) && identical(drawn$wide$flights, counted(file.path(at("all"), "log.txt"))[2]) &&
  startsWith(told, "the draw went wide"))
options(warn = 2)
expect("a warning made an error keeps the record", inherits(caught(draw(cube, firms, seed = seed, record = at("kept"))), "error") && file.exists(file.path(at("kept"), "versions.txt")))
options(warn = 0)

# ---------------------------------------------------------------------------------------------------------------------------------------------
# The record, seeds and programs

rows <- read.csv(file.path(at("record"), "weights.csv"), colClasses = c("character", "character", "numeric"))
sample <- read.csv(file.path(at("record"), "sample.csv"), colClasses = "character")
expect("weights.csv", identical(names(rows), c("id", "weight_exact", "weight_rounded")) && identical(rows$id, sample$id) && identical(rows$weight_exact, sample$weight) &&
  isTRUE(all.equal(rows$weight_rounded, sampler$number(sample$weight), tolerance = 1e-11)))
third <- draw(list(version = 1, method = "systematic", id = "id", size = "size", n = 1), data.frame(id = c("a", "b", "c \"d\""), size = c(3, 5, 7)), tape = 14, record = at("sevenths"))
expect("a rounded weight", identical(text_of(file.path(at("sevenths"), "weights.csv")), "\"id\",\"weight_exact\",\"weight_rounded\"\n\"c \"\"d\"\"\",\"15/7\",2.14285714286\n"))
lines <- readLines(file.path(at("record"), "versions.txt"))
version <- if (is.na(program()$version)) "unknown" else program()$version
expect("versions.txt", identical(lines, c(paste0(program()$sha256, "  program ", version), paste0(sampler$own_sha256, "  r ", as.character(packageVersion("sampler"))))))
expect("the client's own digest", grepl("^[0-9a-f]{64}$", sampler$own_sha256))
ignored <- draw(shipped("schools", "design.toml"), shipped("schools", "frame.csv"), seed = seed, record = at("files"))
lines <- readLines(file.path(at("files"), "versions.txt"))
expect("the files that were given", identical(lines[3:4], paste0(substring(readLines(file.path(at("files"), "log.txt"))[2:3], nchar(c("design ", "frame ")) + 1), c("  design design.toml", "  frame frame.csv"))))
for (bad in list(1, 123L, strrep("0", 63))) expect("a seed is refused in words", grepl("64 hexadecimal digits.*seed_of", conditionMessage(caught(draw(design, schools, seed = bad)))))
for (given in list(list(schools, design), list(shipped("schools", "design.toml"), design)))
  expect("the wrong order", grepl("the design comes first, and then the frame", conditionMessage(caught(draw(given[[1]], given[[2]])))))
wrong <- caught(check(list(version = 2, method = "pivotal", id = "id", prob = "p"), data.frame(id = 1:2, p = c(1, 0.0687898))))
expect("a probability as a double", inherits(wrong, "sampler_bad_value") && identical(wrong$row, 2L) && grepl("fractions\\(\\)", conditionMessage(wrong)))
# A copy of the program, with a file beside it.
beside <- function(folder, name, text) {
  dir.create(at(folder), recursive = TRUE)
  path <- put(file.path(folder, "sampler"), paste0("#!/bin/sh\nexec ", shQuote(real), " \"$@\" # ", folder, "\n"))
  Sys.chmod(path, "755")
  if (nzchar(name)) put(file.path(folder, name), text)
  Sys.setenv(SAMPLER = path)
  on.exit(Sys.setenv(SAMPLER = real))
  told <<- NULL
  withCallingHandlers(program(), sampler_version_warning = function(other) { told <<- conditionMessage(other); tryInvokeRestart("muffleWarning") })
}
own <- as.character(packageVersion("sampler"))
expect("of no version that is known", { found <- beside("alone", "", ""); is.na(found$version) && is.na(found$known_by) && is.null(told) })
expect("a version by BUILD", { found <- beside("built", "BUILD", paste0("version ", own, "\ncommit 0\n")); found$version == own && basename(found$known_by) == "BUILD" && is.null(told) })
expect("a version by VERSION", { found <- beside("tagged", "VERSION", paste0(own, "\n")); found$version == own && basename(found$known_by) == "VERSION" && is.null(told) })
dir.create(at("usr/share/doc/sampler"), recursive = TRUE)
put("usr/share/doc/sampler/VERSION", paste0(own, "\n"))
expect("a version by the pages", { found <- beside("usr/bin", "", ""); found$version == own && endsWith(found$known_by, "doc/sampler/VERSION") && is.null(told) })
expect("another version", { found <- beside("older", "VERSION", "0.1.0\n"); found$version == "0.1.0" && grepl(paste("version 0.1.0, and this package", own), told) })
Sys.setenv(SAMPLER = at("none"))
expect("no program that isn't needed", is.null(program(FALSE)) && inherits(caught(program()), "error"))
Sys.setenv(SAMPLER = real)

# ---------------------------------------------------------------------------------------------------------------------------------------------
# Kinds of data frames, methods, survey

if (requireNamespace("tibble", quietly = TRUE)) {
  drawn <- draw(design, tibble::as_tibble(schools), seed = seed)
  expect("a tibble comes back", tibble::is_tibble(drawn$sample) && tibble::is_tibble(probs(design, tibble::as_tibble(schools))) && nrow(drawn$sample) == 12)
}
if (requireNamespace("data.table", quietly = TRUE)) {
  drawn <- draw(design, data.table::as.data.table(schools), seed = seed)
  expect("a data.table comes back", data.table::is.data.table(drawn$sample) && nrow(drawn$sample) == 12 && data.table::is.data.table(probs(design, data.table::as.data.table(schools))))
  expect("a data.table can be changed", { data.table::set(drawn$sample, j = "one", value = 1); sum(drawn$sample$one) == 12 })
}
drawn <- draw(design, schools, seed = seed)
expect("a data frame comes back", identical(class(drawn$sample), "data.frame") && identical(as.data.frame(drawn), drawn$sample))
put_of <- capture.output(print(drawn, 3))
expect("print", put_of[1] == paste0("12 of 48 rows drawn in ", drawn$steps, " steps, seed ", seed) && put_of[length(put_of)] == ".. and 9 rows more in $sample")
whole <- summary(drawn)
expect("summary", identical(sum(whole$by_stratum$selected), 12L) && identical(whole$by_stratum$stratum, unique(drawn$sample$district)) && any(grepl("Weights", capture.output(print(whole)))))
woods <- read.csv(shipped("woods", "frame.csv"))
drawn <- draw(list(version = 2, method = "local_cube", id = "wood", balance = ~ hectares + timber, near = ~ east + north, n = 9), woods, seed = seed)
grDevices::pdf(at("pictures.pdf"))
for (which in c("map", "balance", "weights")) expect(paste("a picture", which), identical(plot(drawn, which, main = "A title"), drawn))
expect("a picture of the frame", identical(plot(drawn, frame = woods), drawn))
expect("no such picture", inherits(caught(plot(drawn, "other")), "error") && inherits(caught(plot(draw(design, schools, seed = seed), "map")), "error") &&
  inherits(caught(plot(drawn, coordinates = c("west", "north"))), "error") && inherits(caught(plot(draw(design, schools, seed = seed), "balance")), "error"))
ignored <- grDevices::dev.off()
expect("the balance in a summary", identical(nrow(summary(drawn)$balance), 2L) && any(grepl("greatest relative difference", capture.output(print(drawn)))))
if (requireNamespace("survey", quietly = TRUE)) {
  drawn <- draw(shipped("schools", "design.toml"), read.csv(shipped("schools", "frame.csv")), tape = shipped("schools", "tape.txt"))
  data <- merge(drawn$sample, read.csv(shipped("schools", "answers.csv")))
  total <- survey::svytotal(~absent, design_of(drawn, data))
  by_hand <- survey::svytotal(~absent, survey::svydesign(ids = ~1, strata = ~district, weights = ~weight, data = data))
  expect("an estimate", isTRUE(all.equal(as.numeric(total), 511.65, tolerance = 1e-5)) && isTRUE(all.equal(as.numeric(survey::SE(total)), as.numeric(survey::SE(by_hand)))))
  parts <- design_of(drawn, data)
  expect("weights and probabilities", isTRUE(all.equal(weights(parts), data$weight, check.attributes = FALSE)) && isTRUE(all.equal(parts$variables$probability, 1 / data$weight)) &&
    identical(parts$has.strata, TRUE) && isTRUE(all.equal(as.vector(parts$prob), 1 / data$weight)))
  expect("no weight in the data", inherits(caught(design_of(drawn, data["absent"])), "error") && inherits(caught(design_of(data)), "error"))
  villages <- data.frame(house = 1:24, village = rep(letters[1:6], each = 4), persons = rep(1:4, 6))
  drawn <- draw(list(version = 1, method = "pivotal", id = "house", n = 3, second = list(psu = "village", method = "pivotal", n = 2)), villages, seed = seed)
  parts <- design_of(drawn)
  expect("first stage units", identical(as.character(parts$cluster[[1]]), drawn$sample$village) && isTRUE(all.equal(as.numeric(survey::svytotal(~persons, parts)), sum(drawn$sample$weight * drawn$sample$persons))))
  bridges <- data.frame(bridge = letters[1:8], length = c(5, 3, 4, 6, 2, 5, 4, 3))
  systematic <- list(version = 1, method = "systematic", id = "bridge", size = "length", n = 4)
  drawn <- draw(systematic, bridges, tape = 0)
  pairs <- joint(systematic, bridges)
  y <- c(3, 1, 4, 1)
  data <- cbind(drawn$sample, y = y)[4:1, ]
  if (all(pairs$probability > 0)) {
    total <- survey::svytotal(~y, design_of(drawn, data, joint = pairs))
    p <- 1 / drawn$sample$weight
    at_pair <- function(i, j) pairs$probability[pairs$first == drawn$sample$bridge[i] & pairs$second == drawn$sample$bridge[j]]
    by_hand <- sum(unlist(lapply(1:3, function(i) vapply((i + 1):4, function(j) (p[i] * p[j] - at_pair(i, j)) / at_pair(i, j) * (y[i] / p[i] - y[j] / p[j])^2, 1))))
    expect("the variance by joint probabilities", isTRUE(all.equal(as.numeric(stats::vcov(total)), by_hand)))
  }
  expect("joint probabilities of another frame", inherits(caught(design_of(drawn, data, joint = pairs[1:3, ])), "error"))
}
expect("something is left in the temporary folder", length(list.files(tempdir(), "^sampler-")) == 0)
tell_and_end()
