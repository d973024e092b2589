# Tests of the R package, on the shipped examples and on frames of their own.
#
#     R CMD INSTALL clients/r && Rscript clients/r/tests/test_sampler.R
#
# The codes 12 and 13 are those of the program, whose frame is taken away and whose output is full; 10 and 14, which can't be brought about by what a client
# gives, come from a script in its place.
found <- sub("^--file=", "", grep("^--file=", commandArgs(), value = TRUE)[1])
source(file.path(if (is.na(found)) "." else dirname(found), "support.R"))
if (!has_program) leave_out("no program was found")
if (is.na(root)) leave_out("the shipped examples aren't beside it")

# Texts that a spreadsheet, a shell or a program may trip over.
odd <- c("", " ", " a", "a ", "a,b", "a\"b", "\"", "\"\"", "\"a\"", "a\nb", "a\rb", "a\r\nb", "\n", "\r", "\t", "\ufeff", "\ufeffa", "\u00e9", "\u03a9\u043c\u6f22",
  "\U0001f404", "a\u0301", "\u2028", "\u0085", "\u0001", "\u007f", "#a", "=1+1", "'", "`id`", "$(id)", "; rm x", "\\", "\\n", "NA", "NaN", "TRUE", "1e5", "012", "-", "--",
  strrep("x", 2e5))
farms <- data.frame(id = c("a", "b", "c", "d"), size = 1:4)
two <- list(version = 1, method = "pivotal", id = "id", size = "size", n = 2)

# The names that the package defines mask none of those that are there.
expect("a name is masked", !length(intersect(getNamespaceExports("sampler"), unlist(lapply(setdiff(search(), c(".GlobalEnv", "package:sampler")), ls)))))

# ---------------------------------------------------------------------------------------------------------------------------------------------
# The examples

drawn <- c("farms", "businesses", "plots", "shops", "mills", "harbours", "parishes", "woods", "schools", "villages", "panel", "bridges")
lists <- list(
  businesses = list(version = 1, method = "systematic", order = "random", id = "business", size = "employees", n = 4),
  woods = list(version = 2, method = "local_cube", id = "wood", balance = c("hectares", "timber"), near = c("east", "north"), n = 9),
  schools = list(version = 1, method = "pivotal", id = "school", stratum = "district", size = "pupils", n = 12),
  villages = list(version = 1, method = "pivotal", id = "household", n = 3, second = list(psu = "village", method = "systematic", n = 4)),
  panel = list(version = 2, method = "pivotal", id = "firm", stratum = "branch", prob = "keep")
)

# The draw has the rows, the weights and the report of the example.
is_example <- function(name, draw, rows, sample = "sample.csv", report = "report.txt") {
  shipped <- read.csv(example(name, sample), colClasses = "character", encoding = "UTF-8")
  id <- names(rows)[vapply(rows, function(column) all(shipped$id %in% column), TRUE)][1]
  expect(paste(name, "has other rows"), identical(as.list(draw$sample[names(rows)]), as.list(rows[match(shipped$id, rows[[id]]), ])))
  expect(paste(name, "has other weights"), identical(draw$sample$weight_exact, shipped$weight) &&
    isTRUE(all.equal(draw$sample$weight, vapply(shipped$weight, function(text) eval(parse(text = text)), 1, USE.NAMES = FALSE))))
  lines <- c(paste("selected", draw$selected, "of", draw$units), paste("steps", draw$steps))
  for (place in seq_len(nrow(draw$left))) {
    stratum <- draw$left$stratum[place]
    of <- draw$balance[draw$balance$stratum == stratum, ]
    lines <- c(lines, paste("left", stratum, draw$left$left[place]), sprintf("balance %.0f %.0f %s %.0f", of$stratum, of$column, of$estimate_exact, of$total))
  }
  expect(paste(name, "has another report"), identical(lines, readLines(example(name, report))))
}

for (name in drawn) {
  # Its files go byte for byte.
  record <- at(paste0(name, "-files"))
  draw <- sampler$draw(example(name, "design.toml"), example(name, "frame.csv"), tape = example(name, "tape.txt"), record = record)
  for (file in c("design.toml", "frame.csv", "tape.txt", "log.txt", "sample.csv", "report.txt")) expect(paste(name, file), same(file.path(record, file), example(name, file)))
  rows <- rows_of(name)
  is_example(name, draw, as.data.frame(lapply(rows, as.character), check.names = FALSE))
  again <- sampler$replay(example(name, "design.toml"), example(name, "frame.csv"), example(name, "log.txt"), record = at(paste0(name, "-again")))
  expect(paste(name, "is replayed otherwise"), identical(again, draw) && same(file.path(at(paste0(name, "-again")), "sample.csv"), example(name, "sample.csv")))
  # A data frame, and a list where there is one above.
  record <- at(paste0(name, "-rows"))
  design <- if (is.null(lists[[name]])) example(name, "design.toml") else lists[[name]]
  draw <- sampler$draw(design, rows, tape = scan(example(name, "tape.txt"), quiet = TRUE), record = record)
  is_example(name, draw, rows)
  for (file in c("tape.txt", "sample.csv", "report.txt")) expect(paste(name, "of rows", file), same(file.path(record, file), example(name, file)))
  expect(paste(name, "has another log"), identical(readLines(file.path(record, "log.txt"))[-(2:3)], readLines(example(name, "log.txt"))[-(2:3)]))
  again <- sampler$replay(design, rows[rev(names(rows))], file.path(record, "log.txt"))
  expect(paste(name, "of rows is replayed otherwise"), identical(again$sample[names(draw$sample)], draw$sample))
}
seed <- readLines(example("businesses", "seed.txt"))
record <- at("seeded")
draw <- sampler$draw(lists$businesses, rows_of("businesses"), seed = seed, record = record)
is_example("businesses", draw, rows_of("businesses"), "seeded_sample.csv", "seeded_report.txt")
expect("the seed isn't told", identical(draw$seed, seed) && identical(readLines(file.path(record, "seed.txt")), seed))
ignored <- sampler$draw(example("businesses", "design.toml"), example("businesses", "frame.csv"), seed = seed, record = at("seeded-files"))
expect("businesses by its seed has another log", same(file.path(at("seeded-files"), "log.txt"), example("businesses", "seeded_log.txt")))
expect("a record was written over", inherits(caught(sampler$draw(lists$businesses, rows_of("businesses"), seed = seed, record = record)), "error"))

files <- list(example("schools", "design.toml"), example("schools", "frame.csv"))
one <- caught(sampler$replay(lists$schools, files[[2]], example("schools", "log.txt")))
expect("another design is replayed", inherits(one, "sampler_refusal") && one$line == "error 11 log differs at line 2")
old <- sampler$replay(files[[1]], files[[2]], example("schools", "old_log.txt"))
expect("an old log is replayed otherwise", identical(old, sampler$replay(files[[1]], files[[2]], example("schools", "log.txt"))))
ignored <- sampler$replay(files[[1]], files[[2]], example("schools", "log.txt"), stratum = 2, record = at("stratum"))
for (file in c("sample.csv", "report.txt")) expect(paste("stratum", file), same(file.path(at("stratum"), file), example("schools", paste0("stratum_", file))))

# What a command lists, as the program writes it.
written <- function(rows) {
  rows$probability <- rows$probability_exact
  rows$probability_exact <- NULL
  quoted <- lapply(rows, function(column) ifelse(grepl("[\",\r\n]", column), paste0("\"", gsub("\"", "\"\"", column), "\""), column))
  paste0(c(paste(names(rows), collapse = ","), do.call(paste, c(unname(quoted), sep = ","))), "\n", collapse = "")
}
for (name in c("mills", "harbours", "businesses", "schools", "villages", "panel")) {
  wanted <- text_of(example(name, "probabilities.csv"))
  expect(paste(name, "has other probabilities"), identical(written(sampler$probs(example(name, "design.toml"), example(name, "frame.csv"))), wanted))
  expect(paste(name, "has other probabilities of rows"), identical(written(sampler$probs(example(name, "design.toml"), rows_of(name))), wanted))
}
sizes <- c(lists$schools[c("version", "method", "id", "stratum", "size")], list(sizes = c(Kerrier = 3, Penwith = 3, Carrick = 3, Restormel = 3)))
expect("sizes have other probabilities", identical(written(sampler$probs(sizes, rows_of("schools"))), text_of(example("schools", "sizes_probabilities.csv"))))
joint <- sampler$joint(example("bridges", "design.toml"), rows_of("bridges"))
expect("bridges has other joint probabilities", identical(written(joint), text_of(example("bridges", "joint.csv"))) && joint$probability[1] == 1 / 8)
for (given in list(list(lists$schools, rows_of("schools")), files)) {
  accepted <- sampler$check(given[[1]], given[[2]])
  districts <- rows_of("schools")$district
  expect("check", accepted$units == 48 && accepted$strata == 4 && identical(accepted$of_strata$name, unique(districts)) &&
    identical(accepted$of_strata$units, as.vector(table(districts)[unique(districts)])))
}

# ---------------------------------------------------------------------------------------------------------------------------------------------
# Seeds, refusals

draw <- sampler$draw(two, farms, record = at("unseeded"))
again <- sampler$draw(two, farms, seed = draw$seed, record = at("unseeded-again"))
expect("a seed isn't kept", identical(draw, again) && identical(readLines(file.path(at("unseeded"), "seed.txt")), draw$seed) && nchar(draw$seed) == 64)
expect("two seeds are the same", sampler$draw(two, farms)$seed != draw$seed)
for (bad in list(strrep("0", 63), paste0(strrep("0", 64), "\n"), paste0(strrep("0", 63), "'"), rep(strrep("0", 64), 2), 0))
  expect("a bad seed is taken", inherits(caught(sampler$draw(two, farms, seed = bad)), "simpleError"))
expect("a seed and a tape are taken", inherits(caught(sampler$draw(two, farms, seed = strrep("0", 64), tape = 0)), "simpleError"))

usage <- sub(".*USAGE = \"([^\"]*)\".*", "\\1", text_of(file.path(root, "reference", "sampler.py")))
log <- example("schools", "log.txt")
refused(2, usage, sampler$replay(files[[1]], files[[2]], log, stratum = 0))
refused(3, "error 3.2 version", sampler$check(replace(two, "version", 3), farms))
refused(3, "error 3.3 unknown key a row 5 column x", sampler$draw(c(two, list("a row 5 column x" = 1)), farms))
refused(3, "error 3.5 bad value of n", sampler$probs(replace(two, "n", TRUE), farms))
refused(3, "error 3.1 design isn't TOML", sampler$joint(put("no.toml", "version"), farms))
refused(4, "error 4.1 no header", sampler$check(two, put("empty.csv", "")))
refused(4, "error 4.2 missing column size", sampler$draw(two, farms["id"]), column = "size")
refused(4, "error 4.2 missing column id", sampler$draw(two, data.frame(other = 1)), column = "id")
refused(4, "error 4.3 repeated column size", sampler$draw(two, setNames(farms[c(1, 2, 2)], c("id", "size", "size"))), column = "size")
refused(4, "error 4.4 length of row 2", sampler$draw(two, put("short.csv", "id,size\na,1\nb\n")), row = 2L)
refused(4, "error 4.5 no number in row 2 column size", sampler$draw(two, data.frame(id = 1:2, size = c("1", "1.5"))), row = 2L, column = "size")
refused(4, "error 4.6 number too large in row 1 column size", sampler$draw(two, data.frame(id = 1, size = 2^31)), row = 1L, column = "size")
refused(4, "error 4.7 repeated id in row 3", sampler$draw(two, data.frame(id = c("a", "b", "a"), size = 1L)), row = 3L)
writeBin(c(charToRaw("id,size\na,1\n"), as.raw(0xe9), charToRaw(",1\n")), at("latin.csv"))
refused(4, "error 4.9 row 2 isn't UTF-8", sampler$draw(two, at("latin.csv")), row = 2L)
refused(4, "error 4.10 no rows", sampler$draw(two, farms[0, ]))
name <- "a row 5\ncolumn x, isn't UTF-8"
named <- setNames(data.frame("a", "x"), c("id", name))
refused(4, paste("error 4.5 no number in row 1 column", name), sampler$draw(replace(two, "size", name), named), row = 1L, column = name)
refused(4, paste("error 4.2 missing column", name), sampler$draw(replace(two, "size", name), farms), column = name)
given <- list(version = 2, method = "pivotal", id = "id", prob = "p")
refused(4, "error 4.11 no fraction in row 2 column p", sampler$probs(given, data.frame(id = 1:2, p = c("1", "0.5"))), row = 2L, column = "p")
refused(4, "error 4.12 no probability in row 1 column p", sampler$probs(given, data.frame(id = 1, p = "3/2")), row = 1L, column = "p")
refused(4, "error 4.8 too many rows", sampler$check(list(version = 1, method = "systematic", id = "id", n = 1), data.frame(id = 1:200001)))
refused(5, "error 5.4 5 asked of 4: ", sampler$draw(replace(two, "n", 5), farms))
refused(6, "error 6 tape line 2 isn't a number", sampler$draw(two, farms, tape = put("tape.txt", "0\n3x\n")))
refused(7, "error 7 tape ends after 2", sampler$draw(two, farms, tape = c(0, 0)))
refused(8, "error 8 tape value 1 is 9, bound 3", sampler$draw(two, farms, tape = 9))
refused(9, "error 9 tape has 2 more", sampler$draw(two, farms, tape = c(0, 0, 0, 0, 2^52), record = at("refused")))
rejected <- "error 10 rejected 256 times below 3"
with_program(paste0("[ $1 = check ] && exec PROGRAM \"$@\"\necho '", rejected, "'\nexit 10\n"), refused(10, rejected, sampler$draw(two, farms)))
refused(11, "error 11 log differs at line 3", sampler$replay(files[[1]], rows_of("schools"), log))
with_program("[ $1 = draw ] && rm frame.csv\nexec PROGRAM \"$@\"\n", refused(12, "", sampler$draw(two, farms, record = at("refused"))))
with_program("[ $1 = draw ] && exec >/dev/full\nexec PROGRAM \"$@\"\n", refused(13, "", sampler$draw(two, farms, record = at("refused"))))
with_program("exit 14\n", refused(14, "", sampler$draw(two, farms)))
refused(16, "error 16 stratum 5 of 4", sampler$replay(files[[1]], files[[2]], log, stratum = 5))
refused(17, "error 17 joint probabilities need systematic selection in frame order", sampler$joint(two, farms))
refused(18, "error 18 2001 rows, at most 2000", sampler$joint(list(version = 1, method = "systematic", id = "id", n = 1), data.frame(id = 1:2001)))
expect("a refused draw left a record", !file.exists(at("refused")))
Sys.setenv(SAMPLER = at("no program"))
expect("no program is called", grepl("no program", conditionMessage(caught(sampler$check(two, farms)))))
Sys.setenv(SAMPLER = real)

# ---------------------------------------------------------------------------------------------------------------------------------------------
# Texts and numbers

# The program finds the strata of these names, each with as many draws as it has rows, so the design is read as it was given.
frame <- setNames(data.frame(odd, rep_len(odd[1:5], length(odd)), rep_len(1:3, length(odd)), odd, 0.5), c("the, \"id\"\n", "group", "\ufeffsize", "else", "also"))
design <- list(version = 1, method = "systematic", id = "the, \"id\"\n", stratum = "group", size = "\ufeffsize", sizes = setNames(tabulate(rep_len(1:5, length(odd))), odd[1:5]))
record <- at("; touch 'x' $(y) \"z\" *")
draw <- sampler$draw(design, frame, record = record)
expect("texts aren't what they were", identical(as.list(draw$sample), c(as.list(frame), list(weight = rep(1, length(odd)), weight_exact = rep("1/1", length(odd))))))
expect("ids aren't what they were", identical(sampler$probs(design, frame)$id, enc2utf8(odd)))
again <- sampler$replay(file.path(record, "design.toml"), file.path(record, "frame.csv"), file.path(record, "log.txt"))
expect("a file's ids aren't what they were", identical(again$sample[[1]], enc2utf8(odd)))
expect("a single column", identical(sampler$draw(list(version = 1, method = "systematic", id = "a", n = length(odd)), data.frame(a = odd))$sample$a, odd))
for (text in odd) {
  design <- list(version = 1, method = "systematic", id = text, n = 1)
  expect(paste("a column", text), sampler$check(design, setNames(data.frame(1L, 2L), c(text, "id")))$units == 1)
}

# The same bytes as those that the Python package writes.
ignored <- sampler$draw(list(version = 1, method = "cube", id = "id", size = "size", balance = "x", n = 1, second = list(psu = "p \"\\\t", method = "pivotal", n = 1)),
  setNames(data.frame(-5, 1, "a \"b\"", 12, "\u00e9"), c("x", "more", "id", "size", "p \"\\\t")), record = at("bytes"))
expect("other bytes of a frame", identical(text_of(file.path(at("bytes"), "frame.csv")), "\"id\",\"p \"\"\\\t\",\"size\",\"x\"\n\"a \"\"b\"\"\",\"\u00e9\",12,-5\n"))
expect("other bytes of a design", identical(text_of(file.path(at("bytes"), "design.toml")),
  paste0("version = 1\nmethod = \"cube\"\nid = \"id\"\nsize = \"size\"\nbalance = [\"x\"]\nn = 1\n",
    "\n[second]\npsu = \"p \\\"\\\\\\u0009\"\nmethod = \"pivotal\"\nn = 1\n")))
expect("other TOML", identical(sampler$toml(list(n = 6, a = list("x", TRUE, list(b = 1:2)), near = character(0), sizes = c("a b" = 1, 2), e = list(list("y")))),
  c("n = 6", "a = [\"x\", true, { b = [1, 2] }]", "near = []", "e = [[\"y\"]]", "", "[sizes]", "\"a b\" = 1", "\"\" = 2")))

# Numbers are whole, and nothing is guessed.
pair <- function(size) { frame <- data.frame(id = 1:3); frame$size <- size; frame }
accepted <- list(c(1, 2, 3), 1:3, c("1", "2", "03"), factor(c("a", "b", "c"))[1:3], c(100000, 2e5, 1e5))
for (size in accepted[-4]) expect("whole numbers", sampler$check(two, pair(size))$units == 3)
expect("a minus 0", identical(sampler$probs(replace(two, "n", 1), pair(c(1, -0, 1)))$probability_exact, c("1/2", "0/1", "1/2")))
large <- sampler$probs(list(version = 1, method = "systematic", id = "id", n = 1), data.frame(id = c(1e5, 2^53 - 1)))
expect("a large id", identical(large$id, c("100000", "9007199254740991")))
expect("a factor of texts", identical(sampler$draw(replace(two, "id", "id"), data.frame(id = factor(c("b", "a")), size = 1L))$sample$id, factor(c("b", "a"))))
latin <- "\xe9"
Encoding(latin) <- "latin1"
expect("a text in Latin-1", identical(sampler$probs(two, data.frame(id = c(latin, "b"), size = 1))$id, c("\u00e9", "b")))
bytes <- "\xe9"
Encoding(bytes) <- "bytes"
refuses <- function(size, row) {
  for (command in list(sampler$check, sampler$probs, sampler$joint, sampler$draw)) {
    found <- caught(command(two, pair(size)))
    expect(paste("a value of class", class(size)[1], "is taken:", conditionMessage(found)),
      inherits(found, "sampler_bad_value") && found$column == "size" && identical(as.integer(found$row), row) && grepl("size", conditionMessage(found)))
  }
}
for (bad in list(0.5, NA, NaN, Inf, -Inf, 2^53)) refuses(c(1, 2, bad), 3L)
refuses(c(1L, NA, 3L), 2L)
refuses(c("1", NA, "3"), 2L)
refuses(c("1", "2", bytes), 3L)
refuses(c("1", "\xe9", "2"), 2L)
refuses(factor(c(10, 20, 30)), NA_integer_)
refuses(factor(c("a", NA, "b")), 2L)
refuses(c(TRUE, FALSE, TRUE), NA_integer_)
refuses(Sys.Date() + 1:3, NA_integer_)
refuses(1i * 1:3, NA_integer_)
refuses(list(1, 2, 3), NA_integer_)
refuses(matrix(1:6, 3), NA_integer_)
for (bad in list(2.5, NA, NULL, factor(2), Sys.Date(), quote(n), c(1, NA))) {
  found <- caught(sampler$check(c(two[-5], list(n = bad)), farms))
  expect(paste("n of class", class(bad)[1], "is taken:", conditionMessage(found)),
    inherits(found, "sampler_bad_value") && found$column == "n" && startsWith(conditionMessage(found), "n: "))
}
for (bad in list(cbind(farms, weight = 1), cbind(farms, weight_exact = "1"))) {
  expect("a frame with a weight", sampler$check(two, bad)$units == 4)
  expect("a weight is written over", inherits(caught(sampler$draw(two, bad)), "sampler_bad_value"))
}

# A file's rows are found whatever its line ends; a quote within a field is left to the reader of the frame.
path <- put("quotes.csv", "\ufeff\ufeffid,note\r\n\"a \"\"b\"\"\r\nc\", x \r\r\n\nd,\"\"\n,g\rh,\"j\nk\"\nm,l")
ids <- sampler$probs(list(version = 1, method = "systematic", id = "id", n = 1), path)$id
all_five <- sampler$draw(list(version = 1, method = "systematic", id = "id", n = 5), path)$sample$id
expect("a file's rows", identical(all_five, ids) && ids[1] == "a \"b\"\r\nc" && length(ids) == 5)
inner <- caught(sampler$draw(list(version = 1, method = "systematic", id = "id", n = 1), put("inner.csv", "id\na\"b\nc\"d\n")))
expect("a quote in a field", grepl("quote", conditionMessage(inner)))

expect("something is left in the temporary folder", length(list.files(tempdir(), "^sampler-")) == 0)
expect("something is written beside a record", !any(c("x", "y") %in% c(list.files(), list.files(work))))
tell_and_end()
