# To the program: values as they are written.

# Texts in UTF-8, where their encoding is known: it is declared, or that of the locale.
utf8 <- function(texts, column) {
  declared <- Encoding(texts)
  local <- l10n_info()
  known <- declared == "latin1" | (declared == "UTF-8" | local[["UTF-8"]]) & validUTF8(texts) | local[["Latin-1"]] & declared == "unknown" |
    !grepl("[^\\x01-\\x7F]", texts, perl = TRUE, useBytes = TRUE)
  known <- known & declared != "bytes"
  if (!all(known)) bad_value(column, which(!known)[1], "a text whose encoding isn't known")
  enc2utf8(texts)
}

# Texts or numbers that are there, of no class that would have to be guessed about.
plain <- function(values, column) {
  if (is.atomic(values) && anyNA(values)) bad_value(column, which(is.na(values))[1], "a value is missing")
  if (is.factor(values)) {
    labels <- suppressWarnings(as.numeric(levels(values)))
    if (!all(is.na(labels))) bad_value(column, NA, "a factor with numbers as labels: take its labels as texts or as numbers")
    return(as.character(values))
  }
  if (is.object(values) || !is.null(dim(values)) || !(is.character(values) || is.numeric(values)))
    bad_value(column, NA, paste0("values of class ", class(values)[1], ": take texts or whole numbers"))
  values
}

# Whole numbers in digits. From 2^53 on a double may have been rounded.
whole <- function(values, column) {
  values <- plain(values, column)
  if (is.character(values)) bad_value(column, NA, "a text where a whole number has to be")
  if (is.double(values)) {
    bad <- values != trunc(values) | abs(values) >= 2^53
    if (any(bad)) bad_value(column, which(bad)[1], not_whole(values[bad][1]))
    if (any(abs(values) > .Machine$integer.max)) return(sprintf("%.0f", values + 0)) # + 0, so that -0 is 0
  }
  sprintf("%d", as.integer(values))
}

not_whole <- function(value) {
  reason <- paste(format(value, digits = 15), "isn't a whole number below 2^53")
  if (value > 0 && value < 1) paste0(reason, ": a probability has to be a text such as 1/3; fractions() makes such texts, and fit() a whole design") else reason
}

# The values of a column: texts in UTF-8, or whole numbers in digits.
written <- function(values, column) {
  values <- plain(values, column)
  if (is.character(values)) utf8(values, column) else whole(values, column)
}

fractions <- function(probabilities, denominator) {
  denominator <- as.numeric(whole(denominator, "denominator"))
  if (length(denominator) != 1 || denominator < 1) stop("the denominator is one whole number from 1 on")
  probabilities <- plain(probabilities, "probabilities")
  bad <- !is.numeric(probabilities) | probabilities < 0 | probabilities > 1
  if (any(bad)) bad_value("probabilities", which(bad)[1], "no probability")
  paste0(sprintf("%.0f", round(probabilities * denominator)), "/", sprintf("%.0f", denominator), recycle0 = TRUE)
}

# Texts as fields of CSV, a quote in them twice.
in_quotes <- function(texts) paste0("\"", gsub("\"", "\"\"", texts, fixed = TRUE), "\"", recycle0 = TRUE)

# The columns that the design asks for, that of the ids first, as the program tells them: it names the first one that a header hasn't.
asked <- function(folder) {
  aside <- new_folder()
  on.exit(remove_folder(aside))
  copy(file.path(folder, "design.toml"), aside, "design.toml")
  # A column that no design of this length can name.
  names <- strrep("-", file.size(file.path(folder, "design.toml")) + 1)
  repeat {
    write_lines(aside, "frame.csv", paste(in_quotes(names), collapse = ","))
    found <- tryCatch(run(aside, "check", inputs), sampler_refusal = identity)
    if (identical(found$line, "error 4.10 no rows")) return(names[-1])
    if (!startsWith(found$line, "error 4.2 missing column ")) stop(found)
    names <- c(names, found$column)
  }
}

# The words of a call for the design and the frame.
inputs <- c("--design", "design.toml", "--frame", "frame.csv")

put_design <- function(folder, design) {
  if (is.data.frame(design)) stop("a design is a list or the path of a file, and not a data frame: the design comes first, and then the frame")
  if (is.list(design)) write_lines(folder, "design.toml", toml(design)) else copy(design, folder, "design.toml")
}

# Puts the design and the frame into the folder, and gives what is known of them: `rows` and `ids`, those of the frame as they are written there; `column`, a
# function that gives a column of it by its name; `design`, as a list.
carry <- function(folder, design, frame, is_drawn = FALSE) {
  put_design(folder, design)
  if (is.list(frame) && !is.data.frame(frame))
    stop("a frame is a data frame or the path of a file, and not a list", if ("method" %in% names(frame)) ": the design comes first, and then the frame")
  given <- if (is.data.frame(frame)) carry_rows(folder, as.data.frame(frame)) else carry_file(folder, frame, is_drawn)
  if (is_drawn && any(c("weight", "weight_exact") %in% names(given$rows)))
    bad_value("weight", NA, "the frame has a column weight or weight_exact already: give it another name")
  given$design <- read_design(file.path(folder, "design.toml"))
  given
}

carry_rows <- function(folder, rows) {
  wanted <- asked(folder)
  places <- unlist(lapply(wanted, function(name) which(names(rows) == name)))
  columns <- unname(Map(written, rows[places], names(rows)[places]))
  given <- list(rows = rows, ids = if (length(columns)) columns[[1]], column = function(name) columns[[match(name, names(rows)[places])]])
  is_text <- vapply(rows[places], function(values) is.character(values) || is.factor(values), TRUE)
  fields <- columns
  fields[is_text] <- lapply(columns[is_text], in_quotes)
  # Of a frame without any of them the header goes, so that the program says what is missing.
  header <- paste(in_quotes(enc2utf8(if (length(places)) names(rows)[places] else names(rows))), collapse = ",")
  write_lines(folder, "frame.csv", c(header, if (length(columns) && nrow(rows)) do.call(paste, c(fields, sep = ","))))
  given
}

carry_file <- function(folder, path, is_drawn) {
  copy(path, folder, "frame.csv")
  read <- function() records(bytes_of(file.path(folder, "frame.csv")))
  column_of <- function(rows, name) rows[[match(name, names(rows))]]
  wanted <- asked(folder)
  if (!is_drawn) return(list(column = function(name) column_of(read(), name)))
  run(folder, "check", inputs)
  rows <- read()
  list(rows = rows, ids = column_of(rows, wanted[1]), column = function(name) column_of(rows, name))
}

# The strata in their order, that of their first rows, with their names, NA of a frame without strata, and their numbers of rows.
strata_of <- function(given) {
  values <- if (is.null(given$design$stratum)) rep(NA_character_, length(given$column(given$design$id))) else as.character(given$column(given$design$stratum))
  names <- unique(values)
  data.frame(stratum = seq_along(names), name = names, units = tabulate(match(values, names), length(names)))
}

# The names that go with the numbers of strata in a report. What draws from all strata in one has 1 as its number, and no name.
names_of_strata <- function(given) if (identical(given$design$method, "stratified_cube")) NA_character_ else strata_of(given)$name
