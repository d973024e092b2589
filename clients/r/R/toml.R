# Designs in TOML: written of a list, and read of a file.

# A design as TOML: its tables last, every text escaped, every number whole. A vector with names is a table; `balance` and `near` are always arrays.
toml <- function(design) {
  design <- Map(function(value, key) if (inherits(value, "formula")) names_in(value, key) else value, design, names(design))
  is_table <- vapply(design, function(value) !is.null(names(value)), TRUE)
  text <- pairs_of(design[!is_table], "")
  for (place in which(is_table)) {
    name <- names(design)[place]
    text <- c(text, "", paste0("[", toml_key(name), "]"), pairs_of(as.list(design[[place]]), paste0(name, ".")))
  }
  text
}

# The names of columns in a formula such as ~ area + workers.
names_in <- function(formula, key) {
  parts <- function(term) {
    if (is.name(term)) return(as.character(term))
    if (is.call(term) && identical(term[[1]], as.name("+")) && length(term) == 3) return(c(parts(term[[2]]), parts(term[[3]])))
    bad_value(key, NA, "a formula has names of columns alone, with + between them, as in ~ area + workers")
  }
  if (length(formula) != 2) bad_value(key, NA, "a formula has nothing on its left, as in ~ area + workers")
  parts(formula[[2]])
}

# A line `key = value` for each part of a list; front: the names of the tables that it stands in.
pairs_of <- function(parts, front) {
  if (length(names(parts)) != length(parts)) stop("each part of a design needs a name")
  line <- function(name, value) {
    key <- paste0(front, name)
    text <- tryCatch(toml_value(value, key), sampler_bad_value = function(bad) bad_value(bad$column, NA, bad$reason))
    paste(toml_key(name), "=", text)
  }
  as.character(unlist(Map(line, names(parts), parts)))
}

toml_key <- function(key) if (grepl("^[A-Za-z0-9_-]+\\z", key, perl = TRUE)) key else toml_text(key, key)

toml_text <- function(texts, key) {
  texts <- gsub("\"", "\\\"", gsub("\\", "\\\\", utf8(texts, key), fixed = TRUE), fixed = TRUE)
  for (code in c(1:31, 127)) texts <- gsub(intToUtf8(code), sprintf("\\u%04X", code), texts, fixed = TRUE)
  paste0("\"", texts, "\"", recycle0 = TRUE)
}

toml_value <- function(value, key) {
  if (!is.null(names(value))) return(paste0("{ ", paste(pairs_of(as.list(value), paste0(key, ".")), collapse = ", "), " }"))
  parts <- if (is.list(value)) {
    vapply(value, toml_value, "", key)
  } else if (is.logical(value) && !anyNA(value)) {
    ifelse(value, "true", "false")
  } else if (is.character(value)) {
    toml_text(plain(value, key), key)
  } else {
    whole(value, key)
  }
  if (length(parts) == 1 && !is.list(value) && !key %in% c("balance", "near")) parts else paste0("[", paste(parts, collapse = ", "), "]")
}

# The design in a file of TOML, as a list. The program says whether it is a design, and of what is in it: this reads the TOML of all designs that it accepts,
# which has texts, whole numbers, truth values, arrays and tables.
read_design <- function(path) {
  source <- new.env(parent = emptyenv())
  source$codes <- c(utf8ToInt(enc2utf8(as_text(bytes_of(path)))), 10L)
  if (anyNA(source$codes)) stop("not UTF-8: ", path)
  source$codes <- source$codes[!(source$codes == 13L & c(source$codes[-1], 0L) == 10L)]
  source$at <- if (identical(source$codes[1], 65279L)) 2L else 1L
  design <- list()
  inside <- character(0)
  repeat {
    skip_toml(source, lines = TRUE)
    if (source$at > length(source$codes)) return(design)
    if (next_is(source, "[")) {
      inside <- toml_path(source)
      expect_next(source, "]")
      design <- put_at(design, inside, NULL)
    } else {
      design <- read_pair(source, design, inside)
    }
    skip_toml(source)
    expect_next(source, "\n")
  }
}

# The character that comes next, which is passed where it is this one.
peek <- function(source, ahead = 0L) source$codes[source$at + ahead]
next_is <- function(source, text) {
  codes <- utf8ToInt(text)
  is_here <- identical(source$codes[source$at + seq_along(codes) - 1L], codes)
  if (is_here) source$at <- source$at + length(codes)
  is_here
}
expect_next <- function(source, text) if (!next_is(source, text)) stop("a design that isn't read by this package: give it as a list")

# Passes blanks, and line ends where they don't matter, and comments.
skip_toml <- function(source, lines = FALSE) {
  repeat {
    code <- peek(source)
    if (is.na(code)) return(invisible())
    if (code == 35L) {
      while (peek(source) != 10L) source$at <- source$at + 1L
    } else if (code %in% c(32L, 9L) || lines && code == 10L) {
      source$at <- source$at + 1L
    } else {
      return(invisible())
    }
  }
}

# A key, or several with points between them.
toml_path <- function(source) {
  path <- character(0)
  repeat {
    skip_toml(source)
    path <- c(path, if (peek(source) %in% c(34L, 39L)) toml_string(source) else toml_bare(source))
    skip_toml(source)
    if (!next_is(source, ".")) return(path)
  }
}

# Letters, digits and the marks of a bare key or a number.
toml_bare <- function(source) {
  from <- source$at
  while (peek(source) %in% c(48:57, 65:90, 97:122, 43L, 45L, 95L)) source$at <- source$at + 1L
  if (source$at == from) expect_next(source, "a key")
  intToUtf8(source$codes[from:(source$at - 1L)])
}

# A design with a value under a path of keys; of NULL a table that is there stays, or is made.
put_at <- function(design, path, value) {
  at <- match(path[1], names(design))
  if (is.na(at)) {
    at <- length(design) + 1
    design <- c(design, structure(list(list()), names = path[1]))
  }
  if (length(path) > 1) design[[at]] <- put_at(design[[at]], path[-1], value) else if (!is.null(value)) design[[at]] <- value
  design
}

read_pair <- function(source, design, inside) {
  path <- toml_path(source)
  expect_next(source, "=")
  skip_toml(source)
  put_at(design, c(inside, path), toml_read_value(source))
}

# An array of texts or numbers is a vector; of anything else, a list.
toml_read_value <- function(source) {
  code <- peek(source)
  if (code %in% c(34L, 39L)) return(toml_string(source))
  if (next_is(source, "{")) return(toml_inline(source))
  if (!next_is(source, "[")) return(toml_scalar(toml_bare(source)))
  parts <- list()
  repeat {
    skip_toml(source, lines = TRUE)
    if (next_is(source, "]")) break
    parts <- c(parts, list(toml_read_value(source)))
    skip_toml(source, lines = TRUE)
    if (!next_is(source, ",") && peek(source) != 93L) expect_next(source, "]")
  }
  kinds <- unique(vapply(parts, function(part) class(part)[1], ""))
  if (length(parts) && length(kinds) == 1 && kinds %in% c("character", "numeric", "logical") && all(lengths(parts) == 1)) unlist(parts) else parts
}

toml_inline <- function(source) {
  table <- list()
  repeat {
    skip_toml(source)
    if (next_is(source, "}")) return(table)
    table <- read_pair(source, table, character(0))
    skip_toml(source)
    next_is(source, ",")
  }
}

toml_scalar <- function(text) {
  if (text %in% c("true", "false")) return(text == "true")
  digits <- gsub("_", "", text, fixed = TRUE)
  bases <- c("0x" = 16, "0o" = 8, "0b" = 2)
  base <- bases[substr(digits, 1, 2)]
  number <- if (is.na(base)) suppressWarnings(as.numeric(digits)) else as.numeric(strtoi(substring(digits, 3), base))
  if (is.na(number)) stop("a design that isn't read by this package: give it as a list")
  number
}

# A text in quotes of either kind, over one line or several.
toml_string <- function(source) {
  quote <- peek(source)
  mark <- intToUtf8(quote)
  is_long <- next_is(source, strrep(mark, 3))
  if (is_long) next_is(source, "\n") else source$at <- source$at + 1L
  text <- integer(0)
  repeat {
    code <- peek(source)
    if (is_long && identical(source$codes[source$at + 0:2], rep(quote, 3)) && !identical(peek(source, 3L), quote)) {
      source$at <- source$at + 3L
      return(text_of_codes(text))
    }
    source$at <- source$at + 1L
    if (!is_long && code == quote) return(text_of_codes(text))
    text <- c(text, if (code == 92L && quote == 34L) toml_escape(source) else code)
  }
}

text_of_codes <- function(codes) {
  if (any(codes == 0L)) stop("a text with a zero byte, which R can't hold")
  enc2utf8(intToUtf8(codes))
}

# What stands for the characters behind a backslash.
toml_escape <- function(source) {
  kind <- intToUtf8(peek(source))
  source$at <- source$at + 1L
  plain <- c(b = 8L, t = 9L, n = 10L, f = 12L, r = 13L, e = 27L, "\"" = 34L, "\\" = 92L)
  if (kind %in% names(plain)) return(plain[[kind]])
  digits <- c(x = 2L, u = 4L, U = 8L)[kind]
  if (is.na(digits)) {
    source$at <- source$at - 1L
    skip_toml(source, lines = TRUE)
    return(integer(0))
  }
  from <- source$at
  source$at <- source$at + digits
  strtoi(intToUtf8(source$codes[from:(source$at - 1L)]), 16L)
}
