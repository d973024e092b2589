# Makes the page of a vignette, by base R alone: headings, paragraphs, lists, links, words in code, and pieces of R with what they put and draw. Where no program
# is found the pieces are shown, and not run.

.onLoad <- function(libname, pkgname) {
  tools::vignetteEngine("page", weave = weave_page, tangle = tangle_page, pattern = "[.][Rr]md$", package = "sampler")
}

# The parts of a page: a list of lines, with `kind` "text" or "code" of each. A head between lines --- is none.
parts_of_page <- function(file) {
  lines <- readLines(file, encoding = "UTF-8", warn = FALSE)
  head <- which(lines == "---")
  if (length(head) > 1 && head[1] == 1) lines <- lines[-seq_len(head[2])]
  marks <- cumsum(startsWith(lines, "```"))
  is_mark <- startsWith(lines, "```")
  parts <- split(lines[!is_mark], marks[!is_mark])
  Map(function(lines, mark) list(kind = if (as.integer(mark) %% 2 == 1) "code" else "text", lines = lines), parts, names(parts))
}

title_of_page <- function(file) {
  line <- grep("^title:", readLines(file, encoding = "UTF-8", warn = FALSE), value = TRUE)[1]
  gsub("^title:[ \"]*|[ \"]*$", "", line)
}

weave_page <- function(file, driver, syntax, encoding = "UTF-8", quiet = FALSE, ...) {
  is_run <- !is.null(program(FALSE))
  place <- new.env(parent = globalenv())
  body <- lapply(parts_of_page(file), function(part) if (part$kind == "code") html_of_code(part$lines, place, is_run) else html_of_text(part$lines))
  title <- escaped(title_of_page(file))
  note <- if (!is_run) "<p><em>Made where no program was found: the R below wasn't run.</em></p>"
  style <- "body { max-width: 48em; margin: 2em auto; font-family: sans-serif; line-height: 1.4 } pre { background: #f4f4f4; padding: .6em; overflow-x: auto }"
  page <- c("<!DOCTYPE html>", "<html lang=\"en\"><head><meta charset=\"utf-8\">", paste0("<title>", title, "</title><style>", style, "</style></head><body>"),
    paste0("<h1>", title, "</h1>"), note, unlist(body), "</body></html>")
  output <- sub("[.][Rr]md$", ".html", basename(file))
  writeLines(enc2utf8(page), output, useBytes = TRUE)
  output
}

tangle_page <- function(file, ...) {
  code <- unlist(lapply(parts_of_page(file), function(part) if (part$kind == "code") c(part$lines, "")))
  if (is.null(program(FALSE))) code <- paste("#", code)
  output <- sub("[.][Rr]md$", ".R", basename(file))
  writeLines(enc2utf8(code), output, useBytes = TRUE)
  output
}

escaped <- function(text) gsub(">", "&gt;", gsub("<", "&lt;", gsub("&", "&amp;", text, fixed = TRUE), fixed = TRUE), fixed = TRUE)

html_of_text <- function(lines) {
  inline <- function(text) {
    text <- gsub("`([^`]+)`", "<code>\\1</code>", escaped(text))
    gsub("\\[([^]]+)\\]\\(([^)]+)\\)", "<a href=\"\\2\">\\1</a>", text)
  }
  block <- function(lines) {
    if (startsWith(lines[1], "## ")) return(paste0("<h2>", inline(substring(lines[1], 4)), "</h2>"))
    if (!startsWith(lines[1], "- ")) return(paste0("<p>", inline(paste(lines, collapse = " ")), "</p>"))
    items <- split(sub("^(- |  )", "", lines), cumsum(startsWith(lines, "- ")))
    c("<ul>", paste0("<li>", vapply(items, function(item) inline(paste(item, collapse = " ")), ""), "</li>"), "</ul>")
  }
  is_empty <- !nzchar(trimws(lines))
  lapply(split(lines[!is_empty], cumsum(is_empty)[!is_empty]), block)
}

# A piece of R, what it puts, and its picture, each expression behind the other.
html_of_code <- function(lines, place, is_run) {
  shown <- paste0("<pre><code>", paste(escaped(lines), collapse = "\n"), "</code></pre>")
  if (!is_run) return(shown)
  picture <- tempfile(fileext = ".svg")
  has_device <- isTRUE(capabilities("cairo"))
  if (has_device) grDevices::svg(picture, 6, 4.5) else grDevices::pdf(NULL)
  on.exit(unlink(picture))
  put <- tryCatch(utils::capture.output(for (expression in parse(text = lines, keep.source = FALSE)) {
    result <- withVisible(eval(expression, place))
    if (result$visible) print(result$value)
  }), finally = grDevices::dev.off())
  drawn <- if (has_device && file.exists(picture)) readLines(picture, warn = FALSE)
  c(shown, if (length(put)) paste0("<pre>", paste(escaped(put), collapse = "\n"), "</pre>"), drawn[-1])
}
