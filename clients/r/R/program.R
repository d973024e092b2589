# The folder for the files of a call, and the program that is called in it.

# A new folder, under this name or a passing one. No record is written over.
new_folder <- function(record = NULL) {
  folder <- if (is.null(record)) tempfile("sampler-") else record
  if (file.exists(folder)) stop("the folder is there already: ", folder)
  if (!dir.create(folder, showWarnings = FALSE, recursive = TRUE)) stop("the folder can't be made: ", folder)
  normalizePath(folder)
}

remove_folder <- function(folder) unlink(folder, recursive = TRUE, force = TRUE, expand = FALSE)

# The program's path: that of the environment's SAMPLER, or else the one that this package brings, or else `sampler` on the path.
program_path <- function() {
  given <- Sys.getenv("SAMPLER")
  brought <- system.file("bin", "sampler", package = "sampler")
  if (!nzchar(given) && nzchar(brought) && file.access(brought, 1) == 0) return(normalizePath(brought))
  name <- if (nzchar(given)) given else "sampler"
  paths <- if (grepl("/", name, fixed = TRUE)) name else file.path(strsplit(Sys.getenv("PATH"), ":", fixed = TRUE)[[1]], name)
  paths <- paths[file.access(paths, 1) == 0 & !dir.exists(paths)]
  if (!length(paths)) stop("no program ", name, ": set SAMPLER to its path, put it on the path, or install a package that brings it")
  normalizePath(paths[1])
}

# What is known of programs that were called, by their paths. One is looked at again once it has changed.
seen <- new.env(parent = emptyenv())

own_version <- function() as.character(getNamespaceVersion("sampler"))

program <- function(needed = TRUE) {
  if (!needed && is.null(tryCatch(program_path(), error = function(none) NULL))) return(NULL)
  path <- program_path()
  state <- file.info(path)[c("size", "mtime")]
  if (is.null(seen[[path]]) || !identical(seen[[path]]$state, state)) {
    found <- c(list(path = path, sha256 = sha256_of_file(path)), version_of(path))
    assign(path, list(state = state, program = structure(found, class = "sampler_program")), envir = seen)
    if (!is.na(found$version) && found$version != own_version())
      tell("sampler_version_warning", paste0("the program ", path, " has version ", found$version, ", and this package ", own_version()))
  }
  seen[[path]]$program
}

# The version of a program. It has no way to tell it: known.txt, which is made with a package of a version, names the program of that version by its SHA-256;
# else a file BUILD or VERSION beside the program tells it, as an archive has them, or one in share/doc/sampler, where Debian's package has it; else it isn't known.
version_of <- function(path) {
  known <- system.file("known.txt", package = "sampler")
  if (nzchar(known)) {
    lines <- strsplit(readLines(known), " ", fixed = TRUE)
    digest <- sha256_of_file(path)
    for (line in lines) if (identical(line[1], digest)) return(list(version = line[2], known_by = "SHA-256"))
  }
  folder <- dirname(path)
  pages <- file.path(dirname(folder), "share", "doc", "sampler")
  for (beside in c(file.path(folder, c("BUILD", "VERSION")), file.path(pages, "VERSION"))) {
    if (!file.exists(beside) || dir.exists(beside)) next
    told <- sub("^version ", "", readLines(beside, 1, warn = FALSE))
    if (length(told) && grepl("^[0-9]+[.][0-9]+[.][0-9]+$", told)) return(list(version = told, known_by = beside))
  }
  list(version = NA_character_, known_by = NA_character_)
}

print.sampler_program <- function(x, ...) {
  version <- if (is.na(x$version)) "of a version that isn't known" else paste0("version ", x$version, ", known by ", x$known_by)
  cat(x$path, "\n", version, "\nSHA-256 ", x$sha256, "\n", sep = "")
  invisible(x)
}

# Calls the program in this folder, and gives the bytes that it put, or refuses as it does.
run <- function(folder, command, words) {
  path <- program()$path
  before <- setwd(folder)
  on.exit(setwd(before))
  code <- suppressWarnings(system2(path, c(command, words), stdout = "put.txt", stdin = "/dev/null"))
  put <- bytes_of("put.txt")
  file.remove("put.txt")
  if (code != 0) refuse(code, sub("\n\\z", "", as_text(put), perl = TRUE))
  put
}

bytes_of <- function(path) readBin(path, "raw", file.size(path))

as_text <- function(bytes) {
  text <- rawToChar(bytes)
  Encoding(text) <- "UTF-8"
  text
}

write_lines <- function(folder, name, lines) {
  file <- file(file.path(folder, name), "wb")
  on.exit(close(file))
  writeLines(lines, file, sep = "\n", useBytes = TRUE)
}

copy <- function(path, folder, name) {
  if (!is.character(path) || length(path) != 1) stop(name, ": neither a path nor values that can be written")
  if (!file.copy(path, file.path(folder, name), copy.mode = FALSE)) stop("can't be read: ", path)
}

# The lines of versions.txt: the SHA-256 and the version of the program and of this package, and the SHA-256 and the names of the files that were given.
versions <- function(design, frame) {
  called <- program()
  in_one_line <- function(text) gsub("\r", "\\r", gsub("\n", "\\n", gsub("\\", "\\\\", text, fixed = TRUE), fixed = TRUE), fixed = TRUE)
  of_file <- function(what, path) if (is.character(path)) paste0(sha256_of_file(path), "  ", what, " ", in_one_line(enc2utf8(basename(path))))
  version <- if (is.na(called$version)) "unknown" else called$version
  c(paste0(called$sha256, "  program ", version), paste0(own_sha256, "  r ", own_version()), of_file("design", design), of_file("frame", frame))
}
