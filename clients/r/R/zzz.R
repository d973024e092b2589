# The SHA-256 of the sources from which this package is installed, found as it is: what `sha256sum *.R | sha256sum` gives in the folder R of the sources, by
# their names in the order of their bytes. "unknown" where the folder isn't at hand then.
own_sha256 <- local({
  names <- sort(list.files("R", "[.]R$"), method = "radix")
  if (!"zzz.R" %in% names) "unknown"
  else sha256_of_bytes(charToRaw(paste0(vapply(file.path("R", names), sha256_of_file, ""), "  ", names, "\n", collapse = "")))
})
