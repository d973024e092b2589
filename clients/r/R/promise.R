# What is promised of a draw before its seed is known: in which strata none goes `wide`, and by what; man/promise.Rd has the words.
promise <- function(design, frame) {
  keys <- as_list_of_keys(design)
  if (!isTRUE(keys$method %in% cubes)) stop("only a draw by cube, local_cube or stratified_cube can go wide")
  check(design, frame)
  units <- units_of(keys, if (is.data.frame(frame)) as.data.frame(frame) else records(bytes_of(frame)))
  is_together <- keys$method == "stratified_cube"
  names <- if (is_together) "" else unique(units$strata)
  free <- lapply(names, function(name) which((is_together | units$strata == name) & units$wanted$near > 0 & units$wanted$near < 1))
  by <- vapply(free, function(own) {
    values <- lapply(units$values, function(column) column[own])
    divisor <- gcd_of(units$wanted$top[own], units$wanted$bottom[own])
    promised_by(units$wanted$top[own] / divisor, units$wanted$bottom[own] / divisor, units$strata[own], values, is_together)
  }, "")
  strata <- data.frame(stratum = if (is_together) NA_character_ else vapply(names, name_of, "", design = keys), free = lengths(free), by = by, row.names = NULL)
  structure(list(strata = strata), class = "sampler_promise")
}

print.sampler_promise <- function(x, ...) {
  strata <- x$strata[seq_len(min(shown, nrow(x$strata))), ]
  print(data.frame(
    stratum = ifelse(is.na(strata$stratum), "all", strata$stratum), free = strata$free, "no draw goes wide" = ifelse(is.na(strata$by), "not promised", strata$by),
    check.names = FALSE
  ), row.names = FALSE)
  if (nrow(x$strata) > shown) cat("and", nrow(x$strata) - shown, "strata more\n")
  invisible(x)
}

# By what a promise holds in all strata.
by_in_words <- function(each) {
  proved <- "a theorem that is proved of the program (docs/proved.md)"
  paper <- "an argument on paper (docs/narrow.md)"
  count <- sum(each == "proved")
  if (count == length(each)) return(paste("by", proved))
  if (count == 0) paste("by", paper) else paste0("by ", proved, " in ", count, " of ", length(each), " strata, and by ", paper, " in the others")
}
