# A design tried many times before its seed is settled: how often it goes `wide`, and how far its estimated totals are off; man/trial.Rd has the words.
trial <- function(design, frame = NULL, draws = 20, columns = NULL, seeds = NULL) {
  if (is.null(frame)) {
    balance <- unique(design$columns$column)
    frame <- design$frame
    design <- design$design
  } else {
    design <- as_list_of_keys(design)
    balance <- design$balance
  }
  if (!length(design$balance)) design$balance <- NULL
  names <- unique(c(balance, columns))
  if (is.null(seeds)) seeds <- vapply(seq_len(draws), function(draw) new_seed(), "")
  if (!length(seeds) || !all(grepl("^[0123456789ABCDEFabcdef]{64}\\z", seeds, perl = TRUE)))
    stop("draws is a number from 1 on, and each seed has 64 hexadecimal digits")
  rows <- if (is.data.frame(frame)) as.data.frame(frame) else records(bytes_of(frame))
  values <- lapply(names, function(name) doubles_of(column_named(rows, name), name))
  known <- vapply(values, sum, 0)
  folder <- new_folder()
  on.exit(remove_folder(folder))
  given <- carry(folder, design, frame, is_drawn = TRUE)
  names_of_sections <- names_of_strata(given)
  tried <- lapply(seeds, function(seed) tried_once(folder, given, names_of_sections, seed, values))
  errors <- matrix(vapply(tried, function(one) one$estimates, known) / known - 1, nrow = length(known), dimnames = list(names, NULL))
  drawn <- vapply(tried, function(one) one$drawn, 0)
  structure(list(
    draws = length(seeds), strata = tried_strata(tried, names_of_sections),
    columns = data.frame(
      column = as.character(names), known = known, mean = ifelse(known == 0, NA, rowMeans(errors)), error = ifelse(known == 0, NA, sqrt(rowMeans(errors^2)))
    ),
    drawn = range(drawn), errors = errors
  ), class = "sampler_trial")
}

# One draw: the number drawn, the estimated totals, and for each section of the log how many flights came before its step `wide`, NA where there is none, and how
# many units were undecided.
tried_once <- function(folder, given, names, seed, values) {
  report <- as_text(run(folder, "draw", c(inputs, "--seed", seed, "--log", "log.txt", "--sample", "sample.csv")))
  sample <- records(bytes_of(file.path(folder, "sample.csv")))
  places <- match(sample$id, given$ids)
  weights <- number(sample$weight)
  wide <- wide_sections(file.path(folder, "log.txt"), NULL)
  lines <- regmatches(report, gregexpr("(?m)^left [0-9]+ [0-9]+$", report, perl = TRUE))[[1]]
  flights <- left <- rep(NA_real_, length(names))
  flights[wide$stratum] <- wide$flights
  left[as.integer(sub("left ([0-9]+) .*", "\\1", lines))] <- as.double(sub(".* ", "", lines))
  list(drawn = nrow(sample), estimates = vapply(values, function(own) sum(weights * own[places]), 0), flights = flights, left = left)
}

# What each section showed in all draws.
tried_strata <- function(tried, names) {
  each <- function(part) matrix(unlist(lapply(tried, function(one) one[[part]])), nrow = length(names))
  flights <- each("flights")
  left <- each("left")
  data.frame(
    stratum = names, wide = rowMeans(!is.na(flights)), flights = apply(flights, 1, stats::median, na.rm = TRUE),
    left = apply(left, 1, stats::median), most_left = apply(left, 1, max)
  )
}

print.sampler_trial <- function(x, ...) {
  cat(x$draws, "draws by seeds that were thrown away: no samples, and none of them may become one\n")
  cat("drawn:", paste(unique(x$drawn), collapse = " to "), "\n")
  if (!all(is.na(x$strata$left))) {
    cat("\n")
    strata <- x$strata[order(-x$strata$wide), ]
    strata <- strata[seq_len(min(shown, nrow(strata))), ]
    print(data.frame(
      stratum = ifelse(is.na(strata$stratum), "all in one", strata$stratum), "went wide" = sprintf("%.1f %%", 100 * strata$wide),
      "flights before" = ifelse(is.na(strata$flights), "-", strata$flights), undecided = strata$left, "at most" = strata$most_left, check.names = FALSE
    ), row.names = FALSE)
    if (nrow(x$strata) > shown) cat("and", nrow(x$strata) - shown, "strata more, which went wide no oftener\n")
  }
  if (nrow(x$columns)) {
    cat("\n")
    percent <- function(error, form) ifelse(is.na(error), "-", sprintf(form, round(100 * error, 2) + 0))
    print(data.frame(
      column = x$columns$column, "known total" = x$columns$known, "mean error" = percent(x$columns$mean, "%+.2f %%"),
      error = percent(x$columns$error, "%.2f %%"), check.names = FALSE
    ), row.names = FALSE)
  }
  invisible(x)
}

# The relative errors of each column as a box plot.
plot.sampler_trial <- function(x, ...) {
  is_known <- !is.na(x$columns$error)
  errors <- 100 * t(x$errors[is_known, , drop = FALSE])
  graphics::boxplot(as.data.frame(errors), ylab = "error of the estimated total, %", main = paste(x$draws, "draws by seeds that were thrown away"), ...)
  graphics::abline(h = 0, col = "grey")
  invisible(x)
}
