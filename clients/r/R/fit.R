# A design by a cube, and a frame, with which no draw goes `wide`: probabilities by few numerators, and values on few levels. docs/narrow.md has the bound.

cubes <- c("cube", "local_cube", "stratified_cube")
usual_multiple <- 2520 # beside numerators that divide it as many steps are left as are usually asked for
usual_steps <- 1000 # at most
least_multiple <- 12
most_rows <- 16 # strata and columns together, by the stratified cube
shown <- 20 # of how many strata, and columns, a line is printed

# A design can't be fitted. column: the column that it is about, or NA; stratum: the stratum's name, or NA.
unfit <- function(reason, column = NA_character_, stratum = NA_character_) {
  places <- c(if (!is.na(stratum)) paste("stratum", stratum), if (!is.na(column)) paste("column", column))
  message <- paste0(paste(places, collapse = ", "), if (length(places)) ": ", reason)
  fields <- list(message = message, call = NULL, reason = reason, column = column, stratum = stratum)
  stop(structure(fields, class = c("sampler_unfit", "error", "condition")))
}

# Gives a design and a frame with which no draw by the cube, the local cube or the stratified cube goes wide; man/fit.Rd has the words.
fit <- function(design, frame, levels = NULL, tries = 0) {
  design <- design_to_fit(design)
  if (!is.null(levels)) levels <- as.numeric(whole(levels, "levels"))
  if (!is.null(levels) && (length(levels) != 1 || levels < 1)) stop("levels is a number from 1 on")
  rows <- if (is.data.frame(frame)) as.data.frame(frame) else records(bytes_of(frame))
  new <- c(if (is.null(design$second)) "prob_fitted" else "size_fitted", paste0(design$balance, "_fitted"))
  taken <- new[new %in% names(rows)]
  if (length(taken)) bad_value(taken[1], NA, "the frame has a column of this name already")
  units <- units_of(design, rows)
  group <- if (design$method == "stratified_cube") rep(1, length(units$strata)) else match(units$strata, unique(units$strata))
  strata <- length(unique(units$strata))
  if (design$method == "stratified_cube" && strata + length(design$balance) > most_rows)
    unfit(paste(strata, "strata and", length(design$balance), "columns are more than", most_rows, "together"))
  flights <- lapply(split(seq_along(group), group), function(places) flight_of(design, units, places, levels, tries))
  result <- structure(list(
    design = fitted_design(design, new),
    frame = in_kind(cbind(rows, fitted_columns(design, rows, units, flights, new)), frame),
    strata = do.call(rbind, unname(lapply(flights, told_strata, design = design, units = units))),
    columns = do.call(rbind, unname(lapply(flights, told_columns, design = design))),
    forced = unlist(unname(lapply(flights, function(flight) units$ids[flight$free[flight$found$forced]]))),
    tried = NULL
  ), class = "sampler_fitted")
  if (!all(vapply(flights, function(flight) flight$is_promised, TRUE))) result$tried <- trial(result, draws = tries)
  result
}

# A design as a list, with the names of its columns of `balance`.
as_list_of_keys <- function(design) {
  if (is.character(design)) design <- read_design(design)
  if (!is.list(design) || is.data.frame(design)) stop("a design is a list or the path of a file")
  if (inherits(design$balance, "formula")) design$balance <- names_in(design$balance, "balance")
  design$balance <- as.character(unlist(design$balance))
  design
}

design_to_fit <- function(design) {
  design <- as_list_of_keys(design)
  if (!isTRUE(design$method %in% cubes)) unfit("only a design by cube, local_cube or stratified_cube is fitted")
  balance <- design$balance
  if (!length(balance) || length(balance) > 15 || anyDuplicated(balance)) unfit("balance names 1 to 15 columns, each once")
  design
}

# ---------------------------------------------------------------------------------------------------------------------------------------------
# What is wanted

column_named <- function(rows, name) {
  places <- which(names(rows) == name)
  if (length(places) != 1)
    bad_value(name, NA, if (length(places)) "the frame has this column more than once" else "the frame has no column of this name")
  rows[[places]]
}

# The doubles of numbers, or of texts that are numbers.
doubles_of <- function(values, column) {
  if (is.factor(values)) bad_value(column, NA, "a factor where numbers have to be")
  if (anyNA(values)) bad_value(column, which(is.na(values))[1], "a value is missing")
  numbers <- suppressWarnings(as.double(values))
  if (anyNA(numbers)) bad_value(column, which(is.na(numbers))[1], paste0("'", values[is.na(numbers)][1], "' is no number"))
  if (any(is.infinite(numbers))) bad_value(column, which(is.infinite(numbers))[1], "an infinite value")
  numbers
}

# Wanted probabilities as doubles and, where they are fractions, exactly; `top` and `bottom` are NA where they aren't.
probabilities_of <- function(values, column) {
  if (is.factor(values)) values <- as.character(values)
  is_fraction <- is.character(values) & grepl("^[0-9]+/[0-9]+\\z", values, perl = TRUE)
  top <- bottom <- rep(NA_real_, length(values))
  top[is_fraction] <- as.double(sub("/.*", "", values[is_fraction]))
  bottom[is_fraction] <- as.double(sub(".*/", "", values[is_fraction]))
  near <- top / bottom
  if (!all(is_fraction)) near[!is_fraction] <- doubles_of(replace(values, is_fraction, "0"), column)[!is_fraction]
  bad <- is.na(near) | near < 0 | near > 1
  if (any(bad)) bad_value(column, which(bad)[1], paste(values[bad][1], "is no probability"))
  is_long <- is_fraction & bottom >= 2^53
  list(near = near, top = replace(top, is_long, NA), bottom = replace(bottom, is_long, NA))
}

# The first stage units: the rows of each, their ids and strata, and what is wanted of them.
units_of <- function(design, rows) {
  ids <- column_named(rows, design$id)
  strata <- if (is.null(design$stratum)) rep("", length(ids)) else as.character(column_named(rows, design$stratum))
  second <- as.list(design$second)
  psus <- if (length(second)) as.character(column_named(rows, second$psu)) else seq_along(ids)
  psu <- match(psus, unique(psus))
  first <- which(!duplicated(psu))
  own <- strata[first]
  wanted <- if (is.null(design$prob)) by_size(design, rows, psu, own) else probabilities_of(column_named(rows, design$prob), design$prob)
  values <- lapply(design$balance, function(name) sums_by(doubles_of(column_named(rows, name), name), psu))
  list(ids = if (length(second)) psus[first] else ids, first = first, strata = own, wanted = wanted, values = values)
}

sums_by <- function(values, group) if (anyDuplicated(group)) as.vector(rowsum(values, group)) else values

# The probabilities that the program has for these first stage units by their sizes.
by_size <- function(design, rows, psu, strata) {
  sizes <- if (is.null(design$size)) rep(1, length(psu)) else column_named(rows, design$size)
  if (is.character(sizes) && all(grepl("^[0-9]+\\z", sizes, perl = TRUE))) sizes <- as.double(sizes)
  if (anyDuplicated(psu)) sizes <- sums_by(as.double(whole(sizes, design$size)), psu)
  frame <- data.frame(id = seq_along(strata), stratum = strata, size = sizes)
  alone <- c(list(version = 2, method = "pivotal", id = "id", size = "size"), if (!is.null(design$stratum)) list(stratum = "stratum"))
  exact <- probs(c(alone, design[names(design) %in% c("n", "sizes")]), frame)$probability_exact
  probabilities_of(exact, "prob")
}

# ---------------------------------------------------------------------------------------------------------------------------------------------
# One flight

# What is drawn in one, the units at these places, and what it is fitted to: `found`, and `levels` for each column.
flight_of <- function(design, units, places, levels, tries) {
  near <- units$wanted$near[places]
  is_free <- near > 0 & near < 1
  flight <- list(places = places, free = places[is_free], others = places[!is_free], names = unique(units$strata[places]))
  numbers <- lapply(flight$names, asked_of, design = design, units = units, free = flight$free)
  flight$numbers <- data.frame(
    free = vapply(numbers, function(one) one$free, 0), asked = vapply(numbers, function(one) one$asked, 0), drawn = vapply(numbers, function(one) one$drawn, 0)
  )
  flight$far <- vapply(units$values, function(column) max(0, abs(column[flight$others])), 0)
  if (!length(flight$free)) {
    nothing <- numeric(0)
    flight$found <- list(numerators = nothing, top = nothing, bottom = nothing, forced = integer(0), off = nothing)
    flight$levels <- lapply(flight$far, whole_levels)
    flight$is_promised <- TRUE
    return(flight)
  }
  flying <- flight$names[flight$numbers$free > 0]
  flight$own <- match(units$strata[flight$free], flying)
  solved(design, flight, units, flight$numbers[flight$numbers$free > 0, ], levels, tries)
}

# How many are asked for, and drawn, of the free units of a stratum: the nearest whole number, in fractions of 2^32, of which each sum is exact.
asked_of <- function(name, design, units, free) {
  own <- units$wanted$near[free[units$strata[free] == name]]
  asked <- sum(floor(own * 2^32 + 0.5)) / 2^32
  drawn <- floor(asked + 0.5)
  if (length(own) && !(drawn > 0 && drawn < length(own))) {
    reason <- paste0("its ", length(own), " probabilities between 0 and 1 add up to ", format(asked, digits = 6), ": no whole number of them can be drawn")
    unfit(reason, stratum = name_of(design, name))
  }
  list(free = length(own), asked = asked, drawn = drawn)
}

# The fractions of the free units, or NULL where one isn't known. Where all of a stratum have one probability, it is the number drawn by that of the units.
fractions_of <- function(flight, units, numbers) {
  top <- units$wanted$top[flight$free]
  bottom <- units$wanted$bottom[flight$free]
  for (number in seq_len(nrow(numbers))) {
    of_stratum <- flight$own == number
    if (length(unique(units$wanted$near[flight$free[of_stratum]])) > 1) next
    top[of_stratum] <- numbers$drawn[number]
    bottom[of_stratum] <- numbers$free[number]
  }
  if (anyNA(top)) return(NULL)
  divisor <- gcd_of(top, bottom)
  list(top = top / divisor, bottom = bottom / divisor)
}

# Finds numerators, and then levels, so that the bound holds; else, where draws may be tried, as many levels as are asked for.
solved <- function(design, flight, units, numbers, levels, tries) {
  columns <- length(units$values)
  strata <- nrow(numbers)
  exact <- fractions_of(flight, units, numbers)
  values <- lapply(units$values, function(column) column[flight$free])
  steps <- if (is.null(levels)) steps_beside(usual_multiple, columns, strata, usual_steps) else levels
  short <- integer(0)
  for (is_promised in c(TRUE, if (tries > 0) FALSE)) {
    factor <- if (is_promised) factor_beside(steps, columns, strata) else usual_multiple
    flight$is_promised <- is_promised
    flight["found"] <- list(if (factor) rounded(units$wanted$near[flight$free], exact, flight$own, numbers$drawn, factor, most_of_a_number %/% steps))
    if (is.null(flight$found)) next
    flight["levels"] <- list(levelled(values, flight$found$numerators, flight$own, flight$far, if (!is_promised) steps))
    is_short <- function(one) one$steps < max(1, levels) && !one$is_exact
    short <- which(vapply(flight$levels, is_short, TRUE))
    if (!is.null(flight$levels) && !length(short)) return(flight)
  }
  name <- if (length(flight$names) == 1) name_of(design, flight$names) else NA_character_
  last <- design$balance[columns]
  if (is.null(flight$found)) {
    most <- steps_beside(least_multiple, columns, strata, most_of_a_number)
    unfit(paste("no numerators were found beside", steps, "steps of", columns, "columns, of which the bound allows at most", most), last, name)
  }
  if (is.null(flight$levels)) unfit(paste("0 steps are left, and", max(1, levels), "are needed"), last, name)
  unfit(paste(flight$levels[[short[1]]]$steps, "steps are left, and", max(1, levels), "are needed"), design$balance[short[1]], name)
}

told_strata <- function(flight, design, units) {
  values <- lapply(flight$levels, function(one) flight$found$numerators * one$levels)
  by <- if (flight$is_promised) promised_by(flight$found$top, flight$found$bottom, flight$own, values, design$method == "stratified_cube") else NA_character_
  of_each <- lapply(seq_along(flight$names), function(number) {
    name <- flight$names[number]
    off <- sort(flight$found$off[units$strata[flight$free] == name])
    certain <- sum(units$strata[flight$others] == name & units$wanted$near[flight$others] == 1)
    data.frame(
      stratum = name_of(design, name), units = sum(units$strata[flight$places] == name), free = flight$numbers$free[number],
      number = flight$numbers$drawn[number] + certain, asked = round(flight$numbers$asked[number] + certain, 6),
      multiple = multiple_within(flight$found$numerators, most_of_a_vector),
      median = if (length(off)) (off[(length(off) - 1) %/% 2 + 1] + off[length(off) %/% 2 + 1]) / 2 else NA_real_,
      greatest = if (length(off)) off[length(off)] else NA_real_, by = by
    )
  })
  do.call(rbind, of_each)
}

told_columns <- function(flight, design) {
  number <- function(part) vapply(flight$levels, function(one) one[[part]], 0)
  data.frame(
    stratum = if (design$method == "stratified_cube") NA_character_ else name_of(design, flight$names), column = design$balance,
    fitted = paste0(design$balance, "_fitted"), steps = number("steps"), unit = number("unit"), beyond = number("beyond")
  )
}

# The name of a stratum as it is told, NA in a design without strata.
name_of <- function(design, stratum) if (is.null(design$stratum)) NA_character_ else stratum

# A column of a flight without free units: its values rounded, in such a unit that they can be written.
whole_levels <- function(far) list(levels = numeric(0), steps = 0, unit = max(1, far / (most_of_a_number - 1)), beyond = 0, is_exact = TRUE)

# ---------------------------------------------------------------------------------------------------------------------------------------------
# What is given

# The design that names the new columns: the keys that every design has in one order, so that it has the same bytes from Python.
fitted_design <- function(design, new) {
  sized <- !is.null(design$second)
  given <- function(keys) design[intersect(keys, names(design))]
  c(
    list(version = 2, method = design$method, id = design$id), given("stratum"),
    if (sized) c(list(size = new[1]), given(c("n", "sizes"))) else list(prob = new[1]),
    list(balance = new[-1]), given(c("near", "second"))
  )
}

# The new columns. What a first stage unit has stands in its first row, and 0 in its others. With a second stage the probabilities are given by sizes, by which
# the program makes a unit certain at the mean of the numerators for each one drawn.
fitted_columns <- function(design, rows, units, flights, new) {
  sized <- !is.null(design$second)
  columns <- c(list(if (sized) numeric(nrow(rows)) else character(nrow(rows))), rep(list(numeric(nrow(rows))), length(units$values)))
  for (flight in flights) {
    free <- units$first[flight$free]
    others <- units$first[flight$others]
    near <- units$wanted$near[flight$others]
    found <- flight$found
    if (sized) {
      columns[[1]][free] <- found$numerators
      columns[[1]][others] <- near * (if (length(free)) ceiling(sum(found$numerators) / flight$numbers$drawn[1]) else 1)
    } else {
      columns[[1]][free] <- sprintf("%.0f/%.0f", found$top, found$bottom)
      columns[[1]][others] <- sprintf("%.0f/1", near)
    }
    for (column in seq_along(units$values)) {
      one <- flight$levels[[column]]
      columns[[column + 1]][free] <- found$numerators * one$levels
      columns[[column + 1]][others] <- floor(units$values[[column]][flight$others] / one$unit + 0.5)
    }
  }
  structure(columns, names = new, row.names = seq_len(nrow(rows)), class = "data.frame")
}

print.sampler_fitted <- function(x, ...) {
  if (is.null(x$tried)) {
    cat("promised: no draw by this design goes wide, whatever its seed\n", by_in_words(x$strata$by), "\n\n", sep = "")
  } else {
    cat("tried, not promised: see the trial\n\n")
  }
  percent <- function(off) ifelse(is.na(off), "-", sprintf("%.2f %%", 100 * off))
  strata <- x$strata[seq_len(min(shown, nrow(x$strata))), ]
  print(data.frame(
    stratum = ifelse(is.na(strata$stratum), "all", strata$stratum), units = strata$units, free = strata$free, drawn = strata$number, asked = strata$asked,
    "numerators divide" = strata$multiple, "moved by" = percent(strata$median), "at most" = percent(strata$greatest), check.names = FALSE
  ), row.names = FALSE)
  if (nrow(x$strata) > shown) cat("and", nrow(x$strata) - shown, "strata more\n")
  if (length(x$forced)) cat("numerators that aren't one of the two next to the wanted one:", length(x$forced), "\n")
  cat("\n")
  columns <- x$columns[seq_len(min(shown, nrow(x$columns))), ]
  print(data.frame(
    stratum = ifelse(is.na(columns$stratum), "all", columns$stratum), column = columns$column, steps = ifelse(columns$steps == 0, "one level", columns$steps),
    "1 stands for" = signif(columns$unit, 6), "beyond the last" = columns$beyond, check.names = FALSE
  ), row.names = FALSE)
  if (nrow(x$columns) > shown) cat("and", nrow(x$columns) - shown, "lines more\n")
  if (!is.null(x$tried)) {
    cat("\n")
    print(x$tried)
  }
  invisible(x)
}
