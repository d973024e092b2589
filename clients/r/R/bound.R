# When no draw by a cube can go `wide`, in whole numbers alone: by the theorem that is proved of the program, or by the sharper bound of docs/narrow.md.
#
# A *flight* is what is drawn in one: a stratum by the cube and the local cube, the whole frame by the stratified cube. Its probabilities are in proportion to
# whole *numerators* without a common divisor, and a fitted value is a numerator times a whole *level*.

most_of_a_vector <- 2^44 # of an entry of a circuit, a direction or an elimination table, docs/formats.md
most_of_a_denominator <- 2^80 # of the common denominator of the values of a step
most_of_a_number <- 2^31 - 1 # of a value and of a common denominator

# Whole numbers of any size, as their digits to the base 2^20, the lowest first.
digit_base <- 2^20

big <- function(number) {
  digits <- numeric(0)
  while (number > 0) {
    digits <- c(digits, number %% digit_base)
    number <- number %/% digit_base
  }
  digits
}

times <- function(first, second) {
  sums <- numeric(length(first) + length(second))
  for (place in seq_along(second)) {
    into <- place - 1 + seq_along(first)
    sums[into] <- sums[into] + first * second[place]
  }
  carry <- 0
  for (place in seq_along(sums)) {
    whole <- sums[place] + carry
    sums[place] <- whole %% digit_base
    carry <- whole %/% digit_base
  }
  sums[seq_len(max(0, which(sums != 0)))]
}

product <- function(numbers) Reduce(times, lapply(numbers, big), big(1))

at_most <- function(first, second) {
  if (length(first) != length(second)) return(length(first) < length(second))
  differ <- which(first != second)
  !length(differ) || first[max(differ)] < second[max(differ)]
}

# Whether `factor` times every minor of levels keeps to 2^44, in a flight of so many strata; ranges: those of the levels of each column, at least 1.
#
# With p columns and a the smaller of p and of the number of strata, a minor is at most the root of (p + a)^(p + a) / (a^a * 4^p), times all ranges. Both
# sides are squared, and compared by their logarithms where these are apart, else as whole numbers.
holds <- function(factor, ranges, strata) {
  columns <- length(ranges)
  several <- min(columns, strata)
  over <- 2 * log2(factor) + 2 * sum(log2(ranges)) + (columns + several) * log2(columns + several) - 88 - several * log2(several) - 2 * columns
  if (abs(over) > 1e-6) over < 0 else holds_exactly(factor, ranges, strata)
}

holds_exactly <- function(factor, ranges, strata) {
  columns <- length(ranges)
  several <- min(columns, strata)
  root <- product(c(factor, ranges))
  at_most(times(times(root, root), product(rep(columns + several, columns + several))),
          product(c(most_of_a_vector, most_of_a_vector, rep(several, several), rep(4, columns))))
}

# The largest number from 1 to `most` that fits, where all below one that fits do, or 0.
largest <- function(fits, most) {
  low <- 0
  high <- 1
  while (high <= most && fits(high)) {
    low <- high
    high <- 2 * high
  }
  high <- min(high, most + 1)
  while (high - low > 1) {
    middle <- (low + high) %/% 2
    if (fits(middle)) low <- middle else high <- middle
  }
  low
}

# How many steps of levels each of so many columns may have beside this factor, at most `most`.
steps_beside <- function(factor, columns, strata, most) largest(function(steps) holds(factor, rep(steps, columns), strata), most)

# The largest factor beside so many steps of each column.
factor_beside <- function(steps, columns, strata) largest(function(factor) holds(factor, rep(steps, columns), strata), most_of_a_vector)

# The greatest common divisors of two vectors, place by place.
gcd_of <- function(first, second) {
  first <- rep_len(first, max(length(first), length(second)))
  second <- rep_len(second, length(first))
  while (any(second != 0)) {
    rest <- first
    some <- second != 0
    rest[some] <- first[some] %% second[some]
    first[some] <- second[some]
    second[some] <- rest[some]
  }
  first
}

gcd_all <- function(numbers) {
  numbers <- unique(abs(numbers))
  divisor <- 0
  for (number in numbers) {
    divisor <- gcd_of(number, divisor)
    if (divisor == 1) break
  }
  divisor
}

# The least common multiple, or NULL where it passes `most`, a number up to 2^44; it is looked at as it grows.
multiple_within <- function(numbers, most) {
  multiple <- 1
  for (number in sort(unique(numbers))) {
    part <- number / gcd_of(multiple, number)
    if (part > most / multiple * 1.0000001 || multiple * part > most) return(NULL)
    multiple <- multiple * part
  }
  multiple
}

# Whether no draw can go wide: numerators, the stratum and a list of levels of each free unit of one flight. It looks at these numbers alone.
is_promised <- function(numerators, strata, levels) {
  if (!length(numerators)) return(TRUE)
  multiple <- multiple_within(numerators, most_of_a_vector)
  if (is.null(multiple)) return(FALSE)
  places <- split(seq_along(strata), strata)
  inside <- vapply(levels, function(column) max(1, vapply(places, function(own) max(column[own]) - min(column[own]), 0)), 0)
  with_zero <- vapply(levels, function(column) max(1, max(0, column) - min(0, column)), 0)
  divisor <- max(vapply(places, function(own) gcd_all(numerators[own]), 0))
  holds_exactly(multiple, inside, length(places)) && holds_exactly(divisor, with_zero, length(places))
}

# The remainder of a number of any size by one up to 2^31.
rest_of <- function(number, divisor) Reduce(function(rest, digit) (rest * digit_base + digit) %% divisor, rev(number), 0)

# The least common multiple of a denominator below 2^53 and of sizes below 2^31, as its digits, or NULL where it passes 2^80; it is looked at as it grows.
multiple_of_sizes <- function(denominator, sizes) {
  multiple <- big(denominator)
  for (size in sort(unique(sizes))) {
    if (!at_most(multiple, big(most_of_a_denominator))) return(NULL)
    multiple <- times(multiple, big(size / gcd_of(size, rest_of(multiple, size))))
  }
  if (at_most(multiple, big(most_of_a_denominator))) multiple
}

# Whether the free units of a stratum are narrow, as the library's `is_narrow` says: no draw of theirs by the cube or the local cube goes wide, which is proved of
# the program (docs/proved.md).
#
# sizes: from 1 on. columns: a list of the balancing values of each column. denominator: that of the requested probabilities together. A row is that of the sizes,
# or a column, and is bounded by its greatest number, or 1. No minor of the rows passes half of their permutations times all bounds.
is_narrow <- function(sizes, columns, denominator) {
  if (any(unlist(columns) < 0)) return(FALSE)
  bounds <- vapply(c(list(sizes), columns), function(row) max(1, row), 0)
  minor <- product(c(bounds, seq_along(bounds)[-(1:2)]))
  multiple <- multiple_of_sizes(denominator, sizes)
  !is.null(multiple) && at_most(times(big(bounds[1]), minor), big(most_of_a_vector)) && at_most(times(multiple, minor), big(most_of_a_denominator))
}

# By what it is promised that no draw of a flight goes wide: `proved` of the program, `on paper` in docs/narrow.md, or NA, by nothing.
#
# top, bottom: the probability of each free unit in lowest terms, below 2^31. strata: of each. columns: a list of the balancing values of each column. is_together:
# whether the strata are drawn in one, by the stratified cube, of which nothing is proved.
promised_by <- function(top, bottom, strata, columns, is_together) {
  common <- multiple_within(c(1, bottom), 2^44)
  if (is.null(common)) return(NA_character_)
  over <- top * (common / bottom)
  numerators <- over / max(1, gcd_all(over))
  if (!is_together && is_narrow(numerators, columns, common)) return("proved")
  levels <- lapply(columns, function(values) values / numerators)
  is_fitted <- common <= most_of_a_number && all(vapply(columns, function(values) all(values %% numerators == 0), TRUE))
  if (is_fitted && is_promised(numerators, strata, levels)) "on paper" else NA_character_
}
