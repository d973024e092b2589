# Values on so few levels that the bound holds.
#
# A fitted value is a numerator times a level, so a level counts the same in each drawn unit's part of the estimated total. Each step here is a comparison or one
# operation on doubles, or in whole numbers below 2^53, so that the Python package comes to the same levels.

shrinks <- c(1, 0.875, 0.75, 0.625, 0.5, 0.375, 0.25, 0.1875, 0.125)
most_steps <- 1e6 # where they aren't exact
nearly_one <- 1000 # shares that differ by less than a thousandth part are as good as one
most_cut <- 255 # with more steps than these none is worth cutting the largest values for
judged_by <- 4000 # of how many units it is judged whether to cut
parts_of_the_spread <- 8192

# Levels for each column of one flight, as many as the bound allows, or NULL where it allows none; steps: as many as these, whatever the bound allows.
# Of each column a list: the level of each free unit; the number of steps from the least to the largest one within a stratum; the unit, which is what 1 of a
# fitted value stands for; how many units have the last level though their value lies beyond it; and whether the values, or their differences, are kept whole,
# or are nearly none.
#
# values: for each column those of the free units. numerators, strata: as in `rounded`. others: for each column the largest size of a value of the units that
# aren't free.
levelled <- function(values, numerators, strata, others, steps = NULL) {
  columns <- Map(function(own, other) column_of(own, numerators, strata, other), values, others)
  if (!is.null(steps)) return(lapply(columns, function(column) quantised(column, min(steps, column$cap), numerators, strata, TRUE)))
  multiple <- multiple_within(numerators, most_of_a_vector)
  divisor <- max(vapply(split(numerators, strata), gcd_all, 0))
  found <- steps_of(columns, multiple, divisor, length(unique(strata)))
  columns <- found$columns
  steps <- found$steps
  repeat {
    for (is_cut in c(TRUE, FALSE)) {
      levels <- Map(function(column, number) quantised(column, number, numerators, strata, is_cut), columns, steps)
      if (is_promised(numerators, strata, lapply(levels, function(one) one$levels))) return(levels)
    }
    if (max(steps) <= 1) return(NULL)
    steps <- pmin(steps, pmax(1, steps - 1))
  }
}

# What the levels of a column depend on. Where all shares of the numerators are whole, they have a common divisor, and steps of it are exact.
column_of <- function(values, numerators, strata, other) {
  shares <- values / numerators
  by_stratum <- split(shares, strata)
  lows <- vapply(by_stratum, min, 0)
  highs <- vapply(by_stratum, max, 0)
  spread <- max(highs - lows)
  is_whole <- all(shares == floor(shares) & abs(shares) < 2^53) && any(shares != 0)
  unit <- if (is_whole) gcd_all(shares) else 0
  far <- max(other, max(numerators) * max(abs(min(lows)), abs(max(highs))))
  cap <- if (far > 0) floor(spread / (far / (most_of_a_number - max(numerators)))) else 0
  is_whole <- is_whole && cap >= floor(spread / unit)
  cap <- if (is_whole) floor(spread / unit) else min(cap, most_steps)
  list(shares = shares, lows = lows, spread = spread, ends = max(0, highs) - min(0, lows), far = far, cap = cap, is_whole = is_whole)
}

# The columns, and the steps of each: as many as may be, the same number for all that can use it, and one more for the first ones where there is room. A column
# whose shares differ by so little that not even one step is left is one without steps.
steps_of <- function(columns, multiple, divisor, strata) {
  caps <- vapply(columns, function(column) column$cap, 0)
  fits <- function(steps) does_fit(columns, steps, multiple, divisor, strata)
  while (!fits(pmin(1, caps)) && any(caps > 0)) {
    finest <- which.max(vapply(columns, function(column) if (column$cap > 0) column$ends / column$spread else -Inf, 0))
    columns[[finest]]$cap <- 0
    columns[[finest]]$is_whole <- FALSE
    caps[finest] <- 0
  }
  steps <- pmin(largest(function(number) fits(pmin(number, caps)), max(caps)), caps)
  for (place in seq_along(columns)) {
    more <- steps
    more[place] <- more[place] + 1
    if (caps[place] > steps[place] && fits(more)) steps <- more
  }
  list(columns = columns, steps = steps)
}

# Whether the bound holds beside so many steps of each column, as far as can be seen before the levels are made.
does_fit <- function(columns, steps, multiple, divisor, strata) {
  outside <- mapply(function(column, number) if (number) floor(number * (column$ends / column$spread)) + 2 else 1, columns, steps)
  holds(multiple, pmax(1, steps), strata) && holds(divisor, outside, strata)
}

# The column on so many steps; is_cut: whether the largest values may go to the last level, so that the steps are shorter.
quantised <- function(column, steps, numerators, strata, is_cut) {
  shares <- column$shares
  if (steps == 0) {
    unit <- max(abs(shares))
    if (unit == 0) unit <- 1
    is_exact <- column$spread * nearly_one <= unit && column$far / unit <= most_of_a_number - max(numerators)
    return(list(levels = floor(shares / unit + 0.5), steps = 0, unit = unit, beyond = 0, is_exact = is_exact))
  }
  is_exact <- column$is_whole && steps == column$cap
  unit <- column$spread / steps
  if (is_cut && steps <= most_cut && !is_exact && min(column$lows) >= 0) unit <- best_unit(column, steps, numerators, strata)
  free <- floor(shares / unit + 0.5)
  levels <- pmin(free, (floor(column$lows / unit + 0.5) + steps)[strata])
  list(levels = unname(levels), steps = steps, unit = unit, beyond = sum(levels < free), is_exact = is_exact)
}

# The step by which the shares are least off, by the sum of squares, each weighted by its numerator.
best_unit <- function(column, steps, numerators, strata) {
  some <- order(-column$shares)
  some <- some[seq(1, length(some), by = (length(some) + judged_by - 1) %/% judged_by)]
  shares <- column$shares[some]
  most <- max(numerators)
  weights <- floor(255 * numerators[some] / most)
  best <- NULL
  for (shrink in shrinks) {
    unit <- shrink * column$spread / steps
    if (column$far / unit > most_of_a_number - most) break
    levels <- pmin(floor(shares / unit + 0.5), (floor(column$lows / unit + 0.5) + steps)[strata[some]])
    off <- sum(weights * floor(parts_of_the_spread * abs(shares - levels * unit) / column$spread)^2)
    if (is.null(best) || off < best$off) best <- list(off = off, unit = unit)
  }
  best$unit
}
