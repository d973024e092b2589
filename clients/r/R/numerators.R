# Probabilities in proportion to numerators that all divide one number, near to wanted ones, with a whole sum in each stratum.
#
# Each step here is a comparison or one operation on doubles, or in whole numbers below 2^53, so that the Python package comes to the same numerators.

# Numbers with more divisors than any smaller one, from 12 on.
multiples <- c(
  12, 24, 36, 48, 60, 120, 180, 240, 360, 720, 840, 1260, 1680, 2520, 5040, 7560, 10080, 15120, 20160, 25200, 27720, 45360, 50400, 55440, 83160, 110880, 166320,
  221760, 277200, 332640, 498960, 554400, 665280, 720720, 1081080, 1441440, 2162160, 2882880, 3603600, 4324320, 6486480, 7207200, 8648640, 10810800, 14414400,
  17297280, 21621600, 32432400, 36756720, 43243200, 61261200
)
families <- 6 # how many of these are tried, the largest that may be
shifts <- c(0.5, 0.625, 0.75, 0.875, 1, 1.25, 1.5, 1.75, 2)
looked_at <- 200 # of how many units each family is tried first
tried_whole <- 4 # how many families are then tried of all units
mended_units <- 8 # how many units of a stratum make its sum whole at last
reach <- 3 # and how far each may go
lowered_steps <- 100 # in how many steps all may be lowered, a thirty-second part each time

# The divisors of a number, rising.
divisors <- function(number) {
  low <- which(number %% seq_len(floor(sqrt(number))) == 0)
  sort(unique(c(low, number / low)))
}

# How far values are from the wanted ones: 0.05 for a twentieth more or less.
apart <- function(values, wanted) pmax(values / wanted, wanted / values) - 1

# How many of the numbers of the grid are at most each value.
above <- function(values, grid) findInterval(values, grid)

# Numerators for the free units of one flight, or NULL where no family serves: a list of the numerators, without a common divisor, of the probabilities as
# fractions, `top` and `bottom`, of the places that are forced, whose numerator isn't one of the two next to the wanted one, and of how far off each one is.
#
# wanted: a double each. exact: a list of fractions, `top` and `bottom`, or NULL. strata: the stratum of each, counted from 1. numbers: how many are drawn of
# each stratum. most_multiple: what their least common multiple may be. most_numerator: what a numerator may be.
rounded <- function(wanted, exact, strata, numbers, most_multiple, most_numerator) {
  kept <- kept_as_they_are(exact, wanted, strata, numbers, most_multiple, most_numerator)
  if (!is.null(kept)) return(kept)
  tried <- tried_families(wanted, largest_families(most_multiple), most_numerator, length(numbers) > 1)
  served <- list()
  for (place in seq_len(nrow(tried))) {
    grid <- divisors(tried$multiple[place])
    found <- if (length(numbers) > 1) shared(wanted, strata, numbers, grid, tried$scale[place]) else sized(wanted, numbers, grid, tried$scale[place])
    if (!is.null(found)) served <- c(served, list(found))
    if (length(served) == tried_whole) break
  }
  if (!length(served)) return(NULL)
  served[[which.min(vapply(served, function(found) sum(floor(1e6 * found$off)), 0))]]
}

largest_families <- function(most) {
  may_be <- multiples[multiples <= most]
  may_be[seq_along(may_be) > length(may_be) - families]
}

# The wanted probabilities themselves, where their sums are whole and their numerators serve.
kept_as_they_are <- function(exact, wanted, strata, numbers, most_multiple, most_numerator) {
  if (is.null(exact)) return(NULL)
  denominator <- multiple_within(exact$bottom, most_of_a_number)
  if (is.null(denominator)) return(NULL)
  over <- exact$top * (denominator / exact$bottom)
  sums <- vapply(seq_along(numbers), function(stratum) sum(over[strata == stratum]), 0)
  numerators <- over / gcd_all(over)
  if (any(sums != numbers * denominator) || max(numerators) > most_numerator || is.null(multiple_within(numerators, most_multiple))) return(NULL)
  rounded_to(numerators, exact$top, exact$bottom, integer(0), wanted)
}

rounded_to <- function(numerators, top, bottom, forced, wanted) {
  divisor <- gcd_of(top, bottom)
  top <- top / divisor
  bottom <- bottom / divisor
  list(numerators = numerators / gcd_all(numerators), top = top, bottom = bottom, forced = forced, off = apart(top / bottom, wanted))
}

# Families and scales, by how far off they are for some of the units alone: the numerator of a unit is near its probability times the scale.
tried_families <- function(wanted, families, most_numerator, is_shared) {
  ordered <- sort(wanted)
  count <- min(length(ordered), looked_at)
  some <- c(ordered[((seq_len(count) - 1) * length(ordered)) %/% count + 1][-count], ordered[length(ordered)])
  smallest <- ordered[1]
  greatest <- ordered[length(ordered)]
  tried <- data.frame(off = numeric(0), multiple = numeric(0), scale = numeric(0))
  for (multiple in families) {
    grid <- divisors(multiple)
    centre <- sqrt(multiple / (smallest * greatest))
    scales <- if (is_shared) grid[grid <= 4 * centre] else shifts * centre
    scales <- scales[scales * greatest <= most_numerator]
    if (is_shared) scales <- scales[scales > 1]
    off <- vapply(scales, function(scale) {
      below <- if (is_shared) grid[grid <= scale - 1] else grid
      sum(floor(1e6 * apart(nearest(some * scale, below), some * scale)))
    }, 0)
    tried <- rbind(tried, data.frame(off = off, multiple = rep(multiple, length(scales)), scale = scales))
  }
  tried[order(tried$off, tried$multiple, tried$scale), ]
}

# The numbers of the grid that are nearest to values, by their quotient.
nearest <- function(values, grid) {
  place <- above(values, grid)
  low <- grid[pmax(1, place)]
  high <- grid[pmin(length(grid), place + 1)]
  ifelse(values * values <= low * high | place == length(grid), low, high)
}

# As sizes: a probability is the numerator's share of their sum, times the number drawn. No unit becomes certain.
sized <- function(wanted, number, grid, scale) {
  numerators <- nearest(wanted * scale, grid)
  while (max(numerators) * number >= sum(numerators)) {
    top <- max(numerators)
    numerators[numerators == top] <- grid[above(top, grid) - 1]
  }
  total <- sum(numerators)
  if (total > most_of_a_number) return(NULL)
  rounded_to(numerators, numerators * number, rep(total, length(numerators)), which(!is_next(numerators, wanted * scale, grid)), wanted)
}

# Whether numerators are one of the two of the grid next to values.
is_next <- function(numerators, values, grid) {
  place <- above(values, grid)
  (place > 0 & numerators == grid[pmax(1, place)]) | (place < length(grid) & numerators == grid[pmin(length(grid), place + 1)])
}

# Over one denominator, with numerators whose sum is whole in each stratum.
shared <- function(wanted, strata, numbers, grid, denominator) {
  grid <- grid[grid <= denominator - 1]
  numerators <- numeric(length(wanted))
  for (stratum in seq_along(numbers)) {
    places <- which(strata == stratum)
    found <- summed(wanted[places] * denominator, grid, numbers[stratum] * denominator)
    if (is.null(found)) return(NULL)
    numerators[places] <- found
  }
  forced <- which(!is_next(numerators, wanted * denominator, grid))
  rounded_to(numerators, numerators, rep(denominator, length(numerators)), forced, wanted)
}

# Numbers of the grid near to these values, with this sum, or NULL: all go to the next below, and then those go to the next above that lose least by it.
summed <- function(values, grid, total) {
  values <- lowered(values, grid, total)
  at <- pmax(1, above(values, grid))
  rest <- total - sum(grid[at])
  up <- which(at < length(grid))
  steps <- numeric(length(at))
  steps[up] <- grid[at[up] + 1] - grid[at[up]]
  up <- up[order((grid[at[up]] + grid[at[up] + 1] - 2 * values[up]) / (values[up] * steps[up]))]
  for (unit in up) {
    if (steps[unit] <= rest) {
      rest <- rest - steps[unit]
      at[unit] <- at[unit] + 1
    }
  }
  if (rest != 0) mended(values, grid, at, rest) else grid[at]
}

# The values, all lowered in one proportion where those that the grid has nothing below would else take more than this sum.
lowered <- function(values, grid, total) {
  shares <- Reduce(function(share, turn) share * 0.96875, seq_len(lowered_steps - 1), 1, accumulate = TRUE)
  passes <- function(turns) sum(grid[pmax(1, above(values * shares[turns + 1], grid))]) > total
  turns <- largest(function(turns) passes(turns - 1), lowered_steps - 1)
  if (turns) values * shares[turns + 1] else values
}

# The same numbers, a few of them moved so that their sum is larger by `rest`, or NULL where none of the moves that are tried does it.
mended <- function(values, grid, at, rest) {
  few <- different(at)
  half <- length(few) %/% 2
  first <- moves(values, grid, at, few[seq_len(half)])
  second <- moves(values, grid, at, few[half + seq_len(length(few) - half)])
  by_cost <- order(first$cost)
  found <- by_cost[match(rest - second$sum, first$sum[by_cost])]
  if (all(is.na(found))) return(NULL)
  best <- which.min(first$cost[found] + second$cost)
  at[few] <- c(first$places[found[best], ], second$places[best, ])
  grid[at]
}

# A few units whose numbers differ as far as they can: the first one of each number, evenly among the numbers, then the second ones.
different <- function(at) {
  by_number <- order(at)
  rank <- integer(length(at))
  rank[by_number] <- sequence(rle(at[by_number])$lengths)
  ranked <- order(rank, at)
  firsts <- sum(rank == 1)
  if (firsts >= mended_units) ranked[((seq_len(mended_units) - 1) * firsts) %/% mended_units + 1] else ranked[seq_len(min(length(ranked), mended_units))]
}

# All ways to move these units by up to so many places of the grid: how much it adds, how far off they then are, and their places.
moves <- function(values, grid, at, units) {
  sum <- 0
  cost <- 0
  places <- matrix(0, 1, 0)
  for (unit in units) {
    to <- seq(max(1, at[unit] - reach), min(length(grid), at[unit] + reach))
    old <- rep(seq_along(sum), each = length(to))
    new <- rep(to, times = length(sum))
    sum <- sum[old] + (grid[new] - grid[at[unit]])
    cost <- cost[old] + apart(grid[new], values[unit])
    places <- cbind(places[old, , drop = FALSE], new, deparse.level = 0)
  }
  list(sum = sum, cost = cost, places = places)
}
