# A draw printed, summed up, pictured, and handed to survey.

# Where and when a draw went wide, in a line for each stratum.
wide_lines <- function(drawn) {
  wide <- drawn$wide
  where <- ifelse(is.na(wide$stratum_name), "the draw", paste("stratum", sQuote(wide$stratum_name, FALSE)))
  when <- ifelse(is.na(wide$flights), "", paste0(" after ", wide$flights, " flight steps"))
  left <- drawn$left$left[match(wide$stratum, drawn$left$stratum)]
  paste0(where, " went wide", when, ifelse(is.na(left), "", paste0(", with ", left, " units undecided")), recycle0 = TRUE)
}

# What is said of a draw that went wide.
advice <- function(drawn) {
  lines <- wide_lines(drawn)
  more <- if (length(lines) > 10) paste0("; and ", length(lines) - 10, " strata more")
  paste0(paste(utils::head(lines, 10), collapse = "; "), more,
    ". The probabilities are exact, but balance is lost there. For the next draw see ?fit; don't draw this one again.")
}

# The relative differences of the estimated totals of the balancing columns from the known ones; NA where there is none.
differences <- function(balance) ifelse(balance$total == 0, NA, balance$estimate / balance$total - 1)

places_of <- function(balance) ifelse(is.na(balance$stratum_name), balance$column_name, paste0(balance$column_name, ", stratum ", balance$stratum_name))

# A draw in a few lines.
draw_lines <- function(x) {
  lines <- paste0(x$selected, " of ", x$units, " rows drawn in ", format(x$steps, scientific = FALSE), " steps", if (!is.null(x$seed)) paste0(", seed ", x$seed))
  if (nrow(x$left)) {
    strata <- if (nrow(x$left) > 1) paste0(", in ", nrow(x$left), " strata")
    lines <- c(lines, paste0(sum(x$left$left), " units undecided when the landing began", strata), wide_lines(x))
  }
  off <- abs(differences(x$balance))
  if (any(!is.na(off))) {
    most <- which.max(off)
    lines <- c(lines, paste0("greatest relative difference of a balancing total: ", signif(off[most], 2), " (", places_of(x$balance)[most], ")"))
  }
  lines
}

print.sampler_draw <- function(x, n = 10, ...) {
  writeLines(draw_lines(x))
  print(utils::head(x$sample, n), ...)
  if (x$selected > n) cat(".. and", x$selected - n, "rows more in $sample\n")
  invisible(x)
}

as.data.frame.sampler_draw <- function(x, ...) as.data.frame(x$sample, ...)

print.sampler_check <- function(x, ...) {
  cat("accepted", format(x$units, scientific = FALSE), "units in", x$strata, "strata\n")
  if (!is.null(x$of_strata) && !anyNA(x$of_strata$name)) print(x$of_strata, row.names = FALSE, ...)
  invisible(x)
}

summary.sampler_draw <- function(object, ...) {
  stratum <- object$design$stratum
  sample <- as.data.frame(object$sample)
  groups <- if (is.null(stratum)) factor(rep("all", nrow(sample))) else factor(sample[[stratum]], unique(sample[[stratum]]))
  by_stratum <- data.frame(stratum = levels(groups), selected = as.vector(table(groups)), weights = as.vector(tapply(sample$weight, groups, sum)))
  balance <- object$balance
  if (nrow(balance)) balance <- cbind(balance[c("stratum_name", "column_name", "estimate", "total")], difference = differences(balance))
  structure(list(lines = draw_lines(object), weights = summary(sample$weight), by_stratum = by_stratum, balance = balance), class = "summary.sampler_draw")
}

print.summary.sampler_draw <- function(x, ...) {
  writeLines(x$lines)
  cat("\nWeights\n")
  print(x$weights, ...)
  cat("\nDrawn rows, and the sums of their weights\n")
  print(x$by_stratum, row.names = FALSE, ...)
  if (nrow(x$balance)) {
    cat("\nBalance\n")
    print(x$balance, row.names = FALSE, ...)
  }
  invisible(x)
}

# which: "map", "balance" or "weights".
plot.sampler_draw <- function(x, which = NULL, coordinates = NULL, frame = NULL, ...) {
  if (is.null(coordinates) && length(x$design$near) >= 2) coordinates <- unlist(x$design$near)[1:2]
  possible <- c(if (!is.null(coordinates)) "map", if (nrow(x$balance)) "balance")
  if (is.null(which)) which <- if (length(possible)) possible[1] else "weights"
  which <- match.arg(which, c("map", "balance", "weights"))
  if (which == "map" && is.null(coordinates)) stop("a map needs the names of two columns: coordinates = c(\"east\", \"north\")")
  if (which == "balance" && !nrow(x$balance)) stop("this method balances nothing")
  switch(which, map = plot_map(x, coordinates, frame, ...), balance = plot_balance(x, ...), weights = plot_weights(x, ...))
  invisible(x)
}

# The drawn units where they lie, each as large as its weight, over those of the frame in grey where it is given.
plot_map <- function(x, coordinates, frame, ...) {
  points_of <- function(rows) {
    rows <- as.data.frame(rows)
    missing <- setdiff(coordinates, names(rows))
    if (length(missing)) stop("no column ", sQuote(missing[1], FALSE))
    vapply(coordinates, function(name) as.numeric(rows[[name]]), numeric(nrow(rows)))
  }
  sample <- matrix(points_of(x$sample), ncol = 2)
  all <- if (is.null(frame)) sample else matrix(points_of(frame), ncol = 2)
  shown <- list(xlab = coordinates[1], ylab = coordinates[2], asp = 1, main = paste(x$selected, "of", x$units, "units"))
  do.call(graphics::plot, c(list(all, pch = 20, cex = 0.5, col = if (is.null(frame)) NA else "grey70"), utils::modifyList(shown, list(...))))
  size <- x$sample$weight
  graphics::points(sample, pch = 19, col = grDevices::adjustcolor("steelblue", 0.7), cex = 0.8 + 1.4 * sqrt(size / max(size)))
}

# The relative difference of each estimated total from the known one, as dots around 0.
plot_balance <- function(x, ...) {
  off <- differences(x$balance)
  is_there <- !is.na(off)
  if (!any(is_there)) stop("no estimated total that isn't wide")
  groups <- if (anyNA(x$balance$stratum_name)) NULL else factor(x$balance$stratum_name[is_there], unique(x$balance$stratum_name))
  width <- max(abs(100 * off[is_there]), 1e-9)
  shown <- list(xlab = "estimated beside known total, difference in %", main = "Balance", pch = 19, xlim = c(-width, width))
  do.call(graphics::dotchart, c(list(100 * off[is_there], labels = x$balance$column_name[is_there], groups = groups), utils::modifyList(shown, list(...))))
  graphics::abline(v = 0, lty = 2)
}

plot_weights <- function(x, ...) {
  shown <- list(pch = 19, xlab = "weight", main = paste("Weights of", x$selected, "rows"))
  do.call(graphics::stripchart, c(list(x$sample$weight, method = "stack"), utils::modifyList(shown, list(...))))
}

design_of <- function(drawn, data = drawn$sample, joint = NULL) {
  if (!inherits(drawn, "sampler_draw")) stop("what draw() or replay() gave is wanted")
  if (!requireNamespace("survey", quietly = TRUE)) stop("this needs the package survey")
  data <- as.data.frame(data)
  stratum <- drawn$design$stratum
  village <- drawn$design$second$psu
  missing <- setdiff(c("weight", stratum, village), names(data))
  if (length(missing)) stop("no column ", sQuote(missing[1], FALSE), " in the data")
  data$probability <- 1 / data$weight
  formula_of <- function(name) if (is.null(name)) NULL else stats::as.formula(call("~", as.name(name)), env = globalenv())
  ids <- if (is.null(village)) ~1 else formula_of(village)
  if (is.null(joint)) return(survey::svydesign(ids = ids, strata = formula_of(stratum), weights = ~weight, data = data, nest = !is.null(stratum)))
  if (!is.null(village)) stop("joint probabilities are those of one stage")
  survey::svydesign(ids = ~1, probs = ~probability, data = data, pps = survey::ppsmat(joint_matrix(drawn, data, joint)), variance = "YG")
}

# The joint probabilities of the drawn units as a matrix, in the order of the data, with their own on the diagonal.
joint_matrix <- function(drawn, data, joint) {
  ids <- as.character(data[[drawn$design$id]])
  joint <- as.data.frame(joint)
  first <- match(joint$first, ids)
  second <- match(joint$second, ids)
  is_drawn <- !is.na(first) & !is.na(second)
  matrix <- diag(data$probability, length(ids))
  matrix[cbind(first, second)[is_drawn, , drop = FALSE]] <- joint$probability[is_drawn]
  matrix[cbind(second, first)[is_drawn, , drop = FALSE]] <- joint$probability[is_drawn]
  if (sum(is_drawn) < length(ids) * (length(ids) - 1) / 2) stop("the joint probabilities are those of another frame")
  matrix
}
