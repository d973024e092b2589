# Estimates a total from a sample and the answers of its units, and how far it may be off, with the package survey.
#
#     Rscript examples/estimate.R SAMPLE ANSWERS COLUMN [STRATUM [PSU]]
#
# The words and what is put are those of estimate.py.
suppressPackageStartupMessages(library(survey))

words <- commandArgs(trailingOnly = TRUE)
if (length(words) < 3 || length(words) > 5) stop("SAMPLE ANSWERS COLUMN [STRATUM [PSU]]")
words <- c(words, "-", "-")
sample <- read.csv(words[1], colClasses = "character")
answers <- read.csv(words[2], colClasses = "character", check.names = FALSE)

# A weight is a fraction: its numerator, a slash and its denominator.
parts <- strsplit(sample$weight, "/")
weight <- vapply(parts, function(p) as.numeric(p[1]) / as.numeric(p[2]), numeric(1))

# The answers in the order of the sample.
rows <- match(sample$id, answers[[1]])
stopifnot(!anyNA(rows))
data <- data.frame(
  weight = weight,
  value = as.numeric(answers[[words[3]]][rows]),
  stratum = if (words[4] == "-") "" else answers[[words[4]]][rows],
  psu = if (words[5] == "-") sample$id else answers[[words[5]]][rows]
)
design <- svydesign(ids = ~psu, strata = ~stratum, weights = ~weight, data = data)
total <- svytotal(~value, design)
cat(sprintf("%.2f %.2f\n", coef(total), SE(total)))
