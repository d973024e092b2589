# Reads a sample file, its weights from fractions, and prints their sum.
words <- commandArgs(trailingOnly = TRUE)
sample <- read.csv(words[1])
parts <- strsplit(sample$weight, "/")
sample$weight <- vapply(parts, function(p) as.numeric(p[1]) / as.numeric(p[2]), numeric(1))
cat(sprintf("%.2f\n", sum(sample$weight)))
