# Estimates a total from a sample of fixed size and the answers of its units, and how far it may be off, by the joint probabilities.
#
#     Rscript examples/joint.R JOINT SAMPLE ANSWERS COLUMN
#
# The words and what is put are those of joint.py.
words <- commandArgs(trailingOnly = TRUE)
if (length(words) != 4) stop("JOINT SAMPLE ANSWERS COLUMN")
joint <- read.csv(words[1], colClasses = "character")
sample <- read.csv(words[2], colClasses = "character")
answers <- read.csv(words[3], colClasses = "character", check.names = FALSE)

# A fraction as a number.
number <- function(texts) vapply(strsplit(texts, "/"), function(p) as.numeric(p[1]) / as.numeric(p[2]), numeric(1))

rows <- match(sample$id, answers[[1]])
stopifnot(!anyNA(rows))
weight <- number(sample$weight)
part <- weight * as.numeric(answers[[words[4]]][rows])

# The joint probabilities of the sample as a matrix.
both <- number(joint$probability)
if (any(both == 0)) stop("a pair of probability 0 leaves no unbiased estimate of the variance")
pairs <- diag(1 / weight)
first <- match(joint$first, sample$id)
second <- match(joint$second, sample$id)
drawn <- !is.na(first) & !is.na(second)
pairs[cbind(first, second)[drawn, , drop = FALSE]] <- both[drawn]
pairs[cbind(second, first)[drawn, , drop = FALSE]] <- both[drawn]

terms <- (outer(1 / weight, 1 / weight) - pairs) / pairs * outer(part, part, "-")^2
variance <- sum(terms[upper.tri(terms)])
if (variance < 0) stop("an estimated variance below 0: this sample doesn't tell how far its total may be off")
cat(sprintf("%.2f %.2f\n", sum(part), sqrt(variance)))
