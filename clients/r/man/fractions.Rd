\name{fractions}
\alias{fractions}
\title{Probabilities as Texts of Fractions}
\description{
  Rounds probabilities to whole parts of one denominator, and writes them as the texts that the column of \code{prob} takes. Sums are those of the rounded
  probabilities, which need not be whole.
}
\usage{
fractions(probabilities, denominator)
}
\arguments{
  \item{probabilities}{numbers from 0 to 1.}
  \item{denominator}{a whole number from 1 on. Small ones with small factors, such as 120, leave a balanced draw more room than a power of ten.}
}
\value{Texts, such as \code{"8/120"}.}
\examples{
fractions(c(0.0687898, 0.5, 1), 120)
}
