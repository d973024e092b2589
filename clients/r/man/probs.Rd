\name{probs}
\alias{probs}
\alias{joint}
\title{Inclusion Probabilities of a Design}
\description{
  \code{probs} gives each unit's probability of being drawn. \code{joint} gives the probability with which each two units are both drawn, of a systematic draw in the
  order of a frame of at most 2,000 rows.
}
\usage{
probs(design, frame)
joint(design, frame)
}
\arguments{
  \item{design}{a list, or the path of a TOML file; see \link{sampler-package}.}
  \item{frame}{a data frame, or the path of a CSV file.}
}
\value{
  A data frame, or what kind of one the frame is: \code{id}, or \code{first} and \code{second}, in the order of the frame; \code{probability}, as a number; and
  \code{probability_exact}, the same exactly, as a text such as \code{"1/3"}.
}
\examples{
schools <- read.csv(system.file("extdata", "schools", "frame.csv", package = "sampler"))
design <- list(version = 1, method = "pivotal", id = "school", stratum = "district", size = "pupils", n = 12)
if (!is.null(program(FALSE))) head(probs(design, schools))
}
