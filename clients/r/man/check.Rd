\name{check}
\alias{check}
\alias{print.sampler_check}
\title{Whether a Design and a Frame Go Together}
\description{
  Says whether a design and a frame go together, and lists the strata. Compare the numbers of units with your own: an empty row at the end of a frame may be a
  unit, and \code{"ZG "} is another stratum than \code{"ZG"}.
}
\usage{
check(design, frame)
}
\arguments{
  \item{design}{a list, or the path of a TOML file; see \link{sampler-package}.}
  \item{frame}{a data frame, or the path of a CSV file.}
}
\value{
  A list of class \code{sampler_check}: \code{units} and \code{strata}, the numbers of units and of strata, and \code{of_strata}, a data frame with a row for each
  stratum: its number \code{stratum}, in the order of the frame, its \code{name}, \code{NA} of a frame without strata, and its number of \code{units}; it
  is \code{NULL} of a file with a quote inside a field, which this package doesn't read. What doesn't go together is refused by a condition of class \code{sampler_refusal}.
}
\examples{
schools <- read.csv(system.file("extdata", "schools", "frame.csv", package = "sampler"))
design <- list(version = 1, method = "pivotal", id = "school", stratum = "district", size = "pupils", n = 12)
if (!is.null(program(FALSE))) check(design, schools)
}
