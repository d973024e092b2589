\name{trial}
\alias{trial}
\alias{print.sampler_trial}
\alias{plot.sampler_trial}
\title{A Design Tried Before Its Seed Is Settled}
\description{
  Draws a design many times by seeds of its own, and tells how often it went wide, how many units were undecided, and how far the estimated totals are off. These are
  no samples: each seed is thrown away. Compare designs on your own frame in this way before the seed is settled, and not after.
}
\usage{
trial(design, frame = NULL, draws = 20, columns = NULL, seeds = NULL)
\method{print}{sampler_trial}(x, ...)
\method{plot}{sampler_trial}(x, ...)
}
\arguments{
  \item{design, frame}{as for \code{\link{draw}}; or what \code{\link{fit}} gave, alone, and the errors are those of the values as they were before they were put on
    levels.}
  \item{draws}{how many.}
  \item{columns}{the names of columns whose totals are estimated too; those of \code{balance} come first by themselves.}
  \item{seeds}{in place of new ones these, of 64 hexadecimal digits each, so that designs are compared by the same; \code{draws} is then their number. The seed of the
    draw itself must not be among them.}
  \item{x}{what \code{trial} gave.}
  \item{...}{for \code{plot}, what \code{\link[graphics]{boxplot}} takes.}
}
\value{
  A list of class \code{sampler_trial}:
  \item{draws}{how many were made.}
  \item{strata}{a row for each stratum, or for the whole frame in a design without strata and by the stratified cube: in what share of the draws it went \code{wide},
    how many \code{flights} came before (the median), and how many units were undecided when the landing began (\code{left}, the median, and \code{most_left}).}
  \item{columns}{a row for each column: the \code{known} total over all rows, and the relative errors of its estimates, their \code{mean} and \code{error}, the root of
    the mean of their squares.}
  \item{drawn}{the least and the largest number of drawn rows.}
  \item{errors}{the relative error of each draw, a row for each column.}
  \code{plot} draws a box for the errors of each column.
}
\examples{
schools <- read.csv(system.file("extdata", "schools", "frame.csv", package = "sampler"))
design <- list(version = 1, method = "pivotal", id = "school", stratum = "district", size = "pupils", n = 12)
if (!is.null(program(FALSE))) trial(design, schools, draws = 5, columns = "pupils")
}
