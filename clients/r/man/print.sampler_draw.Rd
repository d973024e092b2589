\name{print.sampler_draw}
\alias{print.sampler_draw}
\alias{summary.sampler_draw}
\alias{print.summary.sampler_draw}
\alias{as.data.frame.sampler_draw}
\alias{plot.sampler_draw}
\title{A Draw Printed, Summed Up and Pictured}
\description{
  \code{print} says in a few lines what was drawn, and shows the first rows. \code{summary} adds the weights, the drawn rows of each stratum, and the balance.
  \code{plot} makes a map, or shows the balance or the weights. \code{as.data.frame} gives the sample.
}
\usage{
\method{print}{sampler_draw}(x, n = 10, ...)
\method{summary}{sampler_draw}(object, ...)
\method{plot}{sampler_draw}(x, which = NULL, coordinates = NULL, frame = NULL, ...)
\method{as.data.frame}{sampler_draw}(x, ...)
}
\arguments{
  \item{x, object}{what \code{\link{draw}} or \code{\link{replay}} gave.}
  \item{n}{the number of rows that are shown.}
  \item{which}{\code{"map"}, the drawn units where they lie, each as large as its weight; \code{"balance"}, for each stratum and column the relative difference of
    the estimated total from the known one; or \code{"weights"}. By default the first of these that there is.}
  \item{coordinates}{the names of the two columns of a map; by default the first two of \code{near}.}
  \item{frame}{the frame, whose units are shown in grey on a map.}
  \item{...}{words of \code{print.data.frame}, or of the picture, such as \code{main}.}
}
\value{The draw itself, \code{summary} a list of class \code{summary.sampler_draw}, and \code{as.data.frame} the sample.}
\examples{
woods <- read.csv(system.file("extdata", "woods", "frame.csv", package = "sampler"))
design <- list(version = 2, method = "local_cube", id = "wood", balance = ~ hectares + timber, near = ~ east + north, n = 9)
if (!is.null(program(FALSE))) {
  drawn <- draw(design, woods, seed = seed_of("Lottery of 5 December 2026: 4 11 19 28 33 47"))
  plot(drawn, frame = woods)
  plot(drawn, "balance")
}
}
