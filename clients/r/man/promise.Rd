\name{promise}
\alias{promise}
\alias{print.sampler_promise}
\title{In Which Strata No Draw Goes Wide, and by What}
\description{
  Says of a design by the cube, the local cube or the stratified cube, and of a frame, by what it is promised in each stratum that no draw has a step \code{wide},
  whatever its seed. Nothing is drawn.
}
\usage{
promise(design, frame)
\method{print}{sampler_promise}(x, ...)
}
\arguments{
  \item{design, frame}{as for \code{\link{draw}}. What the program refuses is refused, as by \code{\link{check}}.}
  \item{x}{what \code{promise} gave.}
  \item{...}{not used.}
}
\details{
  \code{"proved"} is a theorem that is proved of the program, for the cube and the local cube: no balancing value is below 0, and two products of the greatest size
  and the greatest values are small enough. \code{docs/proved.md} in the archive has it. So it is with equal probabilities and three columns from 0 to 11,360.
  \code{"on paper"} is the argument of \code{docs/narrow.md}, with a sharper bound, for values that are multiples of their unit's numerator, as \code{\link{fit}}
  makes them. Where neither holds a draw may go wide, or not: \code{\link{trial}} shows how often.
}
\value{
  A list of class \code{sampler_promise} with \code{strata}: a row for each stratum, or for the whole frame in a design without strata and by the stratified cube, with
  its name, its number of units that are neither certain nor without a chance (\code{free}), and \code{by} what it is promised: \code{"proved"},
  \code{"on paper"}, or \code{NA}.
}
\examples{
farms <- data.frame(farm = 1:60, region = c("east", "west"), herd = (1:60 * 7) \%\% 31)
design <- list(version = 2, method = "cube", id = "farm", stratum = "region", balance = "herd", n = 14)
if (!is.null(program(FALSE))) promise(design, farms)
}
