\name{fit}
\alias{fit}
\alias{print.sampler_fitted}
\title{A Design with Which No Draw Goes Wide}
\description{
  Gives a design and a frame with which no draw by the cube, the local cube or the stratified cube has a step \code{wide}, so that balance is kept until the landing:
  probabilities near to the wanted ones, by few numerators, and values on levels. \code{docs/narrow.md} in the archive has the bound and its proof.
}
\usage{
fit(design, frame, levels = NULL, tries = 0)
\method{print}{sampler_fitted}(x, ...)
}
\arguments{
  \item{design, frame}{as for \code{\link{draw}}, with the probabilities that are wanted: by \code{n} or \code{sizes}, with or without \code{size}, or by a column
    \code{prob} of numbers, or of texts such as \code{"1/3"}. The columns of \code{balance} hold numbers of any kind.}
  \item{levels}{how many steps each column needs at least. The more, the more the probabilities move.}
  \item{tries}{where so many levels leave no promise, as many draws are tried in its place, by \code{\link{trial}}.}
  \item{x}{what \code{fit} gave.}
  \item{...}{not used.}
}
\details{
  In each stratum the probabilities add up to the whole number that is nearest to the sum of the wanted ones. Units that are certain stay so, as do those without a
  chance. With a second stage the sizes of the first stage units are fitted, in the first row of each. What can't be fitted is refused by a condition of class
  \code{sampler_unfit}, with \code{reason}, \code{column} and \code{stratum}.
}
\value{
  A list of class \code{sampler_fitted}:
  \item{design, frame}{ready for \code{draw}. The frame has all its columns, and \code{prob_fitted} (with a second stage \code{size_fitted}), and for each column of
    \code{balance} one whose name ends in \code{_fitted}; the design names these.}
  \item{strata}{a row for each stratum: its name, its numbers of units and of those that are neither certain nor without a chance, how many are drawn
    (\code{number}), what the wanted probabilities add up to (\code{asked}), what all numerators divide (\code{multiple}), and how far the probabilities moved, in
    the \code{median} and at the \code{greatest}, 0.05 for a twentieth more or less; and \code{by} what it is promised that no draw goes wide, as
    \code{\link{promise}} says it.}
  \item{columns}{a row for each stratum, or for all where they are drawn in one, and column: the new column's name \code{fitted}, its number of \code{steps}, 0 where
    all units have one level, what 1 in it stands for (\code{unit}), and how many units have the last level though their value lies \code{beyond} it.}
  \item{forced}{the ids whose numerator isn't one of the two next to the wanted one, since a whole sum asked for it.}
  \item{tried}{\code{NULL} where it is promised that no draw goes wide, else the trial that was made in place of a promise.}
}
\examples{
farms <- data.frame(farm = 1:60, region = c("east", "west"), area = round(exp(sin(1:60) + 4)), herd = (1:60 * 7) \%\% 31)
design <- list(version = 2, method = "stratified_cube", id = "farm", stratum = "region", size = "area", balance = c("area", "herd"), n = 14)
if (!is.null(program(FALSE))) {
  fitted <- fit(design, farms)
  fitted
  draw(fitted$design, fitted$frame)
}
}
