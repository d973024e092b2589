\name{design_of}
\alias{design_of}
\title{A Draw as a Design for the Package survey}
\description{Gives \code{survey::svydesign} of a draw, with its weights, strata, first stage units and probabilities.}
\usage{
design_of(drawn, data = drawn$sample, joint = NULL)
}
\arguments{
  \item{drawn}{what \code{\link{draw}} or \code{\link{replay}} gave.}
  \item{data}{the sample with the answers beside it, in any order, as by \code{merge(drawn$sample, answers)}. It needs the column \code{weight}, and those of the
    strata and of the first stage units.}
  \item{joint}{what \code{\link{joint}} gave of the same design and frame. With it the variance is that of Sen, Yates and Grundy, of a draw in one stage; it has an
    estimate that is right on average where none of the joint probabilities is 0.}
}
\details{
  Without \code{joint} the variance is the usual one, which takes the first stage units of each stratum as if they had been drawn with replacement. For a sample that
  is spread, balanced or drawn along a well sorted frame it says too much as a rule. In the data a column \code{probability} is added, 1 / weight.
}
\value{A design of the package \pkg{survey}, which has to be there.}
\examples{
shipped <- function(file) system.file("extdata", "schools", file, package = "sampler")
if (!is.null(program(FALSE)) && requireNamespace("survey", quietly = TRUE)) {
  drawn <- draw(shipped("design.toml"), read.csv(shipped("frame.csv")), tape = shipped("tape.txt"))
  data <- merge(drawn$sample, read.csv(shipped("answers.csv")))
  survey::svytotal(~absent, design_of(drawn, data))
}
}
