\name{draw}
\alias{draw}
\alias{replay}
\title{Draw a Sample, or Go Through a Draw Again}
\description{
  \code{draw} draws a sample of a frame by a design. \code{replay} goes through a draw again by its log, or through one stratum of it.
}
\usage{
draw(design, frame, seed = NULL, tape = NULL, record = NULL)
replay(design, frame, log, stratum = NULL, record = NULL)
}
\arguments{
  \item{design}{a list, or the path of a TOML file; see \link{sampler-package}.}
  \item{frame}{a data frame, a tibble or a data.table, or the path of a CSV file.}
  \item{seed}{a text of 64 hexadecimal digits; \code{\link{seed_of}} makes one of a sentence. \code{set.seed} has no effect.}
  \item{tape}{the path of a tape, or whole numbers. With neither seed nor tape the seed is 32 bytes of the operating system, and is told.}
  \item{log}{the path of the log of a draw.}
  \item{stratum}{the one stratum to go through: its name, a text, or its number, from 1 on in the order of the frame.}
  \item{record}{the name of a new folder, for \file{design.toml}, \file{frame.csv}, \file{seed.txt} or \file{tape.txt}, \file{log.txt}, \file{sample.csv} and
    \file{report.txt}, byte for byte as they went to the program and came from it; \file{weights.csv}, the sample with a weight that is rounded to twelve
    significant digits beside the exact one, for spreadsheets; and \file{versions.txt}, with the SHA-256 and the version of the program and of this package, and
    the SHA-256 and the names of the files that were given by their paths. It is there whole, or, after an error, not at all.}
}
\details{
  A sample is a probability sample only if nobody could pick the seed by what it selects. So settle how the seed comes about before the frame is final, and
  never draw twice. A draw that went wide, so that balance was lost in a stratum, is warned of by the stratum's name.
}
\value{
  A list of class \code{sampler_draw}:
  \item{sample}{the drawn rows in the order of the frame, with all their columns, and with the weight as a number, \code{weight}, and exactly, as the text
    \code{weight_exact}. It is of the frame's kind.}
  \item{selected, units, steps}{the numbers of drawn rows, of rows and of steps.}
  \item{left}{a row for each stratum, by its number and name, with how many first stage units were undecided when its landing began.}
  \item{balance}{a row for each stratum and column of \code{balance}, by their numbers and names, with the estimated total, which is \code{NA} where it is wide, and
    the known one. \code{left} and \code{balance} have no row where the method balances nothing.}
  \item{wide}{a row for each stratum that went wide, with the flight steps before; all \code{NA} of a log of version 1. By the stratified cube there is one draw from
    all strata, with 1 as its number and \code{NA} as its name, here and in \code{left} and \code{balance}.}
  \item{design}{the design, as a list.}
  \item{seed}{the seed; \code{NULL} of a draw by a tape and of a replay.}
}
\seealso{\code{\link{print.sampler_draw}}, \code{\link{plot.sampler_draw}}, \code{\link{design_of}}}
\examples{
schools <- read.csv(system.file("extdata", "schools", "frame.csv", package = "sampler"))
design <- list(version = 1, method = "pivotal", id = "school", stratum = "district", size = "pupils", n = 12)
if (!is.null(program(FALSE))) {
  drawn <- draw(design, schools, seed = seed_of("Lottery of 5 December 2026: 4 11 19 28 33 47"))
  print(drawn)
  summary(drawn)
}
}
