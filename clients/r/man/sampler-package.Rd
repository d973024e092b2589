\name{sampler-package}
\alias{sampler-package}
\alias{sampler}
\docType{package}
\title{Exact Probability Samples by the Program sampler}
\description{
  Draws a sample by the program \command{sampler} in one call. The program draws, and its inclusion probabilities are proved; this package only carries: it writes
  a design and a frame into a folder, calls the program there, and reads what the program wrote and put. It computes no probability and no weight, and finds no
  fault of a design or a frame but a value that it can't write without a guess. \code{fit} and \code{trial} stand before a draw: the one makes a design and a frame
  near those that are wanted, with which a balanced draw doesn't go wide, and the other tries a design by seeds that are thrown away.
  \code{promise} says of a design in which strata no draw can go wide, and by what.
}
\section{Designs}{
  A design is a list of its keys, such as \code{list(version = 1, method = "pivotal", id = "farm", size = "area", n = 6)}, or the path of a TOML file. The keys are
  those of the page \file{docs/formats.md} of the program. \code{balance} and \code{near} may be formulas, such as \code{~ area + workers}. A vector with names is a
  table, such as \code{sizes = c(north = 3, south = 4)}.
}
\section{Frames}{
  A frame is a data frame, a tibble or a data.table, whose kind its sample has too, or the path of a CSV file. Of a data frame those columns are written that the
  design asks for: a text in quotes, a whole number in digits. The same values make the same bytes here and in the Python package. A file goes to the program byte
  for byte, and comes back with a text in each field. Nothing is guessed: a missing value, a double that isn't whole or is 2^53 or more, and a factor whose labels
  are numbers are refused.
}
\section{Errors}{
  A refusal of the program is a condition of class \code{sampler_refusal}, with \code{code}, \code{line} and, where the line names them, \code{row} and
  \code{column}; row 1 is the first row. A value that can't be written without a guess is one of class \code{sampler_bad_value}, with \code{column}, \code{row} and
  \code{reason}. A draw that went wide, so that balance was lost in a stratum, is warned of by class \code{sampler_wide}, and a program of another version by class
  \code{sampler_version_warning}.
}
\section{The program}{
  It is the one whose path is in the environment variable \env{SAMPLER}, or else the one that this package brings, or else \command{sampler} on the path;
  \code{\link{program}} says which one. Base R can call a program only through the shell. The words of a call are this package's own, but for a seed and the number
  of a stratum, which are digits, and all files have fixed names in the folder in which the program is called.
}
\author{Gunwalesloe Maintainers}
\seealso{\code{\link{check}}, \code{\link{probs}}, \code{\link{draw}}, \code{\link{replay}}, \code{\link{fit}}, \code{\link{promise}}, \code{\link{trial}}, \code{\link{design_of}}, and \code{vignette("sampler")}}
\keyword{package}
