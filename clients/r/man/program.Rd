\name{program}
\alias{program}
\alias{print.sampler_program}
\title{The Program That Draws, and Its Version}
\description{
  Says to which program the calls are made, and which version it has. The program has no way to tell its version. A package that is made with a version knows the
  program of that version by its SHA-256; else a file \file{BUILD} or \file{VERSION} beside the program tells it, as an
  archive has them, or one in \file{share/doc/sampler}; else it isn't known.
  A version that is known and is another than this package's is warned of once, by class \code{sampler_version_warning}.
}
\usage{
program(needed = TRUE)
}
\arguments{
  \item{needed}{whether it is an error that there is none.}
}
\value{
  A list of class \code{sampler_program}: \code{path}, \code{sha256}, \code{version}, and \code{known_by}, \code{"SHA-256"} or the path of a file; the last two are
  \code{NA} where the version isn't known. \code{NULL} where there is no program and none is needed.
}
\examples{
program(FALSE)
}
