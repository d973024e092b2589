\name{toml}
\alias{toml}
\alias{read_design}
\title{Designs as TOML}
\description{\code{toml} gives the lines of a design's file, as they go to the program. \code{read_design} reads the file of a design that the program accepts.}
\usage{
toml(design)
read_design(path)
}
\arguments{
  \item{design}{a list; see \link{sampler-package}.}
  \item{path}{the path of a TOML file.}
}
\value{\code{toml} gives lines of text, \code{read_design} a list.}
\examples{
design <- list(version = 2, method = "cube", id = "firm", stratum = "branch", balance = ~ area + workers, sizes = c(north = 3, south = 4))
writeLines(toml(design))
str(read_design(system.file("extdata", "woods", "design.toml", package = "sampler")))
}
