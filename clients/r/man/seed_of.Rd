\name{seed_of}
\alias{seed_of}
\title{The Seed of a Sentence}
\description{
  Gives the SHA-256 of a text in UTF-8, in hexadecimal digits: what \command{printf '\%s' SENTENCE | sha256sum} puts. The words, and what they will hold, are to be
  settled before the frame is final, as by a public lottery.
}
\usage{
seed_of(sentence)
}
\arguments{
  \item{sentence}{one text.}
}
\value{A text of 64 hexadecimal digits.}
\examples{
seed_of("Lottery of 5 December 2026: 4 11 19 28 33 47")
}
