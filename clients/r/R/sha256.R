# SHA-256 (FIPS 180-4), which base R has from 4.5 on alone. A file goes to R, or to the system's `sha256sum`, where they are there; a short text, and what is
# left, by what is written out here. A word of 32 bits is a double; R's integers have a sign.

words_of <- function(digits) as.numeric(paste0("0x", strsplit(digits, " ")[[1]]))

# The first 32 bits behind the point of the square roots of the first 8 primes, and of the cube roots of the first 64.
sha256_start <- words_of("6a09e667 bb67ae85 3c6ef372 a54ff53a 510e527f 9b05688c 1f83d9ab 5be0cd19")
sha256_rounds <- words_of(paste(
  "428a2f98 71374491 b5c0fbcf e9b5dba5 3956c25b 59f111f1 923f82a4 ab1c5ed5",
  "d807aa98 12835b01 243185be 550c7dc3 72be5d74 80deb1fe 9bdc06a7 c19bf174",
  "e49b69c1 efbe4786 0fc19dc6 240ca1cc 2de92c6f 4a7484aa 5cb0a9dc 76f988da",
  "983e5152 a831c66d b00327c8 bf597fc7 c6e00bf3 d5a79147 06ca6351 14292967",
  "27b70a85 2e1b2138 4d2c6dfc 53380d13 650a7354 766a0abb 81c2c92e 92722c85",
  "a2bfe8a1 a81a664b c24b8b70 c76c51a3 d192e819 d6990624 f40e3585 106aa070",
  "19a4c116 1e376c08 2748774c 34b0bcb5 391c0cb3 4ed8aa4a 5b9cca4f 682e6ff3",
  "748f82ee 78a5636f 84c87814 8cc70208 90befffa a4506ceb bef9a3f7 c67178f2"
))

# An operation on bits, by halves of 16 bits.
by_halves <- function(operation, one, other)
  operation(one %/% 65536, other %/% 65536) * 65536 + operation(one %% 65536, other %% 65536)
xor_of <- function(one, other) by_halves(bitwXor, one, other)
and_of <- function(one, other) by_halves(bitwAnd, one, other)
turned <- function(word, places) word %/% 2^places + (word %% 2^places) * 2^(32 - places)
sum_of <- function(...) sum(...) %% 2^32

# The words of a block, 16 that are given and 48 more.
schedule <- function(block) {
  words <- c(block, numeric(48))
  for (place in 17:64) {
    early <- words[place - 15]
    late <- words[place - 2]
    early <- xor_of(xor_of(turned(early, 7), turned(early, 18)), early %/% 8)
    late <- xor_of(xor_of(turned(late, 17), turned(late, 19)), late %/% 1024)
    words[place] <- sum_of(words[place - 16], early, words[place - 7], late)
  }
  words
}

# The state behind a block.
compressed <- function(state, block) {
  words <- schedule(block)
  s <- state
  for (round in 1:64) {
    e <- xor_of(xor_of(turned(s[5], 6), turned(s[5], 11)), turned(s[5], 25))
    choice <- xor_of(s[7], and_of(s[5], xor_of(s[6], s[7])))
    first <- sum_of(s[8], e, choice, sha256_rounds[round], words[round])
    a <- xor_of(xor_of(turned(s[1], 2), turned(s[1], 13)), turned(s[1], 22))
    majority <- xor_of(and_of(s[1], s[2]), and_of(s[3], xor_of(s[1], s[2])))
    s <- c(sum_of(first, a, majority), s[1:3], sum_of(s[4], first), s[5:7])
  }
  (state + s) %% 2^32
}

# The SHA-256 of bytes, in hexadecimal digits.
sha256_of_bytes <- function(bytes) {
  size <- length(bytes)
  padded <- c(as.numeric(bytes), 128, numeric((55 - size) %% 64))
  padded <- c(padded, (8 * size) %/% 256^(7:0) %% 256)
  words <- colSums(matrix(padded, 4) * 256^(3:0))
  state <- sha256_start
  for (at in seq(1, length(words), 16)) state <- compressed(state, words[at + 0:15])
  paste0(sprintf("%04x%04x", as.integer(state %/% 65536), as.integer(state %% 65536)), collapse = "")
}

# The SHA-256 of a file's bytes.
sha256_of_file <- function(path) {
  path <- normalizePath(path, mustWork = TRUE)
  own <- get0("sha256sum", asNamespace("tools"), inherits = FALSE)
  if (is.function(own)) return(unname(own(path)))
  if (nzchar(Sys.which("sha256sum"))) {
    put <- suppressWarnings(system2("sha256sum", c("-b", "--", shQuote(path)), stdout = TRUE))
    digest <- sub("^\\\\?([0-9a-f]{64}) .*", "\\1", put[1])
    if (is.null(attr(put, "status")) && grepl("^[0-9a-f]{64}$", digest)) return(digest)
  }
  sha256_of_bytes(bytes_of(path))
}
