module peer

go 1.24

require github.com/klauspost/reedsolomon v1.14.1
