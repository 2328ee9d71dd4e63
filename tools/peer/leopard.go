//go:build !matrix

package main

import "github.com/klauspost/reedsolomon"

// codeNote says which code extends.
const codeNote = "code leopard"

// hashesLeavesTwice says whether each tree hashes its own leaves.
const hashesLeavesTwice = false

// newCode is the Leopard code, which is Celestia's: over GF(2^8) up to width 128, and over GF(2^16) above.
func newCode(k int) (reedsolomon.Encoder, error) {
	return reedsolomon.New(k, k, reedsolomon.WithLeopardGF(true))
}
