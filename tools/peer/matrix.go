//go:build matrix

package main

import "github.com/klauspost/reedsolomon"

// codeNote says which code extends.
const codeNote = "code matrix: the parity and the roots aren't Celestia's, and only the time may be compared"

// hashesLeavesTwice says whether each tree hashes its own leaves.
const hashesLeavesTwice = true

// newCode is the code of a k by k matrix, which klauspost/reedsolomon takes where nothing is asked of it. It takes that for
// axes of up to 256 shares: squares above width 128 aren't for this peer.
func newCode(k int) (reedsolomon.Encoder, error) {
	return reedsolomon.New(k, k)
}
