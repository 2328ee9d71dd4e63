// Reads a list of raw transactions, a frame of kind T (docs/FORMATS.md), with a library for protobuf, and prints a line for each
// as `tools/lists.py read` does: `plain`, or `payment` with its transaction, its one spelling, the spelling of it wrapped, and its
// blobs. tools/block_peers builds it of blob.proto, which protoc makes Go of, and compares.
package main

import (
	"bufio"
	"encoding/binary"
	"encoding/hex"
	"fmt"
	"os"
)

// Places of blobs at which the length of a varint changes, taken in turn.
var places = []uint32{0, 127, 128, 16383, 16384, 262143, 2097151, 4294967295}

func main() {
	if len(os.Args) != 2 {
		fmt.Fprintln(os.Stderr, "usage: readers LIST")
		os.Exit(1)
	}
	data, err := os.ReadFile(os.Args[1])
	if err != nil {
		fmt.Fprintln(os.Stderr, err)
		os.Exit(2)
	}
	out := bufio.NewWriter(os.Stdout)
	defer out.Flush()
	rest := data[9:]
	for i := uint32(0); i < binary.BigEndian.Uint32(data[5:9]); i++ {
		size := binary.BigEndian.Uint32(rest)
		fmt.Fprintln(out, line(rest[4:4+size]))
		rest = rest[4+size:]
	}
}

// What a transaction is read as.
func line(raw []byte) string {
	payment := &BlobTx{}
	if unmarshal(raw, payment) != nil || payment.TypeId != "BLOB" {
		return "plain"
	}
	spelled, wrapped := &BlobTx{Tx: payment.Tx, TypeId: "BLOB"}, &IndexWrapper{Tx: payment.Tx, TypeId: "INDX"}
	blobs := ""
	for i, blob := range payment.Blobs {
		spelled.Blobs = append(spelled.Blobs, &BlobProto{
			NamespaceId:      blob.NamespaceId,
			Data:             blob.Data,
			ShareVersion:     blob.ShareVersion,
			NamespaceVersion: blob.NamespaceVersion,
			Signer:           blob.Signer,
		})
		wrapped.ShareIndexes = append(wrapped.ShareIndexes, places[(len(payment.Tx)+i)%len(places)])
		blobs += fmt.Sprintf(" | %d %s %d %s %s", blob.NamespaceVersion, digits(blob.NamespaceId), blob.ShareVersion,
			digits(blob.Signer), digits(blob.Data))
	}
	return fmt.Sprintf("payment %s %s %s%s", digits(payment.Tx), digits(marshal(spelled)), digits(marshal(wrapped)), blobs)
}

// Bytes as digits, a line for none.
func digits(data []byte) string {
	if len(data) == 0 {
		return "-"
	}
	return hex.EncodeToString(data)
}
