// Command peer does with klauspost/reedsolomon and crypto/sha256 what `da header` and `da repair` do: it is measured
// beside da (docs/BENCHMARKS.md, "Beside a Go program"). Nothing of it is proved, and da doesn't need it.
//
//	peer extend SQUARE             extends the square, and writes nothing
//	peer header SQUARE             writes the header of the square
//	peer repair HEADER MESSAGES    writes the square that the shares of the messages make, if it has this header
//	peer shares SQUARE MESSAGES    writes the messages with the shares of the square as it extends it in place of theirs
//
// Files are frames of docs/FORMATS.md. Notes go to standard error: the code, the time of processor of each step, and the
// data root. Nodes of messages are passed over: NO SAMPLE IS VERIFIED, so a false share is found only when the roots are
// compared, and then nothing says which it was.
//
// There are two of it. This one has Celestia's code (leopard.go), and hashes each leaf once for both trees that it is in. With
// the build tag `matrix` (matrix.go) it has the code of a matrix, which older versions of the library have too, and hashes
// each leaf in both trees: its parity isn't Celestia's, so its headers are of no use but to itself.
package main

import (
	"bytes"
	"crypto/sha256"
	"encoding/binary"
	"errors"
	"fmt"
	"os"
	"runtime"
	"syscall"
	"time"

	"github.com/klauspost/reedsolomon"
)

const (
	shareSize     = 512
	namespaceSize = 29
	digestSize    = 2*namespaceSize + sha256.Size
	greatestWidth = 512
)

var (
	parity   = bytes.Repeat([]byte{0xFF}, namespaceSize)
	errFrame = errors.New("not a frame of that kind")
)

// digest is the least namespace, the greatest one and the hash of a leaf or a node.
type digest [digestSize]byte

func (d *digest) least() []byte    { return d[:namespaceSize] }
func (d *digest) greatest() []byte { return d[namespaceSize : 2*namespaceSize] }

// axes are the roots of the rows and of the columns of an extended square.
type axes struct {
	rows, cols []digest
}

// extended is a square of 2k by 2k shares, row by row.
type extended struct {
	k      int
	shares []byte
	known  []bool
	code   reedsolomon.Encoder
}

func newExtended(k int) (*extended, error) {
	code, err := newCode(k)
	if err != nil {
		return nil, err
	}
	return &extended{k, make([]byte, 4*k*k*shareSize), make([]bool, 4*k*k), code}, nil
}

// place is where the cell of an axis stands in the list of all cells.
func (e *extended) place(isCol bool, index, pos int) int {
	if isCol {
		return pos*2*e.k + index
	}
	return index*2*e.k + pos
}

func (e *extended) share(place int) []byte {
	return e.shares[place*shareSize : (place+1)*shareSize : (place+1)*shareSize]
}

// extend fills the square from its upper left quarter: its first k rows, and then all columns.
func (e *extended) extend() error {
	axis := make([][]byte, 2*e.k)
	for _, isCol := range []bool{false, true} {
		count := e.k
		if isCol {
			count = 2 * e.k
		}
		for index := 0; index < count; index++ {
			for pos := range axis {
				axis[pos] = e.share(e.place(isCol, index, pos))
			}
			if err := e.code.Encode(axis); err != nil {
				return err
			}
		}
	}
	return nil
}

// fill completes an axis of which at least k shares are known, and says whether that gave any share.
func (e *extended) fill(isCol bool, index int) (bool, error) {
	axis := make([][]byte, 2*e.k)
	count, originals := 0, 0
	for pos := range axis {
		place := e.place(isCol, index, pos)
		axis[pos] = e.share(place)
		if !e.known[place] {
			axis[pos] = axis[pos][:0]
			continue
		}
		count++
		if pos < e.k {
			originals++
		}
	}
	if count < e.k || count == 2*e.k {
		return false, nil
	}
	if originals == e.k {
		for pos := range axis {
			axis[pos] = axis[pos][:shareSize]
		}
		if err := e.code.Encode(axis); err != nil {
			return false, err
		}
	} else if err := e.code.Reconstruct(axis); err != nil {
		return false, err
	}
	for pos := range axis {
		e.known[e.place(isCol, index, pos)] = true
	}
	return true, nil
}

// solve fills rows and columns until no more can be filled, and fails where shares are missing then.
func (e *extended) solve() error {
	for more := true; more; {
		more = false
		for _, isCol := range []bool{false, true} {
			for index := 0; index < 2*e.k; index++ {
				filled, err := e.fill(isCol, index)
				if err != nil {
					return err
				}
				more = more || filled
			}
		}
	}
	for _, known := range e.known {
		if !known {
			return errors.New("there are too few shares")
		}
	}
	return nil
}

// leaves has the digest of each cell: those outside the upper left quarter have the namespace of parity.
func (e *extended) leaves() []digest {
	found := make([]digest, 4*e.k*e.k)
	var buffer [1 + namespaceSize + shareSize]byte
	for place := range found {
		share, name := e.share(place), parity
		if place/(2*e.k) < e.k && place%(2*e.k) < e.k {
			name = share[:namespaceSize]
		}
		copy(buffer[1:], name)
		copy(buffer[1+namespaceSize:], share)
		hash := sha256.Sum256(buffer[:])
		copy(found[place].least(), name)
		copy(found[place].greatest(), name)
		copy(found[place][2*namespaceSize:], hash[:])
	}
	return found
}

// join puts the node over two digests into the first.
func join(left, right *digest) error {
	if bytes.Compare(left.greatest(), right.least()) > 0 {
		return errors.New("namespaces fall along an axis")
	}
	var buffer [1 + 2*digestSize]byte
	buffer[0] = 1
	copy(buffer[1:], left[:])
	copy(buffer[1+digestSize:], right[:])
	hash := sha256.Sum256(buffer[:])
	switch {
	case bytes.Equal(left.least(), parity):
		copy(left.greatest(), parity)
	case bytes.Equal(right.least(), parity):
	default:
		copy(left.greatest(), right.greatest())
	}
	copy(left[2*namespaceSize:], hash[:])
	return nil
}

// roots hashes the tree of each row and each column.
func (e *extended) roots() (*axes, error) {
	leaves := e.leaves()
	nodes := make([]digest, 2*e.k)
	found := &axes{make([]digest, 2*e.k), make([]digest, 2*e.k)}
	for _, isCol := range []bool{false, true} {
		to := found.rows
		if isCol {
			to = found.cols
			if hashesLeavesTwice {
				leaves = e.leaves()
			}
		}
		for index := range to {
			for pos := range nodes {
				nodes[pos] = leaves[e.place(isCol, index, pos)]
			}
			for count := e.k; count > 0; count /= 2 {
				for at := 0; at < count; at++ {
					nodes[at] = nodes[2*at]
					if err := join(&nodes[at], &nodes[2*at+1]); err != nil {
						return nil, err
					}
				}
			}
			to[index] = nodes[0]
		}
	}
	return found, nil
}

// dataRoot is the plain Merkle root over the roots of the rows and then of the columns.
func (a *axes) dataRoot() [sha256.Size]byte {
	var nodes [][sha256.Size]byte
	for _, roots := range [][]digest{a.rows, a.cols} {
		for at := range roots {
			nodes = append(nodes, sha256.Sum256(append([]byte{0}, roots[at][:]...)))
		}
	}
	for len(nodes) > 1 {
		for at := 0; at < len(nodes)/2; at++ {
			both := append([]byte{1}, nodes[2*at][:]...)
			nodes[at] = sha256.Sum256(append(both, nodes[2*at+1][:]...))
		}
		nodes = nodes[:len(nodes)/2]
	}
	return nodes[0]
}

// header is the payload of the frame: the width and all roots.
func (a *axes) header() []byte {
	payload := binary.BigEndian.AppendUint16(nil, uint16(len(a.rows)/2))
	for _, roots := range [][]digest{a.rows, a.cols} {
		for at := range roots {
			payload = append(payload, roots[at][:]...)
		}
	}
	return payload
}

// next is the payload of the frame of that kind at the front, and what follows it.
func next(kind byte, data []byte) (payload, rest []byte, err error) {
	if len(data) < 5 || data[0] != kind || uint32(len(data)-5) < binary.BigEndian.Uint32(data[1:]) {
		return nil, nil, errFrame
	}
	end := 5 + binary.BigEndian.Uint32(data[1:])
	return data[5:end], data[end:], nil
}

// only is the payload of the one frame of a file, with the width that it begins with.
func only(kind byte, name string) (k int, payload []byte, err error) {
	data, err := os.ReadFile(name)
	if err != nil {
		return 0, nil, err
	}
	payload, rest, err := next(kind, data)
	if err != nil || len(rest) > 0 || len(payload) < 2 {
		return 0, nil, fmt.Errorf("%s: %w", name, errFrame)
	}
	k = int(binary.BigEndian.Uint16(payload))
	if k == 0 || k > greatestWidth || k&(k-1) != 0 {
		return 0, nil, fmt.Errorf("%s: %d is no width", name, k)
	}
	return k, payload, nil
}

// readSquare is a square with its upper left quarter known.
func readSquare(name string) (*extended, error) {
	k, payload, err := only('S', name)
	if err != nil {
		return nil, err
	}
	if len(payload) != 2+k*k*shareSize {
		return nil, fmt.Errorf("%s: %w", name, errFrame)
	}
	e, err := newExtended(k)
	if err != nil {
		return nil, err
	}
	for row := 0; row < k; row++ {
		copy(e.shares[2*row*k*shareSize:], payload[2+row*k*shareSize:2+(row+1)*k*shareSize])
	}
	return e, nil
}

// each hands over the share of each message of a file, and the place of its cell. It gives the bytes of the file.
func (e *extended) each(name string, hand func(place int, share []byte)) ([]byte, error) {
	file, err := os.ReadFile(name)
	if err != nil {
		return nil, err
	}
	for data := file; len(data) > 0; {
		var payload []byte
		if payload, data, err = next('M', data); err != nil || len(payload) < 5+shareSize {
			return nil, fmt.Errorf("%s: %w", name, errFrame)
		}
		row, col := int(binary.BigEndian.Uint16(payload)), int(binary.BigEndian.Uint16(payload[2:]))
		if row >= 2*e.k || col >= 2*e.k {
			return nil, fmt.Errorf("%s: cell (%d, %d) isn't in the square", name, row, col)
		}
		hand(e.place(false, row, col), payload[5:5+shareSize])
	}
	return file, nil
}

// take puts the share of each message into its cell.
func (e *extended) take(name string) error {
	_, err := e.each(name, func(place int, share []byte) {
		copy(e.share(place), share)
		e.known[place] = true
	})
	return err
}

// square is the payload of the frame: the width and the upper left quarter.
func (e *extended) square() []byte {
	payload := binary.BigEndian.AppendUint16(nil, uint16(e.k))
	for row := 0; row < e.k; row++ {
		payload = append(payload, e.shares[2*row*e.k*shareSize:(2*row+1)*e.k*shareSize]...)
	}
	return payload
}

func write(kind byte, payload []byte) error {
	frame := binary.BigEndian.AppendUint32([]byte{kind}, uint32(len(payload)))
	_, err := os.Stdout.Write(append(frame, payload...))
	return err
}

// processor is the time of processor of this process so far, the collector's and the system's part with it.
func processor() time.Duration {
	var usage syscall.Rusage
	if err := syscall.Getrusage(syscall.RUSAGE_SELF, &usage); err != nil {
		return 0
	}
	return time.Duration(usage.Utime.Nano() + usage.Stime.Nano())
}

// step runs a step and notes its time.
func step(name string, run func() error) error {
	begin := processor()
	err := run()
	fmt.Fprintf(os.Stderr, "%s %.3f ms\n", name, float64(processor()-begin)/1e6)
	return err
}

// hashed is the roots, with the data root noted.
func (e *extended) hashed() (found *axes, err error) {
	err = step("roots", func() error {
		found, err = e.roots()
		return err
	})
	if err == nil {
		fmt.Fprintf(os.Stderr, "data root %x\n", found.dataRoot())
	}
	return found, err
}

func header(square string, isWhole bool) error {
	e, err := readSquare(square)
	if err != nil {
		return err
	}
	if err := step("extend", e.extend); err != nil || !isWhole {
		return err
	}
	found, err := e.hashed()
	if err != nil {
		return err
	}
	return write('H', found.header())
}

func repair(header, messages string) error {
	k, wanted, err := only('H', header)
	if err != nil {
		return err
	}
	e, err := newExtended(k)
	if err != nil {
		return err
	}
	if err := e.take(messages); err != nil {
		return err
	}
	fmt.Fprintln(os.Stderr, "no sample is verified")
	if err := step("solve", e.solve); err != nil {
		return err
	}
	found, err := e.hashed()
	if err != nil {
		return err
	}
	if !bytes.Equal(found.header(), wanted) {
		return errors.New("the square hasn't these roots")
	}
	return write('S', e.square())
}

func shares(square, messages string) error {
	e, err := readSquare(square)
	if err != nil {
		return err
	}
	if err := e.extend(); err != nil {
		return err
	}
	file, err := e.each(messages, func(place int, share []byte) { copy(share, e.share(place)) })
	if err != nil {
		return err
	}
	_, err = os.Stdout.Write(file)
	return err
}

func main() {
	fmt.Fprintf(os.Stderr, "%s\n%s\n", runtime.Version(), codeNote)
	err := errors.New("usage: peer extend SQUARE, peer header SQUARE, peer repair HEADER MESSAGES or peer shares SQUARE MESSAGES")
	switch words := os.Args[1:]; {
	case len(words) == 2 && words[0] == "extend":
		err = header(words[1], false)
	case len(words) == 2 && words[0] == "header":
		err = header(words[1], true)
	case len(words) == 3 && words[0] == "repair":
		err = repair(words[1], words[2])
	case len(words) == 3 && words[0] == "shares":
		err = shares(words[1], words[2])
	}
	if err != nil {
		fmt.Fprintf(os.Stderr, "peer: %v\n", err)
		os.Exit(1)
	}
}
