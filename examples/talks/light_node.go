// A light node, as light_node.py beside it: asks all its peers at once for the cells that it drew, and forwards what they send to
// `da watch`.
//
//	light_node ROOT HEADER COUNT SECONDS CLAIM SOCKET..
package main

import (
	"crypto/rand"
	"encoding/binary"
	"encoding/hex"
	"errors"
	"fmt"
	"io"
	"math/bits"
	"net"
	"os"
	"os/exec"
	"path/filepath"
	"sync"
	"time"
)

const head = 5

// A peer behind a socket, and what became of it, if it is dropped.
type peer struct{ path, fate string }

// The program's name, and a command of it.
func da(words ...string) *exec.Cmd {
	name := os.Getenv("DA")
	if name == "" {
		name = "da"
	}
	return exec.Command(name, words...)
}

func must[T any](value T, err error) T {
	if err != nil {
		fmt.Fprintln(os.Stderr, "light_node:", err)
		os.Exit(1)
	}
	return value
}

// The most bytes of a payload of each kind that is forwarded (docs/OPERATING.md, "Bytes of several peers").
func mostBytes(header string) map[byte]int {
	k := int(binary.BigEndian.Uint16(must(os.ReadFile(header))[head:]))
	path := 90 * bits.Len(uint(k))
	return map[byte]int{'M': 518 + path, 'B': 8 + k*(606+path)}
}

// The next frame. With `most` it has to be of one of these kinds, and no longer than that.
func frame(from io.Reader, most map[byte]int) ([]byte, error) {
	content := make([]byte, head)
	if _, err := io.ReadFull(from, content); err != nil {
		return nil, err
	}
	size := int(binary.BigEndian.Uint32(content[1:]))
	if limit, found := most[content[0]]; most != nil && (!found || size > limit) {
		return nil, errors.New("no answer")
	}
	content = append(content, make([]byte, size)...)
	_, err := io.ReadFull(from, content[head:])
	return content, err
}

// A `da` that stays, who sent each frame that was forwarded to it, and its last reply.
type talk struct {
	sync.Mutex
	stdin   io.WriteCloser
	senders []*peer
	last    []byte
}

// Forwards a frame, if its sender isn't dropped. Where nobody reads any more the last reply is there, or comes: that is no fault.
func (it *talk) say(content []byte, sender *peer) {
	it.Lock()
	defer it.Unlock()
	if sender.fate == "" {
		it.senders = append(it.senders, sender)
		_, _ = it.stdin.Write(content)
	}
}

func (it *talk) drop(sender *peer, fate string) {
	it.Lock()
	defer it.Unlock()
	if sender.fate == "" {
		sender.fate = fate
	}
}

// Reads replies to their end. A refusal has the number of its frame, which names a peer.
func (it *talk) read(from io.Reader) {
	for {
		reply, err := frame(from, nil)
		if err != nil {
			return
		}
		it.last = reply
		if reply[0] == 'E' {
			it.Lock()
			sender := it.senders[binary.BigEndian.Uint64(reply[head+1:])]
			it.Unlock()
			it.drop(sender, "lied")
		}
	}
}

// Asks a peer, and forwards what comes, for so much time.
func (it *talk) ask(sender *peer, requests []byte, most map[byte]int, end time.Time) {
	socket, err := net.Dial("unix", sender.path)
	if err == nil {
		defer socket.Close()
		_ = socket.SetDeadline(end)
		_, err = socket.Write(requests)
		_ = socket.(*net.UnixConn).CloseWrite()
	}
	for err == nil {
		var content []byte
		if content, err = frame(socket, most); err == nil {
			it.say(content, sender)
		}
	}
	if errors.Is(err, os.ErrDeadlineExceeded) {
		it.drop(sender, "silent")
	} else if err != io.EOF {
		it.drop(sender, "no answer")
	}
}

func main() {
	root, header, count, claim := os.Args[1], os.Args[2], os.Args[3], os.Args[5]
	seconds := must(time.ParseDuration(os.Args[4] + "s"))
	if da("root", header, root).Run() != nil {
		fmt.Println("another header")
		os.Exit(1)
	}
	// The key is for this header alone, in a file that nobody else reads.
	key, digits := must(os.CreateTemp("", "key")), make([]byte, 32)
	must(rand.Read(digits))
	must(key.WriteString(hex.EncodeToString(digits)))
	defer os.Remove(key.Name())
	requests := must(da("cells", header, "@"+key.Name(), count, "row").Output())
	watch := da("watch", header, "@"+key.Name(), count, "-")
	it := &talk{stdin: must(watch.StdinPipe())}
	stdout := must(watch.StdoutPipe())
	must(0, watch.Start())
	var peers []*peer
	var asked, heard sync.WaitGroup
	heard.Add(1)
	go func() { it.read(stdout); heard.Done() }()
	end := time.Now().Add(seconds)
	for _, path := range os.Args[6:] {
		one := &peer{path: path}
		peers = append(peers, one)
		asked.Add(1)
		go func() { it.ask(one, requests, mostBytes(header), end); asked.Done() }()
	}
	asked.Wait()
	_ = it.stdin.Close()
	heard.Wait()
	_ = watch.Wait()
	for _, one := range peers {
		if one.fate == "" {
			one.fate = "answered"
		}
		fmt.Printf("%s: %s\n", filepath.Base(one.path), one.fate)
	}
	status := watch.ProcessState.ExitCode()
	if status == 10 {
		must(0, os.WriteFile(claim, it.last, 0o644))
	}
	said := map[int]string{0: "available", 10: "rejected", 14: "waiting"}[status]
	if said == "" {
		said = fmt.Sprint("da watch ended with ", status)
	}
	fmt.Println(said)
	_ = os.Remove(key.Name())
	os.Exit(status)
}
