// A client of a process that stays, by os/exec of Go: MODE ASKED TOLD WORD.. (tools/talk_clients says which modes there are).
package main

import (
	"bufio"
	"bytes"
	"encoding/binary"
	"io"
	"os"
	"os/exec"
	"strconv"
	"strings"
	"syscall"
	"time"
)

const head, request = 5, 10

func must(err error) {
	if err != nil {
		panic(err)
	}
}

func read(name string) []byte {
	content, err := os.ReadFile(name)
	must(err)
	return content
}

func say(to io.Writer, content []byte) {
	_, err := to.Write(content)
	must(err)
}

// The next frame.
func frame(from io.Reader) []byte {
	front := make([]byte, head)
	_, err := io.ReadFull(from, front)
	must(err)
	all := make([]byte, head+int(binary.BigEndian.Uint32(front[1:])))
	copy(all, front)
	_, err = io.ReadFull(from, all[head:])
	must(err)
	return all
}

// The lines of a namespace: the first says how many follow.
func lines(from *bufio.Reader) []byte {
	all, err := from.ReadBytes('\n')
	must(err)
	words := strings.Fields(string(all))
	if words[len(words)-2] == "blobs" {
		count, err := strconv.Atoi(words[len(words)-1])
		must(err)
		for ; count > 0; count-- {
			line, err := from.ReadBytes('\n')
			must(err)
			all = append(all, line...)
		}
	}
	return all
}

func ends(with bool) {
	if !with {
		os.Exit(1)
	}
}

func main() {
	mode, asked, told, words := os.Args[1], read(os.Args[2]), os.Args[3], os.Args[4:]
	child := exec.Command(words[0], words[1:]...)
	child.Stderr = os.Stderr
	stdin, err := child.StdinPipe()
	must(err)
	stdout, err := child.StdoutPipe()
	must(err)
	must(child.Start())
	switch mode {
	case "ask":
		want := read(told)
		for at := 0; at < len(asked); at += request {
			say(stdin, asked[at:at+request])
			answer := frame(stdout)
			ends(bytes.HasPrefix(want, answer))
			want = want[len(answer):]
		}
		must(stdin.Close())
		behind, err := io.ReadAll(stdout)
		must(err)
		ends(len(want) == 0 && len(behind) == 0)
		must(child.Wait())
	case "attend":
		want, from := read(told), bufio.NewReader(stdout)
		for len(asked) > 0 {
			size := head + int(binary.BigEndian.Uint32(asked[1:]))
			say(stdin, asked[:size])
			if asked[0] == 'N' {
				some := lines(from)
				ends(bytes.HasPrefix(want, some))
				want = want[len(some):]
			}
			asked = asked[size:]
		}
		must(stdin.Close())
		behind, err := io.ReadAll(from)
		must(err)
		ends(len(want) == 0 && len(behind) == 0)
		must(child.Wait())
	case "pour":
		go func() {
			say(stdin, asked)
			must(stdin.Close())
		}()
		all, err := io.ReadAll(stdout)
		must(err)
		ends(bytes.Equal(all, read(told)))
		must(child.Wait())
	case "feed":
		go func() {
			_, _ = stdin.Write(asked)
			_ = stdin.Close()
		}()
		all, err := io.ReadAll(stdout)
		must(err)
		ends(bytes.Equal(all, read(told)))
		must(child.Wait())
	case "die":
		say(stdin, asked[:request])
		frame(stdout)
		say(stdin, asked[request:request+3])
		must(syscall.Kill(os.Getpid(), syscall.SIGKILL))
	case "leave":
		say(stdin, asked)
		for {
			if _, err := os.Stat(told); err == nil {
				break
			}
			time.Sleep(50 * time.Millisecond)
		}
		must(stdout.Close())
		_ = child.Wait()
		ends(child.ProcessState.ExitCode() == 4)
	}
}
