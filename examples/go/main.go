// Some commands of da, from Go: header SQUARE, root HEADER, check HEADER MESSAGE, verify HEADER ANSWER [REQUEST].
// They print what da prints, and end with its statuses. MESSAGE is one frame.
package main

/*
#include "da.h"
#include <fcntl.h>

static int closed;

// Go's runtime may open /dev/null in place of a closed standard output, so this looks before it does.
__attribute__((constructor)) static void look(void) { closed = fcntl(1, F_GETFD) == -1; }

static int output_is_closed(void) { return closed; }
*/
import "C"

import (
	"fmt"
	"io"
	"os"
	"os/signal"
	"syscall"
	"unsafe"
)

// The statuses of da that no call answers.
const (
	usage       = 1
	cannotOpen  = 2
	cannotRead  = 3
	cannotWrite = 4
	tooLong     = 7
)

const fileLimit = 512 << 20

// at is where bytes begin. A slice without bytes has a place too, since no pointer may be null.
func at(bytes []byte) *C.uint8_t {
	if len(bytes) == 0 {
		bytes = make([]byte, 1)
	}
	return (*C.uint8_t)(unsafe.Pointer(&bytes[0]))
}

func size(bytes []byte) C.size_t {
	return C.size_t(len(bytes))
}

// readFile reads a file whole; the status says why not.
func readFile(name string) ([]byte, C.uint32_t) {
	file, err := os.Open(name)
	if err != nil {
		return nil, cannotOpen
	}
	defer file.Close()
	bytes, err := io.ReadAll(io.LimitReader(file, fileLimit+1))
	if err != nil {
		return nil, cannotRead
	}
	if len(bytes) > fileLimit {
		return nil, tooLong
	}
	return bytes, C.DA_DONE
}

// judged is the line of a verdict.
func judged(status C.uint32_t, detail *C.struct_da_detail) []byte {
	switch status {
	case C.DA_DONE:
		return []byte("ok\n")
	case C.DA_REFUSED:
		return []byte(fmt.Sprintf("refused %d\n", detail.refusal))
	}
	return nil
}

// The calls by the command and its number of files: each gives the status, what is printed, and the detail.
var calls = map[string]func(f [][]byte, detail *C.struct_da_detail) (C.uint32_t, []byte){
	"header 1": func(f [][]byte, detail *C.struct_da_detail) (C.uint32_t, []byte) {
		header := make([]byte, C.DA_HEADER_MAX)
		status := C.da_header(at(f[0]), size(f[0]), at(header), size(header), detail)
		if status != C.DA_DONE {
			return status, nil
		}
		return status, header[:detail.size]
	},
	"root 1": func(f [][]byte, detail *C.struct_da_detail) (C.uint32_t, []byte) {
		root := make([]byte, C.DA_ROOT_SIZE)
		status := C.da_data_root(at(f[0]), size(f[0]), at(root), size(root), detail)
		if status != C.DA_DONE {
			return status, nil
		}
		return status, []byte(fmt.Sprintf("%x\n", root))
	},
	"check 2": func(f [][]byte, detail *C.struct_da_detail) (C.uint32_t, []byte) {
		status := C.da_check(at(f[0]), size(f[0]), at(f[1]), size(f[1]), detail)
		return status, judged(status, detail)
	},
	"verify 2": func(f [][]byte, detail *C.struct_da_detail) (C.uint32_t, []byte) {
		status := C.da_holds(at(f[0]), size(f[0]), at(f[1]), size(f[1]), detail)
		return status, judged(status, detail)
	},
	"verify 3": func(f [][]byte, detail *C.struct_da_detail) (C.uint32_t, []byte) {
		status := C.da_verify(at(f[0]), size(f[0]), at(f[1]), size(f[1]), at(f[2]), size(f[2]), detail)
		return status, judged(status, detail)
	},
}

// run gives the status of a command, what it prints, and the detail, which has the number of a file that isn't read.
func run(words []string) (C.uint32_t, []byte, C.struct_da_detail) {
	var detail C.struct_da_detail
	if len(words) == 0 {
		return usage, nil, detail
	}
	call := calls[fmt.Sprint(words[0], " ", len(words)-1)]
	if call == nil {
		return usage, nil, detail
	}
	var f [][]byte
	for i, name := range words[1:] {
		bytes, fault := readFile(name)
		if fault != C.DA_DONE {
			detail.argument = C.uint64_t(i)
			return fault, nil, detail
		}
		f = append(f, bytes)
	}
	status, output := call(f, &detail)
	return status, output, detail
}

// note is the line that goes with a status.
func note(status C.uint32_t, detail C.struct_da_detail) string {
	switch status {
	case usage:
		return "usage: da COMMAND WORDS\n"
	case cannotOpen:
		return fmt.Sprintf("cannot open file %d\n", detail.argument)
	case cannotRead:
		return fmt.Sprintf("cannot read file %d\n", detail.argument)
	case cannotWrite:
		return "cannot write\n"
	case C.DA_NO_MEMORY:
		return "out of memory\n"
	case C.DA_BAD_INPUT:
		return fmt.Sprintf("bad input: file %d at %d\n", detail.argument, detail.at)
	case tooLong:
		return fmt.Sprintf("too long: file %d\n", detail.argument)
	case C.DA_NO_HEADER:
		return "bad request: no header\n"
	case C.DA_REFUSED:
		return "refused\n"
	}
	return ""
}

func main() {
	// A reader that went away is an error of a write, and no signal.
	signal.Ignore(syscall.SIGPIPE)
	status, output, detail := run(os.Args[1:])
	if len(output) > 0 {
		if _, err := os.Stdout.Write(output); err != nil || C.output_is_closed() != 0 {
			status = cannotWrite
		}
	}
	os.Stderr.WriteString(note(status, detail))
	os.Exit(int(status))
}
