// Reads messages of one form, each behind its length (u32), with a library for protobuf, and prints a line for each: `refused`, or
// whether it is written again as the same bytes, `same` or `other`, and its fields. tools/wire_peers builds it of wire.proto, which
// protoc makes Go of, and compares.
package main

import (
	"bufio"
	"bytes"
	"encoding/binary"
	"fmt"
	"os"
	"reflect"
	"strings"
)

// A message of a form that has nothing yet.
func fresh(form string) message {
	switch form {
	case "dah":
		return &DataAvailabilityHeader{}
	case "header":
		return &ExtendedHeader{}
	case "sample":
		return &Sample{}
	case "row-data", "namespace-data":
		return &RowNamespaceData{}
	case "befp":
		return &BadEncoding{}
	case "row":
		return &Row{}
	case "share-proof":
		return &ShareProof{}
	}
	panic(form)
}

func main() {
	if len(os.Args) != 3 {
		fmt.Fprintln(os.Stderr, "usage: reader FORM FILE")
		os.Exit(1)
	}
	data, err := os.ReadFile(os.Args[2])
	if err != nil {
		fmt.Fprintln(os.Stderr, err)
		os.Exit(2)
	}
	out := bufio.NewWriter(os.Stdout)
	defer out.Flush()
	for len(data) > 0 {
		size := binary.BigEndian.Uint32(data)
		raw := data[4 : 4+size]
		data = data[4+size:]
		if os.Args[1] == "namespace-data" {
			fmt.Fprintln(out, stream(raw))
		} else {
			fmt.Fprintln(out, line(os.Args[1], raw))
		}
	}
}

// A message's line.
func line(form string, raw []byte) string {
	found := fresh(form)
	if unmarshal(raw, found) != nil {
		return "refused"
	}
	return told(bytes.Equal(marshal(found), raw), "{"+fields(reflect.ValueOf(found).Elem())+"}")
}

// The line of messages, each behind its length.
func stream(raw []byte) string {
	text, again, rest := "", []byte{}, raw
	for len(rest) > 0 {
		size, at := binary.Uvarint(rest)
		if at <= 0 || size > uint64(len(rest)-at) {
			return "refused"
		}
		found := fresh("namespace-data")
		if unmarshal(rest[at:at+int(size)], found) != nil {
			return "refused"
		}
		rest = rest[at+int(size):]
		data := marshal(found)
		again = append(binary.AppendUvarint(again, uint64(len(data))), data...)
		text += "{" + fields(reflect.ValueOf(found).Elem()) + "}"
	}
	return told(bytes.Equal(again, raw), text)
}

func told(isSame bool, text string) string {
	if isSame {
		return "same " + text
	}
	return "other " + text
}

// The fields of a message, without numbers that are 0 and single bytes that are none.
func fields(v reflect.Value) string {
	text := ""
	for i := 0; i < v.NumField(); i++ {
		if tag := v.Type().Field(i).Tag.Get("protobuf"); tag != "" {
			text += field(strings.Split(tag, ",")[1], v.Field(i))
		}
	}
	return text
}

func field(number string, v reflect.Value) string {
	switch v.Kind() {
	case reflect.Ptr:
		if v.IsNil() {
			return ""
		}
		return number + "{" + fields(v.Elem()) + "}"
	case reflect.Slice:
		if v.Type().Elem().Kind() == reflect.Uint8 {
			if v.Len() == 0 {
				return ""
			}
			return fmt.Sprintf("%s=%x;", number, v.Bytes())
		}
		text := ""
		for i := 0; i < v.Len(); i++ {
			if each := v.Index(i); each.Kind() == reflect.Slice {
				text += fmt.Sprintf("%s=%x;", number, each.Bytes())
			} else {
				text += field(number, each)
			}
		}
		return text
	case reflect.Bool:
		if !v.Bool() {
			return ""
		}
		return number + "=1;"
	}
	if v.IsZero() {
		return ""
	}
	return fmt.Sprintf("%s=%d;", number, v.Interface())
}
