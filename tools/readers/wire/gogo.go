//go:build gogo

package main

import "github.com/gogo/protobuf/proto"

type message = proto.Message

func unmarshal(raw []byte, found message) error {
	return proto.Unmarshal(raw, found)
}

func marshal(found message) []byte {
	data, err := proto.Marshal(found)
	if err != nil {
		panic(err)
	}
	return data
}
