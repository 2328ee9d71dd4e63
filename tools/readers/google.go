//go:build !gogo

package main

import "google.golang.org/protobuf/proto"

func unmarshal(raw []byte, message proto.Message) error {
	return proto.Unmarshal(raw, message)
}

func marshal(message proto.Message) []byte {
	data, err := proto.Marshal(message)
	if err != nil {
		panic(err)
	}
	return data
}
