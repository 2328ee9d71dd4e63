"""Reads messages of one form with protobuf for Python, and prints the lines that main.go prints. Run beside wire_pb2.py, which
protoc makes of wire.proto."""

import struct
import sys

import wire_pb2
from google.protobuf.internal.decoder import _DecodeVarint
from google.protobuf.internal.encoder import _VarintBytes
from google.protobuf.message import DecodeError

FORMS = {
    "dah": wire_pb2.DataAvailabilityHeader,
    "header": wire_pb2.ExtendedHeader,
    "sample": wire_pb2.Sample,
    "row-data": wire_pb2.RowNamespaceData,
    "namespace-data": wire_pb2.RowNamespaceData,
    "befp": wire_pb2.BadEncoding,
    "row": wire_pb2.Row,
    "share-proof": wire_pb2.ShareProof,
}


def field(number, value):
    if isinstance(value, bytes):
        return f"{number}={value.hex()};"
    if isinstance(value, int):
        return f"{number}={int(value)};"
    return f"{number}{{{fields(value)}}}"


def fields(found):
    """The fields of a message, without numbers that are 0 and single bytes that are none."""
    text = ""
    for about, value in found.ListFields():
        is_list = about.label == about.LABEL_REPEATED
        text += "".join(field(about.number, each) for each in (value if is_list else [value]))
    return text


def read(form, raw):
    """The fields of a message, and the bytes that it is written as."""
    found = FORMS[form]()
    found.ParseFromString(raw)
    return "{" + fields(found) + "}", found.SerializeToString(deterministic=True)


def line(form, raw):
    text, again, at = "", b"", 0
    try:
        if form != "namespace-data":
            text, again = read(form, raw)
        while form == "namespace-data" and at < len(raw):
            size, at = _DecodeVarint(raw, at)
            if size > len(raw) - at:
                return "refused"
            told, part = read(form, raw[at : at + size])
            text, again, at = text + told, again + _VarintBytes(len(part)) + part, at + size
    except (DecodeError, IndexError):
        return "refused"
    return f"{'same' if again == raw else 'other'} {text}"


def main():
    form, path = sys.argv[1:]
    with open(path, "rb") as file:
        data = file.read()
    at = 0
    while at < len(data):
        (size,) = struct.unpack_from(">I", data, at)
        print(line(form, data[at + 4 : at + 4 + size]))
        at += 4 + size


main()
