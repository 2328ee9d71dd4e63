#!/usr/bin/env python3
"""A second reader and maker of frames, written from docs/ alone. It is not proved.

    frames.py show FILE                     the lines that `da show FILE` writes
    frames.py json FILE                     the lines that `da json FILE` writes
    frames.py why FILE [--as COMMAND WORD]  why a file is `bad input`: the place and the field
    frames.py root FILE                     the data root of a file of one header
    frames.py blobs FILE FOLDER             the blobs of a file of one block, each into a file of FOLDER
    frames.py block JSON                    a block (kind V)
    frames.py transactions JSON             a list of raw transactions (kind T)
    frames.py samples LIST                  requests for samples (kind Q)
    frames.py namespaces LIST               requests for namespaces (kind P)
    frames.py script FULL LIST              a script of a network of so many full nodes
    frames.py messages FILE..               files of samples and fraud claims as one list, each frame checked
    frames.py cut FILE FOLDER               the frames of a file, each into a file of FOLDER
    frames.py ok FILE LINES                 the frames of FILE of which LINES, what `da check` wrote of it, say `ok`
    frames.py raw KIND HEX                  a frame of any kind byte and payload

Statuses and notes are those of docs/COMMANDS.md: 1 for words that are no command or no such value, 2 and 3 for a file
that can't be opened or read, 4 where the output can't be written, 5 where memory ran out, 6 for a file that isn't in its
form, 7 for a file that is too long. Python 3 and its standard library alone. tools/README.md says more.
"""

import argparse
import hashlib
import io
import json
import os
import re
import sys
from collections import namedtuple

WIDTHS = (1, 2, 4, 8, 16, 32, 64, 128, 256, 512)
AXES = ("row", "col")
NAMESPACE_BYTES = 29
SIGNER_BYTES = 20
SHARE_BYTES = 512
DIGEST_BYTES = 90
HASH_BYTES = 32
COMMIT_ROW_BYTES = 94  # a row of a commitment proof without its hashes, subtrees and nodes
MESSAGE_BYTES = 518  # a sample without its nodes
SET_CELL_BYTES = 515  # a cell that a set shows
FRONT_BYTES = 5  # the kind and the length of a frame
PAYLOAD_LIMIT = 268_435_456
FILE_LIMIT = 536_870_912
STREAM_LIMIT = 2_147_483_648  # of MESSAGES of `repair`
STANDARD_INPUT = ("-", "/dev/stdin")  # the names of files that aren't paths
# How many there may be in one frame (docs/FORMATS.md, "Limits").
COUNT_LIMIT = WIDTHS[-1]  # entries, shares of a range, cells, nodes of a set, rows, subtrees of a row
PATH_LIMIT = 10  # nodes of a sample
NODES_LIMIT = 20  # nodes of a range, an absence or a row of a commitment proof
HASHES_LIMIT = 11  # hashes from an axis root to a data root
U16 = 2**16 - 1


class BadField(Exception):
    """A payload that isn't in its grammar: the place in it where the first wrong field begins, and what is wrong."""

    def __init__(self, at, text):
        super().__init__(text)
        self.at, self.text = at, text


class Refusal(Exception):
    """Bytes that aren't in their form: the offset AT of docs/COMMANDS.md, the reason's name, and what is wrong."""

    def __init__(self, at, reason, text):
        super().__init__(text)
        self.at, self.reason, self.text = at, reason, text


class Note(Exception):
    """A status that isn't 0, and the line on standard error that goes with it."""

    def __init__(self, status, text):
        super().__init__(text)
        self.status, self.text = status, text


def sha256(data):
    """The SHA-256 value of bytes."""
    return hashlib.sha256(data).digest()


def hexes(strings):
    """Byte strings as lower-case hexadecimal digits."""
    return [data.hex() for data in strings]


class Fields:
    """The fields of a payload, taken off its front one after another."""

    def __init__(self, payload):
        self.payload = payload
        self.at = 0

    def left(self):
        """How many bytes aren't taken yet."""
        return len(self.payload) - self.at

    def bytes(self, name, size):
        """So many bytes."""
        if self.left() < size:
            raise BadField(self.at, f"the {name} takes {size} bytes, left are {self.left()}")
        self.at += size
        return self.payload[self.at - size : self.at]

    def number(self, name, size, allowed=None, text=None):
        """A big-endian number of so many bytes, one of those that are allowed."""
        at = self.at
        value = int.from_bytes(self.bytes(name, size), "big")
        if allowed is not None and value not in allowed:
            text = text or f"{allowed[0]} to {allowed[-1]}"
            raise BadField(at, f"the {name} is {value}, and is {text}")
        return value

    def count(self, name, size, each, allowed=None):
        """How many things follow, of at least `each` bytes: so many have to be left."""
        at = self.at
        value = self.number(name, size, allowed)
        if value * each > self.left():
            raise BadField(at, f"the {name} is {value}, of {each} bytes or more each, left are {self.left()}")
        return value

    def width(self):
        """The width k of a square."""
        return self.number("width k", 2, WIDTHS, f"a power of two from 1 to {COUNT_LIMIT}")

    def axis(self, of=""):
        """An axis: 0 for row, 1 for column."""
        return AXES[self.number(f"axis{of}", 1, (0, 1), "0 or 1")]

    def nodes(self, most, of=""):
        """A count of digests (u8), and the digests."""
        count = self.count(f"node count{of}", 1, DIGEST_BYTES, range(most + 1))
        return [self.bytes(f"node {i}{of}", DIGEST_BYTES) for i in range(count)]

    def hashes(self, of=""):
        """A count of hashes (u8), and the hashes."""
        count = self.count(f"hash count{of}", 1, HASH_BYTES, range(HASHES_LIMIT + 1))
        return [self.bytes(f"hash {i}{of}", HASH_BYTES) for i in range(count)]

    def strings(self, name):
        """A count of byte strings (u32), and each with its length (u32) before it."""
        count = self.count(f"{name} count", 4, 4)
        return [self.bytes(f"{name} {i}", self.number(f"length of {name} {i}", 4)) for i in range(count)]

    def end(self):
        """Nothing is left over."""
        if self.left():
            raise BadField(self.at, f"bytes left over behind the last field: {self.left()}")


# The fifteen kinds (docs/FORMATS.md, "Payloads", "Text of frames", "JSON of frames"). `read` takes the fields of a payload,
# `lines` are the lines of `show`, and `members` those of the JSON object but its "kind", which is `name`.


class Header(namedtuple("Header", "k rows cols")):
    letter, name = "H", "header"

    @staticmethod
    def read(fields):
        k = fields.width()
        rows = [fields.bytes(f"root of row {i}", DIGEST_BYTES) for i in range(2 * k)]
        cols = [fields.bytes(f"root of column {i}", DIGEST_BYTES) for i in range(2 * k)]
        return Header(k, rows, cols)

    def data_root(self):
        """The root of the plain Merkle tree over the row roots and then the column roots."""
        level = [sha256(b"\x00" + root) for root in self.rows + self.cols]
        while len(level) > 1:
            level = [sha256(b"\x01" + left + right) for left, right in zip(level[::2], level[1::2])]
        return level[0]

    def lines(self):
        rows = [f"row {i} {root}" for i, root in enumerate(hexes(self.rows))]
        cols = [f"col {i} {root}" for i, root in enumerate(hexes(self.cols))]
        return [f"header k={self.k} root={self.data_root().hex()}"] + rows + cols

    def members(self):
        return {"k": self.k, "root": self.data_root().hex(), "rows": hexes(self.rows), "cols": hexes(self.cols)}


class Square(namedtuple("Square", "k shares")):
    letter, name = "S", "square"

    @staticmethod
    def read(fields):
        k = fields.width()
        return Square(k, [fields.bytes(f"share {i}", SHARE_BYTES) for i in range(k * k)])

    def lines(self):
        shares = [f"share {i} {share[:29].hex()} {share[29:30].hex()}" for i, share in enumerate(self.shares)]
        return [f"square k={self.k}"] + shares

    def members(self):
        return {"k": self.k, "namespaces": [share[:29].hex() for share in self.shares]}


class Message(namedtuple("Message", "row col axis share nodes")):
    letter, name = "M", "message"

    @staticmethod
    def read(fields, of=""):
        row = fields.number(f"row{of}", 2)
        col = fields.number(f"column{of}", 2)
        axis = fields.axis(of)
        share = fields.bytes(f"share{of}", SHARE_BYTES)
        return Message(row, col, axis, share, fields.nodes(PATH_LIMIT, of))

    def members(self):
        cell = {"row": self.row, "col": self.col, "axis": self.axis}
        return dict(cell, nodes=len(self.nodes), share=sha256(self.share).hex())

    def lines(self):
        return ["message " + " ".join(f"{key}={value}" for key, value in self.members().items())]


class Range(namedtuple("Range", "row start shares nodes")):
    @staticmethod
    def read(fields, row, of):
        start = fields.number(f"start{of}", 2)
        count = fields.count(f"share count{of}", 2, SHARE_BYTES, range(COUNT_LIMIT + 1))
        shares = [fields.bytes(f"share {i}{of}", SHARE_BYTES) for i in range(count)]
        return Range(row, start, shares, fields.nodes(NODES_LIMIT, of))

    def line(self):
        return f"row {self.row} range {self.start} {len(self.shares)}"

    def members(self):
        return {"row": self.row, "start": self.start, "count": len(self.shares)}


class Absence(namedtuple("Absence", "row pos digest nodes")):
    @staticmethod
    def read(fields, row, of):
        pos = fields.number(f"position{of}", 2)
        digest = fields.bytes(f"leaf digest{of}", DIGEST_BYTES)
        return Absence(row, pos, digest, fields.nodes(NODES_LIMIT, of))

    def line(self):
        return f"row {self.row} absent {self.pos}"

    def members(self):
        return {"row": self.row, "pos": self.pos}


class Answer(namedtuple("Answer", "namespace entries")):
    letter, name = "N", "namespace"

    @staticmethod
    def read(fields):
        namespace = fields.bytes("namespace", NAMESPACE_BYTES)
        count = fields.count("entry count", 2, 8, range(COUNT_LIMIT + 1))
        return Answer(namespace, [Answer.read_entry(fields, f" of entry {i}") for i in range(count)])

    @staticmethod
    def read_entry(fields, of):
        row = fields.number(f"row{of}", 2)
        tag = fields.number(f"tag{of}", 1, (0, 1), "0 or 1")
        return (Range, Absence)[tag].read(fields, row, of)

    def lines(self):
        front = f"namespace {self.namespace.hex()} entries={len(self.entries)}"
        return [front] + [entry.line() for entry in self.entries]

    def members(self):
        return {"namespace": self.namespace.hex(), "entries": [entry.members() for entry in self.entries]}


class Claim(namedtuple("Claim", "axis index cells set")):
    letter, name = "B", "fraud"

    @staticmethod
    def read(fields):
        form = fields.number("form", 1, (1, 2))
        axis = fields.axis()
        index = fields.number("index", 2)
        if form == 1:
            count = fields.count("cell count", 2, MESSAGE_BYTES, range(COUNT_LIMIT + 1))
            return Claim(axis, index, [Message.read(fields, f" of cell {i}") for i in range(count)], None)
        count = fields.count("cell count", 2, SET_CELL_BYTES, range(COUNT_LIMIT + 1))
        cells = [Claim.read_cell(fields, axis, index, f" of cell {i}") for i in range(count)]
        at = fields.at
        count = fields.count("node count of the set", 2, DIGEST_BYTES, range(COUNT_LIMIT + 1))
        nodes = [fields.bytes(f"node {i} of the set", DIGEST_BYTES) for i in range(count)]
        if all(cell.axis != axis for cell in cells):
            raise BadField(at, "the set shows no cell, and shows one at least")
        return Claim(axis, index, cells, nodes)

    @staticmethod
    def read_cell(fields, axis, index, of):
        """A cell on the accused axis, by its position on it. The set shows it, or it has nodes on the crossing axis."""
        pos = fields.number(f"position{of}", 2)
        shown = fields.number(f"tag{of}", 1, (0, 1), "0 or 1")
        share = fields.bytes(f"share{of}", SHARE_BYTES)
        row, col = (index, pos) if axis == "row" else (pos, index)
        if shown:
            return Message(row, col, axis, share, [])
        return Message(row, col, AXES[1 - AXES.index(axis)], share, fields.nodes(PATH_LIMIT, of))

    def lines(self):
        front = f"fraud {self.axis} {self.index} cells={len(self.cells)}"
        return [front] + [line for cell in self.cells for line in cell.lines()]

    def members(self):
        return {"axis": self.axis, "index": self.index, "cells": [[cell.row, cell.col] for cell in self.cells]}


class Missing(namedtuple("Missing", "k cells")):
    letter, name = "K", "missing"

    @staticmethod
    def read(fields):
        k = fields.width()
        cells = []
        for i in range(fields.count("cell count", 4, 4, range(1, 4 * k * k + 1))):
            at = fields.at
            row = fields.number(f"row of cell {i}", 2, range(2 * k))
            cell = (row, fields.number(f"column of cell {i}", 2, range(2 * k)))
            if cells and cell <= cells[-1]:
                raise BadField(at, f"cell {i} is {cell}, and isn't behind {cells[-1]} in row-major order")
            cells.append(cell)
        return Missing(k, cells)

    def lines(self):
        front = f"missing k={self.k} count={len(self.cells)}"
        return [front] + [f"cell {row} {col}" for row, col in self.cells]

    def members(self):
        return {"k": self.k, "cells": self.cells}


class Clash(namedtuple("Clash", "left right")):
    letter, name = "X", "clash"

    @staticmethod
    def read(fields):
        left = fields.bytes("left string", fields.number("left length", 2, range(1, 543)))
        right = fields.bytes("right string", fields.number("right length", 2, range(1, 543)))
        if left == right or sha256(left) != sha256(right):
            what = "are equal" if left == right else "have two SHA-256 digests"
            raise BadField(fields.at - len(right), f"the strings {what}, and they differ and have one digest")
        return Clash(left, right)

    def lines(self):
        return ["clash", f"left {self.left.hex()}", f"right {self.right.hex()}"]

    def members(self):
        return {"left": self.left.hex(), "right": self.right.hex()}


class Sample(namedtuple("Sample", "row col axis")):
    letter, name = "Q", "sample"

    @staticmethod
    def read(fields):
        return Sample(fields.number("row", 2), fields.number("column", 2), fields.axis())

    def lines(self):
        return [f"sample row={self.row} col={self.col} axis={self.axis}"]

    def members(self):
        return {"row": self.row, "col": self.col, "axis": self.axis}


class Request(namedtuple("Request", "namespace")):
    letter, name = "P", "request"

    @staticmethod
    def read(fields):
        return Request(fields.bytes("namespace", NAMESPACE_BYTES))

    def lines(self):
        return [f"request {self.namespace.hex()}"]

    def members(self):
        return {"namespace": self.namespace.hex()}


class Blob(namedtuple("Blob", "namespace signer data")):
    """A blob, with its signer in share version 1 and without one, None, in share version 0."""

    @staticmethod
    def read(fields, i):
        namespace = fields.bytes(f"namespace of blob {i}", NAMESPACE_BYTES)
        version = fields.number(f"share version of blob {i}", 1, (0, 1), "0 or 1")
        signer = fields.bytes(f"signer of blob {i}", SIGNER_BYTES) if version == 1 else None
        return Blob(namespace, signer, fields.bytes(f"blob {i}", fields.number(f"length of blob {i}", 4)))

    def spelled(self):
        """Its bytes in a block."""
        signed = b"\x00" if self.signer is None else b"\x01" + self.signer
        return self.namespace + signed + len(self.data).to_bytes(4, "big") + self.data

    def line(self):
        signed = "" if self.signer is None else f" signer {self.signer.hex()}"
        return f"{self.namespace.hex()} {len(self.data)}{signed}"

    def members(self):
        signed = {} if self.signer is None else {"signer": self.signer.hex()}
        return {"namespace": self.namespace.hex(), "length": len(self.data), **signed}


class Block(namedtuple("Block", "width units pay blobs")):
    letter, name = "V", "block"

    @staticmethod
    def read(fields):
        width = fields.number("width", 2)
        units, pay = fields.strings("unit"), fields.strings("pay unit")
        blobs = [Blob.read(fields, i) for i in range(fields.count("blob count", 4, 34))]
        return Block(width, units, pay, blobs)

    def lines(self):
        counts = f"units={len(self.units)} pay={len(self.pay)} blobs={len(self.blobs)}"
        units = [f"unit {len(unit)}" for unit in self.units] + [f"pay {len(unit)}" for unit in self.pay]
        blobs = [f"blob {blob.line()}" for blob in self.blobs]
        return [f"block width={self.width} {counts}"] + units + blobs

    def members(self):
        lengths = {"units": [len(unit) for unit in self.units], "pay": [len(unit) for unit in self.pay]}
        return dict(lengths, width=self.width, blobs=[blob.members() for blob in self.blobs])


class Transactions(namedtuple("Transactions", "raw")):
    letter, name = "T", "transactions"

    @staticmethod
    def read(fields):
        return Transactions(fields.strings("transaction"))

    def lines(self):
        return [f"transactions count={len(self.raw)}"] + [f"transaction {len(data)}" for data in self.raw]

    def members(self):
        return {"lengths": [len(data) for data in self.raw]}


class CommitRow(namedtuple("CommitRow", "root up subtrees nodes")):
    @staticmethod
    def read(fields, of):
        root = fields.bytes(f"root{of}", DIGEST_BYTES)
        up = fields.hashes(of)
        count = fields.count(f"subtree count{of}", 2, DIGEST_BYTES, range(COUNT_LIMIT + 1))
        subtrees = [fields.bytes(f"subtree {i}{of}", DIGEST_BYTES) for i in range(count)]
        return CommitRow(root, up, subtrees, fields.nodes(NODES_LIMIT, of))


class Commit(namedtuple("Commit", "k start count commitment rows")):
    letter, name = "C", "commit"

    @staticmethod
    def read(fields):
        k, start, count = fields.number("width k", 2), fields.number("start", 4), fields.number("count", 4)
        commitment = fields.bytes("commitment", HASH_BYTES)
        rows = fields.count("row count", 2, COMMIT_ROW_BYTES, range(COUNT_LIMIT + 1))
        return Commit(k, start, count, commitment, [CommitRow.read(fields, f" of row {i}") for i in range(rows)])

    def lines(self):
        numbers = f"k={self.k} start={self.start} count={self.count}"
        return [f"commit {numbers} commitment={self.commitment.hex()} rows={len(self.rows)}"]

    def members(self):
        numbers = {"k": self.k, "start": self.start, "count": self.count, "rows": len(self.rows)}
        return dict(numbers, commitment=self.commitment.hex())


class Rooted(namedtuple("Rooted", "k message root up")):
    letter, name = "R", "rooted"

    @staticmethod
    def read(fields):
        k = fields.number("width k", 2)
        message = Message.read(fields)
        root = fields.bytes("root", DIGEST_BYTES)
        return Rooted(k, message, root, fields.hashes())

    def lines(self):
        return [f"rooted k={self.k} root={self.root.hex()}"] + self.message.lines()

    def members(self):
        members = dict(self.message.members(), k=self.k, root=self.root.hex())
        del members["nodes"]
        return members


class RefusedFrame(namedtuple("RefusedFrame", "reason number")):
    letter, name = "E", "refusal"

    @staticmethod
    def read(fields):
        return RefusedFrame(fields.number("reason", 1, range(6)), fields.number("number", 8))

    def lines(self):
        return [f"refusal reason={self.reason} number={self.number}"]

    def members(self):
        return {"number": self.number, "reason": self.reason}


class State(namedtuple("State", "")):
    letter, name = "A", "state"

    @staticmethod
    def read(fields):
        return State()

    def lines(self):
        return ["state"]

    def members(self):
        return {}


ALL = (
    Header, Square, Message, Answer, Claim, Missing, Clash, Sample, Request, Block, Transactions, Commit, Rooted,
    RefusedFrame, State,
)
KINDS = {kind.letter: kind for kind in ALL}
ALL_KINDS = "".join(KINDS)

# The form of a file: its number among the files of its command, whether it is a list, and the kinds of its frames, None
# where only the framing is judged; and those of its first frame where they are fewer (docs/COMMANDS.md, "Files").
Form = namedtuple("Form", "number is_list kinds first", defaults=(None,))
BLOCK = Form(0, False, "V")
BLOCK_OR_LIST = Form(0, False, "VT")
HEADER = Form(0, False, "H")
SQUARE = Form(0, False, "S")
MESSAGES = Form(1, True, None)
FILE = Form(0, True, ALL_KINDS)
FORMS = {
    "build": {"BLOCK": BLOCK_OR_LIST},
    "header": {"SQUARE": SQUARE},
    "sample": {"SQUARE": SQUARE, "REQUESTS": Form(1, True, "Q")},
    "namespace": {"SQUARE": SQUARE, "REQUESTS": Form(1, True, "P")},
    "hold": {"SQUARE": SQUARE, "TALK": MESSAGES},
    "verify": {"HEADER": HEADER, "ANSWER": Form(1, False, "MNBCR"), "REQUEST": Form(2, False, "QP")},
    "compact": {"HEADER": HEADER, "CLAIM": Form(1, False, "B")},
    "commit": {"BLOCK": BLOCK_OR_LIST},
    "prove": {"SQUARE": SQUARE, "REQUESTS": Form(1, True, "Q")},
    "follow": {"WANTED": Form(0, True, "P"), "ANSWERS": Form(1, True, "HN", "H")},
    "attend": {"WANTED": Form(0, True, "P"), "TALK": Form(1, True, "HN", "H")},
    "check": {"HEADER": HEADER, "MESSAGES": MESSAGES},
    "repair": {"HEADER": HEADER, "MESSAGES": MESSAGES},
    "gather": {"HEADER": HEADER, "TALK": MESSAGES},
    "light": {"HEADER": HEADER, "MESSAGES": MESSAGES},
    "watch": {"HEADER": HEADER, "TALK": MESSAGES},
    "cells": {"HEADER": HEADER},
    "wanted": {"MISSING": Form(0, False, "K")},
    "blobs": {"SHARES": Form(0, False, "SN")},
    "transactions": {"SQUARE": SQUARE},
    "find": {"SQUARE": SQUARE},
    "root": {"HEADER": HEADER},
    "show": {"FILE": FILE},
    "json": {"FILE": FILE},
}


def kind_text(byte):
    """How a kind byte is called in a text."""
    return f"kind {chr(byte)}" if chr(byte) in KINDS else f"kind byte {byte:02x}"


def read_raw(data, at):
    """The kind byte and the payload of the frame at `at`, of any kind: checks 3 to 5."""
    left = len(data) - at
    if left < FRONT_BYTES:
        raise Refusal(at, "Truncated", f"kind and length take 5 bytes, left are {left}")
    kind = kind_text(data[at])
    length = int.from_bytes(data[at + 1 : at + FRONT_BYTES], "big")
    if length > PAYLOAD_LIMIT:
        raise Refusal(at, "TooLong", f"{kind}: the length is {length}, and at most {PAYLOAD_LIMIT}")
    if left - FRONT_BYTES < length:
        raise Refusal(at, "Truncated", f"{kind}: the payload takes {length} bytes, left are {left - FRONT_BYTES}")
    return data[at], data[at + FRONT_BYTES : at + FRONT_BYTES + length]


def read_frame(data, at, kinds):
    """The kind, the value and the end of the frame at `at`, of one of `kinds`: checks 1 to 6."""
    if at == len(data):
        raise Refusal(at, "Truncated", f"no byte is there, and asked for is kind {' or '.join(kinds)}")
    kind = chr(data[at])
    if kind not in kinds:
        asked = "a kind of the table" if kinds == ALL_KINDS else f"kind {' or '.join(kinds)}"
        raise Refusal(at, "BadKind", f"{kind_text(data[at])}, and asked for is {asked}")
    _, payload = read_raw(data, at)
    fields = Fields(payload)
    try:
        value = KINDS[kind].read(fields)
        fields.end()
    except BadField as bad:
        raise Refusal(at, "BadPayload", f"kind {kind}, payload byte {bad.at}: {bad.text}") from None
    return kind, value, at + FRONT_BYTES + len(payload)


def walk(data, form):
    """The frames of a file in their order: the place of each, its kind, and its value. Where only the framing is
    judged these are the kind byte and the payload. Raises a Refusal at the first place that isn't in the form."""
    at = 0
    while at < len(data) or at == 0 and not form.is_list:
        if form.kinds is None:
            kind, value = read_raw(data, at)
            end = at + FRONT_BYTES + len(value)
        else:
            kind, value, end = read_frame(data, at, form.first if form.first and at == 0 else form.kinds)
        if not form.is_list and end < len(data):
            raise Refusal(end, "Trailing", f"a byte {data[end]:02x} behind the one frame")
        yield at, kind, value
        at = end


def read_file(name, number=None, limit=None):
    """All bytes of a file, which a note calls by its number where it has one. The name 0 is standard input."""
    limit = limit or FILE_LIMIT
    called = f"file {number}" if number is not None else "standard input" if name == 0 else repr(name)
    try:
        stream = open(0 if name in STANDARD_INPUT else name, "rb")
    except IsADirectoryError:
        raise Note(3, f"cannot read {called}") from None
    except (OSError, ValueError):
        raise Note(2, f"cannot open {called}") from None
    with stream:
        try:
            data = stream.read(limit + 1)
        except OSError:
            raise Note(3, f"cannot read {called}") from None
    if len(data) > limit:
        raise Note(7, f"too long: {called}")
    return data


def judged(data, form, number=0):
    """The frames of a file, once all of it is seen to be in its form; else the note of `bad input`."""
    try:
        for _ in walk(data, form):
            pass
    except Refusal as refusal:
        raise Note(6, f"bad input: file {number} at {refusal.at}") from None
    return walk(data, form)


def frame(kind, payload):
    """The frame of a kind byte and a payload."""
    if len(payload) > PAYLOAD_LIMIT:
        raise Note(1, f"a payload has at most {PAYLOAD_LIMIT} bytes, and not {len(payload)}")
    return bytes([kind]) + len(payload).to_bytes(4, "big") + payload


# Values from words and JSON, for the makers. `what` is how a note calls the value.


def hex_bytes(text, what):
    """The bytes of a text of hexadecimal digits, two for each."""
    if not isinstance(text, str) or not re.fullmatch("([0-9a-fA-F]{2})*", text):
        raise Note(1, f"{what}: {text!r} isn't bytes as hexadecimal digits")
    return bytes.fromhex(text)


def utf8(text, what):
    """The UTF-8 of a text, which one with a lone surrogate doesn't have."""
    try:
        return text.encode()
    except UnicodeEncodeError as error:
        raise Note(1, f"{what}: {text[error.start]!r} is a lone surrogate, of which there is no UTF-8") from None


def whole(value, what, most):
    """A JSON number from 0 to `most`, without a fraction."""
    if type(value) is not int or not 0 <= value <= most:
        raise Note(1, f"{what}: {value!r} isn't a number from 0 to {most}")
    return value


def members(value, what, keys):
    """A JSON object that has no other keys than these."""
    if not isinstance(value, dict) or not set(value) <= set(keys):
        raise Note(1, f"{what}: {value!r} isn't an object with the keys {', '.join(keys)} alone")
    return value


def items(value, what):
    """The numbered values of a JSON list, each with what it is called."""
    if not isinstance(value, list):
        raise Note(1, f"{what}: {value!r} isn't a list")
    return [(item, f"{what} {i}") for i, item in enumerate(value)]


def json_bytes(value, what):
    """Bytes in JSON: a text of hexadecimal digits, or an object with one of "hex", "text" (its UTF-8) and "file" (what
    the file holds), and with "times" where they are repeated."""
    if isinstance(value, str):
        return hex_bytes(value, what)
    parts = dict(members(value, what, ("hex", "text", "file", "times")))
    times = whole(parts.pop("times", 1), f"{what}, times", PAYLOAD_LIMIT)
    if len(parts) != 1 or not isinstance(list(parts.values())[0], str):
        raise Note(1, f'{what}: {value!r} has not just one text of "hex", "text" and "file"')
    key, source = parts.popitem()
    if key == "text":
        data = utf8(source, what)
    else:
        data = hex_bytes(source, what) if key == "hex" else read_file(source)
    if len(data) * times > PAYLOAD_LIMIT:
        raise Note(1, f"{what}: a payload has at most {PAYLOAD_LIMIT} bytes, and not {len(data) * times}")
    return data * times


def namespace_bytes(text, what):
    """A namespace from 58 hexadecimal digits, or one of version 0 from the last 20."""
    data = hex_bytes(text, what)
    if len(data) not in (10, NAMESPACE_BYTES):
        raise Note(1, f"{what}: a namespace has 58 hexadecimal digits, or the last 20 where all others are 0")
    return data.rjust(NAMESPACE_BYTES, b"\x00")


def no_doubles(pairs):
    """A JSON object of these pairs, no key twice."""
    if len(dict(pairs)) < len(pairs):
        raise ValueError("a key stands twice in one object")
    return dict(pairs)


def json_word(word):
    """The value of a word that is JSON text itself, `-` for that on standard input, or the name of a file of it."""
    is_text = word.lstrip()[:1] in ("{", "[")
    text = word if is_text else read_file(0 if word == "-" else word)
    try:
        return json.loads(text, object_pairs_hook=no_doubles)
    except (ValueError, RecursionError) as error:
        raise Note(1, f"no JSON: {error}") from None


def list_words(words):
    """The items of a list: words, or one word that is a JSON list or `-` for that on standard input."""
    return json_word(words[0]) if len(words) == 1 and words[0].lstrip()[:1] in ("[", "-") else words


def spell_strings(strings):
    """A count of byte strings, and each with its length before it."""
    return len(strings).to_bytes(4, "big") + b"".join(len(data).to_bytes(4, "big") + data for data in strings)


def spell_block(value):
    """The payload of the block of a JSON value; its `width` is null or 0 where none is asked for."""
    parts = members(value, "the block", ("width", "units", "pay", "blobs"))
    payload = whole(parts.get("width") or 0, "width", U16).to_bytes(2, "big")
    for key in ("units", "pay"):
        payload += spell_strings([json_bytes(*item) for item in items(parts.get(key, []), key)])
    blobs = [spell_blob(*item) for item in items(parts.get("blobs", []), "blob")]
    return payload + len(blobs).to_bytes(4, "big") + b"".join(blobs)


def spell_blob(value, what):
    """A blob of a block; its `signer` is null where it has none, and its `version` says whether it has one."""
    parts = members(value, what, ("namespace", "version", "signer", "data"))
    namespace = namespace_bytes(parts.get("namespace"), f"{what}, namespace")
    signer = None if parts.get("signer") is None else hex_bytes(parts["signer"], f"{what}, signer")
    if signer is not None and len(signer) != SIGNER_BYTES:
        raise Note(1, f"{what}, signer: a signer has {2 * SIGNER_BYTES} hexadecimal digits")
    version = 0 if signer is None else 1
    if whole(parts.get("version", version), f"{what}, version", 1) != version:
        raise Note(1, f"{what}, version: it is 1 where there is a signer, and 0 where there is none")
    return Blob(namespace, signer, json_bytes(parts.get("data"), f"{what}, data")).spelled()


def spell_sample(value, what):
    """The payload of a request for a sample, from ROW,COL,AXIS or from a JSON list of the three."""
    parts = value
    if isinstance(value, str):
        parts = [int(part) if re.fullmatch("[0-9]{1,9}", part) else part for part in value.split(",")]
    if not isinstance(parts, list) or len(parts) != 3 or parts[2] not in AXES:
        raise Note(1, f"{what}: {value!r} isn't a row, a column, and `row` or `col`")
    row, col = (whole(part, what, U16) for part in parts[:2])
    return row.to_bytes(2, "big") + col.to_bytes(2, "big") + bytes([AXES.index(parts[2])])


def spell_step(value, what):
    """A light node or an event of a script, from light,KEY,COUNT, put,ITEM, hand,PLACE,NODE or publish,NODE, and whether
    it is an event."""
    word, *rest = value.split(",") if isinstance(value, str) else [None]
    if word == "light" and len(rest) == 2:
        key = hex_bytes(rest[0], f"{what}, key")
        if len(key) != 32:
            raise Note(1, f"{what}: a key has 64 hexadecimal digits")
        return key + whole(decimal(rest[1]), what, U16).to_bytes(2, "big"), False
    if (word, len(rest)) not in (("put", 1), ("hand", 2), ("publish", 1)):
        raise Note(1, f"{what}: {value!r} isn't light,KEY,COUNT, put,ITEM, hand,PLACE,NODE or publish,NODE")
    a, b = {"put": rest + ["0"], "hand": rest, "publish": ["0"] + rest}[word]
    tag = ("put", "hand", "publish").index(word)
    numbers = whole(decimal(a), what, 2**32 - 1).to_bytes(4, "big") + whole(decimal(b), what, U16).to_bytes(2, "big")
    return bytes([tag]) + numbers, True


def decimal(text):
    """The number of decimal digits, or the text where it is none."""
    return int(text) if re.fullmatch("[0-9]{1,10}", text) else text


# The commands: each answers the pieces of its output and its status.


def show(args):
    """the lines of each frame"""
    frames = judged(read_file(args.file, 0), FILE)
    return ("\n".join(value.lines()) + "\n" for _, _, value in frames), 0


def show_json(args):
    """the JSON object of each frame, on a line"""
    frames = judged(read_file(args.file, 0), FILE)
    objects = (dict(value.members(), kind=value.name) for _, _, value in frames)
    return (json.dumps(value, separators=(",", ":"), sort_keys=True) + "\n" for value in objects), 0


def why(args):
    """says why a file is `bad input`, as a file of any frames or of the form of a command's word"""
    command, word = args.form or ("show", "FILE")
    form = FORMS.get(command, {}).get(word)
    if form is None:
        known = ", ".join(f"{command} {word}" for command in FORMS for word in FORMS[command])
        raise Note(1, f"--as: there is no file {word} of {command}, but there are: {known}")
    data = read_file(args.file, form.number, STREAM_LIMIT if (command, word) == ("repair", "MESSAGES") else None)
    try:
        count = sum(1 for _ in walk(data, form))
    except Refusal as refusal:
        where = f"{args.file}: file {form.number} at {refusal.at}"
        return [f"{where}: {refusal.text} ({refusal.reason})\n"], 6
    return [f"ok: {count} frames\n"] + (idle(data, command) if form is MESSAGES else []), 0


def idle(data, command):
    """A line for each frame of MESSAGES that is no sample in the grammar, nor, for `light`, such a fraud claim."""
    kinds, what = ("MB", "message and no claim") if command == "light" else ("M", "message")
    lines = []
    for i, (at, _, _) in enumerate(walk(data, MESSAGES)):
        try:
            read_frame(data, at, kinds)
        except Refusal as refusal:
            lines.append(f"frame {i} at {at} is no {what}: {refusal.text} ({refusal.reason})\n")
    return lines


def root(args):
    """the data root of a file of one header"""
    return [f"{header.data_root().hex()}\n" for _, _, header in judged(read_file(args.file, 0), HEADER)], 0


def blobs(args):
    """writes the blobs of a block into files 0, 1 and so on of a folder, and a line for each"""
    [(_, _, value)] = judged(read_file(args.file, 0), BLOCK)
    os.makedirs(args.folder, exist_ok=True)
    lines = []
    for i, blob in enumerate(value.blobs):
        name = os.path.join(args.folder, str(i))
        with open(name, "wb") as file:
            file.write(blob.data)
        lines.append(f"{name} {blob.line()}\n")
    return lines, 0


def block(args):
    """makes a block"""
    return [frame(ord("V"), spell_block(json_word(args.json)))], 0


def transactions(args):
    """makes a list of raw transactions"""
    return [frame(ord("T"), spell_strings([json_bytes(*item) for item in items(json_word(args.json), "transaction")]))], 0


def samples(args):
    """makes requests for samples"""
    return [frame(ord("Q"), spell_sample(*item)) for item in items(list_words(args.words), "request")], 0


def namespaces(args):
    """makes requests for namespaces"""
    return [frame(ord("P"), namespace_bytes(*item)) for item in items(list_words(args.words), "request")], 0


def script(args):
    """makes a script of a network: its light nodes, and then its events"""
    steps = [spell_step(*item) for item in items(list_words(args.words), "step")]
    lights = [text for text, is_event in steps if not is_event]
    if [is_event for _, is_event in steps] != [False] * len(lights) + [True] * (len(steps) - len(lights)):
        raise Note(1, "light nodes stand in front of all events")
    front = whole(decimal(args.full), "FULL", U16).to_bytes(2, "big") + whole(len(lights), "lights", U16).to_bytes(2, "big")
    return [front] + [text for text, _ in steps], 0


def messages(args):
    """joins files of samples and fraud claims, each frame checked"""
    form = MESSAGES if args.any else Form(0, True, "MB")
    files = [read_file(name, i) for i, name in enumerate(args.files)]
    for i, data in enumerate(files):
        judged(data, form, i)
    return files, 0


def cut(args):
    """writes the frames of a file into files 0, 1 and so on of a folder, and a line with file, kind and bytes for each"""
    found = list(judged(read_file(args.file, 0), MESSAGES))
    os.makedirs(args.folder, exist_ok=True)
    lines = []
    for i, (_, kind, payload) in enumerate(found):
        name = os.path.join(args.folder, str(i))
        with open(name, "wb") as file:
            file.write(frame(kind, payload))
        lines.append(f"{name} {kind_text(kind).split()[-1]} {FRONT_BYTES + len(payload)}\n")
    return lines, 0


def ok(args):
    """the frames of a file whose lines of `da check` are `ok`"""
    found = list(judged(read_file(args.file, 0), MESSAGES))
    lines = read_file(args.lines, 1).splitlines()
    if len(lines) != len(found):
        raise Note(6, f"bad input: file 1: {len(lines)} lines, and file 0 has {len(found)} frames")
    return [frame(kind, payload) for line, (_, kind, payload) in zip(lines, found) if line == b"ok"], 0


def raw(args):
    """makes a frame of any kind byte, as an ASCII character or two hexadecimal digits, and payload"""
    is_char = len(args.kind) == 1 and args.kind.isascii()
    kind = args.kind.encode() if is_char else hex_bytes(args.kind, "KIND")
    if len(kind) != 1:
        raise Note(1, f"KIND: {args.kind!r} isn't one character nor two hexadecimal digits")
    return [frame(kind[0], hex_bytes(args.hex, "HEX"))], 0


class Parser(argparse.ArgumentParser):
    """A parser of words that answers status 1 where they are no command."""

    def error(self, message):
        raise Note(1, f"{self.format_usage().strip()}\n{message}")


def parser():
    """The words of each command."""
    top = Parser(prog="frames.py", description=__doc__, formatter_class=argparse.RawDescriptionHelpFormatter)
    commands = top.add_subparsers(metavar="COMMAND", required=True, dest="command")
    out = argparse.ArgumentParser(add_help=False)
    out.add_argument("-o", dest="output", metavar="FILE", help="where to write, else standard output")

    def add(name, run, *words, makes=False):
        command = commands.add_parser(name, description=run.__doc__, help=run.__doc__, parents=[out] if makes else [])
        command.set_defaults(run=run)
        for word in words:
            command.add_argument(word, metavar=word.upper())
        return command

    add("show", show, "file")
    add("json", show_json, "file")
    form = {"dest": "form", "nargs": 2, "metavar": ("COMMAND", "WORD"), "help": "such as `check MESSAGES`"}
    add("why", why, "file").add_argument("--as", **form)
    add("root", root, "file")
    add("blobs", blobs, "file", "folder")
    add("block", block, "json", makes=True)
    add("transactions", transactions, "json", makes=True)
    for name, run in (("samples", samples), ("namespaces", namespaces)):
        add(name, run, makes=True).add_argument("words", nargs="+", metavar="LIST", help="words, or one JSON list")
    steps = add("script", script, "full", makes=True)
    steps.add_argument("words", nargs="*", metavar="LIST", help="words, or one JSON list")
    joined = add("messages", messages, makes=True)
    joined.add_argument("files", nargs="+", metavar="FILE")
    joined.add_argument("--any", action="store_true", help="take frames of any kind and payload")
    add("cut", cut, "file", "folder")
    add("ok", ok, "file", "lines", makes=True)
    add("raw", raw, "kind", "hex", makes=True)
    return top


def write(pieces, out):
    """Writes all pieces, of bytes or of text, and flushes."""
    for piece in pieces:
        out.write(piece.encode(errors="surrogateescape") if isinstance(piece, str) else piece)
    out.flush()


def tell(err, note):
    """Writes a note, and answers its status, where it can't be written too."""
    try:
        err.write(note.text + "\n")
        err.flush()
    except OSError:
        pass
    return note.status


def main(words, out, err):
    """Runs the command of the words on two streams, of bytes and of text; answers its status."""
    try:
        args = parser().parse_args(words)
        pieces, status = args.run(args)
        if getattr(args, "output", None) is None:
            write(pieces, out)
        else:
            with open(args.output, "wb") as file:
                write(pieces, file)
        return status
    except Note as note:
        return tell(err, note)
    except OSError:  # of the output: those of the input are notes
        return tell(err, Note(4, "cannot write"))
    except MemoryError:
        return tell(err, Note(5, "out of memory"))


def end(run):
    """Runs a tool on the words and streams of this process, and ends with its status."""
    # A closed stream is None. For the output stands a file then to which nothing can be written.
    out = sys.stdout.buffer if sys.stdout else open(os.devnull, "rb")
    status = run(sys.argv[1:], out, sys.stderr or io.StringIO())
    for stream in filter(None, (sys.stdout, sys.stderr)):
        try:
            stream.flush()
        except OSError:  # the status says so; what is left in the stream would fail once more
            os.dup2(os.open(os.devnull, os.O_WRONLY), stream.fileno())
    sys.exit(status)


if __name__ == "__main__":
    end(main)
