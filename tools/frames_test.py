#!/usr/bin/env python3
"""Tests of tools/frames.py, and of a built `da` beside it where the environment variable DA names one.

    python3 tools/frames_test.py
    DA=crates/da/out/da python3 tools/frames_test.py
"""

import hashlib
import json
import os
import random
import re
import subprocess
import sys
import unittest
from unittest import mock

sys.dont_write_bytecode = True
TOOLS = os.path.dirname(os.path.abspath(__file__))
EXAMPLES = os.path.join(os.path.dirname(TOOLS), "examples")
sys.path.insert(0, TOOLS)
import frames  # noqa: E402
import trying  # noqa: E402

DA = os.environ.get("DA")
PARITY = b"\xff" * 29
TAIL_PADDING = b"\xff" * 28 + b"\xfe"


# Bytes of payloads, written here once more so that the reader is tried on bytes that it didn't make.


def u8(value):
    return value.to_bytes(1, "big")


def u16(value):
    return value.to_bytes(2, "big")


def u32(value):
    return value.to_bytes(4, "big")


def u64(value):
    return value.to_bytes(8, "big")


def frame(kind, payload):
    return kind.encode() + u32(len(payload)) + payload


def version_0(last):
    return bytes(27) + u16(last)


def share_of(byte):
    return version_0(0x0102) + u8(byte) * 483


def digests(count):
    return b"".join(u8((i + 1) % 256) * 90 for i in range(count))


def nodes(count):
    return u8(count) + digests(count)


def header(k):
    return u16(k) + digests(4 * k)


def square(k):
    return u16(k) + b"".join(share_of(i % 256) for i in range(k * k))


def message(count, row=0, col=0, axis=0, byte=7):
    return u16(row) + u16(col) + u8(axis) + share_of(byte) + nodes(count)


def answer(*entries):
    return version_0(0x0102) + u16(len(entries)) + b"".join(entries)


def range_entry(row, start, shares, count):
    return u16(row) + u8(0) + u16(start) + u16(shares) + share_of(9) * shares + nodes(count)


def absence_entry(row, pos, count):
    return u16(row) + u8(1) + u16(pos) + b"\x05" * 90 + nodes(count)


def claim(axis, index, *cells):
    return u8(1) + u8(axis) + u16(index) + u16(len(cells)) + b"".join(cells)


def shown_cell(pos, byte=7):
    return u16(pos) + u8(1) + share_of(byte)


def crossing_cell(pos, count, byte=7):
    return u16(pos) + u8(0) + share_of(byte) + nodes(count)


def set_claim(axis, index, count, *cells):
    return u8(2) + u8(axis) + u16(index) + u16(len(cells)) + b"".join(cells) + u16(count) + digests(count)


def missing(k, *cells):
    return u16(k) + u32(len(cells)) + b"".join(u16(row) + u16(col) for row, col in cells)


def cells_of(k):
    """All cells of the extended square."""
    return ((row, col) for row in range(2 * k) for col in range(2 * k))


def clash(left, right):
    return u16(len(left)) + left + u16(len(right)) + right


def strings(*values):
    return u32(len(values)) + b"".join(u32(len(value)) + value for value in values)


def blob(namespace, data, signer=b""):
    return namespace + u8(1 if signer else 0) + signer + u32(len(data)) + data


def block(width, units, pay, blobs):
    return u16(width) + strings(*units) + strings(*pay) + u32(len(blobs)) + b"".join(blob(*it) for it in blobs)


def hashes(count):
    return u8(count) + b"".join(u8(i + 1) * 32 for i in range(count))


def commit_row(up, subtrees, count):
    return b"\x06" * 90 + hashes(up) + u16(subtrees) + digests(subtrees) + nodes(count)


def commit(k, start, count, *rows):
    return u16(k) + u32(start) + u32(count) + b"\x0c" * 32 + u16(len(rows)) + b"".join(rows)


def rooted(k, up, of):
    return u16(k) + of + b"\x06" * 90 + hashes(up)


ANSWER = answer(range_entry(0, 1, 1, 2), absence_entry(1, 1, 2))
CLAIM = claim(1, 3, message(2, 0, 3, 1), message(2, 2, 3))
SET_CLAIM = set_claim(1, 3, 2, shown_cell(0), crossing_cell(2, 2, 9))
SIGNER = bytes(range(20, 40))
SIGNED = (version_0(0x0103), b"\x09\x09\x09", SIGNER)
BLOCK = block(4, [b"abc", b""], [b"de"], [(version_0(0x0101), b"\x07"), (version_0(0x0102), b"\x08\x08"), SIGNED])
COMMIT = commit(2, 1, 2, commit_row(3, 1, 2), commit_row(3, 1, 2))
# A frame of each kind but X, of which nobody can make one.
EACH = {
    "H": header(1),
    "S": square(2),
    "M": message(2, 1, 2, 1),
    "N": ANSWER,
    "B": CLAIM,
    "K": missing(2, (0, 1), (3, 3)),
    "Q": u16(1) + u16(2) + u8(1),
    "P": version_0(0x0102),
    "V": BLOCK,
    "T": strings(b"abc", b""),
    "C": COMMIT,
    "R": rooted(2, 3, message(2, 1, 2, 1)),
    "E": u8(5) + u64(258),
    "A": b"",
}
EACH_FRAME = {kind: frame(kind, payload) for kind, payload in EACH.items()}

run = trying.runner(frames)


def example(name):
    """The bytes of a file of examples/."""
    with open(os.path.join(EXAMPLES, name), "rb") as file:
        return file.read()


class Case(trying.Case):
    """A test of the tool, with a folder of its own for files."""

    run_tool, tool = staticmethod(run), frames.__file__

    def why(self, data, *form):
        """The line of `why` behind the file's name."""
        words = ["--as", *form] if form else []
        _, out, note = run("why", self.file(data), *words)
        self.assertEqual(note, "")
        return out.decode().split("\n")[0].replace(f"{self.folder}/f: ", "")


def leaf(namespace, share):
    """The digest of a leaf (docs/RULES.md, "Trees")."""
    return namespace * 2 + hashlib.sha256(b"\x00" + namespace + share).digest()


def node(left, right):
    """The digest of a node whose right child is of parity."""
    return left[:58] + hashlib.sha256(b"\x01" + left + right).digest()


class Examples(Case):
    """Each file of examples/, made once more and read."""

    def test_block(self):
        blobs = [("00" * 8 + "0101", 1), ("00" * 8 + "0102", 479), ("00" * 27 + "0104", 1)]
        value = [{"namespace": name, "data": {"hex": "07", "times": size}} for name, size in blobs]
        self.assertEqual(self.made("block", json.dumps({"width": None, "blobs": value})), example("block"))

    def test_requests(self):
        quarter = [[row, col, "row"] for row in range(2) for col in range(2)]
        self.assertEqual(self.made("samples", json.dumps(quarter)), example("quarter"))
        self.assertEqual(self.made("samples", "1,2,col"), example("samples"))
        self.assertEqual(self.made("namespaces", "00" * 8 + "0102"), example("namespaces"))
        self.assertEqual(self.made("namespaces", json.dumps(["00" * 27 + "0102"])), example("namespaces"))

    def test_header_and_messages(self):
        # The empty block's square of width 1 is a padding share, and its recovery share is the same one.
        share = TAIL_PADDING + b"\x01" + bytes(482)
        left, right = leaf(TAIL_PADDING, share), leaf(PARITY, share)
        roots = [node(left, right), bytes(90), b"\x07" * 90, b"\xff" * 90]
        self.assertEqual(self.made("raw", "H", (u16(1) + b"".join(roots)).hex()), example("header"))
        front = bytes(5) + share
        payloads = [
            front + u8(1) + right,
            bytes(5) + share[:-1] + b"\x01" + u8(1) + right,
            front + u8(0),
            front + u8(1) + bytes(90),
            u16(2) + front[2:] + u8(1) + right,
        ]
        files = [self.made("raw", "M", payload.hex()) for payload in payloads] + [self.made("samples", "0,0,row")]
        self.assertEqual(files[0], example("message"))
        paths = [self.file(data, str(i)) for i, data in enumerate(files)]
        self.assertEqual(self.made("messages", "--any", *paths), example("messages"))
        self.assertEqual(run("messages", *paths), (6, b"", "bad input: file 5 at 0\n"))
        self.assertEqual(self.made("messages", *paths[:-1]), example("messages")[:-10])

    def test_read(self):
        counts = {"block": 1, "header": 1, "message": 1, "messages": 6, "namespaces": 1, "samples": 1, "quarter": 4}
        for name, count in counts.items():
            with self.subTest(name):
                self.assertEqual(self.why(example(name)), f"ok: {count} frames")
        self.assertEqual(self.made("show", os.path.join(EXAMPLES, "samples")), b"sample row=1 col=2 axis=col\n")
        want = b'{"axis":"col","col":2,"kind":"sample","row":1}\n'
        self.assertEqual(self.made("json", os.path.join(EXAMPLES, "samples")), want)
        _, out, _ = run("why", os.path.join(EXAMPLES, "messages"), "--as", "check", "MESSAGES")
        last = "frame 5 at 2975 is no message: kind Q, and asked for is kind M (BadKind)"
        self.assertEqual(out.decode().split("\n"), ["ok: 6 frames", last, ""])

    def test_root(self):
        path = os.path.join(EXAMPLES, "header")
        first = self.made("show", path).decode().split("\n")[0]
        self.assertEqual(first, f"header k=1 root={self.made('root', path).decode().strip()}")
        hashes = [hashlib.sha256(b"\x00" + example("header")[7 + 90 * i :][:90]).digest() for i in range(4)]
        pairs = [hashlib.sha256(b"\x01" + hashes[i] + hashes[i + 1]).digest() for i in (0, 2)]
        self.assertEqual(hashlib.sha256(b"\x01" + pairs[0] + pairs[1]).hexdigest(), first[-64:])


    def test_blobs(self):
        names = ["00" * 27 + "0101", "00" * 27 + "0102", "00" * 27 + "0104"]
        sizes, folder = (1, 479, 1), os.path.join(self.folder, "into", "blobs")
        lines = [f"{folder}/{i} {name} {size}\n" for i, (name, size) in enumerate(zip(names, sizes))]
        self.assertEqual(self.made("blobs", os.path.join(EXAMPLES, "block"), folder).decode(), "".join(lines))
        self.assertEqual(sorted(os.listdir(folder)), ["0", "1", "2"])
        for i, size in enumerate(sizes):
            with open(os.path.join(folder, str(i)), "rb") as file:
                self.assertEqual(file.read(), b"\x07" * size)
        self.assertEqual(run("blobs", os.path.join(EXAMPLES, "header"), folder), (6, b"", "bad input: file 0 at 0\n"))
        self.assertEqual(run("blobs", os.path.join(EXAMPLES, "block"), self.file(b""))[::2], (4, "cannot write\n"))
        self.assertEqual(self.made("blobs", self.file(frame("V", bytes(14)), "none"), folder), b"")

    def test_cut(self):
        folder = os.path.join(self.folder, "into", "frames")
        lines = self.made("cut", os.path.join(EXAMPLES, "kinds", "all"), folder).decode().splitlines()
        told = [line.split() for line in lines]
        self.assertEqual("".join(kind for _, kind, _ in told), "VSHMNNBKQPCRTEA")
        self.assertEqual([name for name, _, _ in told], [os.path.join(folder, str(i)) for i in range(len(told))])
        parts = []
        for name, _, _ in told:
            with open(name, "rb") as file:
                parts.append(file.read())
        self.assertEqual(b"".join(parts), example("kinds/all"))
        self.assertEqual([len(part) for part in parts], [int(size) for _, _, size in told])
        # Only the framing is judged: a kind that is none is written by its byte.
        odd = self.file(b"\x07\0\0\0\x01x" + frame("Z", b""), "odd")
        self.assertEqual(self.made("cut", odd, folder).decode(), f"{folder}/0 07 6\n{folder}/1 5a 5\n")
        self.assertEqual(self.made("cut", self.file(b""), folder), b"")
        self.assertEqual(run("cut", self.file(frame("M", b"") + b"M", "short"), folder), (6, b"", "bad input: file 0 at 5\n"))
        self.assertEqual(run("cut", odd, self.file(b""))[::2], (4, "cannot write\n"))

    def test_signed_blobs(self):
        value = {"blobs": [
            {"namespace": "00" * 8 + "0101", "signer": "11" * 20, "data": {"text": "A blob with a signer. ", "times": 21}},
            {"namespace": "00" * 8 + "0102", "data": {"text": "A blob without one."}},
            {"namespace": "00" * 8 + "0102", "signer": "22" * 20, "data": {"text": "x"}},
        ]}
        self.assertEqual(self.made("block", json.dumps(value)), example("signed/block"))
        names, folder = ["00" * 27 + end for end in ("0101", "0102", "0102")], os.path.join(self.folder, "blobs")
        lines = [f"{folder}/0 {names[0]} 462 signer {'11' * 20}", f"{folder}/1 {names[1]} 19",
                 f"{folder}/2 {names[2]} 1 signer {'22' * 20}"]
        path = os.path.join(EXAMPLES, "signed", "block")
        self.assertEqual(self.made("blobs", path, folder).decode(), "".join(f"{line}\n" for line in lines))
        with open(os.path.join(folder, "0"), "rb") as file:
            self.assertEqual(file.read(), b"A blob with a signer. " * 21)


class Reading(Case):
    """The tables of docs/FORMATS.md."""

    def test_lengths(self):
        table = [
            ("H", header(1), 362), ("H", header(2), 722), ("H", header(128), 46082),
            ("H", header(256), 92162), ("H", header(512), 184322),
            ("S", square(1), 514), ("S", square(2), 2050), ("S", square(128), 8388610),
            ("M", message(1), 608), ("M", message(2), 698), ("M", message(4), 878), ("M", message(8), 1238),
            ("M", message(9), 1328), ("M", message(10), 1418),
            ("N", answer(), 31), ("N", answer(range_entry(0, 1, 1, 2), range_entry(1, 0, 1, 2)), 1431),
            ("N", answer(absence_entry(1, 1, 2)), 307),
            ("N", answer(*[range_entry(0, 0, 128, 16)] * 128), 8573983),
            ("N", answer(range_entry(0, 0, 512, 20)), 31 + 263952),
            ("N", answer(*[range_entry(0, 0, 1, 20)] * 512), 31 + 512 * 2320),
            ("B", claim(0, 3), 6), ("B", CLAIM, 1402), ("B", claim(0, 0, *[message(8)] * 128), 158470),
            ("B", claim(0, 0, *[message(10)] * 512), 726022),
            ("B", set_claim(0, 3, 0, shown_cell(0)), 523), ("B", set_claim(0, 3, 2, shown_cell(0), shown_cell(2)), 1218),
            ("B", SET_CLAIM, 1399), ("B", set_claim(0, 3, 128, *[shown_cell(i) for i in range(128)]), 77448),
            ("B", set_claim(0, 3, 128, shown_cell(0), *[crossing_cell(1, 8)] * 127), 169015),
            ("B", set_claim(0, 3, 512, shown_cell(0), *[crossing_cell(1, 10)] * 511), 770179),
            ("K", missing(1, (0, 0), (0, 1), (1, 0), (1, 1)), 22), ("K", missing(512, *cells_of(512)), 4194310),
            ("Q", EACH["Q"], 5), ("P", EACH["P"], 29),
            ("V", block(0, [], [], []), 14), ("V", block(0, [], [], [(PARITY, b"ab")]), 50),
            ("V", block(0, [], [], [(version_0(0x0101), b"x", b"\x11" * 20)]), 69),
            ("T", strings(), 4), ("T", strings(b""), 8), ("T", EACH["T"], 15),
            ("C", commit(0, 0, 0), 44), ("C", COMMIT, 964), ("C", commit(0, 0, 0, *[commit_row(9, 128, 16)] * 128), 1707820),
            ("C", commit(0, 0, 0, *[commit_row(11, 512, 20)] * 512), 24742956),
            ("R", EACH["R"], 887), ("R", rooted(0, 0, message(0)), 611), ("R", rooted(0, 9, message(8)), 1619),
            ("R", rooted(0, 11, message(10)), 1863),
            ("E", u8(0) + u64(0), 9), ("E", EACH["E"], 9), ("E", u8(5) + b"\xff" * 8, 9), ("A", b"", 0),
        ]
        for kind, payload, length in table:
            with self.subTest(kind, length=length):
                self.assertEqual(len(payload), length)
                self.assertEqual(self.why(frame(kind, payload)), "ok: 1 frames")

    def test_wide_squares(self):
        for k, length in ((256, 33554434), (512, 134217730)):
            data = frame("S", u16(k) + share_of(7) * (k * k))
            self.assertEqual(len(data), 5 + length)
            self.assertEqual(self.why(data), "ok: 1 frames")

    def test_bytes(self):
        table = [
            ("51000000050001000201", "ok"),
            ("51000000050000000000", "ok"),
            ("4b0000000e0001000000020000000000010001", "ok"),
            ("4b0000000e0001000000020001000100000000", "BadPayload"),
            ("51000000050001000202", "BadPayload"),
            ("53000002020001" + "33" * 512, "ok"),
            ("53000012020003" + "33" * 4608, "BadPayload"),
            ("5800000006000161000161", "BadPayload"),
            ("5800000006000161000162", "BadPayload"),
            ("560000000e" + "00" * 14, "ok"),
            ("560000000e0004" + "00" * 12, "ok"),
            ("560000000f" + "00" * 15, "BadPayload"),
            ("560000000e0000ffffffff" + "00" * 8, "BadPayload"),
            ("5600000044" + "00" * 13 + "01" + "00" * 29 + "01" + "11" * 20 + "00" * 4, "ok"),
            ("5600000030" + "00" * 13 + "01" + "00" * 29 + "01" + "00" * 4, "BadPayload"),
            ("5600000044" + "00" * 13 + "01" + "00" * 29 + "02" + "11" * 20 + "00" * 4, "BadPayload"),
            ("540000000400000000", "ok"),
            ("54000000080000000100000000", "ok"),
            ("5400000004ffffffff", "BadPayload"),
            ("54000000050000000000", "BadPayload"),
            ("5400000008000000010000000100", "BadPayload"),
            ("4e0000001f" + "77" * 29 + "0000", "ok"),
            ("4e00000020" + "77" * 29 + "000000", "BadPayload"),
            ("4e0000007f" + "77" * 29 + "0001000002" + "77" * 93, "BadPayload"),
            ("4e00001027" + "77" * 29 + "0201" + "00" * 4104, "BadPayload"),
            ("4200000006010100030000", "ok"),
            ("4200000006020100030000", "BadPayload"),
            ("42000000080201000300000000", "BadPayload"),
            ("420000020b0201000300010000" + "01" + "33" * 512 + "0000", "ok"),
            ("420000020c0201000300010000" + "00" + "33" * 512 + "000000", "BadPayload"),
            ("420000020b0201000300010000" + "02" + "33" * 512 + "0000", "BadPayload"),
            ("4200000006030100030000", "BadPayload"),
            ("4200000006010200030000", "BadPayload"),
            ("420000000701010003000000", "BadPayload"),
            ("430000002c" + "00" * 44, "ok"),
            ("430000002d" + "00" * 45, "BadPayload"),
            ("430000002c" + "00" * 42 + "0201", "BadPayload"),
            ("5200000263" + "00" * 611, "ok"),
            ("5200000263" + "00" * 610 + "0c", "BadPayload"),
            ("4500000009050000000000000102", "ok"),
            ("4500000009060000000000000000", "BadPayload"),
            ("45000000080500000000000000", "BadPayload"),
            ("450000000a05000000000000000000", "BadPayload"),
            ("4100000000", "ok"),
            ("410000000100", "BadPayload"),
            ("5a00000000", "BadKind"),
            ("4d10000001", "TooLong"),
            ("4d01000001", "Truncated"),
            ("4d000002", "Truncated"),
        ]
        for digits, reason in table:
            with self.subTest(digits[:40]):
                line = self.why(bytes.fromhex(digits))
                self.assertEqual(line if reason == "ok" else line[line.rindex("(") :],
                                 "ok: 1 frames" if reason == "ok" else f"({reason})")
        self.assertEqual(self.why(bytes.fromhex("5a00000000"), "check", "MESSAGES"), "ok: 1 frames")

    def test_text_and_json(self):
        digest = [("%02x" % i) * 90 for i in range(1, 9)]
        root = frames.Header(1, [u8(i) * 90 for i in (1, 2)], [u8(i) * 90 for i in (3, 4)]).data_root().hex()
        names, hash_7, hash_9 = version_0(0x0102).hex(), *(hashlib.sha256(share_of(i)).hexdigest() for i in (7, 9))
        self.assertNotEqual(hash_7, hash_9)
        blobs = [version_0(0x0101).hex(), names, version_0(0x0103).hex()]
        table = [
            ("H", [f"header k=1 root={root}", f"row 0 {digest[0]}", f"row 1 {digest[1]}", f"col 0 {digest[2]}",
                   f"col 1 {digest[3]}"],
             f'{{"cols":["{digest[2]}","{digest[3]}"],"k":1,"kind":"header","root":"{root}","rows":["{digest[0]}",'
             f'"{digest[1]}"]}}'),
            ("S", ["square k=2"] + [f"share {i} {names} 0{i}" for i in range(4)],
             f'{{"k":2,"kind":"square","namespaces":["{names}","{names}","{names}","{names}"]}}'),
            ("M", [f"message row=1 col=2 axis=col nodes=2 share={hash_7}"],
             f'{{"axis":"col","col":2,"kind":"message","nodes":2,"row":1,"share":"{hash_7}"}}'),
            ("N", [f"namespace {names} entries=2", "row 0 range 1 1", "row 1 absent 1"],
             '{"entries":[{"count":1,"row":0,"start":1},{"pos":1,"row":1}],"kind":"namespace","namespace":"'
             f'{names}"}}'),
            ("B", ["fraud col 3 cells=2", f"message row=0 col=3 axis=col nodes=2 share={hash_7}",
                   f"message row=2 col=3 axis=row nodes=2 share={hash_7}"],
             '{"axis":"col","cells":[[0,3],[2,3]],"index":3,"kind":"fraud"}'),
            ("K", ["missing k=2 count=2", "cell 0 1", "cell 3 3"], '{"cells":[[0,1],[3,3]],"k":2,"kind":"missing"}'),
            ("Q", ["sample row=1 col=2 axis=col"], '{"axis":"col","col":2,"kind":"sample","row":1}'),
            ("P", [f"request {names}"], f'{{"kind":"request","namespace":"{names}"}}'),
            ("V", ["block width=4 units=2 pay=1 blobs=3", "unit 3", "unit 0", "pay 2", f"blob {blobs[0]} 1",
                   f"blob {blobs[1]} 2", f"blob {blobs[2]} 3 signer {SIGNER.hex()}"],
             f'{{"blobs":[{{"length":1,"namespace":"{blobs[0]}"}},{{"length":2,"namespace":"{blobs[1]}"}},'
             f'{{"length":3,"namespace":"{blobs[2]}","signer":"{SIGNER.hex()}"}}],'
             '"kind":"block","pay":[2],"units":[3,0],"width":4}'),
            ("T", ["transactions count=2", "transaction 3", "transaction 0"], '{"kind":"transactions","lengths":[3,0]}'),
            ("C", [f"commit k=2 start=1 count=2 commitment={'0c' * 32} rows=2"],
             f'{{"commitment":"{"0c" * 32}","count":2,"k":2,"kind":"commit","rows":2,"start":1}}'),
            ("R", [f"rooted k=2 root={'06' * 90}", f"message row=1 col=2 axis=col nodes=2 share={hash_7}"],
             f'{{"axis":"col","col":2,"k":2,"kind":"rooted","root":"{"06" * 90}","row":1,"share":"{hash_7}"}}'),
            ("E", ["refusal reason=5 number=258"], '{"kind":"refusal","number":258,"reason":5}'),
            ("A", ["state"], '{"kind":"state"}'),
        ]
        for kind, lines, line in table:
            with self.subTest(kind):
                path = self.file(EACH_FRAME[kind])
                self.assertEqual(self.made("show", path).decode(), "".join(f"{line}\n" for line in lines))
                self.assertEqual(self.made("json", path).decode(), line + "\n")
        joined = self.file(b"".join(EACH_FRAME.values()))
        self.assertEqual(self.made("show", joined).decode(), "".join(f"{line}\n" for row in table for line in row[1]))
        self.assertEqual(self.made("json", joined).decode(), "".join(f"{row[2]}\n" for row in table))

    def test_set_claim(self):
        # The cells of a set are written by their positions; what the set shows has no nodes, and the set isn't printed.
        hash_7, hash_9 = (hashlib.sha256(share_of(i)).hexdigest() for i in (7, 9))
        path = self.file(frame("B", SET_CLAIM) + frame("B", b"\x02\x00" + SET_CLAIM[2:]))
        lines = ["fraud col 3 cells=2", f"message row=0 col=3 axis=col nodes=0 share={hash_7}",
                 f"message row=2 col=3 axis=row nodes=2 share={hash_9}",
                 "fraud row 3 cells=2", f"message row=3 col=0 axis=row nodes=0 share={hash_7}",
                 f"message row=3 col=2 axis=col nodes=2 share={hash_9}"]
        self.assertEqual(self.made("show", path).decode(), "".join(f"{line}\n" for line in lines))
        members = ['{"axis":"col","cells":[[0,3],[2,3]],"index":3,"kind":"fraud"}',
                   '{"axis":"row","cells":[[3,0],[3,2]],"index":3,"kind":"fraud"}']
        self.assertEqual(self.made("json", path).decode(), "".join(f"{line}\n" for line in members))
        value = frames.Claim.read(frames.Fields(SET_CLAIM))
        self.assertEqual((value.set, [len(cell.nodes) for cell in value.cells]), ([b"\x01" * 90, b"\x02" * 90], [0, 2]))

    def test_collision(self):
        # No two strings with one digest are known, so one more digest is said to be that of "a".
        path = self.file(frame("X", clash(b"a", b"bc")))
        with mock.patch.object(frames, "sha256", lambda data: b"\x01" * 32):
            self.assertEqual(self.made("show", path), b"clash\nleft 61\nright 6263\n")
            self.assertEqual(self.made("json", path), b'{"kind":"clash","left":"61","right":"6263"}\n')
            self.assertEqual(self.why(frame("X", clash(b"a", b"a")))[-5:], "load)")

    def test_no_frames(self):
        path = self.file(b"")
        self.assertEqual(run("show", path), (0, b"", ""))
        self.assertEqual(run("why", path), (0, b"ok: 0 frames\n", ""))
        self.assertEqual(run("root", path), (6, b"", "bad input: file 0 at 0\n"))


# For each field of each kind: bytes of a payload in which it is wrong, the place that is named and what is said of it.
FIELDS = [
    ("H", b"\x00", 0, "the width k takes 2 bytes, left are 1"),
    ("H", u16(3), 0, "the width k is 3, and is a power of two from 1 to 512"),
    ("H", u16(0), 0, "the width k is 0, and is"),
    ("H", u16(1024), 0, "the width k is 1024, and is"),
    ("H", header(1)[:100], 92, "the root of row 1 takes 90 bytes, left are 8"),
    ("H", header(1)[:200], 182, "the root of column 0 takes 90 bytes, left are 18"),
    ("H", header(1) + b"\x00", 362, "bytes left over behind the last field: 1"),
    ("S", b"", 0, "the width k takes 2 bytes, left are 0"),
    ("S", u16(5), 0, "the width k is 5, and is"),
    ("S", square(2)[:-1], 1538, "the share 3 takes 512 bytes, left are 511"),
    ("S", square(1) + bytes(512), 514, "bytes left over behind the last field: 512"),
    ("M", b"\x00", 0, "the row takes 2 bytes, left are 1"),
    ("M", bytes(3), 2, "the column takes 2 bytes, left are 1"),
    ("M", bytes(4), 4, "the axis takes 1 bytes, left are 0"),
    ("M", message(0, axis=2), 4, "the axis is 2, and is 0 or 1"),
    ("M", message(0)[:100], 5, "the share takes 512 bytes, left are 95"),
    ("M", message(0)[:517], 517, "the node count takes 1 bytes, left are 0"),
    ("M", message(11), 517, "the node count is 11, and is 0 to 10"),
    ("M", message(2)[:-1], 517, "the node count is 2, of 90 bytes or more each, left are 179"),
    ("M", message(2) + b"\x00", 698, "bytes left over behind the last field: 1"),
    ("N", bytes(28), 0, "the namespace takes 29 bytes, left are 28"),
    ("N", bytes(30), 29, "the entry count takes 2 bytes, left are 1"),
    ("N", bytes(29) + u16(513) + bytes(4104), 29, "the entry count is 513, and is 0 to 512"),
    ("N", bytes(29) + u16(2) + bytes(8), 29, "the entry count is 2, of 8 bytes or more each, left are 8"),
    ("N", answer(u16(0) + u8(2) + bytes(9)), 33, "the tag of entry 0 is 2, and is 0 or 1"),
    ("N", answer(range_entry(0, 0, 513, 0)), 36, "the share count of entry 0 is 513, and is 0 to 512"),
    ("N", answer(range_entry(0, 0, 1, 0)[:-2]), 36, "the share count of entry 0 is 1, of 512 bytes or more each"),
    ("N", answer(range_entry(0, 0, 1, 0)[:-1]), 550, "the node count of entry 0 takes 1 bytes, left are 0"),
    ("N", answer(range_entry(0, 0, 1, 21)), 550, "the node count of entry 0 is 21, and is 0 to 20"),
    ("N", answer(range_entry(0, 0, 1, 2)[:-1]), 550, "the node count of entry 0 is 2, of 90 bytes or more each"),
    ("N", answer(absence_entry(0, 0, 0)[:90]), 36, "the leaf digest of entry 0 takes 90 bytes, left are 85"),
    ("N", answer(absence_entry(0, 0, 0)[:95]), 126, "the node count of entry 0 takes 1 bytes, left are 0"),
    ("N", answer(absence_entry(0, 0, 21)), 126, "the node count of entry 0 is 21, and is 0 to 20"),
    ("N", answer(range_entry(0, 0, 1, 0), bytes(1)), 551, "the row of entry 1 takes 2 bytes, left are 1"),
    ("N", answer(range_entry(0, 0, 1, 0), bytes(2)), 553, "the tag of entry 1 takes 1 bytes, left are 0"),
    ("N", answer(range_entry(0, 0, 1, 0), bytes(4)), 554, "the start of entry 1 takes 2 bytes, left are 1"),
    ("N", answer(range_entry(0, 0, 1, 0), bytes(6)), 556, "the share count of entry 1 takes 2 bytes, left are 1"),
    ("N", answer(range_entry(0, 0, 1, 0), absence_entry(0, 0, 0)[:4]), 554, "the position of entry 1 takes 2 bytes"),
    ("N", answer() + b"\x00", 31, "bytes left over behind the last field: 1"),
    ("B", b"", 0, "the form takes 1 bytes, left are 0"),
    ("B", b"\x00" + claim(0, 3)[1:], 0, "the form is 0, and is 1 to 2"),
    ("B", b"\x03" + claim(0, 3)[1:], 0, "the form is 3, and is 1 to 2"),
    ("B", b"\x02" + claim(0, 3)[1:], 6, "the node count of the set takes 2 bytes, left are 0"),
    ("B", b"\x01", 1, "the axis takes 1 bytes, left are 0"),
    ("B", claim(2, 3), 1, "the axis is 2, and is 0 or 1"),
    ("B", bytes([1, 0, 0]), 2, "the index takes 2 bytes, left are 1"),
    ("B", claim(0, 3)[:5], 4, "the cell count takes 2 bytes, left are 1"),
    ("B", claim(0, 3, *[message(0)] * 513), 4, "the cell count is 513, and is 0 to 512"),
    ("B", claim(0, 3, message(0)[:-1]), 4, "the cell count is 1, of 518 bytes or more each, left are 517"),
    ("B", claim(0, 3, message(1, axis=3)), 10, "the axis of cell 0 is 3, and is 0 or 1"),
    ("B", claim(0, 3, message(2), message(11)), 6 + 698 + 517, "the node count of cell 1 is 11, and is 0 to 10"),
    ("B", claim(0, 3, message(2), message(1)[:-1]), 6 + 698 + 517, "the node count of cell 1 is 1, of 90 bytes or"),
    ("B", CLAIM + b"\x00", 1402, "bytes left over behind the last field: 1"),
    ("B", set_claim(0, 3, 0), 6, "the set shows no cell, and shows one at least"),
    ("B", set_claim(0, 3, 0, crossing_cell(0, 2)), 6 + 696, "the set shows no cell, and shows one at least"),
    ("B", set_claim(0, 3, 0, *[shown_cell(0)] * 513), 4, "the cell count is 513, and is 0 to 512"),
    ("B", set_claim(0, 3, 0, shown_cell(0))[:-3], 4, "the cell count is 1, of 515 bytes or more each, left are 514"),
    ("B", set_claim(0, 3, 0, shown_cell(0), u16(1) + u8(2) + bytes(600)), 6 + 515 + 2, "the tag of cell 1 is 2, and is"),
    ("B", set_claim(0, 3, 0, crossing_cell(0, 11)), 6 + 515, "the node count of cell 0 is 11, and is 0 to 10"),
    ("B", set_claim(0, 3, 0, crossing_cell(0, 2))[:-50], 6 + 515, "the node count of cell 0 is 2, of 90 bytes or more"),
    ("B", set_claim(0, 3, 513, shown_cell(0)), 6 + 515, "the node count of the set is 513, and is 0 to 512"),
    ("B", set_claim(0, 3, 2, shown_cell(0))[:-1], 6 + 515, "the node count of the set is 2, of 90 bytes or more each"),
    ("B", SET_CLAIM + b"\x00", 1399, "bytes left over behind the last field: 1"),
    ("K", missing(3, (0, 0)), 0, "the width k is 3, and is"),
    ("K", u16(1) + bytes(3), 2, "the cell count takes 4 bytes, left are 3"),
    ("K", missing(1), 2, "the cell count is 0, and is 1 to 4"),
    ("K", u16(1) + u32(5) + bytes(20), 2, "the cell count is 5, and is 1 to 4"),
    ("K", missing(1, (0, 0), (0, 1))[:-1], 2, "the cell count is 2, of 4 bytes or more each, left are 7"),
    ("K", missing(1, (2, 0)), 6, "the row of cell 0 is 2, and is 0 to 1"),
    ("K", missing(1, (0, 0), (1, 2)), 12, "the column of cell 1 is 2, and is 0 to 1"),
    ("K", missing(2, (1, 1), (1, 1)), 10, "cell 1 is (1, 1), and isn't behind (1, 1) in row-major order"),
    ("K", missing(2, (1, 1), (1, 0)), 10, "cell 1 is (1, 0), and isn't behind (1, 1) in row-major order"),
    ("K", missing(1, (0, 0)) + b"\x00", 10, "bytes left over behind the last field: 1"),
    ("X", b"\x00", 0, "the left length takes 2 bytes, left are 1"),
    ("X", clash(b"", b"a"), 0, "the left length is 0, and is 1 to 542"),
    ("X", clash(b"a" * 543, b"a"), 0, "the left length is 543, and is 1 to 542"),
    ("X", u16(3) + b"ab", 2, "the left string takes 3 bytes, left are 2"),
    ("X", u16(1) + b"ab", 3, "the right length takes 2 bytes, left are 1"),
    ("X", clash(b"a", b""), 3, "the right length is 0, and is 1 to 542"),
    ("X", clash(b"a", b"a" * 543), 3, "the right length is 543, and is 1 to 542"),
    ("X", clash(b"a", b"bc")[:-1], 5, "the right string takes 2 bytes, left are 1"),
    ("X", clash(b"a", b"a"), 5, "the strings are equal, and they differ and have one digest"),
    ("X", clash(b"a", b"b"), 5, "the strings have two SHA-256 digests, and they differ and have one digest"),
    ("Q", bytes(1), 0, "the row takes 2 bytes, left are 1"),
    ("Q", bytes(3), 2, "the column takes 2 bytes, left are 1"),
    ("Q", bytes(4), 4, "the axis takes 1 bytes, left are 0"),
    ("Q", bytes(4) + b"\xff", 4, "the axis is 255, and is 0 or 1"),
    ("Q", bytes(6), 5, "bytes left over behind the last field: 1"),
    ("P", bytes(28), 0, "the namespace takes 29 bytes, left are 28"),
    ("P", bytes(30), 29, "bytes left over behind the last field: 1"),
    ("V", bytes(1), 0, "the width takes 2 bytes, left are 1"),
    ("V", bytes(5), 2, "the unit count takes 4 bytes, left are 3"),
    ("V", bytes(2) + u32(2) + bytes(7), 2, "the unit count is 2, of 4 bytes or more each, left are 7"),
    ("V", bytes(2) + u32(2) + u32(3) + b"abc" + bytes(1), 13, "the length of unit 1 takes 4 bytes, left are 1"),
    ("V", bytes(2) + u32(1) + u32(9) + bytes(8), 10, "the unit 0 takes 9 bytes, left are 8"),
    ("V", bytes(8), 6, "the pay unit count takes 4 bytes, left are 2"),
    ("V", bytes(6) + u32(1) + u32(5) + bytes(4), 14, "the pay unit 0 takes 5 bytes, left are 4"),
    ("V", bytes(12), 10, "the blob count takes 4 bytes, left are 2"),
    ("V", bytes(10) + u32(1) + bytes(33), 10, "the blob count is 1, of 34 bytes or more each, left are 33"),
    ("V", bytes(10) + u32(1) + bytes(29) + b"\x02" + u32(0), 43, "the share version of blob 0 is 2, and is 0 or 1"),
    ("V", bytes(10) + u32(1) + bytes(29) + b"\xff" + bytes(24), 43, "the share version of blob 0 is 255, and is 0 or 1"),
    ("V", bytes(10) + u32(1) + bytes(29) + b"\x01" + u32(0), 44, "the signer of blob 0 takes 20 bytes, left are 4"),
    ("V", block(0, [], [], [SIGNED])[:-4], 64, "the length of blob 0 takes 4 bytes, left are 3"),
    ("V", block(0, [], [], [SIGNED])[:-1], 68, "the blob 0 takes 3 bytes, left are 2"),
    ("V", bytes(10) + u32(1) + bytes(30) + u32(2) + b"a", 48, "the blob 0 takes 2 bytes, left are 1"),
    ("V", BLOCK + b"\x00", len(BLOCK), "bytes left over behind the last field: 1"),
    ("T", bytes(3), 0, "the transaction count takes 4 bytes, left are 3"),
    ("T", u32(2) + bytes(7), 0, "the transaction count is 2, of 4 bytes or more each, left are 7"),
    ("T", u32(2) + u32(3) + b"abc" + bytes(1), 11, "the length of transaction 1 takes 4 bytes, left are 1"),
    ("T", u32(1) + u32(9) + bytes(8), 8, "the transaction 0 takes 9 bytes, left are 8"),
    ("T", EACH["T"] + b"\x00", 15, "bytes left over behind the last field: 1"),
    ("C", bytes(1), 0, "the width k takes 2 bytes, left are 1"),
    ("C", bytes(5), 2, "the start takes 4 bytes, left are 3"),
    ("C", bytes(9), 6, "the count takes 4 bytes, left are 3"),
    ("C", bytes(41), 10, "the commitment takes 32 bytes, left are 31"),
    ("C", bytes(43), 42, "the row count takes 2 bytes, left are 1"),
    ("C", commit(0, 0, 0, *[commit_row(0, 0, 0)] * 513), 42, "the row count is 513, and is 0 to 512"),
    ("C", commit(0, 0, 0, commit_row(0, 0, 0)[:-1]), 42, "the row count is 1, of 94 bytes or more each, left are 93"),
    ("C", commit(0, 0, 0, commit_row(12, 0, 0)), 134, "the hash count of row 0 is 12, and is 0 to 11"),
    ("C", commit(0, 0, 0, commit_row(0, 513, 0)), 135, "the subtree count of row 0 is 513, and is 0 to 512"),
    ("C", commit(0, 0, 0, commit_row(0, 2, 0)[:-2]), 135, "the subtree count of row 0 is 2, of 90 bytes or more each"),
    ("C", commit(0, 0, 0, commit_row(3, 1, 21)), 323, "the node count of row 0 is 21, and is 0 to 20"),
    ("C", COMMIT + b"\x00", 964, "bytes left over behind the last field: 1"),
    ("R", bytes(1), 0, "the width k takes 2 bytes, left are 1"),
    ("R", bytes(5), 4, "the column takes 2 bytes, left are 1"),
    ("R", rooted(2, 3, message(11)), 519, "the node count is 11, and is 0 to 10"),
    ("R", rooted(2, 0, message(0))[:600], 520, "the root takes 90 bytes, left are 80"),
    ("R", rooted(2, 12, message(0)), 610, "the hash count is 12, and is 0 to 11"),
    ("R", rooted(2, 3, message(0))[:-1], 610, "the hash count is 3, of 32 bytes or more each, left are 95"),
    ("R", EACH["R"] + b"\x00", 887, "bytes left over behind the last field: 1"),
    ("E", b"", 0, "the reason takes 1 bytes, left are 0"),
    ("E", u8(6) + u64(0), 0, "the reason is 6, and is 0 to 5"),
    ("E", u8(5) + u64(258)[:-1], 1, "the number takes 8 bytes, left are 7"),
    ("E", EACH["E"] + b"\x00", 9, "bytes left over behind the last field: 1"),
    ("A", b"\x00", 0, "bytes left over behind the last field: 1"),
]


class Why(Case):
    """The place and the field that `why` names."""

    def test_fields(self):
        for kind, payload, place, text in FIELDS:
            with self.subTest(kind, text=text):
                line = self.why(EACH_FRAME["Q"] + frame(kind, payload))
                self.assertTrue(line.startswith(f"file 0 at 10: kind {kind}, payload byte {place}: {text}"), line)
                self.assertTrue(line.endswith(" (BadPayload)"), line)

    def test_framing(self):
        message_1 = frame("M", message(1))
        table = [
            (b"", ("header", "SQUARE"), "file 0 at 0: no byte is there, and asked for is kind S (Truncated)"),
            (message_1, ("header", "SQUARE"), "file 0 at 0: kind M, and asked for is kind S (BadKind)"),
            (b"Z", (), "file 0 at 0: kind byte 5a, and asked for is a kind of the table (BadKind)"),
            (b"Z", ("check", "MESSAGES"), "file 1 at 0: kind and length take 5 bytes, left are 1 (Truncated)"),
            (b"", ("check", "MESSAGES"), "ok: 0 frames"),
            (b"", ("verify", "ANSWER"), "file 1 at 0: no byte is there, and asked for is kind M or N or B or C or R (Truncated)"),
            (b"M\x00\x00\x02", (), "file 0 at 0: kind and length take 5 bytes, left are 4 (Truncated)"),
            (b"M\x10\x00\x00\x01", (), "file 0 at 0: kind M: the length is 268435457, and at most 268435456 (TooLong)"),
            (b"M\x10\x00\x00\x00", (), "file 0 at 0: kind M: the payload takes 268435456 bytes, left are 0 (Truncated)"),
            (message_1 * 2, ("verify", "ANSWER"), "file 1 at 613: a byte 4d behind the one frame (Trailing)"),
            (message_1 * 2, ("light", "MESSAGES"), "ok: 2 frames"),
            (message_1 + b"M", ("repair", "MESSAGES"), "file 1 at 613: kind and length take 5 bytes, left are 1"),
            (EACH_FRAME["Q"] * 2 + EACH_FRAME["P"], ("sample", "REQUESTS"), "file 1 at 20: kind P, and asked for is"),
            (EACH_FRAME["P"] + EACH_FRAME["Q"], ("namespace", "REQUESTS"), "file 1 at 34: kind Q, and asked for is"),
            (EACH_FRAME["H"] + EACH_FRAME["N"], ("follow", "ANSWERS"), "ok: 2 frames"),
            (EACH_FRAME["N"] + EACH_FRAME["H"], ("follow", "ANSWERS"), "file 1 at 0: kind N, and asked for is kind H ("),
            (b"", ("follow", "ANSWERS"), "ok: 0 frames"),
            (EACH_FRAME["H"] + EACH_FRAME["N"], ("attend", "TALK"), "ok: 2 frames"),
            (EACH_FRAME["H"] + EACH_FRAME["A"], ("attend", "TALK"), f"file 1 at {len(EACH_FRAME['H'])}: kind A, and asked for is kind H or N ("),
            (EACH_FRAME["V"], ("build", "BLOCK"), "ok: 1 frames"),
            (EACH_FRAME["T"], ("build", "BLOCK"), "ok: 1 frames"),
            (EACH_FRAME["T"], ("commit", "BLOCK"), "ok: 1 frames"),
            (EACH_FRAME["T"] * 2, ("commit", "BLOCK"), "file 0 at 20: a byte 54 behind the one frame (Trailing)"),
            (EACH_FRAME["M"], ("build", "BLOCK"), "file 0 at 0: kind M, and asked for is kind V or T (BadKind)"),
            (EACH_FRAME["V"], ("show", "FILE"), "ok: 1 frames"),
        ]
        for data, form, want in table:
            with self.subTest(form=form, want=want):
                self.assertEqual(self.why(data, *form)[: len(want)], want)
        status, _, note = run("why", self.file(b""), "--as", "header", "MESSAGES")
        self.assertEqual((status, note[:47]), (1, "--as: there is no file MESSAGES of header, but "))

    def test_idle(self):
        data = frame("M", message(0, axis=2)) + EACH_FRAME["B"] + EACH_FRAME["M"] + b"Z\x00\x00\x00\x00"
        at = [0, 523, 523 + 1407 + 703]
        bad = "frame 0 at 0 is no WHAT: kind M, payload byte 4: the axis is 2, and is 0 or 1 (BadPayload)"
        middle = f"frame 1 at {at[1]} is no WHAT: kind B, and asked for is kind M (BadKind)"
        end = f"frame 3 at {at[2]} is no WHAT: kind byte 5a, and asked for is kind M"
        table = {
            "check": [bad, middle, f"{end} (BadKind)"],
            "light": [bad, f"{end} or B (BadKind)"],
        }
        for command, lines in table.items():
            what = "message and no claim" if command == "light" else "message"
            _, out, _ = run("why", self.file(data), "--as", command, "MESSAGES")
            want = ["ok: 4 frames"] + [line.replace("WHAT", what) for line in lines]
            self.assertEqual(out.decode().splitlines(), want)

    def test_notes(self):
        missing_file = os.path.join(self.folder, "none")
        self.assertEqual(run("show", missing_file), (2, b"", "cannot open file 0\n"))
        self.assertEqual(run("show", self.folder), (3, b"", "cannot read file 0\n"))
        self.assertEqual(run("json", self.file(EACH_FRAME["Q"] + b"Q")), (6, b"", "bad input: file 0 at 10\n"))
        self.assertEqual(run("why", missing_file, "--as", "check", "MESSAGES"), (2, b"", "cannot open file 1\n"))
        with mock.patch.object(frames, "FILE_LIMIT", 9):
            self.assertEqual(run("show", self.file(EACH_FRAME["Q"])), (7, b"", "too long: file 0\n"))
            self.assertEqual(self.why(EACH_FRAME["Q"], "repair", "MESSAGES"), "ok: 1 frames")
            self.assertEqual(run("why", self.file(EACH_FRAME["Q"]), "--as", "check", "MESSAGES")[::2], (7, "too long: file 1\n"))
        with mock.patch.object(frames, "STREAM_LIMIT", 9):
            self.assertEqual(run("why", self.file(EACH_FRAME["Q"]), "--as", "repair", "MESSAGES")[::2], (7, "too long: file 1\n"))
        self.assertEqual(run("show")[0], 1)
        self.assertEqual(run("raw", "Q", "00", "-o", self.folder)[::2], (4, "cannot write\n"))

    def test_streams(self):
        self.loses("samples", "1,2,row")
        for streams in (">/dev/full", ">&-"):
            self.assertEqual(self.ends(streams, "samples", "[]"), (0, b"", ""))
        self.assertEqual(self.ends(f">&- -o {self.folder}/out", "samples", "1,2,row"), (0, b"", ""))
        self.assertEqual(self.ends("<&-", "block", "-"), (2, b"", "cannot open standard input\n"))
        self.assertEqual(self.ends("<<'E'\n{}\nE", "block", "-"), (0, frame("V", bytes(14)), ""))
        for name in ("-", "/dev/stdin"):
            self.assertEqual(self.ends("<&-", "show", name), (2, b"", "cannot open file 0\n"))
            self.assertEqual(self.ends("</dev/null", "show", name), (0, b"", ""))
            self.assertEqual(self.ends("<<'E'\nQ\nE", "show", name), (6, b"", "bad input: file 0 at 0\n"))


class Making(Case):
    """The makers, and what they refuse."""

    def test_block(self):
        path = self.file(b"de")
        value = {
            "width": 4,
            "units": [{"text": "abc"}, ""],
            "pay": [{"file": path}],
            "blobs": [
                {"namespace": "00000000000000000101", "data": "07"},
                {"namespace": "00" * 27 + "0102", "version": 0, "signer": None, "data": {"hex": "08", "times": 2}},
                {"namespace": "00000000000000000103", "signer": SIGNER.hex(), "data": "090909"},
            ],
        }
        self.assertEqual(self.made("block", json.dumps(value)), EACH_FRAME["V"])
        self.assertEqual(self.made("block", self.file(json.dumps(value).encode(), "json")), EACH_FRAME["V"])
        out = os.path.join(self.folder, "out")
        self.assertEqual(self.made("block", json.dumps(value), "-o", out), b"")
        with open(out, "rb") as file:
            self.assertEqual(file.read(), EACH_FRAME["V"])
        value["blobs"][2]["version"] = 1
        self.assertEqual(self.made("block", json.dumps(value)), EACH_FRAME["V"])
        self.assertEqual(self.made("block", "{}"), frame("V", bytes(14)))
        self.assertEqual(self.made("block", '{"width": 0}'), frame("V", bytes(14)))
        self.assertEqual(self.made("block", '{"width": 65535}'), frame("V", b"\xff\xff" + bytes(12)))
        with mock.patch.object(frames, "PAYLOAD_LIMIT", 1000):
            most = {"units": [{"hex": "00", "times": 1000 - 18}]}
            self.assertEqual(len(self.made("block", json.dumps(most))), 1000 + 5)
            most["units"].append("")
            self.assertEqual(run("block", json.dumps(most))[0], 1)

    def test_block_refused(self):
        blob = {"namespace": "00" * 10, "data": ""}
        bad = ["{", "[]", '{"width": 65536}', '{"width": -1}', '{"width": 1.5}', '{"width": true, "pay": 1}',
               '{"unit": []}', '{"width": 1, "width": 2}', '{"units": {}}', '{"units": ["0"]}', '{"units": ["0g"]}',
               '{"units": [1]}', '{"units": [{"hex": "", "text": ""}]}', '{"units": [{"times": 2}]}',
               '{"units": [{"text": 1}]}', '{"units": [{"hex": "00", "times": -1}]}', '{"blobs": [[]]}',
               '{"blobs": [{}]}', '{"units": [{"hex": "00", "times": 268435457}]}',
               json.dumps({"blobs": [dict(blob, version=1)]}), json.dumps({"blobs": [dict(blob, namespace="00" * 11)]}),
               json.dumps({"blobs": [dict(blob, version=2)]}), json.dumps({"blobs": [dict(blob, version=1, signer="")]}),
               json.dumps({"blobs": [dict(blob, signer="11" * 19)]}), json.dumps({"blobs": [dict(blob, signer=11)]}),
               json.dumps({"blobs": [dict(blob, version=0, signer="11" * 20)]}),
               json.dumps({"blobs": [dict(blob, version=2, signer="11" * 20)]}),
               json.dumps({"blobs": [{"namespace": "00" * 10}]}), json.dumps({"blobs": [dict(blob, more=1)]})]
        for text in bad:
            with self.subTest(text):
                status, out, _ = run("block", text)
                self.assertEqual((status, out), (1, b""))
        note = "units 0: '\\ud800' is a lone surrogate, of which there is no UTF-8\n"
        self.assertEqual(run("block", '{"units": [{"text": "a\\ud800"}]}'), (1, b"", note))
        self.assertEqual(run("block", os.path.join(self.folder, "none"))[0], 2)
        self.assertEqual(run("block", '{"pay": [{"file": "%s/none"}]}' % self.folder)[0], 2)

    def test_transactions(self):
        value = json.dumps([{"text": "abc"}, ""])
        self.assertEqual(self.made("transactions", value), EACH_FRAME["T"])
        self.assertEqual(self.made("transactions", self.file(value.encode(), "json")), EACH_FRAME["T"])
        self.assertEqual(self.made("transactions", "[]"), frame("T", bytes(4)))
        with mock.patch.object(frames, "PAYLOAD_LIMIT", 1000):
            most = [{"hex": "00", "times": 1000 - 8}]
            self.assertEqual(len(self.made("transactions", json.dumps(most))), 1000 + 5)
            note = "a payload has at most 1000 bytes, and not 1004\n"
            self.assertEqual(run("transactions", json.dumps(most + [""])), (1, b"", note))
        for text, note in [("{}", "transaction: {} isn't a list"), ("[7]", "transaction 0: 7 isn't an object with the keys "),
                           ('["", "0"]', "transaction 1: '0' isn't bytes as hexadecimal digits")]:
            with self.subTest(text):
                found = run("transactions", text)
                self.assertEqual((found[0], found[1], found[2][: len(note)]), (1, b"", note))
        self.assertEqual(run("transactions", os.path.join(self.folder, "none"))[0], 2)

    def test_requests(self):
        self.assertEqual(self.made("samples", "0,0,row", "65535,1,col"),
                         frame("Q", bytes(5)) + frame("Q", b"\xff\xff\x00\x01\x01"))
        self.assertEqual(self.made("samples", "[]"), b"")
        self.assertEqual(self.made("namespaces", "FF" * 29, "00" * 10), frame("P", PARITY) + frame("P", bytes(29)))
        for words in [["1,2"], ["1,2,3"], ["1,65536,row"], ["-1,2,row"], ["1,2,Row"], ["[[1,2]]"], ["[1,2,3]"], ["[["],
                      ["[[true,0,\"row\"]]"], ["9" * 5000 + ",0,row"]]:
            with self.subTest(words=words):
                self.assertEqual(run("samples", *words)[0], 1)
        for words in [["00"], ["zz" * 29], ["00" * 30], ["[1]"], ["[]x"]]:
            with self.subTest(words=words):
                self.assertEqual(run("namespaces", *words)[0], 1)

    def test_scripts(self):
        key = "0a" * 32
        steps = ["light,%s,3" % key, "put,7", "hand,258,1", "publish,2"]
        want = bytes([0, 1, 0, 1]) + bytes([10] * 32) + bytes([0, 3]) + bytes([0, 0, 0, 0, 7, 0, 0])
        want += bytes([1, 0, 0, 1, 2, 0, 1]) + bytes([2, 0, 0, 0, 0, 0, 2])
        self.assertEqual(self.made("script", "1", *steps), want)
        self.assertEqual(self.made("script", "1", json.dumps(steps)), want)
        self.assertEqual(self.made("script", "65535"), b"\xff\xff\x00\x00")
        for words in [["65536"], ["-1"], ["x"], ["1", "put"], ["1", "put,1,2"], ["1", "put,4294967296"], ["1", "hand,1"],
                      ["1", "hand,1,65536"], ["1", "take,1"], ["1", "put,1", "light,%s,3" % key], ["1", "light,00,3"],
                      ["1", "light,%s,65536" % key], ["1", "[1]"]]:
            with self.subTest(words=words):
                self.assertEqual(run("script", *words)[0], 1)

    def test_raw(self):
        for kind, byte in [("Q", b"Q"), ("51", b"Q"), ("5a", b"Z"), ("ff", b"\xff"), ("0", b"0")]:
            self.assertEqual(self.made("raw", kind, "00aB"), byte + b"\x00\x00\x00\x02\x00\xab")
        self.assertEqual(self.made("raw", "00", ""), bytes(5))
        for kind, digits in [("", ""), ("5151", ""), ("é", ""), ("zz", ""), ("Q", "0"), ("Q", "0 0")]:
            self.assertEqual(run("raw", kind, digits)[0], 1)

    def test_messages(self):
        first, second = self.file(EACH_FRAME["M"] * 2, "1"), self.file(EACH_FRAME["B"], "2")
        self.assertEqual(self.made("messages", first, second), EACH_FRAME["M"] * 2 + EACH_FRAME["B"])
        bad = self.file(EACH_FRAME["M"] + frame("M", message(0, axis=2)), "3")
        self.assertEqual(run("messages", first, bad), (6, b"", "bad input: file 1 at 703\n"))
        self.assertEqual(self.made("messages", "--any", bad)[:703], EACH_FRAME["M"])
        cut = self.file(EACH_FRAME["M"][:-1], "4")
        self.assertEqual(run("messages", "--any", bad, cut), (6, b"", "bad input: file 1 at 0\n"))

    def test_ok(self):
        some = [EACH_FRAME["M"], EACH_FRAME["B"], b"Z" + bytes(4), frame("M", message(1))]
        heard, lines = self.file(b"".join(some), "heard"), self.file(b"ok\nrefused 0\nrefused 0\nok\n", "lines")
        self.assertEqual(self.made("ok", heard, lines), some[0] + some[3])
        self.assertEqual(self.made("ok", self.file(b"", "none"), self.file(b"", "no lines")), b"")
        for text, count in ((b"ok\n" * 3, 3), (b"ok\n" * 5, 5), (b"", 0)):
            note = f"bad input: file 1: {count} lines, and file 0 has 4 frames\n"
            self.assertEqual(run("ok", heard, self.file(text)), (6, b"", note))
        cut = self.file(some[0] + some[1][:-1], "cut")
        self.assertEqual(run("ok", cut, lines), (6, b"", "bad input: file 0 at 703\n"))
        self.assertEqual(run("ok", heard, os.path.join(self.folder, "absent")), (2, b"", "cannot open file 1\n"))


def places(data):
    """The places of a file of frames at which a frame or a field of one begins."""
    found = set()
    take = frames.Fields.bytes
    for at, _, payload in frames.walk(data, frames.MESSAGES):
        found |= {at, at + 1, at + 4}

        def noted(fields, name, size, base=at + 5):
            found.add(base + fields.at)
            return take(fields, name, size)

        with mock.patch.object(frames.Fields, "bytes", noted):
            frames.KINDS[chr(data[at])].read(frames.Fields(payload))
    return sorted(place for place in found if place < len(data))


def damaged(data, at):
    """A file changed at one place in two ways, and cut there."""
    for byte in (data[at] ^ 1, (data[at] + 0x83) % 256):
        yield data[:at] + bytes([byte]) + data[at + 1 :]
    yield data[:at]


@unittest.skipUnless(DA, "the environment variable DA names no built da")
class Program(Case):
    """frames.py beside a built `da`."""

    def da(self, *words):
        """The status, the output and the note of `da` on words."""
        done = subprocess.run([DA, *words], stdout=subprocess.PIPE, stderr=subprocess.PIPE, check=False)
        return done.returncode, done.stdout, done.stderr.decode()

    def same_text(self, data, path=None):
        """Both write the same of a file, with one status and one note."""
        path = path or self.file(data)
        for command in ("show", "json"):
            self.assertEqual(run(command, path), self.da(command, path), (command, data[:2000].hex()))

    def same_place(self, data, command, words, word):
        """`da` answers `bad input` of a file exactly where `why` does, with one number and one place."""
        path = self.file(data)
        status, out, _ = run("why", path, "--as", command, word)
        found = re.match("file [0-9]+ at [0-9]+", out.decode().replace(f"{path}: ", ""))
        done = self.da(command, *[path if other is None else other for other in words])
        want = (6, f"bad input: {found.group()}\n") if status == 6 else None
        if want is None:
            self.assertNotEqual(done[0], 6, (command, word, data[:2000].hex(), done))
        else:
            self.assertEqual(done[::2], want, (command, word, data[:2000].hex(), out))

    def made_by_da(self, name, *words):
        """A file of what `da` writes."""
        status, out, note = self.da(*words)
        self.assertIn((status, note[:7]), [(0, ""), (11, "missing")])
        return self.file(out, name)

    def files(self):
        """For each word of a command that names a file: what is right, and all words, None for the file itself."""
        path = {name: os.path.join(EXAMPLES, name) for name in ("block", "header", "message", "messages", "quarter")}
        path.update(samples=os.path.join(EXAMPLES, "samples"), namespaces=os.path.join(EXAMPLES, "namespaces"))
        square_2 = self.made_by_da("square", "build", path["block"])
        header_2 = self.made_by_da("header", "header", square_2)
        self.answer = self.made_by_da("answer", "namespace", square_2, path["namespaces"])
        self.sample = self.made_by_da("sample", "sample", square_2, path["samples"])
        self.missing = self.made_by_da("missing", "repair", header_2, self.sample)
        self.proof = self.made_by_da("proof", "prove", square_2, "1", "2")
        self.rooted = self.made_by_da("rooted", "prove", square_2, path["samples"])
        followed = self.file(self.read(header_2) + self.read(self.answer), "followed")
        key = "00" * 32
        return [
            ("build", "BLOCK", path["block"], [None]),
            ("build", "BLOCK", self.file(EACH_FRAME["T"], "list"), [None]),
            ("commit", "BLOCK", self.file(EACH_FRAME["T"], "list"), [None]),
            ("header", "SQUARE", square_2, [None]),
            ("sample", "SQUARE", square_2, [None, path["samples"]]),
            ("sample", "REQUESTS", path["samples"], [square_2, None]),
            ("sample", "REQUESTS", path["quarter"], [square_2, None]),
            ("namespace", "SQUARE", square_2, [None, path["namespaces"]]),
            ("namespace", "REQUESTS", path["namespaces"], [square_2, None]),
            ("verify", "HEADER", header_2, [None, self.sample]),
            ("verify", "ANSWER", self.sample, [header_2, None]),
            ("verify", "ANSWER", self.answer, [header_2, None]),
            ("verify", "REQUEST", path["samples"], [header_2, self.sample, None]),
            ("verify", "REQUEST", path["namespaces"], [header_2, self.answer, None]),
            ("verify", "ANSWER", self.proof, [header_2, None]),
            ("verify", "ANSWER", self.rooted, [header_2, None]),
            ("commit", "BLOCK", path["block"], [None]),
            ("prove", "SQUARE", square_2, [None, path["samples"]]),
            ("prove", "SQUARE", square_2, [None, "1", "2"]),
            ("prove", "REQUESTS", path["samples"], [square_2, None]),
            ("follow", "WANTED", path["namespaces"], [None, followed]),
            ("follow", "ANSWERS", followed, [path["namespaces"], None]),
            ("attend", "WANTED", path["namespaces"], [None, followed]),
            ("attend", "TALK", followed, [path["namespaces"], None]),
            ("wanted", "MISSING", self.missing, [None, "row"]),
            ("cells", "HEADER", header_2, [None, key, "1", "row"]),
            ("blobs", "SHARES", square_2, [None]),
            ("blobs", "SHARES", self.answer, [None]),
            ("transactions", "SQUARE", square_2, [None]),
            ("find", "SQUARE", square_2, [None, "00" * 32]),
            ("root", "HEADER", header_2, [None]),
            ("check", "HEADER", path["header"], [None, path["message"]]),
            ("check", "MESSAGES", path["messages"], [path["header"], None]),
            ("repair", "HEADER", path["header"], [None, path["message"]]),
            ("repair", "MESSAGES", path["message"], [path["header"], None]),
            ("light", "HEADER", path["header"], [None, path["message"], key, "1"]),
            ("light", "MESSAGES", path["messages"], [path["header"], None, key, "1"]),
        ]

    @staticmethod
    def read(path):
        with open(path, "rb") as file:
            return file.read()

    def test_whole_files(self):
        for command, word, path, words in self.files():
            with self.subTest(command=command, word=word):
                self.same_text(b"", path)
                self.same_place(self.read(path), command, words, word)
        for path in (self.answer, self.sample, self.missing, self.proof, self.rooted):
            self.same_text(b"", path)
        for size in (0, 1, 2, 8, 64, 128, 256):
            data = frame("S", square(size)) if size else b""
            with self.subTest(size=size):
                self.same_text(data)
        self.same_text(frame("H", header(512)))
        self.same_text(frame("N", answer(*[range_entry(i, i, 512, 20) for i in range(64)])))
        self.same_text(frame("N", answer(*[range_entry(i, i, 1, 20) for i in range(512)])))
        self.same_text(frame("B", claim(0, 0, *[message(10, i, i) for i in range(512)])))
        self.same_text(frame("B", SET_CLAIM))
        self.same_text(frame("B", set_claim(0, 0, 512, shown_cell(0), *[crossing_cell(i, 10) for i in range(511)])))
        self.same_text(frame("K", missing(128, *cells_of(128))))
        self.same_text(frame("C", commit(0, 0, 0, *[commit_row(11, 512, 20)] * 512)))
        self.same_text(frame("V", block(0xFFFF, [b""] * 1000, [b"a"] * 1000, [(PARITY, b"")] * 1000)))
        self.same_text(frame("T", strings(*[b""] * 1000, *[b"abc"] * 1000)))

    def test_limit(self):
        # The longest payload, and one of a byte more, in a file that has all of its bytes.
        words = [os.path.join(EXAMPLES, "header"), None]
        for size in (frames.PAYLOAD_LIMIT, frames.PAYLOAD_LIMIT + 1):
            self.same_place(EACH_FRAME["M"] + frame("M", bytes(size)), "check", words, "MESSAGES")
        unit = b"\xab" * (frames.PAYLOAD_LIMIT - 18)
        for more in (b"", b"\x00"):
            front = b"V" + u32(frames.PAYLOAD_LIMIT + len(more)) + bytes(2) + u32(1) + u32(len(unit))
            self.same_text(b"", self.file(b"".join([front, unit, bytes(8), more])))

    def test_every_form(self):
        # Each kind, and some bytes that are no frame, in the place of each word.
        empty = [kind + bytes(4) for kind in (b"Z", b"M", b"H")]
        datas = list(EACH_FRAME.values()) + empty + [b"", b"\x00", b"H\x10\x00\x00\x01"]
        for command, word, _, words in self.files():
            for data in datas + [EACH_FRAME["M"] * 2, EACH_FRAME["Q"] * 2 + b"Q", EACH_FRAME["P"] + b"\x00"]:
                self.same_place(data, command, words, word)

    def test_fields(self):
        for kind, payload, _, _ in FIELDS:
            self.same_text(EACH_FRAME["Q"] + frame(kind, payload))
            self.same_text(frame(kind, payload) + EACH_FRAME["Q"])

    def test_small_examples(self):
        # Each byte changed in turn, and the file cut at each place.
        for name, forms in {"samples": "Q", "namespaces": "P", "quarter": "Q"}.items():
            data = example(name)
            for at in range(len(data)):
                for other in damaged(data, at):
                    self.same_text(other)

    def test_damaged(self):
        # At each place at which a field begins, in a file of all kinds, and of a claim with a set.
        data = b"".join(EACH_FRAME.values()) + frame("B", SET_CLAIM)
        for at in places(data):
            for other in damaged(data, at):
                self.same_text(other)

    def test_other_payloads(self):
        # Payloads from which bytes are taken or into which bytes are put, in frames of the right length.
        draw = random.Random(7)
        for _ in range(150):
            kind, whole = draw.choice([*EACH.items(), ("B", SET_CLAIM)])
            payload = whole
            for _ in range(draw.randrange(1, 3)):
                # A state has no field.
                at = draw.choice(places(frame(kind, whole))[3:] or [5]) - 5
                again = payload[at : at + draw.choice([1, 2, 90, 512, 608])]
                more = draw.choice([b"", b"\x00", b"\x01", bytes(4), again])
                payload = payload[:at] + more + payload[at + draw.choice([0, 0, 1, 2, 4, 90, 512]) :]
            self.same_text(EACH_FRAME["P"] + frame(kind, payload) + EACH_FRAME["Q"])

    def test_damaged_words(self):
        for command, word, path, words in self.files():
            data = self.read(path)
            for at in places(data):
                for other in damaged(data, at):
                    self.same_place(other, command, words, word)
            for more in (b"\x00", data[:5], data):
                self.same_place(data + more, command, words, word)

    def test_ok(self):
        # What `check` says `ok` to, and no other frame.
        header_2, heard = os.path.join(EXAMPLES, "kinds", "header"), example("refused/sample-other-share")
        sample = example("kinds/sample")
        path = self.file(heard + sample + b"A" + bytes(4) + sample, "heard")
        status, lines, _ = self.da("check", header_2, path)
        self.assertEqual(status, 13)
        self.assertEqual(self.made("ok", path, self.file(lines, "lines")), sample * 2)

    def test_makers(self):
        value = {"width": 8, "units": [{"text": "abc"}], "pay": [{"hex": "00", "times": 500}],
                 "blobs": [{"namespace": f"{i:020x}", "data": {"hex": "07", "times": i}} for i in (257, 514, 2304)]}
        value["blobs"].append({"namespace": f"{514:020x}", "signer": SIGNER.hex(), "data": {"hex": "08", "times": 459}})
        made = self.file(self.made("block", json.dumps(value)), "block")
        square_8 = self.made_by_da("square", "build", made)
        header_8 = self.made_by_da("header", "header", square_8)
        self.assertEqual(self.da("root", header_8), (0, self.made("root", header_8), ""))
        asked = self.file(self.made("samples", "0,0,row", "3,9,col", "15,15,row"), "samples")
        samples = self.made_by_da("messages", "sample", square_8, asked)
        joined = self.file(self.made("messages", samples, samples), "joined")
        self.assertEqual(self.da("check", header_8, joined), (0, b"ok\n" * 6, ""))
        names = self.file(self.made("namespaces", f"{514:020x}"), "names")
        answered = self.made_by_da("answer", "namespace", square_8, names)
        self.assertEqual(self.da("verify", header_8, answered, names), (0, b"ok\n", ""))
        folder = os.path.join(self.folder, "blobs")
        lines = self.made("blobs", self.made_by_da("joined blobs", "blobs", answered), folder).decode().splitlines()
        self.assertEqual([line.split(" ", 2)[2] for line in lines], ["514", f"459 signer {SIGNER.hex()}"])
        self.assertEqual(self.read(os.path.join(folder, "0")), b"\x07" * 514)
        self.assertEqual(self.read(os.path.join(folder, "1")), b"\x08" * 459)
        for path in (made, square_8, header_8, asked, samples, joined, names, answered):
            self.same_text(b"", path)


if __name__ == "__main__":
    result = unittest.main(exit=False).result
    failed = len(result.failures) + len(result.errors)
    print(f"{result.testsRun - failed - len(result.skipped)} passed, {failed} failed")
    sys.exit(failed > 0)
