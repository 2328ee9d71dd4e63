#!/usr/bin/env python3
"""Tests of tools/celestia.py, over squares of examples/make.py, and of a built `da` where DA names one.

    python3 tools/celestia_test.py
    DA=crates/da/out/da python3 tools/celestia_test.py

The roots and the blob of tools/celestia/ are those of celestia-node's RPC documentation. No answer of a running node
is among the tests.
"""

import base64
import importlib.util
import json
import os
import random
import subprocess
import sys
import unittest
from unittest import mock

sys.dont_write_bytecode = True
TOOLS = os.path.dirname(os.path.abspath(__file__))
EXAMPLES = os.path.join(os.path.dirname(TOOLS), "examples")
sys.path.insert(0, TOOLS)
import celestia  # noqa: E402
import frames  # noqa: E402
import trying  # noqa: E402

SPEC = importlib.util.spec_from_file_location("make", os.path.join(EXAMPLES, "make.py"))
make = importlib.util.module_from_spec(SPEC)
SPEC.loader.exec_module(make)

DA = os.environ.get("DA")


def text(name):
    """A file of tools/celestia/, as JSON on one line without a space."""
    with open(os.path.join(TOOLS, "celestia", name), encoding="utf-8") as file:
        return json.dumps(json.load(file), separators=(",", ":"))


# The example of an extended header, which is that of the empty block, and the empty block's data root as celestia-app's
# `MinDataAvailabilityHeader` has it; and the example of `blob.Get`.
HEADER, BLOB = text("header.json"), text("blob.json")
EMPTY_ROOT = "3d96b7d238e7e0456f6af8e7cdf0a67bd6cf9c2089ecb559c659dcaa1f880353"
BLOB_NAMESPACE = bytes(19) + bytes.fromhex("01020304050607080910")
BLOB_DATA = b"This is an example of some blob data"

run = trying.runner(celestia)


# The node's forms, written here from frames so that they are tried on JSON that celestia.py didn't make.


def base64_of(data):
    return base64.b64encode(data).decode()


def value_of(data):
    """The value of a file of one frame."""
    (_, _, value), = frames.walk(data, frames.Form(0, False, frames.ALL_KINDS))
    return value


def dah_of(header):
    """The `dah` of an H frame."""
    value = value_of(header)
    return {"row_roots": [base64_of(it) for it in value.rows], "column_roots": [base64_of(it) for it in value.cols]}


def extended(header):
    """An extended header of an H frame."""
    told = value_of(header).data_root().hex().upper()
    return {"header": {"chain_id": "test", "height": "1", "data_hash": told}, "commit": {}, "dah": dah_of(header)}


def rows_of(answer):
    """The rows of an N frame, as Go writes them: without what is zero or empty."""
    rows = []
    for entry in value_of(answer).entries:
        is_range = isinstance(entry, frames.Range)
        start = entry.start if is_range else entry.pos
        shares = entry.shares if is_range else []
        proof = {"start": start} if start else {}
        proof["end"] = start + (len(shares) or 1)
        if entry.nodes:
            proof["nodes"] = [base64_of(it) for it in entry.nodes]
        if not is_range:
            proof["leaf_hash"] = base64_of(entry.digest)
        proof["is_max_namespace_ignored"] = True
        rows.append({"shares": [base64_of(it) for it in shares] or None, "proof": proof})
    return rows


def extended_square(grid):
    """The extended square of a grid, as the node has it."""
    shares = [base64_of(share) for row in grid.rows for share in row]
    return {"data_square": shares, "codec": "Leopard", "tree": "celestia-nmt"}


def half_of(grid, row, side):
    """A row of a grid by a side, or by both."""
    low, high = {"LEFT": (0, 1), "RIGHT": (1, 2), "BOTH": (0, 2)}[side]
    return {"shares": [base64_of(share) for share in grid.rows[row][low * grid.k : high * grid.k]], "side": side}


def sample_of(message):
    """A sample with its proof of an M frame, as Go writes it: without what is zero or empty."""
    value = value_of(message)
    place = value.col if value.axis == "row" else value.row
    proof = {"start": place} if place else {}
    proof.update(end=place + 1, nodes=[base64_of(it) for it in value.nodes], is_max_namespace_ignored=True)
    return {"share": base64_of(value.share), "proof": proof, "proof_type": frames.AXES.index(value.axis)}


def commitment_of(proof):
    """The node's form of a C frame whose shares stand in one row."""
    value = value_of(proof)
    (row,), (index, low) = value.rows, divmod(value.start, value.k)
    shown = {"start": low, "end": low + value.count, "nodes": [base64_of(it) for it in row.nodes], "leaf_hash": None}
    leaf = base64_of(frames.sha256(b"\0" + row.root))
    up = {"total": 4 * value.k, "index": index, "leaf_hash": leaf, "aunts": [base64_of(it) for it in row.up]}
    rows = {"row_roots": [row.root.hex().upper()], "proofs": [up], "start_row": index, "end_row": index}
    return {"subtree_roots": [base64_of(it) for it in row.subtrees],
            "subtree_root_proofs": [dict(shown, is_max_namespace_ignored=True)],
            "namespace_id": base64_of(row.subtrees[0][1:29]), "row_proof": rows,
            "namespace_version": row.subtrees[0][0]}


def blob_of(namespace, data, signer=b""):
    """A blob; its commitment is any 32 bytes, since nothing here computes one."""
    told = {"namespace": base64_of(namespace), "data": base64_of(data), "share_version": 1 if signer else 0}
    if signer:
        told["signer"] = base64_of(signer)
    return dict(told, commitment=base64_of(bytes(32)), index=7)


def block_of(transactions, told=EMPTY_ROOT):
    """A block of raw transactions with its data hash, as the RPC has one."""
    data = {"txs": [base64_of(it) for it in transactions], "square_size": "1"}
    return {"header": {"chain_id": "test", "height": "1", "data_hash": told.upper()}, "data": data, "evidence": {}}


def padded_square():
    """The shares of a square of width 4 with reserved padding in front of its first blob, as go-square's builder may
    leave it, and with padding of version 1 behind that, which has a signer; what stands in it as a block that asks for
    the width, and its blobs as one."""
    units, pays, reserved = [b"a transaction"], [b"a payment"], bytes(28) + b"\xff"
    first, second = blobs = [(make.name("0101"), b"\7" * 700, b"\x11" * 20), (make.name("0102"), b"\10")]
    front = make.compact_shares(make.TRANSACTION, units) + make.compact_shares(make.PAY_FOR_BLOB, pays)
    shares = front + make.blob_shares(reserved, b"") * 2
    shares += make.blob_shares(*first) + [first[0] + b"\3" + bytes(482)] + make.blob_shares(*second)
    shares += make.blob_shares(make.TAIL_PADDING, b"") * (16 - len(shares))
    return shares, make.block(blobs, units, pays, width=4), make.block(blobs)


class Case(trying.Case):
    """A test of the tool, with a folder of its own for files."""

    run_tool, tool = staticmethod(run), celestia.__file__

    def same_header(self, header):
        """A header comes back through its `dah` and through an extended header, and stands under its data hash."""
        value = extended(header)
        path = self.file(value)
        self.assertEqual(self.made("header", path), header)
        self.assertEqual(self.made("header", self.file(value["dah"], "dah")), header)
        self.assertEqual(json.loads(self.made("dah", self.file(header, "header"))), value["dah"])
        told = value["header"]["data_hash"].lower()
        self.assertEqual(self.made("root", path).decode(), f"data_hash {told}\ndata_root {told}\n")

    def same_answer(self, header, answer):
        """An answer comes back through the node's rows, by any spelling of its namespace."""
        path, rows = self.file(header, "header"), self.file(rows_of(answer))
        namespace = value_of(answer).namespace
        for word in (namespace.hex(), "0x" + namespace.hex(), base64_of(namespace)):
            self.assertEqual(self.made("answer", word, path, rows), answer)

    def same_block(self, blobs):
        """Blobs come as a block, alone and in a list, and come back."""
        for form, some in ((list, blobs), (lambda it: it[0], blobs[:1])):
            told = self.file(form([blob_of(*blob) for blob in some]))
            self.assertEqual(self.made("block", told), make.block(some))
        block = self.file(make.block(blobs), "block")
        lines = self.file((b"00" * 32 + b"\n") * len(blobs), "lines")
        want = [dict(blob_of(*blob), index=-1) for blob in blobs]
        self.assertEqual(json.loads(self.made("blobs", block, lines)), want)


class Published(Case):
    """What celestia-node's documentation has."""

    def test_header(self):
        empty = make.Grid(1, make.extend(1, make.square_of(1, []))).header()
        dah = HEADER[HEADER.index('"dah":') + 6 : -1]
        for value in (HEADER, dah, '{"jsonrpc":"2.0","id":1,"result":%s}' % HEADER):
            self.assertEqual(self.made("header", value), empty)
        self.assertEqual(self.made("dah", self.file(empty)).decode(), dah + "\n")
        want = f"data_hash {EMPTY_ROOT}\ndata_root {EMPTY_ROOT}\n"
        self.assertEqual(self.made("root", HEADER).decode(), want)
        # A whole response for a height, of the square of examples/kinds: what stands beside the page for operators.
        kinds = os.path.join(EXAMPLES, "kinds", "header")
        with open(kinds, "rb") as file:
            self.assertEqual(self.made("header", text("height.json")), file.read())

    def test_blob(self):
        want = make.block([(BLOB_NAMESPACE, BLOB_DATA)])
        self.assertEqual(self.made("block", BLOB), want)
        self.assertEqual(self.made("block", f"[{BLOB}]"), want)
        self.assertEqual(self.made("block", '{"jsonrpc":"2.0","result":[%s,%s],"id":1}' % (BLOB, BLOB)),
                         make.block([(BLOB_NAMESPACE, BLOB_DATA)] * 2))


class Examples(Case):
    """The forms of squares of examples/make.py, which go to width 4."""

    def grids(self):
        """Well encoded squares: the empty block's, examples/kinds/square, and two with transactions of width 4."""
        two = [(make.name("0101"), b"\7"), (make.name("0102"), b"\7" * 479), (make.name("0104"), b"\7")]
        four = [(make.name(f"02{i:02d}"), bytes([i]) * 700) for i in range(1, 5)]
        squares = [make.square_of(1, []), make.square_of(2, two), make.square_of(4, four, [b"a transaction"])]
        squares.append(padded_square()[0])
        return [make.Grid(k, make.extend(k, square)) for k, square in zip((1, 2, 4, 4), squares)]

    def test_headers(self):
        for grid in self.grids():
            with self.subTest(k=grid.k):
                self.same_header(grid.header())
        with open(os.path.join(EXAMPLES, "spoiled", "header"), "rb") as file:
            self.same_header(file.read())

    def test_answers(self):
        kinds = set()
        for grid in self.grids():
            names = {share[:29] for row in grid.rows[: grid.k] for share in row[: grid.k]}
            absent = {bytes(28) + b"\1", make.name("0103"), make.name("0203"), b"\xff" * 28 + b"\xfd"} - names
            for namespace in sorted(names | absent):
                answer = grid.answer(namespace)
                with self.subTest(k=grid.k, namespace=namespace.hex()):
                    self.same_answer(grid.header(), answer)
                kinds |= {type(entry) for entry in value_of(answer).entries} or {None}
        self.assertEqual(kinds, {frames.Range, frames.Absence, None})

    def test_kept(self):
        # The rows of tools/celestia/ are those of an answer of examples/.
        with open(os.path.join(EXAMPLES, "kinds", "answer"), "rb") as file:
            answer = file.read()
        self.assertEqual(json.loads(text("rows.json")), rows_of(answer))
        words = ["answer", make.name("0102").hex(), os.path.join(EXAMPLES, "kinds", "header"), text("rows.json")]
        self.assertEqual(self.made(*words), answer)

    def test_no_rows(self):
        grid = self.grids()[0]
        header = self.file(grid.header(), "header")
        for value in ("[]", self.file(b"null"), '{"result":null}'):
            self.assertEqual(self.made("answer", "00" * 29, header, value), grid.answer(bytes(29)))
        # Rows of recovery shares alone are none of an answer.
        self.assertEqual(self.made("answer", "ff" * 29, header, "[]"), make.answer_of(b"\xff" * 29, []))

    def test_no_leaf_hash(self):
        # A text without bytes stands for none, too.
        grid = self.grids()[1]
        answer = grid.answer(make.name("0102"))
        rows = rows_of(answer)
        for row in rows:
            row["proof"]["leaf_hash"] = ""
        words = ["answer", make.name("0102").hex(), self.file(grid.header(), "header"), self.file(rows)]
        self.assertEqual(self.made(*words), answer)

    def test_squares(self):
        for grid in self.grids():
            shares = [share for row in grid.rows[: grid.k] for share in row[: grid.k]]
            for value in (extended_square(grid), {"result": extended_square(grid)}):
                self.assertEqual(self.made("square", self.file(value)), make.square(grid.k, shares))

    def test_rows(self):
        for grid in self.grids():
            for row in range(2 * grid.k):
                want = b"".join(grid.message(row, col) for col in range(2 * grid.k))
                for side in ("LEFT", "RIGHT", "BOTH"):
                    self.assertEqual(self.made("row", row, self.file(half_of(grid, row, side))), want)

    def test_shares(self):
        for grid in self.grids():
            cells = [(row, col) for row in range(2 * grid.k) for col in range(2 * grid.k)]
            for axis in (make.ROW, make.COL):
                some = [grid.message(*cell, axis) for cell in cells]
                words = [f"{row},{col}" for row, col in cells]
                self.assertEqual(self.made("share", self.file(list(map(sample_of, some))), *words), b"".join(some))
        # A share alone is a sample without nodes.
        one = value_of(self.made("share", self.file(base64_of(grid.rows[0][1])), "0,1"))
        self.assertEqual(one, frames.Message(0, 1, "row", grid.rows[0][1], []))

    def test_commitments(self):
        for grid in self.grids():
            for start in range(grid.k * grid.k):
                most = grid.k * grid.k - start
                for count in sorted({1, 2, grid.k + 1, most} & set(range(most + 1))):
                    proof = grid.commitment(start, count)
                    told = json.loads(self.made("proof", self.file(proof, "proof")))
                    with self.subTest(k=grid.k, start=start, count=count):
                        self.assertEqual(self.made("commitment", self.file(told)), proof)
                    if start % grid.k + count > grid.k:
                        continue
                    self.assertEqual(told, commitment_of(proof))
                    # Roots in base64, and numbers as texts.
                    rows = told["row_proof"]
                    rows["row_roots"] = [base64_of(bytes.fromhex(it)) for it in rows["row_roots"]]
                    rows["proofs"][0].update(total=str(4 * grid.k), index=str(rows["proofs"][0]["index"]))
                    self.assertEqual(self.made("commitment", self.file(told)), proof)

        for total in (1, 2, 19, 64, 65, 131, 4096, 4097, 262144):
            for count in range(1, min(total, 512) + 1):
                sizes = make.cut(count, make.subtree_width(total))
                self.assertEqual(celestia.subtrees_in(count, total), len(sizes))

    def test_blocks(self):
        self.same_block([(make.name("0101"), b"\7"), (make.name("0102"), bytes(range(256)) * 9)])
        self.same_block([(b"\xff" * 29, b"")])
        self.same_block([(make.name("0101"), b"\7", b"\x11" * 20), (make.name("0101"), b"\7"),
                         (make.name("0102"), b"\x10" * 459, bytes(range(20)))])
        self.assertEqual(self.made("block", "[]"), make.block([]))
        self.assertEqual(self.made("blobs", self.file(make.block([])), self.file(b"", "lines")), b"[]\n")
        # A signer may be left out, null or empty where there is none.
        for none in (None, ""):
            told = dict(blob_of(make.name("0101"), b"\7"), signer=none)
            self.assertEqual(self.made("block", self.file(told)), make.block([(make.name("0101"), b"\7")]))
        path = os.path.join(self.folder, "out")
        self.assertEqual(self.made("block", BLOB, "-o", path), b"")
        with open(path, "rb") as file:
            self.assertEqual(file.read(), make.block([(BLOB_NAMESPACE, BLOB_DATA)]))


    def test_transactions(self):
        for some in ([], [b""], [b"a transaction", bytes(range(256)) * 9, b"", b"a transaction"]):
            block, told = block_of(some), [base64_of(it) for it in some]
            answer = {"block_id": {"hash": "00"}, "block": block}
            for value in ({"jsonrpc": "2.0", "id": 1, "result": answer}, answer, block, told):
                self.assertEqual(self.made("transactions", self.file(value)), make.transactions(some))
                if value is not told:
                    self.assertEqual(self.made("hash", self.file(value)).decode(), EMPTY_ROOT + "\n")
        # Null, and no key, are the list of none, and a transaction that is null is one of no bytes.
        for value in (None, [], "no key"):
            block = block_of([])
            block["data"] = {} if value == "no key" else {"txs": value}
            self.assertEqual(self.made("transactions", json.dumps(block)), make.transactions([]))
        self.assertEqual(self.made("transactions", "[null]"), make.transactions([b""]))
        path = os.path.join(self.folder, "out")
        self.assertEqual(self.made("transactions", "[]", "-o", path), b"")
        with open(path, "rb") as file:
            self.assertEqual(file.read(), make.transactions([]))


class Refused(Case):
    """Each form with one thing wrong: the status, and the note with the path and the reason's name."""

    def refused(self, words, note, status=6):
        found = run(*words)
        self.assertEqual(found, (status, b"", note + "\n"))

    def changed(self, value, path, put):
        """A copy of a value with another one at a path; taken out where that is None."""
        value = json.loads(json.dumps(value))
        inner = value
        for key in path[:-1]:
            inner = inner[key]
        if put is None:
            del inner[path[-1]]
        else:
            inner[path[-1]] = put
        return self.file(value)

    def test_json(self):
        for text, note in [
            ("{", "the JSON: Expecting property name enclosed in double quotes: line 1 column 2 (char 1) (NoJson)"),
            ('{"dah":1,"dah":2}', "the JSON: a key stands twice in one object (NoJson)"),
            ("[]", "the JSON: [] isn't an object (BadType)"),
            ("{}", "dah: it isn't there (Missing)"),
            ('{"dah":[]}', "dah: [] isn't an object (BadType)"),
            ('{"result":null}', "result: null isn't an object (BadType)"),
            ('{"error":{"code":1,"message":"there is no such block"}}',
             'error: the node answered {"code": 1, "message": "there is no s... (NodeError)'),
        ]:
            with self.subTest(text):
                self.refused(["header", text], f"bad input: {note}")

    def test_header(self):
        two = make.Grid(2, make.extend(2, make.square_of(2, []))).header()
        whole, zeros = extended(two), base64_of(bytes(90))
        cases = [
            (["dah"], None, "dah: it isn't there (Missing)"),
            (["dah", "column_roots"], None, "dah.column_roots: it isn't there (Missing)"),
            (["dah", "row_roots"], {}, "dah.row_roots: {} isn't a list (BadType)"),
            (["dah", "row_roots", 1], 7, "dah.row_roots[1]: 7 isn't a text (BadType)"),
            (["dah", "row_roots", 1], "AA=", 'dah.row_roots[1]: "AA=" isn\'t base64 (BadBase64)'),
            (["dah", "row_roots", 1], "AB==", 'dah.row_roots[1]: "AB==" isn\'t base64 (BadBase64)'),
            (["dah", "row_roots", 1], "A-_A", 'dah.row_roots[1]: "A-_A" isn\'t base64 (BadBase64)'),
            (["dah", "row_roots", 1], "\u0661===", 'dah.row_roots[1]: "\\u0661===" isn\'t base64 (BadBase64)'),
            (["dah", "column_roots", 3], "AAAA", "dah.column_roots[3]: 3 bytes, and there are to be 90 (BadLength)"),
            (["dah", "row_roots"], [zeros] * 3,
             "dah.row_roots: 3 roots, and there are to be 2, 4, 8, 16, 32, 64, 128, 256, 512 or 1024 (BadCount)"),
            (["dah", "row_roots"], [zeros] * 2048,
             "dah.row_roots: 2048 roots, and there are to be 2, 4, 8, 16, 32, 64, 128, 256, 512 or 1024 (BadCount)"),
            (["dah", "row_roots"], [zeros] * 2, "dah: 2 row roots, and 4 column roots (BadCount)"),
            (["header", "data_hash"], None, "header.data_hash: it isn't there (Missing)"),
            (["header", "data_hash"], 5, "header.data_hash: 5 isn't a text (BadType)"),
            (["header", "data_hash"], "0g", 'header.data_hash: "0g" isn\'t hexadecimal digits (BadHex)'),
            (["header", "data_hash"], "00", "header.data_hash: 1 bytes, and there are to be 32 (BadLength)"),
        ]
        for path, put, note in cases:
            with self.subTest(note):
                self.refused(["header", self.changed(whole, path, put)], f"bad input: {note}")
        found = self.changed(whole, ["header", "data_hash"], EMPTY_ROOT)
        root = value_of(two).data_root().hex()
        note = f"refused: header.data_hash: the data root of the dah is {root} (OtherRoot)"
        self.refused(["header", found], note, 13)
        self.assertEqual(run("root", found), (13, f"data_hash {EMPTY_ROOT}\ndata_root {root}\n".encode(), ""))
        # A `header` that is null is none; without the key there is nothing to compare.
        self.refused(["header", self.file(dict(whole, header=None))], "bad input: header: it isn't there (Missing)")
        self.assertEqual(self.made("header", self.file({"dah": whole["dah"]})), two)
        self.refused(["root", self.file(whole["dah"])], "bad input: header: it isn't there (Missing)")

    def test_answer(self):
        grid = Examples.grids(self)[1]
        header, shown = self.file(grid.header(), "header"), rows_of(grid.answer(make.name("0102")))
        absent, digest = rows_of(grid.answer(make.name("0103"))), base64_of(bytes(90))
        share = shown[0]["shares"][0]
        cases = [
            (shown, [1], None, "the JSON: 1 rows, and by the header 2 may hold the namespace (BadCount)"),
            (shown, [0], [], "[0]: [] isn't an object (BadType)"),
            (shown, [0, "shares"], {}, "[0].shares: {} isn't a list (BadType)"),
            (shown, [1, "shares", 0], "AAAA", "[1].shares[0]: 3 bytes, and there are to be 512 (BadLength)"),
            (shown, [0, "shares"], [share] * 513, "[0].shares: 513 of them, and a frame has at most 512 (BadCount)"),
            (shown, [0, "shares"], [], "[0]: it has neither shares nor a leaf hash (BadRow)"),
            (shown, [0, "proof"], None, "[0].proof: it isn't there (Missing)"),
            (shown, [0, "proof", "start"], "1", '[0].proof.start: "1" isn\'t a number without a fraction (BadType)'),
            (shown, [0, "proof", "start"], True, "[0].proof.start: true isn't a number without a fraction (BadType)"),
            (shown, [0, "proof", "start"], -1, "[0].proof.start: -1 isn't from 0 to 65535 (BadNumber)"),
            (shown, [0, "proof", "start"], 0, "[0].proof: from 0 to 2, and the row shows 1 (BadCount)"),
            (shown, [0, "proof", "end"], None, "[0].proof.end: it isn't there (Missing)"),
            (shown, [0, "proof", "nodes", 1], "", "[0].proof.nodes[1]: 0 bytes, and there are to be 90 (BadLength)"),
            (shown, [0, "proof", "nodes"], [digest] * 21,
             "[0].proof.nodes: 21 of them, and a frame has at most 20 (BadCount)"),
            (shown, [0, "proof", "leaf_hash"], digest, "[0]: it has both shares and a leaf hash (BadRow)"),
            (shown, [1, "proof", "is_max_namespace_ignored"], None,
             "[1].proof.is_max_namespace_ignored: it isn't true, as it is in Celestia's trees (BadValue)"),
            (shown, [0, "proof", "is_max_namespace_ignored"], False,
             "[0].proof.is_max_namespace_ignored: it isn't true, as it is in Celestia's trees (BadValue)"),
            (absent, [0, "proof", "leaf_hash"], "AAAA",
             "[0].proof.leaf_hash: 3 bytes, and there are to be 90 (BadLength)"),
            (absent, [0, "proof", "end"], 3, "[0].proof: from 1 to 3, and the row shows 1 (BadCount)"),
        ]
        for value, path, put, note in cases:
            name = "0102" if value is shown else "0103"
            with self.subTest(note):
                words = ["answer", make.name(name).hex(), header, self.changed(value, path, put)]
                self.refused(words, f"bad input: {note}")

    def test_square(self):
        grid = Examples.grids(self)[1]
        whole, share = extended_square(grid), base64_of(bytes(512))
        cases = [
            (["data_square"], None, "data_square: it isn't there (Missing)"),
            (["data_square", 1], "AAAA", "data_square[1]: 3 bytes, and there are to be 512 (BadLength)"),
            (["data_square"], [], "data_square: 0 shares, which no square has (BadCount)"),
            (["data_square"], [share] * 15, "data_square: 15 shares, which no square has (BadCount)"),
            (["data_square"], [""] * 4 * 256 * 256, "data_square: width 256, and the code is made up to 128 (Unsupported)"),
        ]
        for path, put, note in cases:
            with self.subTest(note):
                self.refused(["square", self.changed(whole, path, put)], f"bad input: {note}")
        note = "refused: data_square[%d]: the share isn't that of the code (OtherShare)"
        for place, at in ((15, 15), (2, 2), (8, 8), (0, 2)):
            self.refused(["square", self.changed(whole, ["data_square", place], share)], note % at, 13)

    def test_row(self):
        grid = Examples.grids(self)[1]
        left, both, share = half_of(grid, 1, "LEFT"), half_of(grid, 1, "BOTH"), base64_of(bytes(512))
        cases = [
            (left, ["shares"], None, "shares: it isn't there (Missing)"),
            (left, ["side"], None, "side: it isn't there (Missing)"),
            (left, ["side"], 0, "side: 0 isn't a text (BadType)"),
            (left, ["side"], "left", 'side: "left" is none of LEFT, RIGHT, BOTH (BadValue)'),
            (left, ["shares"], [share] * 3, "shares: 3 shares, which no square has (BadCount)"),
            (both, ["shares"], [share], "shares: 1 shares, which no square has (BadCount)"),
            (left, ["shares", 1], share[4:], "shares[1]: 509 bytes, and there are to be 512 (BadLength)"),
        ]
        for value, path, put, note in cases:
            with self.subTest(note):
                self.refused(["row", 1, self.changed(value, path, put)], f"bad input: {note}")
        self.refused(["row", 4, self.file(left)], "bad input: the JSON: row 4, and the square has 4 (BadNumber)")
        note = "refused: shares[3]: the share isn't that of the code (OtherShare)"
        self.refused(["row", 1, self.changed(both, ["shares", 3], share)], note, 13)

    def test_share(self):
        grid = Examples.grids(self)[1]
        value = sample_of(grid.message(1, 2, make.COL))
        cases = [
            (["share"], None, "share: it isn't there (Missing)"),
            (["proof"], None, "proof: it isn't there (Missing)"),
            (["proof_type"], 2, "proof_type: 2 isn't from 0 to 1 (BadNumber)"),
            (["proof_type"], 0, "proof: from 1 to 2, and the cell is at place 2 (BadCount)"),
            (["proof", "end"], 3, "proof: from 1 to 3, and the cell is at place 1 (BadCount)"),
            (["proof", "nodes", 0], "", "proof.nodes[0]: 0 bytes, and there are to be 90 (BadLength)"),
            (["proof", "leaf_hash"], "AAAA", "proof.leaf_hash: 3 bytes, and there are to be 0 (BadLength)"),
            (["proof", "is_max_namespace_ignored"], False,
             "proof.is_max_namespace_ignored: it isn't true, as it is in Celestia's trees (BadValue)"),
        ]
        for path, put, note in cases:
            with self.subTest(note):
                self.refused(["share", self.changed(value, path, put), "1,2"], f"bad input: {note}")
        self.refused(["share", self.file([value] * 2), "1,2"], "bad input: the JSON: 2 shares, and 1 cells (BadCount)")
        self.refused(["share", self.file(value), "1,2,col"], "CELL 0: 'col' isn't a number from 0 to 65535", 1)
        self.refused(["share", self.file(value), "1"], "CELL: it is ROW,COL", 1)

    def test_commitment(self):
        grid = Examples.grids(self)[2]
        path = self.file(grid.commitment(2, 8), "proof")
        value, digest = json.loads(self.made("proof", path)), base64_of(bytes(90))
        rows = "row_proof"
        cases = [
            (["subtree_roots"], None, "subtree_roots: it isn't there (Missing)"),
            (["subtree_roots", 0], digest, "namespace_id: it isn't the least namespace of the first subtree (BadValue)"),
            (["subtree_roots"], [digest], "subtree_roots: 1 of them, and 8 shares are cut into 8 (BadCount)"),
            (["subtree_root_proofs", 0, "end"], 3,
             "subtree_root_proofs[0]: from 2 to 3, which leaves shares between rows out (BadNumber)"),
            (["subtree_root_proofs", 1, "start"], 1,
             "subtree_root_proofs[1]: from 1 to 4, which leaves shares between rows out (BadNumber)"),
            (["subtree_root_proofs", 2, "end"], 5,
             "subtree_root_proofs[2]: from 0 to 5, which leaves shares between rows out (BadNumber)"),
            (["subtree_root_proofs", 2], None, "subtree_root_proofs: 2 of them, and there are 3 rows (BadCount)"),
            (["namespace_version"], 1, "namespace_id: it isn't the least namespace of the first subtree (BadValue)"),
            ([rows, "row_roots", 0], "AAAA", f"{rows}.row_roots[0]: 3 bytes, and there are to be 90 (BadLength)"),
            ([rows, "row_roots", 0], "00" * 90, f"{rows}.proofs[0].leaf_hash: it isn't that of the root (BadValue)"),
            ([rows, "proofs", 1, "total"], 8, f"{rows}.proofs[1].total: 8 roots, and all have 4k of a width k (BadNumber)"),
            ([rows, "proofs", 0, "total"], 12, f"{rows}.proofs[0].total: 12 roots, and all have 4k of a width k (BadNumber)"),
            ([rows, "proofs", 2, "index"], 1, f"{rows}.proofs[2].index: 1, and it is the root of row 2 (BadNumber)"),
            ([rows, "proofs", 2], None, f"{rows}.proofs: 2 of them, and there are 3 roots (BadCount)"),
            ([rows, "end_row"], 3, f"{rows}.end_row: there are 3 roots from row 0 on (BadNumber)"),
        ]
        for path, put, note in cases:
            with self.subTest(note):
                self.refused(["commitment", self.changed(value, path, put)], f"bad input: {note}")
        none = self.file(make.frame("C", make.u16(0) + bytes(42)), "none")
        self.refused(["proof", none], "bad input: COMMITMENT: it has no width, or no subtrees (BadValue)")

    @mock.patch.object(frames, "PAYLOAD_LIMIT", 1000)
    def test_block(self):
        blob, most = json.loads(BLOB), frames.PAYLOAD_LIMIT
        cases = [
            (["namespace"], None, "namespace: it isn't there (Missing)"),
            (["namespace"], "AAAA", "namespace: 3 bytes, and there are to be 29 (BadLength)"),
            (["data"], "?", 'data: "?" isn\'t base64 (BadBase64)'),
            (["data"], base64_of(bytes(most)),
             f"the JSON: {most + 48} bytes of a block, and a frame has at most {most} (TooLong)"),
            (["share_version"], None, "share_version: it isn't there (Missing)"),
            (["share_version"], "1", 'share_version: "1" isn\'t a number without a fraction (BadType)'),
            (["share_version"], 1, "signer: it isn't there (Missing)"),
            (["share_version"], 2, "share_version: 2, and the blobs of a frame have 0 or 1 (Unsupported)"),
            (["share_version"], 128, "share_version: 128 isn't from 0 to 127 (BadNumber)"),
            (["signer"], base64_of(bytes(20)), "signer: 20 bytes, and there are to be 0 (BadLength)"),
            (["signer"], 7, "signer: 7 isn't a text (BadType)"),
            (["commitment"], None, "commitment: it isn't there (Missing)"),
            (["commitment"], "AAAA", "commitment: 3 bytes, and there are to be 32 (BadLength)"),
            (["index"], -2, "index: -2 isn't from -1 to 9223372036854775807 (BadNumber)"),
        ]
        for path, put, note in cases:
            with self.subTest(note):
                self.refused(["block", self.changed(blob, path, put)], f"bad input: {note}")
        self.refused(["block", f'{{"result":[{BLOB},7]}}'], "bad input: result[1]: 7 isn't an object (BadType)")

    @mock.patch.object(frames, "PAYLOAD_LIMIT", 1000)
    def test_transactions(self):
        whole = {"result": {"block": block_of([b"one", b"two"])}}
        block = whole["result"]["block"]
        cases = [
            (whole, ["result", "block", "data"], None, "result.block.data: it isn't there (Missing)"),
            (whole, ["result", "block", "data"], [], "result.block.data: [] isn't an object (BadType)"),
            (whole, ["result", "block", "data", "txs"], {}, "result.block.data.txs: {} isn't a list (BadType)"),
            (whole, ["result", "block", "data", "txs", 1], 7, "result.block.data.txs[1]: 7 isn't a text (BadType)"),
            (whole, ["result", "block", "data", "txs", 1], "?", 'result.block.data.txs[1]: "?" isn\'t base64 (BadBase64)'),
            (block, ["data", "txs", 0], "AA=", 'data.txs[0]: "AA=" isn\'t base64 (BadBase64)'),
            (block, ["data", "txs", 0], base64_of(bytes(986)),
             "data.txs: 1001 bytes of transactions, and a frame has at most 1000 (TooLong)"),
            ([""], [0], base64_of(bytes(993)),
             "the JSON: 1001 bytes of transactions, and a frame has at most 1000 (TooLong)"),
            ([""], [0], [], "[0]: [] isn't a text (BadType)"),
        ]
        for value, path, put, note in cases:
            with self.subTest(note):
                self.refused(["transactions", self.changed(value, path, put)], f"bad input: {note}")
        self.refused(["transactions", '{"error":{"code":-32603}}'],
                     'bad input: error: the node answered {"code": -32603} (NodeError)')
        self.refused(["transactions", '{"result":null}'], "bad input: result: null isn't an object (BadType)")
        self.refused(["transactions", '"AA=="'], "cannot open '\"AA==\"'", 2)

    def test_hash(self):
        whole = {"result": {"block": block_of([])}}
        path = ["result", "block", "header", "data_hash"]
        cases = [
            (path, None, "result.block.header.data_hash: it isn't there (Missing)"),
            (path, 5, "result.block.header.data_hash: 5 isn't a text (BadType)"),
            (path, "0g", 'result.block.header.data_hash: "0g" isn\'t hexadecimal digits (BadHex)'),
            (path, "00", "result.block.header.data_hash: 1 bytes, and there are to be 32 (BadLength)"),
            (path[:-1], None, "result.block.header: it isn't there (Missing)"),
            (path[:-2], None, "result.header: it isn't there (Missing)"),
            (path[:-2], [], "result.block: [] isn't an object (BadType)"),
        ]
        for path, put, note in cases:
            with self.subTest(note):
                self.refused(["hash", self.changed(whole, path, put)], f"bad input: {note}")
        self.refused(["hash", "[]"], "bad input: the JSON: [] isn't an object (BadType)")

    def test_signer(self):
        signed = [blob, _] = [blob_of(make.name(end), b"\7", b"\x11" * 20) for end in ("0101", "0102")]
        self.assertEqual(blob["signer"], "ERERERERERERERERERERERERERE=")
        cases = [
            (["signer"], None, "signer: it isn't there (Missing)"),
            (["signer"], "", "signer: 0 bytes, and there are to be 20 (BadLength)"),
            (["signer"], base64_of(bytes(19)), "signer: 19 bytes, and there are to be 20 (BadLength)"),
            (["signer"], base64_of(bytes(21)), "signer: 21 bytes, and there are to be 20 (BadLength)"),
            (["signer"], "11" * 20, "signer: 30 bytes, and there are to be 20 (BadLength)"),
            (["signer"], "ERER=", 'signer: "ERER=" isn\'t base64 (BadBase64)'),
            (["signer"], [17] * 20, "signer: [17, 17, 17, 17, 17, 17, 17, 17, 17, ... isn't a text (BadType)"),
            (["share_version"], 0, "signer: 20 bytes, and there are to be 0 (BadLength)"),
            (["share_version"], 2, "share_version: 2, and the blobs of a frame have 0 or 1 (Unsupported)"),
        ]
        for path, put, note in cases:
            with self.subTest(note):
                self.refused(["block", self.changed(blob, path, put)], f"bad input: {note}")
                self.refused(["block", self.changed(signed, [1] + path, put)], f"bad input: [1].{note}")
        self.refused(["block", json.dumps(dict(blob, signer=None))], "bad input: signer: it isn't there (Missing)")

    def test_blobs(self):
        block = self.file(make.block([(make.name("0101"), b"\7"), (make.name("0102"), b"\10")]), "block")
        line = "00" * 32 + "\n"
        for lines, note in [
            ("", "COMMITMENTS: 0 lines, and the block has 2 blobs (BadCount)"),
            (line, "COMMITMENTS: 1 lines, and the block has 2 blobs (BadCount)"),
            (line * 3, "COMMITMENTS: 3 lines, and the block has 2 blobs (BadCount)"),
            (line + "00\n", "COMMITMENTS[1]: 1 bytes, and there are to be 32 (BadLength)"),
            ("\n" + line, "COMMITMENTS[0]: 0 bytes, and there are to be 32 (BadLength)"),
            (line + "zz" * 4, 'COMMITMENTS[1]: "zzzzzzzz" isn\'t hexadecimal digits (BadHex)'),
        ]:
            with self.subTest(note):
                self.refused(["blobs", block, self.file(lines.encode())], f"bad input: {note}")
        self.refused(["blobs", self.file(b""), self.file(line.encode(), "lines")], "bad input: file 0 at 0")
        none = os.path.join(self.folder, "none")
        self.refused(["blobs", block, none], f"cannot open {none!r}", 2)

    def test_words(self):
        header = self.file(make.Grid(1, make.extend(1, make.square_of(1, []))).header(), "header")
        name = "NAMESPACE: a namespace has 58 hexadecimal digits, or the last 20 where all others are 0"
        self.refused(["answer", "00", header, "[]"], name, 1)
        self.refused(["answer", "zz", header, "[]"], "NAMESPACE: 'zz' isn't bytes as hexadecimal digits", 1)
        self.refused(["answer", "00" * 10, self.file(b"[]"), "[]"], "bad input: file 0 at 0")
        self.refused(["dah", self.file(b"")], "bad input: file 0 at 0")
        none = os.path.join(self.folder, "none")
        self.refused(["dah", none], f"cannot open {none!r}", 2)
        self.refused(["header", none], f"cannot open {none!r}", 2)
        self.refused(["header", self.folder], f"cannot read {self.folder!r}", 3)
        for words in ([], ["headers", "{}"], ["header"], ["answer", "00", "1"]):
            self.assertEqual(run(*words)[:2], (1, b""))

    def test_streams(self):
        self.loses("header", HEADER)
        self.loses("root", HEADER)
        self.loses("transactions", "[]")
        self.loses("hash", json.dumps(block_of([])))


@unittest.skipUnless(DA, "the environment variable DA names no built da")
class Program(Case):
    """The forms of squares that `da` builds."""

    def da(self, *words):
        done = subprocess.run([DA, *words], stdout=subprocess.PIPE, stderr=subprocess.PIPE, check=False)
        self.assertEqual((done.returncode, done.stderr), (0, b""), words)
        return done.stdout

    def squares(self):
        """Blobs of some sizes, in few namespaces, each other one with a signer, as a block that asks for each width."""
        draw = random.Random(41)
        for k in (1, 2, 4, 8, 16):
            sizes = [draw.randrange(1, 458 * max(k // 2, 1)) for _ in range(max(k // 2, 1))]
            blobs = [(make.name(f"01{draw.randrange(0, 12, 2):02d}"), draw.randbytes(size)) for size in sizes]
            blobs[::2] = [blob + (draw.randbytes(20),) for blob in blobs[::2]]
            yield k, blobs, make.block(blobs, width=k)

    def test_squares(self):
        kinds = set()
        for k, blobs, block in self.squares():
            with self.subTest(k=k):
                square = self.file(self.da("build", self.file(block, "block")), "square")
                header = self.da("header", square)
                self.same_header(header)
                names = {blob[0] for blob in blobs} | {make.name(f"01{i:02d}") for i in (1, 5, 11)}
                for namespace in sorted(names):
                    request = self.file(make.namespace_request(namespace), "request")
                    answer = self.da("namespace", square, request)
                    self.same_answer(header, answer)
                    kinds |= {type(entry) for entry in value_of(answer).entries}
                    rows = self.file(rows_of(answer), "rows")
                    under = self.file(self.made("header", self.file(extended(header), "extended")), "under")
                    read = self.file(self.made("answer", namespace.hex(), under, rows), "read")
                    self.assertEqual(self.da("verify", under, read), b"ok\n")
                # The block of the node's blobs asks for no width: its square is that of such a block.
                self.same_block(blobs)
                in_order = sorted(blobs, key=lambda blob: blob[0])
                self.assertEqual(self.da("blobs", square), make.block(in_order))
                told = self.file([blob_of(*blob) for blob in blobs], "blobs")
                read = self.file(self.made("block", told), "read")
                self.assertEqual(self.da("build", read), self.da("build", self.file(make.block(blobs), "plain")))
        self.assertEqual(kinds, {frames.Range, frames.Absence})


    def test_commitment(self):
        # The commitment of the documentation's blob is the one that stands beside it there.
        block = self.file(self.made("block", os.path.join(TOOLS, "celestia", "blob.json")), "block")
        with open(os.path.join(TOOLS, "celestia", "blob.json"), encoding="utf-8") as file:
            told = base64.b64decode(json.load(file)["commitment"])
        self.assertEqual(self.da("commit", block).decode(), told.hex() + "\n")

    def test_blobs(self):
        # Blobs go to the node with the commitments of `da`: the documentation's blob as it stands there.
        block = self.file(self.made("block", BLOB), "block")
        lines = self.file(self.da("commit", block), "lines")
        self.assertEqual(self.made("blobs", block, lines).decode(), f"[{BLOB}]\n")

    def test_padded(self):
        # A square that `build` doesn't make, and that is taken where a square comes in.
        shares, block, blobs = padded_square()
        square = self.file(make.square(4, shares), "square")
        self.assertNotEqual(self.da("build", self.file(block, "block")), make.square(4, shares))
        self.assertEqual(self.da("blobs", square), blobs)
        header = self.da("header", square)
        self.same_header(header)
        for namespace in (make.name("0101"), make.name("0103"), bytes(28) + b"\xff"):
            answer = self.da("namespace", square, self.file(make.namespace_request(namespace), "request"))
            self.same_answer(header, answer)
            words = ["verify", self.file(header, "header"), self.file(answer, "answer")]
            self.assertEqual(self.da(*words), b"ok\n")


if __name__ == "__main__":
    result = unittest.main(exit=False).result
    failed = len(result.failures) + len(result.errors)
    print(f"{result.testsRun - failed - len(result.skipped)} passed, {failed} failed")
    sys.exit(failed > 0)
