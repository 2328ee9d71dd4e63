#!/usr/bin/env python3
"""Celestia's JSON to frames, and headers, blobs and commitment proofs back. It is not proved, and was tried on no running node.

    celestia.py header JSON                    the header (kind H) of an extended header, or of its `dah` alone
    celestia.py root JSON                      an extended header's data hash, and beside it the data root of its `dah`
    celestia.py answer NAMESPACE HEADER JSON   the namespace answer (kind N) of rows of namespace data
    celestia.py square JSON                    the square (kind S) of an extended square
    celestia.py row ROW JSON                   the samples (kind M) of all cells of a row, by half of it or by both halves
    celestia.py share JSON CELL..              the samples (kind M) of cells ROW,COL
    celestia.py commitment JSON                the commitment proof (kind C) of a proof of a blob's commitment
    celestia.py block JSON                     a block (kind V) of a blob, or of a list of blobs
    celestia.py transactions JSON              the raw transactions (kind T) of a block, or of a list of them
    celestia.py hash JSON                      the data hash of a block
    celestia.py dah HEADER                     the `dah` of a file of one header
    celestia.py proof COMMITMENT               the JSON of a file of one commitment proof
    celestia.py blobs BLOCK COMMITMENTS        the blobs of a file of one block, with the lines of `da commit` of it

Statuses and notes are those of frames.py, and 13 where a data hash isn't the data root, or a share isn't the code's.
Python 3 and its standard library alone. tools/README.md says more.
"""

import argparse
import base64
import functools
import json
import re
import sys

sys.dont_write_bytecode = True
import frames  # noqa: E402

HASH_BYTES = 32
PARITY = b"\xff" * frames.NAMESPACE_BYTES
CODE_WIDTH = 128  # the widest square whose code is over bytes
SIDES = ("LEFT", "RIGHT", "BOTH")


class Value:
    """A value of the JSON, with its path. What isn't in its form is a note with the path and the reason's name."""

    def __init__(self, value, path=""):
        self.value, self.path = value, path

    def bad(self, text, name):
        """The note of a value that isn't in its form."""
        return frames.Note(6, f"bad input: {self.path or 'the JSON'}: {text} ({name})")

    def typed(self, kind, called):
        """The value, of one type of JSON."""
        if type(self.value) is not kind:
            raise self.bad(f"{short(self.value)} isn't {called}", "BadType")
        return self.value

    def member(self, key):
        """The value of a key; null where the key isn't there, since Go leaves out some that are empty."""
        return Value(self.typed(dict, "an object").get(key), f"{self.path}.{key}" if self.path else key)

    def needed(self, key):
        """The value of a key that has to be there."""
        found = self.member(key)
        if found.value is None:
            raise found.bad("it isn't there", "Missing")
        return found

    def items(self, most=None):
        """The values of a list, at most so many; null is an empty one, as Go writes it."""
        found = [] if self.value is None else self.typed(list, "a list")
        if most is not None and len(found) > most:
            raise self.bad(f"{len(found)} of them, and a frame has at most {most}", "BadCount")
        return [Value(item, f"{self.path}[{i}]") for i, item in enumerate(found)]

    def number(self, least, most):
        """A number without a fraction; null is 0, since Go leaves that out."""
        found = 0 if self.value is None else self.typed(int, "a number without a fraction")
        if not least <= found <= most:
            raise self.bad(f"{found} isn't from {least} to {most}", "BadNumber")
        return found

    def bytes(self, size=None):
        """Bytes in base64, of a given number where one is told; null is none, as Go writes it."""
        data = b"" if self.value is None else base64_bytes(self.typed(str, "a text"))
        if data is None:
            raise self.bad(f"{short(self.value)} isn't base64", "BadBase64")
        return self.sized(data, size)

    def digits(self, size):
        """Just so many bytes as hexadecimal digits of either case."""
        text = self.typed(str, "a text")
        if not re.fullmatch("([0-9a-fA-F]{2})*", text):
            raise self.bad(f"{short(text)} isn't hexadecimal digits", "BadHex")
        return self.sized(bytes.fromhex(text), size)

    def sized(self, data, size):
        """These bytes, where there are so many."""
        if size is not None and len(data) != size:
            raise self.bad(f"{len(data)} bytes, and there are to be {size}", "BadLength")
        return data


def short(value):
    """A value as a note shows it."""
    text = json.dumps(value)
    return text if len(text) <= 40 else text[:37] + "..."


def base64_bytes(text):
    """The bytes of a text that is their one spelling in base64 (RFC 4648, 4), or none."""
    try:
        data = base64.b64decode(text, validate=True)
    except ValueError:
        return None
    return data if base64_text(data) == text else None


def base64_text(data):
    """Bytes in base64."""
    return base64.b64encode(data).decode()


def answered(word):
    """The value of a word of JSON, or its `result` where it is a whole response of the node."""
    try:
        value = frames.json_word(word)
    except frames.Note as note:
        if note.status != 1:
            raise
        raise Value(None).bad(note.text.removeprefix("no JSON: "), "NoJson") from None
    if isinstance(value, dict) and value.get("error") is not None:
        raise Value(None, "error").bad(f"the node answered {short(value['error'])}", "NodeError")
    return Value(value["result"], "result") if isinstance(value, dict) and "result" in value else Value(value)


# The code and the trees of squares (docs/RULES.md), of which nodes send what follows from the original shares.


@functools.lru_cache(None)
def byte_field():
    """The labels of 1, x, x^2, .. and the logarithms of labels ("The byte field")."""
    basis = [1, 214, 152, 146, 86, 200, 88, 230]
    element = [0] * 256
    for label in range(256):
        for bit in range(8):
            element[label] ^= basis[bit] if label >> bit & 1 else 0
    label_of, power, powers = {it: label for label, it in enumerate(element)}, 1, []
    for _ in range(255):
        powers.append(label_of[power])
        power = power << 1 ^ (0x11D if power & 0x80 else 0)
    return powers, {label: log for log, label in enumerate(powers)}


@functools.lru_cache(None)
def multiples(log):
    """The product of each label with that of a logarithm."""
    powers, logs = byte_field()
    return bytes(label and powers[(logs[label] + log) % 255] for label in range(256))


def codeword(k, known):
    """The 2k shares of the codeword through k of them, by their places ("The code"), or as many such lines side by side."""
    logs, size = byte_field()[1], len(next(iter(known.values())))
    down = {i: sum(logs[i ^ j] for j in known if j != i) for i in known}
    for place in range(2 * k):
        if place in known:
            yield known[place]
            continue
        up, total = sum(logs[place ^ j] for j in known), 0
        for i, share in known.items():
            total ^= int.from_bytes(share.translate(multiples((up - logs[place ^ i] - down[i]) % 255)), "big")
        yield total.to_bytes(size, "big")


def turned(lines):
    """Columns of shares of rows of them, each side by side."""
    size = frames.SHARE_BYTES
    return [b"".join(line[at : at + size] for line in lines) for at in range(0, len(lines[0]), size)]


def extended(k, shares):
    """The 2k rows of the extension of a square, the shares of each side by side."""
    rows = [b"".join(shares[k * row : k * (row + 1)]) for row in range(k)]
    cols = turned(list(codeword(k, dict(enumerate(rows)))))
    return turned(list(codeword(k, dict(enumerate(cols)))))


def joined(left, right):
    """The digest over two ("Trees"): the greatest namespace passes over that of parity shares."""
    greatest = left[29:58] if right[:29] == PARITY != left[:29] else max(left[29:58], right[29:58])
    return left[:29] + greatest + frames.sha256(b"\1" + left + right)


def row_paths(k, row, shares):
    """The nodes of each cell of a row, from left to right ("Openings")."""
    names = [share[:29] if max(row, col) < k else PARITY for col, share in enumerate(shares)]
    level = [name * 2 + frames.sha256(b"\0" + name + share) for name, share in zip(names, shares)]
    paths, step = [[] for _ in shares], 0
    while len(level) > 1:
        for col, path in enumerate(paths):
            other = col >> step ^ 1
            path.insert(len(path) if other & 1 else 0, level[other])
        level, step = [joined(*pair) for pair in zip(level[::2], level[1::2])], step + 1
    return paths


def plain_root(strings):
    """The root of the plain Merkle tree over strings (RFC 6962, 2.1)."""
    if len(strings) == 1:
        return frames.sha256(b"\0" + strings[0])
    half = 1 << (len(strings) - 1).bit_length() - 1
    return frames.sha256(b"\1" + plain_root(strings[:half]) + plain_root(strings[half:]))


def subtrees_in(count, total):
    """How many subtrees so many shares are cut into, of so many that a blob has ("Subtrees")."""
    width = next(1 << i for i in range(11) if 64 << i >= total or 1 << 2 * i >= total)
    return count // width + bin(count % width).count("1")


# The forms. What is made of each is a value of frames.py, or the payload of a frame.


def header_of(dah):
    """The header of a `dah`."""
    allowed = [2 * k for k in frames.WIDTHS]
    roots = []
    for key in ("row_roots", "column_roots"):
        found = dah.needed(key)
        roots.append([item.bytes(frames.DIGEST_BYTES) for item in found.items()])
        if len(roots[-1]) not in allowed:
            text = f"{len(roots[-1])} roots, and there are to be {', '.join(map(str, allowed[:-1]))} or {allowed[-1]}"
            raise found.bad(text, "BadCount")
    rows, cols = roots
    if len(rows) != len(cols):
        raise dah.bad(f"{len(rows)} row roots, and {len(cols)} column roots", "BadCount")
    return frames.Header(len(rows) // 2, rows, cols)


def dah_of(value):
    """The `dah` of an extended header, or the value itself where it has the roots."""
    return value if value.member("row_roots").value is not None else value.needed("dah")


def block_in(value):
    """The block of an answer of the RPC's `block`, or the value itself."""
    found = value.member("block")
    return value if found.value is None else found


def data_hash(value):
    """The data hash of an extended header, or of a block, with its path."""
    return value.needed("header").needed("data_hash")


def spell_header(header):
    """The payload of a header."""
    return header.k.to_bytes(2, "big") + b"".join(header.rows + header.cols)


def spell_row(row, value):
    """An entry of an answer: the shares of a row with their proof, or the proof that the row has none."""
    shares = [item.bytes(frames.SHARE_BYTES) for item in value.member("shares").items(frames.COUNT_LIMIT)]
    proof = value.needed("proof")
    start, end = proof.member("start").number(0, frames.U16), proof.needed("end").number(0, frames.U16 + 1)
    nodes = [item.bytes(frames.DIGEST_BYTES) for item in proof.member("nodes").items(frames.NODES_LIMIT)]
    absent = proof.member("leaf_hash").value
    ignored = proof.member("is_max_namespace_ignored")
    if ignored.value is not True:
        raise ignored.bad("it isn't true, as it is in Celestia's trees", "BadValue")
    if bool(shares) == bool(absent):
        text = "it has both shares and a leaf hash" if absent else "it has neither shares nor a leaf hash"
        raise value.bad(text, "BadRow")
    if end - start != max(len(shares), 1):
        raise proof.bad(f"from {start} to {end}, and the row shows {max(len(shares), 1)}", "BadCount")
    if absent:
        shown = b"\x01" + start.to_bytes(2, "big") + proof.member("leaf_hash").bytes(frames.DIGEST_BYTES)
    else:
        shown = b"\x00" + start.to_bytes(2, "big") + len(shares).to_bytes(2, "big") + b"".join(shares)
    return row.to_bytes(2, "big") + shown + bytes([len(nodes)]) + b"".join(nodes)


def spell_answer(namespace, header, value):
    """The payload of an answer. The node doesn't say which row each part is of: they are of the rows that by the
    header may hold the namespace, from the first down."""
    rows = [i for i, root in enumerate(header.rows[: header.k]) if root[:29] <= namespace <= root[29:58]]
    found = value.items()
    if len(found) != len(rows):
        raise value.bad(f"{len(found)} rows, and by the header {len(rows)} may hold the namespace", "BadCount")
    entries = [spell_row(row, item) for row, item in zip(rows, found)]
    return namespace + len(entries).to_bytes(2, "big") + b"".join(entries)


def proof_of(value, most):
    """The first place, the place behind the last, and the nodes of a proof of leaves that are shown."""
    start, end = value.member("start").number(0, frames.U16), value.needed("end").number(0, frames.U16 + 1)
    nodes = [item.bytes(frames.DIGEST_BYTES) for item in value.member("nodes").items(most)]
    value.member("leaf_hash").bytes(0)
    ignored = value.member("is_max_namespace_ignored")
    if ignored.value is not True:
        raise ignored.bad("it isn't true, as it is in Celestia's trees", "BadValue")
    return start, end, nodes


def spell_message(row, col, axis, share, nodes):
    """The payload of a sample."""
    return row.to_bytes(2, "big") + col.to_bytes(2, "big") + bytes([axis]) + share + spell_list(nodes, 1)


def spell_list(strings, size):
    """A count, a number of so many bytes, and the strings."""
    return len(strings).to_bytes(size, "big") + b"".join(strings)


def spell_share(value, row, col):
    """The payload of a sample of a cell, by a share with its proof, or without nodes by a share alone."""
    if isinstance(value.value, str):
        return spell_message(row, col, 0, value.bytes(frames.SHARE_BYTES), [])
    axis = value.member("proof_type").number(0, 1)
    start, end, nodes = proof_of(value.needed("proof"), frames.PATH_LIMIT)
    place = (col, row)[axis]
    if (start, end) != (place, place + 1):
        raise value.member("proof").bad(f"from {start} to {end}, and the cell is at place {place}", "BadCount")
    return spell_message(row, col, axis, value.needed("share").bytes(frames.SHARE_BYTES), nodes)


def width_of(value, counts):
    """The width of which a list has so many values, up to that of the code over bytes."""
    count = len(value.items())
    found = [k for k in frames.WIDTHS if counts(k) == count]
    if not found:
        raise value.bad(f"{count} shares, which no square has", "BadCount")
    if found[0] > CODE_WIDTH:
        raise value.bad(f"width {found[0]}, and the code is made up to {CODE_WIDTH}", "Unsupported")
    return found[0]


def shares_of(value):
    return [item.bytes(frames.SHARE_BYTES) for item in value.items()]


def other_share(value, i):
    """The note of a share that isn't the codeword's."""
    return frames.Note(13, f"refused: {value.path}[{i}]: the share isn't that of the code (OtherShare)")


def square_of(value):
    """The width and the shares of the upper left quarter of an extended square, which has to be its extension."""
    listed = value.needed("data_square")
    k = width_of(listed, lambda k: 4 * k * k)
    shares = shares_of(listed)
    quarter = [shares[2 * k * row + col] for row in range(k) for col in range(k)]
    size = frames.SHARE_BYTES
    made = b"".join(extended(k, quarter))
    for i, share in enumerate(shares):
        if made[size * i : size * (i + 1)] != share:
            raise other_share(listed, i)
    return k, quarter


def row_of(value):
    """The width and all shares of a row, by half of it or by both halves."""
    listed, side = value.needed("shares"), value.needed("side")
    if side.typed(str, "a text") not in SIDES:
        raise side.bad(f"{short(side.value)} is none of {', '.join(SIDES)}", "BadValue")
    is_whole, first = side.value == "BOTH", side.value == "RIGHT"
    k = width_of(listed, lambda k: 2 * k if is_whole else k)
    shares = shares_of(listed)
    made = list(codeword(k, {k * first + i: share for i, share in enumerate(shares[:k])}))
    for i, share in enumerate(shares):
        if made[k * first + i] != share:
            raise other_share(listed, i)
    return k, made


def count_of(value, most):
    """A number, or a text of its decimal digits, as Go's forms of other versions have it."""
    if isinstance(value.value, str) and re.fullmatch("0|[1-9][0-9]{0,18}", value.value, re.ASCII):
        return Value(int(value.value), value.path).number(0, most)
    return value.number(0, most)


def root_of(value):
    """A root, in base64 or in hexadecimal digits."""
    is_hex = isinstance(value.value, str) and len(value.value) == 2 * frames.DIGEST_BYTES
    return value.digits(frames.DIGEST_BYTES) if is_hex else value.bytes(frames.DIGEST_BYTES)


def row_proofs_of(value):
    """The width, the first row, and the roots of rows with the hashes that lead from each to the data root."""
    first, roots = count_of(value.member("start_row"), frames.U16), value.needed("row_roots").items(frames.COUNT_LIMIT)
    proofs, rows, k = value.needed("proofs"), [], None
    if not roots or len(proofs.items()) != len(roots):
        raise proofs.bad(f"{len(proofs.items())} of them, and there are {len(roots)} roots", "BadCount")
    if count_of(value.member("end_row"), frames.U16) != first + len(roots) - 1:
        raise value.member("end_row").bad(f"there are {len(roots)} roots from row {first} on", "BadNumber")
    for i, (root, proof) in enumerate(zip(map(root_of, roots), proofs.items())):
        total, index = (count_of(proof.member(key), 2**63 - 1) for key in ("total", "index"))
        if total not in [4 * it for it in frames.WIDTHS] or k not in (None, total // 4):
            raise proof.member("total").bad(f"{total} roots, and all have 4k of a width k", "BadNumber")
        if index != first + i or index >= total // 2:
            raise proof.member("index").bad(f"{index}, and it is the root of row {first + i}", "BadNumber")
        if proof.needed("leaf_hash").bytes(HASH_BYTES) != frames.sha256(b"\0" + root):
            raise proof.member("leaf_hash").bad("it isn't that of the root", "BadValue")
        k = total // 4
        rows.append((root, [item.bytes(HASH_BYTES) for item in proof.member("aunts").items(frames.HASHES_LIMIT)]))
    return k, first, rows


def spell_commitment(value):
    """The payload of a commitment proof. Its commitment is that of the subtree roots."""
    listed, proofs = value.needed("subtree_roots"), value.needed("subtree_root_proofs")
    subtrees = [item.bytes(frames.DIGEST_BYTES) for item in listed.items()]
    k, first, rows = row_proofs_of(value.needed("row_proof"))
    shown = [proof_of(item, frames.NODES_LIMIT) for item in proofs.items()]
    if len(shown) != len(rows):
        raise proofs.bad(f"{len(shown)} of them, and there are {len(rows)} rows", "BadCount")
    for i, (low, high, _) in enumerate(shown):
        if not low < high <= k or i > 0 < low or i + 1 < len(shown) and high < k:
            raise proofs.items()[i].bad(f"from {low} to {high}, which leaves shares between rows out", "BadNumber")
    total = sum(high - low for low, high, _ in shown)
    counts = [subtrees_in(high - low, total) for low, high, _ in shown]
    if sum(counts) != len(subtrees):
        raise listed.bad(f"{len(subtrees)} of them, and {total} shares are cut into {sum(counts)}", "BadCount")
    version = bytes([value.member("namespace_version").number(0, 255)])
    name = value.needed("namespace_id")
    if version + name.bytes(frames.NAMESPACE_BYTES - 1) != subtrees[0][:29]:
        raise name.bad("it isn't the least namespace of the first subtree", "BadValue")
    text, at = b"", 0
    for (root, hashes), (_, _, nodes), count in zip(rows, shown, counts):
        some = spell_list(subtrees[at : at + count], 2)
        text, at = text + root + spell_list(hashes, 1) + some + spell_list(nodes, 1), at + count
    numbers = k.to_bytes(2, "big") + (k * first + shown[0][0]).to_bytes(4, "big") + total.to_bytes(4, "big")
    return numbers + plain_root(subtrees) + len(rows).to_bytes(2, "big") + text


def told_commitment(made):
    """A commitment proof as the node has it."""
    rows, first = [], made.start // made.k if made.k else 0
    for i, row in enumerate(made.rows):
        low = max(made.start, made.k * (first + i)) - made.k * (first + i)
        high = min(made.start + made.count, made.k * (first + i + 1)) - made.k * (first + i)
        rows.append((first + i, low, high, row))
    told = [base64_text(it) for row in made.rows for it in row.subtrees]
    ranges = [{"start": low, "end": high, "nodes": list(map(base64_text, row.nodes)), "leaf_hash": None,
               "is_max_namespace_ignored": True} for _, low, high, row in rows]
    proofs = [{"total": 4 * made.k, "index": index, "leaf_hash": base64_text(frames.sha256(b"\0" + row.root)),
               "aunts": list(map(base64_text, row.up))} for index, _, _, row in rows]
    row_proof = {"row_roots": [row.root.hex().upper() for row in made.rows], "proofs": proofs, "start_row": first,
                 "end_row": first + len(rows) - 1}
    name = made.rows[0].subtrees[0][:29]
    return {"subtree_roots": told, "subtree_root_proofs": ranges, "namespace_id": base64_text(name[1:]),
            "row_proof": row_proof, "namespace_version": name[0]}


def number_word(name, text, most=frames.U16):
    """A number from a word."""
    return frames.whole(frames.decimal(text), name, most)


def signer_of(value):
    """The signer of a blob, exactly where its share version is 1."""
    version = value.needed("share_version")
    if version.number(0, 127) > 1:
        raise version.bad(f"{version.value}, and the blobs of a frame have 0 or 1", "Unsupported")
    if version.value == 1:
        return value.needed("signer").bytes(frames.SIGNER_BYTES)
    value.member("signer").bytes(0)
    return None


def blob_of(value):
    """A blob of a block. Its commitment and its index have to be in their form, and aren't used."""
    signer = signer_of(value)
    value.needed("commitment").bytes(HASH_BYTES)
    value.member("index").number(-1, 2**63 - 1)
    return frames.Blob(value.needed("namespace").bytes(frames.NAMESPACE_BYTES), signer, value.member("data").bytes())


def told_blob(blob, commitment):
    """A blob as the node has it before it stands in a block, which the index -1 says; Go leaves out a signer of none."""
    told = {"namespace": base64_text(blob.namespace), "data": base64_text(blob.data), "share_version": 0}
    told["commitment"] = base64_text(commitment)
    if blob.signer is not None:
        told.update(share_version=1, signer=base64_text(blob.signer))
    return dict(told, index=-1)


def commitments_of(name, count):
    """The commitments of so many blobs, from a file of their lines."""
    lines = frames.read_file(name).decode(errors="replace").splitlines()
    if len(lines) != count:
        raise Value(lines, "COMMITMENTS").bad(f"{len(lines)} lines, and the block has {count} blobs", "BadCount")
    return [Value(line, f"COMMITMENTS[{i}]").digits(HASH_BYTES) for i, line in enumerate(lines)]


def namespace_of(text):
    """A namespace from base64, as the node writes it, or from hexadecimal digits as frames.py takes them."""
    data = base64_bytes(text)
    if data is not None and len(data) == frames.NAMESPACE_BYTES:
        return data
    return frames.namespace_bytes(text.removeprefix("0x"), "NAMESPACE")


def one_of(name, form):
    """The value of a file of one frame."""
    return next(frames.judged(frames.read_file(name), form))[2]


# The commands: each answers the pieces of its output and its status.


def header(args):
    """the header of an extended header, whose data hash has to be its data root, or of a `dah` alone"""
    value = answered(args.json)
    made = header_of(dah_of(value))
    if "header" in value.value:
        told, found = data_hash(value), made.data_root()
        if told.digits(HASH_BYTES) != found:
            raise frames.Note(13, f"refused: {told.path}: the data root of the dah is {found.hex()} (OtherRoot)")
    return [frames.frame(ord("H"), spell_header(made))], 0


def root(args):
    """an extended header's data hash, and the data root of its `dah`"""
    value = answered(args.json)
    told = data_hash(value).digits(HASH_BYTES)
    made = header_of(value.needed("dah")).data_root()
    return [f"data_hash {told.hex()}\n", f"data_root {made.hex()}\n"], 0 if told == made else 13


def answer(args):
    """a namespace answer from the rows of namespace data, under the header of a file"""
    namespace = namespace_of(args.namespace)
    payload = spell_answer(namespace, one_of(args.header, frames.HEADER), answered(args.json))
    return [frames.frame(ord("N"), payload)], 0


def square(args):
    """the square of an extended square, which has to be its extension, as `share.GetEDS` answers it"""
    k, shares = square_of(answered(args.json))
    return [frames.frame(ord("S"), k.to_bytes(2, "big") + b"".join(shares))], 0


def row(args):
    """the samples of all cells of a row along it, by half of it or by both halves, as `share.GetRow` answers it"""
    number = number_word("ROW", args.row)
    value = answered(args.json)
    k, shares = row_of(value)
    if number >= 2 * k:
        raise value.bad(f"row {number}, and the square has {2 * k}", "BadNumber")
    paths = row_paths(k, number, shares)
    samples = (spell_message(number, col, 0, share, path) for col, (share, path) in enumerate(zip(shares, paths)))
    return [frames.frame(ord("M"), payload) for payload in samples], 0


def share(args):
    """the samples of cells, by a share with its proof for each, or without nodes by a share alone"""
    cells = [tuple(number_word(f"CELL {i}", part) for part in word.split(",")) for i, word in enumerate(args.cells)]
    if any(len(cell) != 2 for cell in cells):
        raise frames.Note(1, "CELL: it is ROW,COL")
    value = answered(args.json)
    some = value.items() if isinstance(value.value, list) else [value]
    if len(some) != len(cells):
        raise value.bad(f"{len(some)} shares, and {len(cells)} cells", "BadCount")
    return [frames.frame(ord("M"), spell_share(item, *cell)) for item, cell in zip(some, cells)], 0


def commitment(args):
    """the commitment proof of the node's proof that a blob's commitment is in a block"""
    return [frames.frame(ord("C"), spell_commitment(answered(args.json)))], 0


def proof(args):
    """the node's proof of a file of one commitment proof, which has its form as `da` makes it"""
    made = one_of(args.commitment, frames.Form(0, False, "C"))
    if made.k not in frames.WIDTHS or not made.rows or not made.rows[0].subtrees:
        raise Value(None, "COMMITMENT").bad("it has no width, or no subtrees", "BadValue")
    return [json.dumps(told_commitment(made), separators=(",", ":")) + "\n"], 0


def block(args):
    """a block of a blob, or of a list of blobs"""
    value = answered(args.json)
    blobs = [blob_of(item).spelled() for item in (value.items() if isinstance(value.value, list) else [value])]
    # No width is asked for, and there are no units.
    payload = bytes(10) + len(blobs).to_bytes(4, "big") + b"".join(blobs)
    if len(payload) > frames.PAYLOAD_LIMIT:
        raise value.bad(f"{len(payload)} bytes of a block, and a frame has at most {frames.PAYLOAD_LIMIT}", "TooLong")
    return [frames.frame(ord("V"), payload)], 0


def transactions(args):
    """the raw transactions of a block, as the RPC's `block` answers it, or of a list of them"""
    value = answered(args.json)
    listed = value if isinstance(value.value, list) else block_in(value).needed("data").member("txs")
    payload = frames.spell_strings([item.bytes() for item in listed.items()])
    if len(payload) > frames.PAYLOAD_LIMIT:
        text = f"{len(payload)} bytes of transactions, and a frame has at most {frames.PAYLOAD_LIMIT}"
        raise listed.bad(text, "TooLong")
    return [frames.frame(ord("T"), payload)], 0


def hash_(args):
    """the data hash of a block, as the RPC's `block` answers it"""
    return [data_hash(block_in(answered(args.json))).digits(HASH_BYTES).hex() + "\n"], 0


def dah(args):
    """the `dah` of a file of one header"""
    made = one_of(args.header, frames.HEADER)
    roots = {"row_roots": list(map(base64_text, made.rows)), "column_roots": list(map(base64_text, made.cols))}
    return [json.dumps(roots, separators=(",", ":")) + "\n"], 0


def blobs(args):
    """the blobs of a block, with their commitments"""
    some = one_of(args.block, frames.BLOCK).blobs
    told = map(told_blob, some, commitments_of(args.commitments, len(some)))
    return [json.dumps(list(told), separators=(",", ":")) + "\n"], 0


def parser():
    """The words of each command."""
    form = argparse.RawDescriptionHelpFormatter
    top = frames.Parser(prog="celestia.py", description=__doc__, formatter_class=form)
    commands = top.add_subparsers(metavar="COMMAND", required=True, dest="command")
    words = {header: "json", root: "json", answer: "namespace header json", square: "json", row: "row json",
             share: "json cells..", commitment: "json", block: "json", transactions: "json", hash_: "json", dah: "header",
             proof: "commitment", blobs: "block commitments"}
    for run, names in words.items():
        command = commands.add_parser(run.__name__.rstrip("_"), description=run.__doc__, help=run.__doc__)
        command.set_defaults(run=run)
        for name in names.split():
            more = {"nargs": "+", "metavar": "CELL"} if name.endswith("..") else {"metavar": name.upper()}
            command.add_argument(name.removesuffix(".."), **more)
        command.add_argument("-o", dest="output", metavar="FILE", help="where to write, else standard output")
    return top


def main(words, out, err):
    """Runs the command of the words as frames.py runs its own; answers its status."""
    frames.parser = parser
    return frames.main(words, out, err)


if __name__ == "__main__":
    frames.end(main)
