#!/usr/bin/env python3
"""A second reader and maker of Celestia's own messages, written from docs/RULES.md alone. It is not proved.

    wire.py import FORM FILE WORD..   the frames that `da import` writes
    wire.py export FORM FILE WORD..   the message that `da export` writes
    wire.py why FORM FILE WORD..      why a message is `bad input`: the place, and what is wrong there
    wire.py                           compares with the rows of `import` and `export`; the last line is 'N passed, M failed'

FORM and WORD.. are those of docs/COMMANDS.md, statuses and notes those of `da`. The half of a row is extended by
examples/make.py, up to width 128. Python 3 and its standard library alone.
"""

import io
import os
import re
import sys
from hashlib import sha256

sys.dont_write_bytecode = True
import frames  # noqa: E402
import lists  # noqa: E402

make = lists.make
GREATEST_WIDTH = frames.WIDTHS[-1]
MOST_SHARES = GREATEST_WIDTH**2
U16, U64 = frames.U16, 2**64 - 1
ROW, COL = 0, 1


class Wrong(Exception):
    """A message that isn't taken: the offset of the first field that is wrong, and what is wrong."""

    def __init__(self, at, text):
        super().__init__(text)
        self.at, self.text = at, text


class NoForm(frames.Note):
    """A frame that has no such message, or a message that has no such frame, and why."""

    def __init__(self, why):
        super().__init__(9, "bad request: form")
        self.why = why


# Messages, read.


class Part:
    """The bytes of a message from one place in a file to another. Its fields are taken off the front by ascending number."""

    def __init__(self, data, at=0, end=None):
        self.data, self.at, self.end = data, at, len(data) if end is None else end

    def copy(self):
        return Part(self.data, self.at, self.end)

    def begins(self, tag):
        """Whether this tag, of one byte, is in front."""
        return self.at < self.end and self.data[self.at] == tag

    def varint(self, at, what):
        """The shortest varint behind the tag in front, or in front where `at` says so, and where it ends."""
        value = 0
        for i, byte in enumerate(self.data[at : min(self.end, at + 10)]):
            value |= (byte & 127) << 7 * i
            if byte < 128:
                if i and not byte or value > U64:
                    break
                return value, at + i + 1
        raise Wrong(self.at, f"no shortest varint for {what}")

    def number(self, n, what, allowed=None):
        """A number that may be there, one of those that are allowed; 0 where it isn't."""
        if not self.begins(8 * n):
            return 0
        value, end = self.varint(self.at + 1, what)
        if value == 0:
            raise Wrong(self.at, f"{what} is spelled, and is 0")
        if allowed is not None and value not in allowed:
            raise Wrong(self.at, f"{what} is {value}")
        self.at = end
        return value

    def measured(self, at, what):
        """A part behind its length, which stands at a place."""
        size, at = self.varint(at, what)
        if size > self.end - at:
            raise Wrong(self.at, f"{what} takes {size} bytes, left are {self.end - at}")
        self.at = at + size
        return Part(self.data, at, self.at)

    def part(self, n, what):
        """A message that may be there; none where it isn't."""
        return self.measured(self.at + 1, what) if self.begins(8 * n + 2) else None

    def string(self, n, size, what):
        """So many bytes, which may be there; none where they aren't."""
        tag = self.at
        part = self.part(n, what)
        if part is not None and len(part.rest()) != size:
            raise Wrong(tag, f"{what} has {len(part.rest())} bytes, and not {size}")
        return part and part.rest()

    def strings(self, n, size, what, most):
        """Strings of so many bytes, at most so many of them."""
        found = []
        while self.begins(8 * n + 2) and len(found) < most:
            found.append(self.string(n, size, f"{what} {len(found)}"))
        return found

    def rest(self):
        return self.data[self.at : self.end]

    def close(self, what, **needed):
        """Nothing is left, and each of these is there."""
        if self.at < self.end:
            raise Wrong(self.at, f"no field that may come here in {what}")
        for name, is_there in needed.items():
            if not is_there:
                raise Wrong(self.at, f"{what} ends, and lacks: {name.replace('_', ' ')}")


def read_share(part, what="the share"):
    """The share that a message Share is."""
    share = part.string(1, frames.SHARE_BYTES, what)
    part.close(f"the message of {what}", the_share=share is not None)
    return share


def read_shares(part):
    """Shares, each a message in a field 1, at most as many as a row of the widest square has."""
    shares = []
    while part.begins(10) and len(shares) < GREATEST_WIDTH:
        shares.append(read_share(part.part(1, f"share {len(shares)}"), f"share {len(shares)}"))
    return shares


def read_single(proof, wanted, flags):
    """The nodes and the flag of a proof of one leaf: that at the place that is wanted, if it is known. The flags are those
    that it may have."""
    start = proof.number(1, "the first place", None if wanted is None else (wanted,))
    place = start if wanted is None else wanted
    stop = proof.number(2, "the place behind the last", (place + 1,))
    nodes = proof.strings(3, frames.DIGEST_BYTES, "node", frames.PATH_LIMIT)
    flag = proof.number(5, "the flag", (1,) if 1 in flags else ())
    proof.close("the proof", its_first_place=start == place, the_place_behind=stop == place + 1, the_flag=flag in flags)
    return nodes, flag


def axis_behind(part):
    """The axis in a field 3 that follows, none where it can't be read."""
    try:
        return part.copy().number(3, "the axis", (1,))
    except Wrong:
        return None


def place_on(cell, axis):
    """The place of a cell on its row or its column, where both are known."""
    return None if cell is None or axis is None else cell[1 - axis]


def read_sample(part, row, col):
    """The sample of a cell."""
    share, proof = part.part(1, "the share"), None
    share = share and read_share(share)
    proof = part.part(2, "the proof")
    nodes = proof and read_single(proof, place_on((row, col), axis_behind(part)), (1,))[0]
    axis = part.number(3, "the axis", (1,))
    part.close("the sample", its_share=share is not None, its_proof=proof is not None)
    return frames.Message(row, col, frames.AXES[axis], share, nodes)


def read_header(part):
    """A header."""
    rows = part.strings(1, frames.DIGEST_BYTES, "row root", 2 * GREATEST_WIDTH)
    cols = part.strings(2, frames.DIGEST_BYTES, "column root", len(rows))
    is_width = len(rows) in [2 * k for k in frames.WIDTHS]
    part.close("the message of roots", row_roots_of_a_width=is_width, a_column_root_for_each=len(rows) == len(cols))
    return frames.Header(len(rows) // 2, rows, cols)


def lenient(part):
    """The fields of a message, by the lenient reading: the place, the number, and the part of each of bytes, none of others."""
    data = part.data[: part.end]
    while part.at < part.end:
        at = part.at
        found = lists.field(data, at, lists.RULES)
        if found is None:
            raise Wrong(at, "no field")
        number, wire, value, part.at = found
        yield at, number, Part(part.data, part.at - len(value), part.at) if wire == 2 else None


def read_data_hash(part):
    """The data hash of the header in an extended header."""
    found = None
    for at, number, value in lenient(part):
        if number == 7:
            if found is not None or value is None or len(value.rest()) != frames.HASH_BYTES:
                raise Wrong(at, "a second data hash, or none of 32 bytes")
            found = value.rest()
    part.close("the header", its_data_hash=found is not None)
    return found


def read_extended(part):
    """The header of an extended header, whose data hash has to be its data root."""
    readers = {1: read_data_hash, 2: Part.rest, 3: Part.rest, 4: read_header}
    parts = {}
    for at, number, value in lenient(part):
        if number in readers:
            if number in parts or value is None:
                raise Wrong(at, f"a second field {number}, or one that is no message")
            parts[number] = readers[number](value)
    part.close("the extended header", its_header=1 in parts, its_roots=4 in parts)
    if parts[1] != parts[4].data_root():
        raise frames.Note(13, "refused")
    return parts[4]


def read_entry(part, row):
    """What is found in a row: a range of shares, or an absence."""
    shares = read_shares(part)
    proof = part.part(2, "the proof")
    if proof is not None:
        start = proof.number(1, "the first place", range(U16 + 1))
        behind = start + max(1, len(shares))
        stop = proof.number(2, "the place behind the last", (behind,))
        nodes = proof.strings(3, frames.DIGEST_BYTES, "node", frames.NODES_LIMIT)
        leaves = proof.strings(4, frames.DIGEST_BYTES, "leaf hash", 0 if shares else 1)
        flag = proof.number(5, "the flag", (1,))
        is_told = bool(shares) != bool(leaves)
        proof.close("the proof", the_place_behind=stop == behind, a_leaf_hash_or_shares=is_told, the_flag=flag == 1)
    part.close("the message", its_proof=proof is not None)
    return frames.Range(row, start, shares, nodes) if shares else frames.Absence(row, start, leaves[0], nodes)


def read_stream(part, header, namespace):
    """What is found in each row that by the header may hold a namespace."""
    entries = []
    for row, root in enumerate(header.rows[: header.k]):
        if root[:29] <= namespace <= root[29:58]:
            entries.append(read_entry(part.measured(part.at, f"the message of row {row}"), row))
    part.close("the stream")
    return frames.Answer(namespace, entries)


def read_square(part):
    """An original square."""
    data, size = part.rest(), frames.SHARE_BYTES
    if len(data) > size * MOST_SHARES:
        raise Wrong(size * MOST_SHARES, "a share too many")
    if len(data) % size:
        raise Wrong(len(data) // size * size, f"{len(data) % size} bytes of a share")
    for k in frames.WIDTHS:
        if len(data) == k * k * size:
            return frames.Square(k, [data[at : at + size] for at in range(0, len(data), size)])
    raise Wrong(len(data), f"{len(data) // size} shares are those of no square")


def read_half(part):
    """Half of a row: whether it is the right one, and its shares."""
    shares = read_shares(part)
    is_right = part.number(2, "the side", (1,))
    part.close("the row", shares_of_a_width=len(shares) in frames.WIDTHS)
    return is_right, shares


def number_at(part, size, what):
    """A big-endian number of so many bytes."""
    if part.end - part.at < size:
        raise Wrong(part.at, f"{what} takes {size} bytes, left are {part.end - part.at}")
    part.at += size
    return int.from_bytes(part.data[part.at - size : part.at], "big")


def read_height(part, height):
    """The height of an identifier, which is told."""
    at = part.at
    if number_at(part, 8, "the height") != height:
        raise Wrong(at, "the height is another")


def read_sample_id(part, height):
    """The request for the sample that an identifier names."""
    read_height(part, height)
    row, col = number_at(part, 2, "the row"), number_at(part, 2, "the column")
    part.close("the identifier")
    return frames.Sample(row, col, "row")


def read_namespace_id(part, height):
    """The request for the namespace that an identifier names."""
    read_height(part, height)
    namespace = number_at(part, frames.NAMESPACE_BYTES, "the namespace")
    part.close("the identifier")
    return frames.Request(namespace.to_bytes(frames.NAMESPACE_BYTES, "big"))


# Bad encoding proofs.


def accused_behind(part, count):
    """The index and the axis that the fields behind so many places accuse, to the message's end."""
    index = part.number(4, "the index", range(count))
    axis = part.number(5, "the axis", (1,))
    part.close("the bad encoding proof")
    return index, axis


def outlook(part):
    """How many of the places may have a share, and what is accused, none where that can't be read: known before they are read."""
    part, count = part.copy(), 0
    try:
        while part.begins(26) and count < 2 * GREATEST_WIDTH:
            part.part(3, f"place {count}")
            count += 1
    except Wrong:
        return GREATEST_WIDTH, None
    try:
        return count // 2, accused_behind(part, count)
    except Wrong:
        return count // 2, None


def read_place(part, cell, flags):
    """The share of a place with its axis, its nodes and the flag of its proof."""
    share = part.string(1, frames.SHARE_BYTES, "the share")
    proof = part.part(2, "the proof")
    found = proof and read_single(proof, place_on(cell, axis_behind(part)), flags)
    axis = part.number(3, "the axis", (1,))
    part.close("the place", its_share=share is not None, its_proof=proof is not None)
    return share, axis, *found


def read_claim(part, hash_, height):
    """A claim, which is of the header of this hash and height."""
    tag, told = part.at, part.string(1, frames.HASH_BYTES, "the hash")
    if told not in (None, hash_):
        raise Wrong(tag, "the hash is another")
    number = part.number(2, "the height", (height,))
    most, accused = outlook(part)
    places, flags = [], (0, 1)
    while part.begins(26) and len(places) < 2 * GREATEST_WIDTH:
        tag, place = part.at, len(places)
        inside = part.part(3, f"place {place}")
        if inside.at < inside.end:
            if sum(map(bool, places)) >= most:
                raise Wrong(tag, "a share more than half of the places")
            cell = accused and ((accused[0], place) if accused[1] == ROW else (place, accused[0]))
            places.append(read_place(inside, cell, flags))
            flags = places[-1][3:]
        else:
            places.append(None)
    index, axis = accused_behind(part, len(places))
    is_half = len(places) in [2 * k for k in frames.WIDTHS] and 2 * sum(map(bool, places)) == len(places)
    is_told = told is not None and number == height
    part.close("the bad encoding proof", hash_and_height=is_told, shares_at_half_of_2k_places=is_half)
    cells = [cell_at(axis, index, place, found) for place, found in enumerate(places) if found]
    return frames.Claim(frames.AXES[axis], index, cells, None)


def cell_at(axis, index, place, found):
    """The sample at a place of the accused axis."""
    row, col = (index, place) if axis == ROW else (place, index)
    return frames.Message(row, col, frames.AXES[found[1]], found[0], found[2])


# Proofs of shares.


def leaf_hash(root):
    return sha256(b"\x00" + root).digest()


def namespace_of(k, message):
    """The namespace of a sample's cell: what its share begins with, and PARITY outside the original square."""
    return message.share[:29] if max(message.row, message.col) < k else make.PARITY


def fits(told, k, row=None):
    """Whether the square of width k has the column of what is told, a cell's column and whether the id that is shown is that of the
    share's own namespace and of PARITY; and whether a leaf there has the id: in the row, if it is known, else in some row."""
    if told is None:
        return True
    col, is_own, is_parity = told
    if row is None:
        return col < k or col < 2 * k and is_parity
    return is_own if max(row, col) < k else is_parity


def read_root_path(part, root, told):
    """The width, the row and the hashes of the proof of a row's root."""
    widths = {4 * k: k for k in frames.WIDTHS if fits(told, k)}
    k = widths.get(part.number(1, "the number of leaves", widths))
    row = part.number(2, "the row", k and [row for row in range(2 * k) if fits(told, k, row)])
    tag, leaf = part.at, part.string(3, frames.HASH_BYTES, "the leaf hash")
    if None not in (leaf, root) and leaf != leaf_hash(root):
        raise Wrong(tag, "the leaf hash isn't that of the root")
    up = part.strings(4, frames.HASH_BYTES, "hash", frames.HASHES_LIMIT)
    is_row = k is not None and fits(told, k, row)
    part.close("the proof of the root", the_number_of_leaves=k is not None, its_row=is_row, the_leaf_hash=leaf is not None)
    return k, row, up


def read_row_proof(part, told):
    """The root, the width, the row and the hashes of the proof of a row."""
    root = part.string(1, frames.DIGEST_BYTES, "the root")
    path = part.part(2, "the proof of the root")
    found = path and read_root_path(path, root, told)
    allowed = found and found[1:2]
    rows = [part.number(n, what, allowed) for n, what in ((4, "the first row"), (5, "the last row"))]
    are_both = found is not None and rows == [found[1]] * 2
    part.close("the proof of the row", its_root=root is not None, the_proof_of_the_root=found is not None, both_rows=are_both)
    return root, *found


def read_share_path(part):
    """The column and the nodes of the proof of a share."""
    col = part.number(1, "the first place", range(2 * GREATEST_WIDTH))
    stop = part.number(2, "the place behind the last", (col + 1,))
    nodes = part.strings(3, frames.DIGEST_BYTES, "node", frames.PATH_LIMIT)
    part.close("the proof of the share", the_place_behind=stop == col + 1)
    return col, nodes


def read_id(part, share):
    """Whether the id of a namespace is that of the share's own, where this is known, and whether it is PARITY's."""
    tag, name = part.at, part.string(3, frames.NAMESPACE_BYTES - 1, "the id of the namespace")
    if name is None:
        return None
    found = share is None or name == share[1:29], name == make.PARITY[1:]
    if not any(found):
        raise Wrong(tag, "the id isn't that of the share's namespace, nor PARITY's")
    return found


def read_share_proof(part):
    """The share of a proof with the path to its row's root, and the path from there to the data root."""
    share = part.string(1, frames.SHARE_BYTES, "the share")
    path = part.part(2, "the proof of the share")
    path = path and read_share_path(path)
    name = read_id(part, share)
    is_told = None not in (share, path, name)
    row_proof = part.part(4, "the proof of the row")
    found = row_proof and read_row_proof(row_proof, (path[0], *name) if is_told else None)
    made = None
    if is_told and found:
        root, k, row, up = found
        made = frames.Rooted(k, frames.Message(row, path[0], "row", share, path[1]), root, up)
    version = part.number(5, "the version of the namespace", made and list(namespace_of(k, made.message)[:1]))
    is_named = made is not None and version == namespace_of(k, made.message)[0]
    part.close("the proof", all_fields_of_it=made is not None, the_version_of_the_namespace=is_named)
    return made


# Frames, spelled.


def digests(some):
    return bytes([len(some)]) + b"".join(some)


def spell_cell(message):
    """The payload of a sample."""
    axis = bytes([frames.AXES.index(message.axis)])
    return make.u16(message.row) + make.u16(message.col) + axis + message.share + digests(message.nodes)


def spell_entry(entry):
    """An entry of an answer."""
    if isinstance(entry, frames.Absence):
        return make.u16(entry.row) + b"\x01" + make.u16(entry.pos) + entry.digest + digests(entry.nodes)
    front = make.u16(entry.row) + b"\x00" + make.u16(entry.start) + make.u16(len(entry.shares))
    return front + b"".join(entry.shares) + digests(entry.nodes)


def payload(value):
    """The payload of a value."""
    if isinstance(value, frames.Header):
        return make.u16(value.k) + b"".join(value.rows + value.cols)
    if isinstance(value, frames.Square):
        return make.u16(value.k) + b"".join(value.shares)
    if isinstance(value, frames.Answer):
        return value.namespace + make.u16(len(value.entries)) + b"".join(map(spell_entry, value.entries))
    if isinstance(value, frames.Claim):
        front = b"\x01" + bytes([frames.AXES.index(value.axis)]) + make.u16(value.index) + make.u16(len(value.cells))
        return front + b"".join(map(spell_cell, value.cells))
    if isinstance(value, frames.Sample):
        return make.u16(value.row) + make.u16(value.col) + bytes([frames.AXES.index(value.axis)])
    if isinstance(value, frames.Request):
        return value.namespace
    if isinstance(value, frames.Rooted):
        return make.u16(value.k) + spell_cell(value.message) + value.root + digests(value.up)
    return spell_cell(value)


def frame(value):
    return frames.frame(ord(value.letter), payload(value))


# Messages, spelled.


def number(n, value):
    """The field of a number: none for 0."""
    return lists.shortest(8 * n) + lists.shortest(value) if value else b""


def parts(n, some):
    """A field for each of these strings, also for one of no bytes."""
    return b"".join(lists.spelled_field(n, data) for data in some)


def proof_text(start, count, nodes, leaves=(), flag=1):
    """The message Proof of so many leaves from a place on."""
    return number(1, start) + number(2, start + count) + parts(3, nodes) + parts(4, leaves) + number(5, flag)


def share_texts(shares):
    """The messages Share in fields 1."""
    return parts(1, [parts(1, [share]) for share in shares])


def place_of(message):
    """The place of a sample on its axis, and the number of this."""
    axis = frames.AXES.index(message.axis)
    return place_on((message.row, message.col), axis), axis


def header_text(header):
    return parts(1, header.rows) + parts(2, header.cols)


def sample_text(message):
    place, axis = place_of(message)
    return share_texts([message.share]) + parts(2, [proof_text(place, 1, message.nodes)]) + number(3, axis)


def entry_text(entry):
    """The message of what is found in a row."""
    if isinstance(entry, frames.Absence):
        return parts(2, [proof_text(entry.pos, 1, entry.nodes, [entry.digest])])
    if not entry.shares:
        raise NoForm("a range has no share")
    return share_texts(entry.shares) + parts(2, [proof_text(entry.start, len(entry.shares), entry.nodes)])


def row_data_text(answer):
    if len(answer.entries) != 1:
        raise NoForm(f"{len(answer.entries)} entries, and the message is of one row")
    return entry_text(answer.entries[0])


def stream_text(answer):
    """The messages of all entries, each behind its length."""
    texts = [entry_text(entry) for entry in answer.entries]
    return b"".join(lists.shortest(len(text)) + text for text in texts)


def claim_text(claim, k, hash_, height, flag=1):
    """The bad encoding proof of a claim of k cells in their order, under the header of this hash and height."""
    if claim.set is not None:
        raise NoForm("the claim has a set")
    axis, texts, last = frames.AXES.index(claim.axis), [b""] * (2 * k), -1
    for cell in claim.cells:
        index, place = (cell.row, cell.col) if axis == ROW else (cell.col, cell.row)
        if index != claim.index or not last < place < 2 * k:
            raise NoForm(f"cell {cell.row} {cell.col} is no next one of the axis")
        start, along = place_of(cell)
        texts[place] = parts(1, [cell.share]) + parts(2, [proof_text(start, 1, cell.nodes, (), flag)]) + number(3, along)
        last = place
    if len(claim.cells) != k or claim.index >= 2 * k:
        raise NoForm(f"{len(claim.cells)} cells of axis {claim.index}, and the width is {k}")
    front = parts(1, [hash_]) + number(2, height)
    return front + parts(3, texts) + number(4, claim.index) + number(5, axis)


def half_text(samples):
    """The left half of the row whose samples these are."""
    if len(samples) not in [2 * k for k in frames.WIDTHS]:
        raise NoForm(f"{len(samples)} samples, and a row has 2k")
    for col, sample in enumerate(samples):
        if (sample.row, sample.col, sample.axis) != (samples[0].row, col, "row"):
            raise NoForm(f"sample {col} is of cell {sample.row} {sample.col} along its {sample.axis}")
    return share_texts([sample.share for sample in samples[: len(samples) // 2]])


def share_proof_text(rooted):
    """The proof of one share along its row."""
    k, message = rooted.k, rooted.message
    if k not in frames.WIDTHS or message.axis != "row" or max(message.row, message.col) >= 2 * k:
        raise NoForm("it is no proof along a row of a square")
    name = namespace_of(k, message)
    path = number(1, 4 * k) + number(2, message.row) + parts(3, [leaf_hash(rooted.root)]) + parts(4, rooted.up)
    row_proof = parts(1, [rooted.root]) + parts(2, [path]) + number(4, message.row) + number(5, message.row)
    proof = number(1, message.col) + number(2, message.col + 1) + parts(3, message.nodes)
    front = parts(1, [message.share]) + parts(2, [proof]) + parts(3, [name[1:]])
    return front + parts(4, [row_proof]) + number(5, name[0])


# The forms: each reads a file, and spells a frame.


def half_frames(part, row):
    """The samples of the cells of a row along it, of which a half is told."""
    is_right, shares = read_half(part)
    k = len(shares)
    if row >= 2 * k:
        raise NoForm(f"row {row}, and the square has {2 * k}")
    if k > 128:
        raise frames.Note(1, f"a row of {k} shares, and the code is of up to 128 here")
    line = make.codeword(k, {i + k * is_right: share for i, share in enumerate(shares)})
    names = [share[:29] if max(row, col) < k else make.PARITY for col, share in enumerate(line)]
    if names != sorted(names):
        raise frames.Note(9, "bad request: no header")
    leaves = list(map(make.leaf, names, line))
    return [frames.Message(row, col, "row", share, make.nodes(leaves, [col])) for col, share in enumerate(line)]


def named_answer(part, row, namespace):
    """The answer of one row."""
    return frames.Answer(namespace, [read_entry(part, row)])


def id_text(height, *numbers):
    """An identifier of numbers of two bytes."""
    return height.to_bytes(8, "big") + b"".join(map(make.u16, numbers))


# What reads each form of `import`, the words behind FILE, and what makes it of a value for `export`, with the kind of the
# frame and the words behind FILE.
IMPORTS = {
    "dah": (read_header, ""),
    "header": (read_extended, ""),
    "sample": (read_sample, "row col"),
    "row-data": (named_answer, "row namespace"),
    "namespace-data": (read_stream, "header namespace"),
    "befp": (read_claim, "hash height"),
    "ods": (read_square, ""),
    "row": (half_frames, "row"),
    "share-proof": (read_share_proof, ""),
    "sample-id": (read_sample_id, "height"),
    "namespace-id": (read_namespace_id, "height"),
}
EXPORTS = {
    "dah": (header_text, "H", ""),
    "sample": (sample_text, "M", ""),
    "row-data": (row_data_text, "N", ""),
    "namespace-data": (stream_text, "N", ""),
    "befp": (claim_text, "B", "width hash height"),
    "ods": (lambda square: b"".join(square.shares), "S", ""),
    "row": (half_text, "M", ""),
    "share-proof": (share_proof_text, "R", ""),
    "sample-id": (lambda asked, height: id_text(height, asked.row, asked.col), "Q", "height"),
    "namespace-id": (lambda asked, height: id_text(height) + asked.namespace, "P", "height"),
}


def word_of(name, text):
    """The value of a word."""
    if name == "header":
        return text
    if name in ("namespace", "hash"):
        size = {"namespace": frames.NAMESPACE_BYTES, "hash": frames.HASH_BYTES}[name]
        if re.fullmatch("([0-9a-fA-F]{2}){%d}" % size, text, re.ASCII):
            return bytes.fromhex(text)
    elif re.fullmatch("0|[1-9][0-9]{0,19}", text, re.ASCII):
        allowed = {"height": range(1, U64 + 1), "width": frames.WIDTHS}.get(name, range(U16 + 1))
        if int(text) in allowed:
            return int(text)
    raise frames.Note(1, f"{name.upper()}: {text!r} is none")


def words_of(form, names, words):
    """The values of the words behind FILE."""
    names = names.split()
    if len(names) != len(words):
        raise frames.Note(1, f"{form} takes FILE {' '.join(names).upper()}")
    return [word_of(name, text) for name, text in zip(names, words)]


def known(table, form):
    if form not in table:
        raise frames.Note(1, f"FORM is one of {', '.join(table)}, and not {form!r}")
    return table[form]


def taken(form, file, words):
    """What a file is read as."""
    read, names = known(IMPORTS, form)
    values = words_of(form, names, words)
    data = frames.read_file(file, 0)
    if form == "namespace-data":
        found = frames.read_file(values[0], 1)
        values[0] = next(frames.judged(found, frames.HEADER, 1))[2]
    return read(Part(data), *values)


def import_(args):
    """writes the frames of a message"""
    try:
        found = taken(args.form, args.file, args.words)
    except Wrong as wrong:
        raise frames.Note(6, f"bad input: file 0 at {wrong.at}") from None
    return map(frame, found if args.form == "row" else [found]), 0


def export(args):
    """writes the message of a frame, or of the frames of a row"""
    text, kind, names = known(EXPORTS, args.form)
    values = words_of(args.form, names, args.words)
    form = frames.Form(0, args.form == "row", kind)
    found = [value for _, _, value in frames.judged(frames.read_file(args.file, 0), form)]
    return [text(found if args.form == "row" else found[0], *values)], 0


def why(args):
    """says why a message is `bad input`, or why it has no frame"""
    try:
        taken(args.form, args.file, args.words)
    except Wrong as wrong:
        return [f"{args.file}: file 0 at {wrong.at}: {wrong.text}\n"], 6
    except NoForm as note:
        return [f"{args.file}: {note.why}\n"], 9
    return ["ok\n"], 0


def parser():
    """The words of each command."""
    form = frames.argparse.RawDescriptionHelpFormatter
    top = frames.Parser(prog="wire.py", description=__doc__, formatter_class=form)
    commands = top.add_subparsers(metavar="COMMAND", required=True, dest="command")
    for run in (import_, export, why):
        command = commands.add_parser(run.__name__.rstrip("_"), description=run.__doc__, help=run.__doc__)
        command.set_defaults(run=run)
        for name in ("form", "file"):
            command.add_argument(name, metavar=name.upper())
        command.add_argument("words", nargs="*", metavar="WORD")
        if run is not why:
            command.add_argument("-o", dest="output", metavar="FILE", help="where to write, else standard output")
    return top


def rows(out):
    """Runs the rows of `import` and `export` but those that are made, and those whose words are none."""
    passed, failed = 0, []
    for command in ("import", "export"):
        home = os.path.join(lists.TOP, "rows", command)
        for name in sorted(os.listdir(home)):
            os.chdir(os.path.join(home, name))
            words, *want, judges = lists.row_of(".")
            if want[0] == 1 or os.path.exists("make"):
                continue
            output, note = io.BytesIO(), io.StringIO()
            got = [frames.main(words, output, note), note.getvalue().removesuffix("\n")]
            if got != want or not lists.is_right(".", output.getvalue(), judges):
                failed.append(f"FAILED {command}/{name}: status and note {got}, {len(output.getvalue())} bytes\n")
            else:
                passed += 1
    frames.write([*failed, f"{passed} passed, {len(failed)} failed\n"], out)
    return 1 if failed else 0


def main(words, out, err):
    """Runs the command of the words as frames.py runs its own; answers its status."""
    frames.parser = parser
    return frames.main(words, out, err) if words else rows(out)


if __name__ == "__main__":
    frames.end(main)
