#!/usr/bin/env python3
"""Makes the values that tests, rows and docs take from another program, and compares them.

    values.py [--wide] [DIR]    DIR is the repository, where nothing is said the one that this file stands in

--wide makes the values of width 512 and the trial of width 256 too, which takes some minutes and 1.5 GB of memory.

The values are computed here and by examples/make.py, which were written from docs/RULES.md and docs/FORMATS.md; nothing
of it is proved. Each is looked up in the source that has it. The last line is 'N passed, M failed'.
"""

import importlib.util
import os
import re
import shlex
import struct
import sys
from hashlib import sha256

TOP = os.path.dirname(os.path.dirname(os.path.abspath(__file__)))


def load(name, path):
    spec = importlib.util.spec_from_file_location(name, path)
    module = importlib.util.module_from_spec(spec)
    sys.dont_write_bytecode = True
    spec.loader.exec_module(module)
    return module


make = load("make", os.path.join(TOP, "examples", "make.py"))


# ---- ChaCha20 (RFC 8439, 2.3), cells and blocks (docs/FORMATS.md, "Drawn cells", "Generated blocks")


def quarter(x, a, b, c, d):
    for to, by, other, turn in ((a, b, d, 16), (c, d, b, 12), (a, b, d, 8), (c, d, b, 7)):
        x[to] = (x[to] + x[by]) % 2**32
        turned = x[other] ^ x[to]
        x[other] = (turned << turn | turned >> 32 - turn) % 2**32


def chacha_block(key, tail):
    start = [0x61707865, 0x3320646E, 0x79622D32, 0x6B206574, *struct.unpack("<8I", key), *tail]
    x = list(start)
    for _ in range(10):
        for i in range(4):
            quarter(x, i, i + 4, i + 8, i + 12)
        for i in range(4):
            quarter(x, i, (i + 1) % 4 + 4, (i + 2) % 4 + 8, (i + 3) % 4 + 12)
    return [(a + b) % 2**32 for a, b in zip(x, start)]


def words(key):
    counter = 0
    while True:
        yield from chacha_block(key, [counter % 2**32, counter >> 32, 0, 0])
        counter += 1


def drawn(key, k, count):
    left, made = list(range(4 * k * k)), words(key)
    for _ in range(count):
        number = next(made) + (next(made) << 32)
        yield divmod(left.pop(number % len(left)), 2 * k)


def generated(number, k):
    """The units, the pay units and the blobs of a number."""
    made = words(struct.pack("<Q", number) + bytes(24))

    def some(size):
        return b"".join(struct.pack("<I", next(made)) for _ in range((size + 3) // 4))[:size]

    units = [[some(next(made) % 400 + 1)] if k >= 2 else [] for _ in range(2)]
    blobs = []
    for _ in range(max(k // 2, 1)):
        name = bytes(19) + b"\1" + bytes(8) + bytes([next(made) % 16])
        shares = next(made) % k + 1
        blobs.append((name, some(478 + 482 * (shares - 1) - next(made) % 256)))
    return units[0], units[1], blobs


# ---- the code (docs/RULES.md, "The code")


def s(i, x):
    for _ in range(i):
        x = make.times(x, x) ^ x
    return x


def at(coefficients, point):
    """The value of coefficients of the polynomials X_j at a point."""
    total = 0
    for j, coefficient in enumerate(coefficients):
        for i in range(8):
            if j >> i & 1:
                coefficient = make.times(coefficient, s(i, point))
        total ^= coefficient
    return total


def derived(coefficients):
    """The coefficients of the derivative: each s_i has the derivative 1."""
    total = [0] * len(coefficients)
    for j, coefficient in enumerate(coefficients):
        for i in range(8):
            if j >> i & 1:
                total[j ^ 1 << i] ^= coefficient
    return total


def powers_of_words():
    """The labels of 1, x, x^2, .., in the word field (docs/RULES.md, "The word field")."""
    basis = [0x0001, 0xACCA, 0x3C0E, 0x163E, 0xC582, 0xED2E, 0x914C, 0x4012]
    basis += [0x6C98, 0x10D8, 0x6A72, 0xB900, 0xFDB8, 0xFB34, 0xFF38, 0x991E]
    elements = [0]
    for more in basis:
        elements += [element ^ more for element in elements]
    label_of = {element: label for label, element in enumerate(elements)}
    power, powers = 1, []
    for _ in range(65535):
        powers.append(label_of[power])
        power = power << 1 ^ (0x1002D if power & 0x8000 else 0)
    return powers


def split(shares):
    """The lower and the higher bytes of the words of shares (docs/RULES.md, "The word field")."""
    blocks = [shares[at:at + 32] for at in range(0, len(shares), 32)]
    return b"".join(blocks[::2]), b"".join(blocks[1::2])


def joined(low, high):
    """The shares of these lower and higher bytes."""
    return b"".join(low[at:at + 32] + high[at:at + 32] for at in range(0, len(low), 32))


def sum_of(texts):
    total = 0
    for text in texts:
        total ^= int.from_bytes(text, "big")
    return total.to_bytes(len(texts[0]), "big")


class Wide:
    """The code over words, for squares of width 256 and 512 (docs/RULES.md, "The code")."""

    def __init__(self, k):
        self.k, self.powers = k, powers_of_words()
        self.logs = {label: log for log, label in enumerate(self.powers)}

    def times(self, a, b):
        return self.powers[(self.logs[a] + self.logs[b]) % 65535] if a and b else 0

    def weights(self):
        """For the word of each recovery share in turn those of the k originals, by Lagrange's formula."""
        below = range(self.k)
        down = sum(self.logs[point] for point in below if point)
        for j in below:
            ups = [self.logs[j ^ self.k + i] for i in below]
            yield [self.powers[(sum(ups) - down - up) % 65535] for up in ups]

    def multiple(self, weight, words):
        """Words, each times a weight."""
        table = [0]
        for bit in range(8):
            table += [it ^ self.times(weight, 1 << bit) for it in table]
        upper = [0]
        for bit in range(8, 16):
            upper += [it ^ self.times(weight, 1 << bit) for it in upper]
        low, high = ([bytes(it >> by & 255 for it in half) for half in (table, upper)] for by in (0, 8))
        return tuple(sum_of([text.translate(part) for text, part in zip(words, parts)]) for parts in (low, high))

    def recovery(self, originals, wanted=None):
        """The recovery parts of k originals, each one share or as many side by side: of these numbers, or all k."""
        places = {}
        for i, original in enumerate(originals):
            places.setdefault(original, []).append(i)
        parts = [(split(original), some) for original, some in places.items()]
        for j, weights in enumerate(self.weights()):
            if wanted and j not in wanted:
                continue
            found = []
            for words, some in parts:
                weight = 0
                for i in some:
                    weight ^= weights[i]
                found.append(self.multiple(weight, words))
            yield joined(*(sum_of(texts) for texts in zip(*found)))

    def extended(self, lines):
        """k lines of shares, and behind them the recovery shares along the other axis."""
        lines = [b"".join(some) for some in lines]
        lines += self.recovery(lines)
        return [[some[at:at + 512] for at in range(0, len(some), 512)] for some in lines]

    def grid(self, shares):
        """The grid of a square: the code is linear, so columns are extended first, and then all rows."""
        rows = self.extended([shares[row * self.k:][:self.k] for row in range(self.k)])
        return WideGrid(self.k, list(zip(*self.extended(zip(*rows)))))


class WideGrid(make.Grid):
    """A grid that makes its roots once."""

    def roots(self):
        if not hasattr(self, "own"):
            self.own = super().roots()
        return self.own


def line(k, known):
    """The codeword of one byte column through k bytes at k positions."""
    return [share[0] for share in make.codeword(k, {i: bytes([byte]) * 512 for i, byte in known.items()})]


# ---- where the values stand


class Values:
    def __init__(self, top):
        self.top, self.passed, self.failed = top, 0, 0

    def read(self, path):
        with open(os.path.join(self.top, path), encoding="utf-8") as file:
            return file.read()

    def bytes_of(self, path):
        with open(os.path.join(self.top, path), "rb") as file:
            return file.read()

    def same(self, what, found, want):
        if found == want:
            self.passed += 1
        else:
            self.failed += 1
            print(f"FAILED {what}: {found!r} stands there, {want!r} was made")

    def file(self, path, want):
        """A file of bytes."""
        self.same(path, self.bytes_of(path).hex(), want.hex())

    def constant(self, path, name, want):
        """A constant array of bytes, or a text of their hexadecimal digits."""
        found = re.search(rf"const {name}: [^=]*= (\[[^\]]*\]|\"[^\"]*\")\s*;", self.read(path))
        text = found.group(1) if found else ""
        hexes = "".join(re.findall(r"0x([0-9a-f]{2})", text)) or text.strip('"')
        self.same(f"{path}, {name}", hexes, want.hex())

    def stands(self, path, what, text):
        """A text that stands in a file, whatever the blanks in it."""
        blank = re.compile(r"\s+")
        self.same(f"{path}, {what}", blank.sub("", text) in blank.sub("", self.read(path)), True)


def digests_of_tests(values):
    values.constant("crates/square_tests/src/headers.rt", "ROOT", data_root([bytes([i]) * 90 for i in range(1, 5)]))
    values.constant("crates/peer_tests/src/squares.rt", "DATA_ROOT", data_root(roots_of(three_blobs())))


def digests_of_rows(values):
    empty, three = make.Grid(1, make.extend(1, make.square_of(1, []))), three_blobs()
    falling = make.Grid(2, make.extend(2, [make.name(end) + bytes(483) for end in ("0102", "0101", "0103", "0104")]))
    for name, grid in (("empty", empty), ("2", three), ("falling-zeros", falling)):
        values.file(f"rows/files/header-{name}", grid.header())
    values.file("rows/files/message-1", empty.message(0, 0))
    values.file("rows/sample/on-a-column/stdout", three.message(1, 2, make.COL))
    values.file("rows/check/a-falling-row-of-zeros/messages", falling.message(0, 0))
    for row, text in (
        ("a-message", f"share={sha256(empty.rows[0][0]).hexdigest()}"),
        ("the-empty-blocks-header", f"root={data_root(roots_of(empty)).hex()}"),
        ("every-kind", f"root={data_root(roots_of(three)).hex()}"),
    ):
        values.stands(f"rows/show/{row}/stdout", text.split("=")[0], text)


def signed_rows(values):
    """The rows of blobs of which some have a signer: out of order, the second one of two shares."""
    blobs = [(make.name("0102"), b"x", b"\x22" * 20), (make.name("0101"), (bytes(range(256)) * 2)[:459], b"\x11" * 20)]
    blobs.append((make.name("0102"), b"y"))
    square = make.square_of(2, blobs)
    grid = make.Grid(2, make.extend(2, square))
    values.file("rows/files/block-signed", make.block(blobs))
    values.file("rows/files/square-signed", make.square(2, square))
    values.file("rows/files/header-signed", grid.header())
    values.file("rows/files/answer-signed", grid.answer(make.name("0101")))
    values.file("rows/blobs/of-signed-blobs/stdout", make.block(sorted(blobs, key=lambda blob: blob[0])))
    values.file("rows/prove/a-signed-blob/stdout", grid.commitment(0, 2))
    commitments = [grid.commitment(*shares)[15:47].hex() for shares in ((2, 1), (0, 2), (3, 1))]
    values.file("rows/commit/signed-blobs/stdout", "".join(f"{it}\n" for it in commitments).encode())


def block_of(data):
    """The width, the units, the payments and the blobs of a block's frame (docs/FORMATS.md, "Payloads")."""
    at = 5

    def number(size):
        nonlocal at
        at += size
        return int.from_bytes(data[at - size:at], "big")

    def text(size):
        nonlocal at
        at += size
        return data[at - size:at]

    width, lists = number(2), []
    for _ in range(2):
        lists.append([text(number(4)) for _ in range(number(4))])
    blobs = []
    for _ in range(number(4)):
        namespace = text(29)
        signer = text(20) if number(1) else b""
        blobs.append((namespace, text(number(4)), signer))
    return width, *lists, blobs


def squares_of_rows(values):
    """The square of each row of `build` that gives one of a block, but of those with a gap, which make.py doesn't lay out; and
    the header of each row of `header` up to width 4. tools/lists.py makes those of lists."""
    for command in ("build", "header"):
        for name in sorted(os.listdir(os.path.join(values.top, "rows", command))):
            row = f"rows/{command}/{name}"
            parts = dict(line.split(": ", 1) for line in values.read(f"{row}/row").splitlines())
            path = os.path.normpath(os.path.join(row, shlex.split(parts["words"])[1]))
            if parts["status"] != "0" or "judge" in parts or not os.path.exists(os.path.join(values.top, path)):
                continue
            data = values.bytes_of(path)
            if command == "header":
                header_of_row(values, row, data)
            elif data[:1] == b"V":
                square_of_row(values, row, data)


def header_of_row(values, row, data):
    k = int.from_bytes(data[5:7], "big")
    if k <= 4:
        shares = [data[7 + 512 * i:][:512] for i in range(k * k)]
        values.file(f"{row}/stdout", make.Grid(k, make.extend(k, shares)).header())


def square_of_row(values, row, data):
    width, units, pays, blobs = block_of(data)
    if all(len(make.blob_shares(*blob)) <= 64 for blob in blobs):
        count = len(make.square_of(0, blobs, units, pays))
        k = width or next(1 << i for i in range(10) if 1 << 2 * i >= max(count, 1))
        values.file(f"{row}/stdout", make.square(k, make.square_of(k, blobs, units, pays)))


def commitments_of_rows(values):
    """What `commit` tells of each blob of some rows."""
    for row in ("of-the-squares-test", "the-documentations-blob", "the-same-bytes-by-each-signer", "blobs-of-many-subtrees"):
        lines = [f"{commitment_of(blob).hex()}\n" for blob in block_of(values.bytes_of(f"rows/commit/{row}/block"))[3]]
        values.file(f"rows/commit/{row}/stdout", "".join(lines).encode())


def commitment_of(blob):
    """The commitment of a blob, over its subtrees (docs/RULES.md, "Subtrees")."""
    shares, subtrees = make.blob_shares(*blob), []
    for size in make.cut(len(shares), make.subtree_width(len(shares))):
        subtrees.append(make.root([make.leaf(share[:29], share) for share in shares[:size]]))
        shares = shares[size:]
    return make.plain_root(subtrees)


def blobs_of_tests():
    """The blobs of the tests, of 1, 479 and 1 bytes."""
    long, byte = b"", 63
    for number in range(478):
        long += bytes([byte])
        byte = (byte + (8 if byte > 248 or number == 250 else 7)) % 256
    return [(make.name("0101"), b"\x20"), (make.name("0102"), long + b"\x5f"), (make.name("0104"), b"\x5e")]


THREE_BLOBS = blobs_of_tests()


def three_blobs():
    """The extension of their square."""
    return make.Grid(2, make.extend(2, make.square_of(2, THREE_BLOBS)))


def roots_of(grid):
    return [make.root(grid.leaves(axis, i)) for axis in (make.ROW, make.COL) for i in range(2 * grid.k)]


def data_root(roots):
    level = [sha256(b"\0" + root).digest() for root in roots]
    while len(level) > 1:
        level = [sha256(b"\1" + level[i] + level[i + 1]).digest() for i in range(0, len(level), 2)]
    return level[0]


def wide_rows(values, k):
    """The rows of a wide square: the blobs of `three_blobs`, and tail padding behind them."""
    shares = make.square_of(k, THREE_BLOBS)
    grid = Wide(k).grid(shares)
    values.file(f"rows/files/header-{k}", grid.header())
    root = data_root(grid.roots()).hex()
    values.stands(f"rows/header/of-width-{k}/row", "root", f"root OUTPUT {root}\n")
    values.file(f"rows/root/of-width-{k}/stdout", f"{root}\n".encode())
    cells = ((0, 1, make.ROW), (1, k, make.COL), (k, 0, make.COL), (2 * k - 1, 2 * k - 1, make.ROW))
    row = f"rows/sample/of-each-quarter-of-width-{k}"
    values.file(f"{row}/requests", b"".join(make.request(*cell) for cell in cells))
    samples = b"".join(grid.message(*cell) for cell in cells)
    values.file(f"{row}/stdout", samples)
    row = f"rows/check/samples-of-width-{k}/messages"
    values.same(row, values.bytes_of(row)[:len(samples)], samples)
    cells = sorted(drawn(bytes(range(32)), k, 4))
    values.file(f"rows/light/four-of-width-{k}-not-shown/stdout", missing(k, cells))
    row = f"rows/light/four-of-width-{k}-shown/messages"
    values.same(row, sorted(pieces(values.bytes_of(row))), sorted(grid.message(*cell) for cell in cells))
    blob, absent = (grid.answer(make.name(end)) for end in ("0102", "0103"))
    values.file(f"rows/verify/an-absence-of-width-{k}/answer", absent)
    values.file(f"rows/files/answers-{k}", blob + absent)
    proof = grid.commitment(1, 2)
    values.file(f"rows/prove/a-range-of-width-{k}/stdout", proof)
    values.file(f"rows/verify/a-commitment-proof-of-width-{k}/proof", proof)
    proof = grid.rooted(k, 0, make.COL)
    values.file(f"rows/verify/a-root-proof-of-width-{k}/proof", proof)
    if k == 512:
        values.file("rows/verify/an-answer-of-width-512/answer", blob)
        return
    values.file("rows/namespace/of-width-256/stdout", blob + absent)
    values.file("rows/prove/a-sample-of-width-256/requests", make.request(k, 0, make.COL))
    values.file("rows/prove/a-sample-of-width-256/stdout", proof)
    spoiled_wide_rows(values, grid)


def spoiled_wide_rows(values, grid):
    """The grid with another last byte of its last share, and the claim against its last row that a set of one node shows."""
    k, last = grid.k, 2 * grid.k - 1
    roots = list(grid.roots())
    rows = [list(row) for row in grid.rows]
    rows[last][last] = make.changed(rows[last][last], 511)
    spoiled = make.Grid(k, rows)
    for axis, place in ((make.ROW, last), (make.COL, 4 * k - 1)):
        roots[place] = make.root(spoiled.leaves(axis, last))
    values.file("rows/files/header-spoiled-256", make.frame("H", make.u16(k) + b"".join(roots)))
    cells = b"".join(make.u16(col) + b"\1" + rows[last][col] for col in range(k))
    path = make.nodes(spoiled.leaves(make.ROW, last), range(k))
    text = b"\2\0" + make.u16(last) + make.u16(k) + cells + make.u16(len(path)) + b"".join(path)
    values.file("rows/files/claim-with-a-set-256", make.frame("B", text))


def missing(k, cells):
    return make.frame("K", make.u16(k) + make.u32(len(cells)) + b"".join(make.u16(row) + make.u16(col) for row, col in cells))


def pieces(data):
    """The frames of a file."""
    while data:
        size = 5 + int.from_bytes(data[1:5], "big")
        yield data[:size]
        data = data[size:]


def words_of_tests(values):
    """The first words of recovery shares 0, 1, 2 and k - 1, where the first word of one original is 1 and all others are 0."""
    for k, at in ((256, 17), (512, 511)):
        firsts = [weights[at] for weights in Wide(k).weights()]
        words = ", ".join(map(str, firsts[:3] + firsts[-1:]))
        values.stands("docs/RULES.md", f"words of width {k}", f"| {k} | {at} | {words} |")


# klauspost/reedsolomon 1.14.1, `New(k, k, WithLeopardGF(true))`: the SHA-256 of recovery shares 0, 1 and k - 1, where share i is
# the values of SHA-256 of the texts `share I PART`, PART from 0 to 15.
KLAUSPOST = {
    256: (
        "83687d16ae6caab89444d4bc917d052dff614b2c40f489a2f1cea351dda6930a",
        "f336e65b469505af284b4d7dd52b73160b6ff580a602db647f1a1618dd456287",
        "4f0f86f33b592709acbe2cfb401bdfd130a7c5c334c148f14bd6d0d72f097027",
    ),
    512: (
        "d28b6eda32179849443a0c8b321e387622d8e19b1fde6eae9dd1eb1127634403",
        "0a9cbe36ca7a174f0dd9905fb2f895c27de46d97eaf14448d8892adc3d5960ef",
        "4fb1077b3d7b12c111fd8b92b585735d0f71c843dd9f34c44c71d813d4a03d8a",
    ),
}


def drawn_codewords(values):
    for k, want in KLAUSPOST.items():
        shares = [b"".join(sha256(f"share {i} {part}".encode()).digest() for part in range(16)) for i in range(k)]
        found = Wide(k).recovery(shares, (0, 1, k - 1))
        values.same(f"recovery shares of width {k}", tuple(sha256(share).hexdigest() for share in found), want)


def same_share_row(values, k, path):
    """The data root of the square of one share, k * k times: its extension has the share in each cell."""
    share = bytes(19) + 10 * b"\1" + 483 * b"\xff"
    outer, inner = ([make.leaf(share[:29], share)] * half + [make.leaf(make.PARITY, share)] * (2 * k - half) for half in (0, k))
    roots = ([make.root(inner)] * k + [make.root(outer)] * k) * 2
    values.stands(path, f"one share in width {k}", data_root(roots).hex())


def laid(k, block):
    """The shares of the square of a generated block, with padding before blobs (docs/RULES.md, "From a block to its square")."""
    units, pays, blobs = block
    shares, before = make.square_of(0, [], units, pays), bytes(28) + b"\xff"
    for blob in sorted(blobs, key=lambda blob: blob[0]):
        own = make.blob_shares(*blob)
        shares += make.blob_shares(before, b"") * (-len(shares) % make.subtree_width(len(own))) + own
        before = blob[0]
    return shares + make.blob_shares(make.TAIL_PADDING, b"") * (k * k - len(shares))


def draws_and_blocks(values):
    vector = chacha_block(bytes(range(32)), [1, 0x09000000, 0x4A000000, 0])
    values.same("RFC 8439, 2.3.2", (hex(vector[0]), hex(vector[15])), ("0xe4e7f110", "0x4e3c50a2"))
    path = "crates/square_tests/src/cells.rt"
    cells = lambda some: ", ".join(f"({row}, {col})" for row, col in some)
    for name, key in (("counting", bytes(range(32))), ("zeros", bytes(32)), ("greatest_bytes", b"\xff" * 32)):
        least, some, most = (list(drawn(key, k, count)) for k, count in ((1, 4), (4, 4), (128, 4096)))
        text = f"least: [{cells(least)}], some: [{cells(some)}], most: [{cells(most[:3])}], last: {cells(most[-1:])},"
        values.stands(path, name, f"let {name} = Drawn {{ {text} }};")
    path = "crates/square_tests/src/generated.rt"
    (name, data), = generated(7, 1)[2]
    some = lambda part: ", ".join(f"0x{byte:02x}" for byte in part)
    values.stands(path, "the length of the least block's blob", f"blob.bytes.len() == {len(data)}")
    values.stands(path, "its front", f"blob.bytes.starts_with(&[{some(data[:4])}])")
    values.stands(path, "its end", f"blob.bytes.ends_with(&[{some(data[-2:])}])")
    values.stands(path, "its namespace", f"blob.namespace.0[18..] == {list(name[18:])}")

    rows = lambda name: f"rows/demo/{name}/stdout"
    for number, k, places in (
        (7, 2, ("docs/COMMANDS.md", "docs/TUTORIAL.md", "docs/da.1", rows("7-in-width-2"))),
        (2**64 - 1, 2, (rows("of-the-greatest-number"),)),
        (3, 4, (rows("3-in-width-4"),)),
        (3, 16, ("docs/TUTORIAL.md", rows("3-in-width-16"))),
    ):
        units, pays, blobs = generated(number, k)
        grid = make.Grid(k, make.extend(k, make.square_of(k, blobs, units, pays)))
        for path in places:
            values.stands(path, f"demo {number} {k}", f"root {data_root(roots_of(grid)).hex()}")


def code_of_tests(values):
    path = "crates/square_tests/src/fields.rt"
    some = [(a, b, make.times(a, b)) for a, b in ((2, 2), (2, 3), (4, 4), (2, 4), (0, 9))]
    values.stands(path, "products", "[" + ", ".join(map(str, some)) + "]")
    values.stands(path, "an inverse", f"inv(2) == {make.over(1, 2)}")
    values.stands(path, "a row", f"acc[510] == {1 ^ make.times(2, 4)}")
    values.stands(path, "its end", f"acc[511] == {9 ^ make.times(2, 255)}")
    powers = [(i, make.POWER[i]) for i in (0, 1, 254)]
    values.stands("crates/square_tests/src/fields.rt", "powers", "[" + ", ".join(map(str, powers)) + "]")

    powers = powers_of_words()
    some = [(i, powers[i]) for i in (0, 1, 256, 65534)]
    values.stands(path, "powers of words", "[" + ", ".join(map(str, some)) + "]")
    some = [(a, powers.index(a)) for a in (1, 2, 1023)]
    values.stands(path, "logarithms of words", "[" + ", ".join(map(str, some)) + "]")

    path = "crates/square_tests/src/codewords.rt"
    pair = line(2, {0: 0, 1: 1})
    values.stands(path, "two recovery shares", f"&[share({pair[2]}), share({pair[3]})]")
    wide = line(4, {0: 0, 1: 0, 2: 0, 3: 1})
    values.stands(path, "four recovery shares", "(&unit, &[" + ", ".join(f"share({it})" for it in wide[4:]) + "]")
    values.stands(path, "a codeword", f"let bytes = {wide};")
    values.same("through any four of eight", line(4, {i: wide[i] for i in (1, 3, 4, 7)}), wide)

    path = "crates/square_tests/src/transforms.rt"
    for shift, name in ((0, "first"), (4, "second")):
        seen = [at([0, 0, 0, 1], shift + i) for i in range(4)]
        values.stands(path, f"values at {shift}", f"{name} == shares({seen})")
    back = [9, 2, 6, 1]
    values.same("coefficients", [at(back, 4 + i) for i in range(4)], [0, 0, 0, 1])
    values.stands(path, "coefficients", f"four == shares({back})")
    values.stands(path, "values from coefficients", f"four == shares({[at(back, i) for i in range(4)]})")
    values.stands("crates/square_tests/src/transforms.rt", "a derivative", f"four == shares({derived([1, 2, 3, 4])})")


def main(words_given):
    is_wide = words_given[:1] == ["--wide"]
    values = Values((words_given[is_wide:] or [TOP])[0])
    digests_of_tests(values)
    digests_of_rows(values)
    signed_rows(values)
    squares_of_rows(values)
    commitments_of_rows(values)
    draws_and_blocks(values)
    code_of_tests(values)
    words_of_tests(values)
    drawn_codewords(values)
    wide_rows(values, 256)
    for k, path in ((256, "rows/header/of-one-share-in-width-256/row"), (256, "tools/wide_squares"), (512, "tools/wide_squares")):
        same_share_row(values, k, path)
    if is_wide:
        wide_rows(values, 512)
        root = data_root(Wide(256).grid(laid(256, generated(7, 256))).roots()).hex()
        values.stands("rows/demo/7-in-width-256/stdout", "demo 7 256", f"root {root}")
        values.stands("tools/wide_squares", "demo 7 256", root)
    print(f"{values.passed} passed, {values.failed} failed")
    return values.failed > 0


if __name__ == "__main__":
    sys.exit(main(sys.argv[1:]))
