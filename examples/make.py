#!/usr/bin/env python3
"""Makes the files of this folder that README.md's table gives to it, without the program `da`.

    make.py DIR     writes all of them below DIR
    make.py many    writes a block of 262,145 blobs, which is too long to be kept here
    make.py gap     writes a block with padding in front of a blob, whose square has width 16

It follows docs/RULES.md and docs/FORMATS.md in its own way, and nothing of it is proved. Widths go to 4, and
blobs to 64 shares, but for those two blocks, which it only frames.
"""
import base64
import json
import os
import sys
from hashlib import sha256

PARITY = b"\xff" * 29
TAIL_PADDING = b"\xff" * 28 + b"\xfe"
TRANSACTION = bytes(28) + b"\x01"
PAY_FOR_BLOB = bytes(28) + b"\x04"
RESERVED_PADDING = bytes(28) + b"\xff"
ROW, COL = 0, 1


def u16(n):
    return n.to_bytes(2, "big")


def u32(n):
    return n.to_bytes(4, "big")


# The byte field (docs/RULES.md, "The byte field"): a product of labels, by logarithms of elements.
def fields():
    basis = [1, 214, 152, 146, 86, 200, 88, 230]
    element = [0] * 256
    for label in range(256):
        for bit in range(8):
            element[label] ^= basis[bit] if label >> bit & 1 else 0
    label_of = {e: label for label, e in enumerate(element)}
    power, powers = 1, []
    for _ in range(255):
        powers.append(label_of[power])
        power = power << 1 ^ (0x11D if power & 0x80 else 0)
    return powers, {label: log for log, label in enumerate(powers)}


POWER, LOG = fields()


def times(a, b):
    return POWER[(LOG[a] + LOG[b]) % 255] if a and b else 0


def over(a, b):
    return POWER[(LOG[a] - LOG[b]) % 255] if a else 0


# The codeword through k shares at k positions ("The code"), each byte column by Lagrange's formula.
def codeword(k, known):
    line = []
    for pos in range(2 * k):
        total = bytes(512)
        for i, share in known.items():
            factor = 1
            for j in known:
                if j != i:
                    factor = over(times(factor, pos ^ j), i ^ j)
            product = share.translate(bytes(times(factor, b) for b in range(256)))
            total = bytes(x ^ y for x, y in zip(total, product))
        line.append(total)
    return line


def extend(k, square):
    rows = [codeword(k, dict(enumerate(square[k * r:k * r + k]))) for r in range(k)]
    cols = [codeword(k, {r: rows[r][c] for r in range(k)}) for c in range(2 * k)]
    return [[cols[c][r] for c in range(2 * k)] for r in range(2 * k)]


# Trees ("Trees", "Openings").
def leaf(namespace, share):
    return namespace * 2 + sha256(b"\0" + namespace + share).digest()


def node(left, right):
    greatest = max(left[29:58], right[29:58])
    if left[:29] == PARITY:
        greatest = PARITY
    elif right[:29] == PARITY:
        greatest = left[29:58]
    return left[:29] + greatest + sha256(b"\1" + left + right).digest()


def root(leaves):
    half = len(leaves) // 2
    return node(root(leaves[:half]), root(leaves[half:])) if half else leaves[0]


def nodes(leaves, shown, start=0):
    """The digests of the greatest intervals that hold nothing shown, left to right."""
    if not any(start <= place < start + len(leaves) for place in shown):
        return [root(leaves)]
    half = len(leaves) // 2
    if not half:
        return []
    return nodes(leaves[:half], shown, start) + nodes(leaves[half:], shown, start + half)


# Plain trees over strings ("Data roots", "Subtrees").
def half_of(strings):
    return 1 << (len(strings) - 1).bit_length() - 1


def plain_root(strings):
    if len(strings) == 1:
        return sha256(b"\0" + strings[0]).digest()
    half = half_of(strings)
    return sha256(b"\1" + plain_root(strings[:half]) + plain_root(strings[half:])).digest()


def plain_path(strings, place):
    """The hashes that lead from a leaf to the root, upwards."""
    if len(strings) == 1:
        return []
    half = half_of(strings)
    if place < half:
        return plain_path(strings[:half], place) + [plain_root(strings[half:])]
    return plain_path(strings[half:], place - half) + [plain_root(strings[:half])]


# The sizes of the subtrees of shares whose greatest have this width ("Subtrees").
def subtree_width(count):
    return next(1 << i for i in range(10) if 64 << i >= count or 1 << 2 * i >= count)


def cut(count, width):
    sizes = []
    while count:
        while width > count:
            width //= 2
        sizes.append(width)
        count -= width
    return sizes


class Grid:
    """An extended square with its trees, well encoded or not."""

    def __init__(self, k, rows):
        self.k, self.rows = k, rows

    def leaves(self, axis, index):
        cells = [(index, p) if axis == ROW else (p, index) for p in range(2 * self.k)]
        return [leaf(self.rows[r][c][:29] if max(r, c) < self.k else PARITY, self.rows[r][c]) for r, c in cells]

    def roots(self):
        return [root(self.leaves(axis, i)) for axis in (ROW, COL) for i in range(2 * self.k)]

    def header(self):
        return frame("H", u16(self.k) + b"".join(self.roots()))

    def rooted(self, row, col, axis=ROW):
        """A sample with the root of its axis, and the hashes that lead from that to the data root."""
        roots, place = self.roots(), row if axis == ROW else 2 * self.k + col
        return frame("R", u16(self.k) + self.cell(row, col, axis) + roots[place] + digests(plain_path(roots, place)))

    def commitment(self, start, count):
        """A proof of the commitment of so many shares from an index on ("Commitment proofs")."""
        roots, rows, shown, at, width = self.roots(), [], [], start, subtree_width(count)
        while at < start + count:
            row, low = divmod(at, self.k)
            part = min(self.k - low, start + count - at)
            leaves, subtrees = self.leaves(ROW, row), []
            for size in cut(part, width):
                subtrees.append(root(leaves[low + sum(cut(part, width)[:len(subtrees)]):][:size]))
            path = digests(plain_path(roots, row)) + u16(len(subtrees)) + b"".join(subtrees)
            rows.append(roots[row] + path + digests(nodes(leaves, range(low, low + part))))
            shown += subtrees
            at += part
        numbers = u16(self.k) + u32(start) + u32(count)
        return frame("C", numbers + plain_root(shown) + u16(len(rows)) + b"".join(rows))

    def cell(self, row, col, axis):
        """The payload of a cell's sample."""
        index, pos = (row, col) if axis == ROW else (col, row)
        path = nodes(self.leaves(axis, index), [pos])
        return u16(row) + u16(col) + bytes([axis]) + self.rows[row][col] + digests(path)

    def message(self, row, col, axis=ROW):
        return frame("M", self.cell(row, col, axis))

    def answer(self, namespace):
        entries = []
        for row in range(self.k):
            leaves = self.leaves(ROW, row)
            if not root(leaves)[:29] <= namespace <= root(leaves)[29:58]:
                continue
            names = [d[:29] for d in leaves[:self.k]]
            places = [c for c in range(self.k) if names[c] == namespace]
            if places:
                shares = [self.rows[row][c] for c in places]
                entry = u16(row) + b"\0" + u16(places[0]) + u16(len(places)) + b"".join(shares)
            else:
                places = [next(c for c in range(self.k) if names[c] > namespace)]
                entry = u16(row) + b"\1" + u16(places[0]) + leaves[places[0]]
            entries.append(entry + digests(nodes(leaves, places)))
        return answer_of(namespace, entries)


# Frames (docs/FORMATS.md).
def frame(kind, payload):
    return kind.encode() + u32(len(payload)) + payload


def digests(path):
    return bytes([len(path)]) + b"".join(path)


def answer_of(namespace, entries):
    return frame("N", namespace + u16(len(entries)) + b"".join(entries))


def claim(axis, index, cells):
    return frame("B", bytes([1, axis]) + u16(index) + u16(len(cells)) + b"".join(cells))


def request(row, col, axis=ROW):
    return frame("Q", u16(row) + u16(col) + bytes([axis]))


def namespace_request(namespace):
    return frame("P", namespace)


def block(blobs, units=(), pays=(), width=0):
    payload = u16(width)
    for some in (units, pays):
        payload += u32(len(some)) + b"".join(u32(len(unit)) + unit for unit in some)
    return frame("V", payload + u32(len(blobs)) + b"".join(blob_text(*blob) for blob in blobs))


def blob_text(namespace, data, signer=b""):
    """A blob of a block, of share version 1 where it has a signer."""
    return namespace + (b"\1" + signer if signer else b"\0") + u32(len(data)) + data


def transactions(units):
    return frame("T", u32(len(units)) + b"".join(u32(len(unit)) + unit for unit in units))


# Shares ("Shares", "From a block to its square"): no blob has more than 64 shares, so there are no gaps.
def blob_shares(namespace, data, signer=b""):
    version, room = 1 if signer else 0, 478 - len(signer)
    shares = [namespace + bytes([2 * version + 1]) + u32(len(data)) + signer + data[:room]]
    shares += [namespace + bytes([2 * version]) + data[i:i + 482] for i in range(room, len(data), 482)]
    return [share.ljust(512, b"\0") for share in shares]


def varint(number):
    return bytes([number]) if number < 128 else bytes([number & 127 | 128]) + varint(number >> 7)


def compact_shares(namespace, units):
    content, starts = b"", []
    for unit in units:
        starts.append(len(content))
        content += varint(len(unit)) + unit
    shares, at = [], 0
    while at < len(content):
        front = namespace + (b"\0" if at else b"\1" + u32(len(content)))
        room = 512 - len(front) - 4
        first = [start for start in starts if at <= start < at + room]
        reserved = len(front) + 4 + first[0] - at if first else 0
        shares.append((front + u32(reserved) + content[at:at + room]).ljust(512, b"\0"))
        at += room
    return shares


def square_of(k, blobs, units=(), pays=()):
    shares = compact_shares(TRANSACTION, units) + compact_shares(PAY_FOR_BLOB, pays)
    for blob in sorted(blobs, key=lambda blob: blob[0]):
        shares += blob_shares(*blob)
    return shares + blob_shares(TAIL_PADDING, b"") * (k * k - len(shares))


# Lists of transactions ("A block of the network"): no payment has no bytes, and no blob has more than 64 shares.
def field(number, data):
    return varint(8 * number + 2) + varint(len(data)) + data


def payment(tx, blobs):
    """A payment for blobs, which it carries."""
    fields = field(1, tx)
    for namespace, data, *signer in blobs:
        signed = b"\x18\1" + field(5, signer[0]) if signer else b""
        fields += field(2, field(1, namespace[1:]) + field(2, data) + signed)
    return fields + field(3, b"BLOB")


def wrapped(tx, places):
    return field(1, tx) + field(2, b"".join(map(varint, places))) + field(3, b"INDX")


def list_square(units, payments):
    """The width and the shares of the square of transactions, and of payments as pairs of a transaction and its blobs."""
    front = compact_shares(TRANSACTION, units)
    full = [wrapped(tx, [512 * 512] * len(blobs)) for tx, blobs in payments]
    reserve = len(front) + len(compact_shares(PAY_FOR_BLOB, full))
    numbered = [(blob[0], p, b) for p, (_, blobs) in enumerate(payments) for b, blob in enumerate(blobs)]
    places, behind = {}, []
    for _, p, b in sorted(numbered):
        places[p, b] = reserve + len(behind)
        behind += blob_shares(*payments[p][1][b])
    written = [wrapped(tx, [places[p, b] for b in range(len(blobs))]) for p, (tx, blobs) in enumerate(payments)]
    front += compact_shares(PAY_FOR_BLOB, written)
    shares = front + blob_shares(RESERVED_PADDING, b"") * (reserve - len(front) if behind else 0) + behind
    k = next(1 << i for i in range(10) if 1 << 2 * i >= reserve + len(behind))
    return k, shares + blob_shares(TAIL_PADDING, b"") * (k * k - len(shares))


def block_json(transactions, k, root):
    """A block of raw transactions as the chain's RPC answers it, but for what isn't looked at."""
    data = {"txs": [base64.b64encode(raw).decode() for raw in transactions], "square_size": str(k)}
    block = {"header": {"chain_id": "example", "height": "5", "data_hash": root.hex().upper()}, "data": data}
    return (json.dumps({"jsonrpc": "2.0", "id": 1, "result": {"block": block}}, indent=2) + "\n").encode()


def square(k, shares):
    return frame("S", u16(k) + b"".join(shares))


def name(last):
    """The namespace of version 0 whose id ends in these two bytes."""
    return bytes(27) + bytes.fromhex(last)


def changed(data, at, bits=1):
    return data[:at] + bytes([data[at] ^ bits]) + data[at + 1:]


def files():
    # The empty block's square, and a header that has the root of its first row alone.
    empty = Grid(1, extend(1, square_of(1, [])))
    first = frame("H", u16(1) + root(empty.leaves(ROW, 0)) + b"".join(bytes([b]) * 90 for b in (0, 7, 255)))
    proved = empty.message(0, 0)
    refused = [changed(proved, 521), frame("M", proved[5:522] + b"\0"), proved[:523] + bytes(90),
               frame("M", u16(2) + proved[7:]), request(0, 0)]
    # The block of the file `block`, its square and the grid of its extension.
    two = square_of(2, [(name("0101"), b"\7"), (name("0102"), b"\7" * 479), (name("0104"), b"\7")])
    grid = Grid(2, extend(2, two))
    every = [(r, c) for r in range(4) for c in range(4)]
    # The same grid but for one bit of the last cell: its last row and its last column are no codewords.
    rows = [list(row) for row in grid.rows]
    rows[3][3] = changed(rows[3][3], 511)
    spoiled = Grid(2, rows)
    accused = claim(ROW, 3, [spoiled.cell(3, c, COL) for c in range(2)])
    units = [b"the first transaction", b"a longer transaction " * 30]
    pays = [b"a payment for the first blob", b"a payment for the other two"]
    blobs = [(name("0202"), b"The first blob that came. " * 52), (name("0201"), b"The second blob."),
             (name("0202"), b"The third blob.")]
    signed = [(name("0101"), b"A blob with a signer. " * 21, b"\x11" * 20), (name("0102"), b"A blob without one."),
              (name("0102"), b"x", b"\x22" * 20)]
    plain = b"A transaction that pays for no blobs."
    paying = (b"A transaction that pays for two blobs. " * 12)[:458]
    paid = [(name("0202"), b"The first blob of the payment. " * 20), (name("0201"), b"The second blob.", b"\x11" * 20)]
    listed = [plain, payment(paying, paid)]
    k, shares = list_square([plain], [(paying, paid)])
    list_root = plain_root(Grid(k, extend(k, shares)).roots())
    one = (name("0101"), b"one")
    sample = grid.message(1, 2, COL)
    low = grid.message(0, 0)
    made = {
        "header": first,
        "message": proved,
        "messages": b"".join([proved] + refused),
        "block": block([(name("0101"), b"\7"), (name("0102"), b"\7" * 479), (name("0104"), b"\7")]),
        "samples": request(1, 2, COL),
        "quarter": b"".join(request(r, c) for r in range(2) for c in range(2)),
        "every": b"".join(request(r, c) for r, c in every),
        "namespaces": namespace_request(name("0102")),
        "absent": namespace_request(name("0103")),
        "kinds/square": square(2, two),
        "kinds/header": grid.header(),
        "kinds/sample": sample,
        "kinds/answer": grid.answer(name("0102")),
        "kinds/absence": grid.answer(name("0103")),
        "kinds/claim": accused,
        "kinds/commitment": grid.commitment(1, 2),
        "kinds/rooted": grid.rooted(1, 2, COL),
        "kinds/missing": frame("K", u16(2) + u32(15) + b"".join(u16(r) + u16(c) for r, c in every if (r, c) != (1, 2))),
        "kinds/transactions": transactions(units),
        "kinds/refusal": frame("E", b"\5" + (2).to_bytes(8, "big")),
        "kinds/state": frame("A", b""),
        "spoiled/header": spoiled.header(),
        "spoiled/messages": b"".join(spoiled.message(3, c, COL) for c in range(2)),
        "spoiled/every": b"".join(spoiled.message(r, c) for r, c in every),
        "transactions/block": block(blobs, units, pays),
        "transactions/square": square(4, square_of(4, blobs, units, pays)),
        "transactions/quarter": b"".join(request(r, c) for r in range(4, 8) for c in range(4, 8)),
        "list/block.json": block_json(listed, k, list_root),
        "list/transactions": transactions(listed),
        "list/square": square(k, shares),
        "signed/block": block(signed),
        "signed/square": square(2, square_of(2, signed)),
        "refused/block-version": block([one, (changed(one[0], 0), b"one")]),
        "refused/block-prefix": block([one, (changed(one[0], 18), b"one")]),
        "refused/block-reserved": block([one, (name("00ff"), b"one")]),
        "refused/block-no-bytes": block([one, (one[0], b"")]),
        "refused/block-above-width": block([one, one], width=1),
        "refused/block-no-width": block([one], width=3),
        "refused/block-cut": block([one])[:-1],
        "refused/block-share-version": changed(block([one]), 48, 2),
        "refused/block-and-more": block([one]) + b"V",
        "refused/samples-cut": request(0, 0) + request(0, 1)[:-1],
        "refused/square-falling": square(2, two[::-1]),
        "refused/samples-outside": request(0, 0) + request(4, 0),
        "refused/namespaces-parity": namespace_request(name("0102")) + namespace_request(PARITY),
        "refused/sample-outside": frame("M", u16(4) + sample[7:]),
        "refused/sample-node-missing": frame("M", sample[5:522] + b"\1" + sample[523:613]),
        "refused/sample-falling": low[:523] + bytes(58) + low[581:],
        "refused/sample-other-share": changed(sample, 100),
        "refused/answer-parity": answer_of(PARITY, []),
        "refused/answer-no-entries": answer_of(name("0102"), []),
        "refused/answer-other-share": changed(grid.answer(name("0102")), 100),
        "refused/claim-cell-missing": claim(ROW, 3, [spoiled.cell(3, 0, COL)]),
        "refused/claim-other-share": changed(accused, 100),
    }
    kinds = ["block", "kinds/square", "kinds/header", "kinds/sample", "kinds/answer", "kinds/absence", "kinds/claim",
             "kinds/missing", "samples", "namespaces", "kinds/commitment", "kinds/rooted", "kinds/transactions",
             "kinds/refusal", "kinds/state"]
    made["kinds/all"] = b"".join(made[kind] for kind in kinds)
    return made


def main(word):
    if word == "many":
        sys.stdout.buffer.write(block([(name("0101"), b"1")] * 262145))
    elif word == "gap":
        sys.stdout.buffer.write(block([(name("0101"), b"one"), (name("0102"), b"x" * (478 + 64 * 482))]))
    else:
        for path, data in files().items():
            path = os.path.join(word, path)
            os.makedirs(os.path.dirname(path), exist_ok=True)
            with open(path, "wb") as file:
                file.write(data)


if __name__ == "__main__":
    if len(sys.argv) != 2:
        sys.exit("usage: make.py DIR, make.py many or make.py gap")
    main(sys.argv[1])
