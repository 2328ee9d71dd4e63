#!/usr/bin/env python3
"""A second reader and layer of lists of transactions, written from docs/RULES.md alone. It is not proved.

    lists.py build LIST            the square (kind S) that a file of a list (kind T) is laid out as
    lists.py commit LIST           the commitments of the blobs of its payments, a line for each
    lists.py transactions SQUARE   the list that is laid out as this square, in its one spelling
    lists.py find SQUARE HEX       where the blobs stand that have a commitment, a line for each
    lists.py                       compares with the rows of rows/ that have lists; the last line is 'N passed, M failed'

Outputs, statuses and notes are those of `da`. The shares and the subtrees are those of examples/make.py. Python 3 and its
standard library alone.
"""

import argparse
import hashlib
import importlib.util
import os
import shlex
import sys
from collections import namedtuple

sys.dont_write_bytecode = True
import frames  # noqa: E402

TOP = os.path.dirname(os.path.dirname(os.path.abspath(__file__)))
SPEC = importlib.util.spec_from_file_location("make", os.path.join(TOP, "examples", "make.py"))
make = importlib.util.module_from_spec(SPEC)
SPEC.loader.exec_module(make)

RESERVED_PADDING = bytes(28) + b"\xff"
# How many groups may be open at once, and what the tag of a field inside one is below.
Rules = namedtuple("Rules", "groups inner_tags")
RULES = Rules(100, 2**32)
OUTER_TAGS = 2**32
MOST_SHARES = frames.WIDTHS[-1] ** 2
SHARES = {make.TRANSACTION: 1, make.PAY_FOR_BLOB: 2}
COMPARED = {"build": "list", "commit": "list", "transactions": "square", "find": "square"}

# A blob as a payment states it, and a payment, whose blobs these are.
Blob = namedtuple("Blob", "id data version namespace_version signer")
Payment = namedtuple("Payment", "tx blobs")


# Fields of protobuf.


def varint(data, at):
    """The varint at a place and where it ends; none where none is there."""
    value = 0
    for i, byte in enumerate(data[at : at + 10]):
        value |= (byte & 127) << 7 * i
        if byte < 128:
            return (value, at + i + 1) if value < 2**64 else None
    return None


def field(data, at, rules, open_groups=0):
    """The number, the wire, the value and the end of the field at a place, in so many open groups."""
    found = varint(data, at)
    if found is None or not 8 <= found[0] < (rules.inner_tags if open_groups else OUTER_TAGS):
        return None
    (number, wire), at = divmod(found[0], 8), found[1]
    if wire == 0:
        found = varint(data, at)
        return found and (number, wire, *found)
    if wire == 3:
        end = group_end(data, at, number, rules, open_groups + 1)
        return end and (number, wire, None, end)
    found = {1: (8, at), 2: varint(data, at), 5: (4, at)}.get(wire)
    if found is None or found[0] > len(data) - found[1]:
        return None
    size, at = found
    return number, wire, data[at : at + size], at + size


def group_end(data, at, number, rules, open_groups):
    """Where the group of a number ends whose fields begin at a place."""
    while open_groups <= rules.groups:
        tag = varint(data, at)
        if tag is not None and tag[0] == 8 * number + 4:
            return tag[1]
        found = field(data, at, rules, open_groups)
        if found is None:
            return None
        at = found[3]
    return None


def fields(data, rules=RULES):
    """The number, the wire and the value of each field that bytes are; none where they aren't fields."""
    some, at = [], 0
    while at < len(data):
        found = field(data, at, rules)
        if found is None:
            return None
        some.append(found[:3])
        at = found[3]
    return some


def last(some, number, wire):
    """The value of the last field of a number and a wire, 0 or no bytes where there is none."""
    return next((value for *key, value in reversed(some) if key == [number, wire]), b"" if wire == 2 else 0)


def shortest(value):
    """The shortest varint of a number."""
    return bytes([value]) if value < 128 else bytes([value & 127 | 128]) + shortest(value >> 7)


def spelled_field(number, data):
    """A field of bytes."""
    return shortest(8 * number + 2) + shortest(len(data)) + data


def spelled_fields(*pairs):
    """Fields of bytes, without those that have none."""
    return b"".join(spelled_field(number, data) for number, data in pairs if data)


# Payments.


def payment_of(raw, rules=RULES):
    """The payment that a transaction is, or none."""
    some = fields(raw, rules)
    if some is None or last(some, 3, 2) != b"BLOB":
        return None
    blobs = [fields(value, rules) for number, wire, value in some if (number, wire) == (2, 2)]
    if None in blobs:
        return None
    return Payment(last(some, 1, 2), [blob_of(blob) for blob in blobs])


def blob_of(some):
    """The blob of its fields."""
    version, namespace_version = (last(some, number, 0) % 2**32 for number in (3, 4))
    return Blob(last(some, 1, 2), last(some, 2, 2), version, namespace_version, last(some, 5, 2))


def name_fault(blob):
    """What is wrong with the namespace of a blob, by its number, or none."""
    if len(blob.id) != 28:
        return 1
    if blob.namespace_version:
        return 2
    return 3 if any(blob.id[:18]) else None if any(blob.id[18:27]) else 4


def blob_fault(i, j, blob):
    """The note of blob j of transaction i, or none."""
    fault = name_fault(blob)
    if fault:
        return f"8 {i} {j} {fault}"
    if (blob.version, len(blob.signer)) not in ((0, 0), (1, 20)):
        return f"9 {i} {j}"
    return None if blob.data else f"10 {i} {j}"


def payment_fault(i, payment):
    """The note of transaction i, a payment, or none."""
    if not payment.blobs:
        return f"7 {i}"
    return next(filter(None, (blob_fault(i, j, blob) for j, blob in enumerate(payment.blobs))), None)


def read(transactions):
    """The plain transactions and the payments of a list, and the note of the first that isn't taken, or none."""
    units, payments = [], []
    for i, raw in enumerate(transactions):
        payment = payment_of(raw)
        fault = payment_fault(i, payment) if payment else f"6 {i}" if payments else None
        if fault:
            return None, None, fault
        if payment:
            payments.append(payment)
        else:
            units.append(raw)
    return units, payments, None


def spelled(payment):
    """A payment in its one spelling."""
    blobs = b"".join(spelled_field(2, spelled_blob(blob)) for blob in payment.blobs)
    return spelled_fields((1, payment.tx)) + blobs + spelled_field(3, b"BLOB")


def spelled_blob(blob):
    """A blob in its one spelling, whose share version says that it has a signer."""
    version = b"\x18\x01" if blob.signer else b""
    return spelled_fields((1, blob.id), (2, blob.data)) + version + spelled_fields((5, blob.signer))


def wrapped(tx, places):
    """A payment's transaction with the places of its blobs."""
    return spelled_fields((1, tx), (2, b"".join(map(shortest, places)))) + spelled_field(3, b"INDX")


# Squares.


def shares_of(blob):
    return make.blob_shares(bytes([blob.namespace_version]) + blob.id, blob.data, blob.signer)


def padding(namespace, version=0):
    return (namespace + bytes([2 * version + 1])).ljust(512, b"\0")


def square_of(units, payments):
    """The width and the shares of the square of a list that was read, or the note of its bound."""
    front = make.compact_shares(make.TRANSACTION, units)
    full = [wrapped(payment.tx, [MOST_SHARES] * len(payment.blobs)) for payment in payments]
    reserve = len(front) + len(make.compact_shares(make.PAY_FOR_BLOB, full))
    numbered = [(p, b) for p, payment in enumerate(payments) for b in range(len(payment.blobs))]
    shares = {at: shares_of(payments[at[0]].blobs[at[1]]) for at in numbered}
    widths = {at: make.subtree_width(len(some)) for at, some in shares.items()}
    bound = reserve + sum(len(shares[at]) + widths[at] - 1 for at in numbered)
    if bound > MOST_SHARES:
        return None, None, f"3 {bound}"
    places, end = {}, reserve
    for at in sorted(numbered, key=lambda it: payments[it[0]].blobs[it[1]].id):
        places[at] = -(-end // widths[at]) * widths[at]
        end = places[at] + len(shares[at])
    written = [wrapped(payment.tx, [places[p, b] for b in range(len(payment.blobs))]) for p, payment in enumerate(payments)]
    laid = front + make.compact_shares(make.PAY_FOR_BLOB, written)
    gap = padding(RESERVED_PADDING)
    for at, place in sorted(places.items(), key=lambda it: it[1]):
        blob = payments[at[0]].blobs[at[1]]
        laid += [gap] * (place - len(laid)) + shares[at]
        gap = padding(b"\0" + blob.id, blob.version)
    k = next(k for k in frames.WIDTHS if k * k >= bound)
    return k, laid + [padding(make.TAIL_PADDING)] * (k * k - len(laid)), None


# Squares read back.


def content_of(share, is_first, version, is_compact):
    """The content of a share of a sequence."""
    return share[30 + 4 * is_first + 4 * is_compact + 20 * (is_first and version == 1) :]


def joined(shares, is_compact):
    """The sequences of shares, each with its first share's number, version and bytes; raises the fault of the first share
    that has one, with its number."""
    done, open_one = [], None
    for i, share in enumerate(shares):
        version, is_first = divmod(share[29], 2)
        if open_one is None:
            first, name, of, size, data = i, share[:29], version, int.from_bytes(share[30:34], "big"), b""
        if version != of or version > (0 if is_compact else 1):
            raise Fault(3, i)
        if share[:29] != name:
            raise Fault(7, i)
        if open_one is not None and is_first:
            raise Fault(2, first)
        if open_one is None and (not is_first or is_compact and done):
            raise Fault(1, i)
        content = content_of(share, bool(is_first), version if size else 0, is_compact)
        if any(content[size - len(data) :]):
            raise Fault(4, i)
        signer = share[34:54] if is_first and version == 1 and size else signer_of(open_one)
        data += content[: size - len(data)]
        open_one = (first, version, name, data, signer)
        if len(data) == size:
            done.append(open_one)
            open_one = None
    if open_one is not None:
        raise Fault(2, first)
    return done


def signer_of(open_one):
    return b"" if open_one is None else open_one[4]


class Fault(Exception):
    """The number of a fault, and that of the share that has it."""


def share_at(place):
    """The share of the content of a compact sequence in which a byte stands, and where in it."""
    return (0, 38 + place) if place < 474 else (1 + (place - 474) // 478, 34 + (place - 474) % 478)


def units_of(shares):
    """The units that shares are."""
    text = b"".join(found[3] for found in joined(shares, True))
    units, at, starts = [], 0, {}
    while at < len(text):
        share, place = share_at(at)
        starts.setdefault(share, place)
        found = varint(text, at)
        if found is None or shortest(found[0]) != text[at : found[1]] or found[0] >= 2**32 or sum(found) > len(text):
            raise Fault(5, share)
        units.append(text[found[1] : sum(found)])
        at = sum(found)
    for i, share in enumerate(shares):
        front = 30 if i else 34
        if int.from_bytes(share[front : front + 4], "big") != starts.get(i, 0):
            raise Fault(6, i)
    return units


def run_of(shares, namespace):
    """How many shares of a namespace stand in front."""
    return next((i for i, share in enumerate(shares) if share[:29] != namespace), len(shares))


def unwrapped(unit):
    """The transaction and the places of a wrapped payment, or none."""
    some = fields(unit)
    tx, told, places, at = some and last(some, 1, 2), some and last(some, 2, 2), [], 0
    while some and at < len(told):
        found = varint(told, at)
        if found is None:
            return None
        places, at = places + [found[0]], found[1]
    is_one = some and places and max(places) < 2**32 and wrapped(tx, places) == unit
    return (tx, places) if is_one else None


def blob_at(shares, place):
    """The blob whose sequence begins at a place, or none."""
    if place >= len(shares):
        return None
    share = shares[place]
    is_signed, size = share[29] // 2 == 1, int.from_bytes(share[30:34], "big")
    count = len(make.blob_shares(bytes(29), bytes(size), bytes([1]) * 20 * is_signed)) if size < 2**28 else len(shares) + 1
    try:
        found = [it for it in joined(shares[place : place + count], False) if it[3]]
    except Fault:
        return None
    if len(found) != 1:
        return None
    _, version, name, data, signer = found[0]
    return Blob(name[1:], data, version, name[0], signer)


def back(k, shares):
    """The list that is laid out as a square, in its one spelling, and the note of why there is none."""
    runs, at = [], 0
    for namespace, number in SHARES.items():
        front = shares[at : at + run_of(shares[at:], namespace)]
        try:
            runs.append(units_of(front))
        except Fault as fault:
            return None, f"{number} {fault.args[0]} {fault.args[1]}"
        at += len(front)
    payments = []
    for i, unit in enumerate(runs[1]):
        found = unwrapped(unit)
        if found is None:
            return None, f"3 {i}"
        blobs = [blob_at(shares, place) for place in found[1]]
        if None in blobs:
            return None, f"4 {i} {blobs.index(None)}"
        payments.append(Payment(found[0], blobs))
    listed = runs[0] + [spelled(payment) for payment in payments]
    units, payments, fault = read(listed)
    if fault is None:
        width, laid, fault = square_of(units, payments)
    if fault is not None:
        return None, "5 0"
    if laid == shares:
        return listed, None
    if width != k:
        return None, f"5 {min(width, k) ** 2}"
    return None, f"5 {next(i for i, share in enumerate(shares) if share != laid[i])}"


# The commands: each answers its output, its status and its note.


def list_in(name):
    return value_of(name, frames.Form(0, False, "T")).raw


def value_of(name, form):
    [(_, _, value)] = frames.judged(frames.read_file(name, 0), form)
    return value


def build(name):
    units, payments, fault = read(list_in(name))
    if fault is None:
        k, shares, fault = square_of(units, payments)
    if fault is not None:
        raise frames.Note(8, f"bad block: {fault}")
    return make.square(k, shares)


def commitment(blob):
    """The commitment of a blob ("Subtrees")."""
    shares = shares_of(blob)
    sizes, leaves, at, roots = make.cut(len(shares), make.subtree_width(len(shares))), [], 0, []
    leaves = [make.leaf(share[:29], share) for share in shares]
    for size in sizes:
        roots.append(make.root(leaves[at : at + size]))
        at += size
    return make.plain_root(roots).hex()


def commit(name):
    build(name)
    _, payments, _ = read(list_in(name))
    return "".join(f"{commitment(blob)}\n" for payment in payments for blob in payment.blobs).encode()


def find(name, digits):
    shares = value_of(name, frames.SQUARE).shares
    front = next((i for i, share in enumerate(shares) if share[:29] not in SHARES), len(shares))
    try:
        found = joined(shares[front:], False)
    except Fault as fault:
        raise frames.Note(9, f"bad request: shares {fault.args[0]} {fault.args[1]}") from None
    lines = []
    for first, version, namespace, data, signer in found:
        blob = Blob(namespace[1:], data, version, namespace[0], signer)
        if data and commitment(blob) == digits.lower():
            lines.append(f"{front + first} {len(shares_of(blob))}\n")
    if not lines:
        raise frames.Note(13, "refused")
    return "".join(lines).encode()


def transactions(name):
    square = value_of(name, frames.SQUARE)
    listed, fault = back(square.k, square.shares)
    if fault is not None:
        raise frames.Note(9, f"bad request: transactions {fault}")
    return frames.frame(ord("T"), frames.spell_strings(listed))


RUNS = {"build": build, "commit": commit, "transactions": transactions, "find": find}


def ran(command, *words):
    """The output, the status and the note of a command."""
    try:
        return RUNS[command](*words), 0, ""
    except frames.Note as note:
        return b"", note.status, note.text


def row_of(folder):
    """The words, the status, the note and the judges of a row."""
    with open(os.path.join(folder, "row"), encoding="utf-8") as file:
        lines = [line.rstrip("\n").split(": ", 1) for line in file]
    parts = dict(lines)
    judges = [value for key, value in lines if key == "judge"]
    return shlex.split(parts["words"]), int(parts["status"]), parts.get("note", ""), judges


def is_right(folder, output, judges):
    """Whether a row's output, or its judges, are what is given."""
    path = os.path.join(folder, "stdout")
    want = b"" if judges or not os.path.exists(path) else open(path, "rb").read()
    forms = {"size": lambda: str(len(output)), "front": lambda: output.hex(), "sha256": lambda: hashlib.sha256(output).hexdigest()}
    told = [judge.split() for judge in judges]
    return all(forms[form]().startswith(value) for form, value in told) if judges else output == want


def rows():
    """Runs the rows whose first word is a list or a square, but of those that are made."""
    count = failed = 0
    for command in COMPARED:
        home = os.path.join(TOP, "rows", command)
        for name in sorted(os.listdir(home)) if os.path.isdir(home) else []:
            folder = os.path.join(home, name)
            words, status, note, judges = row_of(folder)
            path = os.path.join(folder, COMPARED[command])
            if words[1:2] != [COMPARED[command]] or not os.path.exists(path):
                continue
            output, *rest = ran(command, path, *words[2:])
            count += 1
            if rest != [status, note] or not is_right(folder, output, judges):
                failed += 1
                print(f"FAILED {command}/{name}: status and note {rest}, {len(output)} bytes")
    print(f"{count - failed} passed, {failed} failed")
    return failed > 0


def main():
    form = argparse.RawDescriptionHelpFormatter
    parser = argparse.ArgumentParser(description=__doc__, formatter_class=form)
    parser.add_argument("command", choices=RUNS, nargs="?")
    parser.add_argument("words", nargs="*")
    words = parser.parse_args()
    if words.command is None:
        return rows()
    if len(words.words) != (2 if words.command == "find" else 1):
        parser.error(f"{words.command} takes other words")
    output, status, note = ran(words.command, *words.words)
    sys.stdout.buffer.write(output)
    if note:
        print(note, file=sys.stderr)
    return status


if __name__ == "__main__":
    sys.exit(main())
