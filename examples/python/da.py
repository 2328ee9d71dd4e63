#!/usr/bin/env python3
"""Some commands of da, from Python: header SQUARE, root HEADER, check HEADER MESSAGE, verify HEADER ANSWER [REQUEST].

They print what da prints, and end with its statuses. MESSAGE is one frame. The library is the file that DA_LIBRARY
names, or dist/c/libda_c.so at the top of the repository; where it can't be loaded the status is 70.
"""

import ctypes
import os
import sys
from pathlib import Path

DONE, NO_MEMORY, BAD_INPUT, NO_HEADER, REFUSED, SHORT = 0, 5, 6, 9, 13, 15
USAGE, CANNOT_OPEN, CANNOT_READ, CANNOT_WRITE, TOO_LONG = 1, 2, 3, 4, 7  # of da, and of no call
ROOT_SIZE, HEADER_MAX, FILE_LIMIT = 32, 184327, 512 * 1024 * 1024


class Detail(ctypes.Structure):
    _fields_ = [(name, ctypes.c_uint64) for name in ("argument", "at", "refusal", "size")]


class Library:
    """The calls of libda_c.so, each over byte strings. A call gives its status and its detail."""

    def __init__(self, path):
        self.loaded = ctypes.CDLL(path)
        for name, frames, has_buffer in (
            ("da_check", 2, False),
            ("da_holds", 2, False),
            ("da_verify", 3, False),
            ("da_data_root", 1, True),
            ("da_header", 1, True),
        ):
            call = getattr(self.loaded, name)
            call.restype = ctypes.c_uint32
            call.argtypes = [ctypes.c_char_p, ctypes.c_size_t] * frames
            call.argtypes += [ctypes.c_void_p, ctypes.c_size_t] * has_buffer + [ctypes.POINTER(Detail)]

    def judge(self, name, *frames):
        detail = Detail()
        words = [word for frame in frames for word in (frame, len(frame))]
        return getattr(self.loaded, name)(*words, detail), detail

    def write(self, name, frame, room):
        """The output too, none where the status isn't 0."""
        detail, buffer = Detail(), ctypes.create_string_buffer(max(room, 1))
        status = getattr(self.loaded, name)(frame, len(frame), buffer, room, detail)
        return status, detail, buffer.raw[: detail.size] if status == DONE else b""


class Fault(Exception):
    """A status that no call answers, and the number of the file, if it is of one."""

    def __init__(self, status, argument=0):
        super().__init__(status)
        self.status, self.detail = status, Detail(argument=argument)


def note(status, detail):
    """The line that goes with a status."""
    return {
        USAGE: "usage: da COMMAND WORDS\n",
        CANNOT_OPEN: f"cannot open file {detail.argument}\n",
        CANNOT_READ: f"cannot read file {detail.argument}\n",
        CANNOT_WRITE: "cannot write\n",
        NO_MEMORY: "out of memory\n",
        BAD_INPUT: f"bad input: file {detail.argument} at {detail.at}\n",
        TOO_LONG: f"too long: file {detail.argument}\n",
        NO_HEADER: "bad request: no header\n",
        REFUSED: "refused\n",
    }.get(status, "")


def read_file(i, name):
    """The contents of file i."""
    try:
        file = open(name, "rb")
    except IsADirectoryError:
        raise Fault(CANNOT_READ, i) from None
    except (OSError, ValueError):
        raise Fault(CANNOT_OPEN, i) from None
    with file:
        try:
            data = file.read(FILE_LIMIT + 1)
        except OSError:
            raise Fault(CANNOT_READ, i) from None
    if len(data) > FILE_LIMIT:
        raise Fault(TOO_LONG, i)
    return data


def run(library, words):
    """The status, the output and the detail of a command."""
    call = {
        ("header", 1): "da_header",
        ("root", 1): "da_data_root",
        ("check", 2): "da_check",
        ("verify", 2): "da_holds",
        ("verify", 3): "da_verify",
    }.get(("".join(words[:1]), len(words) - 1))
    if not call:
        raise Fault(USAGE)
    files = [read_file(i, name) for i, name in enumerate(words[1:])]
    if call == "da_header":
        status, detail, output = library.write(call, files[0], HEADER_MAX)
    elif call == "da_data_root":
        status, detail, output = library.write(call, files[0], ROOT_SIZE)
        output = output.hex().encode() + b"\n" if output else b""
    else:
        status, detail = library.judge(call, *files)
        output = {DONE: b"ok\n", REFUSED: b"refused %d\n" % detail.refusal}.get(status, b"")
    return status, output, detail


def put(stream, data):
    """Writes all bytes to a standard stream, which is None where it is closed; false where they are lost."""
    if not data or stream is None:
        return not data
    try:
        stream.buffer.write(data)
        stream.flush()
        return True
    except OSError:
        # At its end Python would write what is left once more.
        os.dup2(os.open(os.devnull, os.O_WRONLY), stream.fileno())
        return False


def main(words):
    top = Path(__file__).resolve().parents[2]
    try:
        library = Library(os.environ.get("DA_LIBRARY") or top / "dist" / "c" / "libda_c.so")
    except OSError as error:
        put(sys.stderr, f"da.py: {error}\n".encode(errors="backslashreplace"))
        return 70
    try:
        status, output, detail = run(library, words)
    except Fault as fault:
        status, output, detail = fault.status, b"", fault.detail
    except MemoryError:
        status, output, detail = NO_MEMORY, b"", Detail()
    if not put(sys.stdout, output):
        status = CANNOT_WRITE
    put(sys.stderr, note(status, detail).encode())
    return status


if __name__ == "__main__":
    sys.exit(main(sys.argv[1:]))
