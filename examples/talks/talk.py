"""What the nodes in Python share: peers behind Unix sockets, and a `da` that stays, to which their frames are forwarded.

Each frame is read whole before a byte of it is forwarded, and what can't be a right answer ends its peer alone. So a peer that stops
within a frame, or sends one that would hide those of others, holds up nobody.
"""

import asyncio
import os
import subprocess

DA = os.environ.get("DA", "da")
HEAD, STATE = 5, b"A\0\0\0\0"


def da(*words):
    """The status and the output of a command."""
    ended = subprocess.run([DA, *words], stdout=subprocess.PIPE, stderr=subprocess.DEVNULL, check=False)
    return ended.returncode, ended.stdout


def most_bytes(header):
    """The most bytes of a sample's payload and of a fraud claim's under a header (docs/OPERATING.md, "Bytes of several peers")."""
    with open(header, "rb") as file:
        k = int.from_bytes(file.read(HEAD + 2)[HEAD:], "big")
    path = 90 * k.bit_length()
    return 518 + path, 8 + k * (606 + path)


def most_of_answer(header):
    """So of a namespace answer, under the header that a frame is."""
    k = int.from_bytes(header[HEAD : HEAD + 2], "big")
    return 31 + k * (8 + 512 * k + 180 * k.bit_length())


def is_answer(payload):
    """Whether a payload is a namespace answer in the grammar (docs/FORMATS.md, "Payloads"), whatever it says."""
    count, at = int.from_bytes(payload[29:31], "big"), 31
    for _ in range(count):
        tag, shares = payload[at + 2 : at + 3], 0
        if tag == b"\0":
            shares = int.from_bytes(payload[at + 5 : at + 7], "big")
            at += 7 + 512 * shares
        elif tag == b"\1":
            at += 95
        nodes = int.from_bytes(payload[at : at + 1], "big")
        if not tag or tag > b"\1" or shares > 512 or nodes > 20:
            return False
        at += 1 + 90 * nodes
    return count <= 512 and at == len(payload)


async def frame(reader, most=None):
    """The next frame, none at the end. With `most` it has to be of one of these kinds, and no longer than that."""
    head = await reader.read(1)
    if not head:
        return head
    head += await reader.readexactly(HEAD - 1)
    size = int.from_bytes(head[1:], "big")
    if most and size > most.get(head[:1], -1):
        raise ValueError
    return head + await reader.readexactly(size)


class Talk:
    """A `da` that stays. It notes of each frame who sent it, so that a refusal, which has the frame's number, names a peer."""

    def __init__(self, child):
        self.child, self.senders, self.last, self.replies = child, [], b"", asyncio.Queue()
        self.reading = asyncio.create_task(self.read())

    @classmethod
    async def start(cls, *words):
        pipe = asyncio.subprocess.PIPE
        return cls(await asyncio.create_subprocess_exec(DA, *words, "-", stdin=pipe, stdout=pipe, stderr=subprocess.DEVNULL))

    async def read(self):
        while reply := await frame(self.child.stdout):
            self.last = reply
            if reply[:1] == b"E":
                self.senders[int.from_bytes(reply[HEAD + 1 :], "big")].fate = "lied"
            else:
                self.replies.put_nowait(reply)

    async def say(self, content, sender=None):
        """Forwards a frame. Where nobody reads any more the last reply is there, or comes: that is no fault."""
        self.senders.append(sender)
        try:
            if not self.child.stdin.is_closing():
                self.child.stdin.write(content)
                await self.child.stdin.drain()
        except (BrokenPipeError, ConnectionResetError):
            pass

    async def end(self):
        """The status, and the last reply, which is the verdict."""
        self.child.stdin.close()
        await self.reading
        return await self.child.wait(), self.last


class Peer:
    """A peer behind a socket, and what became of it, if it is dropped."""

    def __init__(self, path):
        self.path, self.fate = path, ""

    async def answer(self, requests, most, seconds, talk):
        """Asks for some samples, and forwards what comes, for so many seconds."""
        try:
            await asyncio.wait_for(self.forward(requests, most, talk), seconds)
        except asyncio.TimeoutError:
            self.fate = self.fate or "silent"
        except (OSError, ValueError, asyncio.IncompleteReadError):
            self.fate = self.fate or "no answer"

    async def forward(self, requests, most, talk):
        reader, writer = await asyncio.open_unix_connection(self.path)
        try:
            writer.write(requests)
            writer.write_eof()
            while content := await frame(reader, most):
                if self.fate or talk.reading.done():
                    break
                await talk.say(content, self)
        finally:
            writer.close()
