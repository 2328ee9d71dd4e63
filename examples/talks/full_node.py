#!/usr/bin/env python3
"""A full node: asks its peers for the cells that don't follow yet, and forwards what they send to `da gather`.

    full_node.py ROOT HEADER OUTPUT COUNT SECONDS SOCKET..

ROOT is the data root that the chain agreed on, HEADER a file that somebody sent. A peer answers behind each SOCKET as `da hold` does. It
is asked for COUNT cells at a time, and then has so many SECONDS. Who lies, is silent or sends something else is dropped, which a line
says. The last line is `repaired`, and then the file OUTPUT is the square; `rejected`, and then it is a fraud claim; `missing`, and
then it has the missing cells; or `another header`. The status is 0 with the first alone. DA names the program `da`, where it isn't on
the path.
"""

import asyncio
import os
import random
import sys

sys.dont_write_bytecode = True
from talk import HEAD, STATE, Peer, Talk, da, most_bytes  # noqa: E402


def requests(reply):
    """Requests for the cells of a frame of kind K, along rows, in an order that is drawn; none for another reply."""
    cells = [reply[at : at + 4] for at in range(HEAD + 6, len(reply), 4)] if reply[:1] == b"K" else []
    random.shuffle(cells)
    return [b"Q\0\0\0\5" + cell + b"\0" for cell in cells]


async def missing(talk):
    """Requests for the cells that don't follow yet, none where the talk is over."""
    await talk.say(STATE)
    asked = asyncio.create_task(talk.replies.get())
    await asyncio.wait((asked, talk.reading), return_when=asyncio.FIRST_COMPLETED)
    return requests(asked.result()) if asked.done() else []


async def gather(header, count, seconds, peers):
    """The status and the verdict of `gather`, where it came or nobody brings another cell."""
    sample, _ = most_bytes(header)
    talk = await Talk.start("gather", header)
    wanted, before = await missing(talk), None
    while wanted and len(wanted) != before and (left := [peer for peer in peers if not peer.fate]):
        parts = [(wanted[i * count :] or wanted)[:count] for i, _ in enumerate(left)]
        await asyncio.gather(*(peer.answer(b"".join(part), {b"M": sample}, seconds, talk) for peer, part in zip(left, parts)))
        before, wanted = len(wanted), await missing(talk)
    return await talk.end()


def main(root, header, output, count, seconds, *sockets):
    if da("root", header, root)[0]:
        print("another header")
        return 1
    peers = [Peer(path) for path in sockets]
    status, last = asyncio.run(gather(header, int(count), float(seconds), peers))
    for peer in peers:
        if peer.fate:
            print(f"{os.path.basename(peer.path)}: {peer.fate}")
    with open(output, "wb") as file:
        file.write(last)
    print({0: "repaired", 10: "rejected", 11: "missing"}.get(status, f"da gather ended with {status}"))
    return status


if __name__ == "__main__":
    sys.exit(main(*sys.argv[1:]))
