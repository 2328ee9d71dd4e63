#!/usr/bin/env python3
"""A light node: asks all its peers at once for the cells that it drew, and forwards what they send to `da watch`.

    light_node.py ROOT HEADER COUNT SECONDS CLAIM SOCKET..

ROOT is the data root that the chain agreed on, HEADER a file that somebody sent, COUNT how many cells are drawn. A peer answers behind
each SOCKET as `da hold` does, or with a fraud claim, and has so many SECONDS. A line says of each what became of it. The last line is
`available`; `rejected`, and then the file CLAIM is the fraud claim; `waiting`; or `another header`. The status is 0 with the
first alone. DA names the program `da`, where it isn't on the path.
"""

import asyncio
import os
import secrets
import sys
import tempfile

sys.dont_write_bytecode = True
from talk import Peer, Talk, da, most_bytes  # noqa: E402


async def judge(header, key, count, seconds, peers):
    """The status and the verdict of `watch`, where all have answered or the time is over."""
    _, requests = da("cells", header, key, count, "row")
    sample, claim = most_bytes(header)
    talk = await Talk.start("watch", header, key, count)
    await asyncio.gather(*(peer.answer(requests, {b"M": sample, b"B": claim}, seconds, talk) for peer in peers))
    return await talk.end()


def main(root, header, count, seconds, claim, *sockets):
    if da("root", header, root)[0]:
        print("another header")
        return 1
    peers = [Peer(path) for path in sockets]
    # The key is for this header alone, in a file that nobody else reads.
    with tempfile.NamedTemporaryFile("w") as key:
        key.write(secrets.token_hex(32))
        key.flush()
        status, last = asyncio.run(judge(header, "@" + key.name, count, float(seconds), peers))
    for peer in peers:
        print(f"{os.path.basename(peer.path)}: {peer.fate or 'answered'}")
    if status == 10:
        with open(claim, "wb") as file:
            file.write(last)
    print({0: "available", 10: "rejected", 14: "waiting"}.get(status, f"da watch ended with {status}"))
    return status


if __name__ == "__main__":
    sys.exit(main(*sys.argv[1:]))
