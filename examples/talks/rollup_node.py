#!/usr/bin/env python3
"""A rollup node: asks its peers for its namespaces at each height, and forwards what they send to `da attend`.

    rollup_node.py ROOTS HEADERS WANTED SECONDS PEER..

Line J of ROOTS, counted from 0, is the data root of height J that the chain agreed on, HEADERS/J a header of it that somebody sent.
WANTED has the requests for the namespaces. A peer answers for height J behind the socket PEER-J as `da hold` does; all are asked at
once, until all namespaces are known or so many SECONDS are over. The lines of `da attend` are printed as they come, the status is its
own; where a header is another one, the last line is `another header`, and the status is 1. DA names the program `da`, where it isn't
on the path.
"""

import asyncio
import os
import sys

sys.dont_write_bytecode = True
from talk import HEAD, Peer, Talk, da, is_answer, most_of_answer  # noqa: E402


class Attend(Talk):
    """`da attend`: its lines, and how many namespaces aren't known yet at the height under way."""

    def __init__(self, child):
        super().__init__(child)
        self.height, self.left, self.known = -1, 0, asyncio.Event()

    async def read(self):
        while line := await self.child.stdout.readline():
            print(line.decode(), end="", flush=True)
            word, number, *_, last = line.split()
            if word == b"height" and int(number) == self.height and last != b"missing":
                self.left -= 1
                if not self.left:
                    self.known.set()

    async def say(self, content, sender=None):
        """Forwards a frame. An answer of a peer that is in no grammar would end the talk: it ends its peer."""
        if sender and not is_answer(content[HEAD:]):
            raise ValueError
        await super().say(content, sender)

    async def follow(self, header, requests, peers, seconds):
        """Begins the next height, and asks peers for its namespaces."""
        self.height, self.left = self.height + 1, len({requests[at : at + 34] for at in range(0, len(requests), 34)})
        self.known.clear()
        await self.say(header)
        asked = [Peer(f"{peer}-{self.height}") for peer in peers]
        asking = asyncio.gather(*(peer.answer(requests, {b"N": most_of_answer(header)}, seconds, self) for peer in asked))
        both = asking, asyncio.create_task(self.known.wait())
        await asyncio.wait(both, return_when=asyncio.FIRST_COMPLETED)
        for one in both:
            one.cancel()
        await asyncio.gather(*both, return_exceptions=True)


async def attend(roots, headers, wanted, seconds, peers):
    """The status of `attend`, none where a header is another one."""
    talk = await Attend.start("attend", wanted)
    with open(wanted, "rb") as file:
        requests = file.read()
    for number, root in enumerate(roots):
        path = os.path.join(headers, str(number))
        if da("root", path, root)[0]:
            await talk.end()
            return None
        with open(path, "rb") as file:
            await talk.follow(file.read(), requests, peers, seconds)
    status, _ = await talk.end()
    return status


def main(roots, headers, wanted, seconds, *peers):
    with open(roots, encoding="ascii") as file:
        status = asyncio.run(attend(file.read().split(), headers, wanted, float(seconds), peers))
    if status is None:
        print("another header")
        return 1
    return status


if __name__ == "__main__":
    sys.exit(main(*sys.argv[1:]))
