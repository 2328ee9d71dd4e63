"""A client of a process that stays, by Python's asyncio: MODE ASKED TOLD WORD.. (tools/talk_clients says which modes there are)."""

import asyncio
import contextlib
import os
import signal
import sys

HEAD, REQUEST = 5, 10


async def frame(reader):
    head = await reader.readexactly(HEAD)
    return head + await reader.readexactly(int.from_bytes(head[1:], "big"))


async def say(writer, content):
    writer.write(content)
    await writer.drain()


async def ask(child, asked, told):
    answers = []
    for at in range(0, len(asked), REQUEST):
        await say(child.stdin, asked[at : at + REQUEST])
        answers.append(await frame(child.stdout))
    child.stdin.close()
    return b"".join(answers) + await child.stdout.read() == told and await child.wait() == 0


async def pour(child, asked, told):
    async def all_said():
        await say(child.stdin, asked)
        child.stdin.close()

    content, _ = await asyncio.gather(child.stdout.read(), all_said())
    return content == told and await child.wait() == 0


async def feed(child, frames, told):
    async def all_said():
        with contextlib.suppress(BrokenPipeError, ConnectionResetError):
            await say(child.stdin, frames)
        child.stdin.close()

    content, _ = await asyncio.gather(child.stdout.read(), all_said())
    return content == told and await child.wait() == 0


async def lines(reader):
    """The lines of a namespace: the first says how many follow."""
    first = await reader.readline()
    *_, word, count = first.split()
    return first + b"".join([await reader.readline() for _ in range(int(count) if word == b"blobs" else 0)])


async def attend(child, frames, told):
    content = b""
    while frames:
        size = HEAD + int.from_bytes(frames[1:HEAD], "big")
        await say(child.stdin, frames[:size])
        content += await lines(child.stdout) if frames[:1] == b"N" else b""
        frames = frames[size:]
    child.stdin.close()
    return content + await child.stdout.read() == told and await child.wait() == 0


async def die(child, asked, told):
    await say(child.stdin, asked[:REQUEST])
    await frame(child.stdout)
    await say(child.stdin, asked[REQUEST : REQUEST + 3])
    os.kill(os.getpid(), signal.SIGKILL)


async def leave(child, asked, sign):
    await say(child.stdin, asked)
    while not os.path.exists(sign):
        await asyncio.sleep(0.05)
    child._transport.get_pipe_transport(1).close()
    return await child.wait() == 4


async def main(mode, asked, told, words):
    pipe = asyncio.subprocess.PIPE
    child = await asyncio.create_subprocess_exec(*words, stdin=pipe, stdout=pipe)
    with open(asked, "rb") as file:
        asked = file.read()
    if mode != "leave":
        with open(told, "rb") as file:
            told = file.read()
    return await {"ask": ask, "pour": pour, "feed": feed, "attend": attend, "die": die, "leave": leave}[mode](child, asked, told)


sys.exit(0 if asyncio.run(main(*sys.argv[1:4], sys.argv[4:])) else 1)
