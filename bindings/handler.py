"""A handler on the VM by asyncio: it sleeps, reads its state, calls another handler, and sleeps again.

It is run against beginnings of the recorded journal `journal.hex`, one attempt each, as a runtime would: with the entries that were stored
by then. An attempt replays what is recorded, writes what comes next, and is suspended if a result isn't there yet; the last one finds
all of them, and ends.
"""

import asyncio
import pathlib
import struct
import sys

from palqytun import VM, Cancelled, Failure, Suspended

CONTENT_TYPE = "application/vnd.restate.invocation.v7"
NAMES = {2: "Suspension", 3: "Error", 4: "End", 11: "GetEagerState", 18: "Sleep", 19: "Call", 29: "Output"}


class Context:
    """The calls of a handler in one attempt. The bytes of the attempt come from a stream."""

    def __init__(self, vm, stream):
        self.vm = vm
        self.stream = stream

    async def more(self):
        """Feeds the next bytes of the stream, or its end."""
        data = await self.stream.read(64)
        if data:
            self.vm.notify_input(data)
        else:
            self.vm.notify_input_closed()

    async def input(self):
        while not self.vm.is_ready_to_execute():
            await self.more()
        return self.vm.sys_input().value

    async def result(self, handle):
        """The result of a handle, once it is there."""
        while not self.vm.do_await(handle):
            await self.more()
        result = self.vm.take_notification(handle)
        if isinstance(result, Failure):
            raise RuntimeError(result.message)
        return result

    async def sleep(self, until):
        await self.result(self.vm.sys_sleep(until))

    async def get(self, key):
        return await self.result(self.vm.sys_state_get(key))

    async def call(self, service, handler, value):
        _, answer = self.vm.sys_call(service, handler, value)
        return await self.result(answer)


async def greeter(context):
    """The handler."""
    name = await context.input()
    await context.sleep(1000)
    visits = await context.get("visits")
    greeting = await context.call("Greetings", "greet", name)
    await context.sleep(2000)
    return greeting + b", for the " + visits + b"th time"


async def attempt(handler, stream):
    """One attempt: what it ended with, which is nothing if it was suspended, and all that it sent."""
    # What it waits for it says once, when it is suspended.
    with VM(CONTENT_TYPE, awaiting="never") as vm:
        try:
            try:
                result = await handler(Context(vm, stream))
            except Cancelled as cancelled:
                result = Failure(409, str(cancelled))
            vm.sys_write_output(result)
            vm.sys_end()
        except Suspended:
            result = None
        return result, vm.take_output()


def start(known_entries):
    """The frame that begins an attempt: the invocation `abc`, whose whole state is that `visits` is 7, and this many entries."""
    text = lambda it: struct.pack(">Q", len(it)) + it
    state = struct.pack(">Q", 1) + text(b"visits") + text(b"7")
    body = text(b"abc") * 2 + text(b"") + struct.pack(">I", known_entries) + state + bytes(1 + 4 + 8 + 8 + 3)
    return struct.pack(">HQ", 1, len(body)) + body


def frames(stream):
    """The frames of a stream, each with its type."""
    at, found = 0, []
    while at < len(stream):
        kind, length = struct.unpack_from(">HQ", stream, at)
        found.append((kind, stream[at : at + 10 + length]))
        at += 10 + length
    return found


async def feed(stream, data):
    """What a connection brings: pieces that are cut anywhere."""
    for at in range(0, len(data), 31):
        stream.feed_data(data[at : at + 31])
        await asyncio.sleep(0)
    stream.feed_eof()


async def main():
    text = pathlib.Path(__file__).with_name("journal.hex").read_text()
    journal = [bytes.fromhex(line) for line in text.splitlines() if not line.startswith("#")]
    for known in (1, 3, 7, len(journal)):
        stream = asyncio.StreamReader()
        connection = asyncio.create_task(feed(stream, start(known) + b"".join(journal[:known])))
        result, output = await attempt(greeter, stream)
        await connection
        sent = frames(output)
        print(f"{known} entries are recorded; sent: {' '.join(NAMES[kind] for kind, _ in sent)}")
        print("suspended" if result is None else f"ended with {result!r}")
        # What was sent is what the journal has recorded next.
        commands = [frame for kind, frame in sent if kind >= 10 and kind != 29]
        recorded = [frame for frame in journal[known:] if frame[1] != 30]
        assert commands == recorded[: len(commands)]


if __name__ == "__main__":
    try:
        asyncio.run(main())
    except MemoryError as error:
        sys.exit(f"no memory: {error}")
