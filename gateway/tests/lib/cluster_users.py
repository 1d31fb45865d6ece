"""Users of a cluster: each has a client number of its own and one request open. What was asked and answered is kept."""

import asyncio
import importlib.machinery
import os
import random
import struct
import threading
import time
import types
from dataclasses import dataclass, field
from typing import Any

from clusters import NAME, Cluster
from started import TOP
from waiting import time_until

frames = types.ModuleType("frames")
importlib.machinery.SourceFileLoader("frames", str(TOP / "check" / "frames")).exec_module(frames)

# That of the random numbers of a run.
SEED = int(os.environ.get("HOBBYCHAIR_TEST_SEED", "1"))

QUEUE = "q.fifo"
LINK, CLIENT, MESSAGE, GONE, PING, BATCH, QUERY, FRONT, REACH, WELCOME, RECEIVED, STANDING, ANSWER, REFUSED, AWAY = (
    0, 1, 2, 3, 4, 5, 6, 7, 8, 16, 17, 18, 19, 20, 21)


def frame(kind: int, data: bytes) -> bytes:
    return frames.frame(bytes([1, kind]) + data)


def about(cluster: Cluster) -> bytes:
    return frames.text(NAME) + frames.text(cluster.incarnation)


def greeting(cluster: Cluster, first: int = 0, last: int = 2**32 - 1) -> bytes:
    """The first frame of a client's connection."""
    return frame(CLIENT, about(cluster) + struct.pack("<II", first, last))


def request(client: int, number: int, ask: dict[str, Any]) -> bytes:
    return struct.pack("<IQ", client, number) + frames.ask(ask)


def batch(stream: int, requests: list[bytes]) -> bytes:
    return frame(BATCH, struct.pack("<QI", stream, len(requests)) + b"".join(frames.run(one) for one in requests))


@dataclass
class Open:
    """A request that waits for its answer."""

    client: int
    number: int
    ask: dict[str, Any]
    at: float
    answered: asyncio.Event = field(default_factory=asyncio.Event)

    def bytes(self) -> bytes:
        return request(self.client, self.number, self.ask)


@dataclass
class Answered:
    """An answer that closed a request."""

    client: int
    number: int
    ask: dict[str, Any]
    asked: float
    at: float
    length: int
    reply: dict[str, Any]
    server: int


class Users(threading.Thread):
    """Some users, who ask at the head and hear all servers, until they are told to stop."""

    def __init__(self, cluster: Cluster, seed: int, count: int = 8, think: float = 0.02) -> None:
        super().__init__(daemon=True)
        self.cluster, self.random, self.count, self.think = cluster, random.Random(seed), count, think
        self.records: list[Answered] = []
        self.heard: list[tuple[int, dict[str, Any]]] = []
        self.open: dict[int, Open] = {}
        self.lengths: dict[int, int] = {}
        self.receipts: list[str] = []
        self.writers: dict[int, asyncio.StreamWriter] = {}
        self.head, self.stream, self.may_ask = 0, 0, False
        self.ends = False
        # What the wall clock showed when the other clock was 0: here it isn't set meanwhile.
        self.wall_at_zero = time.time() - time.monotonic()
        self.fault: BaseException | None = None
        self.start()

    def run(self) -> None:
        try:
            asyncio.run(self.live())
        except BaseException as fault:
            self.fault = fault
            raise

    def stop(self) -> None:
        """Ends behind the answers to what is open, or after ten seconds."""
        self.ends = True
        self.join(30)
        assert not self.is_alive() and self.fault is None, f"the users don't end: {self.fault}"

    def longest_silence(self, since: float) -> float:
        """The longest time without an answer from then on."""
        times = [since] + [one.at for one in self.records if one.at > since]
        return max(b - a for a, b in zip(times, times[1:] + [max(times[-1], since)]))

    async def live(self) -> None:
        self.again = asyncio.Event()
        tasks = [asyncio.ensure_future(task) for task in (self.follow(), self.ask_again())]
        users = [asyncio.ensure_future(self.use(client)) for client in range(1, self.count + 1)]
        while not self.ends:
            await asyncio.sleep(0.05)
            failed = [task for task in tasks + users if task.done() and task.exception()]
            if failed:
                raise failed[0].exception()
        await asyncio.wait(users, timeout=10)
        for task in tasks + users:
            task.cancel()
        await asyncio.gather(*tasks, *users, return_exceptions=True)

    # ---- what users do

    async def use(self, client: int) -> None:
        number = 0
        while not self.ends:
            number += 1
            one = Open(client, number, self.next_ask(client, number), time.monotonic())
            self.open[client] = one
            self.send(self.head, [one])
            await one.answered.wait()
            await asyncio.sleep(self.random.expovariate(1 / self.think))

    def next_ask(self, client: int, number: int) -> dict[str, Any]:
        if number == 1 and client == 1:
            return {"kind": "create", "queue": QUEUE}
        kind = self.random.choice(["send"] * 5 + ["receive"] * 3 + ["delete"] * 2 + ["change"])
        if kind == "send":
            body = f"{client}-{number}-" + "x" * self.random.randint(0, 300)
            return {"kind": kind, "queue": QUEUE, "group": f"g{client}", "dedup": f"{client}-{number}", "body": body}
        if kind == "receive" or not self.receipts:
            return {"kind": "receive", "queue": QUEUE, "size": self.random.randint(1, 10), "visibility": self.random.randint(0, 3)}
        receipt = self.random.choice(self.receipts[-40:])
        return {"kind": kind, "queue": QUEUE, "receipt": receipt} | ({"visibility": self.random.randint(0, 4)} if kind == "change" else {})

    # ---- streams

    def send(self, server: int, requests: list[Open]) -> None:
        writer = self.writers.get(server)
        if writer is not None and self.may_ask and requests:
            for at in range(0, len(requests), 100):
                writer.write(batch(self.stream, [one.bytes() for one in requests[at:at + 100]]))

    async def ask_again(self) -> None:
        """A new stream, and all that is open, in its order."""
        while True:
            await self.again.wait()
            self.again.clear()
            self.stream += 1
            self.may_ask = self.head in self.writers
            self.send(self.head, sorted((one for one in self.open.values()), key=lambda one: one.at))
            await asyncio.sleep(0.05)

    async def follow(self) -> None:
        """Learns who is head, and keeps a connection to each server."""
        tasks: dict[int, asyncio.Task] = {}
        while True:
            chain = await asyncio.get_running_loop().run_in_executor(None, self.cluster.chain)
            for server in chain["members"]:
                if server not in tasks or tasks[server].done():
                    tasks[server] = asyncio.ensure_future(self.connect(server))
            if chain["members"][0] != self.head:
                self.head, self.may_ask = chain["members"][0], False
                self.again.set()
            await asyncio.sleep(0.05)

    async def connect(self, server: int) -> None:
        port = self.cluster.port(server)
        if port is None:
            return
        try:
            secured = self.cluster.secured_as("node", "user")
            reader, writer = await asyncio.open_connection("127.0.0.1", port, **secured)
        except OSError:
            return
        try:
            writer.write(greeting(self.cluster))
            acts = False
            while True:
                length = struct.unpack("<I", await reader.readexactly(4))[0]
                data = await reader.readexactly(length)
                kind, rest = data[1], data[2:]
                if kind == STANDING:
                    is_first = server not in self.writers
                    self.writers[server] = writer
                    is_acting = rest[5] == 1
                    # What it has taken before it acts, it answers to nobody.
                    if is_first and server == self.head or is_acting and not acts:
                        self.again.set()
                    acts = is_acting
                elif kind == ANSWER:
                    self.answer(server, rest[4:])
                elif kind == REFUSED and server == self.head and struct.unpack_from("<Q", rest)[0] == self.stream:
                    self.may_ask = False
                    asyncio.get_running_loop().call_later(0.05, self.again.set)
        except (OSError, asyncio.IncompleteReadError):
            pass
        finally:
            if self.writers.get(server) is writer:
                del self.writers[server]
            writer.close()

    def answer(self, server: int, data: bytes) -> None:
        message = frames.Reader(data).message()
        self.heard.append((server, message))
        one = self.open.get(message["client"])
        if message["query"] or one is None or one.number != message["number"] or one.answered.is_set():
            return
        if message["length"] <= self.lengths.get(one.client, 0):
            return
        self.lengths[one.client] = message["length"]
        self.receipts += [delivery["receipt"] for delivery in message["reply"].get("messages", [])]
        del self.open[one.client]
        self.records.append(Answered(one.client, one.number, one.ask, one.at, time.monotonic(), message["length"],
                                     message["reply"], server))
        one.answered.set()


def answered(users: Users, seconds: float = 30) -> float:
    """Waits for answers to requests that were asked from now on, and tells for how long."""
    now = time.monotonic()
    return time_until(lambda: len([one for one in users.records[-30:] if one.asked > now]) > 5, seconds, "nobody is answered")
