"""A raw client of calls, as a front has one (docs/CLUSTER.md, "Calls")."""

from __future__ import annotations

import hashlib
import json
import select
import socket
import struct
import threading
import time
from collections.abc import Iterable
from dataclasses import dataclass, field
from typing import Any

from cluster_users import frame, frames

CALL, GONE, ALIVE, ANSWER, PIECE, TIME = 0, 1, 2, 16, 17, 18

UPGRADE = b"GET / HTTP/1.1\r\nUpgrade: hobbychair-calls-1\r\nConnection: upgrade\r\n\r\n"

# So many bytes of a body are in one frame, and so many are in a frame at most.
LONGEST_PIECE, FRAME_LIMIT = 64 << 10, 192 << 10

# A front that says nothing for so long isn't there any more, in seconds.
QUIET = 5


@dataclass
class Answer:
    """An answer to a call, as far as it has come."""

    status: int
    headers: dict[str, str]
    pieces: list[bytes] = field(default_factory=list)
    is_whole: bool = False

    def body(self) -> bytes:
        return b"".join(self.pieces)

    def members(self) -> dict[str, Any]:
        return json.loads(self.body())


def headers(pairs: list[tuple[str, str]]) -> bytes:
    return struct.pack("<I", len(pairs)) + b"".join(frames.text(name) + frames.text(value) for name, value in pairs)


def call(number: int, body: bytes = b"", more: Iterable[tuple[str, str]] = (), method: str = "POST", target: str = "/") -> bytes:
    """The frame of a call."""
    said = headers([("host", "localhost"), *more])
    return frame(CALL, struct.pack("<Q", number) + frames.text(method) + frames.text(target) + said + frames.run(body))


def asking(number: int, action: str, name: str = "", is_again: bool = False, **members: Any) -> bytes:
    """The frame of a call for an action of SQS, in JSON. The call may have a name, by which it is known again."""
    said = [("x-amz-target", f"AmazonSQS.{action}"), ("content-type", "application/x-amz-json-1.0")]
    said += [("amz-sdk-invocation-id", name)] if name else []
    said += [("x-hobbychair-again", "true")] if is_again else []
    return call(number, json.dumps(members).encode(), said)


def md5(text: str) -> str:
    return hashlib.md5(text.encode()).hexdigest()


def gone(number: int) -> bytes:
    return frame(GONE, struct.pack("<Q", number))


class Calls:
    """A connection of calls, as a front has one. `room`: so many bytes may come that nobody has read."""

    def __init__(self, port: int, room: int | None = None, upgrade: bytes = UPGRADE) -> None:
        self.socket = socket.socket()
        if room:
            self.socket.setsockopt(socket.SOL_SOCKET, socket.SO_RCVBUF, room)
        self.socket.settimeout(15)
        self.socket.connect(("127.0.0.1", port))
        self.socket.sendall(upgrade)
        self.file = self.socket.makefile("rb")
        self.head = list(iter(lambda: self.file.readline().strip().lower(), b""))
        self.frames = frames.frames(self.file)
        self.answers: dict[int, Answer] = {}
        # Of which calls frames came, in their order.
        self.order: list[int] = []
        self.times: list[int] = []
        # Held by who says something.
        self.saying = threading.Lock()

    def __enter__(self) -> Calls:
        return self

    def __exit__(self, *_: object) -> None:
        self.file.close()
        self.socket.close()

    def tell(self, data: bytes) -> None:
        with self.saying:
            self.socket.sendall(data)

    def read(self) -> int:
        """Reads a frame, and tells its kind; -1 at the end of the connection. Each answer comes once, and each piece behind it."""
        data = next(self.frames, None)
        if data is None:
            return -1
        assert len(data) <= FRAME_LIMIT
        reader, kind = frames.Reader(data[2:]), data[1]
        if kind == TIME:
            self.times += [reader.number(8)] if reader.flag() else []
            return kind
        number = reader.number(8)
        self.order.append(number)
        if kind == ANSWER:
            assert number not in self.answers, f"{number} is answered twice"
            status = reader.number(4)
            said = {reader.text(): reader.text() for _ in range(reader.number(4))}
            self.answers[number] = Answer(status, said)
        one = self.answers[number]
        assert kind in (ANSWER, PIECE) and not one.is_whole
        one.pieces.append(reader.run())
        one.is_whole = reader.flag()
        assert len(one.pieces[-1]) <= LONGEST_PIECE and reader.at == len(data) - 2
        return kind

    def answer(self, number: int) -> Answer:
        """The answer to a call once it is whole. However long that takes, this front is there."""
        while not (number in self.answers and self.answers[number].is_whole):
            kind = self.read()
            assert kind >= 0, f"the connection ends before {number} is answered"
            if kind == TIME:
                self.say_alive()
        return self.answers[number]

    def say_alive(self) -> None:
        """As a front does twice a second, unless it is saying something else or what it said is on its way still."""
        if self.saying.acquire(blocking=False):
            try:
                if select.select([], [self.socket], [], 0)[1]:
                    self.socket.sendall(frame(ALIVE, b""))
            except ConnectionError:
                # What came before its end is read still.
                pass
            finally:
                self.saying.release()

    def ask(self, number: int, action: str, name: str = "", is_again: bool = False, **members: Any) -> Answer:
        self.tell(asking(number, action, name, is_again, **members))
        return self.answer(number)

    def listen(self, seconds: float) -> None:
        """Reads for so long, and says that it is there."""
        end = time.monotonic() + seconds
        while time.monotonic() < end:
            # The time comes twice a second.
            assert self.read() >= 0, "the connection ends"
            self.tell(frame(ALIVE, b""))

    def ends(self) -> bool:
        """Whether the connection ends, whatever comes before."""
        try:
            while self.read() >= 0:
                pass
            return True
        except (ConnectionResetError, EOFError):
            return True
        except TimeoutError:
            return False
