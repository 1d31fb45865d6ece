"""What a node does with strangers on its port: broken frames, half frames, frames of others, and many connections."""

import contextlib
import os
import random
import socket
import struct
import threading
import time
from collections.abc import Iterator

import pytest

from cluster_oracle import check
from cluster_users import (ANSWER, AWAY, BATCH, LINK, QUERY, REFUSED, STANDING, Users, about, batch, frame, frames,
                           greeting, request)
from clusters import Cluster
from started import memory_of
from waiting import pace, pass_time, until

SEED = int(os.environ.get("HOBBYCHAIR_TEST_SEED", "1"))
COUNT = int(os.environ.get("HOBBYCHAIR_TEST_REQUESTS", "300"))


@pytest.fixture(scope="module")
def running(tmp_path_factory) -> Iterator[tuple[Cluster, Users]]:
    """A cluster with users, who are answered whatever strangers do."""
    cluster = Cluster(tmp_path_factory.mktemp("hostile"), size=2)
    users = Users(cluster, SEED)
    try:
        yield cluster, users
        users.stop()
        # Who says nothing at first has five seconds.
        assert users.longest_silence(users.records[20].at) < 4
        check(cluster, users)
        assert cluster.detected() == []
    except BaseException:
        print(cluster.said())
        raise
    finally:
        cluster.end()


def connect(cluster: Cluster, server: int = 1) -> socket.socket:
    one = socket.create_connection(("127.0.0.1", cluster.node(server).port))
    one.settimeout(20)
    return one


def read(one: socket.socket) -> tuple[int, bytes]:
    """The kind of the next frame, and what is in it; nothing of a connection that has ended."""
    file = one.makefile("rb")
    for data in frames.frames(file):
        return data[1], data[2:]
    return -1, b""


def ends(one: socket.socket) -> bool:
    try:
        while data := one.recv(1 << 16):
            assert len(data) < 1 << 20
        return True
    except ConnectionResetError:
        return True


def hello(cluster: Cluster, sender: int, nonce: str, to: int) -> bytes:
    return frame(LINK, about(cluster) + struct.pack("<I", sender) + frames.text(nonce) + struct.pack("<II", to, 0))


def test_bytes_that_are_no_greeting_end_the_connection(running):
    cluster, _ = running
    for data in [b"GET / HTTP/1.1\r\n\r\n", b"\xff\xff\xff\xff", frames.frame(b""), frames.frame(b"\2\0"),
                 frames.frame(b"\1\x63"), frame(BATCH, b""), greeting(cluster)[:-3] + b"\0" * 200, struct.pack("<I", 70_000)]:
        with connect(cluster) as one:
            one.sendall(data)
            one.shutdown(socket.SHUT_WR)
            assert ends(one), data
    cluster.node(1).logs("a connection ends from=127.0.0.1")


def test_random_bytes_take_no_memory(running):
    cluster, users = running
    generator = random.Random(SEED)
    before, answers = memory_of(cluster.node(1).process.pid), len(users.records)
    for _ in range(COUNT):
        with connect(cluster) as one:
            good = generator.choice([greeting(cluster), hello(cluster, 2, "x", 1), batch(1, [b"x"])])
            data = bytearray(good + generator.randbytes(generator.randint(0, 2000)))
            for _ in range(generator.randint(0, 3)):
                data[generator.randrange(len(data))] = generator.randrange(256)
            try:
                one.sendall(bytes(data[: generator.randint(1, len(data))]))
            except ConnectionError:
                pass
    until(lambda: len(users.records) > answers + 20, 30, "users aren't answered")
    until(lambda: memory_of(cluster.node(1).process.pid) - before < 30_000, 10, "it takes memory for strangers")


def test_links_of_others_are_turned_away(running):
    cluster, _ = running
    for sender, nonce, to, why in [(2, "x", 1, "another process"), (9, "x", 1, "isn't known"), (2, "x", 7, "not 7")]:
        with connect(cluster) as one:
            one.sendall(hello(cluster, sender, nonce, to))
            kind, said = read(one)
            assert kind == AWAY and why in said.decode(), said
            assert ends(one)
    other = frame(LINK, frames.text("tested") + frames.text("0") + struct.pack("<I", 2) + frames.text("x") + struct.pack("<II", 1, 0))
    with connect(cluster) as one:
        one.sendall(other)
        assert read(one)[0] == AWAY
    cluster.node(1).logs("it is turned away")


def test_a_connection_that_says_nothing_ends_and_too_many_are_turned_away(running):
    cluster, users = running
    answers = len(users.records)
    held = [connect(cluster) for _ in range(100)]
    for one in held[:50]:
        try:
            one.sendall(b"\x20\0")
        except ConnectionError:
            pass
    begun = time.monotonic()
    assert all(ends(one) for one in held)
    assert time.monotonic() - begun < 15
    for one in held:
        one.close()
    cluster.node(1).logs("gave way to others")
    until(lambda: len(users.records) > answers + 20, 30, "users aren't answered")


def test_strangers_who_come_again_and_again_keep_nobody_out(running):
    cluster, _ = running
    is_over = threading.Event()

    def come() -> None:
        held: list[socket.socket] = []
        while not is_over.is_set():
            held.append(connect(cluster))
            # The first ones stay.
            if len(held) > 90:
                held.pop(70).close()
            pace(0.001)

    strangers = threading.Thread(target=come)
    strangers.start()
    try:
        pass_time(0.5, "all places are taken by then")
        for _ in range(10):
            until(lambda: is_greeted(cluster), 10, "who says whom it is about is kept out")
    finally:
        is_over.set()
        strangers.join()


def test_there_is_room_for_so_many_clients(running):
    cluster, _ = running
    with contextlib.ExitStack() as all:
        kinds = []
        for _ in range(300):
            one = all.enter_context(connect(cluster, 2))
            one.sendall(greeting(cluster, 5000, 5000))
            kinds.append(read(one)[0])
        assert kinds.count(AWAY) >= 44 and kinds[:200] == [STANDING] * 200
    until(lambda: is_greeted(cluster, 2), 20, "those who are gone keep their places")


def answered(coming: Iterator[bytes], last: int) -> list[int]:
    """The clients whose answers come among these frames, up to that of the last one."""
    clients: list[int] = []
    for data in coming:
        if data[1] == ANSWER:
            clients.append(frames.Reader(data[6:]).message()["client"])
            if clients[-1] == last:
                break
    return clients


def is_greeted(cluster: Cluster, server: int = 1) -> bool:
    with connect(cluster, server) as one:
        try:
            one.sendall(greeting(cluster, 5000, 5000))
            return read(one)[0] == STANDING
        except (EOFError, OSError):
            return False


def test_many_connections_of_clients_come_and_go(running):
    cluster, _ = running
    before = memory_of(cluster.node(1).process.pid)
    for _ in range(COUNT):
        with connect(cluster) as one:
            one.sendall(greeting(cluster, 5000, 5000) + frame(QUERY, struct.pack("<Q", 1) + frames.run(b"")))
    until(lambda: memory_of(cluster.node(1).process.pid) - before < 30_000, 20, "it keeps what it had for connections")


def test_a_stream_ends_at_its_first_refusal(running):
    cluster, _ = running
    send = {"kind": "send", "queue": "q.fifo", "group": "a", "body": "b"}
    good = [request(6000 + number, 1, send | {"dedup": f"refusals-{number}"}) for number in range(4)]
    with connect(cluster) as one, connect(cluster, 2) as tail:
        tail.sendall(greeting(cluster, 6000, 6009))
        answers = frames.frames(tail.makefile("rb"))
        # It is told of all that comes from now on.
        assert next(answers)[1] == STANDING
        one.sendall(greeting(cluster, 6000, 6009))
        assert read(one)[0] == STANDING
        # The second request is none: neither it nor the third is taken, and the fourth comes by a stream that has ended.
        one.sendall(batch(1, [good[0], b"bad", good[1]]) + batch(1, [good[2]]))
        kind, said = read(one)
        assert kind == REFUSED and struct.unpack_from("<Q", said)[0] == 1
        one.sendall(batch(2, [good[3]]))
        assert answered(answers, 6003) == [6000, 6003]
    with connect(cluster, 2) as one:
        one.sendall(greeting(cluster, 6000, 6009))
        assert read(one)[0] == STANDING
        one.sendall(batch(1, [good[0]]))
        kind, said = read(one)
        assert (kind, struct.unpack_from("<QI", said)) == (REFUSED, (1, 40)), "it isn't the head"
