"""Calls: what the gateway beside the head does with a front's requests over one connection, and a front with them."""

import http.client
import itertools
import json
import os
import random
import signal
import socket
import struct
import threading
import time
import urllib.parse
from collections import defaultdict
from collections.abc import Iterator
from functools import partial
from pathlib import Path
from typing import Any

import pytest

from calls_client import (
    ALIVE, ANSWER, CALL, FRAME_LIMIT, GONE, LONGEST_PIECE, QUIET, TIME, UPGRADE, Answer, Calls, asking, call, gone, headers, md5,
)
from cluster_users import frame, frames
from cluster_work import SLACK, TIMEOUT, UNANSWERED, Delivery, Served
from clusters import send
from operated import count_polls, polls as until_polls
from meanwhile import meanwhile
from ports import free_ports
from started import ByJson, memory_of
from waiting import pace, pass_time, until

SEED = int(os.environ.get("HOBBYCHAIR_TEST_SEED", "1"))
COUNT = int(os.environ.get("HOBBYCHAIR_TEST_REQUESTS", "300"))


class Telling(Served):
    """A cluster with a front, whose gateways have these options and tell figures at ports of their own."""

    def __init__(self, room: Path, size: int = 1, options: str = "") -> None:
        ports, file = free_ports(size), lambda number: room / f"gateway{number}.toml"
        for number, port in enumerate(ports, 1):
            file(number).write_text(f'{options}admin = "127.0.0.1:{port}"\n')
        # That of the first server's gateway.
        self.admin = f"http://127.0.0.1:{ports[0]}"
        super().__init__(room, size=size, words=lambda number: ["--gateway-config", str(file(number))])


@pytest.fixture(scope="module")
def served(tmp_path_factory) -> Iterator[Telling]:
    """A cluster of one node."""
    with Telling(tmp_path_factory.mktemp("calls"), options='request-memory = "64MiB"\n') as one:
        yield one
        assert "panicked" not in one.cluster.said()


names = (f"q{number}" for number in itertools.count())


def port_of(served: Served) -> int:
    return served.cluster.node(1).gateway_port


def new_queue(served: Served, **attributes: str) -> str:
    return served.queue(next(names), **attributes)


def gateway_of(served: Served, server: int = 1) -> int:
    return until(served.cluster.node(server).gateway, 20, "there is no gateway")


def polls_end(served: Telling) -> None:
    """Those of which nobody waits: long before their time is over, and before a front would count as gone that says nothing."""
    until(lambda: count_polls(served.admin) == 0, QUIET - 1, "polls go on of which nobody waits")


def is_there(served: Served, queue: str, body: str) -> None:
    """A message is sent and received at once: nobody else was given it."""
    served.sqs.send_message(QueueUrl=queue, MessageBody=body)
    got = served.receive(queue, WaitTimeSeconds=5)
    assert [message["Body"] for message in got] == [body]


# ---- the gateway's end


def test_many_calls_at_once_are_answered_each_once(served):
    queue, many = new_queue(served), [new_queue(served).rsplit("/", 1)[1] for _ in range(20)]
    with Calls(port_of(served)) as calls:
        assert calls.head[0].startswith(b"http/1.1 101 ") and any(one.startswith(b"x-hobbychair-time: ") for one in calls.head)
        sends = set(random.Random(SEED).sample(range(1, 1001), 500))
        told = [asking(number, "SendMessage", QueueUrl=queue, MessageBody=f"body {number}") if number in sends else
                asking(number, "GetQueueUrl", QueueName=many[number % 20]) for number in range(1, 1001)]
        calls.tell(b"".join(told))
        for number in range(1, 1001):
            answer = calls.answer(number)
            assert answer.status == 200 and int(answer.headers["x-hobbychair-time"]) > 0
            if number in sends:
                assert answer.members()["MD5OfMessageBody"] == md5(f"body {number}")
            else:
                assert answer.members() == {"QueueUrl": f"http://localhost/000000000000/{many[number % 20]}"}
        calls.listen(1)
        assert sorted(calls.order) == list(range(1, 1001)) and calls.times
    assert served.counts(queue) == [500, 0, 0]


def test_a_receive_of_ten_large_messages_comes_in_pieces_and_whole(served):
    queue = new_queue(served)
    bodies = {f"{number} " + chr(97 + number) * 300_000 for number in range(10)}
    for body in bodies:
        served.sqs.send_message(QueueUrl=queue, MessageBody=body)
    with Calls(port_of(served)) as calls:
        got = calls.ask(1, "ReceiveMessage", QueueUrl=queue, MaxNumberOfMessages=10, WaitTimeSeconds=2).members()["Messages"]
        assert {message["Body"] for message in got} == bodies and len(got) == 10
        *pieces, last = calls.answers[1].pieces
        assert {len(piece) for piece in pieces} == {LONGEST_PIECE} and len(pieces) >= 3_000_000 // LONGEST_PIECE and last


def test_small_answers_come_between_the_pieces_of_large_ones_and_these_take_turns(served):
    """More is answered than the system's buffers hold, so that the gateway has to wait with it."""
    queues = [new_queue(served) for _ in range(2)]
    for queue in queues:
        for _ in range(10):
            served.sqs.send_message(QueueUrl=queue, MessageBody="x" * 900_000)
    name = queues[0].rsplit("/", 1)[1]
    with Calls(port_of(served), room=32 << 10) as calls:
        for number, queue in enumerate(queues, 1):
            calls.tell(asking(number, "ReceiveMessage", QueueUrl=queue, MaxNumberOfMessages=10))
        while not calls.answers:
            assert calls.read() >= 0
        calls.tell(b"".join(asking(number, "GetQueueUrl", QueueName=name) for number in range(10, 20)))
        pass_time(0.5, "the large answers may come meanwhile, ahead of the small ones")
        for number in range(10, 20):
            assert calls.answer(number).members()["QueueUrl"].endswith(name)
        whole = [(number, len(one.pieces)) for number, one in calls.answers.items() if number < 10 and one.is_whole]
        assert whole == [], "small answers wait for all of a large one"
        for number in (1, 2):
            got = calls.answer(number).members()["Messages"]
            assert [message["Body"] for message in got] == ["x" * 900_000] * 10
        pieces = [number for number in calls.order if number < 10]
        assert sum(one != other for one, other in zip(pieces, pieces[1:])) > 50, "they come one after the other"


@pytest.mark.parametrize("how", ["gone", "closed", "half closed", "reset"])
def test_a_poll_of_which_nobody_waits_is_given_nothing(served, how):
    queue = new_queue(served)
    with Calls(port_of(served)) as calls:
        for number in range(1, 21):
            calls.tell(asking(number, "ReceiveMessage", QueueUrl=queue, WaitTimeSeconds=20, MaxNumberOfMessages=10))
        until_polls(served.admin, 20)
        calls.listen(1)
        assert calls.answers == {}
        if how == "gone":
            calls.tell(b"".join(map(gone, range(1, 21))))
        elif how == "half closed":
            calls.socket.shutdown(socket.SHUT_WR)
            assert calls.ends() and calls.answers == {}
        else:
            if how == "reset":
                calls.socket.setsockopt(socket.SOL_SOCKET, socket.SO_LINGER, struct.pack("ii", 1, 0))
            calls.file.close()
            calls.socket.close()
        polls_end(served)
        for number in range(3):
            is_there(served, queue, str(number))
        if how == "gone":
            calls.listen(0.6)
            assert calls.answers == {} and calls.ask(30, "ListQueues").status == 200


@pytest.mark.parametrize("how", ["gone", "closed"])
def test_what_is_asked_again_over_another_connection_has_the_same_answer(served, how):
    """As a front asks whose connection has ended, be the first call answered by then or not."""
    queue = new_queue(served)
    polling = {"QueueUrl": queue, "WaitTimeSeconds": 10, "MaxNumberOfMessages": 10}
    sending = {"QueueUrl": queue, "MessageBody": "a"}
    with Calls(port_of(served)) as second:
        with Calls(port_of(served)) as first:
            sent = first.ask(1, "SendMessage", f"send {how}", **sending)
            handed = first.ask(2, "ReceiveMessage", f"receive {how}", **polling)
        # Nobody has read those, as far as the gateway knows.
        assert second.ask(1, "SendMessage", f"send {how}", True, **sending).members() == sent.members()
        assert second.ask(2, "ReceiveMessage", f"receive {how}", True, **polling).members() == handed.members()
        with Calls(port_of(served)) as first:
            first.tell(asking(3, "ReceiveMessage", f"poll {how}", **polling))
            first.listen(0.3)
            if how == "gone":
                first.tell(gone(3))
        pass_time(0.05, "a front asks again so much later")
        second.tell(asking(3, "ReceiveMessage", f"poll {how}", True, **polling))
        pass_time(0.3, "the second one waits by then, and counts nothing where the first one does")
        served.sqs.send_message(QueueUrl=queue, MessageBody="later")
        begun = time.monotonic()
        assert [message["Body"] for message in second.answer(3).members()["Messages"]] == ["later"]
        assert time.monotonic() - begun < QUIET


def test_gone_of_calls_that_are_answered_or_were_never_asked_does_nothing(served):
    queue = new_queue(served)
    with Calls(port_of(served)) as calls:
        calls.tell(b"".join(map(gone, (0, 7, 2**64 - 1))))
        assert calls.ask(7, "SendMessage", QueueUrl=queue, MessageBody="a").status == 200
        calls.tell(gone(7) + gone(7))
        assert calls.ask(8, "SendMessage", QueueUrl=queue, MessageBody="b").status == 200
        # What changes something is done whoever waits for its answer.
        calls.tell(b"".join(asking(number, "SendMessage", QueueUrl=queue, MessageBody="c") for number in range(100, 200)))
        assert calls.answer(199).status == 200
        calls.tell(b"".join(map(gone, range(100, 200))))
        assert calls.ask(200, "ListQueues").status == 200
    until(lambda: served.counts(queue)[0] == 102, 5, "some are missing")


def test_what_is_no_frame_ends_the_connection_and_nobody_elses(served):
    queue = new_queue(served)
    good = asking(2, "GetQueueUrl", QueueName="q")
    many = headers([("a", "b")] * 257)
    around = struct.pack("<Q", 2) + frames.text("POST") + frames.text("/")
    bad = [b"GET / HTTP/1.1\r\n\r\n", b"\xff\xff\xff\xff", struct.pack("<I", FRAME_LIMIT + 1)]
    bad += map(frames.frame, [b"", b"\1", b"\2\0"])
    bad += [frame(99, b""), frame(ANSWER, b""), frame(TIME, b"\0"), frame(GONE, b""), frame(ALIVE, b"x"), frame(CALL, b"")]
    said = [many, struct.pack("<I", 2**32 - 1), headers([("a b", "c")]), headers([("a", "b\r\nc: d")])]
    bad += [frame(CALL, around + one + frames.run(b"")) for one in said]
    bad += [frame(CALL, around + headers([]) + one) for one in (b"", struct.pack("<I", 2**32 - 1), frames.run(b"") + b"x")]
    bad += [call(2, method="PO ST"), call(2, method=""), call(2, target="/ x"), good[:4] + b"\2" + good[5:]]
    before = memory_of(gateway_of(served))
    with Calls(port_of(served)) as other:
        for number, data in enumerate(bad, 1):
            with Calls(port_of(served)) as calls:
                calls.tell(asking(1, "ReceiveMessage", QueueUrl=queue, WaitTimeSeconds=20) + data)
                assert calls.ends(), data
            assert other.ask(number, "ListQueues").status == 200
        for cut in range(1, len(good), 7):
            with Calls(port_of(served)) as calls:
                calls.tell(good[:cut])
                calls.socket.shutdown(socket.SHUT_WR)
                assert calls.ends() and calls.answers == {}
        assert other.ask(1000, "ListQueues").status == 200
    polls_end(served)
    is_there(served, queue, "a")
    assert memory_of(gateway_of(served)) - before < 30_000


def test_random_bytes_take_no_memory(served):
    generator, queue = random.Random(SEED), new_queue(served)
    before = memory_of(gateway_of(served))
    with Calls(port_of(served)) as other:
        for number in range(1, COUNT + 1):
            good = [asking(1, "GetQueueUrl", QueueName="q"), gone(2), frame(ALIVE, b""), call(3, generator.randbytes(60_000)),
                    asking(4, "ReceiveMessage", QueueUrl=queue, WaitTimeSeconds=20)]
            some = [one for one in good if generator.random() < 0.7]
            data = bytearray(b"".join(some) + generator.randbytes(generator.randint(1, 2000)))
            for _ in range(generator.randint(0, 3)):
                data[generator.randrange(len(data))] = generator.randrange(256)
            with Calls(port_of(served)) as calls:
                try:
                    calls.tell(bytes(data[: generator.randint(1, len(data))]))
                except ConnectionError:
                    pass
            if number % 20 == 0:
                assert other.ask(number, "ListQueues").status == 200
    polls_end(served)
    is_there(served, queue, "a")
    assert memory_of(gateway_of(served)) - before < 40_000, "it takes memory for strangers"


def test_heads_that_ask_for_no_calls_are_answered_as_before(served):
    """The protocol's name alone begins calls. A head without an end is refused."""
    others = [UPGRADE.replace(b"calls-1", b"calls-2"), UPGRADE.replace(b"Upgrade: h", b"Upgrade: h2c, h")]
    for head, status in [*((one, b"400") for one in others), (b"GET / HTTP/1.1\r\n" + b"a: " + b"b" * 40_000, b"431")]:
        with Calls(port_of(served), upgrade=head) as calls:
            assert calls.head[0].split()[1] == status
    # What comes with the head is read.
    with Calls(port_of(served), upgrade=UPGRADE + asking(1, "ListQueues")) as calls:
        assert calls.answer(1).status == 200


def test_calls_are_looked_at_as_requests_of_http(served):
    """Each is answered as it is by HTTP."""
    listing = b"Action=ListQueues"
    said = {"Host": "elsewhere.example", "Origin": "http://elsewhere.example", "a": "b" * 32_800, "x-hobbychair-until": "1"}
    odd = [("POST", "/", listing, {name: value}) for name, value in said.items()]
    odd += [("GET", "/a//b", b"", {}), ("POST", "/", b"\xff" * (150 << 10), {}), ("GET", "/?Action=ListQueues", b"", {})]
    odd += [("POST", "*", listing, {}), ("POST", "/1/q", b"", {})]
    odd += [(method, "/", listing, {}) for method in ("OPTIONS", "M-SEARCH", "CONNECT")]
    with Calls(port_of(served)) as calls:
        for number, (method, target, body, more) in enumerate(odd, 1):
            pairs = [(name.lower(), value) for name, value in ({"Host": "localhost"} | more).items()]
            around = struct.pack("<Q", number) + frames.text(method) + frames.text(target) + headers(pairs)
            calls.tell(frame(CALL, around + frames.run(body)))
            answer = calls.answer(number)
            if method != "CONNECT":
                status, _, direct = ask_plainly(port_of(served), method, target, body, **more)
                assert (answer.status, without_ids(answer.body())) == (status, without_ids(direct)), (method, target, more)
        assert calls.ask(100, "ListQueues").status == 200


def test_a_connection_that_says_nothing_ends_and_one_that_is_alive_does_not(served):
    queue, begun = new_queue(served), time.monotonic()
    with Calls(port_of(served)) as quiet, Calls(port_of(served)) as half, Calls(port_of(served)) as alive:
        quiet.tell(asking(1, "ReceiveMessage", QueueUrl=queue, WaitTimeSeconds=20))
        half.tell(gone(1)[:-1])
        alive.listen(QUIET + 1)
        for one in (quiet, half):
            assert one.ends() and len(one.times) in range(QUIET, 3 * QUIET) and one.answers == {}
        # A poll is answered behind twice that.
        assert time.monotonic() - begun < 2 * QUIET
        assert alive.ask(1, "ListQueues").status == 200
    polls_end(served)
    is_there(served, queue, "a")


def test_large_answers_that_are_given_up_give_their_memory_back(served):
    """All of them together have more than the gateway may keep for requests."""
    queue = new_queue(served)
    for _ in range(10):
        served.sqs.send_message(QueueUrl=queue, MessageBody="x" * 600_000)
    large = {"QueueUrl": queue, "MaxNumberOfMessages": 10, "VisibilityTimeout": 0}

    def begins() -> bool:
        """Whether a large answer begins to come, of which no more is taken. Until those before are given up it may be refused."""
        with Calls(port_of(served), room=32 << 10) as calls:
            calls.tell(asking(1, "ReceiveMessage", **large))
            while not calls.answers:
                assert calls.read() >= 0
            [answer] = calls.answers.values()
            assert (answer.status, answer.is_whole) in ((200, False), (503, True))
            return answer.status == 200

    for _ in range(20):
        until(begins, 10, "memory isn't given back")
    with Calls(port_of(served)) as calls:
        numbers = itertools.count(1)
        answer = until(lambda: when_taken(calls.ask(next(numbers), "ReceiveMessage", **large)), 10, "memory isn't given back")
        assert len(answer.members()["Messages"]) == 10


def when_taken(answer: Answer) -> Answer | None:
    return answer if answer.status == 200 else None


def test_a_number_that_does_not_rise_ends_the_connection_and_leaves_nothing_behind(served):
    """No front uses a number again: two calls would have one answer."""
    queue = new_queue(served)
    poll = asking(1, "ReceiveMessage", QueueUrl=queue, WaitTimeSeconds=20)
    for number in (0, 1) * 20:
        with Calls(port_of(served)) as calls:
            begun = time.monotonic()
            calls.tell(asking(number, "GetQueueUrl", QueueName="no") + poll * 2)
            assert calls.ends() and time.monotonic() - begun < QUIET - 1
    polls_end(served)
    for number in range(3):
        is_there(served, queue, str(number))


def test_a_front_that_reads_no_answers_takes_no_memory(served):
    """Small answers count nothing for the memory of requests."""
    before = most = memory_of(gateway_of(served))
    with Calls(port_of(served), room=4096) as calls:
        calls.socket.settimeout(0.5)
        end, number = time.monotonic() + 2, 1
        try:
            while time.monotonic() < end:
                calls.tell(b"".join(call(number + one) for one in range(1000)))
                number += 1000
                most = max(most, memory_of(gateway_of(served)))
        except (TimeoutError, ConnectionError):
            pass
    most = max(most, memory_of(gateway_of(served)))
    print(f"{number} calls, {most - before} KiB more")
    assert most - before < 100_000


# ---- the gateway's bound


@pytest.fixture
def narrow(tmp_path, request) -> Iterator[Telling]:
    """A cluster whose gateway answers so many calls at once."""
    with Telling(tmp_path, options=f"connections = {request.param}\npolls = {request.param}\n") as one:
        yield one


def fill(calls: Calls, queue: str, first: int) -> list[int]:
    """Opens polls, by calls from that number on, until no call finds a place. It tells the polls' numbers."""
    polls = []
    for number in itertools.count(first, 2):
        polls.append(number)
        calls.tell(asking(number, "ReceiveMessage", QueueUrl=queue, WaitTimeSeconds=20))
        if calls.ask(number + 1, "ListQueues").status == 503:
            return polls


def fill_all(calls: Calls, queue: str, numbers: Iterator[int], count: int) -> list[int]:
    """The same once so many places are free: one is given back a moment after its call was answered or given up."""
    polls: list[int] = []

    def has_filled() -> bool:
        nonlocal polls
        calls.tell(b"".join(map(gone, polls)))
        polls = fill(calls, queue, next(numbers))
        return len(polls) == count

    until(has_filled, 20, "places aren't given back")
    return polls


@pytest.mark.parametrize("narrow", [8], indirect=True)
def test_more_calls_than_connections_are_turned_away_and_those_before_are_answered(narrow):
    queue = narrow.queue("q")
    polls = [asking(number, "ReceiveMessage", QueueUrl=queue, WaitTimeSeconds=20) for number in range(1, 9)]
    with Calls(port_of(narrow)) as calls, Calls(port_of(narrow)) as other:
        calls.tell(b"".join(polls[:5]))
        other.tell(b"".join(polls[5:]))
        until_polls(narrow.admin, 8)
        for one in (calls, other):
            for number in range(100, 150):
                answer = one.ask(number, "ListQueues")
                assert answer.status == 503 and "ServiceUnavailable" in answer.body().decode(), answer
        # A request of HTTP has a place of its own.
        direct = ByJson(f"http://127.0.0.1:{port_of(narrow)}")
        for number in range(8):
            direct("SendMessage", QueueUrl=queue, MessageBody=str(number))
        got = [calls.answer(number).members()["Messages"] for number in range(1, 6)]
        got += [other.answer(number).members()["Messages"] for number in range(6, 9)]
        assert sorted(message["Body"] for [message] in got) == [str(number) for number in range(8)]
        # Places of calls that are answered or given up are given back.
        numbers = itertools.count(1000, 100)
        for _ in range(3):
            calls.tell(b"".join(map(gone, fill_all(calls, queue, numbers, 8))))
        with Calls(port_of(narrow)) as third:
            fill_all(third, queue, itertools.count(1000, 100), 8)
            assert calls.ask(next(numbers), "ListQueues").status == 503
        fill_all(calls, queue, numbers, 8)


@pytest.mark.parametrize("narrow", [8], indirect=True)
def test_thousands_of_calls_at_once_are_turned_away_and_end_no_connection_that_reads(narrow):
    """As a front asks that has many clients, and whose last connection has ended."""
    queue = narrow.queue("q")
    with Calls(port_of(narrow)) as calls:
        calls.tell(b"".join(asking(number, "ReceiveMessage", QueueUrl=queue, WaitTimeSeconds=20) for number in range(1, 9)))
        until_polls(narrow.admin, 8)
        calls.listen(0.6)
        many = range(9, 5009)
        told = b"".join(asking(number, "SendMessage", QueueUrl=queue, MessageBody="x" * 500) for number in many)
        with meanwhile(partial(calls.tell, told)):
            assert {calls.answer(number).status for number in many} == {503}
        assert not set(range(1, 9)) & set(calls.answers)


@pytest.mark.parametrize("narrow", [1100], indirect=True)
def test_one_call_more_than_places_ends_no_connection_of_many(narrow):
    """However many of its calls wait."""
    queue = narrow.queue("q")
    with Calls(port_of(narrow)) as calls:
        polls = range(1, 1101)
        calls.tell(b"".join(asking(number, "ReceiveMessage", QueueUrl=queue, WaitTimeSeconds=20) for number in polls))
        until(lambda: count_polls(narrow.admin) == 1100 or calls.listen(0.1), 20, "not all receives wait")
        assert calls.answers == {}
        for number in range(2000, 2100):
            assert calls.ask(number, "ListQueues").status == 503
        calls.tell(b"".join(map(gone, polls)))
        numbers = itertools.count(3000)
        until(lambda: calls.ask(next(numbers), "ListQueues").status == 200, 20, "places aren't given back")


@pytest.fixture
def own(tmp_path, request) -> Iterator[Telling]:
    """A cluster that a test may hurt."""
    with Telling(tmp_path, request.param) as one:
        yield one


def ask_on(calls: Calls, number: int) -> None:
    """A front that doesn't know of an end says that it is there, and asks for more, until the connection ends."""
    try:
        while True:
            calls.tell(frame(ALIVE, b"") + asking(number, "ListQueues"))
            number += 1
            pace(0.001)
    except OSError:
        pass


@pytest.mark.parametrize("own", [1], indirect=True)
@pytest.mark.parametrize("how", ["silent", "asking on"])
def test_calls_that_came_before_a_signal_to_the_gateway_are_answered(own, how):
    queue, empty = own.queue("q"), own.queue("empty")
    for _ in range(10):
        own.sqs.send_message(QueueUrl=queue, MessageBody="x" * 300_000)
    with Calls(port_of(own), room=32 << 10) as calls:
        polls, sends = range(1, 11), range(100, 200)
        calls.tell(b"".join(asking(number, "ReceiveMessage", QueueUrl=empty, WaitTimeSeconds=20) for number in polls))
        until_polls(own.admin, 10)
        large = asking(50, "ReceiveMessage", QueueUrl=queue, MaxNumberOfMessages=10)
        calls.tell(large + b"".join(asking(number, "SendMessage", QueueUrl=queue, MessageBody=str(number)) for number in sends))
        # All have come by then.
        assert calls.answer(sends[-1]).status == 200
        os.kill(gateway_of(own), signal.SIGTERM)
        begun = time.monotonic()
        if how == "asking on":
            threading.Thread(target=ask_on, args=(calls, sends[-1] + 1)).start()
        assert calls.ends() and time.monotonic() - begun < QUIET
        whole = {number for number, answer in calls.answers.items() if answer.is_whole and answer.status == 200}
        assert sorted({*polls, 50, *sends} - whole) == [], "these are never answered"
        assert len(calls.answers[50].members()["Messages"]) == 10
    # The front goes on by the next gateway.
    own.sqs.send_message(QueueUrl=queue, MessageBody="y")


@pytest.mark.parametrize("own", [2], indirect=True)
def test_what_was_asked_of_a_front_is_answered_though_the_node_is_told_to_end(own):
    empty, queue = own.queue("empty"), own.queue("q", VisibilityTimeout="1")
    with meanwhile(*[partial(own.receive, empty, WaitTimeSeconds=8)] * 20, patience=60) as answers:
        until_polls(own.admin, 20)
        own.cluster.node(1).process.send_signal(signal.SIGTERM)
        for number in range(50):
            own.sqs.send_message(QueueUrl=queue, MessageBody=str(number))
    assert [one.result() for one in answers] == [[]] * 20
    got: set[str] = set()
    until(lambda: len(got) == 50 or got.update(message["Body"] for message in own.receive(queue)), 30, "some are lost")
    until(lambda: own.cluster.chain()["members"] == [2], 20, "the node isn't let go")


# ---- a front


def ask_plainly(port: int, method: str, target: str, body: bytes = b"", **more: str) -> tuple[int, dict[str, str], bytes]:
    """The status, the headers that aren't another one's each time, and the body."""
    connection = http.client.HTTPConnection("127.0.0.1", port, timeout=30)
    try:
        connection.request(method, target, body, {"Host": "localhost", **more})
        answer = connection.getresponse()
        other = ("date", "x-amzn-requestid", "x-hobbychair-time")
        said = {name.lower(): value for name, value in answer.getheaders() if name.lower() not in other}
        return answer.status, said, answer.read()
    finally:
        connection.close()


def without_ids(body: bytes) -> bytes:
    return body.split(b"<RequestId>")[0]


def test_requests_of_each_kind_are_answered_by_a_front_as_by_the_gateway(served):
    front, queue = urllib.parse.urlsplit(served.front.url).port, new_queue(served).rsplit("/", 1)[1]
    query = f"/?Action=GetQueueUrl&QueueName={queue}&Version=2012-11-05"

    for method, target in itertools.product(["HEAD", "OPTIONS", "GET", "POST", "PUT", "DELETE"], ["/", query, "/no/such/path"]):
        asked = [ask_plainly(port, method, target) for port in (front, port_of(served))]
        asked = [(status, said, without_ids(body)) for status, said, body in asked]
        assert asked[0] == asked[1], (method, target)
        assert asked[0][2] == b"" if method == "HEAD" else asked[0][2]


def test_small_and_large_bodies_are_mixed_and_odd_requests_harm_nobody(served):
    """A request that the front takes and the gateway couldn't read would end the connection of all."""
    [admin] = free_ports(1)
    words = ["--host", "127.0.0.1", "--port", "0", "--admin", f"127.0.0.1:{admin}"]
    process, log = served.cluster.start(1, "another-front", "front", *served.cluster.which("front"), *words)
    try:
        until(lambda: "listening on" in log.read_text(), 20, "the front doesn't begin")
        port = int(log.read_text().split("listening on ")[1].split()[0].rsplit(":", 1)[1])
        queue, generator = new_queue(served), random.Random(SEED)
        ask = ByJson(f"http://127.0.0.1:{port}")
        for size in (0, 1, 60_000, *range(65_200, 65_600, 20), 66_000, 130_000, 190_000, 200_000, 600_000):
            body = "b" * size + "e"
            sent = ask("SendMessage", QueueUrl=queue, MessageBody=body)
            assert sent["MD5OfMessageBody"] == md5(body)
            [got] = ask("ReceiveMessage", QueueUrl=queue, WaitTimeSeconds=5)["Messages"]
            assert got["Body"] == body
            ask("DeleteMessage", QueueUrl=queue, ReceiptHandle=got["ReceiptHandle"])
        for number in range(COUNT):
            odd = [b"X-%d: " % one + bytes(generator.choices([9, *range(32, 127), *range(128, 256)], k=generator.randint(0, 300)))
                   for one in range(generator.randint(0, 90))]
            some = bytes(generator.choices(b"!$%&'()*+,-./:;=?@[]^_`{|}~\"\\<>aZ0\xe9\xff", k=8))
            target = b"/?Action=ListQueues&Version=2012-11-05&" + some
            method = generator.choice([b"POST", b"GET", b"M-SEARCH", b"x!#$%&'*+-.^_`|~"])
            with socket.create_connection(("127.0.0.1", port), timeout=10) as one:
                lines = [method + b" " + target + b" HTTP/1.1", b"Host: localhost", b"Connection: close", *odd]
                one.sendall(b"\r\n".join(lines) + b"\r\n\r\n")
                assert one.makefile("rb").readline().startswith(b"HTTP/1.1 "), lines
        said = ask_plainly(admin, "GET", "/metrics")[2].decode()
        assert "hobbychair_front_again_total 0\n" in said, said
        assert "hobbychair_front_open_requests 0\n" in said, said
    finally:
        process.kill()
        process.wait()


def test_a_poll_by_a_front_whose_client_goes_is_given_nothing(served):
    queue = new_queue(served)
    said = {"Host": "localhost", "X-Amz-Target": "AmazonSQS.ReceiveMessage", "Content-Type": "application/x-amz-json-1.0"}
    clients = [http.client.HTTPConnection(urllib.parse.urlsplit(served.front.url).netloc) for _ in range(5)]
    for one in clients:
        one.request("POST", "/", json.dumps({"QueueUrl": queue, "WaitTimeSeconds": 20}), said)
    until_polls(served.admin, 5)
    for one in clients:
        one.close()
    polls_end(served)
    for number in range(3):
        is_there(served, queue, str(number))


class Clients:
    """Forty clients of a front, each of which knows by every answer that it is its own."""

    def __init__(self, served: Served, count: int = 40) -> None:
        self.served, self.is_over, self.wrong = served, False, []
        self.shared = served.queue("shared", VisibilityTimeout=str(TIMEOUT))
        self.acknowledged: dict[str, list[str]] = defaultdict(list)
        self.deliveries: dict[tuple[str, str], list[Delivery]] = defaultdict(list)
        self.deleted: dict[tuple[str, str], float] = {}
        self.answers: list[float] = []
        self.errors: list[str] = []
        self.sending = True
        self.threads = [threading.Thread(target=self.run, args=(number,)) for number in range(count)]
        for thread in self.threads:
            thread.start()

    def run(self, number: int) -> None:
        try:
            self.work(f"client{number}", random.Random(number))
        except BaseException as error:
            self.wrong.append(f"client{number}: {error!r}")

    def ask(self, client: ByJson, action: str, **members: Any) -> dict[str, Any] | None:
        try:
            answer = client(action, **members)
        except UNANSWERED as error:
            self.errors.append(f"{action}: {error!r}")
            return None
        self.answers.append(time.monotonic())
        return answer

    def work(self, name: str, chance: random.Random) -> None:
        ask = ByJson(self.served.front.url)
        while not self.ask(ask, "CreateQueue", QueueName=name, Attributes={"VisibilityTimeout": str(TIMEOUT)}):
            if self.is_over:
                return
            pace(0.05)
        own = f"{self.served.front.url}/000000000000/{name}"
        for number in itertools.count():
            if self.is_over:
                return
            queue = chance.choice([own, own, self.shared])
            if self.sending:
                self.send(ask, queue, f"{name}-{number}", chance.choice([0, 0, 0, 1_000, 20_000, 63_000, 100_000]))
            if found := self.ask(ask, "GetQueueUrl", QueueName=name):
                assert found["QueueUrl"] == own, found
            if not self.sending or chance.random() < 0.6:
                self.receive(ask, queue, name, chance)

    def send(self, ask: ByJson, queue: str, body: str, size: int) -> None:
        words = f"{body} {'x' * size}"
        if sent := self.ask(ask, "SendMessage", QueueUrl=queue, MessageBody=words):
            assert sent["MD5OfMessageBody"] == md5(words), f"{body} has another one's answer"
            self.acknowledged[queue].append(body)

    def receive(self, ask: ByJson, queue: str, name: str, chance: random.Random) -> None:
        asked = time.monotonic()
        got = self.ask(ask, "ReceiveMessage", QueueUrl=queue, MaxNumberOfMessages=10, WaitTimeSeconds=chance.choice([0, 1]))
        answered, messages = time.monotonic(), (got or {}).get("Messages", [])
        for message in messages:
            body = message["Body"].split(" ")[0]
            assert queue == self.shared or body.startswith(f"{name}-"), f"{name} is given {body}"
            assert message["MD5OfBody"] == md5(message["Body"])
            self.deliveries[queue, body].append(Delivery(asked, answered, body))
        for message in messages:
            said = {"QueueUrl": queue, "ReceiptHandle": message["ReceiptHandle"]}
            if chance.random() < 0.9 and self.ask(ask, "DeleteMessage", **said) is not None:
                # By the handle of an earlier handing a delete does nothing.
                if (now := time.monotonic()) < asked + TIMEOUT - SLACK:
                    self.deleted.setdefault((queue, message["Body"].split(" ")[0]), now)

    def missing(self) -> list[str]:
        sent = [(queue, body) for queue, bodies in list(self.acknowledged.items()) for body in list(bodies)]
        return [body for queue, body in sent if (queue, body) not in self.deliveries]

    def goes_on(self) -> None:
        now = len(self.answers)
        until(lambda: len(self.answers) > now + 300, 60, lambda: f"nobody is answered: {self.errors[-3:]}")

    def stop(self) -> None:
        self.sending = False
        try:
            until(lambda: not self.missing(), 60, "acknowledged sends are lost")
        finally:
            lost = self.missing()
            self.is_over = True
            for thread in self.threads:
                thread.join(60)
            print(f"{len(self.answers)} answers, {len(self.errors)} errors, lost: {lost[:10]}", self.errors[:5])
        assert not self.wrong, self.wrong
        for key, times in self.deliveries.items():
            times.sort(key=lambda one: one.answered)
            apart = [after.answered - before.asked for before, after in zip(times, times[1:])]
            assert all(one > TIMEOUT - SLACK for one in apart), (key, times)
            last = max(one.asked for one in times)
            assert last <= self.deleted.get(key, last), f"{key} is there behind its deletion: {times}"


@pytest.mark.parametrize("own", [2], indirect=True)
def test_forty_clients_have_their_own_answers_while_the_gateway_is_killed_and_stopped(own):
    clients = Clients(own)
    try:
        clients.goes_on()
        for number, seconds in ((signal.SIGKILL, 0.3), (signal.SIGSTOP, 4), (signal.SIGKILL, 0), (signal.SIGSTOP, 1)):
            begun, process = time.monotonic(), gateway_of(own)
            send(process, number)
            pace(seconds)
            send(process, signal.SIGCONT)
            clients.goes_on()
            print(f"{time.monotonic() - begun:.2f} s until all goes on")
    finally:
        clients.stop()
