"""Messages that are too long for the store stand in parts in it, and the gateway keeps nothing of them."""

import json
import random
import zlib
from functools import partial
from http.client import HTTPException
from pathlib import Path

import pytest

from kept import Kept
from meanwhile import meanwhile
from rules import arn, policy, sent_by_call
from started import Refused, memory_of
from waiting import pace, until

LONGEST = 1_048_576


class Parted(Kept):
    """A gateway with a journal, and a queue in it."""

    def __init__(self, room: Path, end: str, *words: str, steered: bool = False) -> None:
        super().__init__(room, *words, steered=steered)
        self.fifo, self.name = bool(end), f"q{end}"
        self.create(self.name, VisibilityTimeout="0")

    def send(self, body: str, dedup: str = "d", queue: str | None = None) -> dict:
        more = {"MessageGroupId": dedup, "MessageDeduplicationId": dedup} if self.fifo else {}
        return self.call("SendMessage", QueueUrl=queue or self.name, MessageBody=body, **more)

    def receive(self, queue: str | None = None, **more) -> list[dict]:
        return super().receive(queue or self.name, **{"AttributeNames": ["All"], "MessageAttributeNames": ["All"], **more})

    def parts(self) -> int:
        """How many queues with parts the journal has that aren't removed."""
        return sum(name.startswith("b") and not name.startswith("book") for name in self.store_names())

    def comes_to(self, parts: int) -> None:
        """Waits until there are so many."""
        until(lambda: self.parts() == parts, 20, f"there aren't {parts} queues with parts")

@pytest.fixture(params=["", ".fifo"])
def kind(request) -> str:
    return request.param


def test_the_gateway_keeps_nothing_of_a_body(tmp_path, kind):
    kept = Parted(tmp_path, kind, "--journal-size", "512MiB")
    kept.send("x" * LONGEST, "0")
    before = memory_of(kept.gateway.process.pid)
    for number in range(1, 60):
        kept.send(str(number) + "x" * (LONGEST - 2), str(number))
    assert memory_of(kept.gateway.process.pid) - before < 24 << 10
    assert kept.parts() == 60
    kept.restart()
    assert memory_of(kept.gateway.process.pid) - before < 24 << 10
    (message,) = kept.receive(MaxNumberOfMessages=1)
    assert message["Body"] == "x" * LONGEST
    assert kept.gateway.stop() == 0


def test_parts_go_with_their_message(tmp_path, kind):
    kept = Parted(tmp_path, kind, "--no-pauses")
    for number in range(6):
        kept.send(f"{number}" * 600_000, str(number))
    assert kept.parts() == 6
    messages = kept.receive(VisibilityTimeout=30)
    assert [message["Body"] for message in messages] == [f"{number}" * 600_000 for number in range(6)]
    for message in messages[:2]:
        kept.delete(kept.name, message)
    kept.comes_to(4)
    kept.restart()
    kept.gateway.set_clock(kept.gateway.moment + 30_000)
    assert len(kept.receive()) == 4 and kept.parts() == 4
    kept.call("PurgeQueue", QueueUrl=kept.name)
    kept.comes_to(0)
    kept.send("again" * 100_000, "again")
    assert kept.parts() == 1
    kept.call("DeleteQueue", QueueUrl=kept.name)
    kept.comes_to(0)
    kept.restart()
    assert kept.parts() == 0 and kept.gateway.stop() == 0


def test_a_repeat_and_a_refused_send_leave_no_parts(tmp_path, kind):
    kept = Parted(tmp_path, kind, "--memory", "8MiB")
    body = "b" * 600_000
    if kind:
        told = {kept.send(body)["MessageId"] for _ in range(3)}
    else:
        told = {sent_by_call(kept.gateway.url, "q", "call", attempt, body=body)[0] for attempt in (1, 2, 3)}
    assert len(told) == 1
    kept.comes_to(1)
    with pytest.raises(Refused, match="OverLimit"):
        for number in range(20):
            kept.send(body, str(number))
    kept.comes_to(kept.counts(kept.name)[0])
    with pytest.raises(Refused):
        kept.send(body, "none", queue=f"none{kind}")
    assert kept.gateway.stop() == 0


@pytest.mark.parametrize("passing", range(6))
def test_a_send_that_is_cut_off_leaves_no_parts(tmp_path, kind, passing):
    """The creation, four parts and the line."""
    kept = Parted(tmp_path, kind, steered=True)
    kept.send("x" * 600_000, "before")
    assert kept.cut_off(lambda: kept.send("y" * 1_000_000, "cut-off"), '"kind":"send"', '"kind":"create"', passing=passing)
    kept.comes_to(1)
    assert [message["Body"][0] for message in kept.receive()] == ["x"]
    kept.send("y" * 1_000_000, "cut-off")
    assert [len(message["Body"]) for message in kept.receive()] == [600_000, 1_000_000] and kept.parts() == 2
    assert kept.gateway.stop() == 0


@pytest.mark.parametrize("shards", [1, 2])
def test_a_message_that_moves_takes_its_parts_along(tmp_path, kind, shards):
    """Of two programs each has one of the queues."""
    place = lambda name: zlib.crc32(name.encode()) % 2  # noqa: E731
    dead = next(name for name in (f"dead{number}{kind}" for number in range(9)) if place(name) != place(f"q{kind}"))
    kept = Parted(tmp_path, kind, "--shards", str(shards))
    kept.create(dead, VisibilityTimeout="0")
    kept.call("SetQueueAttributes", QueueUrl=kept.name, Attributes={"RedrivePolicy": policy(dead)})
    body = "ü\n" * 200_000
    attribute = {"a": {"DataType": "String", "StringValue": "v"}}
    more = {"MessageGroupId": "g", "MessageDeduplicationId": "d"} if kind else {}
    sent = kept.call("SendMessage", QueueUrl=kept.name, MessageBody=body, MessageAttributes=attribute, **more)
    assert [message["MessageId"] for message in kept.receive()] == [sent["MessageId"]]
    assert kept.receive() == []
    for _ in range(2):
        (message,) = kept.receive(dead)
        told = message["Attributes"]
        assert (message["Body"], message["MessageId"], message["MessageAttributes"]) == (body, sent["MessageId"], attribute)
        assert told["DeadLetterQueueSourceArn"].endswith(f":{kept.name}") and kept.parts() == 1
        kept.restart()
    kept.call("StartMessageMoveTask", SourceArn=arn(dead))
    found = until(lambda: kept.receive(VisibilityTimeout=30), 20, "nothing is moved")
    assert (found[0]["Body"], found[0]["MessageAttributes"]) == (body, attribute)
    assert found[0]["MessageId"] != sent["MessageId"] and "DeadLetterQueueSourceArn" not in found[0]["Attributes"]
    assert kept.parts() == 1
    kept.delete(kept.name, found[0])
    kept.comes_to(0)
    assert kept.gateway.stop() == 0


def test_what_is_left_after_kills_has_its_parts_and_nothing_else_does(tmp_path, kind):
    """Random sends, deletes and moves of large and small messages, with kills between, by a seed."""
    chance = random.Random(len(kind))
    kept = Parted(tmp_path, kind, "--journal-size", "512MiB")
    kept.create(f"dead{kind}", VisibilityTimeout="0")
    kept.call("SetQueueAttributes", QueueUrl=kept.name, Attributes={"RedrivePolicy": policy(f"dead{kind}", 2)})
    # What was begun, and what was acknowledged of it.
    sends, sent, deletes, deleted = (set[str]() for _ in range(4))

    def body_of(name: str) -> str:
        return name + "." * (zlib.crc32(name.encode()) % 3 * 250_000)

    def work(worker: int, round: int) -> None:
        own = random.Random(f"{kind}{worker}{round}")
        for step in range(60):
            name = f"{round}-{worker}-{step}"
            try:
                if own.random() < 0.6:
                    sends.add(name)
                    kept.send(body_of(name), name)
                    sent.add(name)
                else:
                    queue = own.choice([kept.name, f"dead{kind}"])
                    timeout = own.choice([0, 30])
                    for message in kept.receive(queue, MaxNumberOfMessages=3, VisibilityTimeout=timeout):
                        name = message["Body"].rstrip(".")
                        assert message["Body"] == body_of(name)
                        if timeout and own.random() < 0.5:
                            deletes.add(name)
                            kept.delete(queue, message)
                            deleted.add(name)
            except (OSError, HTTPException, Refused, json.JSONDecodeError):
                return

    for round in range(5):
        with meanwhile(*[partial(work, worker, round) for worker in range(4)]):
            pace(chance.uniform(0.3, 1.2))
            kept.gateway.kill()
        kept.gateway.set_clock(kept.gateway.moment + 31_000)
        kept.gateway.start()
    found: list[str] = []
    for queue in (kept.name, f"dead{kind}"):
        kept.call("SetQueueAttributes", QueueUrl=queue, Attributes={"RedrivePolicy": "", "VisibilityTimeout": "600"})
        while messages := kept.receive(queue):
            assert all(message["Body"] == body_of(message["Body"].rstrip(".")) for message in messages)
            found += [message["Body"].rstrip(".") for message in messages]
    assert sent - deletes <= set(found) <= sends - deleted and len(found) == len(set(found))
    large = sum(len(body_of(name)) > 262_144 for name in found)
    kept.comes_to(large)
    kept.restart()
    assert kept.parts() == large > 0
    assert kept.gateway.stop() == 0
