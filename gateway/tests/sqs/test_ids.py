"""MessageIds: who is told which, and that no two messages have the same one."""

import re
from typing import Any

import pytest

from kept import Kept
from rules import arn, policy
from started import START
from waiting import until

RANDOM = re.compile("[0-9a-f]{8}-[0-9a-f]{4}-4[0-9a-f]{3}-[89ab][0-9a-f]{3}-[0-9a-f]{12}")
WINDOW = 300_000


class Journaled(Kept):
    """Sends and receives tell the messages' ids."""

    def send(self, queue: str, body: str, dedup: str | None = None, **more: Any) -> str:
        if queue.endswith(".fifo"):
            more = {"MessageGroupId": body[:9], "MessageDeduplicationId": dedup or body, **more}
        return self.call("SendMessage", QueueUrl=queue, MessageBody=body, **more)["MessageId"]

    def ids(self, queue: str) -> dict[str, str]:
        return {message["Body"]: message["MessageId"] for message in self.receive(queue)}


@pytest.fixture
def journaled(tmp_path):
    with Journaled(tmp_path, "--no-pauses") as one:
        yield one


def test_a_repeat_is_told_the_first_ones_id(journaled):
    journaled.create("q.fifo")
    first, *others = ids = [journaled.send("q.fifo", f"m{number}") for number in range(20)]
    assert len(set(ids)) == 20 and all(RANDOM.fullmatch(one) for one in ids)
    journaled.delete("q.fifo", *journaled.receive("q.fifo"))
    for _ in range(3):
        assert journaled.send("q.fifo", "other", dedup="m0") == first
        journaled.restart()
    journaled.gateway.set_clock(START + WINDOW - 1)
    entries = [{"Id": str(number), "MessageBody": "b", "MessageGroupId": "g", "MessageDeduplicationId": f"m{number}"}
               for number in range(10)]
    told = journaled.call("SendMessageBatch", QueueUrl="q.fifo", Entries=entries)["Successful"]
    assert [one["MessageId"] for one in told] == ids[:10]
    journaled.gateway.set_clock(START + WINDOW)
    assert journaled.send("q.fifo", "m0") not in ids


def test_a_call_is_told_its_messages_id(journaled):
    """What the store has and what is delayed still, the same over restarts, and none of another's."""
    journaled.create("standard")
    sent = {f"m{number}": journaled.send("standard", f"m{number}", DelaySeconds=5 * (number % 2)) for number in range(8)}
    assert all(RANDOM.fullmatch(one) for one in sent.values()) and len(set(sent.values())) == 8
    journaled.restart()
    early = journaled.ids("standard")
    assert early == {body: one for body, one in sent.items() if int(body[1]) % 2 == 0}
    journaled.gateway.set_clock(START + 5000)
    late = journaled.ids("standard")
    assert {**early, **late} == sent
    journaled.restart()
    journaled.gateway.set_clock(START + 60_000)
    assert journaled.ids("standard") == sent


def test_a_queue_that_is_made_again_gives_other_ids(journaled):
    names, seen = ("q.fifo", "other.fifo", "standard"), set()
    for turn in range(3):
        for name in names:
            journaled.create(name)
            sent = {f"m{number}": journaled.send(name, f"m{number}") for number in range(10)}
            assert journaled.ids(name) == sent
            seen.update(sent.values())
        if turn == 1:
            journaled.restart()
        for name in names:
            journaled.call("DeleteQueue", QueueUrl=name)
    assert len(seen) == 3 * 3 * 10


@pytest.mark.parametrize("end", ["", ".fifo"])
def test_a_message_that_is_moved_twice_keeps_its_id(journaled, end):
    names = [f"{name}{end}" for name in ("third", "second", "first")]
    for name, target in zip(names, [None, *names]):
        more = {"RedrivePolicy": policy(target)} if target else {}
        journaled.create(name, VisibilityTimeout="0", **more)
    third, second, first = names
    # The second queue has others at the same places.
    others = {f"o{number}": journaled.send(third, f"o{number}") for number in range(3)}
    sent = journaled.send(first, "letter")
    for name in (first, second):
        assert journaled.ids(name) == {"letter": sent}
        journaled.restart()
        assert journaled.ids(name) == {}
    assert journaled.ids(third) == {**others, "letter": sent}
    # A task makes new messages of them.
    journaled.call("StartMessageMoveTask", SourceArn=arn(third), DestinationArn=arn(first))
    until(lambda: journaled.counts(first)[0] >= 4, 20, "the task moves nothing")
    moved = journaled.ids(first)
    assert moved.keys() == {*others, "letter"} and len({sent, *others.values(), *moved.values()}) == 8
