"""A journal that is full: what is refused, what goes on, and the way back."""

import os
import random
import re
import time
from collections.abc import Callable
from pathlib import Path

import pytest

from filled import WINDOW, Filled
from rules import arn, policy
from started import ByJson, Refused, Started, run
from waiting import pass_time, until


class FullJournal(Filled):
    """A journal that takes no send any more, and a message in another queue."""

    def __init__(self, room: Path, before: Callable[[ByJson], None] = lambda call: None) -> None:
        self.journal = room / "journal"
        super().__init__(room, "--journal", str(self.journal), "--no-pauses", kept=["k" * 200_000], before=before)

    def restart(self) -> None:
        self.gateway.kill()
        self.gateway.start()
        self.call = ByJson(self.gateway.url)

    def leave(self) -> None:
        """All that fills it goes, and the ids of that are too old."""
        assert self.delete_all() == self.count
        self.count = 0
        self.gateway.set_clock(self.gateway.moment + WINDOW)
        assert self.sends_again(20)

    def look(self) -> None:
        (message,) = self.call("ReceiveMessage", QueueUrl="kept.fifo", VisibilityTimeout=0)["Messages"]
        assert message["Body"] == "k" * 200_000


def count(call, queue: str, which: str = "") -> int:
    told = call("GetQueueAttributes", QueueUrl=queue, AttributeNames=["All"])["Attributes"]
    return int(told[f"ApproximateNumberOfMessages{which}"])


def test_a_full_journal_refuses_sends_and_creations_and_all_else_goes_on(tmp_path):
    full = FullJournal(tmp_path)
    for turn in range(3):
        with pytest.raises(Refused, match="OverLimit"):
            full.call("CreateQueue", QueueName=f"more{turn}")
        full.call("TagQueue", QueueUrl="q.fifo", Tags={"t": str(turn)})
        messages = full.receive()
        full.call("ChangeMessageVisibility", QueueUrl="q.fifo", ReceiptHandle=messages[0]["ReceiptHandle"], VisibilityTimeout=0)
        full.call("DeleteMessage", QueueUrl="q.fifo", ReceiptHandle=messages[1]["ReceiptHandle"])
        full.count -= 1
        full.gateway.set_clock(full.gateway.moment + 600_000)
        for restarts in (False, True):
            if restarts:
                full.restart()
            assert count(full.call, "q.fifo") == full.count
            full.look()
            # A start counts anew, so some more may be taken.
            while full.sends():
                pass
        if turn == 2:
            full.call("PurgeQueue", QueueUrl="q.fifo")
            full.count = 0
        full.leave()
        full.call("CreateQueue", QueueName=f"more{turn}")
        while full.sends():
            pass
    full.call("DeleteQueue", QueueUrl="q.fifo")
    full.call("CreateQueue", QueueName="q.fifo", Attributes={"FifoQueue": "true"})
    assert full.sends_again(20)
    full.restart()
    full.look()
    assert full.gateway.stop() == 0


@pytest.mark.parametrize("name", ["q", "q.fifo"])
def test_a_journal_that_small_messages_fill_is_free_again_when_they_go(tmp_path, name):
    """Deletes of them need more of it than the messages did."""
    with Started("--journal", str(tmp_path / "journal"), room=tmp_path) as gateway:
        call, fifo = ByJson(gateway.url), name.endswith(".fifo")
        call("CreateQueue", QueueName=name, Attributes={"VisibilityTimeout": "43200", **({"FifoQueue": "true"} if fifo else {})})
        more = lambda text: {"MessageGroupId": text, "MessageDeduplicationId": text} if fifo else {}
        sent = deleted = 0

        def send() -> list[dict]:
            entries = [{"Id": str(place), "MessageBody": "b", **more(f"{sent}-{place}")} for place in range(10)]
            return call("SendMessageBatch", QueueUrl=name, Entries=entries).get("Failed", [])

        while not (failed := send()):
            sent += 10
        assert {one["Code"] for one in failed} == {"OverLimit"} and sent > 10_000
        sent += 10 - len(failed)
        gateway.kill()
        gateway.start()
        call = ByJson(gateway.url)
        while messages := call("ReceiveMessage", QueueUrl=name, MaxNumberOfMessages=10).get("Messages"):
            answer = call("DeleteMessageBatch", QueueUrl=name, Entries=[
                {"Id": str(place), "ReceiptHandle": message["ReceiptHandle"]} for place, message in enumerate(messages)])
            deleted += len(answer["Successful"])
        assert deleted == sent
        gateway.set_clock(gateway.moment + WINDOW)
        pass_time(1, "what is done each second is done")
        for _ in range(500):
            assert not send()
            sent += 10


def test_what_is_due_dead_or_moved_by_a_task_moves_in_a_full_journal(tmp_path):
    def before(call) -> None:
        call("CreateQueue", QueueName="dead", Attributes={"VisibilityTimeout": "0"})
        call("CreateQueue", QueueName="source", Attributes={"VisibilityTimeout": "0", "RedrivePolicy": policy("dead")})
        call("CreateQueue", QueueName="late", Attributes={"VisibilityTimeout": "0"})
        for number in range(3):
            call("SendMessage", QueueUrl="source", MessageBody=f"dead {number}")
            call("SendMessage", QueueUrl="late", MessageBody=f"due {number}", DelaySeconds=60)

    full = FullJournal(tmp_path, before)
    full.gateway.set_clock(full.gateway.moment + 60_000)
    assert len(full.call("ReceiveMessage", QueueUrl="source", MaxNumberOfMessages=10)["Messages"]) == 3
    assert "Messages" not in full.call("ReceiveMessage", QueueUrl="source", MaxNumberOfMessages=10)
    full.restart()
    for queue, word in (("late", "due"), ("dead", "dead")):
        found = full.call("ReceiveMessage", QueueUrl=queue, MaxNumberOfMessages=10)["Messages"]
        assert sorted(message["Body"] for message in found) == [f"{word} {number}" for number in range(3)]
    full.call("StartMessageMoveTask", SourceArn=arn("dead"))
    until(lambda: count(full.call, "source") >= 3, 20, "the task moves nothing")
    assert full.gateway.stop() == 0


def test_a_full_journal_is_free_again_whenever_the_gateway_is_killed(tmp_path):
    moments = random.Random(1)
    full = FullJournal(tmp_path)
    left = full.count
    for _ in range(8):
        until = time.monotonic() + moments.uniform(0, 0.3)
        while time.monotonic() < until and (messages := full.receive()):
            for message in messages:
                full.call("DeleteMessage", QueueUrl="q.fifo", ReceiptHandle=message["ReceiptHandle"])
                left -= 1
        full.restart()
        full.look()
        assert count(full.call, "q.fifo") + count(full.call, "q.fifo", "NotVisible") == left
    full.gateway.set_clock(full.gateway.moment + 600_000)
    full.count = left
    full.leave()
    assert full.gateway.stop() == 0


def test_a_journal_that_large_bodies_fill_is_free_again_when_they_go(tmp_path):
    with Started("--journal", str(tmp_path / "journal"), room=tmp_path) as gateway:
        call = ByJson(gateway.url)
        call("CreateQueue", QueueName="q", Attributes={"VisibilityTimeout": "600"})
        for _ in range(3):
            sent = 0
            try:
                for sent in range(100):
                    call("SendMessage", QueueUrl="q", MessageBody="x" * 1_000_000)
            except Refused as refusal:
                assert refusal.code.split("#")[-1] == "OverLimit"
            assert 5 < sent < 60
            found = 0
            while messages := call("ReceiveMessage", QueueUrl="q", MaxNumberOfMessages=10).get("Messages"):
                for message in messages:
                    assert message["Body"] == "x" * 1_000_000
                    call("DeleteMessage", QueueUrl="q", ReceiptHandle=message["ReceiptHandle"])
                    found += 1
            assert found == sent
            # Names of parts that went are used again behind that.
            gateway.set_clock(gateway.moment + 61_000)


def test_tags_that_change_for_ever_leave_room(tmp_path):
    """They are said in books, which are begun anew, and have more bytes than the journal."""
    with Started("--journal", str(tmp_path / "journal"), room=tmp_path) as gateway:
        call = ByJson(gateway.url)
        call("CreateQueue", QueueName="q")
        tags = [{f"{place}" + "é" * 100: value * 256 for place in range(50)} for value in "éü"]
        for turn in range(4000):
            call("TagQueue", QueueUrl="q", Tags=tags[turn % 2])
        call("SendMessage", QueueUrl="q", MessageBody="b")
        for _ in range(2):
            assert call("ListQueueTags", QueueUrl="q")["Tags"] == tags[1]
            gateway.kill()
            gateway.start()
            call = ByJson(gateway.url)


def entries_of(journal: Path) -> int:
    told = run("verify", str(journal)).stdout
    return sum(int(number) for number in re.findall(r"(\d+) requests", told))


def test_of_what_changes_nothing_nothing_is_kept(tmp_path):
    journal = tmp_path / "journal"
    with Started("--journal", str(journal), room=tmp_path) as gateway:
        call = ByJson(gateway.url)
        call("CreateQueue", QueueName="q.fifo", Attributes={"FifoQueue": "true"})
        call("TagQueue", QueueUrl="q.fifo", Tags={"a": "1", "b": "2"})
        call("SetQueueAttributes", QueueUrl="q.fifo", Attributes={"VisibilityTimeout": "7"})
        before = entries_of(journal)
        for _ in range(100):
            call("TagQueue", QueueUrl="q.fifo", Tags={"a": "1", "b": "2"})
            call("UntagQueue", QueueUrl="q.fifo", TagKeys=["c"])
            call("SetQueueAttributes", QueueUrl="q.fifo", Attributes={"VisibilityTimeout": "7"})
        assert entries_of(journal) == before
        call("UntagQueue", QueueUrl="q.fifo", TagKeys=["a"])
        assert entries_of(journal) == before + 1
        gateway.kill()
        gateway.start()
        assert ByJson(gateway.url)("ListQueueTags", QueueUrl="q.fifo")["Tags"] == {"b": "2"}


def test_a_file_that_is_made_longer_has_more_room(tmp_path):
    full = FullJournal(tmp_path)
    before = full.count
    assert full.gateway.stop() == 0
    os.truncate(f"{full.journal}.cq1", 256 << 20)
    full.restart()
    while full.sends():
        pass
    # 60 MiB for 24.
    assert full.count > 2 * before
    full.restart()
    full.look()
    assert count(full.call, "q.fifo") == full.count and full.gateway.stop() == 0
