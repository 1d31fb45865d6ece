"""Moves that are cut off between any two asks: each message is in one place, whatever ends."""

import sys
import threading
import time
import zlib
from collections.abc import Callable
from functools import partial
from pathlib import Path

import pytest

from kept import Kept
from meanwhile import at_once
from rules import arn, policy
from started import LIBRARY, ByJson, Refused, Started, program
from waiting import pass_time, until

COUNT = 3
# The sends of copies, and not those to the book.
ASKS = ['\\"of\\":', '"kind":"delete"']


class Cut(Kept):
    """A gateway whose moves are cut off behind so many asks, by its own end or by that of its program."""

    def __init__(self, room: Path, end: str, by: str) -> None:
        super().__init__(room, "--no-pauses", steered=True)
        self.by, self.fifo, self.queue, self.dead = by, bool(end), f"q{end}", f"dead{end}"

    def create_both(self) -> None:
        self.create(self.dead, VisibilityTimeout="0")
        self.create(self.queue, VisibilityTimeout="0", RedrivePolicy=policy(self.dead))

    def remove(self) -> None:
        for name in (self.queue, self.dead):
            self.call("DeleteQueue", QueueUrl=name)

    def send(self, queue: str, **more) -> dict[str, str]:
        ids = {}
        for number in range(COUNT):
            if self.fifo:
                more = {"MessageGroupId": "g", "MessageDeduplicationId": str(number)}
            ids[str(number)] = self.call("SendMessage", QueueUrl=queue, MessageBody=str(number), **more)["MessageId"]
        return ids

    def cut(self, act: Callable[[], None], passing: int, asks: int, each: list[str] = ASKS) -> None:
        """Acts, and ends what is to be ended behind so many asks of the move, of those that have one of these texts."""
        ends = self.cq.ends()
        self.cq.tell(each=each, kill=self.by == "cq", **{"pass": passing})
        acting = threading.Thread(target=self.try_to, args=(act,))
        acting.start()
        until(lambda: self.cq.ends() > ends or passing >= asks, 20, "it isn't cut off", 0.005)
        if passing == asks:
            acting.join()
        if self.by == "gateway":
            pass_time(0.1, "what was answered by then is on disk")
            self.gateway.kill()
        self.cq.tell()
        acting.join()
        if self.by == "gateway":
            self.gateway.start()

    def try_to(self, act: Callable[[], None]) -> None:
        try:
            act()
        except (OSError, Refused):
            assert self.by == "gateway"

    def found(self, wanted: int) -> dict[str, list[str]]:
        """The ids of all messages by their bodies, which end in the dead-letter queue."""
        messages: list[dict] = []

        def are_dead() -> bool:
            assert self.receive(self.queue) == []
            messages[:] = self.receive(self.dead)
            return len(messages) >= wanted

        until(are_dead, 20, lambda: f"{messages}")
        found: dict[str, list[str]] = {}
        for message in messages:
            found.setdefault(message["Body"], []).append(message["MessageId"])
        return found


@pytest.fixture(params=["", ".fifo"])
def kind(request) -> str:
    return request.param


@pytest.mark.parametrize("by", ["gateway", "cq"])
def test_dead_letters_that_are_cut_off_are_moved_once(tmp_path, kind, by):
    cut = Cut(tmp_path, kind, by)
    for passing in range(2 * COUNT + 1):
        cut.create_both()
        ids = cut.send(cut.queue)
        assert len(cut.receive(cut.queue)) == COUNT
        cut.cut(lambda: cut.receive(cut.queue), passing, 2 * COUNT)
        assert cut.found(COUNT) == {body: [one] for body, one in ids.items()}, passing
        cut.remove()
    assert cut.gateway.stop() == 0


@pytest.mark.parametrize("by", ["gateway", "cq"])
def test_messages_of_a_task_that_is_cut_off_are_moved_once(tmp_path, kind, by):
    cut = Cut(tmp_path, kind, by)
    for passing in range(2 * COUNT + 1):
        cut.create_both()
        cut.send(cut.dead)
        target = f"target{kind}"
        cut.create(target, VisibilityTimeout="0")

        def move() -> None:
            cut.call("StartMessageMoveTask", SourceArn=arn(cut.dead), DestinationArn=arn(target))

        def task() -> dict:
            (task,) = cut.call("ListMessageMoveTasks", SourceArn=arn(cut.dead))["Results"]
            return task

        cut.cut(move, passing, 2 * COUNT)
        until(lambda: task()["Status"] != "RUNNING", 20, "the task doesn't end", 0.01)
        moved = int(task()["ApproximateNumberOfMessagesMoved"])
        # Where nothing but the store is kept, the book says it for each ten messages.
        assert moved == COUNT or by == "gateway" and 0 <= moved < COUNT, passing
        assert [message["Body"] for message in cut.receive(target)] == [str(number) for number in range(COUNT)], passing
        assert cut.receive(cut.dead) == []
        cut.call("DeleteQueue", QueueUrl=target)
        cut.remove()
    assert cut.gateway.stop() == 0


@pytest.mark.parametrize("by", ["gateway", "cq"])
def test_due_messages_that_are_cut_off_come_once(tmp_path, by):
    cut = Cut(tmp_path, "", by)
    # They are handed to the gateway, copied and deleted.
    asks, each = 1 + 2 * COUNT, ['d.fifo"', '"kind":"send"']
    for passing in range(asks + 1):
        cut.create_both()
        ids = cut.send(cut.queue, DelaySeconds=5)
        cut.cut(lambda: cut.move(5000), passing, asks, each)
        latest = time.monotonic() + 20
        found: dict[str, list[str]] = {}
        while len(found) < COUNT:
            assert time.monotonic() < latest
            for message in cut.receive(cut.queue, VisibilityTimeout=600):
                found.setdefault(message["Body"], []).append(message["MessageId"])
        assert found == {body: [one] for body, one in ids.items()}, passing
        cut.remove()
    assert cut.gateway.stop() == 0


def test_copies_that_end_the_program_each_time_lose_nothing(tmp_path, kind):
    cut = Cut(tmp_path, kind, "cq")
    cut.create_both()
    ids = cut.send(cut.queue)
    assert len(cut.receive(cut.queue)) == COUNT
    # Only copies say from which queue they come.
    cut.cq.tell(end='\\"source\\"')
    with pytest.raises(Refused, match="InternalFailure"):
        cut.receive(cut.queue)
    assert cut.cq.ends() == 2
    cut.cq.tell()
    assert cut.found(COUNT) == {body: [one] for body, one in ids.items()}
    assert cut.gateway.stop() == 0


@pytest.mark.parametrize("shards", [1, 2])
def test_two_queues_that_are_each_others_dead_letter_queue_wait_for_nobody(tmp_path, kind, shards):
    """Of two programs each has one of the queues."""
    with Started("--journal", str(tmp_path / "journal"), "--shards", str(shards), room=tmp_path) as gateway:
        place = lambda name: zlib.crc32(name.encode()) % 2  # noqa: E731
        one = f"one{kind}"
        other = next(name for name in (f"two{number}{kind}" for number in range(99)) if place(name) != place(one))
        call, names = ByJson(gateway.url), (one, other)
        fifo = {"FifoQueue": "true"} if kind else {}
        for name in names:
            call("CreateQueue", QueueName=name, Attributes={**fifo, "VisibilityTimeout": "0"})
        for name, other in zip(names, reversed(names)):
            call("SetQueueAttributes", QueueUrl=name, Attributes={"RedrivePolicy": policy(other)})
            for number in range(20):
                more = {"MessageGroupId": str(number), "MessageDeduplicationId": str(number)} if kind else {}
                call("SendMessage", QueueUrl=name, MessageBody=f"{name}/{number}", **more)

        def receive(name: str) -> None:
            own, end = ByJson(gateway.url), time.monotonic() + 3
            while time.monotonic() < end:
                own("ReceiveMessage", QueueUrl=name, MaxNumberOfMessages=10)

        at_once([partial(receive, name) for name in names * 3])
        for name in names:
            call("SetQueueAttributes", QueueUrl=name, Attributes={"RedrivePolicy": ""})
        bodies: list[str] = []
        for name in names:
            while messages := call("ReceiveMessage", QueueUrl=name, MaxNumberOfMessages=10, VisibilityTimeout=600).get("Messages"):
                bodies += [message["Body"] for message in messages]
                # Whatever is behind one of its group comes then.
                for message in messages:
                    call("DeleteMessage", QueueUrl=name, ReceiptHandle=message["ReceiptHandle"])
        assert sorted(bodies) == sorted(f"{name}/{number}" for name in names for number in range(20))


MISNUMBERING = """#!{python}
import os, subprocess, sys, threading
if sys.argv[1] != 'server': sys.exit(subprocess.run([{program!r}, *sys.argv[1:]]).returncode)
sys.path.insert(0, {tests!r})
import spoken
cq = subprocess.Popen([{program!r}, *sys.argv[1:]], stdin=subprocess.PIPE, stdout=subprocess.PIPE)
next_is_wrong = threading.Event()

def pass_back():
    for frame in spoken.frames(cq.stdout):
        if next_is_wrong.is_set() and spoken.is_answer(frame):
            next_is_wrong.clear()
            frame = spoken.misnumbered(frame)
        sys.stdout.buffer.write(frame); sys.stdout.buffer.flush()
    os._exit(0)

threading.Thread(target=pass_back, daemon=True).start()
for frame in spoken.frames(sys.stdin.buffer):
    if os.path.exists({told!r}):
        with open({told!r}) as file: text = file.read()
        if text and text in spoken.words(frame):
            os.unlink({told!r})
            next_is_wrong.set()
    cq.stdin.write(frame); cq.stdin.flush()
"""


@pytest.mark.parametrize("ask", ASKS)
def test_an_answer_out_of_turn_neither_loses_nor_doubles_nor_stops(tmp_path, ask):
    """One answer in a move has another request's number."""
    cq, told = tmp_path / "cq", tmp_path / "told"
    cq.write_text(MISNUMBERING.format(python=sys.executable, program=program(), told=str(told), tests=str(LIBRARY)))
    cq.chmod(0o755)
    with Started("--journal", str(tmp_path / "journal"), "--no-pauses", "--cq", str(cq)) as gateway:
        call = ByJson(gateway.url)
        call("CreateQueue", QueueName="dead")
        call("CreateQueue", QueueName="q", Attributes={"VisibilityTimeout": "0", "RedrivePolicy": policy("dead")})
        call("CreateQueue", QueueName="other")
        ids = {str(number): call("SendMessage", QueueUrl="q", MessageBody=str(number))["MessageId"] for number in range(COUNT)}
        assert len(call("ReceiveMessage", QueueUrl="q", MaxNumberOfMessages=10)["Messages"]) == COUNT
        told.write_text(ask)
        assert "Messages" not in call("ReceiveMessage", QueueUrl="q", MaxNumberOfMessages=10)
        call("SendMessage", QueueUrl="other", MessageBody="served")
        call("SetQueueAttributes", QueueUrl="q", Attributes={"RedrivePolicy": ""})
        assert "Messages" not in call("ReceiveMessage", QueueUrl="q", MaxNumberOfMessages=10)
        dead = call("ReceiveMessage", QueueUrl="dead", MaxNumberOfMessages=10)["Messages"]
        assert {message["Body"]: message["MessageId"] for message in dead} == ids and len(dead) == COUNT
        assert not told.exists()
