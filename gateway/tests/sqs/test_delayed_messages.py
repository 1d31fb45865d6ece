"""Delayed messages of standard queues that are refused by the store, are sent again, or are due all at once."""

import random
import threading
import time
from collections.abc import Callable
from pathlib import Path

import pytest

from kept import Kept
from meanwhile import meanwhile
from operated import admin_url, get
from rules import sent_by_call
from sockets import is_all_read
from started import START, ByJson, ByQuery, Refused, Started
from steered import SteeredCq
from waiting import pass_time, until


def attribute(data_type: str) -> dict:
    return {"a": {"DataType": data_type, "StringValue": "x"}}


def bodies(call, queue: str, **more) -> list[str]:
    told = call("ReceiveMessage", QueueUrl=queue, MaxNumberOfMessages=10, **more)
    return [message["Body"] for message in told.get("Messages", [])]


def counts(call, queue: str) -> list[int]:
    told = call("GetQueueAttributes", QueueUrl=queue, AttributeNames=["All"])["Attributes"]
    return [int(told[f"ApproximateNumberOfMessages{which}"]) for which in ("", "NotVisible", "Delayed")]


@pytest.mark.parametrize("way", [ByJson, ByQuery])
@pytest.mark.parametrize("delay", [0, 5])
@pytest.mark.parametrize("length", [1, 300_000])
def test_a_type_with_characters_that_no_message_has_is_refused(gateway, way, delay, length):
    call = way(gateway.url)
    call("CreateQueue", QueueName="types")
    for data_type in ("String.\ufffe", "String.a\uffff"):
        with pytest.raises(Refused, match="InvalidParameterValue"):
            call("SendMessage", QueueUrl="types", MessageBody="b" * length, DelaySeconds=delay,
                 MessageAttributes=attribute(data_type))


class Delayed(Kept):
    """A gateway with a journal, a program that is steered, and a standard queue in it."""

    def __init__(self, room: Path) -> None:
        super().__init__(room, "--admin", "0", "--no-pauses", steered=True)
        self.create("q", VisibilityTimeout="600")

    def send(self, body: str, delay: int) -> str:
        return self.call("SendMessage", QueueUrl="q", MessageBody=body, DelaySeconds=delay)["MessageId"]

    def bodies(self) -> list[str]:
        return super().bodies("q")

    def counts(self) -> list[int]:
        return super().counts("q")

    def are_set_aside(self, count: int) -> bool:
        """Whether so many aren't tried any more. While `cq` is started again and again, nobody may say how many there are."""
        row = f'hobbychair_messages{{queue="q",state="set aside"}} {count}'
        return row in get(admin_url(self.gateway) + "/metrics")[1].splitlines()


@pytest.fixture
def delayed(tmp_path):
    with Delayed(tmp_path) as delayed:
        yield delayed


def test_what_is_delayed_stands_in_the_store(delayed):
    ids = {body: delayed.send(body, 5) for body in ("small", "x" * 300_000)}
    assert delayed.store_names() >= {"1.fifo", "1d.fifo"}
    for _ in range(2):
        delayed.restart()
        assert delayed.counts() == [0, 0, 2]
    delayed.move(5000)
    found = delayed.call("ReceiveMessage", QueueUrl="q", MaxNumberOfMessages=10)["Messages"]
    assert {message["Body"]: message["MessageId"] for message in found} == ids


def test_a_message_that_is_too_long_for_the_store_once_it_has_its_id_comes_whole(delayed):
    bodies_sent = ["x" * (262_144 - beside) for beside in range(20, 140, 10)]
    ids = {body: delayed.send(body, 5) for body in bodies_sent}
    lengths = sum(not name.startswith("b") for name in delayed.store_names())
    assert lengths == 2 and len(delayed.store_names()) > 2
    delayed.move(5000)
    for _ in range(2):
        found: dict[str, str] = {}
        while len(found) < len(ids):
            for one in delayed.call("ReceiveMessage", QueueUrl="q", MaxNumberOfMessages=10, WaitTimeSeconds=5)["Messages"]:
                assert found.setdefault(one["Body"], one["MessageId"]) == one["MessageId"]
        assert found == ids
        delayed.move(600_000)
        delayed.restart()


@pytest.mark.parametrize("passing", range(4))
def test_the_first_delayed_send_that_is_cut_off_can_be_repeated(delayed, passing):
    """Its queue is created before it."""
    delayed.cut_off(lambda: sent_by_call(delayed.gateway.url, "q", "call", 1, DelaySeconds=5), '"queue":"1d.fifo"', passing=passing)
    ids = {sent_by_call(delayed.gateway.url, "q", "call", attempt, DelaySeconds=5)[0] for attempt in (2, 3)}
    assert delayed.counts() == [0, 0, 1]
    delayed.move(5000)
    (message,) = delayed.call("ReceiveMessage", QueueUrl="q", MaxNumberOfMessages=10)["Messages"]
    assert {message["MessageId"]} == ids


@pytest.mark.parametrize("passing", range(4))
def test_a_removal_that_is_cut_off_takes_all_or_nothing(delayed, passing):
    delayed.send("old", 5)
    delayed.send("now", 0)
    # The book says it, and then the store is asked for each of the two.
    delayed.cut_off(lambda: delayed.call("DeleteQueue", QueueUrl="q"), "removed", '"kind":"remove"', passing=passing)
    if passing == 0:
        assert delayed.counts() == [1, 0, 1]
        delayed.call("DeleteQueue", QueueUrl="q")
    assert "QueueUrls" not in delayed.call("ListQueues")
    delayed.call("CreateQueue", QueueName="q")
    delayed.send("new", 5)
    for _ in range(2):
        assert delayed.counts() == [0, 0, 1]
        delayed.restart()
    delayed.move(5000)
    assert delayed.bodies() == ["new"]


def test_a_copy_that_ends_the_program_each_time_holds_no_other_message_up(delayed):
    # What is received stays in flight, however often the clock is moved on.
    delayed.call("SetQueueAttributes", QueueUrl="q", Attributes={"VisibilityTimeout": "43200"})
    ids = [delayed.send(str(number), 5) for number in range(5)]
    # Only its copy says a message's id.
    delayed.cq.tell(end=ids[2])
    delayed.move(5000)
    found: set[str] = set()

    def are_there() -> bool:
        try:
            found.update(delayed.bodies())
        except Refused:
            pass  # the program is being started again
        delayed.move(1000)
        return found == {"0", "1", "3", "4"}

    until(are_there, 60, "they aren't there")

    def is_set_aside() -> bool:
        delayed.move(1000)
        return delayed.are_set_aside(1)

    until(is_set_aside, 60, "it isn't set aside")
    assert delayed.counts() == [0, 4, 1]
    delayed.cq.tell()
    delayed.restart()
    (message,) = delayed.call("ReceiveMessage", QueueUrl="q", MaxNumberOfMessages=10, WaitTimeSeconds=5)["Messages"]
    assert (message["Body"], message["MessageId"]) == ("2", ids[2])
    until(lambda: delayed.are_set_aside(0), 20, "it is set aside still")


def test_messages_come_as_they_are_due_whatever_the_order_of_their_sends(delayed):
    chance = random.Random(7)
    due = sorted((delay, number) for number, delay in enumerate(chance.choices(range(1, 30), k=60)))
    for number, delay in sorted((number, delay) for delay, number in due):
        delayed.send(str(number), delay)
    found, expected = [], [str(number) for _, number in due]
    for second in range(1, 31):
        delayed.move(1000)
        if second % 10 == 0:
            delayed.restart()
        while bodies_now := delayed.bodies():
            found += bodies_now
        assert found == [str(number) for delay, number in due if delay <= second], second
        assert delayed.counts() == [0, len(found), 60 - len(found)]
    assert found == expected


def test_a_delayed_message_is_due_also_after_all_that_was_hidden_is_visible_again(delayed):
    """What stands before a due message is handed to the gateway, for twelve hours."""
    first = delayed.send("first", 900)
    delayed.send("second", 1)
    delayed.move(1000)
    assert delayed.bodies() == ["second"]
    delayed.gateway.kill()
    delayed.move(13 * 3_600_000)
    delayed.gateway.start()
    delayed.send("third", 900)
    messages = delayed.call("ReceiveMessage", QueueUrl="q", MaxNumberOfMessages=10, AttributeNames=["All"])["Messages"]
    told = [(one["Body"], one["Attributes"]["ApproximateReceiveCount"]) for one in messages]
    assert told == [("second", "2"), ("first", "1")] and messages[1]["MessageId"] == first
    assert delayed.counts() == [0, 2, 1]


@pytest.mark.parametrize("action", ["PurgeQueue", "DeleteQueue"])
@pytest.mark.parametrize("passing", [0, 1, 3, 4, 6])
def test_a_purge_or_a_removal_takes_what_is_being_moved(delayed, action, passing):
    for number in range(3):
        delayed.send(str(number), 5)
    delayed.cq.tell(each=['"kind":"send"', '"kind":"delete"'], **{"pass": passing})
    delayed.move(5000)
    until(lambda: delayed.cq.ends() > 0 or passing == 6, 20, "it isn't held up")
    with meanwhile(lambda: delayed.call(action, QueueUrl="q")):
        pass_time(0.1, "it comes while messages are being moved")
        delayed.cq.tell()
    if action == "DeleteQueue":
        delayed.call("CreateQueue", QueueName="q")
    delayed.send("new", 1)
    for _ in range(2):
        assert delayed.counts() == [0, 0, 1]
        delayed.restart()
    delayed.move(1000)
    assert delayed.bodies() == ["new"] and delayed.counts() == [0, 1, 0]


def test_a_queue_that_was_removed_takes_no_delayed_message(delayed):
    delayed.send("old", 5)
    delayed.call("DeleteQueue", QueueUrl="q")
    with pytest.raises(Refused, match="NonExistentQueue|QueueDoesNotExist"):
        delayed.send("late", 5)
    delayed.call("CreateQueue", QueueName="q")
    delayed.restart()
    assert delayed.counts() == [0, 0, 0]
    ids = {delayed.send("new", 5)}
    for _ in range(2):
        delayed.restart()
        assert delayed.counts() == [0, 0, 1]
    delayed.move(5000)
    assert {one["MessageId"] for one in delayed.call("ReceiveMessage", QueueUrl="q")["Messages"]} == ids


@pytest.mark.parametrize("batch", [False, True])
@pytest.mark.parametrize("before, after", [("0", "5"), ("5", "0")])
def test_a_call_is_known_again_where_the_queues_delay_has_changed(tmp_path, before, after, batch):
    with Started("--journal", str(tmp_path / "journal"), room=tmp_path) as gateway:
        call = ByJson(gateway.url)
        call("CreateQueue", QueueName="q", Attributes={"DelaySeconds": before})
        first = sent_by_call(gateway.url, "q", "call", 1, batch=batch)
        call("SetQueueAttributes", QueueUrl="q", Attributes={"DelaySeconds": after})
        assert sent_by_call(gateway.url, "q", "call", 2, batch=batch) == first
        gateway.kill()
        gateway.start()
        call = ByJson(gateway.url)
        assert sent_by_call(gateway.url, "q", "call", 3, batch=batch) == first
        assert not set(sent_by_call(gateway.url, "q", "other", 1, batch=batch)) & set(first)
        gateway.set_clock(START + 5000)
        assert len(bodies(call, "q")) == 2 * len(first)


def test_two_sends_of_a_call_that_are_open_at_once_are_one_message(delayed):
    """The first one waits for the queue of delayed messages while the delay is taken away, and then for its answer."""
    delayed.call("SetQueueAttributes", QueueUrl="q", Attributes={"DelaySeconds": "5"})
    told: list[list[str]] = []
    port = int(delayed.gateway.url.rsplit(":", 1)[1])

    def begin(act: Callable[[], object], open_requests: int) -> threading.Thread:
        thread = threading.Thread(target=act)
        thread.start()
        until(lambda: is_all_read(port, open_requests), 20, "a request doesn't come")
        pass_time(0.1, "it comes ahead of the next one, once it was read")
        return thread

    delayed.cq.tell(hold='"kind":"create"')
    first = begin(lambda: told.append(sent_by_call(delayed.gateway.url, "q", "call", 1)), 1)
    until(lambda: delayed.cq.holds() == 1, 20, "nothing is created")
    change = begin(lambda: delayed.call("SetQueueAttributes", QueueUrl="q", Attributes={"DelaySeconds": "0"}), 2)
    delayed.cq.tell(hold='"kind":"send","queue":"1')
    change.join()
    second = begin(lambda: told.append(sent_by_call(delayed.gateway.url, "q", "call", 2)), 2)
    assert told == []
    delayed.cq.tell()
    first.join()
    second.join()
    assert told[0] == told[1] and delayed.counts() == [0, 0, 1]


def test_nobody_waits_until_all_is_handed_out_that_stands_before_a_due_message(tmp_path):
    cq = SteeredCq(tmp_path)
    gateway = Started(*cq.words(), room=tmp_path)
    call = ByJson(gateway.url)
    call("CreateQueue", QueueName="q")
    for turn in range(1000):
        call("SendMessageBatch", QueueUrl="q", Entries=[
            {"Id": str(place), "MessageBody": "later", "DelaySeconds": 900} for place in range(10)])
    call("SendMessage", QueueUrl="q", MessageBody="due", DelaySeconds=1)
    call("SendMessage", QueueUrl="q", MessageBody="here")
    cq.tell(slow='"kind":"receive"')
    gateway.set_clock(START + 1000)
    began = time.monotonic()
    assert counts(call, "q")[2] == 10_000
    assert bodies(call, "q") == ["here"]
    took = time.monotonic() - began
    assert took < 3, f"the thousand receives before the due message take three seconds and more: {took}"
    cq.tell()
    assert until(lambda: bodies(call, "q"), 20, "it isn't handed out") == ["due"] and gateway.stop() == 0


def test_a_receive_does_not_wait_until_all_due_messages_are_sent(tmp_path):
    cq = SteeredCq(tmp_path)
    with Started(*cq.words(), room=tmp_path) as gateway:
        call = ByJson(gateway.url)
        call("CreateQueue", QueueName="q")
        for turn in range(100):
            call("SendMessageBatch", QueueUrl="q", Entries=[
                {"Id": str(place), "MessageBody": str(10 * turn + place), "DelaySeconds": 5} for place in range(10)])
        cq.tell(slow='"kind":"send"')
        gateway.set_clock(START + 5000)
        began = time.monotonic()
        assert bodies(call, "q") == [str(number) for number in range(10)]
        took = time.monotonic() - began
        assert took < 3, f"all thousand take three seconds and more: {took}"
        cq.tell()
        until(lambda: counts(call, "q") == [990, 10, 0], 20, "not all are moved")
        found = [body for _ in range(99) for body in bodies(call, "q")]
        assert found == [str(number) for number in range(10, 1000)]
