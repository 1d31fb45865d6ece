"""Delays of whole queues (Developer Guide, "Amazon SQS delay queues")."""

import threading
import time
from functools import partial

import pytest

from meanwhile import meanwhile
from operated import polls
from rules import Rules
from started import ByBoto3, Started
from waiting import comes, holds


@pytest.fixture
def delays(gateway) -> Rules:
    return Rules(ByBoto3(gateway.client()), lambda step: gateway.set_clock(gateway.moment + step))


def test_a_message_is_handed_out_when_it_is_due(delays):
    queue = delays.queue(DelaySeconds="10")
    delays.send(queue, "1", body="one")
    delays.move(4000)
    delays.send(queue, "2", body="two")
    assert delays.counts(queue) == (0, 0, 2)
    delays.move(5999)
    assert delays.receive(queue) == []
    delays.move(1)
    assert delays.counts(queue) == (1, 0, 1)
    (one,) = delays.receive(queue, AttributeNames=["All"])
    assert (one["Body"], one["Attributes"]["ApproximateReceiveCount"]) == ("one", "1")
    # Its group waits, though the second one is due.
    delays.move(4000)
    assert delays.receive(queue) == [] and delays.counts(queue) == (1, 1, 0)
    delays.delete(queue, one)
    (two,) = delays.receive(queue, AttributeNames=["All"])
    assert (two["Body"], two["Attributes"]["ApproximateReceiveCount"]) == ("two", "1")
    assert int(two["Attributes"]["SentTimestamp"]) == int(one["Attributes"]["SentTimestamp"]) + 4000


def test_due_groups_do_not_wait_behind_delayed_messages(delays):
    queue = delays.queue(DelaySeconds="10")
    for body in ("a1", "b1", "c1"):
        delays.send(queue, body, group=body[0], body=body)
    delays.move(5000)
    for body in ("a2", "b2", "d1"):
        delays.send(queue, body, group=body[0], body=body)
    delays.move(5000)
    assert delays.bodies(queue, 2) == ["a1", "b1"]
    assert delays.bodies(queue, 10) == ["c1"]
    delays.move(5000)
    assert delays.bodies(queue, 10) == ["d1"]
    delays.move(15_000)
    assert delays.bodies(queue, 10) == []


def test_a_receive_without_a_timeout_hides_nothing(delays):
    queue = delays.queue(DelaySeconds="10", VisibilityTimeout="0")
    delays.send(queue, "1", body="one")
    delays.move(10_000)
    delays.send(queue, "2", body="two")
    assert [delays.bodies(queue) for _ in range(3)] == [["one"]] * 3
    delays.move(10_000)
    assert delays.bodies(queue) == ["one", "two"]


def test_a_change_of_the_delay_acts_on_what_is_there(delays):
    queue = delays.queue()
    set_delay = lambda seconds: delays.call("SetQueueAttributes", QueueUrl=queue, Attributes={"DelaySeconds": seconds})  # noqa: E731
    delays.send(queue, "1", body="one")
    delays.send(queue, "2", group="h", body="two")
    (one,) = delays.receive(queue, 1)
    set_delay("900")
    assert delays.counts(queue) == (0, 1, 1)
    delays.move(30_000)
    # Also of what was handed out before.
    assert delays.receive(queue) == [] and delays.counts(queue) == (0, 0, 2)
    set_delay("0")
    (one,) = delays.receive(queue, 1)
    delays.delete(queue, one)
    set_delay("31")
    delays.move(999)
    assert delays.receive(queue) == []
    delays.move(1)
    assert delays.bodies(queue) == ["two"]
    set_delay("0")
    delays.send(queue, "3")
    assert delays.counts(queue) == (1, 1, 0) and len(delays.receive(queue)) == 1


def test_a_long_poll_is_served_when_a_message_is_due(delays, gateway):
    queue = delays.queue(DelaySeconds="100")
    with meanwhile(lambda: delays.bodies(queue, 10, WaitTimeSeconds=20)) as [poll]:
        polls(gateway, 1)
        ByBoto3(delays.call.client)("SendMessage", QueueUrl=queue, MessageBody="b", MessageGroupId="g", MessageDeduplicationId="d")
        holds(lambda: not poll.done(), 0.2, "it is handed out ahead of its delay")
        began = time.monotonic()
        delays.move(100_000)
    assert poll.result() == ["b"] and time.monotonic() - began < 15


def test_a_long_poll_is_served_when_the_delay_is_taken_away(delays, gateway):
    queue = delays.queue(DelaySeconds="900")
    delays.send(queue, "d", body="b")
    with meanwhile(lambda: delays.bodies(queue, 10, WaitTimeSeconds=20)) as [poll]:
        polls(gateway, 1)
        began = time.monotonic()
        delays.call("SetQueueAttributes", QueueUrl=queue, Attributes={"DelaySeconds": "0"})
    assert poll.result() == ["b"] and time.monotonic() - began < 15


def test_a_removal_ends_a_long_poll_of_a_delayed_queue(delays, gateway):
    queue = delays.queue(DelaySeconds="100")
    delays.send(queue, "d")
    with meanwhile(lambda: delays.refused("NonExistentQueue", lambda: delays.receive(queue, WaitTimeSeconds=20))):
        polls(gateway, 1)
        delays.call("DeleteQueue", QueueUrl=queue)


def test_a_message_of_its_own_can_not_be_delayed(delays):
    queue = delays.queue(DelaySeconds="1")
    delays.refused("InvalidParameterValue", lambda: delays.send(queue, "d", DelaySeconds=1))


def test_a_dead_letter_is_delayed_anew(delays):
    dead = delays.queue(DelaySeconds="10")
    arn = delays.call("GetQueueAttributes", QueueUrl=dead, AttributeNames=["QueueArn"])["Attributes"]["QueueArn"]
    policy = f'{{"deadLetterTargetArn":"{arn}","maxReceiveCount":1}}'
    queue = delays.queue(DelaySeconds="5", VisibilityTimeout="0", RedrivePolicy=policy)
    delays.send(queue, "1", body="one")
    delays.send(queue, "2", body="two")
    delays.move(5000)
    assert delays.bodies(queue, 1) == ["one"]
    assert delays.bodies(queue, 1) == ["two"]
    delays.move(9999)
    assert delays.receive(dead) == []
    delays.move(1)
    assert delays.bodies(dead) == ["one"]


def test_many_clients_are_handed_what_is_due_in_order(tmp_path):
    """By the wall clock: no message comes before its time, none twice, and each group in its order."""
    with Started("--journal", str(tmp_path / "journal")) as gateway:
        call = ByBoto3(gateway.client())
        url = call("CreateQueue", QueueName="q.fifo", Attributes={"FifoQueue": "true", "DelaySeconds": "1"})["QueueUrl"]
        received: list[tuple[str, int]] = []
        done = threading.Event()

        def send(client: int) -> None:
            own = ByBoto3(gateway.client())
            for place in range(60):
                own("SendMessage", QueueUrl=url, MessageBody=str(place), MessageGroupId=f"g{client}",
                    MessageDeduplicationId=f"{client}-{place}")

        def receive() -> None:
            own = ByBoto3(gateway.client())
            while not done.is_set():
                got = own("ReceiveMessage", QueueUrl=url, MaxNumberOfMessages=10, WaitTimeSeconds=1, AttributeNames=["All"])
                for message in got.get("Messages", []):
                    attributes = message["Attributes"]
                    assert attributes["ApproximateReceiveCount"] == "1"
                    assert int(attributes["ApproximateFirstReceiveTimestamp"]) >= int(attributes["SentTimestamp"]) + 1000
                    received.append((attributes["MessageGroupId"], int(message["Body"])))
                    own("DeleteMessage", QueueUrl=url, ReceiptHandle=message["ReceiptHandle"])

        with meanwhile(*[partial(send, client) for client in range(4)], *[receive] * 4) as works:
            comes(lambda: len(received) >= 240 or any(work.done() and work.exception() for work in works), 60)
            done.set()
        for client in range(4):
            assert [place for group, place in received if group == f"g{client}"] == list(range(60))
