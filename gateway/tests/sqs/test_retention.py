"""How long messages are kept (API Reference, SetQueueAttributes, `MessageRetentionPeriod`)."""

import time

import pytest

from rules import Rules, new_name
from started import ByBoto3, Started, handing
from waiting import pass_time, until

MINUTE = 60_000
DAY = 24 * 3_600_000


@pytest.fixture
def kept(gateway) -> Rules:
    return Rules(ByBoto3(gateway.client()), lambda step: gateway.set_clock(gateway.moment + step))


def come_to(rules: Rules, queue: str, *expected: int) -> None:
    """Waits until so many are visible and in flight."""
    until(lambda: rules.counts(queue)[:2] == expected, 20, lambda: f"{rules.counts(queue)} and not {expected} are there")


def test_a_message_is_handed_out_until_it_is_too_old(kept):
    queue = kept.queue(MessageRetentionPeriod="60", VisibilityTimeout="0")
    kept.send(queue, "1", body="old")
    kept.move(MINUTE - 1)
    kept.send(queue, "2", body="young")
    assert kept.bodies(queue, 1) == ["old"]
    kept.move(1)
    # Its group goes on, in the same receive.
    (message,) = kept.receive(queue, 1, AttributeNames=["All"])
    assert message["Body"] == "young" and message["Attributes"]["ApproximateReceiveCount"] == "1"
    come_to(kept, queue, 1, 0)


def test_a_change_of_the_period_acts_on_what_is_there(kept):
    queue = kept.queue(MessageRetentionPeriod="1209600")
    kept.send(queue, "1", group="a")
    kept.move(14 * DAY - 1)
    assert kept.counts(queue)[:2] == (1, 0)
    kept.call("SetQueueAttributes", QueueUrl=queue, Attributes={"MessageRetentionPeriod": "60"})
    assert kept.bodies(queue) == []
    come_to(kept, queue, 0, 0)


def test_messages_go_for_which_nobody_asks(kept):
    queue = kept.queue(MessageRetentionPeriod="60")
    for number in range(25):
        kept.send(queue, str(number), group=f"g{number % 7}")
    kept.move(MINUTE - 1)
    kept.send(queue, "young")
    kept.move(1)
    come_to(kept, queue, 1, 0)


def test_what_is_in_flight_is_left_to_who_has_it(kept):
    queue = kept.queue(MessageRetentionPeriod="60", VisibilityTimeout="120")
    kept.send(queue, "1", group="held", body="held")
    kept.send(queue, "2", group="held", body="behind")
    kept.send(queue, "3", group="other", body="gone")
    (held,) = kept.receive(queue, 1)
    kept.move(MINUTE)
    come_to(kept, queue, 1, 1)
    kept.change(queue, held, 90)
    kept.move(90_000 - 1)
    assert kept.counts(queue)[:2] == (1, 1)
    kept.delete(queue, held)
    come_to(kept, queue, 0, 0)


def test_a_sweep_is_handed_only_what_it_deletes(tmp_path):
    with Started("--journal", str(tmp_path / "journal"), room=tmp_path) as gateway:
        rules = Rules(ByBoto3(gateway.client()), lambda step: gateway.set_clock(gateway.moment + step))
        queue = rules.queue(MessageRetentionPeriod="60", VisibilityTimeout="600")
        rules.send(queue, "1", group="held")
        rules.send(queue, "2", group="held")
        assert len(rules.receive(queue, 1)) == 1
        rules.send(queue, "0", group="gone")
        rules.move(MINUTE - 1)
        for number in "abc":
            rules.send(queue, number, group=number, body=number)
        first = rules.receive(queue, 3, VisibilityTimeout=0)
        assert [message["Body"] for message in first[1:]] == ["a", "b"]
        rules.move(1)
        # The second message of the group is too old, and waits behind what is in flight. Young ones are behind the third.
        come_to(rules, queue, 4, 1)
        pass_time(1.5, "more would be taken away each second")
        rules.refused("InvalidParameterValue", lambda: rules.delete(queue, first[1]))
        again = rules.receive(queue, AttributeNames=["All"])
        assert [(message["Body"], message["Attributes"]["ApproximateReceiveCount"], handing(message)) for message in again] == [
            ("a", "2", 2), ("b", "2", 2), ("c", "1", 1)]
        rules.delete(queue, again.pop(0))
        gateway.kill()
        gateway.start()
        rules.call = ByBoto3(gateway.client())
        (b, c) = again
        rules.delete(queue, b)
        rules.change(queue, c, 0)
        (c,) = rules.receive(queue, AttributeNames=["All"])
        assert (c["Body"], c["Attributes"]["ApproximateReceiveCount"], handing(c)) == ("c", "2", 2)


def test_a_sweep_follows_the_order_of_groups(kept):
    """Groups of which some messages are too old, and some in flight."""
    queue = kept.queue(MessageRetentionPeriod="60", VisibilityTimeout="600")
    for number in range(60):
        kept.send(queue, f"old{number}", group=f"g{number % 7}")
    held = kept.receive(queue, 1)
    kept.move(MINUTE - 1)
    for number in range(30):
        kept.send(queue, f"young{number}", group=f"g{number % 10}", body=str(number))
    kept.move(1)
    # Nine old messages of the first group and five young ones wait behind the one in flight.
    come_to(kept, queue, 8 + 30, 1)
    kept.delete(queue, held[0])
    come_to(kept, queue, 30, 0)
    found = []
    while some := kept.receive(queue):
        found += some
        for message in some:
            kept.delete(queue, message)
    assert sorted(int(message["Body"]) for message in found) == list(range(30))
    assert {handing(message) for message in found} == {1}


def test_a_long_poll_goes_on_behind_old_messages(kept):
    queue = kept.queue(MessageRetentionPeriod="60")
    for number in range(120):
        kept.send(queue, str(number), group=f"g{number % 3}")
    kept.move(MINUTE)
    kept.send(queue, "young", group="g0", body="young")
    began = time.monotonic()
    assert kept.bodies(queue, 1, WaitTimeSeconds=20) == ["young"]
    assert time.monotonic() - began < 15


def test_a_stop_counts_with_a_day_at_most(tmp_path):
    journal = tmp_path / "journal"
    gateway = Started("--journal", str(journal), room=tmp_path)
    name = new_name()
    attributes = {"FifoQueue": "true", "MessageRetentionPeriod": str(3 * 86_400)}

    def bodies(**more) -> list[str]:
        got = ByBoto3(gateway.client())("ReceiveMessage", QueueUrl=name, VisibilityTimeout=0, **more)
        return [message["Body"] for message in got.get("Messages", [])]

    call = ByBoto3(gateway.client())
    call("CreateQueue", QueueName=name, Attributes=attributes)
    call("SendMessage", QueueUrl=name, MessageBody="b", MessageGroupId="g", MessageDeduplicationId="d")
    for days in (10, 0):
        assert gateway.stop() == 0
        gateway.set_clock(gateway.moment + days * DAY)
        gateway.start()
        assert bodies() == ["b"]
    gateway.set_clock(gateway.moment + 2 * DAY - 1)
    assert bodies() == ["b"]
    gateway.set_clock(gateway.moment + 1)
    assert bodies() == []
    assert gateway.stop() == 0
