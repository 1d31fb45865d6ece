"""The bound of memory: what is refused when it is full, what goes on, and the way back."""

from collections.abc import Callable

import pytest

from filled import BODY, WINDOW, Filled
from started import START, ByJson, Refused, Started

MEBIBYTE = 1 << 20


@pytest.fixture
def filled(tmp_path) -> Callable[..., Filled]:
    started = []

    def fill(*words: str) -> Filled:
        started.append(Filled(tmp_path, *words))
        return started[-1]

    yield fill
    for one in started:
        assert one.gateway.stop() == 0


BOUND = ["--memory", str(2 * MEBIBYTE)]


@pytest.fixture
def full(filled) -> Filled:
    return filled(*BOUND)


def test_it_is_full_between_90_and_100_percent_of_the_bound(full):
    assert 0.9 * 2 * MEBIBYTE - len(BODY) < full.count * len(BODY) < 2 * MEBIBYTE


def test_sends_and_creations_are_refused_and_all_else_goes_on(full):
    with pytest.raises(Refused, match="OverLimit 403"):
        full.call("CreateQueue", QueueName="other.fifo", Attributes={"FifoQueue": "true"})
    messages = full.receive()
    assert len(messages) == 10
    handles = [message["ReceiptHandle"] for message in messages]
    full.call("ChangeMessageVisibility", QueueUrl="q.fifo", ReceiptHandle=handles[0], VisibilityTimeout=0)
    full.call("TagQueue", QueueUrl="q.fifo", Tags={"a": "b"})
    full.call("DeleteMessage", QueueUrl="q.fifo", ReceiptHandle=handles[1])
    assert not full.sends(), "one message of 39 is less than a twentieth"
    full.call("PurgeQueue", QueueUrl="q.fifo")
    attributes = full.call("GetQueueAttributes", QueueUrl="q.fifo", AttributeNames=["All"])["Attributes"]
    assert attributes["ApproximateNumberOfMessages"] == attributes["ApproximateNumberOfMessagesNotVisible"] == "0"
    full.call("DeleteQueue", QueueUrl="q.fifo")


def test_each_entry_of_a_batch_is_refused_by_itself(tmp_path):
    """The first entries find space, and those behind them don't."""
    with Started(*BOUND, room=tmp_path) as gateway:
        call = ByJson(gateway.url)
        call("CreateQueue", QueueName="q.fifo", Attributes={"FifoQueue": "true"})
        for turn in range(100):
            entries = [{"Id": str(place), "MessageBody": "y" * 26_000, "MessageGroupId": "g",
                        "MessageDeduplicationId": f"{turn}-{place}"} for place in range(10)]
            answer = call("SendMessageBatch", QueueUrl="q.fifo", Entries=entries)
            if failed := answer.get("Failed"):
                break
        successful = len(answer.get("Successful", []))
        assert 7 <= turn and 0 < successful < 10
        assert {(one["Code"], one["SenderFault"]) for one in failed} == {("OverLimit", True)}
        assert [one["Id"] for one in failed] == [str(place) for place in range(successful, 10)]


def test_memory_is_left_by_deleting(full):
    assert full.delete_all() == full.count
    assert full.sends()


def test_ids_count_for_five_minutes(tmp_path):
    """Small messages that were all deleted leave their ids, until these are too old."""
    with Started("--memory", str(100_000), room=tmp_path) as gateway:
        call = ByJson(gateway.url)
        call("CreateQueue", QueueName="q.fifo", Attributes={"FifoQueue": "true"})

        def exchange(number: int) -> None:
            call("SendMessage", QueueUrl="q.fifo", MessageBody="b", MessageGroupId="g", MessageDeduplicationId=str(number))
            (message,) = call("ReceiveMessage", QueueUrl="q.fifo")["Messages"]
            call("DeleteMessage", QueueUrl="q.fifo", ReceiptHandle=message["ReceiptHandle"])

        number = 0
        with pytest.raises(Refused, match="OverLimit"):
            for number in range(1000):
                exchange(number)
        assert 20 < number < 500
        gateway.set_clock(START + WINDOW - 1)
        with pytest.raises(Refused, match="OverLimit"):
            exchange(number)
        gateway.set_clock(START + WINDOW + 1000)
        for more in range(number, number + 10):
            exchange(more)
