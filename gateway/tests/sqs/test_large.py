"""Bodies that the store takes in parts alone."""


import pytest

from started import ByJson, ByQuery, Refused, Started

LONGEST = 1_048_576
STORE_LIMIT = 262_144


def create(call, name: str = "q.fifo", **attributes: str) -> None:
    call("CreateQueue", QueueName=name, Attributes={"FifoQueue": "true", "VisibilityTimeout": "600", **attributes})


def receive(call, queue: str = "q.fifo") -> list[dict]:
    return call("ReceiveMessage", QueueUrl=queue, MaxNumberOfMessages=10, MessageAttributeNames=["All"]).get("Messages", [])


def test_bodies_on_each_side_of_the_stores_limit_outlive_kills(tmp_path):
    """What a message has beside its body takes some 150 bytes, so the limit lies somewhere in the middle."""
    path = tmp_path / "journal"
    with Started("--journal", str(path), room=tmp_path) as gateway:
        create(ByJson(gateway.url))
        bodies = ["x" * size for size in range(STORE_LIMIT - 300, STORE_LIMIT + 40, 20)]
        bodies += ["\t\r\n\"\\" * (LONGEST // 5), "\x7f" * LONGEST, "😀" * (LONGEST // 4)]
        call = ByJson(gateway.url)
        ids = {}
        for place, body in enumerate(bodies):
            sent = call("SendMessage", QueueUrl="q.fifo", MessageBody=body, MessageGroupId=str(place),
                        MessageDeduplicationId=str(place))
            ids[sent["MessageId"]] = body
        for _ in range(2):
            found = {}
            while messages := receive(call):
                found.update({message["MessageId"]: message["Body"] for message in messages})
            assert found == ids
            gateway.kill()
            gateway.set_clock(gateway.moment + 600_000)
            gateway.start()
            call = ByJson(gateway.url)


@pytest.mark.parametrize("way", [ByJson, ByQuery])
def test_a_batch_that_is_large_together_outlives_a_kill(tmp_path, way):
    with Started("--journal", str(tmp_path / "journal"), room=tmp_path) as gateway:
        call = way(gateway.url)
        create(call)
        sizes = [300_000, 10, 300_000, 100_000, 300_000, 1, 1, 1, 1, 48_562]
        assert sum(sizes) == LONGEST
        entries = [{"Id": str(place), "MessageBody": "\"" * size, "MessageGroupId": "g", "MessageDeduplicationId": str(place)}
                   for place, size in enumerate(sizes)]
        assert len(call("SendMessageBatch", QueueUrl="q.fifo", Entries=entries)["Successful"]) == 10
        gateway.kill()
        gateway.start()
        call = way(gateway.url)
        messages = receive(call)
        assert [len(message["Body"]) for message in messages] == sizes
        entries[-1]["MessageBody"] += "x"
        with pytest.raises(Refused, match="BatchRequestTooLong"):
            call("SendMessageBatch", QueueUrl="q.fifo", Entries=entries)
        done = call("DeleteMessageBatch", QueueUrl="q.fifo", Entries=[
            {"Id": str(place), "ReceiptHandle": message["ReceiptHandle"]} for place, message in enumerate(messages)])
        assert len(done["Successful"]) == 10
