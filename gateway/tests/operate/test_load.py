"""Eight clients at once: each group's messages come out once each and in order."""

import os
import threading
import time
from functools import partial

from meanwhile import at_once
from rules import new_queue
from started import ByBoto3, Started

MESSAGES = int(os.environ.get("HOBBYCHAIR_TEST_MESSAGES", "10000"))
GROUPS = 100
CLIENTS = 8


def test_each_groups_messages_come_once_each_and_in_order():
    with Started() as gateway:
        calls = [ByBoto3(gateway.client()) for _ in range(CLIENTS)]
        queue = new_queue(calls[0], VisibilityTimeout="600")
        received: dict[str, list[int]] = {f"g{group}": [] for group in range(GROUPS)}
        lock = threading.Lock()

        def send(client: int) -> None:
            """The client's own groups, so that the order of their sends is known; every batch is sent twice."""
            own = [group for group in range(GROUPS) if group % CLIENTS == client]
            entries = [
                {"Id": f"{place}-{group}", "MessageBody": str(place), "MessageGroupId": f"g{group}",
                 "MessageDeduplicationId": f"{place}-{group}"}
                for place in range(MESSAGES // GROUPS) for group in own
            ]
            for start in range(0, len(entries), 10):
                for _ in range(2):
                    result = calls[client]("SendMessageBatch", QueueUrl=queue, Entries=entries[start : start + 10])
                    assert len(result["Successful"]) == len(entries[start : start + 10])

        def receive(client: int) -> None:
            while sum(map(len, received.values())) < MESSAGES:
                messages = calls[client]("ReceiveMessage", QueueUrl=queue, MaxNumberOfMessages=10, WaitTimeSeconds=1,
                                         AttributeNames=["MessageGroupId"]).get("Messages", [])
                if not messages:
                    continue
                with lock:
                    for message in messages:
                        received[message["Attributes"]["MessageGroupId"]].append(int(message["Body"]))
                result = calls[client]("DeleteMessageBatch", QueueUrl=queue, Entries=[
                    {"Id": str(place), "ReceiptHandle": message["ReceiptHandle"]}
                    for place, message in enumerate(messages)])
                assert len(result["Successful"]) == len(messages)

        started = time.monotonic()
        for work in (send, receive):
            at_once([partial(work, client) for client in range(CLIENTS)])
            print(f"{work.__name__}: {time.monotonic() - started:.1f} s")
        assert all(places == list(range(MESSAGES // GROUPS)) for places in received.values())
        counts = calls[0]("GetQueueAttributes", QueueUrl=queue, AttributeNames=["All"])["Attributes"]
        assert counts["ApproximateNumberOfMessages"] == counts["ApproximateNumberOfMessagesNotVisible"] == "0"
