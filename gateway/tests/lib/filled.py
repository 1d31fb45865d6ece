"""A gateway whose memory is full."""

from collections.abc import Callable, Sequence
from pathlib import Path

from started import ByJson, Refused, Started
from waiting import comes

WINDOW = 300_000
BODY = "x" * 50_000


class Filled:
    """A gateway whose queue has been sent messages until no more were taken. Another one was sent `kept` before, and what
    `before` does was done."""

    def __init__(self, room: Path, *words: str, kept: Sequence[str] = (),
                 before: Callable[[ByJson], None] = lambda call: None) -> None:
        self.gateway = Started(*words, room=room)
        self.call = ByJson(self.gateway.url)
        before(self.call)
        self.call("CreateQueue", QueueName="q.fifo", Attributes={"FifoQueue": "true", "VisibilityTimeout": "600"})
        if kept:
            self.call("CreateQueue", QueueName="kept.fifo", Attributes={"FifoQueue": "true"})
        for place, body in enumerate(kept):
            self.call("SendMessage", QueueUrl="kept.fifo", MessageBody=body, MessageGroupId="g",
                      MessageDeduplicationId=str(place))
        self.count = 0
        while self.sends():
            assert self.count < 1000, "it is never full"

    def send(self) -> None:
        self.call("SendMessage", QueueUrl="q.fifo", MessageBody=BODY, MessageGroupId=f"g{self.count}",
                  MessageDeduplicationId=str(self.count))
        self.count += 1

    def sends(self) -> bool:
        try:
            self.send()
        except Refused as refusal:
            assert (refusal.code.split("#")[-1], refusal.status) == ("OverLimit", 403)
            return False
        return True

    def receive(self) -> list[dict]:
        return self.call("ReceiveMessage", QueueUrl="q.fifo", MaxNumberOfMessages=10).get("Messages", [])

    def delete_all(self) -> int:
        deleted = 0
        while messages := self.receive():
            entries = [{"Id": str(place), "ReceiptHandle": message["ReceiptHandle"]}
                       for place, message in enumerate(messages)]
            answer = self.call("DeleteMessageBatch", QueueUrl="q.fifo", Entries=entries)
            deleted += len(answer["Successful"])
        return deleted

    def sends_again(self, seconds: float = 10) -> bool:
        return comes(self.sends, seconds)
