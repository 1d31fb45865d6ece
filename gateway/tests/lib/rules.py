"""Queues of a service, and what tests of its rules ask of them."""

import itertools
import json
import re
from collections.abc import Callable
from typing import Any

import pytest

from started import Refused, post

FIFO = {"FifoQueue": "true"}

_names = itertools.count(1)


def new_name() -> str:
    return f"q{next(_names)}.fifo"


def new_queue(call, **attributes: str) -> str:
    return call("CreateQueue", QueueName=new_name(), Attributes={**FIFO, **attributes})["QueueUrl"]


def arn(queue: str, region: str = "us-east-1") -> str:
    """Of a queue by its name or its URL."""
    return f"arn:aws:sqs:{region}:000000000000:{queue.rsplit('/', 1)[-1]}"


def policy(target: str, most: int | str | None = 1, **more: Any) -> str:
    """A redrive policy to that queue, behind so many receives if it says."""
    count = {} if most is None else {"maxReceiveCount": most}
    return json.dumps({"deadLetterTargetArn": arn(target), **count, **more})


class Rules:
    """A queue service whose clock stands still until a test moves it."""

    def __init__(self, call, move: Callable[[int], None]) -> None:
        self.call = call
        self.move = move

    def queue(self, **attributes: str) -> str:
        return new_queue(self.call, **attributes)

    def send(self, queue: str, dedup: str, group: str = "g", body: str = "b", **more: Any) -> dict[str, Any]:
        return self.call("SendMessage", QueueUrl=queue, MessageBody=body, MessageGroupId=group,
                         MessageDeduplicationId=dedup, **more)

    def receive(self, queue: str, size: int = 10, **more: Any) -> list[dict[str, Any]]:
        return self.call("ReceiveMessage", QueueUrl=queue, MaxNumberOfMessages=size, **more).get("Messages", [])

    def bodies(self, queue: str, size: int = 10, **more: Any) -> list[str]:
        return [message["Body"] for message in self.receive(queue, size, **more)]

    def counts(self, queue: str) -> tuple[int, ...]:
        """How many messages are visible, in flight and delayed."""
        told = self.call("GetQueueAttributes", QueueUrl=queue, AttributeNames=["All"])["Attributes"]
        return tuple(int(told[f"ApproximateNumberOfMessages{which}"]) for which in ("", "NotVisible", "Delayed"))

    def delete(self, queue: str, message: dict[str, Any]) -> None:
        self.call("DeleteMessage", QueueUrl=queue, ReceiptHandle=message["ReceiptHandle"])

    def change(self, queue: str, message: dict[str, Any], seconds: int) -> None:
        self.call("ChangeMessageVisibility", QueueUrl=queue, ReceiptHandle=message["ReceiptHandle"],
                  VisibilityTimeout=seconds)

    def refused(self, code: str, action: Callable[[], Any]) -> None:
        with pytest.raises(Refused) as refusal:
            action()
        assert re.fullmatch(rf"(AWS\.SimpleQueueService\.)?{code}", refusal.value.code)


def sent_by_call(url: str, queue: str, invocation: str, attempt: int, body: str = "b", batch: bool = False,
                 **more: Any) -> list[str]:
    """The ids that a send of an SDK is told, by its call and the try that it says it is."""
    members = {"QueueUrl": queue, "MessageBody": body, **more}
    if batch:
        members = {"QueueUrl": queue, "Entries": [{"Id": one, "MessageBody": body, **more} for one in "xy"]}
    headers = {"X-Amz-Target": f"AmazonSQS.SendMessage{'Batch' if batch else ''}", "amz-sdk-invocation-id": invocation,
               "amz-sdk-request": f"attempt={attempt}; max=3"}
    status, _, answer = post(url + "/", json.dumps(members).encode(), headers)
    assert status == 200
    told = json.loads(answer)
    return [one["MessageId"] for one in told["Successful"]] if batch else [told["MessageId"]]
