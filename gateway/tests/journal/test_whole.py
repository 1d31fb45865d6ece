"""At random moments of random work, what a gateway tells is what another one tells that starts from a copy of its journal."""

import os
import random
import shutil
from pathlib import Path

import pytest

from rules import arn, policy
from started import ByJson, Refused, Started
from waiting import pace, until

SEEDS = int(os.environ.get("HOBBYCHAIR_TEST_SEEDS", "6"))
STEPS = 150
NAMES = ["a", "b.fifo", "c", "d.fifo"]
DEAD = {".fifo": "dead.fifo", "": "dead"}


class Work:
    """What a client does at random, and what is told after that."""

    def __init__(self, room: Path, seed: int) -> None:
        self.random, self.room, self.copies = random.Random(seed), room, 0
        # Where the bound is full, books are begun anew.
        self.words = ["--shards", str(1 + seed % 2), *(["--memory", "1MiB"] if seed % 3 == 1 else [])]
        self.gateway = Started("--journal", str(room / "journal"), *self.words, room=room)
        self.done = 0

    def call(self, action: str, **members) -> dict:
        try:
            told = ByJson(self.gateway.url)(action, **members)
            self.done += 1
            return told
        except Refused as refused:
            assert refused.status < 500, (action, refused)
            return {}

    def step(self) -> None:
        name = self.random.choice([*NAMES, *DEAD.values()])
        kind = {"FifoQueue": "true"} if name.endswith(".fifo") else {}
        tags = {f"key {self.random.randrange(20)}": self.random.choice("vwx") * 250 for _ in range(20)}
        seconds = str(self.random.randrange(60))
        more = {"MessageGroupId": "g", "MessageDeduplicationId": seconds} if kind else {}
        body = "m" * self.random.choice([1, 100, 300_000])
        acts = [
            lambda: self.call("CreateQueue", QueueName=name, Attributes={**kind, "VisibilityTimeout": "0"}, tags=tags),
            lambda: self.call("CreateQueue", QueueName=name, Attributes={**kind, "VisibilityTimeout": seconds}),
            lambda: self.call("DeleteQueue", QueueUrl=name),
            lambda: self.call("TagQueue", QueueUrl=name, Tags=tags),
            lambda: self.call("TagQueue", QueueUrl=name, Tags=tags),
            lambda: self.call("UntagQueue", QueueUrl=name, TagKeys=list(tags)),
            lambda: self.call("SetQueueAttributes", QueueUrl=name, Attributes={"DelaySeconds": seconds}),
            lambda: self.call("SetQueueAttributes", QueueUrl=name, Attributes={"RedrivePolicy": policy(DEAD[".fifo" if kind else ""])}),
            lambda: self.call("PurgeQueue", QueueUrl=name),
            lambda: self.call("SendMessage", QueueUrl=name, MessageBody=body, **more),
            lambda: self.call("SendMessage", QueueUrl=name, MessageBody=body, **more),
            lambda: self.receive(name),
            lambda: self.receive(name),
            lambda: self.call("StartMessageMoveTask", SourceArn=arn(name)),
            lambda: self.gateway.set_clock(self.gateway.moment + self.random.choice([10, 1000, 61_000, 301_000])),
        ]
        self.random.choice(acts)()

    def receive(self, name: str) -> None:
        for message in self.call("ReceiveMessage", QueueUrl=name, MaxNumberOfMessages=5).get("Messages", []):
            if self.random.random() < 0.5:
                self.call("DeleteMessage", QueueUrl=name, ReceiptHandle=message["ReceiptHandle"])

    def told(self, url: str) -> dict:
        """All that a gateway tells of its queues, when no task runs."""
        call = ByJson(url)
        names = [url.rsplit("/", 1)[-1] for url in call("ListQueues").get("QueueUrls", [])]
        tasks = lambda name: call("ListMessageMoveTasks", SourceArn=arn(name), MaxResults=10).get("Results", [])
        until(lambda: all(task["Status"] != "RUNNING" for name in names for task in tasks(name)), 20, "a task doesn't end")
        return {name: (call("GetQueueAttributes", QueueUrl=name, AttributeNames=["All"])["Attributes"],
                       call("ListQueueTags", QueueUrl=name).get("Tags", {}), tasks(name)) for name in names}

    def compare(self) -> None:
        pace(self.random.choice([0, 0.6]))
        told = self.told(self.gateway.url)
        self.copies += 1
        room = self.room / f"copy{self.copies}"
        room.mkdir()
        # Nothing is asked meanwhile.
        for file in self.room.glob("journal.*"):
            shutil.copy(file, room)
        (room / "clock").write_text(str(self.gateway.moment))
        other = Started("--journal", str(room / "journal"), *self.words, "--clock-file", str(room / "clock"))
        assert self.told(other.url) == told
        assert other.stop() == 0
        shutil.rmtree(room)


@pytest.mark.parametrize("seed", range(SEEDS))
def test_what_is_told_is_what_a_start_from_a_copy_tells(tmp_path, seed):
    work = Work(tmp_path, seed)
    for _ in range(5):
        for _ in range(STEPS):
            work.step()
        work.compare()
    assert work.gateway.stop() == 0 and work.done > STEPS
