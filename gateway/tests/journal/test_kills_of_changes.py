"""The gateway is killed at random moments while tags and attributes change, queues of one name come and go, and messages
move to queues that go meanwhile.

Each client has queues of its own, so what it was told last is what has to be there; of what it was told nothing both may.
"""

import itertools
import os
import random
import signal
import threading
import time
from collections.abc import Callable
from dataclasses import dataclass, field

from loads import Load
from rules import policy
from started import ByJson, Refused, Started, programs_of
from waiting import pace, until

KILLS = int(os.environ.get("HOBBYCHAIR_TEST_KILLS", "50"))
SEED = int(os.environ.get("HOBBYCHAIR_TEST_SEED") or random.randrange(1 << 30))
CLIENTS = 4
TIMEOUT = 2000
# As records of the journal have them.
KEYS = ["kind", "queue", "removed", "ask", "digest", "clock", "uncounted", "a"]
VALUES = ["remove", "create", "send", "", *(f"{number}.fifo" for number in range(1, 9)), "kept-0.fifo"]


@dataclass
class Bodies:
    """Messages of some queues: those that have to be there, and those that may be."""

    sure: set[str] = field(default_factory=set)
    perhaps: set[str] = field(default_factory=set)

    def all_perhaps(self) -> None:
        self.perhaps |= self.sure
        self.sure = set()

    def compare(self, found: list[str], where: str) -> None:
        assert len(found) == len(set(found)), f"{where} has a message twice"
        assert self.sure <= set(found), f"{where} has lost {sorted(self.sure - set(found))[:5]}"
        assert set(found) <= self.sure | self.perhaps, f"{where} has {sorted(set(found) - self.sure - self.perhaps)[:5]}"
        self.sure, self.perhaps = set(), set()


class Client:
    """What one client does to its queues, and what it was told of them."""

    def __init__(self, number: int, gateway: Started) -> None:
        self.ending = ".fifo" if number % 2 else ""
        self.kept, self.passing, self.source, self.target = (
            f"{name}-{number}{self.ending}" for name in ("kept", "passing", "source", "target"))
        self.kind = {"FifoQueue": "true"} if self.ending else {}
        self.numbers = itertools.count(1)
        self.tags: list[dict[str, str]] = [{}]
        self.timeout: list[str] = [str(TIMEOUT)]
        self.exists: dict[str, list[bool]] = {self.passing: [False], self.target: [True]}
        self.bodies = {name: Bodies() for name in (self.kept, self.passing, self.source)}
        self.call: Callable = ByJson(gateway.url)
        self.deletions = 0
        for name in (self.kept, self.target):
            self.call("CreateQueue", QueueName=name, Attributes={**self.kind, "VisibilityTimeout": str(TIMEOUT)})
        self.call("CreateQueue", QueueName=self.source, Attributes={
            **self.kind, "VisibilityTimeout": "0", "RedrivePolicy": policy(self.target)})

    def act(self, chance: random.Random) -> None:
        acts = [self.tag, self.untag, self.set_timeout, self.send_to_kept, self.send_to_kept, self.delete,
                self.toggle_passing, self.send_to_passing, self.move, self.move, self.toggle_target, self.move_back]
        chance.choice(acts)(chance)

    def change(self, known: list, after, action: str, **members) -> None:
        """Something is `after` when the action is done, and may be so from now on."""
        before = known[0]
        known.append(after)
        try:
            self.call(action, **members)
            known[:] = [after]
        except Refused as refused:
            assert refused.code == "OverLimit", refused.code
            known[:] = [before]

    def tag(self, chance: random.Random) -> None:
        tags = {key: chance.choice(VALUES) for key in chance.sample(KEYS, chance.randrange(1, 5))}
        self.change(self.tags, {**self.tags[0], **tags}, "TagQueue", QueueUrl=self.kept, Tags=tags)

    def untag(self, chance: random.Random) -> None:
        keys = chance.sample(KEYS, chance.randrange(1, 4))
        left = {key: value for key, value in self.tags[0].items() if key not in keys}
        self.change(self.tags, left, "UntagQueue", QueueUrl=self.kept, TagKeys=keys)

    def set_timeout(self, chance: random.Random) -> None:
        value = str(TIMEOUT + chance.randrange(100))
        self.change(self.timeout, value, "SetQueueAttributes", QueueUrl=self.kept,
                    Attributes={"VisibilityTimeout": value})

    def send(self, chance: random.Random, queue: str, size: int) -> None:
        body = f"{queue}/{next(self.numbers)}"
        more = {"MessageGroupId": f"g{chance.randrange(3)}", "MessageDeduplicationId": body} if self.ending else {}
        bodies = self.bodies[queue]
        bodies.perhaps.add(body)
        try:
            self.call("SendMessage", QueueUrl=queue, MessageBody=body + "." * size, **more)
            bodies.sure.add(body)
        except Refused as refused:
            assert refused.code == "OverLimit", refused.code
            bodies.perhaps.discard(body)

    def send_to_kept(self, chance: random.Random) -> None:
        self.send(chance, self.kept, chance.choice([0, 0, 1000, 20_000, 270_000]))

    def receive(self, queue: str, **more) -> list[tuple[str, str]]:
        told = self.call("ReceiveMessage", QueueUrl=queue, MaxNumberOfMessages=10, **more).get("Messages", [])
        return [(message["Body"].rstrip("."), message["ReceiptHandle"]) for message in told]

    def delete(self, chance: random.Random) -> None:
        for body, handle in self.receive(self.kept):
            assert body in self.bodies[self.kept].sure | self.bodies[self.kept].perhaps, f"{body} came again"
            self.bodies[self.kept].sure.discard(body)
            self.bodies[self.kept].perhaps.add(body)
            self.call("DeleteMessage", QueueUrl=self.kept, ReceiptHandle=handle)
            self.bodies[self.kept].perhaps.discard(body)
            self.deletions += 1

    def toggle(self, queue: str, bodies: Bodies, **more) -> None:
        bodies.all_perhaps()
        if self.exists[queue][0]:
            self.change(self.exists[queue], False, "DeleteQueue", QueueUrl=queue)
        else:
            attributes = {**self.kind, "VisibilityTimeout": str(TIMEOUT)}
            self.change(self.exists[queue], True, "CreateQueue", QueueName=queue, Attributes=attributes, **more)

    def toggle_passing(self, chance: random.Random) -> None:
        self.toggle(self.passing, self.bodies[self.passing], tags={"kind": "remove", "queue": chance.choice(VALUES)})
        # Of an earlier queue nothing may be there.
        self.bodies[self.passing] = Bodies()

    def send_to_passing(self, chance: random.Random) -> None:
        if self.exists[self.passing] == [True]:
            self.send(chance, self.passing, chance.choice([0, 30_000]))

    def move(self, chance: random.Random) -> None:
        """Some are handed out, and what was before goes to the other queue."""
        if chance.random() < 0.5:
            self.send(chance, self.source, 0)
        self.receive(self.source)

    def toggle_target(self, chance: random.Random) -> None:
        self.toggle(self.target, self.bodies[self.source])

    def move_back(self, chance: random.Random) -> None:
        try:
            self.call("StartMessageMoveTask", SourceArn=f"arn:aws:sqs:us-east-1:000000000000:{self.target}")
        except Refused as refused:
            assert refused.code in ("ResourceNotFoundException", "InvalidParameterValue", "OverLimit"), refused.code

    # ---- after a start

    def compare(self, gateway: Started, there: set[str]) -> None:
        self.call = ByJson(gateway.url)
        assert {self.kept, self.source} <= there
        for queue, known in self.exists.items():
            assert (queue in there) in known, f"{queue}: {known}"
            known[:] = [queue in there]
        tags = self.call("ListQueueTags", QueueUrl=self.kept).get("Tags", {})
        assert tags in self.tags, f"{tags} isn't among {self.tags}"
        self.tags = [tags]
        told = self.call("GetQueueAttributes", QueueUrl=self.kept, AttributeNames=["VisibilityTimeout"])["Attributes"]
        assert told["VisibilityTimeout"] in self.timeout
        self.timeout = [told["VisibilityTimeout"]]
        if not self.exists[self.passing][0]:
            self.bodies[self.passing] = Bodies()

    def drain(self) -> None:
        """Deletes all that is there, and compares it with what was told."""
        until(lambda: not (self.exists[self.target][0] and self.is_moving()), 30, f"a task of {self.target} doesn't end")
        for queue, others in ((self.kept, []), (self.passing, []), (self.source, [self.target])):
            found = []
            for name in [queue, *others]:
                if self.exists.get(name, [True])[0]:
                    found += self.empty(name)
            self.bodies[queue].compare(found, queue)

    def is_moving(self) -> bool:
        tasks = self.call("ListMessageMoveTasks", SourceArn=f"arn:aws:sqs:us-east-1:000000000000:{self.target}")
        return any(task["Status"] == "RUNNING" for task in tasks.get("Results", []))

    def empty(self, queue: str) -> list[str]:
        found: list[str] = []
        latest = time.monotonic() + 30
        while self.count(queue) > 0:
            assert time.monotonic() < latest, f"{queue} isn't empty"
            for body, handle in self.receive(queue, VisibilityTimeout=TIMEOUT):
                found.append(body)
                self.call("DeleteMessage", QueueUrl=queue, ReceiptHandle=handle)
        return found

    def count(self, queue: str) -> int:
        told = self.call("GetQueueAttributes", QueueUrl=queue, AttributeNames=["All"])["Attributes"]
        return sum(int(told[f"ApproximateNumberOfMessages{which}"]) for which in ("", "NotVisible", "Delayed"))


class LoadOfChanges(Load):
    faults = (AssertionError, Refused, KeyError)

    def __init__(self, gateway: Started, seed: int) -> None:
        super().__init__(seed)
        self.gateway = gateway
        self.clients = [Client(number, gateway) for number in range(CLIENTS)]

    def run(self) -> int:
        """Lets clients work for a while, kills the gateway, and tells how much they did."""
        self.seeds = [self.random.randrange(1 << 30) for _ in self.clients]
        self.done = itertools.count()

        def end(stop: threading.Event) -> None:
            pace(self.random.uniform(0.05, 0.8))
            if self.random.random() < 0.3:
                for program in programs_of(self.gateway):
                    os.kill(program, signal.SIGKILL)
                pace(self.random.uniform(0, 0.2))
            stop.set()
            self.gateway.kill()

        self.work(len(self.clients), end)
        return next(self.done)

    def begin(self, client: int) -> Callable[[], None]:
        chance = random.Random(self.seeds[client])

        def act() -> None:
            self.clients[client].act(chance)
            next(self.done)

        return act


def test_what_was_told_of_queues_and_messages_outlives_kills(tmp_path):
    print(f"seed {SEED}")
    gateway = Started("--journal", str(tmp_path / "journal"), "--journal-size", "512MiB", "--shards", "2", "--no-pauses",
                      room=tmp_path)
    load = LoadOfChanges(gateway, SEED)
    chance, clients = load.random, load.clients
    done = drains = 0
    for kill in range(1, KILLS + 1):
        done += load.run()
        # What is in flight comes back.
        gateway.set_clock(gateway.moment + 1000 * chance.choice([0, 301, TIMEOUT + 100]))
        gateway.start()
        there = {url.rsplit("/", 1)[-1] for url in ByJson(gateway.url)("ListQueues")["QueueUrls"]}
        for client in clients:
            client.compare(gateway, there)
        if chance.random() < 0.25 or kill == KILLS:
            gateway.set_clock(gateway.moment + 1000 * (TIMEOUT + 100))
            for client in clients:
                client.drain()
            drains += 1
    assert gateway.stop() == 0
    deletions = sum(client.deletions for client in clients)
    print(f"{KILLS} kills, {done} acts, {deletions} deletions, {drains} drains")
    assert done > 5 * KILLS
