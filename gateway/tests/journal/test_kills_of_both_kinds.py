"""The gateway, and sometimes cq before it, is killed at random moments while queues of both kinds have delays, dead
letters and large bodies.

The clock runs much faster than time does, so that delays and timeouts end all the while.
"""

import itertools
import os
import random
import signal
import threading
import time
from collections.abc import Callable
from dataclasses import dataclass, field

from loads import Load, text_of
from rules import policy
from started import ByJson, Refused, Started, programs_of
from waiting import pace

KILLS = int(os.environ.get("HOBBYCHAIR_TEST_KILLS", "50"))
SEED = int(os.environ.get("HOBBYCHAIR_TEST_SEED") or random.randrange(1 << 30))
CLIENTS = 5
STEP = 60  # The clock goes on by so many milliseconds in each five.
TIMEOUT = 8
MOST = 3
LARGE = 25  # One message in so many is larger than the store takes.


@dataclass
class Handing:
    """One that was told. It was at some moment between the two, and ended no earlier than at `released`, if at all."""

    before: int
    after: int
    released: int | None = None

    @property
    def until(self) -> int:
        end = self.before + 1000 * TIMEOUT
        return end if self.released is None else min(end, self.released)


@dataclass
class Message:
    due: int
    id: str | None = None
    acknowledged: bool = False
    delete_begun: bool = False
    deleted: float | None = None
    # By the queue that handed it out, and its count there.
    handings: dict[tuple[str, int], Handing] = field(default_factory=dict)


@dataclass
class Queue:
    name: str
    delay: int

    @property
    def is_fifo(self) -> bool:
        return self.name.endswith(".fifo")

    @property
    def dead(self) -> str:
        return f"dead-{self.name}"


class LoadOfBothKinds(Load):
    faults = (AssertionError, Refused, KeyError)

    def __init__(self, gateway: Started, seed: int) -> None:
        super().__init__(seed)
        self.gateway = gateway
        self.least = gateway.moment
        self.lock = threading.Lock()
        self.messages: dict[str, Message] = {}
        self.names: dict[str, str] = {}
        self.numbers = itertools.count(1)
        self.sends = 0
        self.kills_of_cq = 0
        self.queues: list[Queue] = []
        self.gone: set[str] = set()
        self.create(Queue("slow.fifo", 2), Queue("plain.fifo", 0), Queue("slow", 2), Queue("plain", 0))

    def create(self, *queues: Queue) -> None:
        call = ByJson(self.gateway.url)
        for queue in queues:
            kind = {"FifoQueue": "true"} if queue.is_fifo else {}
            call("CreateQueue", QueueName=queue.dead, Attributes={"VisibilityTimeout": str(TIMEOUT), **kind})
            call("CreateQueue", QueueName=queue.name, Attributes={
                "VisibilityTimeout": str(TIMEOUT), "DelaySeconds": str(queue.delay), "RedrivePolicy": policy(queue.dead, MOST),
                **kind})
            self.queues.append(queue)

    def set_clock(self, moment: int) -> None:
        """The gateway's clock shows at least `least` and at most the gateway's `moment`, also while it is being set."""
        self.gateway.set_clock(moment)
        self.least = moment

    # ---- what clients do

    def send(self, call, chance: random.Random, queue: Queue) -> None:
        name, delay = f"{queue.name}/{next(self.numbers)}", queue.delay
        more = {"MessageGroupId": f"g{chance.randrange(4)}", "MessageDeduplicationId": name}
        if not queue.is_fifo:
            more = {}
            if chance.random() < 0.6:
                delay = more["DelaySeconds"] = chance.choice([0, 1, 3, 6])
        message = Message(self.least + 1000 * delay)
        with self.lock:
            self.messages[name] = message
        told = call("SendMessage", QueueUrl=queue.name, MessageBody=text_of(name, LARGE), **more)
        with self.lock:
            self.note_id(name, told)
            message.acknowledged = True
            self.sends += 1

    def receive(self, call, chance: random.Random, queue: Queue) -> None:
        source = queue.dead if chance.random() < 0.2 else queue.name
        for name, count, handle in self.take(call, source, 3):
            handing = self.messages[name].handings[source, count]
            what = chance.random()
            if what < 0.5:
                self.delete(call, source, name, handing, handle)
            elif what < 0.9:
                handing.released = self.least
                try:
                    call("ChangeMessageVisibility", QueueUrl=source, ReceiptHandle=handle, VisibilityTimeout=0)
                except Refused as refused:
                    # Its timeout was over.
                    late = ("AWS.SimpleQueueService.MessageNotInflight", "ReceiptHandleIsInvalid", "InvalidParameterValue")
                    assert refused.code in late and self.gateway.moment >= handing.before + 1000 * TIMEOUT, refused.code

    def take(self, call, source: str, size: int) -> list[tuple[str, int, str]]:
        before, began = self.least, time.monotonic()
        told = call("ReceiveMessage", QueueUrl=source, MaxNumberOfMessages=size, AttributeNames=["All"]).get("Messages", [])
        after = self.gateway.moment
        with self.lock:
            return [self.note(source, one, Handing(before, after), began) for one in told]

    def note_id(self, name: str, told: dict) -> None:
        """What a message's send and its handings are told is one id, and no other message's."""
        message = self.messages[name]
        assert message.id in (None, told["MessageId"]), f"{name} has two ids"
        assert self.names.setdefault(told["MessageId"], name) == name, f"{name} has another one's id"
        message.id = told["MessageId"]

    def note(self, source: str, told: dict, handing: Handing, began: float) -> tuple[str, int, str]:
        name, count = told["Body"].rstrip("."), int(told["Attributes"]["ApproximateReceiveCount"])
        assert told["Body"] == text_of(name, LARGE) and source in (name.split("/")[0], f"dead-{name.split('/')[0]}")
        message = self.messages[name]
        self.note_id(name, told)
        assert handing.after >= message.due, f"{name} came before it was due"
        assert message.deleted is None or message.deleted > began, f"{name} came again after its deletion"
        assert (source, count) not in message.handings, f"an acknowledged handing of {name} was forgotten"
        for (other, ordinal), earlier in message.handings.items():
            first, second = (earlier, handing) if (other != source or ordinal < count) else (handing, earlier)
            if other == source or source.startswith("dead-"):
                assert second.after >= first.until, f"{name} was handed out twice within its timeout"
        message.handings[source, count] = handing
        return name, count, told["ReceiptHandle"]

    def delete(self, call, source: str, name: str, handing: Handing, handle: str) -> None:
        message = self.messages[name]
        message.delete_begun = True
        try:
            call("DeleteMessage", QueueUrl=source, ReceiptHandle=handle)
        except Refused as refused:
            is_late = self.gateway.moment >= handing.before + 1000 * TIMEOUT
            assert is_late and refused.code in ("InvalidParameterValue", "ReceiptHandleIsInvalid"), refused.code
            return
        # By an old handle it may be there still, in the other queue as well.
        if self.gateway.moment < handing.before + 1000 * TIMEOUT:
            message.deleted = time.monotonic()

    # ---- rounds

    def count_of_sends(self) -> int:
        return self.sends

    def run(self, sends: int) -> None:
        """Lets clients work until about so many sends more were acknowledged, and kills the gateway."""
        self.seeds = [self.random.randrange(1 << 30) for _ in range(CLIENTS)]

        def end(stop: threading.Event) -> None:
            ticks = threading.Thread(target=self.tick, args=(stop,))
            ticks.start()
            of_cq = self.sends + self.random.randrange(1, 120)

            def look() -> None:
                nonlocal of_cq
                if self.sends >= of_cq:
                    self.kill_programs()
                    of_cq = 1 << 30

            self.wait_for_sends(sends, look)
            stop.set()
            self.gateway.kill()
            ticks.join()

        self.work(CLIENTS, end)
        if self.random.random() < 0.3:
            # The store forgets deduplication ids.
            self.set_clock(self.gateway.moment + 301_000)
        self.gateway.start()

    def begin(self, client: int) -> Callable[[], None]:
        call, chance = ByJson(self.gateway.url), random.Random(self.seeds[client])

        def act() -> None:
            queue = chance.choice(self.queues)
            (self.send if chance.random() < 0.5 else self.receive)(call, chance, queue)

        return act

    def tick(self, stop: threading.Event) -> None:
        while not stop.is_set():
            self.set_clock(self.gateway.moment + STEP)
            pace(0.005)

    def kill_programs(self) -> None:
        """No client sees this."""
        for child in programs_of(self.gateway):
            os.kill(child, signal.SIGKILL)
            self.kills_of_cq += 1

    def replace_some(self, number: int) -> None:
        """A queue of each kind goes with all that it has, and others come."""
        call = ByJson(self.gateway.url)
        for queue in [queue for queue in self.queues if queue.name.startswith("passing")]:
            for name in (queue.name, queue.dead):
                call("DeleteQueue", QueueUrl=name)
            self.queues.remove(queue)
            self.gone.add(queue.name)
        self.create(Queue(f"passing-{number}", 1), Queue(f"passing-{number}.fifo", 1))

    def drain(self) -> None:
        """Receives and deletes all that is there, and compares it with what was acknowledged."""
        call = ByJson(self.gateway.url)
        sources = [name for queue in self.queues for name in (queue.name, queue.dead)]
        found: set[str] = set()
        while any(self.left(call, source) for source in sources):
            self.set_clock(self.gateway.moment + 1000 * TIMEOUT)
            for source in sources:
                while taken := self.take(call, source, 10):
                    for name, count, handle in taken:
                        found.add(name)
                        self.delete(call, source, name, self.messages[name].handings[source, count], handle)
        for name, message in self.messages.items():
            is_gone = name.split("/")[0] in self.gone
            is_lost = message.acknowledged and not message.delete_begun and name not in found
            assert is_gone or not is_lost, f"{name} was acknowledged and lost"
        self.messages = {}

    def left(self, call, source: str) -> int:
        told = call("GetQueueAttributes", QueueUrl=source, AttributeNames=["All"])["Attributes"]
        return sum(int(told[f"ApproximateNumberOfMessages{which}"]) for which in ("", "NotVisible", "Delayed"))


def test_what_was_acknowledged_of_both_kinds_outlives_kills(tmp_path):
    print(f"seed {SEED}")
    gateway = Started("--journal", str(tmp_path / "journal"), "--journal-size", "512MiB", "--shards", "2", "--no-pauses",
                      room=tmp_path)
    load = LoadOfBothKinds(gateway, SEED)
    acknowledged = 0
    for kill in range(1, KILLS + 1):
        if kill % 5 == 1:
            load.replace_some(kill)
        load.run(load.random.randrange(1, 60))
        if load.random.random() < 0.2 or kill == KILLS:
            acknowledged += len(load.messages)
            load.drain()
    assert gateway.stop() == 0
    print(f"{KILLS} kills, {load.kills_of_cq} of cq, {load.sends} sends acknowledged")
    assert load.sends > 5 * KILLS and acknowledged >= load.sends
