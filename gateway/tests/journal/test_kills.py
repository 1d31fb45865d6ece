"""The gateway is killed at a random moment under load: what was acknowledged is there after the next start."""

import itertools
import os
import signal
import threading
from collections.abc import Callable
from functools import partial

from loads import Load, text_of
from meanwhile import meanwhile
from started import ByBoto3, Started, programs_of
from waiting import pace

KILLS = int(os.environ.get("HOBBYCHAIR_TEST_KILLS", "50"))
CLIENTS = 6
ROUNDS = 120
TIMEOUT = 30
LARGE = 20  # One message in so many is larger than the store takes.


class FifoLoad(Load):
    """Clients that note what was acknowledged: messages sent, handed out and deleted."""

    def __init__(self, seed: int) -> None:
        super().__init__(seed)
        self.sent: dict[str, list[str]] = {}
        self.recent: list[str] = []
        self.maybe_sent: set[str] = set()
        self.deleted: set[str] = set()
        self.maybe_deleted: set[str] = set()
        self.counts: dict[str, int] = {}
        # The sequence number and the id of each.
        self.numbers: dict[str, tuple[str, str]] = {}
        self.round = 0

    def count_of_sends(self) -> int:
        return len(self.numbers)

    def run(self, gateway: Started, queue: str, sends: int) -> None:
        """Lets clients work until about so many sends more were acknowledged, and kills the gateway."""
        self.gateway, self.queue = gateway, queue

        def end(stop: threading.Event) -> None:
            self.wait_for_sends(sends)
            stop.set()
            gateway.kill()

        self.work(CLIENTS, end)
        self.round += 1

    def begin(self, client: int) -> Callable[[], None]:
        call, places = ByBoto3(self.gateway.client()), itertools.count(1)

        def act() -> None:
            place = next(places)
            self._send(call, self.queue, client, place)
            if place % 2:
                self._receive(call, self.queue)

        return act

    def _send(self, call, queue: str, client: int, place: int) -> None:
        body = f"{self.round}-{client}-{place}"
        self.maybe_sent.add(body)
        result = call("SendMessage", QueueUrl=queue, MessageBody=text_of(body, LARGE), MessageGroupId=f"g{client}",
                      MessageDeduplicationId=body)
        self.numbers[body] = result["SequenceNumber"], result["MessageId"]
        self.sent.setdefault(f"g{client}", []).append(body)
        self.recent.append(body)

    def _receive(self, call, queue: str) -> None:
        for message in call("ReceiveMessage", QueueUrl=queue, MaxNumberOfMessages=3, VisibilityTimeout=TIMEOUT,
                            AttributeNames=["All"]).get("Messages", []):
            body = self._note(message)
            if self.random.random() < 0.7:
                self.maybe_deleted.add(body)
                call("DeleteMessage", QueueUrl=queue, ReceiptHandle=message["ReceiptHandle"])
                self.deleted.add(body)
            else:
                call("ChangeMessageVisibility", QueueUrl=queue, ReceiptHandle=message["ReceiptHandle"],
                     VisibilityTimeout=0)

    def _note(self, message: dict) -> str:
        body, count = message["Body"].rstrip("."), int(message["Attributes"]["ApproximateReceiveCount"])
        assert message["Body"] == text_of(body, LARGE)
        assert body in self.maybe_sent, f"{body} was never sent"
        assert body not in self.deleted, f"{body} came again after its deletion was acknowledged"
        assert count > self.counts.get(body, 0), f"an acknowledged handing of {body} was forgotten"
        assert self.numbers.get(body) in (None, (message["Attributes"]["SequenceNumber"], message["MessageId"]))
        self.counts[body] = count
        return body

    def repeat(self, call, queue: str) -> None:
        """A repeated send is told the number and the id of the first."""
        for body in self.random.sample(self.recent, min(20, len(self.recent))):
            again = call("SendMessage", QueueUrl=queue, MessageBody=body, MessageGroupId="other",
                         MessageDeduplicationId=body)
            assert (again["SequenceNumber"], again["MessageId"]) == self.numbers[body]
        self.recent = []

    def drain(self, call, queue: str) -> None:
        """All that was acknowledged, and not deleted, is there, each group in its order."""
        there: dict[str, list[str]] = {}
        while messages := call("ReceiveMessage", QueueUrl=queue, MaxNumberOfMessages=10, VisibilityTimeout=TIMEOUT,
                               AttributeNames=["All"]).get("Messages", []):
            for message in messages:
                body = self._note(message)
                there.setdefault(message["Attributes"]["MessageGroupId"], []).append(body)
                self.deleted.add(body)
            result = call("DeleteMessageBatch", QueueUrl=queue, Entries=[
                {"Id": str(place), "ReceiptHandle": message["ReceiptHandle"]}
                for place, message in enumerate(messages)])
            assert len(result["Successful"]) == len(messages)
        for group, bodies in self.sent.items():
            found = there.get(group, [])
            missing = [body for body in bodies if body not in self.maybe_deleted and body not in found]
            assert missing == [], f"acknowledged and lost: {missing[:5]}"
            acknowledged = set(bodies)
            assert [body for body in found if body in acknowledged] == [body for body in bodies if body in found]
        self.sent = {}
        self.maybe_deleted = set()


def test_what_was_acknowledged_outlives_kills(tmp_path):
    journal = tmp_path / "journal"
    load = FifoLoad(7)
    gateway = Started("--journal", str(journal), "--journal-size", "256MiB", room=tmp_path)
    call = ByBoto3(gateway.client())
    url = call("CreateQueue", QueueName="q.fifo", Attributes={"FifoQueue": "true"}, tags={"a": "b"})["QueueUrl"]
    name = url.rsplit("/", 1)[-1]
    for kill in range(1, KILLS + 1):
        load.run(gateway, name, load.random.randrange(1, 60))
        gateway.set_clock(gateway.moment + 1000 * TIMEOUT)
        gateway.start()
        call = ByBoto3(gateway.client())
        load.repeat(call, name)
        if load.random.random() < 0.5 or kill == KILLS:
            load.drain(call, name)
    assert ByBoto3(gateway.client())("ListQueueTags", QueueUrl=name)["Tags"] == {"a": "b"}
    assert gateway.stop() == 0
    print(f"{KILLS} kills, {len(load.numbers)} sends acknowledged, {len(load.deleted)} messages deleted")
    assert len(load.numbers) > 5 * KILLS


def test_no_client_sees_that_cq_was_killed(tmp_path):
    with Started("--journal", str(tmp_path / "journal")) as gateway:
        calls = [ByBoto3(gateway.client()) for _ in range(CLIENTS)]
        calls[0]("CreateQueue", QueueName="q.fifo", Attributes={"FifoQueue": "true", "VisibilityTimeout": "600"})
        received: dict[str, list[int]] = {f"g{client}": [] for client in range(CLIENTS)}

        def work(client: int) -> None:
            call = calls[client]
            for place in range(ROUNDS):
                call("SendMessage", QueueUrl="q.fifo", MessageBody=str(place), MessageGroupId=f"g{client}",
                     MessageDeduplicationId=f"{client}-{place}")
                for message in call("ReceiveMessage", QueueUrl="q.fifo", AttributeNames=["All"]).get("Messages", []):
                    assert message["Attributes"]["ApproximateReceiveCount"] == "1"
                    received[message["Attributes"]["MessageGroupId"]].append(int(message["Body"]))
                    call("DeleteMessage", QueueUrl="q.fifo", ReceiptHandle=message["ReceiptHandle"])

        kills, observer = 0, ByBoto3(gateway.client())
        with meanwhile(*[partial(work, client) for client in range(CLIENTS)]) as works:
            while not all(one.done() for one in works):
                pace(0.05)
                # An answer of the store says that the program runs again.
                observer("GetQueueAttributes", QueueUrl="q.fifo", AttributeNames=["All"])
                for child in programs_of(gateway):
                    os.kill(child, signal.SIGKILL)
                    kills += 1
        assert kills > 2
        while messages := calls[0]("ReceiveMessage", QueueUrl="q.fifo", AttributeNames=["All"]).get("Messages", []):
            received[messages[0]["Attributes"]["MessageGroupId"]].append(int(messages[0]["Body"]))
            calls[0]("DeleteMessage", QueueUrl="q.fifo", ReceiptHandle=messages[0]["ReceiptHandle"])
        assert all(places == list(range(ROUNDS)) for places in received.values())
