"""A cluster that serves SQS, and clients of its fronts that send, receive and delete, whatever is lost meanwhile."""

from __future__ import annotations

import http.client
import itertools
import random
import threading
import time
from collections import defaultdict
from collections.abc import Callable
from dataclasses import dataclass
from functools import partial
from pathlib import Path
from typing import Any

import botocore.exceptions

from clusters import Cluster
from meanwhile import at_once
from ports import free_ports
from rules import arn, policy
from waiting import pace, pass_time, until
from started import ByJson, Refused, boto3_client

# What a client takes for an answer that didn't come.
UNANSWERED = (botocore.exceptions.BotoCoreError, botocore.exceptions.ClientError, Refused, OSError, http.client.HTTPException)

# So long a message of the tests is hidden, in seconds.
TIMEOUT = 6

# What clients and servers may disagree about, in seconds.
SLACK = 0.1

LARGE = 600_000

# What was sent so long ago is known still, in seconds: it is for five minutes.
REPEATS = 240

# Where a front listens that has a machine of its own.
FRONTS = 9324


class GivenUp(Exception):
    """The work has been given up."""


class Front:
    """A front of a cluster, which can be started again where it was."""

    def __init__(self, cluster: Cluster, place: int, *words: str) -> None:
        self.cluster, self.machine, self.name = cluster, cluster.layout.of_front(place), f"front{place + 1}"
        [port] = [FRONTS] if cluster.network.has_machines else free_ports(1)
        self.words = ["--host", cluster.network.address(self.machine), "--port", str(port)]
        # Others are served on machines than the front's own.
        self.words += [*(["--open"] if cluster.network.has_machines else []), *words]
        self.url = f"http://{cluster.network.address(self.machine)}:{port}"
        self.start()

    def start(self) -> None:
        self.process, self.log = self.cluster.start(self.machine, self.name, "front", *self.cluster.which("front"), *self.words)

    def serves(self) -> bool:
        return "listening on" in self.log.read_text()

    def lives(self) -> bool:
        return self.process.poll() is None

    def kill(self) -> None:
        self.process.kill()
        self.process.wait()


class Served:
    """A cluster with fronts, and a client of the first one."""

    def __init__(self, room: Path, size: int = 3, fronts: int = 1, **how: Any) -> None:
        self.cluster = Cluster(room, size=size, gateways=True, **how)
        self.fronts: list[Front] = []
        try:
            until(lambda: self.cluster.gateway_acts(1), 60, "no gateway acts")
            for _ in range(fronts):
                self.add_front()
        except BaseException:
            print(self.cluster.said())
            self.end()
            raise

    def add_front(self, *words: str) -> None:
        self.fronts.append(Front(self.cluster, len(self.fronts), *words))
        until(self.fronts[-1].serves, 40, "the front doesn't begin")
        self.front = self.fronts[0]
        self.sqs = self.client()

    def client(self, number: int = 0):
        """Of one of the fronts. Where that one's machine is lost, nothing ever comes back."""
        patience = 30 if self.cluster.network.has_machines else 60
        return boto3_client(self.fronts[number % len(self.fronts)].url, read_timeout=patience, connect_timeout=5)

    def queue(self, name: str, **attributes: str) -> str:
        fifo = {"FifoQueue": "true"} if name.endswith(".fifo") else {}
        return self.sqs.create_queue(QueueName=name, Attributes=fifo | attributes)["QueueUrl"]

    def receive(self, queue: str, **more: Any) -> list[dict[str, Any]]:
        names = ["All"]
        return self.sqs.receive_message(QueueUrl=queue, MaxNumberOfMessages=10, AttributeNames=names, **more).get("Messages", [])

    def delete(self, queue: str, message: dict[str, Any]) -> None:
        self.sqs.delete_message(QueueUrl=queue, ReceiptHandle=message["ReceiptHandle"])

    def counts(self, queue: str) -> list[int]:
        names = ["ApproximateNumberOfMessages", "ApproximateNumberOfMessagesNotVisible", "ApproximateNumberOfMessagesDelayed"]
        got = self.sqs.get_queue_attributes(QueueUrl=queue, AttributeNames=names)["Attributes"]
        return [int(got[name]) for name in names]

    def __enter__(self) -> Served:
        return self

    def __exit__(self, *_: object) -> None:
        print(self.cluster.said())
        self.end()

    def end(self) -> None:
        for front in self.fronts:
            front.kill()
        self.cluster.end()


def whole(body: str, size: int) -> str:
    """A body that begins so, and has so many bytes more."""
    return f"{body} {body * (size // len(body))}" if size else body


def told(answer: dict[str, Any]) -> str:
    """What an answer is about, in a few words."""
    messages = [f"{message['Body'].split(' ')[0]} ({message['ReceiptHandle'][-12:]})" for message in answer.get("Messages", [])]
    return " ".join(messages) or str(answer.get("MessageId", "")) or "done"


@dataclass
class Delivery:
    """A message that was received: it was handed out some time between the question and the answer, which a front asks for up
    to 20 s."""

    asked: float
    answered: float
    body: str


class Work:
    """Clients that send, receive and delete until they are stopped."""

    def __init__(self, served: Served) -> None:
        self.served = served
        self.fifo = served.queue("work.fifo", VisibilityTimeout=str(TIMEOUT))
        self.standard = served.queue("work", VisibilityTimeout=str(TIMEOUT))
        self.delayed = served.queue("delayed", VisibilityTimeout=str(TIMEOUT), DelaySeconds="2")
        self.large = served.queue("large", VisibilityTimeout=str(TIMEOUT))
        # What is received of the one, and never deleted, comes to the other.
        self.dead = served.queue("dead", VisibilityTimeout=str(TIMEOUT))
        self.source = served.queue("source", VisibilityTimeout="1", RedrivePolicy=policy("dead"))
        # What is sent to the one goes to the other by tasks.
        self.shelf = served.queue("shelf", VisibilityTimeout=str(TIMEOUT))
        served.queue("of-shelf", RedrivePolicy=policy("shelf"))
        self.moved = served.queue("moved", VisibilityTimeout=str(TIMEOUT))
        self.purged = served.queue("purged", VisibilityTimeout=str(TIMEOUT))
        self.queues = (self.fifo, self.standard, self.delayed, self.large, self.dead, self.moved, self.purged)
        self.acknowledged: dict[str, list[str]] = defaultdict(list)
        self.deliveries: dict[str, list[Delivery]] = defaultdict(list)
        # When the deletion of each was asked for first, and when it was acknowledged.
        self.deleting: dict[tuple[str, str], float] = {}
        self.deleted: dict[tuple[str, str], float] = {}
        # When the sends to the queue that is purged were acknowledged, and when the purge was asked for and acknowledged.
        self.to_purge: dict[str, float] = {}
        self.purge: tuple[float, float] | None = None
        self.answers: list[float] = []
        self.errors: list[str] = []
        self.own = threading.local()
        self.wrong: list[str] = []
        # When each call was asked and ended, what it was, and what came of it.
        self.history: list[tuple[float, float, str, str]] = []
        self.sending, self.receiving, self.is_given_up = True, True, False
        jobs: list[tuple[Any, ...]] = [(self.send_fifo, group) for group in "abc"]
        jobs += [(self.send_standard, f"standard{number}", self.standard) for number in (1, 2)]
        jobs += [(self.send_standard, f"delayed{number}", self.delayed) for number in (1, 2)]
        jobs += [(self.send_standard, "large", self.large, LARGE, 0.4), (self.send_standard, "dead", self.source, 0, 0.2)]
        jobs += [(self.send_standard, "moved", self.shelf, 0, 0.2), (self.send_and_purge,), (self.make_and_remove,)]
        self.senders = [threading.Thread(target=self.run, args=job) for job in jobs]
        queues = [self.fifo, self.fifo, *self.queues[1:], self.source]
        self.receivers = [threading.Thread(target=self.run, args=(self.receive, queue, place)) for place, queue in enumerate(queues)]
        self.receivers.append(threading.Thread(target=self.run, args=(self.move,)))
        for thread in self.senders + self.receivers:
            thread.start()

    def run(self, job: Callable[..., None], *words: Any) -> None:
        """What is found wrong is told at the end."""
        try:
            job(*words)
        except BaseException as error:
            self.wrong.append(f"{job.__name__}: {error!r}")

    def call(self, what: str, action: Callable[[], Any]) -> Any:
        """The answer, or nothing where none came."""
        if self.is_given_up:
            raise GivenUp
        asked = time.monotonic()
        try:
            answer = action()
        except UNANSWERED as error:
            self.own.error = repr(error)
            self.errors.append(self.own.error)
            self.history.append((asked, time.monotonic(), what, self.own.error))
            return None
        self.answers.append(time.monotonic())
        self.history.append((asked, self.answers[-1], what, told(answer)))
        return answer

    def give_up(self) -> None:
        """Ends at once."""
        self.is_given_up, self.sending, self.receiving = True, False, False

    # ---- senders

    def send_fifo(self, group: str) -> None:
        """Each message is sent until it is acknowledged, before the next one is; some of the last minutes are sent again."""
        chance, sent = random.Random(group), []
        for number in itertools.count():
            sqs, body, asked = self.served.client(number), f"{group}-{number}", time.monotonic()
            while self.sending and not (answer := self.send_to_group(sqs, group, body)):
                pace(0.1)
            if not self.sending:
                return
            self.acknowledged[self.fifo].append(body)
            sent.append((asked, body, answer["MessageId"]))
            if number % 10 == 0:
                self.send_again(sqs, group, *chance.choice(sent))
            pace(0.02)

    def send_to_group(self, sqs: Any, group: str, body: str) -> Any:
        words = {"QueueUrl": self.fifo, "MessageBody": body, "MessageGroupId": group, "MessageDeduplicationId": body}
        return self.call(f"send {body}", lambda: sqs.send_message(**words))

    def send_again(self, sqs: Any, group: str, asked: float, body: str, first: str) -> None:
        """Within five minutes that adds nothing, and tells the same."""
        if time.monotonic() - asked < REPEATS and (again := self.send_to_group(sqs, group, body)):
            assert again["MessageId"] == first, f"{body} was sent twice, as {first} and {again}"

    def send_standard(self, name: str, queue: str, size: int = 0, pause: float = 0.03) -> None:
        """Each message is sent once."""
        goal = {self.source: self.dead, self.shelf: self.moved}.get(queue, queue)
        for number in itertools.count():
            if not self.sending:
                return
            body = f"{name}-{number}"
            sqs = self.served.client(number)
            if self.call(f"send {body}", lambda: sqs.send_message(QueueUrl=queue, MessageBody=whole(body, size))):
                self.acknowledged[goal].append(body)
            pace(pause)

    def send_and_purge(self) -> None:
        """The queue is purged once, in the middle of sends."""
        sqs = self.served.client()
        for number in itertools.count():
            if not self.sending:
                return
            body = f"purged-{number}"
            if self.call(f"send {body}", lambda: sqs.send_message(QueueUrl=self.purged, MessageBody=body)):
                self.to_purge[body] = time.monotonic()
                if self.purge:
                    self.acknowledged[self.purged].append(body)
            if number == 40:
                asked = time.monotonic()
                # Where an answer was lost, a second purge is refused, since the first one was done.
                while not (self.call("purge", lambda: sqs.purge_queue(QueueUrl=self.purged)) or self.ended("PurgeQueueInProgress")):
                    pace(0.2)
                self.purge = (asked, time.monotonic())
            pace(0.1)

    def make_and_remove(self) -> None:
        """Both fronts make a queue of one name at once; what is sent by one comes by the other; then it is removed."""
        clients = [self.served.client(0), self.served.client(1)]
        for number in itertools.count():
            if not self.sending:
                return
            name = f"made-{number}"
            made: list[str] = []

            def make(sqs: Any) -> None:
                while not (answer := self.call(f"create {name}", lambda: sqs.create_queue(QueueName=name))):
                    pace(0.1)
                made.append(answer["QueueUrl"].rsplit("/", 1)[1])

            at_once([partial(self.run, make, sqs) for sqs in clients])
            assert made == [name, name], made
            urls = [f"{front.url}/000000000000/{name}" for front in (self.served.fronts[0], self.served.fronts[-1])]
            if self.call(f"send {name}", lambda: clients[0].send_message(QueueUrl=urls[0], MessageBody=name)):
                got = None
                while not got:
                    answer = self.call(f"receive {name}", lambda: clients[1].receive_message(QueueUrl=urls[1], WaitTimeSeconds=2))
                    got = (answer or {}).get("Messages")
                assert got[0]["Body"] == name

            def remove() -> Any:
                return clients[1].delete_queue(QueueUrl=urls[1])

            while not (self.call(f"remove {name}", remove) or self.ended("NonExistentQueue")):
                pace(0.1)
            while not self.is_gone(clients[0], name):
                pace(0.1)
            pace(0.3)

    def is_gone(self, sqs: Any, name: str) -> bool:
        """Whether nobody finds that queue, as is said; nothing is known where no answer comes."""
        try:
            sqs.get_queue_url(QueueName=name)
        except sqs.exceptions.QueueDoesNotExist:
            return True
        except UNANSWERED as error:
            self.errors.append(repr(error))
            return False
        raise AssertionError(f"{name} is there behind its removal")

    def ended(self, error: str) -> bool:
        """Whether the last call of this thread that wasn't answered well had that error."""
        return error in self.own.error

    # ---- receivers

    def receive(self, queue: str, place: int) -> None:
        sqs = self.served.client(place)
        while self.receiving:
            asked = time.monotonic()
            name = queue.rsplit("/", 1)[1]
            got = self.call(f"receive {name}",
                            lambda: sqs.receive_message(QueueUrl=queue, MaxNumberOfMessages=10, WaitTimeSeconds=1))
            answered = time.monotonic()
            for message in (got or {}).get("Messages", []):
                if queue == self.source:
                    continue
                body = message["Body"].split(" ")[0]
                assert message["Body"] == whole(body, LARGE if queue == self.large else 0), f"{body} isn't whole"
                self.deliveries[queue].append(Delivery(asked, answered, body))
            for message in (got or {}).get("Messages", []):
                if queue != self.source:
                    self.delete(sqs, queue, message, asked)

    def delete(self, sqs: Any, queue: str, message: dict[str, Any], asked: float) -> None:
        """`asked`: when it was received. By the handle of an earlier handing a delete does nothing, so one that may have come behind
        the timeout says nothing of the message."""
        key = (queue, message["Body"].split(" ")[0])
        self.deleting.setdefault(key, time.monotonic())
        if self.call(f"delete {key[1]}", lambda: sqs.delete_message(QueueUrl=queue, ReceiptHandle=message["ReceiptHandle"])):
            answered = time.monotonic()
            if answered < asked + TIMEOUT - SLACK:
                self.deleted.setdefault(key, answered)

    def move(self) -> None:
        """Starts a task whenever none runs."""
        ask = ByJson(self.served.fronts[-1].url)
        while self.receiving:
            started = self.call("move", lambda: ask("StartMessageMoveTask", SourceArn=arn("shelf"), DestinationArn=arn("moved")))
            pace(1 if started else 0.3)

    # ---- what has to hold

    def goes_on(self, seconds: float = 60) -> None:
        """Waits for some answers from now on."""
        now = len(self.answers)
        until(lambda: len(self.answers) > now + 300, seconds, lambda: f"nobody is answered: {self.errors[-3:]}")

    def longest_silence(self, since: float) -> float:
        moments = [since, *sorted(one for one in self.answers if one > since)]
        return max(after - before for before, after in zip(moments, moments[1:]))

    def stop(self) -> None:
        self.sending = False
        for thread in self.senders:
            thread.join(60)
        try:
            until(lambda: not self.missing(), 60 + 2 * TIMEOUT, "acknowledged sends are lost")
            pass_time(1, "what was moved or sent twice would come now")
        finally:
            lost = self.missing()
            self.receiving = False
            for thread in self.receivers:
                thread.join(60)
            print(f"{len(self.answers)} answers, {len(self.errors)} errors, lost: {lost[:10]}", self.errors[:5])
        assert not self.wrong, self.wrong
        for queue in self.queues:
            self.check(queue)
        self.check_order()
        self.check_groups()
        self.check_purge()

    def missing(self) -> list[str]:
        """What was acknowledged and hasn't come."""
        came = {queue: {one.body for one in list(self.deliveries[queue])} for queue in self.queues}
        return [body for queue in self.queues for body in set(self.acknowledged[queue]) - came[queue]]

    def check(self, queue: str) -> None:
        """No message is delivered again before its timeout is over, nor once its deletion was acknowledged."""
        moments: dict[str, list[Delivery]] = defaultdict(list)
        for one in sorted(self.deliveries[queue], key=lambda one: one.answered):
            moments[one.body].append(one)
        for body, times in moments.items():
            apart = [after.answered - before.asked for before, after in zip(times, times[1:])]
            assert all(one > TIMEOUT - SLACK for one in apart), (queue, body, times)
            last = max(one.asked for one in times)
            assert last <= self.deleted.get((queue, body), last), f"{body} is there behind its deletion: {times}"

    def check_order(self) -> None:
        """First deliveries of a group come in the order of the sends."""
        first: dict[str, Delivery] = {}
        for one in self.deliveries[self.fifo]:
            if one.body not in first or one.answered < first[one.body].answered:
                first[one.body] = one
        by_group: dict[str, list[tuple[int, Delivery]]] = defaultdict(list)
        for body, one in first.items():
            group, number = body.split("-")
            by_group[group].append((int(number), one))
        for group, found in by_group.items():
            found.sort(key=lambda one: one[0])
            for (_, before), (number, after) in zip(found, found[1:]):
                assert before.asked <= after.answered, f"{group}-{number} came before an earlier one"

    def check_groups(self) -> None:
        """While one of a group is in flight no other receive is given one of it."""
        by_group: dict[str, list[Delivery]] = defaultdict(list)
        for one in self.deliveries[self.fifo]:
            by_group[one.body.split("-")[0]].append(one)

        def end(one: Delivery) -> float:
            """It is in flight at least until then, if it was handed out as late as that may be."""
            return min(one.asked + TIMEOUT - SLACK, self.deleting.get((self.fifo, one.body), float("inf")))

        for found in by_group.values():
            found.sort(key=lambda one: one.asked)
            for place, one in enumerate(found):
                for other in found[place + 1 :]:
                    if other.asked > one.answered + TIMEOUT:
                        break
                    is_one_call = (one.asked, one.answered) == (other.asked, other.answered)
                    # One of them was handed out behind the other's end.
                    assert is_one_call or other.answered >= end(one) or one.answered >= end(other), (one, other)

    def check_purge(self) -> None:
        """What was there before a purge isn't there behind it."""
        if self.purge:
            asked, done = self.purge
            for one in self.deliveries[self.purged]:
                sent = self.to_purge.get(one.body)
                assert sent is None or sent > asked or one.asked < done, f"{one.body} is there behind a purge"


def received(sqs: Any, queue: str, expected: list[str], size: int = 0) -> list[str]:
    """All that comes, until what is expected is there; each once, and whole."""
    url = sqs.get_queue_url(QueueName=queue)["QueueUrl"]
    bodies: list[str] = []
    begun = time.monotonic()
    while set(expected) - set(bodies) and time.monotonic() - begun < 100:
        for message in sqs.receive_message(QueueUrl=url, MaxNumberOfMessages=10, WaitTimeSeconds=1).get("Messages", []):
            body = message["Body"].split(" ")[0]
            assert message["Body"] == whole(body, size), f"{body} isn't whole"
            bodies.append(body)
            sqs.delete_message(QueueUrl=url, ReceiptHandle=message["ReceiptHandle"])
    assert not set(expected) - set(bodies), f"{queue} lacks {sorted(set(expected) - set(bodies))[:5]}"
    assert len(set(bodies)) == len(bodies), f"{queue} has a message twice"
    return bodies
