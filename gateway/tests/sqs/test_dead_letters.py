"""Dead-letter queues (Developer Guide, "Using dead-letter queues in Amazon SQS")."""

import itertools
import json
import os
import signal
import threading
import time
import zlib
from collections.abc import Callable
from contextlib import suppress

import boto3
import pytest
from botocore.config import Config

from loads import Load
from meanwhile import meanwhile
from operated import polls
from rules import Rules, arn, new_name, policy
from started import ByBoto3, ByJson, Refused, Started, programs_of
from waiting import pace, pass_time

KILLS = max(20, int(os.environ.get("HOBBYCHAIR_TEST_KILLS", "50")))
CLIENTS = 6


@pytest.fixture
def letters(gateway) -> Rules:
    return Rules(ByBoto3(gateway.client()), lambda step: gateway.set_clock(gateway.moment + step))


@pytest.fixture
def pair(letters) -> tuple[str, str]:
    """A queue that hands out twice without hiding, and its dead-letter queue."""
    dead = letters.queue()
    return letters.queue(VisibilityTimeout="0", RedrivePolicy=policy(dead, 2)), dead


def test_a_message_moves_with_all_it_has_and_its_group_goes_on(letters, pair):
    queue, dead = pair
    attributes = {"n": {"DataType": "Number", "StringValue": "1"}, "b": {"DataType": "Binary", "BinaryValue": b"\x00"}}
    trace = {"AWSTraceHeader": {"DataType": "String", "StringValue": "Root=1-2-3"}}
    letters.send(queue, "one", body="first\r\n<é>", MessageAttributes=attributes, MessageSystemAttributes=trace)
    letters.send(queue, "two", body="second")
    shown = {"AttributeNames": ["All"], "MessageAttributeNames": ["All"]}
    for count in "12":
        (first,) = letters.receive(queue, 1, **shown)
        assert (first["Body"], first["Attributes"]["ApproximateReceiveCount"]) == ("first\r\n<é>", count)
        assert "DeadLetterQueueSourceArn" not in first["Attributes"]
    assert letters.receive(dead) == []
    letters.move(1000)
    (second,) = letters.receive(queue, 1, **shown)
    assert (second["Body"], second["Attributes"]["ApproximateReceiveCount"]) == ("second", "1")
    (moved,) = letters.receive(dead, **shown)
    assert moved["Attributes"].pop("DeadLetterQueueSourceArn") == arn(queue)
    assert moved["Attributes"]["ApproximateReceiveCount"] == "1"
    same = ["MessageId", "Body", "MD5OfBody", "MD5OfMessageAttributes", "MessageAttributes"]
    assert [moved[part] for part in same] == [first[part] for part in same]
    same = ["SenderId", "MessageGroupId", "MessageDeduplicationId", "AWSTraceHeader"]
    assert [moved["Attributes"][part] for part in same] == [first["Attributes"][part] for part in same]
    # Its age is counted from the move.
    assert int(moved["Attributes"]["SentTimestamp"]) == int(first["Attributes"]["SentTimestamp"]) + 1000
    letters.delete(dead, moved)
    letters.refused("ReceiptHandleIsInvalid", lambda: letters.delete(dead, first))
    # The id of the first one counts in its queue still, and in the other it never did.
    letters.send(queue, "one", body="again")
    letters.send(dead, "one", body="new")
    assert letters.bodies(queue) == ["second"] and letters.bodies(dead) == ["new"]


@pytest.mark.parametrize("most, text", [(1, 1), (3, "3"), (10, None)])
def test_so_often_it_is_handed_out(letters, most, text):
    dead = letters.queue()
    queue = letters.queue(VisibilityTimeout="5", RedrivePolicy=policy(dead, text))
    letters.send(queue, "d")
    for _ in range(most):
        assert len(letters.receive(queue)) == 1
        letters.move(5000)
    assert letters.receive(queue) == []
    assert len(letters.receive(dead)) == 1


def test_groups_stay_in_order(letters, pair):
    queue, dead = pair
    for number in range(12):
        letters.send(queue, str(number), group="ab"[number % 2], body=str(number))
    for _ in range(6):
        letters.receive(queue, 10)
    there: dict[str, list[int]] = {}
    while messages := letters.receive(dead, 3, AttributeNames=["All"]):
        for message in messages:
            there.setdefault(message["Attributes"]["MessageGroupId"], []).append(int(message["Body"]))
            letters.delete(dead, message)
    assert there == {"a": [0, 2, 4, 6, 8, 10], "b": [1, 3, 5, 7, 9, 11]}
    assert letters.receive(queue) == []


def test_what_clients_have_stays_theirs(letters):
    dead = letters.queue()
    queue = letters.queue(VisibilityTimeout="30", RedrivePolicy=policy(dead, 1))
    letters.send(queue, "1", group="a")
    (mine,) = letters.receive(queue)
    assert letters.receive(queue) == [] and letters.receive(dead) == []
    letters.move(30_000 - 1)
    assert letters.receive(queue) == [] and letters.receive(dead) == []
    letters.delete(queue, mine)
    letters.move(1)
    assert letters.receive(queue) == [] and letters.receive(dead) == []


def test_a_target_that_is_gone_is_none(letters, pair):
    queue, dead = pair
    letters.send(queue, "d", body="b")
    letters.call("DeleteQueue", QueueUrl=dead)
    counts = [letters.receive(queue, AttributeNames=["All"])[0]["Attributes"]["ApproximateReceiveCount"] for _ in range(4)]
    assert counts == ["1", "2", "3", "4"]
    letters.move(60_000)
    again = letters.call("CreateQueue", QueueName=dead.rsplit("/", 1)[-1], Attributes={"FifoQueue": "true"})["QueueUrl"]
    assert letters.receive(queue) == [] and letters.bodies(again) == ["b"]


def test_a_change_of_the_policy_acts_on_what_is_there(letters, pair):
    queue, dead = pair
    letters.send(queue, "d")
    assert len(letters.receive(queue)) == len(letters.receive(queue)) == 1
    set_to = lambda value: letters.call("SetQueueAttributes", QueueUrl=queue, Attributes={"RedrivePolicy": value})  # noqa: E731
    set_to("")
    told = letters.call("GetQueueAttributes", QueueUrl=queue, AttributeNames=["All"])["Attributes"]
    assert "RedrivePolicy" not in told
    (message,) = letters.receive(queue, AttributeNames=["All"])
    assert message["Attributes"]["ApproximateReceiveCount"] == "3"
    set_to(policy(dead, 4))
    (message,) = letters.receive(queue, AttributeNames=["All"])
    assert message["Attributes"]["ApproximateReceiveCount"] == "4"
    assert letters.receive(queue) == [] and len(letters.receive(dead)) == 1


def test_queues_may_be_each_others(letters):
    one = letters.queue(VisibilityTimeout="0")
    other = letters.queue(VisibilityTimeout="0", RedrivePolicy=policy(one, 1))
    letters.call("SetQueueAttributes", QueueUrl=one, Attributes={"RedrivePolicy": policy(other, 1)})
    sent = letters.send(one, "d")
    for turn in range(6):
        queue, next_one = (one, other) if turn % 2 == 0 else (other, one)
        (message,) = letters.receive(queue, AttributeNames=["All"])
        assert message["MessageId"] == sent["MessageId"]
        assert message["Attributes"].get("DeadLetterQueueSourceArn") == (arn(next_one) if turn else None)
        assert letters.receive(queue) == []


def test_a_moved_message_is_kept_anew(letters):
    dead = letters.queue(MessageRetentionPeriod="60")
    queue = letters.queue(VisibilityTimeout="0", MessageRetentionPeriod="60", RedrivePolicy=policy(dead, 1))
    letters.send(queue, "d", body="b")
    letters.move(59_999)
    assert letters.bodies(queue) == ["b"] and letters.bodies(queue) == []
    letters.move(59_999)
    assert letters.bodies(dead, VisibilityTimeout=0) == ["b"]
    letters.move(1)
    assert letters.bodies(dead) == []


def test_long_polls_are_served_behind_a_move_and_by_one(letters, pair, gateway):
    queue, dead = pair
    for number in range(30):
        letters.send(queue, str(number), body=str(number))
    letters.receive(queue, 10)
    letters.receive(queue, 10)
    with meanwhile(lambda: letters.bodies(dead, 10, WaitTimeSeconds=20)) as [poll]:
        polls(gateway, 1)
        began = time.monotonic()
        assert letters.bodies(queue, 1, WaitTimeSeconds=20) == ["10"]
    assert time.monotonic() - began < 15
    assert poll.result()[0] == "0"


@pytest.mark.parametrize("value", [
    lambda dead: "dead", lambda dead: "[]", lambda dead: policy("none.fifo", 2), lambda dead: policy("standard", 2),
    lambda dead: policy(dead, 0), lambda dead: policy(dead, "1001"), lambda dead: policy(dead, 1, other=2),
    lambda dead: policy(dead, 2).replace("000000000000", "111122223333"), lambda dead: '{"maxReceiveCount":3}',
])
def test_bad_policies_are_refused(letters, value):
    dead, queue = letters.queue(), letters.queue()
    for action in (
        lambda: letters.queue(RedrivePolicy=value(dead)),
        lambda: letters.call("SetQueueAttributes", QueueUrl=queue, Attributes={"RedrivePolicy": value(dead)}),
    ):
        letters.refused("InvalidParameterValue", action)
    own = {"RedrivePolicy": policy(queue, 2)}
    letters.refused("InvalidParameterValue", lambda: letters.call("SetQueueAttributes", QueueUrl=queue, Attributes=own))


def test_a_queue_says_who_may_name_it(letters):
    dead, queue = letters.queue(), letters.queue()
    name_it = lambda: letters.call("SetQueueAttributes", QueueUrl=queue, Attributes={"RedrivePolicy": policy(dead, 2)})  # noqa: E731
    allow = lambda value: letters.call("SetQueueAttributes", QueueUrl=dead, Attributes={"RedriveAllowPolicy": value})  # noqa: E731
    allow('{"redrivePermission": "denyAll"}')
    letters.refused("InvalidParameterValue", name_it)
    allow(json.dumps({"redrivePermission": "byQueue", "sourceQueueArns": [arn(dead)]}))
    letters.refused("InvalidParameterValue", name_it)
    allow(json.dumps({"redrivePermission": "byQueue", "sourceQueueArns": [arn(dead), arn(queue)]}))
    name_it()
    allow("")
    told = letters.call("GetQueueAttributes", QueueUrl=dead, AttributeNames=["All"])["Attributes"]
    assert "RedriveAllowPolicy" not in told


def test_policies_are_compared_by_what_they_say(letters):
    dead = letters.queue()
    name = new_name()
    create = lambda value: letters.call("CreateQueue", QueueName=name, Attributes={"FifoQueue": "true", "RedrivePolicy": value})  # noqa: E731
    url = create(policy(dead, 3))["QueueUrl"]
    again = f'{{ "maxReceiveCount" : "3", "deadLetterTargetArn":"{arn(dead, "eu-south-1")}" }}'
    assert create(again)["QueueUrl"] == url
    letters.refused("QueueAlreadyExists", lambda: create(policy(dead, 4)))
    told = letters.call("GetQueueAttributes", QueueUrl=url, AttributeNames=["RedrivePolicy"])["Attributes"]
    assert told == {"RedrivePolicy": policy(dead, 3)}


def test_sources_are_listed(call):
    fifo = {"FifoQueue": "true"}
    dead = call("CreateQueue", QueueName=new_name(), Attributes=fifo)["QueueUrl"]
    assert call("ListDeadLetterSourceQueues", QueueUrl=dead).get("queueUrls", []) == []
    names = sorted(new_name() for _ in range(3))
    urls = [call("CreateQueue", QueueName=name, Attributes={**fifo, "RedrivePolicy": policy(dead, 2)})["QueueUrl"] for name in names]
    call("CreateQueue", QueueName=new_name(), Attributes=fifo)
    assert call("ListDeadLetterSourceQueues", QueueUrl=dead) == {"queueUrls": urls}
    first = call("ListDeadLetterSourceQueues", QueueUrl=dead, MaxResults=2)
    assert first["queueUrls"] == urls[:2]
    rest = call("ListDeadLetterSourceQueues", QueueUrl=dead, MaxResults=2, NextToken=first["NextToken"])
    assert rest == {"queueUrls": urls[2:]}


def test_the_list_of_sources_is_there_also_where_it_is_empty(gateway):
    call = ByJson(gateway.url)
    dead = call("CreateQueue", QueueName=new_name(), Attributes={"FifoQueue": "true"})["QueueUrl"]
    assert call("ListDeadLetterSourceQueues", QueueUrl=dead) == {"queueUrls": []}


def test_a_target_is_within_what_a_key_allows(tmp_path):
    keys = tmp_path / "keys.toml"
    keys.write_text('[[key]]\naccess_key = "A"\nsecret = "the secret of A"\n\n'
                    '[[key]]\naccess_key = "B"\nsecret = "the secret of B"\nqueues = ["b-"]\n')
    with Started("--credentials", str(keys)) as gateway:

        def by(key: str) -> ByBoto3:
            return ByBoto3(boto3.client("sqs", endpoint_url=gateway.url, region_name="eu-north-1", aws_access_key_id=key,
                                        aws_secret_access_key=f"the secret of {key}", config=Config(retries={"max_attempts": 0})))

        fifo = {"FifoQueue": "true"}
        for name in ("b-dead.fifo", "a-dead.fifo"):
            by("A")("CreateQueue", QueueName=name, Attributes=fifo)
        by("B")("CreateQueue", QueueName="b-1.fifo", Attributes={**fifo, "RedrivePolicy": policy("b-dead.fifo", 2)})
        for target in ("a-dead.fifo", "a-none.fifo"):
            with pytest.raises(Refused) as refusal:
                by("B")("CreateQueue", QueueName="b-2.fifo", Attributes={**fifo, "RedrivePolicy": policy(target, 2)})
            assert (refusal.value.code, refusal.value.status) == ("AccessDenied", 403)
        by("A")("CreateQueue", QueueName="a-1.fifo", Attributes={**fifo, "RedrivePolicy": policy("b-dead.fifo", 2)})
        listed = by("B")("ListDeadLetterSourceQueues", QueueUrl="b-dead.fifo")["queueUrls"]
        assert [url.rsplit("/", 1)[-1] for url in listed] == ["b-1.fifo"]


class DeadLetterLoad(Load):
    """Clients that send, receive and delete in a queue and its dead-letter queue, and note what they were told."""

    def __init__(self, queue: str, dead: str, seed: int) -> None:
        super().__init__(seed)
        self.queue, self.dead = queue, dead
        self.sent: dict[str, str] = {}
        self.maybe_deleted: set[str] = set()
        self.deleted: set[str] = set()
        self.moved: set[str] = set()
        self.round = 0

    def run(self, gateway: Started, kills_cq: bool) -> None:
        """Lets clients work for a moment, and kills the gateway or its programs."""
        self.round += 1
        self.gateway = gateway

        def end(stop: threading.Event) -> None:
            pace(self.random.uniform(0.1, 0.6))
            if kills_cq:
                for child in programs_of(gateway):
                    os.kill(child, signal.SIGKILL)
                pace(0.2)
                stop.set()
            else:
                stop.set()
                gateway.kill()

        self.work(CLIENTS, end, breaks_off=not kills_cq)

    def begin(self, client: int) -> Callable[[], None]:
        call, places = ByBoto3(self.gateway.client()), itertools.count(1)
        return lambda: self.act(call, client, next(places))

    def act(self, call: ByBoto3, client: int, place: int) -> None:
        body = f"{self.round}-{client}-{place}"
        self.sent[body] = call("SendMessage", QueueUrl=self.queue, MessageBody=body, MessageGroupId=f"g{client}-{place % 3}",
                               MessageDeduplicationId=body)["MessageId"]
        timeout = self.random.choice([0, 0, 1])
        for message in self.receive(call, self.queue, 5, timeout):
            if self.random.random() < 0.2:
                self.delete(call, self.queue, message)
        if self.random.random() < 0.3:
            for message in self.receive(call, self.dead, 3, self.random.choice([0, 1])):
                if self.random.random() < 0.5:
                    self.delete(call, self.dead, message)

    def receive(self, call: ByBoto3, queue: str, size: int, timeout: int) -> list[dict]:
        moved, deleted = set(self.moved), set(self.deleted)
        messages = call("ReceiveMessage", QueueUrl=queue, MaxNumberOfMessages=size, VisibilityTimeout=timeout,
                        AttributeNames=["All"]).get("Messages", [])
        for message in messages:
            body, attributes = message["Body"], message["Attributes"]
            assert body not in deleted, f"{body} came again after its deletion was acknowledged"
            assert self.sent.get(body) in (None, message["MessageId"])
            if queue == self.dead:
                assert attributes["DeadLetterQueueSourceArn"] == arn(self.queue)
                self.moved.add(body)
            else:
                assert body not in moved, f"{body} came again after it had been moved"
                assert attributes["ApproximateReceiveCount"] == "1"
        return messages

    def delete(self, call: ByBoto3, queue: str, message: dict) -> None:
        self.maybe_deleted.add(message["Body"])
        try:
            call("DeleteMessage", QueueUrl=queue, ReceiptHandle=message["ReceiptHandle"])
        except Refused as refusal:
            # Its timeout was 0. And an earlier handle deletes nothing where the message was handed out again, or moved.
            assert refusal.code == "InvalidParameterValue"

    def check(self, call: ByBoto3) -> None:
        """All that was acknowledged, and that nobody wanted to delete, is there once."""
        there: dict[str, list[tuple[str, str]]] = {}
        for queue in (self.queue, self.dead):
            while messages := self.receive(call, queue, 10, 30):
                for message in messages:
                    number = message["Attributes"]["SequenceNumber"]
                    there.setdefault(message["Body"], []).append((queue, number))
                result = call("DeleteMessageBatch", QueueUrl=queue, Entries=[
                    {"Id": str(place), "ReceiptHandle": message["ReceiptHandle"]} for place, message in enumerate(messages)])
                assert len(result["Successful"]) == len(messages)
        assert [one for one in there.items() if len(one[1]) > 1] == [], "there twice"
        missing = [body for body in self.sent if body not in self.maybe_deleted and body not in there]
        assert missing == [], f"acknowledged and lost: {missing[:5]}"
        assert self.deleted.isdisjoint(there)
        self.deleted.update(there)
        self.sent.clear()
        self.maybe_deleted.clear()


def names_of_two_programs() -> tuple[str, str]:
    place = lambda name: zlib.crc32(name.encode()) % 2  # noqa: E731
    dead = next(name for name in (f"dead{number}.fifo" for number in range(99)) if place(name) != place("letters.fifo"))
    return "letters.fifo", dead


def test_a_move_that_was_cut_off_keeps_nobody_waiting(tmp_path):
    queue, dead = names_of_two_programs()
    with Started("--journal", str(tmp_path / "journal"), "--shards", "2", room=tmp_path) as gateway:
        rules = Rules(ByBoto3(gateway.client()), lambda step: gateway.set_clock(gateway.moment + step))
        rules.call("CreateQueue", QueueName=dead, Attributes={"FifoQueue": "true"})
        rules.call("CreateQueue", QueueName=queue, Attributes={"FifoQueue": "true", "RedrivePolicy": policy(dead, 1)})
        sent = rules.send(queue, "1", body="one")
        rules.send(queue, "2", body="two")
        assert len(rules.receive(queue, 1, VisibilityTimeout=0)) == 1
        # What was handed out in the millisecond of a creation isn't known to be a dead letter.
        rules.move(1)
        # The program of the other queue stands still, so the message is handed out and its copy isn't sent.
        stopped = programs_of(gateway)[zlib.crc32(dead.encode()) % 2]
        os.kill(stopped, signal.SIGSTOP)
        with meanwhile(lambda: pytest.raises(Exception, rules.receive, queue, 1, VisibilityTimeout=43_200)):
            pass_time(0.5, "it is handed out, and its copy isn't sent")
            gateway.kill()
            # It ends with the gateway, and may be gone by now.
            with suppress(ProcessLookupError):
                os.kill(stopped, signal.SIGKILL)
        gateway.start()
        rules.call = ByBoto3(gateway.client())
        assert rules.bodies(queue) == ["two"]
        (moved,) = rules.receive(dead)
        assert (moved["Body"], moved["MessageId"]) == ("one", sent["MessageId"])


def test_a_group_stays_in_order_while_its_target_goes_and_comes():
    """What was to be moved stays where the target has gone meanwhile, and what is behind it stays behind it."""
    with Started("--no-pauses") as gateway:
        call = ByJson(gateway.url)
        call("CreateQueue", QueueName="dead.fifo", Attributes={"FifoQueue": "true"})
        call("CreateQueue", QueueName="q.fifo", Attributes={"FifoQueue": "true", "RedrivePolicy": policy("dead.fifo", 1)})
        is_over = threading.Event()

        def come_and_go() -> None:
            own = ByJson(gateway.url)
            while not is_over.is_set():
                own("DeleteQueue", QueueUrl="dead.fifo")
                own("CreateQueue", QueueName="dead.fifo", Attributes={"FifoQueue": "true"})

        def receive(**more) -> list[str]:
            messages = call("ReceiveMessage", QueueUrl="q.fifo", MaxNumberOfMessages=10, **more).get("Messages", [])
            for message in messages:
                if not more:
                    call("DeleteMessage", QueueUrl="q.fifo", ReceiptHandle=message["ReceiptHandle"])
            return [message["Body"] for message in messages]

        with meanwhile(come_and_go):
            try:
                for group in range(150):
                    send = {"QueueUrl": "q.fifo", "MessageGroupId": str(group)}
                    call("SendMessage", **send, MessageBody="1", MessageDeduplicationId=f"{group}-1")
                    assert receive(VisibilityTimeout=0) == ["1"]
                    call("SendMessage", **send, MessageBody="2", MessageDeduplicationId=f"{group}-2")
                    found: list[str] = []
                    while some := receive():
                        found += some
                    assert found in (["2"], ["1", "2"], ["1"], []), f"group {group}: {found}"
            finally:
                is_over.set()


@pytest.mark.parametrize("shards", [1, 2])
def test_each_message_moves_once_whatever_is_killed(tmp_path, shards):
    load = DeadLetterLoad(*names_of_two_programs(), seed=shards)
    with Started("--journal", str(tmp_path / "journal"), "--shards", str(shards), room=tmp_path) as gateway:
        call = ByBoto3(gateway.client())
        call("CreateQueue", QueueName=load.dead, Attributes={"FifoQueue": "true"})
        # With a delay the messages of one round are received in the next, since the clock stands still.
        delay = {1: "0", 2: "1"}[shards]
        call("CreateQueue", QueueName=load.queue, Attributes={
            "FifoQueue": "true", "RedrivePolicy": policy(load.dead, 1), "DelaySeconds": delay})
        rounds = -(-KILLS // 2)
        # More where a slow machine has moved few messages by then.
        for kill in itertools.count(1):
            assert kill <= 5 * rounds, f"{len(load.moved)} messages were moved"
            load.run(gateway, kills_cq=kill % 3 == 0)
            # What is in flight and its ids are over, at the one time or the other.
            gateway.set_clock(gateway.moment + load.random.choice([2_000, 31_000, 601_000]))
            if kill % 3 != 0:
                gateway.start()
            call = ByBoto3(gateway.client())
            is_last = kill >= rounds and len(load.moved) > KILLS
            if kill % 4 == 0 or is_last:
                load.check(call)
                gateway.set_clock(gateway.moment + 31_000)
            if is_last:
                break
