"""Standard queues (Developer Guide, "Amazon SQS standard queues")."""

import json
import os
import signal
import threading
import time
from typing import Any

import pytest

from meanwhile import meanwhile
from operated import polls
from rules import Rules, sent_by_call
from started import ByBoto3, ByJson, ByQuery, Refused, Started, post, programs_of
from waiting import holds, pass_time, until

WAYS = {"boto3": lambda gateway: ByBoto3(gateway.client()), "json": lambda gateway: ByJson(gateway.url),
        "query": lambda gateway: ByQuery(gateway.url)}
SHOWN = {"AttributeNames": ["All"], "MessageAttributeNames": ["All"]}
names = iter(f"standard-{number}" for number in range(1, 10_000))


class Standard(Rules):
    """Rules for queues without order and deduplication."""

    def queue(self, **attributes: str) -> str:
        return self.call("CreateQueue", QueueName=next(names), Attributes=attributes)["QueueUrl"]

    def send(self, queue: str, body: str, **more: Any) -> dict[str, Any]:
        return self.call("SendMessage", QueueUrl=queue, MessageBody=body, **more)

    def arn(self, queue: str) -> str:
        asked = self.call("GetQueueAttributes", QueueUrl=queue, AttributeNames=["QueueArn"])
        return asked["Attributes"]["QueueArn"]

    def policy(self, dead: str, most: int = 1) -> str:
        return json.dumps({"deadLetterTargetArn": self.arn(dead), "maxReceiveCount": most})


def rules_of(gateway: Started, way: str = "boto3") -> Standard:
    return Standard(WAYS[way](gateway), lambda step: gateway.set_clock(gateway.moment + step))


@pytest.fixture(params=WAYS)
def each(request, gateway) -> Standard:
    return rules_of(gateway, request.param)


@pytest.fixture
def standard(gateway) -> Standard:
    return rules_of(gateway)


# ---- queues and their attributes


def test_a_queue_has_the_attributes_of_its_kind(each):
    queue = each.queue(VisibilityTimeout="7")
    told = each.call("GetQueueAttributes", QueueUrl=queue, AttributeNames=["All"])["Attributes"]
    assert told["VisibilityTimeout"] == "7" and told["DelaySeconds"] == "0"
    of_fifo = {"ContentBasedDeduplication": "true", "DeduplicationScope": "queue", "FifoQueue": "true",
               "FifoThroughputLimit": "perQueue"}
    assert not of_fifo.keys() & told.keys()
    for name, value in of_fifo.items():
        change = {"QueueUrl": queue, "Attributes": {name: value}}
        each.refused("InvalidAttributeName", lambda: each.call("SetQueueAttributes", **change))
        asked = {"QueueUrl": queue, "AttributeNames": [name]}
        each.refused("InvalidAttributeName", lambda: each.call("GetQueueAttributes", **asked))
    name = queue.rsplit("/", 1)[-1]
    assert each.call("CreateQueue", QueueName=name, Attributes={"VisibilityTimeout": "7"})["QueueUrl"] == queue
    each.refused("QueueNameExists|QueueAlreadyExists",
                 lambda: each.call("CreateQueue", QueueName=name, Attributes={"VisibilityTimeout": "8"}))
    assert each.call("GetQueueUrl", QueueName=name)["QueueUrl"] == queue
    assert each.call("ListQueues", QueueNamePrefix=name)["QueueUrls"][0] == queue
    each.call("TagQueue", QueueUrl=queue, Tags={"a": "1"})
    assert each.call("ListQueueTags", QueueUrl=queue)["Tags"] == {"a": "1"}
    each.call("AddPermission", QueueUrl=queue, Label="l", AWSAccountIds=["123456789012"], Actions=["SendMessage"])
    told = each.call("GetQueueAttributes", QueueUrl=queue, AttributeNames=["Policy"])["Attributes"]
    assert json.loads(told["Policy"])["Statement"][0]["Sid"] == "l"
    each.call("DeleteQueue", QueueUrl=queue)
    each.refused("NonExistentQueue|QueueDoesNotExist", lambda: each.receive(queue))
    each.refused("QueueDeletedRecently", lambda: each.call("CreateQueue", QueueName=name))


def test_queues_of_both_kinds_do_not_meet(standard):
    queue = standard.queue()
    name = queue.rsplit("/", 1)[-1]
    fifo = standard.call("CreateQueue", QueueName=f"{name}.fifo", Attributes={"FifoQueue": "true"})["QueueUrl"]
    standard.send(queue, "standard")
    standard.send(fifo, "fifo", MessageGroupId="g", MessageDeduplicationId="d")
    assert (standard.bodies(queue), standard.bodies(fifo)) == (["standard"], ["fifo"])
    # What looks like the name of a queue in the store is one like any other.
    one = standard.call("CreateQueue", QueueName="1")["QueueUrl"]
    assert standard.bodies(one) == []


def test_the_longest_name(standard):
    queue = standard.call("CreateQueue", QueueName="-_9" + "x" * 77)["QueueUrl"]
    standard.send(queue, "b")
    assert standard.bodies(queue) == ["b"]


# ---- sending and receiving


def test_a_message_has_all_that_was_sent_and_no_number(each):
    queue = each.queue()
    given = {"n": {"DataType": "Number", "StringValue": "1"}, "b": {"DataType": "Binary", "BinaryValue": b"\x00"}}
    trace = {"AWSTraceHeader": {"DataType": "String", "StringValue": "Root=1"}}
    sent = each.send(queue, "first\r\n<é>", MessageAttributes=given, MessageSystemAttributes=trace)
    assert "SequenceNumber" not in sent and sent["MD5OfMessageAttributes"]
    (message,) = each.receive(queue, **SHOWN)
    assert (message["Body"], message["MessageId"]) == ("first\r\n<é>", sent["MessageId"])
    assert message["MessageAttributes"] == given and message["MD5OfBody"] == sent["MD5OfMessageBody"]
    assert message["Attributes"].keys() == {"SenderId", "SentTimestamp", "ApproximateReceiveCount",
                                            "ApproximateFirstReceiveTimestamp", "AWSTraceHeader"}


def test_a_group_is_given_back_and_keeps_nobody_waiting(each):
    queue = each.queue()
    for body in ("one", "two"):
        each.send(queue, body, MessageGroupId="tenant-1")
    each.send(queue, "three")
    first = each.receive(queue, 1, **SHOWN)
    others = each.receive(queue, 10, **SHOWN)
    told = [(one["Body"], one["Attributes"].get("MessageGroupId")) for one in first + others]
    assert told == [("one", "tenant-1"), ("two", "tenant-1"), ("three", None)]
    each.refused("InvalidParameterValue", lambda: each.send(queue, "four", MessageGroupId="a b"))


def test_messages_come_in_order_and_none_twice_within_its_timeout(standard):
    queue = standard.queue(VisibilityTimeout="10")
    sent = [f"m{number}" for number in range(25)]
    for start in range(0, 25, 10):
        entries = [{"Id": body, "MessageBody": body} for body in sent[start:start + 10]]
        result = standard.call("SendMessageBatch", QueueUrl=queue, Entries=entries)
        assert [one["Id"] for one in result["Successful"]] == sent[start:start + 10]
        assert all("SequenceNumber" not in one for one in result["Successful"])
    assert sum((standard.bodies(queue) for _ in range(3)), []) == sent
    assert standard.counts(queue) == (0, 25, 0) and standard.bodies(queue) == []
    standard.move(9999)
    assert standard.bodies(queue) == []
    standard.move(1)
    again = standard.receive(queue, 10, **SHOWN)
    assert [one["Body"] for one in again] == sent[:10]
    assert {one["Attributes"]["ApproximateReceiveCount"] for one in again} == {"2"}
    # What nobody has in hand doesn't wait for what somebody has.
    assert standard.bodies(queue) == sent[10:20]


def test_equal_messages_are_two(standard):
    queue = standard.queue()
    ids = {standard.send(queue, "same")["MessageId"] for _ in range(3)}
    assert len(ids) == 3 and standard.bodies(queue) == ["same"] * 3


def test_what_only_fifo_queues_have_is_refused(each):
    queue = each.queue()
    each.refused("InvalidParameterValue", lambda: each.send(queue, "b", MessageDeduplicationId="d"))
    each.refused("InvalidParameterValue", lambda: each.receive(queue, ReceiveRequestAttemptId="a"))
    result = each.call("SendMessageBatch", QueueUrl=queue, Entries=[
        {"Id": "1", "MessageBody": "good"}, {"Id": "2", "MessageBody": "bad", "MessageDeduplicationId": "d"}])
    assert [one["Id"] for one in result["Successful"]] == ["1"]
    assert [(one["Id"], one["Code"]) for one in result["Failed"]] == [("2", "InvalidParameterValue")]
    assert each.bodies(queue) == ["good"]


def test_the_refusal_names_the_parameter_and_its_value(gateway):
    url = ByJson(gateway.url)("CreateQueue", QueueName=next(names))["QueueUrl"]
    body = json.dumps({"QueueUrl": url, "MessageBody": "b", "MessageDeduplicationId": "d-1"}).encode()
    status, _, answer = post(gateway.url, body, {"X-Amz-Target": "AmazonSQS.SendMessage"})
    assert status == 400 and json.loads(answer)["message"] == (
        "Value d-1 for parameter MessageDeduplicationId is invalid. Reason: The request include parameter that is not "
        "valid for this queue type.")


@pytest.mark.parametrize("delay", [{}, {"DelaySeconds": 9}])
def test_a_call_that_is_repeated_sends_once(standard, gateway, delay):
    queue = standard.queue()
    one = sent_by_call(gateway.url, queue, "call-1", 1, **delay)
    standard.move(60_000)
    assert sent_by_call(gateway.url, queue, "call-1", 2, **delay) == one
    assert sent_by_call(gateway.url, queue, "call-2", 1, **delay) != one
    assert sent_by_call(gateway.url, queue, "call-1", 2, body="c", **delay) != one
    two = sent_by_call(gateway.url, queue, "call-3", 1, batch=True, **delay)
    assert sent_by_call(gateway.url, queue, "call-3", 2, batch=True, **delay) == two and len(set(two)) == 2
    standard.move(9000)
    assert sorted(standard.bodies(queue)) == ["b", "b", "b", "b", "c"] and standard.counts(queue) == (0, 5, 0)
    standard.move(300_000)
    assert sent_by_call(gateway.url, queue, "call-1", 2, **delay) != one


def test_a_large_body_comes_back(standard):
    queue = standard.queue()
    for body in ("x" * 300_000, "é" * 500_000):
        standard.send(queue, body, DelaySeconds=0)
    standard.send(queue, "y" * 1_000_000, DelaySeconds=5)
    standard.refused("InvalidParameterValue", lambda: standard.send(queue, "x" * 1_048_577))
    assert standard.bodies(queue) == ["x" * 300_000, "é" * 500_000]
    standard.move(5000)
    assert standard.bodies(queue) == ["y" * 1_000_000]


# ---- receipts


def test_a_delete_is_good_whenever_it_comes(each):
    queue = each.queue(VisibilityTimeout="10")
    each.send(queue, "late")
    (first,) = each.receive(queue)
    each.move(10_000)
    each.delete(queue, first)
    assert each.counts(queue) == (0, 0, 0)
    each.delete(queue, first)
    each.send(queue, "again")
    (first,) = each.receive(queue)
    each.move(10_000)
    (second,) = each.receive(queue)
    each.delete(queue, first)
    assert each.counts(queue) == (0, 1, 0)
    result = each.call("DeleteMessageBatch", QueueUrl=queue, Entries=[
        {"Id": "1", "ReceiptHandle": first["ReceiptHandle"]}, {"Id": "2", "ReceiptHandle": second["ReceiptHandle"]}])
    assert len(result["Successful"]) == 2 and each.counts(queue) == (0, 0, 0)


def test_a_change_of_a_message_that_nobody_has_is_refused(each):
    queue = each.queue(VisibilityTimeout="10")
    each.send(queue, "b")
    (message,) = each.receive(queue)
    each.change(queue, message, 5)
    each.move(4999)
    assert each.bodies(queue) == []
    each.move(1)
    each.refused("MessageNotInflight", lambda: each.change(queue, message, 5))
    result = each.call("ChangeMessageVisibilityBatch", QueueUrl=queue, Entries=[
        {"Id": "1", "ReceiptHandle": message["ReceiptHandle"], "VisibilityTimeout": 5}])
    assert result["Failed"][0]["Code"].endswith("MessageNotInflight")


def test_receipts_of_other_queues_are_invalid(standard):
    queue, other = standard.queue(), standard.queue()
    standard.send(queue, "b")
    (message,) = standard.receive(queue)
    standard.refused("ReceiptHandleIsInvalid", lambda: standard.delete(other, message))


# ---- delays


def test_a_message_has_a_delay_of_its_own(each):
    queue = each.queue()
    sent = each.send(queue, "later", DelaySeconds=10)
    each.move(2000)
    each.send(queue, "now")
    each.send(queue, "sooner", DelaySeconds=5)
    assert each.counts(queue) == (1, 0, 2) and each.bodies(queue) == ["now"]
    each.move(4999)
    assert each.bodies(queue) == []
    each.move(1)
    assert each.counts(queue) == (1, 1, 1) and each.bodies(queue) == ["sooner"]
    each.move(3000)
    (later,) = each.receive(queue, **SHOWN)
    assert (later["Body"], later["MessageId"]) == ("later", sent["MessageId"])
    attributes = later["Attributes"]
    first = int(attributes["ApproximateFirstReceiveTimestamp"])
    assert (int(attributes["SentTimestamp"]), attributes["ApproximateReceiveCount"]) == (first - 10_000, "1")
    for wrong in (-1, 901):
        each.refused("InvalidParameterValue", lambda: each.send(queue, "b", DelaySeconds=wrong))


def test_the_queues_delay_is_for_messages_that_name_none(standard):
    queue = standard.queue(DelaySeconds="10")
    entries = [{"Id": "a", "MessageBody": "queue's"}, {"Id": "b", "MessageBody": "none", "DelaySeconds": 0},
               {"Id": "c", "MessageBody": "own", "DelaySeconds": 20}]
    result = standard.call("SendMessageBatch", QueueUrl=queue, Entries=entries)
    ids = {one["Id"]: one["MessageId"] for one in result["Successful"]}
    assert standard.bodies(queue) == ["none"]
    # A change acts on later sends alone, other than in FIFO queues.
    standard.call("SetQueueAttributes", QueueUrl=queue, Attributes={"DelaySeconds": "0"})
    standard.send(queue, "after")
    assert standard.bodies(queue) == ["after"] and standard.counts(queue) == (0, 2, 2)
    standard.move(10_000)
    (message,) = standard.receive(queue)
    assert (message["Body"], message["MessageId"]) == ("queue's", ids["a"])
    standard.move(10_000)
    assert standard.bodies(queue) == ["own"]


def test_a_fifo_queues_message_has_no_delay_of_its_own(standard):
    name = next(names) + ".fifo"
    queue = standard.call("CreateQueue", QueueName=name, Attributes={"FifoQueue": "true"})["QueueUrl"]
    fifo = {"MessageGroupId": "g", "MessageDeduplicationId": "d"}
    standard.refused("InvalidParameterValue", lambda: standard.send(queue, "b", DelaySeconds=1, **fifo))
    standard.send(queue, "b", DelaySeconds=0, **fifo)
    assert standard.bodies(queue) == ["b"]


def test_messages_that_are_due_together_come_in_the_order_of_their_sends(standard):
    queue = standard.queue()
    bodies = [f"m{number}" for number in range(40)]
    for body in bodies:
        standard.send(queue, body, DelaySeconds=3)
    standard.move(3000)
    assert sum((standard.bodies(queue) for _ in range(5)), []) == bodies


def test_a_purge_and_a_removal_take_what_is_delayed(standard):
    queue = standard.queue()
    standard.send(queue, "later", DelaySeconds=5)
    standard.send(queue, "now")
    standard.call("PurgeQueue", QueueUrl=queue)
    assert standard.counts(queue) == (0, 0, 0)
    standard.move(5000)
    assert standard.bodies(queue) == []
    standard.refused("PurgeQueueInProgress", lambda: standard.call("PurgeQueue", QueueUrl=queue))
    standard.send(queue, "later", DelaySeconds=5)
    standard.call("DeleteQueue", QueueUrl=queue)
    standard.move(60_000)
    standard.call("CreateQueue", QueueName=queue.rsplit("/", 1)[-1])
    assert standard.counts(queue) == (0, 0, 0) and standard.bodies(queue) == []


def test_retention_counts_from_the_send(standard):
    queue = standard.queue(MessageRetentionPeriod="60")
    standard.send(queue, "old", DelaySeconds=59)
    standard.send(queue, "too old", DelaySeconds=60)
    standard.move(59_000)
    (message,) = standard.receive(queue, VisibilityTimeout=0)
    assert message["Body"] == "old"
    standard.move(1000)
    assert standard.bodies(queue) == []
    until(lambda: standard.counts(queue) == (0, 0, 0), 20, "a message is there still")


def test_a_long_poll_is_served_when_a_message_is_due(standard, gateway):
    queue = standard.queue()
    with meanwhile(lambda: rules_of(gateway).bodies(queue, WaitTimeSeconds=20)) as [poll]:
        polls(gateway, 1)
        standard.send(queue, "b", DelaySeconds=100)
        holds(lambda: not poll.done(), 0.2, "it is handed out ahead of its delay")
        began = time.monotonic()
        standard.move(100_000)
    assert poll.result() == ["b"] and time.monotonic() - began < 15


def test_a_due_message_is_sent_once_however_long_the_store_takes(tmp_path):
    with Started(room=tmp_path) as gateway:
        rules = rules_of(gateway, "json")
        queue = rules.queue()
        rules.send(queue, "b", DelaySeconds=5)
        found: list[str] = []
        receives = [threading.Thread(target=lambda: found.extend(rules_of(gateway, "json").bodies(queue))) for _ in range(3)]
        (stopped,) = programs_of(gateway)
        os.kill(stopped, signal.SIGSTOP)
        # After five minutes a deduplication id doesn't count.
        for step, receive in zip((5000, 300_000, 300_000), receives):
            rules.move(step)
            receive.start()
            pass_time(0.5, "cq, which stands still, is asked by then")
        os.kill(stopped, signal.SIGCONT)
        for receive in receives:
            receive.join()
        assert found == ["b"] and rules.counts(queue) == (0, 1, 0)


class Killed(Standard):
    """Queues of a gateway with a journal that is killed and started again later."""

    def __init__(self, path) -> None:
        self.gateway = Started("--journal", str(path / "journal"), "--shards", "2", room=path)
        super().__init__(ByBoto3(self.gateway.client()), lambda step: None)

    def kill(self, step: int) -> None:
        self.gateway.kill()
        self.gateway.set_clock(self.gateway.moment + step)
        self.gateway.start()
        self.call = ByBoto3(self.gateway.client())

    def take(self, queue: str) -> list[tuple[str, str]]:
        """Bodies and ids of all that is visible, which is deleted."""
        received = self.receive(queue)
        for message in received:
            self.delete(queue, message)
        return [(message["Body"], message["MessageId"]) for message in received]


def test_delayed_messages_outlive_kills(tmp_path):
    rules = Killed(tmp_path)
    queues = [rules.queue().rsplit("/", 1)[-1] for _ in range(4)]
    ids = {}
    for queue in queues:
        for body, delay in (("now", 0), ("due", 5), ("later", 20)):
            ids[queue, body] = rules.send(queue, body, DelaySeconds=delay)["MessageId"]
        (ids[queue, "called"],) = sent_by_call(rules.gateway.url, queue, "call", 1, DelaySeconds=60, body="called")
    for step in (0, 4999, 0):
        rules.kill(step)
        assert [rules.counts(queue) for queue in queues] == [(1, 0, 3)] * 4
    # A start sends what has become due meanwhile, and a repeated call is known still.
    rules.kill(1)
    for queue in queues:
        again = sent_by_call(rules.gateway.url, queue, "call", 2, DelaySeconds=60, body="called")
        assert again == [ids[queue, "called"]] and rules.counts(queue) == (2, 0, 2)
        assert rules.take(queue) == [(body, ids[queue, body]) for body in ("now", "due")]
    for step, body in ((15_000, "later"), (40_000, "called")):
        rules.kill(step)
        assert [rules.take(queue) for queue in queues] == [[(body, ids[queue, body])] for queue in queues]
    # By then the store has forgotten what it was sent, and nothing comes again.
    rules.kill(400_000)
    assert [rules.counts(queue) for queue in queues] == [(0, 0, 0)] * 4
    assert rules.gateway.stop() == 0


# ---- dead letters


def test_a_dead_letter_keeps_its_age(each):
    dead = each.queue(MessageRetentionPeriod="100")
    queue = each.queue(VisibilityTimeout="0", RedrivePolicy=each.policy(dead, 2), MessageRetentionPeriod="200")
    sent = each.send(queue, "letter", DelaySeconds=1)
    each.send(queue, "other")
    each.move(1000)
    for count in "12":
        received = each.receive(queue, **SHOWN)
        assert {one["Attributes"]["ApproximateReceiveCount"] for one in received} == {count}
    each.move(1000)
    assert each.bodies(queue) == []
    moved = {one["Body"]: one for one in each.receive(dead, VisibilityTimeout=0, **SHOWN)}
    letter = moved.pop("letter")
    assert letter["MessageId"] == sent["MessageId"] and len(moved) == 1
    attributes = letter["Attributes"]
    assert attributes["DeadLetterQueueSourceArn"] == each.arn(queue)
    assert int(attributes["ApproximateFirstReceiveTimestamp"]) == int(attributes["SentTimestamp"]) + 2000
    each.move(98_000)
    assert each.bodies(dead) == []


def test_a_dead_letter_queue_is_of_the_same_kind(each):
    name = next(names) + ".fifo"
    fifo = each.call("CreateQueue", QueueName=name, Attributes={"FifoQueue": "true"})["QueueUrl"]
    queue = each.queue()
    for source, dead in ((queue, fifo), (fifo, queue)):
        change = {"QueueUrl": source, "Attributes": {"RedrivePolicy": each.policy(dead)}}
        each.refused("InvalidParameterValue", lambda: each.call("SetQueueAttributes", **change))
    each.refused("InvalidParameterValue", lambda: each.queue(RedrivePolicy=each.policy(fifo)))


def test_a_queue_says_whose_dead_letters_it_takes(standard, gateway):
    json_rules = rules_of(gateway, "json")
    dead, friend, stranger = standard.queue(), standard.queue(), standard.queue()
    allow = json.dumps({"redrivePermission": "byQueue", "sourceQueueArns": [standard.arn(friend)]})
    standard.call("SetQueueAttributes", QueueUrl=dead, Attributes={"RedriveAllowPolicy": allow})
    given = {"RedrivePolicy": standard.policy(dead)}
    standard.call("SetQueueAttributes", QueueUrl=friend, Attributes=given)
    standard.refused("InvalidParameterValue",
                     lambda: standard.call("SetQueueAttributes", QueueUrl=stranger, Attributes=given))
    assert json_rules.call("ListDeadLetterSourceQueues", QueueUrl=dead)["queueUrls"] == [friend]


@pytest.mark.parametrize("way", ["json", "query"])
def test_a_task_moves_messages_back(gateway, way):
    rules = rules_of(gateway, way)
    dead, other = rules.queue(), rules.queue()
    queue = rules.queue(VisibilityTimeout="0", RedrivePolicy=rules.policy(dead))
    ids = {}
    for number in range(25):
        ids[f"m{number}"] = rules.send(queue, f"m{number}", MessageGroupId="g")["MessageId"]
    while rules.receive(queue):
        pass
    assert rules.counts(dead) == (25, 0, 0)
    name = next(names) + ".fifo"
    fifo = rules.call("CreateQueue", QueueName=name, Attributes={"FifoQueue": "true"})["QueueUrl"]
    start = {"SourceArn": rules.arn(dead), "DestinationArn": rules.arn(fifo)}
    rules.refused("InvalidParameterValue", lambda: rules.call("StartMessageMoveTask", **start))

    def is_done() -> bool:
        listed = rules.call("ListMessageMoveTasks", SourceArn=rules.arn(dead))["Results"]
        return listed[0]["Status"] == "COMPLETED"

    rules.call("StartMessageMoveTask", SourceArn=rules.arn(dead), DestinationArn=rules.arn(other))
    until(is_done, 20, "the task doesn't end")
    received = sum((rules.receive(other, VisibilityTimeout=0 if turn == 9 else 30, **SHOWN) for turn in range(4)), [])
    assert [one["Body"] for one in received] == list(ids)
    assert all(ids[one["Body"]] != one["MessageId"] for one in received)
    assert {one["Attributes"].get("MessageGroupId") for one in received} == {"g"}
    assert rules.counts(dead) == (0, 0, 0)
    # A message goes back to where it came from, if nothing else is said.
    rules.send(queue, "back")
    assert rules.bodies(queue) == ["back"] and rules.bodies(queue) == []
    rules.call("StartMessageMoveTask", SourceArn=rules.arn(dead))
    until(is_done, 20, "the task doesn't end")
    assert rules.bodies(queue) == ["back"]


# ---- bounds, and what was there before


def test_delayed_messages_count_as_memory(tmp_path):
    with Started("--memory", "1MiB") as gateway:
        rules = rules_of(gateway, "json")
        queue = rules.queue()
        sent = 0
        with pytest.raises(Refused) as refused:
            while sent < 100:
                rules.send(queue, "x" * 50_000, DelaySeconds=900)
                sent += 1
        assert refused.value.code == "OverLimit" and 15 <= sent <= 20
        rules.call("PurgeQueue", QueueUrl=queue)
        rules.send(queue, "x" * 50_000, DelaySeconds=900)
        assert rules.counts(queue) == (0, 0, 1)
