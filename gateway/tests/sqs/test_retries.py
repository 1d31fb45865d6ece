"""Requests that come again since their answer was lost: also behind an end of the gateway, and behind a change of what tells repeats."""

import threading
import urllib.parse

import pytest

from meanwhile import meanwhile
from rules import FIFO, arn, policy
from stand_in import StandIn
from started import ByJson, ByQuery, Refused, Started, post, run
from waiting import until

FIVE_MINUTES = 300_000


@pytest.fixture
def journaled(tmp_path) -> Started:
    with Started("--journal", str(tmp_path / "journal"), room=tmp_path) as gateway:
        yield gateway


def restarted(gateway: Started) -> ByJson:
    gateway.kill()
    gateway.start()
    return ByJson(gateway.url)


def send(call, text: str, group: str = "g", queue: str = "q.fifo") -> str:
    return call("SendMessage", QueueUrl=queue, MessageBody=text, MessageGroupId=group, MessageDeduplicationId=text)["MessageId"]


def requests_in(journal) -> int:
    """How many requests the store has taken, as the file says by now."""
    told = run("verify", str(journal))
    assert told.returncode == 0, told.stderr
    return int(told.stdout.split("the store of ")[1].split()[0])


# ---- receives with an attempt id

@pytest.mark.parametrize("wait", [0, 5])
def test_what_an_attempt_was_given_that_nobody_was_told_is_given_again(tmp_path, wait):
    """The store has done the receive, and the gateway is killed before it hears of that."""
    journal, stand_in = tmp_path / "journal", StandIn(tmp_path)
    gateway = Started("--journal", str(journal), "--cq", str(stand_in.path))
    call = ByJson(gateway.url)
    call("CreateQueue", QueueName="q.fifo", Attributes=FIFO)
    for number, group in enumerate("aab"):
        send(call, str(number), group)
    receive = {"QueueUrl": "q.fifo", "MaxNumberOfMessages": 2, "VisibilityTimeout": 600, "WaitTimeSeconds": wait}
    before = requests_in(journal)
    stand_in.tell("hang")
    with meanwhile(lambda: pytest.raises((OSError, Refused), call, "ReceiveMessage", **receive, ReceiveRequestAttemptId="x")):
        # What the book says ahead of it, and the receive.
        until(lambda: requests_in(journal) >= before + 2, 20, "it isn't kept")
        gateway.kill()
    with Started("--journal", str(journal)) as gateway:
        call = ByJson(gateway.url)
        for _ in range(2):
            again = call("ReceiveMessage", **receive, ReceiveRequestAttemptId="x")["Messages"]
            assert [message["Body"] for message in again] == ["0", "1"]
        other = call("ReceiveMessage", **receive, ReceiveRequestAttemptId="y").get("Messages", [])
        assert [message["Body"] for message in other] == ["2"]
        for message in again:
            call("DeleteMessage", QueueUrl="q.fifo", ReceiptHandle=message["ReceiptHandle"])
        assert "Messages" not in call("ReceiveMessage", **receive, ReceiveRequestAttemptId="x")
        call = restarted(gateway)
        assert "Messages" not in call("ReceiveMessage", **receive, ReceiveRequestAttemptId="x")


def test_an_attempt_that_was_told_is_what_it_was(journaled):
    """What the book says ahead of a receive counts for nothing once the store's client has asked for something else."""
    call = ByJson(journaled.url)
    call("CreateQueue", QueueName="q.fifo", Attributes={**FIFO, "VisibilityTimeout": "60"})
    for number in range(4):
        send(call, str(number), group=str(number))
    given = {name: call("ReceiveMessage", QueueUrl="q.fifo", ReceiveRequestAttemptId=name)["Messages"][0]["Body"] for name in "xyz"}
    call("ChangeMessageVisibility", QueueUrl="q.fifo", VisibilityTimeout=90,
         ReceiptHandle=call("ReceiveMessage", QueueUrl="q.fifo", ReceiveRequestAttemptId="y")["Messages"][0]["ReceiptHandle"])
    call = restarted(journaled)
    for name, body in given.items():
        again = [message["Body"] for message in call("ReceiveMessage", QueueUrl="q.fifo", ReceiveRequestAttemptId=name).get("Messages", [])]
        # A message that was changed is no longer that attempt's.
        assert again == ([body] if name != "y" else ["3"])


# ---- tasks

@pytest.mark.parametrize("protocol", [ByJson, ByQuery])
def test_a_repeated_start_of_a_task_is_told_the_first_ones_handle(journaled, protocol):
    call = ByJson(journaled.url)
    call("CreateQueue", QueueName="dead.fifo", Attributes=FIFO)
    call("CreateQueue", QueueName="q.fifo", Attributes={**FIFO, "RedrivePolicy": policy("dead.fifo"), "VisibilityTimeout": "0"})
    send(call, "a")
    call("ReceiveMessage", QueueUrl="q.fifo")
    call("ReceiveMessage", QueueUrl="q.fifo")

    def start(name: str) -> str:
        if protocol is ByJson:
            return ByJson(journaled.url, **{"amz-sdk-invocation-id": name})("StartMessageMoveTask", SourceArn=arn("dead.fifo"))["TaskHandle"]
        body = urllib.parse.urlencode({"Action": "StartMessageMoveTask", "SourceArn": arn("dead.fifo")}).encode()
        headers = {"Content-Type": "application/x-www-form-urlencoded", "amz-sdk-invocation-id": name}
        status, _, answer = post(journaled.url + "/", body, headers)
        assert status == 200, answer
        return answer.split(b"<TaskHandle>")[1].split(b"<")[0].decode()

    def tasks() -> list[str]:
        return [task["Status"] for task in call("ListMessageMoveTasks", SourceArn=arn("dead.fifo"), MaxResults=10).get("Results", [])]

    first = start("one")
    until(lambda: tasks() == ["COMPLETED"], 20, "the task doesn't end")
    assert start("one") == first and tasks() == ["COMPLETED"]
    call = restarted(journaled)
    assert start("one") == first and tasks() == ["COMPLETED"]
    assert start("two") != first and len(tasks()) == 2
    (message,) = call("ReceiveMessage", QueueUrl="q.fifo")["Messages"]
    assert message["Body"] == "a"


# ---- deduplication ids

@pytest.mark.parametrize("first, second", [("queue", "messageGroup"), ("messageGroup", "queue")])
@pytest.mark.parametrize("is_ended", [False, True], ids=["", "over an end"])
def test_ids_count_under_both_scopes_for_five_minutes_behind_a_change(journaled, first, second, is_ended):
    call = ByJson(journaled.url)
    call("CreateQueue", QueueName="q.fifo", Attributes={**FIFO, "DeduplicationScope": first})
    ids = {(text, group): send(call, text, group) for text, group in (("a", "g"), ("b", "h"))}
    # One of them is gone by then.
    (message,) = call("ReceiveMessage", QueueUrl="q.fifo")["Messages"]
    call("DeleteMessage", QueueUrl="q.fifo", ReceiptHandle=message["ReceiptHandle"])
    journaled.set_clock(journaled.moment + 60_000)
    call("SetQueueAttributes", QueueUrl="q.fifo", Attributes={"DeduplicationScope": second})
    if is_ended:
        call = restarted(journaled)
    for (text, group), known in ids.items():
        assert send(call, text, group) == known
    new = send(call, "c")
    assert new not in ids.values() and send(call, "c") == new
    other = send(call, "c", "other")
    assert (other == new) == (second == "queue")
    # And back: what was sent meanwhile counts, too.
    call("SetQueueAttributes", QueueUrl="q.fifo", Attributes={"DeduplicationScope": first})
    if is_ended:
        call = restarted(journaled)
    assert send(call, "c") == new
    assert [send(call, text, group) for text, group in ids] == list(ids.values())
    journaled.set_clock(journaled.moment + FIVE_MINUTES - 60_001)
    assert send(call, "a") == ids["a", "g"]
    journaled.set_clock(journaled.moment + 1)
    assert send(call, "a") not in ids.values()
    assert send(call, "c") == new


def test_repeats_that_come_at_once_with_a_change_of_scope_are_one_message(journaled):
    call = ByJson(journaled.url)
    call("CreateQueue", QueueName="q.fifo", Attributes=FIFO)
    for turn in range(10):
        ids: set[str] = set()
        senders = [threading.Thread(target=lambda: ids.add(send(ByJson(journaled.url), f"m{turn}"))) for _ in range(6)]
        for place, sender in enumerate(senders):
            sender.start()
            if place == 2:
                scope = ["messageGroup", "queue"][turn % 2]
                call("SetQueueAttributes", QueueUrl="q.fifo", Attributes={"DeduplicationScope": scope})
        for sender in senders:
            sender.join()
        assert len(ids) == 1


# ---- names that stand twice

@pytest.mark.parametrize("map_, name", [("MessageAttributes", "a"), ("MessageSystemAttributes", "AWSTraceHeader")])
def test_a_name_that_stands_twice_among_attributes_is_refused(gateway, map_, name):
    ByJson(gateway.url)("CreateQueue", QueueName="s", Attributes={})
    text = "Root=1-5759e988-bd862e3fe1be46a994272793"
    value = '{"DataType":"String","StringValue":"%s"}' % text
    body = '{"QueueUrl":"s","MessageBody":"x","%s":{"%s":%s,"%s":%s}}' % (map_, name, value, name, value)
    headers = {"X-Amz-Target": "AmazonSQS.SendMessage", "Content-Type": "application/x-amz-json-1.0"}
    status, _, answer = post(gateway.url + "/", body.encode(), headers)
    assert status == 400 and b"InvalidParameterValue" in answer and f"{map_} has {name} twice.".encode() in answer
    short = map_.removesuffix("s")
    fields = {"Action": "SendMessage", "QueueUrl": "s", "MessageBody": "x"}
    for place in (1, 2):
        fields |= {f"{short}.{place}.Name": name, f"{short}.{place}.Value.DataType": "String", f"{short}.{place}.Value.StringValue": text}
    status, _, answer = post(gateway.url + "/", urllib.parse.urlencode(fields).encode(), {"Content-Type": "application/x-www-form-urlencoded"})
    assert status == 400 and b"InvalidParameterValue" in answer and f"{map_} has {name} twice.".encode() in answer
    assert "Messages" not in ByJson(gateway.url)("ReceiveMessage", QueueUrl="s")
