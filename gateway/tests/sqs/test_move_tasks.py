"""Tasks that move messages out of dead-letter queues (API Reference, StartMessageMoveTask)."""

import json
import random
import signal
import socket
import time
from functools import partial
from typing import Any

import pytest
from botocore.auth import SigV4Auth
from botocore.awsrequest import AWSRequest
from botocore.credentials import Credentials

from meanwhile import meanwhile
from rules import Rules, arn, policy
from sockets import is_all_read
from started import ByJson, ByQuery, Refused, Started, handing, post
from steered import SteeredCq
from waiting import pace, pass_time, until


def signed(gateway: Started, key: str, action: str, **members: Any) -> tuple[int, dict[str, Any]]:
    """The status and the answer of a call with that key."""
    headers = {"X-Amz-Target": f"AmazonSQS.{action}", "Content-Type": "application/x-amz-json-1.0"}
    request = AWSRequest("POST", gateway.url + "/", headers, json.dumps(members).encode())
    SigV4Auth(Credentials(key, f"the secret of {key}"), "sqs", "us-east-1").add_auth(request)
    status, _, body = post(request.url, request.data, dict(request.headers))
    return status, json.loads(body)


# Debian's boto3 doesn't know these actions.
@pytest.fixture(params=[ByJson, ByQuery])
def tasks(request, gateway) -> Rules:
    return Rules(request.param(gateway.url), lambda step: gateway.set_clock(gateway.moment + step))


def dead_pair(rules: Rules, **attributes: str) -> tuple[str, str]:
    dead = rules.queue(**attributes)
    return rules.queue(VisibilityTimeout="0", RedrivePolicy=policy(dead)), dead


def fill(rules: Rules, queue: str, count: int, groups: int = 2) -> None:
    """Sends messages and receives them until all are in the dead-letter queue."""
    for number in range(count):
        rules.send(queue, f"d{number}", group=f"g{number % groups}", body=str(number))
    while rules.receive(queue):
        pass


def listed(rules: Rules, dead: str, most: int = 1) -> list[dict[str, Any]]:
    return rules.call("ListMessageMoveTasks", SourceArn=arn(dead), MaxResults=most).get("Results", [])


def ended(rules: Rules, dead: str) -> dict[str, Any]:
    return until(lambda: next((task for task in listed(rules, dead) if task["Status"] != "RUNNING"), None), 20, "the task doesn't end")


def test_each_message_goes_back_to_its_queue(tasks):
    first, dead = dead_pair(tasks)
    second = tasks.queue(VisibilityTimeout="0", RedrivePolicy=policy(dead))
    fill(tasks, first, 25)
    fill(tasks, second, 3)
    old = {message["MessageId"] for message in tasks.receive(dead, 10, VisibilityTimeout=0)}
    handle = tasks.call("StartMessageMoveTask", SourceArn=arn(dead))["TaskHandle"]
    task = ended(tasks, dead)
    assert "TaskHandle" not in task and "DestinationArn" not in task and handle
    assert (task["Status"], task["SourceArn"]) == ("COMPLETED", arn(dead))
    assert [int(task[f"ApproximateNumberOfMessages{which}"]) for which in ("Moved", "ToMove")] == [28, 28]
    assert tasks.receive(dead) == []
    for queue, count in ((first, 25), (second, 3)):
        there: dict[str, list[int]] = {}
        while messages := tasks.receive(queue, 10, VisibilityTimeout=30, AttributeNames=["All"]):
            for message in messages:
                attributes = message["Attributes"]
                assert attributes["ApproximateReceiveCount"] == "1" and "DeadLetterQueueSourceArn" not in attributes
                assert attributes["MessageDeduplicationId"] == f"d{message['Body']}"
                assert message["MessageId"] not in old
                there.setdefault(attributes["MessageGroupId"], []).append(int(message["Body"]))
                tasks.delete(queue, message)
        assert there == {"g0": list(range(0, count, 2)), "g1": list(range(1, count, 2))}


def test_a_task_has_a_rate_and_can_be_cancelled(tasks):
    queue, dead = dead_pair(tasks)
    other, count = tasks.queue(VisibilityTimeout="0"), 60
    fill(tasks, queue, count)
    start = lambda **more: tasks.call("StartMessageMoveTask", SourceArn=arn(dead), DestinationArn=arn(other), **more)  # noqa: E731
    begun = time.monotonic()
    handle = start(MaxNumberOfMessagesPerSecond=5)["TaskHandle"]
    (task,) = listed(tasks, dead)
    assert (task["Status"], task["TaskHandle"], task["DestinationArn"]) == ("RUNNING", handle, arn(other))
    assert int(task["MaxNumberOfMessagesPerSecond"]) == 5
    tasks.refused("InvalidParameterValue", start)
    until(lambda: tasks.receive(other), 20, "nothing is moved")
    told = int(tasks.call("CancelMessageMoveTask", TaskHandle=handle)["ApproximateNumberOfMessagesMoved"])
    # Five at once, and no more each second. The last ones may not be counted yet.
    moved, _, _ = tasks.counts(other)
    assert moved % 5 == 0 and moved <= 5 * (1 + int(time.monotonic() - begun)) and told in (moved - 5, moved)
    (task,) = listed(tasks, dead)
    assert task["Status"] == "CANCELLED" and "TaskHandle" not in task
    tasks.refused("InvalidParameterValue", lambda: tasks.call("CancelMessageMoveTask", TaskHandle=handle))
    pass_time(1.2, "a task that goes on would move more each second")
    assert (tasks.counts(other)[0], tasks.counts(dead)[0]) == (moved, count - moved)
    start()
    assert ended(tasks, dead)["Status"] == "COMPLETED"
    assert [task["Status"] for task in listed(tasks, dead, 10)] == ["COMPLETED", "CANCELLED"]
    bodies = []
    while messages := tasks.receive(other, VisibilityTimeout=30):
        for message in messages:
            bodies.append(int(message["Body"]))
            tasks.delete(other, message)
    assert sorted(bodies) == list(range(count)) and tasks.receive(dead) == []


def test_what_can_not_be_moved_is_refused_or_fails(tasks, gateway):
    queue, dead = dead_pair(tasks)
    start = lambda source, **more: lambda: tasks.call("StartMessageMoveTask", SourceArn=source, **more)  # noqa: E731
    for source in ("arn:aws:sqs:us-east-1:000000000000:none.fifo", "nothing", arn(dead).replace(":000000000000:", ":1:")):
        tasks.refused("ResourceNotFoundException", start(source))
        tasks.refused("ResourceNotFoundException", lambda: tasks.call("ListMessageMoveTasks", SourceArn=source))
    with pytest.raises(Refused) as refusal:
        start("nothing")()
    assert refusal.value.status == 404
    tasks.refused("InvalidParameterValue", start(arn(queue)))
    tasks.refused("InvalidParameterValue", start(arn(dead), DestinationArn=arn(dead)))
    tasks.refused("InvalidParameterValue", start(arn(dead), MaxNumberOfMessagesPerSecond=501))
    tasks.refused("ResourceNotFoundException", start(arn(dead), DestinationArn=arn("none.fifo")))
    tasks.refused("MissingParameter", lambda: tasks.call("StartMessageMoveTask"))
    for handle in ("x", "MDAwMDAwMDAtMDAwMC00MDAwLTgwMDAtMDAwMDAwMDAwMDA3L25vbmUuZmlmbw"):
        tasks.refused("ResourceNotFoundException", lambda: tasks.call("CancelMessageMoveTask", TaskHandle=handle))
    assert listed(tasks, dead) == []
    # Nobody can say from where this one came.
    tasks.send(dead, "own", body="own")
    start(arn(dead))()
    task = ended(tasks, dead)
    assert (task["Status"], task["FailureReason"]) == ("FAILED", "CouldNotDetermineMessageSource")
    (message,) = tasks.receive(dead, AttributeNames=["All"])
    assert (message["Body"], message["Attributes"]["ApproximateReceiveCount"]) == ("own", "1")


def test_what_somebody_has_stays_and_nothing_waits_for_it(tasks):
    queue, dead = dead_pair(tasks, VisibilityTimeout="600")
    fill(tasks, queue, 6)
    (mine,) = tasks.receive(dead, 1)
    tasks.call("StartMessageMoveTask", SourceArn=arn(dead))
    assert ended(tasks, dead)["Status"] == "COMPLETED"
    assert sorted(tasks.bodies(queue)) == ["1", "3", "5"]
    tasks.delete(dead, mine)
    assert tasks.bodies(dead) == ["2", "4"]


def test_a_task_against_the_stream_ends(tasks):
    one, other = dead_pair(tasks)
    tasks.call("SetQueueAttributes", QueueUrl=other, Attributes={"RedrivePolicy": policy(one), "VisibilityTimeout": "0"})
    fill_one = [tasks.send(one, str(number), body=str(number)) for number in range(5)]
    assert len(fill_one) == len(tasks.receive(one)) == 5
    assert tasks.receive(one) == []
    tasks.call("StartMessageMoveTask", SourceArn=arn(other))
    tasks.call("StartMessageMoveTask", SourceArn=arn(one), DestinationArn=arn(other))
    assert ended(tasks, one)["Status"] == ended(tasks, other)["Status"] == "COMPLETED"
    assert sorted(tasks.bodies(one) + tasks.bodies(other)) == list("01234")


def test_a_task_is_handed_only_what_it_moves(tasks):
    """Messages that come later, and some that go nowhere, stay as they are."""
    queue, dead = dead_pair(tasks)
    fill(tasks, queue, 12, groups=3)
    tasks.call("StartMessageMoveTask", SourceArn=arn(dead), MaxNumberOfMessagesPerSecond=5)
    for number in range(6):
        tasks.send(dead, f"later{number}", group=f"g{number % 4}", body=f"later{number}")
    task = ended(tasks, dead)
    assert (task["Status"], int(task["ApproximateNumberOfMessagesMoved"])) == ("COMPLETED", 12)
    tasks.call("StartMessageMoveTask", SourceArn=arn(dead))
    assert ended(tasks, dead)["FailureReason"] == "CouldNotDetermineMessageSource"
    found = tasks.receive(dead, VisibilityTimeout=0, AttributeNames=["All"])
    assert sorted(message["Body"] for message in found) == [f"later{number}" for number in range(6)]
    assert {(handing(message), message["Attributes"]["ApproximateReceiveCount"]) for message in found} == {(1, "1")}
    tasks.call("PurgeQueue", QueueUrl=dead)


@pytest.mark.parametrize("kills", [5, 0])
def test_a_task_goes_on_after_a_restart(tmp_path, kills):
    gateway = Started("--journal", str(tmp_path / "journal"), room=tmp_path)
    rules = Rules(ByJson(gateway.url), lambda step: gateway.set_clock(gateway.moment + step))
    queue, dead = dead_pair(rules)
    fill(rules, queue, 60, groups=3)
    rules.call("StartMessageMoveTask", SourceArn=arn(dead), MaxNumberOfMessagesPerSecond=40)
    chance = random.Random(kills)
    for _ in range(max(kills, 1)):
        pace(chance.uniform(0, 0.2))
        if kills:
            gateway.kill()
        else:
            assert gateway.stop() == 0
        gateway.start()
        rules.call = ByJson(gateway.url)
    task = ended(rules, dead)
    assert (task["Status"], task["ApproximateNumberOfMessagesToMove"]) == ("COMPLETED", 60)
    there: dict[str, list[int]] = {}
    name = queue.rsplit("/", 1)[-1]
    while messages := rules.receive(name, VisibilityTimeout=30, AttributeNames=["All"]):
        for message in messages:
            there.setdefault(message["Attributes"]["MessageGroupId"], []).append(int(message["Body"]))
            rules.delete(name, message)
    assert there == {f"g{group}": list(range(group, 60, 3)) for group in range(3)}
    assert gateway.stop() == 0


def test_a_destination_is_within_what_a_key_allows(tmp_path):
    keys = tmp_path / "keys.toml"
    keys.write_text('[[key]]\naccess_key = "A"\nsecret = "the secret of A"\n\n'
                    '[[key]]\naccess_key = "B"\nsecret = "the secret of B"\nqueues = ["b-"]\n')
    with Started("--credentials", str(keys)) as gateway:
        call = partial(signed, gateway)

        fifo = {"FifoQueue": "true"}
        for name, more in (("a-1.fifo", {}), ("b-1.fifo", {}), ("b-2.fifo", {"RedrivePolicy": policy("b-1.fifo")})):
            assert call("A", "CreateQueue", QueueName=name, Attributes={**fifo, **more})[0] == 200
        for source, destination in (("b-1.fifo", "a-1.fifo"), ("a-1.fifo", "b-1.fifo"), ("b-1.fifo", "a-none.fifo")):
            status, error = call("B", "StartMessageMoveTask", SourceArn=arn(source), DestinationArn=arn(destination))
            assert (status, error["__type"].split("#")[1]) == (403, "AccessDeniedException")
        status, started = call("B", "StartMessageMoveTask", SourceArn=arn("b-1.fifo"), DestinationArn=arn("b-2.fifo"))
        assert status == 200 and started["TaskHandle"]


def test_a_task_needs_the_rights_to_what_it_does(tmp_path):
    """Those to receive and delete there, and to send where the messages go. Others' queues aren't named."""
    keys = tmp_path / "keys.toml"
    start, source = "StartMessageMoveTask", ["ReceiveMessage", "DeleteMessage", "GetQueueAttributes"]
    allowed = {"A": None, "start": [start], "take": [start, *source], "send": [start, "SendMessage"],
               "all": [start, "SendMessage", *source]}
    allowed |= {f"no-{one}": [start, "SendMessage", *(other for other in source if other != one)] for one in source}
    row = '[[key]]\naccess_key = "{0}"\nsecret = "the secret of {0}"\n'

    def write() -> None:
        rows = [row.format(name) + (f"actions = {json.dumps(actions)}\n" if actions else "") for name, actions in allowed.items()]
        keys.write_text("\n".join([*rows, row.format("L") + 'queues = ["dead"]\n']))

    write()
    gateway = Started("--credentials", str(keys))
    call = partial(signed, gateway)

    dead, more = "dead", {"VisibilityTimeout": "0", "RedrivePolicy": policy("dead")}
    for name, attributes in ((dead, {}), ("q", more), ("other", {})):
        assert call("A", "CreateQueue", QueueName=name, Attributes=attributes)[0] == 200
    # One each second: the task is far from its end when a key changes.
    count = 40
    for _ in range(count):
        assert call("A", "SendMessage", QueueUrl=dead, MessageBody="of the dead-letter queue")[0] == 200
    lacks = {"start": "receivemessage", "take": "sendmessage", "send": "receivemessage"}
    lacks |= {f"no-{one}": one.lower() for one in source}
    for key, action in lacks.items():
        for destination in ({}, {"DestinationArn": arn("other")}):
            status, error = call(key, start, SourceArn=arn(dead), **destination)
            assert (status, error["__type"].split("#")[1]) == (403, "AccessDeniedException"), (key, error)
            assert f"sqs:{action}" in error["message"], (key, error)
    told = call("A", "GetQueueAttributes", QueueUrl=dead, AttributeNames=["All"])[1]["Attributes"]
    assert int(told["ApproximateNumberOfMessages"]) == count
    status, started = call("all", start, SourceArn=arn(dead), DestinationArn=arn("other"), MaxNumberOfMessagesPerSecond=1)
    assert status == 200 and started["TaskHandle"]
    (told,) = call("A", "ListMessageMoveTasks", SourceArn=arn(dead))[1]["Results"]
    assert told["DestinationArn"] == arn("other")
    (told,) = call("L", "ListMessageMoveTasks", SourceArn=arn(dead))[1]["Results"]
    assert "DestinationArn" not in told and told["SourceArn"] == arn(dead)
    # A key that may send no more moves no more.
    allowed["all"] = [start, *source]
    write()
    gateway.process.send_signal(signal.SIGHUP)
    task = lambda: call("A", "ListMessageMoveTasks", SourceArn=arn(dead))[1]["Results"][0]
    assert until(lambda: task()["Status"] == "FAILED", 20, "the task doesn't fail") and task()["FailureReason"] == "AccessDenied"
    assert gateway.stop() == 0


def test_a_task_whose_client_has_gone_moves_messages(tmp_path):
    cq = SteeredCq(tmp_path)
    with Started(*cq.words(), room=tmp_path) as gateway:
        rules = Rules(ByJson(gateway.url), lambda step: None)
        queue, dead = dead_pair(rules)
        fill(rules, queue, 3)
        other = rules.queue()
        cq.tell(hold="held up")
        with meanwhile(lambda: rules.send(other, "d", body="held up")):
            until(lambda: cq.holds() == 1, 10, "cq isn't told of the send")
            body = json.dumps({"SourceArn": arn(dead)}).encode()
            with socket.create_connection(("127.0.0.1", int(gateway.url.rsplit(":", 1)[-1]))) as client:
                client.sendall(b"POST / HTTP/1.1\r\nHost: 127.0.0.1\r\nX-Amz-Target: AmazonSQS.StartMessageMoveTask\r\n"
                               b"Content-Type: application/x-amz-json-1.0\r\n"
                               + f"Content-Length: {len(body)}\r\n\r\n".encode() + body)
                until(lambda: is_all_read(int(gateway.url.rsplit(":", 1)[-1]), 2), 20, "the gateway doesn't read the request")
                pass_time(0.1, "what was read has begun")
            pass_time(0.3, "the gateway sees that the client has gone")
            cq.tell()
        task = ended(rules, dead)
        assert (task["Status"], int(task["ApproximateNumberOfMessagesMoved"])) == ("COMPLETED", 3)


def test_a_task_moves_nothing_to_queues_that_its_key_does_not_allow(tmp_path):
    keys = tmp_path / "keys.toml"
    of = '[[key]]\naccess_key = "{0}"\nsecret = "the secret of {0}"\n{1}\n'
    keys.write_text(of.format("A", "") + of.format("B", 'queues = ["b-"]'))
    with Started("--credentials", str(keys), "--journal", str(tmp_path / "journal")) as gateway:
        call = partial(signed, gateway)

        def good(key: str, action: str, **members) -> dict[str, Any]:
            status, answer = call(key, action, **members)
            assert status == 200, answer
            return answer

        def die(queue: str, body: str) -> None:
            """Sends a message that goes to the dead-letter queue at the second receive."""
            good("A", "SendMessage", QueueUrl=queue, MessageBody=body)
            assert good("A", "ReceiveMessage", QueueUrl=queue)["Messages"]
            assert good("A", "ReceiveMessage", QueueUrl=queue) == {}

        def task() -> dict[str, Any]:
            return good("A", "ListMessageMoveTasks", SourceArn=arn("b-dead"))["Results"][0]

        def start() -> tuple[int, dict[str, Any]]:
            return call("B", "StartMessageMoveTask", SourceArn=arn("b-dead"), MaxNumberOfMessagesPerSecond=1)

        dying = {"VisibilityTimeout": "0", "RedrivePolicy": policy("b-dead")}
        good("A", "CreateQueue", QueueName="b-dead")
        for name in ("a-1", "b-1"):
            good("A", "CreateQueue", QueueName=name, Attributes=dying)
        die("a-1", "of a")
        status, error = start()
        assert (status, error["__type"].split("#")[1]) == (403, "AccessDeniedException") and "a-1" not in error["message"]
        # The message still says where it came from when that queue names no dead-letter queue any more.
        good("A", "SetQueueAttributes", QueueUrl="a-1", Attributes={"RedrivePolicy": ""})
        assert start()[0] == 200
        assert until(lambda: task()["Status"] == "FAILED", 20, "the task doesn't fail") and task()["FailureReason"] == "AccessDenied"
        assert good("A", "ReceiveMessage", QueueUrl="a-1") == {}
        good("A", "PurgeQueue", QueueUrl="b-dead")
        # A key that allows less meanwhile moves no more, also after a start.
        # One each second, and the gateway is killed behind the first.
        bodies = [str(number) for number in range(20)]
        for body in bodies:
            die("b-1", body)
        assert start()[0] == 200
        until(lambda: task()["ApproximateNumberOfMessagesMoved"] >= 1, 20, "nothing is moved")
        gateway.kill()
        keys.write_text(of.format("A", "") + of.format("B", 'queues = ["none-"]'))
        gateway.start()
        assert until(lambda: task()["Status"] == "FAILED", 20, "the task doesn't fail") and task()["FailureReason"] == "AccessDenied"
        assert task()["ApproximateNumberOfMessagesMoved"] < len(bodies)
