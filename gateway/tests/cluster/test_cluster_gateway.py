"""SQS served by a cluster: what clients of a front are answered, also while nodes and gateways are lost."""

import json
import os
import shutil
import signal
import time
from collections.abc import Iterator
from pathlib import Path

import pytest

from cluster_work import Served, Work
from clusters import run
from rules import arn, policy
from started import ByJson, Refused, gateway_program
from waiting import pace, pass_time, until


@pytest.fixture
def served(tmp_path: Path, request) -> Iterator[Served]:
    with Served(tmp_path, size=getattr(request, "param", 3)) as one:
        yield one


@pytest.mark.parametrize("served", [1, 3], indirect=True)
def test_sqs_by_a_front(served):
    sqs = served.sqs
    fifo = served.queue("q.fifo", VisibilityTimeout="30")
    assert fifo == f"{served.front.url}/000000000000/q.fifo"
    sent = [sqs.send_message(QueueUrl=fifo, MessageBody=body, MessageGroupId="g", MessageDeduplicationId=body) for body in "abc"]
    assert served.counts(fifo) == [3, 0, 0]
    again = sqs.send_message(QueueUrl=fifo, MessageBody="a", MessageGroupId="g", MessageDeduplicationId="a")
    assert again["MessageId"] == sent[0]["MessageId"]
    got = served.receive(fifo)
    assert [message["Body"] for message in got] == ["a", "b", "c"]
    assert [message["MessageId"] for message in got] == [one["MessageId"] for one in sent]
    served.delete(fifo, got[0])
    sqs.change_message_visibility(QueueUrl=fifo, ReceiptHandle=got[1]["ReceiptHandle"], VisibilityTimeout=0)
    assert served.counts(fifo) == [1, 1, 0]
    sqs.set_queue_attributes(QueueUrl=fifo, Attributes={"VisibilityTimeout": "7"})
    sqs.tag_queue(QueueUrl=fifo, Tags={"team": "shop"})
    attributes = sqs.get_queue_attributes(QueueUrl=fifo, AttributeNames=["All"])["Attributes"]
    assert (attributes["VisibilityTimeout"], sqs.list_queue_tags(QueueUrl=fifo)["Tags"]) == ("7", {"team": "shop"})
    assert sqs.list_queues()["QueueUrls"] == [fifo]
    sqs.delete_queue(QueueUrl=fifo)
    with pytest.raises(sqs.exceptions.QueueDoesNotExist):
        sqs.get_queue_url(QueueName="q.fifo")


def test_a_standard_queue_with_a_delay_and_dead_letters(served):
    sqs = served.sqs
    dead = served.queue("dead")
    queue = served.queue("q", RedrivePolicy=policy("dead"))
    begun = time.monotonic()
    sqs.send_message(QueueUrl=queue, MessageBody="late", DelaySeconds=5)
    sqs.send_message(QueueUrl=queue, MessageBody="soon", MessageAttributes={"n": {"DataType": "Number", "StringValue": "1"}})
    assert served.counts(queue) == [1, 0, 1]
    [soon] = served.receive(queue, VisibilityTimeout=1, MessageAttributeNames=["All"])
    assert soon["Body"] == "soon" and soon["MessageAttributes"]["n"]["StringValue"] == "1"
    [late] = served.receive(queue, WaitTimeSeconds=10)
    assert late["Body"] == "late" and time.monotonic() - begun >= 5
    served.delete(queue, late)
    pass_time(1, "the message is visible again by then")
    assert served.receive(queue) == []
    [moved] = served.receive(dead, WaitTimeSeconds=5)
    assert (moved["Body"], moved["MessageId"]) == ("soon", soon["MessageId"])


def test_a_body_of_600_kilobytes(served):
    body = "".join(f"{number:07} " for number in range(75_000))
    for name in ["q", "q.fifo"]:
        queue = served.queue(name)
        fifo = {"MessageGroupId": "g", "MessageDeduplicationId": "d"} if name.endswith(".fifo") else {}
        served.sqs.send_message(QueueUrl=queue, MessageBody=body, **fifo)
        [got] = served.receive(queue, WaitTimeSeconds=2)
        assert got["Body"] == body
        served.delete(queue, got)


def test_sends_are_refused_by_what_the_smallest_server_may_use(tmp_path):
    with Served(tmp_path, size=2, words=lambda number: ["--memory", "1GiB" if number == 1 else "6MiB"]) as served:
        queue, body = served.queue("q"), "x" * 200_000
        assert fill(served, queue, body) in range(20, 32)
        with pytest.raises(served.sqs.exceptions.ClientError, match="OverLimit"):
            served.queue("another")
        # What frees memory goes on, and then there is room again.
        for message in served.receive(queue):
            served.delete(queue, message)
        assert fill(served, queue, body) > 2
        served.cluster.kill(2)
        until(served.cluster.settles([1]), 30, "it isn't detected")
        until(lambda: fill(served, queue, body, most=5) == 5, 30, "sends are refused still")


def test_sends_are_refused_where_the_disk_of_a_server_is_short_of_room(tmp_path, small_disk):
    disk = small_disk("24m")
    words = {1: ["--journal", str(tmp_path / "journals")], 2: ["--journal", str(disk), "--journal-reserve", "8MiB"]}
    with Served(tmp_path, size=2, words=words.__getitem__) as served:
        queue = served.queue("q")
        assert fill(served, queue, "x", most=5) == 5
        filler = disk / "filler"
        filler.write_bytes(bytes(18 << 20))
        until(lambda: fill(served, queue, "x", most=1) == 0, 30, "sends are taken")
        with pytest.raises(served.sqs.exceptions.ClientError, match="OverLimit"):
            served.queue("another")
        [message, *_] = served.receive(queue)
        served.delete(queue, message)

        def shown() -> dict[int, dict[str, int]]:
            """What the status says of the servers' disks, where their beats have said it."""
            status = json.loads(run("cluster", "status", *served.cluster.which("master"), "--json").stdout)
            return {server["number"]: server["disk"] for server in status["servers"] if server["disk"]}

        until(lambda: len(room := shown()) == 2 and room[2]["free"] < room[2]["reserve"], 20, "the status doesn't say so")
        assert [room["reserve"] for _, room in sorted(shown().items())] == [256 << 20, 8 << 20]
        served.cluster.node(2).logs("less than the reserve of 8MiB: sends are refused")
        filler.unlink()
        until(lambda: fill(served, queue, "x", most=1) == 1, 30, "sends are refused still")


def fill(served: Served, queue: str, body: str, most: int = 100) -> int:
    """Sends until a send is refused, and tells how many were taken."""
    for count in range(most):
        try:
            served.sqs.send_message(QueueUrl=queue, MessageBody=body)
        except served.sqs.exceptions.ClientError as error:
            assert error.response["Error"]["Code"] == "OverLimit", error
            return count
    return most


def test_the_next_heads_gateway_is_told_the_store_while_the_loss_of_the_head_is_found_out(served):
    queue = served.queue("q")
    for number in range(50):
        served.sqs.send_message(QueueUrl=queue, MessageBody=str(number))
    # However long the gateway takes here, the loss is found out behind that.
    served.cluster.stop_masters()
    served.cluster.kill(1)
    served.cluster.node(2).logs("the store is told")
    served.cluster.masters_go_on()
    until(lambda: served.cluster.gateway_acts(2), 40, "no gateway acts")
    served.cluster.node(2).logs("the gateway may ask")
    log = served.cluster.node(2).log.read_text()
    said = ["this server may soon be the head", "a gateway begins", "the store is told", "a server is gone", "the gateway may ask"]
    places = [log.index(one) for one in said]
    assert places == sorted(places) and "ahead=true" in log[places[-1]:]
    assert "this server may soon be the head" not in served.cluster.node(3).log.read_text()
    assert served.counts(queue) == [50, 0, 0]
    got = [message for _ in range(10) for message in served.receive(queue)]
    assert len(got) == 50


def test_a_gateway_that_was_started_in_vain_is_ended_and_one_that_is_not_acts(served):
    queue, node = served.queue("q"), served.cluster.node(2)
    # Nobody is given up meanwhile.
    served.cluster.stop_masters()
    for _ in range(2):
        said = node.log.read_text().count("heard again: the gateway is ended")
        served.cluster.node(1).stop()
        until(lambda: node.gateway() is not None, 30, "no gateway is started")
        served.cluster.node(1).go_on()
        until(lambda: node.log.read_text().count("heard again: the gateway is ended") > said, 30, "it isn't ended")
        until(lambda: node.gateway() is None, 30, "its process goes on")
        served.sqs.send_message(QueueUrl=queue, MessageBody="a")
    served.cluster.masters_go_on()
    served.cluster.kill(1)
    until(lambda: served.cluster.gateway_acts(2), 40, "no gateway acts")
    assert served.counts(queue) == [2, 0, 0]


def test_what_was_done_is_no_error_the_second_time(served):
    """A front that got no answer asks again, and says so."""
    url = f"http://127.0.0.1:{served.cluster.node(1).gateway_port}"
    first, again = ByJson(url), ByJson(url, **{"x-hobbychair-again": "true"})
    queue = served.queue("q")
    dead = served.queue("dead")
    served.queue("source", RedrivePolicy=policy("dead"))
    permission = {"QueueUrl": queue, "Label": "a", "AWSAccountIds": ["123456789012"], "Actions": ["SendMessage"]}
    task = {"SourceArn": arn("dead"), "DestinationArn": arn("q"), "MaxNumberOfMessagesPerSecond": 1}
    for number in range(20):
        first("SendMessage", QueueUrl=dead, MessageBody=str(number))
    first("AddPermission", **permission)
    handle = first("StartMessageMoveTask", **task)["TaskHandle"]

    def is_refused(call: ByJson, action: str, **members: object) -> None:
        with pytest.raises(Refused, match="InvalidParameterValue"):
            call(action, **members)

    is_refused(first, "AddPermission", **permission)
    is_refused(first, "StartMessageMoveTask", **task)
    again("AddPermission", **permission)
    is_refused(again, "AddPermission", **permission | {"Actions": ["ReceiveMessage"]})
    assert again("StartMessageMoveTask", **task)["TaskHandle"] == handle
    is_refused(again, "StartMessageMoveTask", **task | {"MaxNumberOfMessagesPerSecond": 2})
    for _ in range(2):
        again("RemovePermission", QueueUrl=queue, Label="a")
        assert again("CancelMessageMoveTask", TaskHandle=handle)["ApproximateNumberOfMessagesMoved"] < 20
    is_refused(first, "RemovePermission", QueueUrl=queue, Label="a")
    is_refused(first, "CancelMessageMoveTask", TaskHandle=handle)


# ---- faults


def gateway_of(served: Served, server: int) -> int:
    return until(served.cluster.node(server).gateway, 20, "there is no gateway")


@pytest.mark.parametrize("lost", [1, 2, 3], ids=["head", "middle", "tail"])
def test_a_node_is_killed(served, lost):
    work = Work(served)
    work.goes_on()
    begun = time.monotonic()
    served.cluster.kill(lost)
    rest = [server for server in (1, 2, 3) if server != lost]
    until(served.cluster.settles(rest), 30, "it isn't detected")
    until(lambda: served.cluster.gateway_acts(rest[0]), 40, "no gateway acts")
    work.goes_on()
    print(f"{work.longest_silence(begun):.2f} s without an answer")
    work.stop()


def test_the_acting_gateway_is_killed(served):
    work = Work(served)
    work.goes_on()
    for _ in range(4):
        begun = time.monotonic()
        os.kill(gateway_of(served, 1), signal.SIGKILL)
        pace(0.5)
        work.goes_on()
        print(f"{work.longest_silence(begun):.2f} s without an answer")
    work.stop()
    assert served.cluster.chain()["members"] == [1, 2, 3] and served.cluster.detected() == []


def test_the_acting_gateway_is_stopped(served):
    """Its node ends it and starts another."""
    work = Work(served)
    work.goes_on()
    stopped = gateway_of(served, 1)
    begun = time.monotonic()
    os.kill(stopped, signal.SIGSTOP)
    until(lambda: not Path(f"/proc/{stopped}").exists(), 40, "its node doesn't end it")
    until(lambda: served.cluster.node(1).gateway() not in (stopped, None), 30, "its node starts no other")
    work.goes_on()
    print(f"{work.longest_silence(begun):.2f} s without an answer")
    work.stop()
    assert served.cluster.chain()["members"] == [1, 2, 3] and served.cluster.detected() == []


def test_the_next_gateway_begins_though_another_program_stands_in_the_file(tmp_path, monkeypatch):
    """As behind an upgrade of the package, ahead of the node's next start."""
    program = tmp_path / "hobbychair"
    shutil.copy(gateway_program(), program)
    monkeypatch.setenv("HOBBYCHAIR_GATEWAY", str(program))
    with Served(tmp_path, size=1) as served:
        queue = served.queue("q")
        other = tmp_path / "other"
        other.write_text("#!/bin/sh\nexit 1\n")
        other.chmod(0o755)
        other.replace(program)
        first = gateway_of(served, 1)
        os.kill(first, signal.SIGKILL)
        # The front asks until the next one acts.
        served.sqs.send_message(QueueUrl=queue, MessageBody="a")
        assert gateway_of(served, 1) != first


def test_a_node_that_joins_serves_once_all_others_are_lost(served):
    work = Work(served)
    work.goes_on()
    served.cluster.start_node()
    until(served.cluster.settles([1, 2, 3, 4]), 40, "it doesn't become a member")
    work.goes_on()
    for server in (3, 2, 1):
        served.cluster.kill(server)
        until(lambda: server not in served.cluster.chain()["members"], 30, "it isn't detected")
    until(lambda: served.cluster.gateway_acts(4), 40, "no gateway acts")
    work.goes_on()
    work.stop()
