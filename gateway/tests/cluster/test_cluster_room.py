"""A front whose memory for requests is used up: what it refuses has hidden no message."""

import contextlib
import json
import os
import select
import signal
import socket
from collections.abc import Iterator
from pathlib import Path
from urllib.parse import urlsplit

import pytest

from cluster_work import Served
from started import ByJson, Refused, peak_of
from waiting import pass_time, until

LARGE = "x" * 1_000_000


@pytest.fixture
def served(tmp_path: Path) -> Iterator[Served]:
    with Served(tmp_path, fronts=0) as one:
        yield one


def fill(call: ByJson, queue: str, count: int = 10) -> None:
    call("CreateQueue", QueueName=queue, Attributes={"VisibilityTimeout": "600"})
    for _ in range(count):
        call("SendMessage", QueueUrl=queue, MessageBody=LARGE)


def ask(url: str, queue: str) -> socket.socket:
    """A client that receives ten messages and reads nothing."""
    place = urlsplit(url)
    asking = socket.create_connection((place.hostname, place.port))
    asking.setsockopt(socket.SOL_SOCKET, socket.SO_RCVBUF, 4096)
    body = json.dumps({"QueueUrl": queue, "MaxNumberOfMessages": 10}).encode()
    head = (f"POST / HTTP/1.1\r\nhost: localhost\r\nx-amz-target: AmazonSQS.ReceiveMessage\r\n"
            f"content-type: application/x-amz-json-1.0\r\ncontent-length: {len(body)}\r\n\r\n")
    asking.sendall(head.encode() + body)
    return asking


def hidden(call: ByJson, queue: str) -> int:
    names = ["ApproximateNumberOfMessagesNotVisible"]
    return int(call("GetQueueAttributes", QueueUrl=queue, AttributeNames=names)["Attributes"][names[0]])


def hold(url: str, call: ByJson, queue: str) -> socket.socket:
    """A client that was handed all of a queue, and reads nothing. It asks again where it is refused: the answer before may keep
    more room until it has come whole."""
    asking = [ask(url, queue)]

    def is_handed_out() -> bool:
        if is_refused(asking[-1]):
            asking.pop().close()
            asking.append(ask(url, queue))
        return hidden(call, queue) == 10

    until(is_handed_out, 20, f"nothing of {queue} is handed out")
    return asking[-1]


def is_refused(asking: socket.socket) -> bool:
    came = select.select([asking], [], [], 0)[0]
    return bool(came) and asking.recv(12, socket.MSG_PEEK) == b"HTTP/1.1 503"


def is_received(call: ByJson, queue: str) -> bool:
    try:
        return len(call("ReceiveMessage", QueueUrl=queue, MaxNumberOfMessages=10)["Messages"]) == 10
    except Refused:
        return False


def test_a_receive_that_a_front_refuses_has_hidden_nothing(served):
    served.add_front("--request-memory", "64MiB")
    url = served.front.url
    call = ByJson(url)
    # Each answer has 10 MB, and room for 20 MB is kept before it is known: those behind five of them find none.
    held, others = [f"held{place}" for place in range(5)], [f"other{place}" for place in range(3)]
    for queue in held + others:
        fill(call, queue)
    slow = []
    for queue in held:
        slow.append(hold(url, call, queue))
        pass_time(1, "the answer comes to the front, which tells nobody")
    for queue in others:
        with pytest.raises(Refused, match="ServiceUnavailable 503"):
            call("ReceiveMessage", QueueUrl=queue, MaxNumberOfMessages=10)
        assert hidden(call, queue) == 0
    # Small ones are served meanwhile, and large ones once there is room again.
    call("CreateQueue", QueueName="small", Attributes={})
    call("SendMessage", QueueUrl="small", MessageBody="s")
    assert len(call("ReceiveMessage", QueueUrl="small", MaxNumberOfMessages=10)["Messages"]) == 1
    for client in slow:
        client.close()
    for queue in others:
        until(lambda: is_received(call, queue), 20, f"nothing of {queue} is handed out")


def test_one_large_message_that_is_gone_costs_others_nothing(served):
    """What a receive may be handed is what is there."""
    served.add_front("--request-memory", "64MiB")
    call = ByJson(served.front.url)
    call("CreateQueue", QueueName="q", Attributes={"VisibilityTimeout": "0"})
    call("SendMessage", QueueUrl="q", MessageBody="small")
    call("SendMessage", QueueUrl="q", MessageBody=LARGE)
    for _ in range(100):
        for message in call("ReceiveMessage", QueueUrl="q", MaxNumberOfMessages=10).get("Messages", []):
            if message["Body"] == LARGE:
                call("DeleteMessage", QueueUrl="q", ReceiptHandle=message["ReceiptHandle"])
    polls = [ask(served.front.url, "q") for _ in range(60)]
    assert [message["Body"] for message in call("ReceiveMessage", QueueUrl="q", MaxNumberOfMessages=10)["Messages"]] == ["small"]
    for client in polls:
        client.close()


def send(url: str, body: bytes) -> socket.socket:
    place = urlsplit(url)
    sending = socket.create_connection((place.hostname, place.port), timeout=60)
    head = (f"POST / HTTP/1.1\r\nhost: localhost\r\nx-amz-target: AmazonSQS.SendMessage\r\n"
            f"content-type: application/x-amz-json-1.0\r\ncontent-length: {len(body)}\r\n\r\n")
    sending.sendall(head.encode() + body)
    return sending


def status_of(sending: socket.socket) -> int:
    with sending, sending.makefile("rb") as file:
        return int(file.readline().split()[1])


def test_what_a_front_keeps_of_requests_that_wait_is_what_counts(served):
    """The gateway stands still, and bodies of some 54 MB wait for it, tried again and again."""
    served.add_front("--request-memory", "64MiB")
    call = ByJson(served.front.url)
    call("CreateQueue", QueueName="q", Attributes={})
    before = peak_of(served.front.process.pid)
    gateway = served.cluster.nodes[0].gateway()
    os.kill(gateway, signal.SIGSTOP)
    try:
        body = json.dumps({"QueueUrl": "q", "MessageBody": "x" * 60_000}).encode()
        sending = [send(served.front.url, body) for _ in range(900)]
        pass_time(3, "the front takes all that it has room for")
    finally:
        # Its node may have started another one meanwhile.
        with contextlib.suppress(ProcessLookupError):
            os.kill(gateway, signal.SIGCONT)
    statuses = [status_of(one) for one in sending]
    assert set(statuses) <= {200, 503} and statuses.count(200) > 700
    # Each body is there once, in buffers that may be twice as large, and each connection has its own: less than three times the bodies.
    assert peak_of(served.front.process.pid) - before < 3 * 54, (before, peak_of(served.front.process.pid))
