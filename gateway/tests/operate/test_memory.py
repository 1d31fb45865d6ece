"""What is in memory has bounds: each row of the table in docs/GATEWAY.md is tried."""

import json
import os
import select
import signal
import socket
import subprocess
from collections.abc import Callable
from typing import Any

import pytest

from meanwhile import at_once
from operated import admin_url, get, metric, polls
from rules import FIFO
from sockets import is_all_read, readable
from started import TOP, ByJson, Refused, Started, command, environment, peak_of, post, programs_of
from waiting import pass_time, until

MEBIBYTE = 1 << 20
JSON = {"Content-Type": "application/x-amz-json-1.0"}


def rows() -> list[str]:
    text = (TOP / "docs" / "GATEWAY.md").read_text()
    table = text.split("**In memory**", 1)[1].split("|---|---|---|\n", 1)[1].split("\n\n", 1)[0]
    return [line.split("|")[1].strip() for line in table.splitlines()]


@pytest.fixture
def gateway():
    with Started("--request-memory", "64MiB", "--memory", "64MiB", "--admin", "0", "--polls", "40", "--no-pauses") as started:
        yield started


def used(gateway: Started) -> float:
    return metric(get(admin_url(gateway) + "/metrics")[1], "hobbychair_memory_used_bytes")


def begin(gateway: Started, action: str, body: bytes, *more: str) -> socket.socket:
    """Sends a request and reads nothing."""
    address, port = gateway.url.removeprefix("http://").rsplit(":", 1)
    connection = socket.create_connection((address, int(port)), timeout=60)
    lines = ["POST / HTTP/1.1", "Host: localhost", f"X-Amz-Target: AmazonSQS.{action}", f"Content-Length: {len(body)}", *more]
    connection.sendall("\r\n".join(lines).encode() + b"\r\n\r\n" + body)
    return connection


def status_of(connection: socket.socket) -> int:
    with connection, connection.makefile("rb") as file:
        return int(file.readline().split()[1])


def has_room(ask: Callable[[], object]) -> bool:
    """Whether a request isn't refused for want of room."""
    try:
        ask()
    except Refused as refused:
        assert (refused.code, refused.status) == ("ServiceUnavailable", 503), refused
        return False
    return True


def test_what_polls_are_handed_counts_before_it_is_handed():
    """A hundred polls whose clients read nothing, and messages that each of them may be handed: 800 MiB of answers."""
    with Started("--request-memory", "64MiB", "--memory", "64MiB", "--polls", "200", "--no-pauses", "--admin", "0") as gateway:
        call = ByJson(gateway.url)
        call("CreateQueue", QueueName="q")
        poll = json.dumps({"QueueUrl": "q", "MaxNumberOfMessages": 10, "WaitTimeSeconds": 20, "VisibilityTimeout": 0}).encode()
        asked = [begin(gateway, "ReceiveMessage", poll) for _ in range(100)]
        polls(gateway, 100)
        for _ in range(8):
            until(lambda: has_room(lambda: call("SendMessage", QueueUrl="q", MessageBody="x" * (MEBIBYTE - 1000))), 20, "a message finds no room")
        pass_time(6, "what is handed out comes to clients that read nothing")
        assert peak_of(gateway.process.pid) < 64 + 2 * 64 + 64
        # Each of them is answered, as soon as those before it have gone or with nothing once its time is up.
        assert [status_of(connection) for connection in asked] == [200] * 100
        assert call("ReceiveMessage", QueueUrl="q")["Messages"]


def test_small_requests_have_a_bound_together_and_large_ones_keep_none_out():
    """Each of them is within the 16 KiB that large ones leave free, and there are many."""
    with Started("--request-memory", "64MiB", "--memory", "64MiB", "--no-pauses") as gateway:
        call = ByJson(gateway.url)
        call("CreateQueue", QueueName="q")

        def unfinished(length: int) -> socket.socket:
            """All of a request but its last byte, read by the gateway as far as it goes."""
            address, port = gateway.url.removeprefix("http://").rsplit(":", 1)
            connection = socket.create_connection((address, int(port)), timeout=60)
            head = f"POST / HTTP/1.1\r\nHost: localhost\r\nX-Amz-Target: AmazonSQS.ListQueues\r\nContent-Length: {length}\r\n\r\n"
            connection.sendall(head.encode() + b"{" + b" " * (length - 2))
            return connection

        port = int(gateway.url.rsplit(":", 1)[1])
        large = [*at_once([lambda: unfinished(6 * MEBIBYTE)] * 10), unfinished(3_900_000)]
        until(lambda: is_all_read(port, len(large)), 20, "the bodies don't come")
        with pytest.raises(Refused, match="ServiceUnavailable 503"):
            call("SendMessage", QueueUrl="q", MessageBody="x" * 900_000)
        call("SendMessage", QueueUrl="q", MessageBody="x" * 10_000)
        small = [connection for _ in range(20) for connection in at_once([lambda: unfinished(16_000)] * 100)]
        until(lambda: len(readable(small)) > 400, 20, "small requests have no bound")
        pass_time(1, "what is refused is answered at once")
        turned_away = readable(small)
        assert len(turned_away) < 1_600 and {status_of(connection) for connection in turned_away} == {503}
        assert peak_of(gateway.process.pid) < 64 + 2 * 80 + 64
        call("SendMessage", QueueUrl="q", MessageBody="x")
        for connection in [*large, *small]:
            connection.close()
        send = lambda: call("SendMessage", QueueUrl="q", MessageBody="x" * 900_000)
        until(lambda: has_room(send), 20, "what they kept isn't free again")


def refused(gateway: Started, action: str, **members: Any) -> tuple[str, int, bytes]:
    status, headers, answer = post(gateway.url, json.dumps(members).encode(), {"X-Amz-Target": f"AmazonSQS.{action}", **JSON})
    assert status != 200
    return headers["x-amzn-query-error"].split(";")[0], status, answer


def try_requests(gateway: Started) -> None:
    """Sends that wait for cq, whose clients wait or have gone, and answers that nobody reads."""
    call = ByJson(gateway.url)
    call("CreateQueue", QueueName="q", Attributes={"VisibilityTimeout": "0"})
    call("CreateQueue", QueueName="small.fifo", Attributes=FIFO)
    (cq,) = programs_of(gateway)
    send = json.dumps({"QueueUrl": "q", "MessageBody": "x" * MEBIBYTE}).encode()
    os.kill(cq, signal.SIGSTOP)
    try:
        first = at_once([lambda: begin(gateway, "SendMessage", send)] * 30)
        for connection in first[15:]:
            connection.close()
        later = [connection for _ in range(6) for connection in at_once([lambda: begin(gateway, "SendMessage", send)] * 50)]
    finally:
        os.kill(cq, signal.SIGCONT)
    answered = [status_of(connection) for connection in first[:15] + later]
    assert {200, 503} <= set(answered) <= {200, 403, 503} and answered.count(503) > 100
    # The memory of messages may be full now.
    call("PurgeQueue", QueueUrl="q")
    for _ in range(10):
        call("SendMessage", QueueUrl="q", MessageBody="x" * MEBIBYTE)
    unread = at_once([lambda: begin(gateway, "ReceiveMessage", b'{"QueueUrl":"q","MaxNumberOfMessages":10}')] * 100)
    # Small ones are served meanwhile.
    call("SendMessage", QueueUrl="small.fifo", MessageBody="b", MessageGroupId="g", MessageDeduplicationId="d")
    assert call("ReceiveMessage", QueueUrl="small.fifo")["Messages"]
    statuses = [status_of(connection) for connection in unread]
    assert set(statuses) == {200, 503}
    receive = lambda: call("ReceiveMessage", QueueUrl="q", MaxNumberOfMessages=10)["Messages"]
    until(lambda: has_room(receive), 20, "what they kept isn't free again")


def try_head(gateway: Started) -> None:
    connections = [begin(gateway, "ListQueues", b"{}", f"X-Long: {'x' * 40_000}") for _ in range(100)]
    assert {status_of(connection) for connection in connections} == {431}


def try_body(gateway: Started) -> None:
    statuses = at_once([lambda: status_of(begin(gateway, "ListQueues", b"x" * 6_356_993))] * 20)
    assert set(statuses) == {413}


def try_values(gateway: Started) -> None:
    for body in ("[" + "1," * 3_000_000 + "1]", "{" + '"a":[],' * 700_000 + '"b":1}'):
        whole = f'{{"QueueUrl":"q","Any":{body}}}'.encode()
        statuses = at_once([lambda: status_of(begin(gateway, "ListQueues", whole))] * 6)
        assert set(statuses) <= {400, 503} and 400 in statuses


def try_lists(gateway: Started) -> None:
    ByJson(gateway.url)("CreateQueue", QueueName="q.fifo", Attributes=FIFO)
    for member in ("MessageAttributeNames", "AttributeNames", "MessageSystemAttributeNames"):
        for names in (["All"] * 101, ["x" * 6_000_000]):
            told = refused(gateway, "ReceiveMessage", QueueUrl="q.fifo", WaitTimeSeconds=20, **{member: names})
            assert told[:2] == ("InvalidParameterValue", 400)
    assert ByJson(gateway.url)("ReceiveMessage", QueueUrl="q.fifo", MessageAttributeNames=["a" * 256 + ".*"] * 100) == {}
    assert refused(gateway, "UntagQueue", QueueUrl="q.fifo", TagKeys=["a"] * 51)[:2] == ("InvalidParameterValue", 400)


def try_message(gateway: Started) -> None:
    call = ByJson(gateway.url)
    call("CreateQueue", QueueName="q.fifo", Attributes=FIFO)
    message = {"QueueUrl": "q.fifo", "MessageBody": "b", "MessageGroupId": "g", "MessageDeduplicationId": "d"}
    trace = lambda size: {"AWSTraceHeader": {"DataType": "String", "StringValue": "x" * size}}
    for size in (MEBIBYTE, 6_000_000):
        told = refused(gateway, "SendMessage", **message, MessageSystemAttributes=trace(size))
        assert told[:2] == ("InvalidParameterValue", 400)
    call("SendMessage", **message, MessageSystemAttributes=trace(MEBIBYTE - 7))


def try_queue(gateway: Started) -> None:
    call = ByJson(gateway.url)
    call("CreateQueue", QueueName="q.fifo", Attributes=FIFO)
    blanks = " " * 9_000
    for name, value in [("Policy", f'{{"Statement":{{}}{blanks}}}'), ("KmsMasterKeyId", "k" * 2_049),
                        ("RedriveAllowPolicy", f'{{"redrivePermission":"allowAll"{blanks}}}'),
                        ("RedrivePolicy", f'{{"deadLetterTargetArn":"arn:aws:sqs:r:000000000000:d.fifo"{blanks}}}')]:
        told = refused(gateway, "SetQueueAttributes", QueueUrl="q.fifo", Attributes={name: value})
        assert told[:2] == ("InvalidAttributeValue", 400), name
    accounts = [f"{number:012}" for number in range(90)]
    codes = {refused(gateway, "AddPermission", QueueUrl="q.fifo", Label="x" * 80, AWSAccountIds=accounts * 2, Actions=["*"])[0]}
    for label in range(4):
        try:
            call("AddPermission", QueueUrl="q.fifo", Label=f"l{label}", AWSAccountIds=accounts, Actions=["*"])
        except Refused as refusal:
            codes.add(refusal.code)
    assert codes == {"InvalidParameterValue", "InvalidAttributeValue"}
    assert len(json.dumps(call("GetQueueAttributes", QueueUrl="q.fifo", AttributeNames=["All"]))) < 20_000
    assert refused(gateway, "TagQueue", QueueUrl="q.fifo", Tags={str(key): "v" for key in range(51)})[1] == 400


def try_tables(gateway: Started) -> None:
    call = ByJson(gateway.url)
    call("CreateQueue", QueueName="q.fifo", Attributes=FIFO)
    # Attempts: the same message again and again, and others that are deleted.
    body = {"QueueUrl": "q.fifo", "MessageBody": "x" * 200_000, "MessageGroupId": "g"}
    call("SendMessage", **body, MessageDeduplicationId="first")
    before = used(gateway)
    for attempt in range(400):
        receive = {"QueueUrl": "q.fifo", "VisibilityTimeout": 0, "ReceiveRequestAttemptId": f"again-{attempt}"}
        assert call("ReceiveMessage", **receive)["Messages"]
    assert used(gateway) - before < 500_000
    for attempt in range(400):
        call("SendMessage", **body, MessageDeduplicationId=f"d{attempt}")
        (message,) = call("ReceiveMessage", QueueUrl="q.fifo", ReceiveRequestAttemptId=f"a{attempt}")["Messages"]
        call("DeleteMessage", QueueUrl="q.fifo", ReceiptHandle=message["ReceiptHandle"])
    assert used(gateway) - before < 3_000_000, "400 ids, and no body"
    # Queues with their tags.
    tags = {f"{key:02}" + "k" * 126: "ü" * 256 for key in range(49)}
    made = 0
    with pytest.raises(Refused, match="OverLimit 403"):
        for made in range(5_000):
            call("CreateQueue", QueueName=f"tagged-{made}", tags=tags)
    # They count in the tables and in the book.
    assert 700 < made < 1_300
    with pytest.raises(Refused, match="OverLimit 403"):
        for place in range(made):
            call("TagQueue", QueueUrl=f"tagged-{place}", Tags={"new": "v" * 256})


def try_refusals(gateway: Started) -> None:
    ByJson(gateway.url)("CreateQueue", QueueName="q.fifo", Attributes=FIFO)
    for action, members in [("DeleteMessage", {"QueueUrl": "x" * 3_000_000, "ReceiptHandle": "h"}),
                            ("AddPermission", {"QueueUrl": "q.fifo", "Label": "x" * 3_000_000}),
                            ("SetQueueAttributes", {"QueueUrl": "q.fifo", "Attributes": {"x" * 3_000_000: ""}})]:
        assert len(refused(gateway, action, **members)[2]) < 8_192


def try_repeats(gateway: Started) -> None:
    call = ByJson(gateway.url)
    call("CreateQueue", QueueName="q", Attributes={"VisibilityTimeout": "600"})
    body = b'{"QueueUrl":"q"}'
    for place in range(100):
        call("SendMessage", QueueUrl="q", MessageBody="x" * MEBIBYTE)
        connection = begin(gateway, "ReceiveMessage", body, f"amz-sdk-invocation-id: {'x' * 30_000}{place}")
        assert status_of(connection) == 200
        if place % 20 == 19:
            call("PurgeQueue", QueueUrl="q")


def try_connections(gateway: Started) -> None:
    with Started("--connections", "20") as few:
        head = b"POST / HTTP/1.1\r\nHost: localhost\r\nX: " + b"x" * 30_000
        address, port = few.url.removeprefix("http://").rsplit(":", 1)
        open_ones = [socket.create_connection((address, int(port)), timeout=60) for _ in range(20)]
        for connection in open_ones:
            connection.sendall(head)
        above = begin(few, "ListQueues", b"{}")
        assert status_of(above) == 503
        for connection in open_ones:
            connection.close()


def try_polls(gateway: Started) -> None:
    ByJson(gateway.url)("CreateQueue", QueueName="q.fifo", Attributes=FIFO)
    names = json.dumps(["n" * 256] * 100)
    body = f'{{"QueueUrl":"q.fifo","WaitTimeSeconds":20,"MessageAttributeNames":{names}}}'.encode()
    asked = at_once([lambda: begin(gateway, "ReceiveMessage", body, f"amz-sdk-invocation-id: {'x' * 30_000}")] * 100)
    until(lambda: len(readable(asked)) >= 60, 15, "more of them wait than may")
    polls(gateway, 40)
    # Its end is that of all that wait.
    ByJson(gateway.url)("DeleteQueue", QueueUrl="q.fifo")
    statuses = [status_of(one) for one in asked]
    assert statuses.count(400) == 40 and statuses.count(503) == 60


def try_operators(gateway: Started) -> None:
    address, port = admin_url(gateway).removeprefix("http://").rsplit(":", 1)
    head = b"GET /health HTTP/1.1\r\nHost: localhost\r\nX: " + b"x" * 30_000
    idle = [socket.create_connection((address, int(port)), timeout=60) for _ in range(200)]
    for connection in idle:
        connection.sendall(head)
    waiting = socket.create_connection((address, int(port)), timeout=60)
    waiting.sendall(b"GET /health HTTP/1.1\r\nHost: localhost\r\n\r\n")
    assert select.select([waiting], [], [], 0.3)[0] == []
    for connection in idle:
        connection.close()
    assert status_of(waiting) == 200


def try_peeks(gateway: Started) -> None:
    """Answers of operators that nobody reads."""
    with Started("--memory", "64MiB", "--admin", "0", "--peek") as shown:
        call = ByJson(shown.url)
        call("CreateQueue", QueueName="q")
        for _ in range(3):
            call("SendMessage", QueueUrl="q", MessageBody="<" * MEBIBYTE)
        address, port = admin_url(shown).removeprefix("http://").rsplit(":", 1)

        def look() -> socket.socket:
            connection = socket.create_connection((address, int(port)), timeout=60)
            connection.sendall(b"GET /_aws/sqs/messages?QueueUrl=q HTTP/1.1\r\nHost: localhost\r\n\r\n")
            return connection

        unread = at_once([look] * 32)
        statuses = [status_of(connection) for connection in unread]
        assert set(statuses) == {200, 503}
        until(lambda: status_of(look()) == 200, 20, "what they kept isn't free again")
        assert peak_of(shown.process.pid) < 64 + 2 * 64 + 64


def try_log(gateway: Started) -> None:
    words = command("serve", "--port", "0", "--admin", "0", "--log-level", "debug")
    unread = subprocess.Popen(words, env=environment(), stdout=subprocess.PIPE, stderr=subprocess.PIPE, text=True)
    try:
        admin = unread.stdout.readline().split()[-1]
        call = ByJson(unread.stdout.readline().split()[-1])
        for _ in range(3_000):
            with pytest.raises(Refused):
                call("PurgeQueue", QueueUrl="none")
        assert metric(get(admin + "/metrics")[1], "hobbychair_log_lines_lost_total") > 500
    finally:
        unread.kill()
        unread.wait()


TRIES = [try_requests, try_head, try_body, try_values, try_lists, try_message, try_queue, try_tables, try_refusals,
         try_repeats, try_connections, try_polls, try_operators, try_peeks, try_log]


def test_each_row_has_its_try():
    assert len(rows()) == len(TRIES)
    assert all(any(word in row for word in words.split("_")[1:]) for row, words in zip(rows(), (
        "_all requests", "_head", "_body", "_values", "_list", "_message with", "_Policy", "_attempts", "_refusal", "_repeats",
        "_connections", "_long polls", "_operators", "_show messages", "_log")))


@pytest.mark.parametrize("attack", TRIES, ids=lambda one: one.__name__.removeprefix("try_"))
def test_what_is_in_memory_has_its_bound(gateway, attack):
    attack(gateway)
    # Twice the bound of requests, since what is read grows by copies, and the bound of messages, beside the program.
    assert peak_of(gateway.process.pid) < 64 + 2 * 64 + 64
    assert ByJson(gateway.url)("ListQueues") is not None
