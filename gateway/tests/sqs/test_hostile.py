"""What comes in by raw sockets: too long, too slow, broken off, too much at once."""

import json
import random
import re
import resource
import select
import socket
import struct
import time
from collections.abc import Iterator
from contextlib import suppress
from functools import partial
from urllib.parse import urlsplit

import pytest

from meanwhile import at_once
from operated import admin_url, connections, figure, polls
from sockets import is_all_read
from started import ByJson, Started
from waiting import pass_time, until

JSON = b"X-Amz-Target: AmazonSQS.%s\r\nContent-Type: application/x-amz-json-1.0\r\n"
LONGEST_BODY = 6 * 1_048_576 + 65_536


@pytest.fixture(scope="module")
def gateway():
    with Started("--admin", "0") as started:
        ByJson(started.url)("CreateQueue", QueueName="q.fifo", Attributes={"FifoQueue": "true"})
        yield started


def connect(gateway: Started) -> socket.socket:
    address = urlsplit(gateway.url)
    return socket.create_connection((address.hostname, address.port), timeout=60)


def head(action: bytes, length: int | None, more: bytes = b"") -> bytes:
    sized = b"Transfer-Encoding: chunked\r\n" if length is None else b"Content-Length: %d\r\n" % length
    return b"POST / HTTP/1.1\r\nHost: localhost\r\n" + JSON % action + sized + more + b"\r\n"


def read_all(connection: socket.socket) -> bytes:
    got = b""
    while piece := connection.recv(1 << 16):
        got += piece
    return got


def read_response(connection: socket.socket) -> tuple[int, dict[str, str], bytes]:
    file = connection.makefile("rb")
    status = int(file.readline().split()[1])
    headers = {}
    while (line := file.readline().strip()):
        name, value = line.decode().split(":", 1)
        headers[name.lower()] = value.strip()
    return status, headers, file.read(int(headers.get("content-length", "0")))


def is_refused_in_json(response: tuple[int, dict[str, str], bytes], status: int, code: str) -> None:
    got, headers, body = response
    assert got == status
    assert headers["content-type"] == "application/x-amz-json-1.0" and headers["x-amzn-requestid"]
    assert headers["x-amzn-query-error"].split(";")[0] == code
    assert json.loads(body)["message"]


def serves(gateway: Started) -> None:
    call = ByJson(gateway.url)
    assert call("ListQueues")["QueueUrls"]


def test_a_head_above_32_kb_is_refused(gateway):
    connection = connect(gateway)
    connection.sendall(head(b"ListQueues", 2, b"X-Long: " + b"x" * 40_000 + b"\r\n") + b"{}")
    assert read_response(connection)[0] == 431
    connection = connect(gateway)
    connection.sendall(head(b"ListQueues", 2, b"X-Long: " + b"x" * 20_000 + b"\r\n") + b"{}")
    assert read_response(connection)[0] == 200


def test_a_body_that_is_too_long_gets_413_in_the_form_of_its_protocol(gateway):
    connection = connect(gateway)
    connection.sendall(head(b"SendMessage", LONGEST_BODY + 1))
    connection.sendall(b"x" * (LONGEST_BODY + 1))
    is_refused_in_json(read_response(connection), 413, "RequestEntityTooLarge")
    connection = connect(gateway)
    connection.sendall(b"POST / HTTP/1.1\r\nHost: localhost\r\nTransfer-Encoding: chunked\r\n\r\n")
    for _ in range(100):
        connection.sendall(b"10000\r\n" + b"x" * 65_536 + b"\r\n")
    connection.sendall(b"0\r\n\r\n")
    status, headers, body = read_response(connection)
    assert status == 413 and headers["content-type"].startswith("text/xml")
    assert b"<Code>RequestEntityTooLarge</Code>" in body


@pytest.mark.parametrize("announced", [True, False])
def test_a_body_that_is_far_too_long_gets_413_and_no_reset(gateway, announced):
    """Of an announced length the answer is there before the body is."""
    for _ in range(4):
        connection = connect(gateway)
        connection.sendall(head(b"SendMessage", 48 << 20 if announced else None))
        if announced:
            is_refused_in_json(read_response(connection), 413, "RequestEntityTooLarge")
        piece = b"x" * (1 << 20) if announced else b"100000\r\n" + b"x" * (1 << 20) + b"\r\n"
        for _ in range(40):
            connection.sendall(piece)
        if not announced:
            is_refused_in_json(read_response(connection), 413, "RequestEntityTooLarge")
        connection.close()
    serves(gateway)


@pytest.mark.parametrize("framing", [b"Content-Length: 2\r\nTransfer-Encoding: chunked\r\n",
                                     b"Transfer-Encoding: chunked\r\nContent-Length: 2\r\n"])
def test_a_length_beside_chunks_closes_the_connection(gateway, framing):
    """RFC 9112, 6.1."""
    request = b"POST / HTTP/1.1\r\nHost: localhost\r\n" + JSON % b"ListQueues" + framing + b"\r\n2\r\n{}\r\n0\r\n\r\n"
    connection = connect(gateway)
    connection.sendall(request + request)
    got = read_all(connection)
    assert got.count(b"HTTP/1.1 200 OK") == 1 and b"connection: close" in got
    # By chunks alone it stays.
    connection = connect(gateway)
    alone = request.replace(b"Content-Length: 2\r\n", b"")
    connection.sendall(alone)
    assert read_response(connection)[0] == 200
    connection.sendall(alone)
    assert read_response(connection)[0] == 200


@pytest.mark.parametrize("header, status", [
    (b"Transfer-Encoding: gzip, chunked", 501), (b"Transfer-Encoding: gzip\r\nTransfer-Encoding: chunked", 501),
    (b"Transfer-Encoding: Chunked", 200), (b"Transfer-Encoding: chunked\r\nExpect: 200-ok", 417),
    (b"Transfer-Encoding: chunked\r\nExpect: 100-Continue", 200)])
def test_codings_and_expectations_that_nobody_knows_are_refused(gateway, header, status):
    """RFC 9112, 6.1, and RFC 9110, 10.1.1."""
    connection = connect(gateway)
    begin = b"POST / HTTP/1.1\r\nHost: localhost\r\nConnection: close\r\n" + JSON % b"ListQueues"
    connection.sendall(begin + header + b"\r\n\r\n2\r\n{}\r\n0\r\n\r\n")
    statuses = re.findall(rb"HTTP/1.1 (\d+)", read_all(connection))
    assert int(statuses[-1]) == status and statuses[:-1] in ([], [b"100"])
    serves(gateway)


@pytest.mark.parametrize("later", [0, 0.3, 2.5])
@pytest.mark.parametrize("behind", [b"x", b"GET / HTTP/1.1\r\nHost: localhost\r\n\r\n"])
def test_a_client_that_sent_more_behind_its_poll_and_goes_takes_no_message(gateway, behind, later):
    call = ByJson(gateway.url)
    content = b'{"QueueUrl":"q.fifo","WaitTimeSeconds":20}'
    polls(gateway, 0)
    connection = connect(gateway)
    connection.sendall(head(b"ReceiveMessage", len(content)) + content)
    polls(gateway, 1)
    connection.sendall(behind)
    pass_time(0.2, "what is behind has come, and nobody says so")
    connection.close()
    pass_time(later, "the client has gone for so long")
    dedup = f"behind-{len(behind)}-{later}"
    call("SendMessage", QueueUrl="q.fifo", MessageBody="b", MessageGroupId="behind", MessageDeduplicationId=dedup)
    pass_time(0.2, "a poll that waits still would take it")
    (message,) = call("ReceiveMessage", QueueUrl="q.fifo")["Messages"]
    call("DeleteMessage", QueueUrl="q.fifo", ReceiptHandle=message["ReceiptHandle"])


def test_the_longest_message_gets_in_however_its_json_is_written(gateway):
    body = "<" * 1_048_576
    escaped = json.dumps({"QueueUrl": "q.fifo", "MessageBody": "@", "MessageGroupId": "long", "MessageDeduplicationId": "long"})
    content = escaped.replace("@", "\\u003c" * 1_048_576).encode()
    connection = connect(gateway)
    connection.sendall(head(b"SendMessage", len(content)) + content)
    assert read_response(connection)[0] == 200
    (message,) = ByJson(gateway.url)("ReceiveMessage", QueueUrl="q.fifo")["Messages"]
    assert message["Body"] == body
    ByJson(gateway.url)("DeleteMessage", QueueUrl="q.fifo", ReceiptHandle=message["ReceiptHandle"])


@pytest.mark.parametrize("sent", [
    b"GET",
    b"\x16\x03\x01\x02\x00\x01\x00\x01\xfc\x03\x03",
    b"POST / HTTP/1.1\r\nHost: localhost\r\nContent-Length: 1\r\nContent-Length: 2\r\n\r\nab",
    b"POST / HTTP/1.1\r\nHost: localhost\r\nContent-Length: -1\r\n\r\n",
    b"POST / HTTP/1.1\r\nHost: localhost\r\nContent-Length: 99999999999999999999999\r\n\r\n",
    b"POST / HTTP/1.1\r\nHost: localhost\r\nTransfer-Encoding: chunked\r\n\r\nzz\r\nab\r\n0\r\n\r\n",
    b"POST / HTTP/1.1\r\nHost: localhost\r\nTransfer-Encoding: chunked\r\n\r\nffffffffffffffffff\r\n",
    b"POST / HTTP/1.1\r\nHost: localhost\r\nTransfer-Encoding: chunked\r\n\r\n2\r\nabX",
    b"POST / HTTP/9.9\r\n\r\n",
    b"POST /\x00 HTTP/1.1\r\n\r\n",
    b"\r\n" * 1000,
    b"PRI * HTTP/2.0\r\n\r\nSM\r\n\r\n",
])
def test_what_is_no_request_ends_its_connection_alone(gateway, sent):
    connection = connect(gateway)
    connection.sendall(sent)
    connection.shutdown(socket.SHUT_WR)
    got = read_all(connection)
    assert got == b"" or re.match(rb"HTTP/1\.[01] 4\d\d ", got)
    serves(gateway)


@pytest.mark.parametrize("length", [10, None])
def test_a_body_that_breaks_off_is_no_send(gateway, length):
    whole = b'{"QueueUrl":"q.fifo","MessageBody":"b","MessageGroupId":"broken","MessageDeduplicationId":"broken"}'
    for cut in (0, 5, len(whole) - 1):
        connection = connect(gateway)
        pieces = whole[:cut] if length else b"%x\r\n%s" % (len(whole), whole[:cut])
        connection.sendall(head(b"SendMessage", len(whole) if length else None) + pieces)
        # a reset and not an end
        connection.setsockopt(socket.SOL_SOCKET, socket.SO_LINGER, struct.pack("ii", 1, 0))
        connection.close()
    connections(gateway, 0)
    assert ByJson(gateway.url)("ReceiveMessage", QueueUrl="q.fifo") == {}
    serves(gateway)


def test_a_body_that_lies_about_its_length_is_read_to_its_length(gateway):
    connection = connect(gateway)
    connection.sendall(head(b"ListQueues", 2) + b"{}" + b"and more")
    assert read_response(connection)[0] == 200
    serves(gateway)


def test_requests_on_one_connection_are_answered_in_order(gateway):
    connection = connect(gateway)
    connection.sendall((head(b"ListQueues", 2) + b"{}") * 20 + head(b"Nothing", 2, b"Connection: close\r\n") + b"{}")
    got = read_all(connection)
    assert got.count(b"HTTP/1.1 200 OK") == 20 and got.count(b"HTTP/1.1 400 ") == 1
    assert got.rindex(b"HTTP/1.1 200 OK") < got.index(b"HTTP/1.1 400 ")


def test_expect_100_continue(gateway):
    connection = connect(gateway)
    connection.sendall(head(b"ListQueues", 2, b"Expect: 100-continue\r\n"))
    file = connection.makefile("rb")
    assert file.readline().startswith(b"HTTP/1.1 100")
    connection.sendall(b"{}")
    assert file.readline() == b"\r\n" and file.readline().startswith(b"HTTP/1.1 200")


def test_random_bytes_end_nothing(gateway):
    seed = 20261126
    numbers = random.Random(seed)
    good = head(b"ListQueues", 2) + b"{}"
    for _ in range(300):
        spoilt = bytearray(good)
        for _ in range(numbers.randrange(1, 6)):
            place = numbers.randrange(len(spoilt))
            if numbers.random() < 0.3:
                del spoilt[place:place + numbers.randrange(1, 9)]
            else:
                spoilt[place] = numbers.randrange(256)
            if not spoilt:
                break
        connection = connect(gateway)
        connection.sendall(spoilt)
        connection.shutdown(socket.SHUT_WR)
        got = read_all(connection)
        assert got == b"" or got.startswith(b"HTTP/1."), (seed, bytes(spoilt))
    serves(gateway)


def test_connections_above_the_bound_are_told_503_and_others_go_on():
    with Started("--connections", "8", "--polls", "4", "--admin", "0") as gateway:
        call = ByJson(gateway.url)
        call("CreateQueue", QueueName="q.fifo", Attributes={"FifoQueue": "true"})
        # The connection of that request has its place for a moment.
        connections(gateway, 0)
        kept = [connect(gateway) for _ in range(8)]
        for connection in kept:
            connection.sendall(head(b"ListQueues", 2) + b"{}")
            assert read_response(connection)[0] == 200
        for protocol in (JSON % b"ListQueues", b""):
            above = connect(gateway)
            above.sendall(b"POST / HTTP/1.1\r\nHost: localhost\r\n" + protocol + b"Content-Length: 2\r\n\r\n{}")
            response = read_response(above)
            assert response[1]["connection"] == "close"
            if protocol:
                is_refused_in_json(response, 503, "ServiceUnavailable")
            else:
                assert response[0] == 503 and b"<Code>ServiceUnavailable</Code>" in response[2]
        kept[0].sendall(head(b"ListQueues", 2) + b"{}")
        assert read_response(kept[0])[0] == 200
        for connection in kept:
            connection.close()
        connections(gateway, 0)
        serves(gateway)


def test_a_send_gets_in_while_all_polls_are_taken():
    with Started("--connections", "16", "--polls", "3", "--admin", "0") as gateway:
        call = ByJson(gateway.url)
        call("CreateQueue", QueueName="q.fifo", Attributes={"FifoQueue": "true"})
        content = b'{"QueueUrl":"q.fifo","WaitTimeSeconds":20}'
        waiting = [connect(gateway) for _ in range(3)]
        for poll in waiting:
            poll.sendall(head(b"ReceiveMessage", len(content)) + content)
        polls(gateway, 3)
        above = connect(gateway)
        above.sendall(head(b"ReceiveMessage", len(content)) + content)
        is_refused_in_json(read_response(above), 503, "ServiceUnavailable")
        assert call("ReceiveMessage", QueueUrl="q.fifo") == {}
        call("SendMessage", QueueUrl="q.fifo", MessageBody="b", MessageGroupId="g", MessageDeduplicationId="d")
        (woken,) = select.select(waiting, [], [], 20)[0]
        status, _, body = read_response(woken)
        assert status == 200 and json.loads(body)["Messages"][0]["Body"] == "b"


def test_a_slow_request_is_cut_off_and_an_idle_connection_stays():
    with Started("--admin", "0") as gateway:
        idle = connect(gateway)
        idle.sendall(head(b"ListQueues", 2) + b"{}")
        assert read_response(idle)[0] == 200
        slow = {"head": (b"GET / HTTP/1.1\r\n", b"X-A: b\r\n"), "length": (head(b"ListQueues", 200), b"x"),
                "chunks": (head(b"ListQueues", None), b"1\r\nx\r\n")}
        whole = head(b"ListQueues", 2) + b"{}"
        # Half a request in one write with the one before, and line ends, which are no request.
        behind, blank = connect(gateway), connect(gateway)
        behind.sendall(whole + b"POST / HT")
        blank.sendall(whole + b"\r\n")
        assert read_response(behind)[0] == read_response(blank)[0] == 200
        begun_behind = time.monotonic()
        admin = urlsplit(admin_url(gateway))
        operator = socket.create_connection((admin.hostname, admin.port), timeout=60)
        operator.sendall(b"GET /health HTTP/1.1\r\nHost: localhost\r\n\r\n")
        assert read_response(operator)[0] == 200
        ended: dict[str, tuple[float, bytes]] = {}

        def send_slowly(name: str) -> None:
            first, piece = slow[name]
            connection = connect(gateway)
            begun = time.monotonic()
            connection.sendall(first)
            # A piece may come to a connection that has just ended.
            with suppress(BrokenPipeError, ConnectionResetError):
                while not select.select([connection], [], [], 1)[0] and time.monotonic() - begun < 40:
                    connection.sendall(piece)
            connection.settimeout(5)
            got = b""
            with suppress(ConnectionResetError):
                while come := connection.recv(1 << 16):
                    got += come
            ended[name] = (time.monotonic() - begun, got)

        at_once([partial(send_slowly, name) for name in slow])
        assert sorted(ended) == sorted(slow)
        for name, (seconds, got) in ended.items():
            assert 28 < seconds < 40, (name, seconds)
            assert got == b"" if name == "head" else got.startswith(b"HTTP/1.1 408 "), (name, got)
        assert 28 < time.monotonic() - begun_behind < 45
        assert select.select([behind], [], [], 2)[0] and read_all(behind) == b""
        operator.sendall(b"GET /health HTTP/1.1\r\nHost: localhost\r\n\r\n")
        for connection in (idle, blank):
            connection.sendall(whole)
        assert read_response(idle)[0] == read_response(blank)[0] == read_response(operator)[0] == 200


def test_a_thousand_connections_at_once():
    most = resource.getrlimit(resource.RLIMIT_NOFILE)
    if most[0] < 2048:
        resource.setrlimit(resource.RLIMIT_NOFILE, (min(4096, most[1]), most[1]))
    with Started() as gateway:
        connections = [connect(gateway) for _ in range(1000)]
        for connection in connections:
            connection.sendall(head(b"ListQueues", 2) + b"{}")
        assert all(read_response(connection)[0] == 200 for connection in connections)


def test_polls_whose_clients_have_gone_make_room_at_once():
    with Started("--polls", "3", "--admin", "0") as gateway:
        ByJson(gateway.url)("CreateQueue", QueueName="q.fifo", Attributes={"FifoQueue": "true"})
        content = b'{"QueueUrl":"q.fifo","WaitTimeSeconds":20}'
        for kind in (b"", b"amz-sdk-invocation-id: %d\r\n"):
            waiting = [connect(gateway) for _ in range(3)]
            for place, poll in enumerate(waiting):
                poll.sendall(head(b"ReceiveMessage", len(content), kind and kind % place) + content)
            polls(gateway, 3)
            for poll in waiting:
                poll.close()
            # Long before their time is up.
            until(lambda: figure(gateway, "hobbychair_long_polls") == 0, 10, "they make no room")
            short = b'{"QueueUrl":"q.fifo","WaitTimeSeconds":1}'
            again = connect(gateway)
            again.sendall(head(b"ReceiveMessage", len(short)) + short)
            assert read_response(again)[0] == 200


def test_large_bodies_that_never_end_keep_no_ordinary_request_out():
    with Started() as gateway:
        call = ByJson(gateway.url)
        call("CreateQueue", QueueName="q.fifo", Attributes={"FifoQueue": "true"})
        unended = [connect(gateway) for _ in range(42)]
        for connection in unended:
            connection.sendall(head(b"SendMessage", LONGEST_BODY) + b"x" * (LONGEST_BODY - 1))
        until(lambda: is_all_read(int(gateway.url.rsplit(":", 1)[1]), 42), 20, "the bodies don't come")
        call("SendMessage", QueueUrl="q.fifo", MessageBody="b" * 10_000, MessageGroupId="g", MessageDeduplicationId="d")
        above = connect(gateway)
        above.sendall(head(b"SendMessage", LONGEST_BODY) + b"x" * LONGEST_BODY)
        is_refused_in_json(read_response(above), 503, "ServiceUnavailable")
        for connection in unended:
            connection.close()


def hostile_requests(random: random.Random) -> Iterator[bytes]:
    """Requests that are broken in one way each."""
    good = b'{"QueueUrl":"q.fifo","MessageBody":"b","MessageGroupId":"g","MessageDeduplicationId":"d"}'

    def request(body: bytes, length: int | None = None, more: bytes = b"") -> bytes:
        count = len(body) if length is None else length
        return (b"POST / HTTP/1.1\r\nHost: h\r\nX-Amz-Target: AmazonSQS.SendMessage\r\n" + more
                + f"Content-Length: {count}\r\n\r\n".encode() + body)

    for _ in range(40):
        yield random.randbytes(random.randrange(1, 4000))
        yield request(good, length=10**6)
        yield (b"POST / HTTP/1.1\r\nHost: h\r\nTransfer-Encoding: chunked\r\nX-Amz-Target: AmazonSQS.SendMessage\r\n\r\nzz\r\n"
               + good)
        yield request(good, more=b"X: " + b"a" * random.randrange(1, 600_000) + b"\r\n")
        spoilt = bytearray(good)
        for _ in range(random.randrange(1, 6)):
            spoilt[random.randrange(len(spoilt))] = random.randrange(256)
        yield request(bytes(spoilt))
        name = bytes(random.choice(b"%aq./&=+\xc3") for _ in range(60))
        yield b"GET /?Action=ReceiveMessage&QueueUrl=" + name + b" HTTP/1.1\r\nHost: h\r\n\r\n"
        yield (b"POST /0/q.fifo HTTP/1.1\r\nHost: \xff\xfe\r\nContent-Length: 30\r\n\r\n"
               b"Action=ReceiveMessage&A.1.1=%0")
        yield request(b'{"a":' * random.randrange(1, 200) + good)


def test_hostile_bytes_end_no_gateway():
    with Started() as gateway:
        call = ByJson(gateway.url)
        call("CreateQueue", QueueName="q.fifo", Attributes={"FifoQueue": "true"})
        chance = random.Random(5)
        port = int(gateway.url.rsplit(":", 1)[-1])
        for hostile in hostile_requests(chance):
            with socket.create_connection(("127.0.0.1", port)) as client:
                client.settimeout(0.05)
                try:
                    client.sendall(hostile)
                    if chance.random() < 0.3:
                        client.setsockopt(socket.SOL_SOCKET, socket.SO_LINGER, b"\1\0\0\0\0\0\0\0")
                    else:
                        client.recv(100)
                except OSError:
                    pass
        assert [url.rsplit("/", 1)[-1] for url in call("ListQueues")["QueueUrls"]] == ["q.fifo"]
