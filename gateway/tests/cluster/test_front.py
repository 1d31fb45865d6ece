"""A front: what it passes on, and where it asks again. What acts is played by the test."""

from __future__ import annotations

import http.client
import itertools
import json
import signal
import socket
import ssl
import struct
import threading
import time
from collections.abc import Sequence
from functools import partial
from http.server import BaseHTTPRequestHandler, ThreadingHTTPServer
from typing import Any
from urllib.parse import urlsplit

import pytest
from botocore.auth import SigV4Auth
from botocore.awsrequest import AWSRequest
from botocore.credentials import Credentials

import started
from clusters import Etcd, run
from meanwhile import at_once, meanwhile
from ports import free_ports
from started import LIBRARY, StartedFront, peak_of
from waiting import pace, pass_time, time_until, until

# What a gateway would answer, so that a front passes it on.
BODY = b"Action=GetQueueAttributes"


class Handler(BaseHTTPRequestHandler):
    protocol_version = "HTTP/1.1"

    def setup(self) -> None:
        super().setup()
        self.server.connections.append(self.connection)

    def do_GET(self) -> None:
        self.server.heard.append((self.command, self.path, dict(self.headers), self.rfile.read(int(self.headers.get("Content-Length", 0)))))
        if self.path != "/" and not self.server.answers.wait(30):
            return
        self.send_response(200 if self.path != "/" else 400)
        self.send_header("X-Hobbychair-Time", str(self.server.time + int(1000 * (time.monotonic() - self.server.begun))))
        self.send_header("Keep-Alive", "timeout=5")
        self.send_header("X-Amzn-RequestId", "r")
        body = self.server.name.encode() * self.server.repeated
        self.send_header("Content-Length", str(len(body)))
        self.end_headers()
        self.wfile.write(body)

    do_POST = do_GET

    def log_message(self, *words) -> None:
        pass


class Acting(ThreadingHTTPServer):
    """Stands in for a gateway that acts."""

    daemon_threads = True
    request_queue_size = 256

    def __init__(self, name: str, port: int | None = None) -> None:
        """Nobody else takes its port while it is away."""
        super().__init__(("127.0.0.1", port or free_ports(1)[0]), Handler)
        self.name, self.heard, self.answers, self.connections = name, [], threading.Event(), []
        self.time, self.begun, self.repeated = 1_000_000, time.monotonic(), 1
        self.answers.set()
        threading.Thread(target=self.serve_forever, daemon=True).start()

    def end(self) -> None:
        """As if it were killed."""
        self.shutdown()
        self.server_close()
        for connection in self.connections:
            try:
                connection.shutdown(socket.SHUT_RDWR)
            except OSError:
                pass

    @property
    def port(self) -> int:
        return self.server_address[1]

    def asked(self) -> list[tuple[str, str, dict[str, str], bytes]]:
        """What it was asked, beside the time."""
        return [one for one in self.heard if one[1] != "/"]


class Deaf(threading.Thread):
    """Stands in for a gateway that takes connections of calls, tells the time, and reads nothing of what is asked."""

    def __init__(self) -> None:
        super().__init__(daemon=True)
        self.listener, self.begun = socket.create_server(("127.0.0.1", 0), backlog=256), time.monotonic()
        self.connections = 0
        self.start()

    @property
    def port(self) -> int:
        return self.listener.getsockname()[1]

    def run(self) -> None:
        while True:
            try:
                connection, _ = self.listener.accept()
            except OSError:
                return
            threading.Thread(target=self.tell, args=[connection], daemon=True).start()

    def time(self) -> int:
        return 1_000_000 + int(1000 * (time.monotonic() - self.begun))

    def tell(self, connection: socket.socket) -> None:
        head = b""
        while not head.endswith(b"\r\n\r\n"):
            data = connection.recv(1)
            if not data:
                # A front tries whether a port is reached, and asks for nothing.
                return connection.close()
            head += data
        self.connections += 1
        connection.sendall(b"HTTP/1.1 101 Switching Protocols\r\nConnection: upgrade\r\nUpgrade: hobbychair-calls-1\r\n"
                           + f"X-Hobbychair-Time: {self.time()}\r\n\r\n".encode())
        try:
            while True:
                connection.sendall(struct.pack("<IBBBQ", 11, 1, 18, 1, self.time()))
                pace(0.4)
        except OSError:
            connection.close()

    def end(self) -> None:
        self.listener.close()


class World:
    """A cluster of which only etcd is there, and its front."""

    names = (f"front-{number}" for number in itertools.count())

    def __init__(self, etcd: Etcd, *words: str, gateways: Sequence[Any] = ()) -> None:
        self.etcd, name = etcd, next(self.names)
        made = run("cluster", "create", "--cluster", name, "--etcd", etcd.urls[0], "--nodes", "2")
        assert made.returncode == 0, made.stderr
        key = f"hobbychair/{name}/cluster"
        self.root = f"hobbychair/{name}/{json.loads(etcd.read(key)[key])['incarnation']}"
        self.gateways = list(gateways) or [Acting("one"), Acting("two")]
        for server, gateway in enumerate(self.gateways, 1):
            self.register(server, gateway.port)
        self.front = StartedFront("--cluster", name, "--etcd", etcd.urls[0], *words)

    def register(self, server: int, port: int | None) -> None:
        value = {"nonce": "n", "address": "127.0.0.1:1"} | ({"gateway": f"127.0.0.1:{port}"} if port else {})
        self.etcd.write(f"{self.root}/node/{server:010}", json.dumps(value))

    def head(self, *members: int) -> None:
        chain = {"line": 1, "members": members, "joiner": None, "is_ready": True, "full": members, "used": [1, 2]}
        self.etcd.write(f"{self.root}/master/chain", json.dumps(chain))

    def ask(self, path: str = "/0/q", method: str = "POST", body: bytes = BODY, timeout: float = 30,
            **headers: str) -> tuple[int, http.client.HTTPMessage, bytes]:
        connection = http.client.HTTPConnection(self.front.url.removeprefix("http://"), timeout=timeout)
        try:
            connection.request(method, path, body, {name.replace("_", "-"): value for name, value in headers.items()})
            answer = connection.getresponse()
            return answer.status, answer.headers, answer.read()
        finally:
            connection.close()

    def told(self, path: str) -> tuple[int, str]:
        """What operators are told by a front that was started with --admin."""
        url = next(line.split()[-1] for line in self.front.said if line.startswith("health and metrics on "))
        connection = http.client.HTTPConnection(url.removeprefix("http://"), timeout=20)
        try:
            connection.request("GET", path)
            answer = connection.getresponse()
            return answer.status, answer.read().decode()
        finally:
            connection.close()

    def __enter__(self) -> World:
        return self

    def __exit__(self, *_: object) -> None:
        self.end()

    def end(self) -> None:
        self.front.kill()
        for gateway in self.gateways:
            gateway.end()


@pytest.fixture(scope="module")
def etcd(tmp_path_factory):
    one = Etcd(tmp_path_factory.mktemp("etcd"))
    yield one
    one.end()


@pytest.fixture
def world(etcd):
    one = World(etcd)
    yield one
    one.end()


def test_a_request_goes_to_the_gateway_of_the_head_as_it_is(world):
    status, headers, body = world.ask("/0/q?A=%2f", Host="queues:80", X_Amz_Date="d", Connection="X-Private", X_Private="p",
                                      X_Hobbychair_Until="5")
    assert (status, body) == (200, b"one")
    assert headers["X-Amzn-RequestId"] == "r" and headers["X-Hobbychair-Time"] is None and headers["Keep-Alive"] is None
    [(method, path, heard, sent)] = world.gateways[0].asked()
    assert (method, path, sent, heard["host"], heard["x-amz-date"]) == ("POST", "/0/q?A=%2f", BODY, "queues:80", "d")
    assert "x-private" not in heard and len(heard["amz-sdk-invocation-id"]) == 36
    now = 1_000_000 + 1000 * (time.monotonic() - world.gateways[0].begun)
    assert now + 40_000 < int(heard["x-hobbychair-until"]) <= now + 45_000
    world.ask(Amz_Sdk_Invocation_Id="call")
    assert world.gateways[0].asked()[1][2]["amz-sdk-invocation-id"] == "call"
    assert len(world.gateways[0].asked()) == 2


def test_operators_are_told_how_a_front_is(etcd):
    with World(etcd, "--admin", "0") as world:
        get = world.told
        until(lambda: get("/health") == (200, "serving by the gateway of server 1\n"), 30, "it isn't well")
        world.ask()
        lines = get("/metrics")[1].splitlines()
        # Nobody asks, and it knows all the same that the gateway is away.
        port = world.gateways[0].port
        world.gateways[0].end()
        took = time_until(lambda: get("/health")[0] == 503, 20, "it is well")
        # It is well for three seconds behind what it heard last.
        assert took > 1 and get("/health")[1].startswith("waiting: the gateway of server 1 doesn't answer: ")
        world.etcd.signal(signal.SIGSTOP)
        until(lambda: "neither the gateway of server 1 answers (" in get("/health")[1], 30, "it doesn't say that etcd is away")
        world.etcd.signal(signal.SIGCONT)
        world.gateways[0] = Acting("again", port)
        until(lambda: get("/health") == (200, "serving by the gateway of server 1\n"), 30, "it isn't well again")
        assert {'hobbychair_front_requests_total{status="200"} 1', "hobbychair_front_open_requests 0", "hobbychair_front_acting_server 1"} <= set(lines)
        # The next head has no gateway.
        world.register(3, None)
        world.head(3)
        until(lambda: get("/health")[0] == 503, 30, "it is well")


def test_clients_speak_tls_to_a_front_that_has_a_certificate(etcd):
    tls = LIBRARY / "tls"
    with World(etcd, "--tls-certificate", str(tls / "p256.pem"), "--tls-key", str(tls / "p256.key")) as world:
        assert world.front.url.startswith("https://127.0.0.1:")
        port = int(world.front.url.rsplit(":", 1)[1])
        trusting = ssl.create_default_context(cafile=str(tls / "authority.pem"))
        connection = http.client.HTTPSConnection("localhost", port, timeout=30, context=trusting)
        connection.request("POST", "/0/q", BODY)
        assert connection.getresponse().read() == b"one"
        [(_, _, heard, _)] = world.gateways[0].asked()
        assert heard["x-forwarded-proto"] == "https" and heard["host"] == f"localhost:{port}"
        # Without TLS nobody is answered.
        with pytest.raises((OSError, http.client.HTTPException)):
            plain = http.client.HTTPConnection("127.0.0.1", port, timeout=15)
            plain.request("POST", "/0/q", BODY)
            plain.getresponse()


def test_a_large_answer_comes_whole(world):
    world.gateways[0].repeated = 1_000_000
    sent = b"Action=SendMessage&MessageBody=" + b"x" * 1_000_000
    assert world.ask(body=sent)[2] == b"one" * 1_000_000
    assert world.gateways[0].asked()[0][3] == sent


def test_where_the_head_changes_a_request_is_asked_at_the_next_one(world):
    world.gateways[0].answers.clear()
    with meanwhile(world.ask, patience=15) as [answer]:
        until(lambda: len(world.gateways[0].asked()) == 1, 20, "nobody is asked")
        world.head(2)
    assert answer.result()[2] == b"two"
    [first], [second] = (gateway.asked() for gateway in world.gateways)
    assert first[2]["amz-sdk-invocation-id"] == second[2]["amz-sdk-invocation-id"]
    assert world.ask()[2] == b"two"


def test_a_gateway_that_is_away_is_asked_once_it_is_there(world):
    port = world.gateways[0].port
    assert world.ask()[2] == b"one"
    world.gateways[0].end()
    with meanwhile(world.ask, patience=15) as [answer]:
        pass_time(1, "the front finds nobody there meanwhile")
        world.gateways[0] = Acting("again", port)
    assert answer.result()[2] == b"again"


def test_without_etcd_requests_go_where_they_went(world):
    assert world.ask()[2] == b"one"
    world.etcd.signal(signal.SIGSTOP)
    try:
        pass_time(1.5, "looks at etcd take so long until they fail")
        assert world.ask()[2] == b"one"
    finally:
        world.etcd.signal(signal.SIGCONT)


def test_a_client_that_goes_leaves_nobody_asking(world):
    world.gateways[0].answers.clear()
    client = http.client.HTTPConnection(world.front.url.removeprefix("http://"), timeout=30)
    client.request("POST", "/0/q", BODY)
    until(lambda: len(world.gateways[0].asked()) == 1, 20, "nobody is asked")
    client.close()
    pass_time(2, "a front looks each second whether clients are there")
    world.gateways[0].answers.set()
    assert world.ask()[0] == 200
    assert len(world.gateways[0].asked()) == 2


def test_where_nobody_acts_there_is_an_error_of_sqs(etcd):
    with World(etcd, "--admin", "0") as world:
        until(lambda: world.told("/health")[0] == 200, 30, "it isn't well")
        world.register(3, None)
        world.head(3)
        until(lambda: world.told("/health") == (503, "waiting: no gateway of the cluster is known\n"), 20, "it knows one")
        begun = time.monotonic()
        by_query, by_json = at_once([partial(world.ask, "/", body=b"Action=ListQueues"),
                                     partial(world.ask, "/", body=b"{}", X_Amz_Target="AmazonSQS.ListQueues")])
        assert 19 < time.monotonic() - begun < 30
        assert all(status == 503 and headers["X-Amzn-RequestId"] for status, headers, _ in (by_query, by_json))
        assert b"<Code>ServiceUnavailable</Code>" in by_query[2]
        assert json.loads(by_json[2])["__type"].endswith("#ServiceUnavailable")


def test_what_no_gateway_would_perform_is_refused_by_the_front(world):
    def refused(body: bytes, path: str = "/", **headers: str) -> tuple[int, str]:
        status, told, said = world.ask(path, body=body, **headers)
        if headers:
            return status, told["X-Amzn-Query-Error"].split(";")[0]
        return status, said.decode().split("<Code>")[1].split("</Code>")[0]

    send = {"X_Amz_Target": "AmazonSQS.SendMessage"}
    url = json.dumps({"QueueUrl": "http://queues/0/q"})[1:-1].encode()
    assert refused(b"Action=Fly") == (400, "InvalidAction")
    assert refused(b"Action=SendMessage", "/0/q") == (400, "MissingParameter")
    assert refused(b"Action=ReceiveMessage&MaxNumberOfMessages=11", "/0/q") == (400, "InvalidParameterValue")
    assert refused(b"{", **send) == (400, "SerializationException")
    assert refused(b"{" + url + b', "MessageBody": "\\u0000"}', **send) == (400, "InvalidMessageContents")
    assert refused(b"{" + url + b', "MessageBody": ""}', **send) == (400, "MissingParameter")
    assert refused(b"{" + url + b', "MessageBody": "b", "DelaySeconds": 901}', **send) == (400, "InvalidParameterValue")
    assert world.ask("/a/b/c/d/e")[0] == 404
    assert world.gateways[0].asked() == []
    assert world.ask()[2] == b"one"


class Signed:
    """Requests of botocore, which sign themselves, for a front."""

    def __init__(self, world: World, key: str, secret: str) -> None:
        self.world, self.credentials = world, Credentials(key, secret)

    def ask(self, body: bytes = BODY, sent: bytes | None = None, path: str = "/0/q") -> tuple[int, bytes]:
        request = AWSRequest("POST", self.world.front.url + path, {"Content-Type": "application/x-www-form-urlencoded"}, body)
        SigV4Auth(self.credentials, "sqs", "eu-north-1").add_auth(request)
        headers = {name.replace("-", "_"): value for name, value in request.headers.items()}
        status, _, said = self.world.ask(path, body=body if sent is None else sent, **headers)
        return status, said


def test_a_front_with_keys_lets_in_those_alone_who_sign_with_one(etcd, tmp_path, capfd):
    file = tmp_path / "keys.toml"
    file.write_text('[[key]]\naccess_key = "ONE"\nsecret = "the first secret"\n')
    with World(etcd, "--credentials", str(file)) as world:
        one, two = Signed(world, "ONE", "the first secret"), Signed(world, "TWO", "the second secret")
        assert one.ask() == (200, b"one")
        [(_, _, heard, sent)] = world.gateways[0].asked()
        assert heard["authorization"].startswith("AWS4-HMAC-SHA256 Credential=ONE/") and sent == BODY
        refused = [world.ask()[::2], two.ask(), Signed(world, "ONE", "another").ask(), one.ask(sent=b"Action=DeleteQueue")]
        codes = ["MissingAuthenticationToken", "InvalidClientTokenId", "SignatureDoesNotMatch", "SignatureDoesNotMatch"]
        assert [(status, code.encode() in said) for (status, said), code in zip(refused, codes)] == [(403, True)] * 4
        # Who isn't let in isn't told of forms.
        assert b"MissingAuthenticationToken" in world.ask(body=b"Action=Fly")[2]
        assert len(world.gateways[0].asked()) == 1
        file.write_text('[[key]]\naccess_key = "TWO"\nsecret = "the second secret"\n')
        world.front.process.send_signal(signal.SIGHUP)
        until(lambda: two.ask() == (200, b"one"), 30, "the keys weren't read again")
        assert one.ask()[0] == 403
        file.write_text("[[key]]\n")
        world.front.process.send_signal(signal.SIGHUP)
        until(lambda: "the keys stay as they were" in capfd.readouterr().err, 30, "nothing is said of keys that can't be read")
        assert two.ask() == (200, b"one")


def test_what_a_front_cannot_be_told(etcd):
    which = ["--cluster", "told", "--etcd", etcd.urls[0]]
    refused = started.run("front", *which, "--port", "0")
    assert refused.returncode == 1 and "there is no cluster told" in refused.stderr
    run("cluster", "create", *which, "--nodes", "1")
    for words, status, why in [
        (["--host", "0.0.0.0"], 2, "without --credentials only this machine is served"),
        (["--journal", "j"], 2, "journal is nothing that a front is told"),
        (["--credentials", "/nowhere"], 1, "/nowhere"),
        (["--port", etcd.urls[0].rsplit(":", 1)[1]], 1, "can't listen on"),
    ]:
        refused = started.run("front", *which, *words)
        assert (refused.returncode, why in refused.stderr) == (status, True), refused.stderr
    refused = started.run("front", "--cluster", "told")
    assert refused.returncode == 2 and "are given together" in refused.stderr
    refused = started.run("front", "--port", "0", "--cluster", "told", "--etcd", "http://10.0.0.1:1")
    assert "isn't on this machine" in refused.stderr


def refuses(address: tuple[str, int]) -> bool:
    """Whether no connection is accepted any more. One that comes as the socket is closed is cut off."""
    try:
        socket.create_connection(address).close()
    except ConnectionRefusedError:
        return True
    except ConnectionResetError:
        pass
    return False


def test_a_front_ends_in_good_order(world):
    world.gateways[0].answers.clear()
    with meanwhile(world.ask, patience=15) as [answer]:
        until(lambda: len(world.gateways[0].asked()) == 1, 20, "nobody is asked")
        world.front.process.terminate()
        address = ("127.0.0.1", int(world.front.url.rsplit(":", 1)[1]))
        until(lambda: refuses(address), 20, "connections are accepted")
        world.gateways[0].answers.set()
    assert answer.result()[0] == 200 and world.front.process.wait(20) == 0


def test_what_waits_for_a_gateway_is_kept_once_however_often_it_is_asked(etcd):
    """54 MB of bodies wait behind connections of calls that take nothing, and are each given up behind 2 s."""
    deaf = Deaf()
    world = World(etcd, "--request-memory", "64MiB", gateways=(deaf, Deaf()))
    asking: list[socket.socket] = []
    try:
        world.head(1, 2)
        until(lambda: deaf.connections, 20, "the front asks for no calls")
        pass_time(1, "the front has all that it needs without requests by then")
        before, address = peak_of(world.front.process.pid), urlsplit(world.front.url)
        body = b"Action=GetQueueAttributes&More=" + b"x" * 60_000
        for _ in range(900):
            asking.append(socket.create_connection((address.hostname, address.port), timeout=30))
            asking[-1].sendall(b"POST /0/q HTTP/1.1\r\nHost: localhost\r\nContent-Length: %d\r\n\r\n" % len(body) + body)
        tries = deaf.connections
        until(lambda: deaf.connections > tries + 4, 30, "nothing is asked again")
        # Each body is in one buffer, and each connection has one for what comes: less than three times the bodies.
        until(lambda: peak_of(world.front.process.pid) - before > 54, 20, "not all bodies have come")
        assert peak_of(world.front.process.pid) - before < 3 * 54, (before, peak_of(world.front.process.pid))
    finally:
        for connection in asking:
            connection.close()
        world.end()
