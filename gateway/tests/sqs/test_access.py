"""Who may come in: keys, what they allow, and TLS, with real clients."""

import http.client
import itertools
import os
import shutil
import signal
import socket
import ssl
import urllib.error
import urllib.request
from urllib.parse import urlsplit

import boto3
import pytest
from botocore.auth import SigV4Auth, SigV4QueryAuth
from botocore.awsrequest import AWSRequest
from botocore.config import Config
from botocore.credentials import Credentials
from botocore.exceptions import ClientError

from rules import FIFO
from started import LIBRARY, ByBoto3, ByJson, ByQuery, Refused, Started, post
from waiting import pass_time, until

TLS = LIBRARY / "tls"
KEYS = """
[[key]]
access_key = "ADMIN"
secret = "the admin's secret"

[[key]]
access_key = "ORDERS"
secret = "the orders' secret"
queues = ["orders-"]
actions = ["SendMessage", "ReceiveMessage", "ListQueues"]
"""
SECRETS = {"ADMIN": "the admin's secret", "ORDERS": "the orders' secret"}


def client(gateway: Started, key: str, secret: str | None = None, **more):
    return boto3.client("sqs", endpoint_url=gateway.url, region_name="eu-north-1", aws_access_key_id=key,
                        aws_secret_access_key=secret or SECRETS[key], config=Config(retries={"max_attempts": 0}), **more)


@pytest.fixture(scope="module")
def gateway(tmp_path_factory):
    file = tmp_path_factory.mktemp("keys") / "keys.toml"
    file.write_text(KEYS)
    with Started("--credentials", str(file)) as started:
        admin = ByBoto3(client(started, "ADMIN"))
        for name in ("orders-a.fifo", "mail.fifo"):
            admin("CreateQueue", QueueName=name, Attributes=FIFO)
        yield started


def refused(call, action: str, **members) -> tuple[str, int]:
    with pytest.raises(Refused) as refusal:
        call(action, **members)
    return refusal.value.code, refusal.value.status


def send(call, queue: str, dedup: str = "d") -> dict:
    return call("SendMessage", QueueUrl=queue, MessageBody="a body with + and % & é", MessageGroupId="g",
                MessageDeduplicationId=dedup)


def test_signed_requests_are_served(gateway):
    admin = ByBoto3(client(gateway, "ADMIN"))
    urls = admin("ListQueues")["QueueUrls"]
    assert [url.rsplit("/", 1)[-1] for url in urls] == ["mail.fifo", "orders-a.fifo"]
    assert send(admin, urls[0])["MessageId"]
    (message,) = admin("ReceiveMessage", QueueUrl=urls[0], AttributeNames=["SenderId"])["Messages"]
    assert message["Body"] == "a body with + and % & é" and message["Attributes"] == {"SenderId": "ADMIN"}


def of_sts(gateway: Started, key: str, secret: str | None = None):
    return boto3.client("sts", endpoint_url=gateway.url, region_name="eu-north-1", aws_access_key_id=key,
                        aws_secret_access_key=secret or SECRETS[key], config=Config(retries={"max_attempts": 0}))


def test_each_key_may_ask_who_it_is(gateway):
    for key in SECRETS:
        told = of_sts(gateway, key).get_caller_identity()
        assert (told["Account"], told["UserId"], told["Arn"]) == (
            "000000000000", key, f"arn:aws:iam::000000000000:user/{key}")
    with pytest.raises(ClientError) as refusal:
        of_sts(gateway, "ADMIN", "another secret").get_caller_identity()
    assert refusal.value.response["Error"]["Code"] == "SignatureDoesNotMatch"


def test_a_signature_is_for_one_service(gateway):
    for service, action in (("sts", "ListQueues"), ("sqs", "GetCallerIdentity")):
        body = f"Action={action}"
        request = AWSRequest("POST", gateway.url + "/", {"Content-Type": "application/x-www-form-urlencoded"}, body)
        SigV4Auth(Credentials("ADMIN", SECRETS["ADMIN"]), service, "eu-north-1").add_auth(request)
        status, _, answer = post(gateway.url + "/", body.encode(), dict(request.headers))
        assert status == 403 and b"<Code>SignatureDoesNotMatch</Code>" in answer


def test_a_session_token_is_one_more_signed_header(gateway):
    assert ByBoto3(client(gateway, "ADMIN", aws_session_token="a token/+="))("ListQueues")["QueueUrls"]


@pytest.mark.parametrize("by", [ByJson, ByQuery])
def test_unsigned_requests_are_refused_in_both_protocols(gateway, by):
    assert refused(by(gateway.url), "ListQueues") == ("MissingAuthenticationToken", 403)


def test_wrong_keys_are_refused(gateway):
    assert refused(ByBoto3(client(gateway, "ADMIN", "another secret")), "ListQueues") == ("SignatureDoesNotMatch", 403)
    assert refused(ByBoto3(client(gateway, "NOBODY", "the admin's secret")), "ListQueues") == ("InvalidClientTokenId", 403)
    assert refused(ByBoto3(client(gateway, "ADMIN", SECRETS["ORDERS"])), "ListQueues") == ("SignatureDoesNotMatch", 403)


def test_a_key_does_what_its_file_allows(gateway):
    orders = ByBoto3(client(gateway, "ORDERS"))
    assert [url.rsplit("/", 1)[-1] for url in orders("ListQueues")["QueueUrls"]] == ["orders-a.fifo"]
    send(orders, "orders-a.fifo", "o")
    entry = {"Id": "1", "MessageBody": "b", "MessageGroupId": "g", "MessageDeduplicationId": "batch"}
    assert len(orders("SendMessageBatch", QueueUrl="orders-a.fifo", Entries=[entry])["Successful"]) == 1
    assert orders("ReceiveMessage", QueueUrl="orders-a.fifo")["Messages"]
    denied = ("AccessDenied", 403)
    for queue in ("mail.fifo", "none.fifo"):
        with pytest.raises(Refused) as refusal:
            send(orders, queue)
        assert (refusal.value.code, refusal.value.status) == denied
    assert refused(orders, "DeleteQueue", QueueUrl="orders-a.fifo") == denied
    assert refused(orders, "PurgeQueue", QueueUrl="orders-a.fifo") == denied
    assert refused(orders, "CreateQueue", QueueName="orders-b.fifo", Attributes=FIFO) == denied
    assert refused(orders, "GetQueueUrl", QueueName="orders-a.fifo") == denied


def test_presigned_urls_are_served_until_they_are_over(gateway):
    admin = client(gateway, "ADMIN")
    url = admin.generate_presigned_url("list_queues", Params={"QueueNamePrefix": "orders"}, ExpiresIn=60, HttpMethod="GET")
    if "X-Amz-Signature" not in url or "Action=" not in url:
        pytest.skip("this version of boto3 presigns no request of the query form")
    body = urllib.request.urlopen(url, timeout=20).read()
    assert b"orders-a.fifo" in body and b"mail.fifo" not in body
    with pytest.raises(urllib.error.HTTPError) as refusal:
        urllib.request.urlopen(url.replace("QueueNamePrefix=orders", "QueueNamePrefix=mail"), timeout=20)
    assert refusal.value.code == 403 and b"<Code>SignatureDoesNotMatch</Code>" in refusal.value.read()
    url = admin.generate_presigned_url("list_queues", ExpiresIn=1, HttpMethod="GET")
    pass_time(2.5, "the signature expires")
    with pytest.raises(urllib.error.HTTPError) as refusal:
        urllib.request.urlopen(url, timeout=20)
    assert refusal.value.code == 403 and b"<Code>RequestExpired</Code>" in refusal.value.read()


def test_keys_are_read_again_at_sighup_and_a_file_that_is_wrong_changes_nothing(tmp_path):
    file = tmp_path / "keys.toml"
    file.write_text(KEYS)
    log = tmp_path / "log"
    with Started("--credentials", str(file), "--host", "0.0.0.0", errors=log) as started:
        started.url = started.url.replace("0.0.0.0", "127.0.0.1")
        old = ByBoto3(client(started, "ADMIN"))
        new = ByBoto3(client(started, "ADMIN", "another secret"))
        assert old("ListQueues") == {} and refused(new, "ListQueues")[0] == "SignatureDoesNotMatch"
        file.write_text("[[key]]\naccess_key = 5\n")
        started.process.send_signal(signal.SIGHUP)
        until(lambda: "the keys stay as they were" in log.read_text(), 10, "nobody says that the file is wrong")
        assert old("ListQueues") == {}
        file.write_text(KEYS.replace("the admin's secret", "another secret"))
        started.process.send_signal(signal.SIGHUP)
        until(lambda: "keys were read again" in log.read_text(), 10, "the keys aren't read again")
        assert new("ListQueues") == {} and refused(old, "ListQueues")[0] == "SignatureDoesNotMatch"


def test_a_file_of_keys_that_never_ends_keeps_nobody_waiting(tmp_path):
    file = tmp_path / "keys.toml"
    file.write_text(KEYS)
    with Started("--credentials", str(file)) as started:
        file.unlink()
        os.mkfifo(file)
        started.process.send_signal(signal.SIGHUP)
        pass_time(0.2, "the gateway has begun to read, and nobody says so")
        assert ByBoto3(client(started, "ADMIN"))("ListQueues") == {}


# ---- pages in browsers, which reach a gateway on their own machine

FORM = {"Content-Type": "application/x-www-form-urlencoded"}


def status_of(url: str, headers: dict[str, str], form: bytes | None = None) -> tuple[int, bytes]:
    try:
        with urllib.request.urlopen(urllib.request.Request(url, form, headers), timeout=20) as response:
            return response.status, response.read()
    except urllib.error.HTTPError as error:
        return error.code, error.read()


@pytest.mark.parametrize("headers", [
    {"Origin": "http://evil.example"}, {"Origin": "null"}, {"Sec-Fetch-Site": "cross-site"}, {"Sec-Fetch-Site": "same-site"},
    {"Host": "evil.example"}, {"Host": "evil.example:9324"}, {"Host": "evil.example", "Origin": "http://evil.example"},
])
def test_no_page_commands_a_gateway_without_keys(headers):
    with Started("--no-pauses", "--admin", "0") as gateway:
        call = ByJson(gateway.url)
        call("CreateQueue", QueueName="q")
        call("SendMessage", QueueUrl="q", MessageBody="b")
        for form in (b"Action=ReceiveMessage", b"Action=PurgeQueue", b"Action=DeleteQueue"):
            url = f"{gateway.url}/000000000000/q"
            for target, body in ((url, form), (f"{url}?{form.decode()}", None)):
                status, answer = status_of(target, {**FORM, **headers}, body)
                assert status == 403 and b"<Code>AccessDenied</Code>" in answer
        assert call("ReceiveMessage", QueueUrl="q")["Messages"][0]["Body"] == "b"
        admin = next(line.split()[-1] for line in gateway.said if line.startswith("health and metrics on "))
        assert status_of(admin + "/metrics", headers)[0] == status_of(admin + "/metrics", {})[0] == 200


LINKS = ["Action=CreateQueue&QueueName=made", "Action=DeleteQueue&QueueUrl=q", "Action=PurgeQueue&QueueUrl=q",
         "Action=SendMessage&QueueUrl=q&MessageBody=x", "Action=ReceiveMessage&QueueUrl=q",
         "Action=ChangeMessageVisibility&QueueUrl=q&ReceiptHandle=a&VisibilityTimeout=0", "Action=DeleteMessage&QueueUrl=q&ReceiptHandle=a",
         "Action=SetQueueAttributes&QueueUrl=q&Attribute.Name=DelaySeconds&Attribute.Value=9", "Action=TagQueue&QueueUrl=q&Tag.Key=a&Tag.Value=b",
         "Action=UntagQueue&QueueUrl=q&TagKey=a", "Action=StartMessageMoveTask&SourceArn=a", "Action=CancelMessageMoveTask&TaskHandle=a",
         "Action=SendMessageBatch&QueueUrl=q&SendMessageBatchRequestEntry.1.Id=a&SendMessageBatchRequestEntry.1.MessageBody=x",
         "Action=DeleteMessageBatch&QueueUrl=q&DeleteMessageBatchRequestEntry.1.Id=a&DeleteMessageBatchRequestEntry.1.ReceiptHandle=a",
         "Action=ChangeMessageVisibilityBatch&QueueUrl=q" + "".join(
             f"&ChangeMessageVisibilityBatchRequestEntry.1.{name}" for name in ("Id=a", "ReceiptHandle=a", "VisibilityTimeout=0")),
         "Action=AddPermission&QueueUrl=q&Label=a&AWSAccountId.1=123456789012&ActionName.1=SendMessage", "Action=RemovePermission&QueueUrl=q&Label=a"]

MADE_UP = "&X-Amz-Algorithm=AWS4-HMAC-SHA256&X-Amz-Credential=A%2F20150830%2Fus-east-1%2Fsqs%2Faws4_request&X-Amz-Signature=00"


def asked(port: int, method: str, target: str, headers: dict[str, str]) -> tuple[int, bytes, str | None]:
    connection = http.client.HTTPConnection("127.0.0.1", port, timeout=20)
    try:
        connection.request(method, target, headers=headers)
        answer = connection.getresponse()
        return answer.status, answer.read(), answer.getheader("Allow")
    finally:
        connection.close()


@pytest.mark.parametrize("words", [(), ("--open", "--host", "0.0.0.0")], ids=["this machine", "open"])
def test_no_link_commands_a_gateway_without_keys(words):
    """Browsers say nothing of a picture's GET to an address that isn't this machine's, and that nobody asked for a link in a mail."""
    gateway = Started("--no-pauses", "--allowed-hosts", "queues", *words)
    port = int(gateway.url.rsplit(":", 1)[1])
    try:
        call = ByJson(f"http://127.0.0.1:{port}")
        call("CreateQueue", QueueName="q")
        call("SendMessage", QueueUrl="q", MessageBody="b")
        before = call("GetQueueAttributes", QueueUrl="q", AttributeNames=["All"])
        ways = [{}, {"Sec-Fetch-Site": "none"}, {"Authorization": "Basic QTpi"}, {"X-Amz-Date": "20150830T123600Z"}]
        for link, host, more, method in itertools.product(LINKS, (f"127.0.0.1:{port}", "queues", "localhost"), ways, ("GET", "HEAD")):
            for sign in ("", MADE_UP):
                status, answer, _ = asked(port, method, f"/?{link}{sign}", {"Host": host, **more})
                assert status == 403 and (method == "HEAD" or b"send it as a POST" in answer), (link, host, more)
        assert call("GetQueueAttributes", QueueUrl="q", AttributeNames=["All"]) == before
        assert call("ListQueues")["QueueUrls"] and len(call("ListQueues")["QueueUrls"]) == 1
        for method in ("PUT", "DELETE", "PATCH", "OPTIONS", "TRACE", "POSTS"):
            assert asked(port, method, f"/?{LINKS[0]}", {"Host": "localhost"})[::2] == (405, "POST, GET, HEAD"), method
        # What only tells is told, and what no page can send is done.
        assert asked(port, "GET", "/?Action=ListQueues", {"Host": "localhost"})[0] == 200
        request = AWSRequest("GET", f"http://127.0.0.1:{port}/?{LINKS[0]}", {})
        SigV4Auth(Credentials("ANY", "any"), "sqs", "us-east-1").add_auth(request)
        assert asked(port, "GET", f"/?{LINKS[0]}", {"Host": f"127.0.0.1:{port}", **dict(request.headers)})[0] == 200
        assert call("ReceiveMessage", QueueUrl="q")["Messages"][0]["Body"] == "b"
    finally:
        assert gateway.stop() == 0


def test_a_presigned_link_does_what_its_key_may(gateway):
    request = AWSRequest("GET", f"{gateway.url}/?Action=CreateQueue&QueueName=by-link")
    SigV4QueryAuth(Credentials("ADMIN", SECRETS["ADMIN"]), "sqs", "us-east-1", expires=60).add_auth(request)
    assert status_of(request.url, {})[0] == 200
    urls = client(gateway, "ADMIN", SECRETS["ADMIN"]).list_queues()["QueueUrls"]
    assert any(url.endswith("/by-link") for url in urls)


def test_no_page_is_told_bodies_on_any_address():
    with Started("--no-pauses", "--peek", "--admin", "0.0.0.0:0") as gateway:
        ByJson(gateway.url)("CreateQueue", QueueName="q")
        admin = next(line.split()[-1] for line in gateway.said if line.startswith("health and metrics on "))
        port = int(admin.rsplit(":", 1)[1])
        target = "/_aws/sqs/messages?QueueUrl=q"
        assert asked(port, "GET", target, {"Host": f"127.0.0.1:{port}"})[0] == asked(port, "GET", target, {"Host": "localhost"})[0] == 200
        for headers in ({"Host": "evil.example"}, {"Host": "localhost", "Origin": "http://evil.example"},
                        {"Host": "evil.example", "Origin": "http://evil.example", "Sec-Fetch-Site": "same-origin"}):
            assert asked(port, "GET", target, headers)[0] == 403
            for path in ("/health", "/metrics"):
                assert asked(port, "GET", path, headers)[0] == 200


def test_names_and_pages_that_are_let_in():
    with Started("--allowed-hosts", "queues,other.example", "--url", "http://known.example") as gateway:
        port = gateway.url.rsplit(":", 1)[-1]
        for host in (f"127.0.0.1:{port}", f"localhost:{port}", "queues:9324", "other.example", "known.example"):
            for more in ({}, {"Origin": f"http://{host}", "Sec-Fetch-Site": "same-origin"}, {"Sec-Fetch-Site": "none"}):
                assert status_of(gateway.url, {**FORM, "Host": host, **more}, b"Action=ListQueues")[0] == 200, (host, more)


def test_signed_requests_come_by_any_name(gateway):
    request = AWSRequest("POST", gateway.url + "/", {**FORM, "Host": "any.example"}, "Action=ListQueues")
    SigV4Auth(Credentials("ADMIN", SECRETS["ADMIN"]), "sqs", "eu-north-1").add_auth(request)
    assert status_of(gateway.url + "/", {**dict(request.headers), "Origin": "http://page.example"}, b"Action=ListQueues")[0] == 200


# ---- TLS


def peer_certificate(url: str) -> bytes:
    address = urlsplit(url)
    context = ssl.create_default_context(cafile=str(TLS / "authority.pem"))
    with socket.create_connection((address.hostname, address.port), timeout=20) as plain:
        with context.wrap_socket(plain, server_hostname="localhost") as connection:
            assert connection.version() in ("TLSv1.2", "TLSv1.3")
            return connection.getpeercert(binary_form=True)


def test_clients_speak_tls_and_a_new_certificate_counts_at_sighup(tmp_path):
    certificate, key = tmp_path / "c.pem", tmp_path / "k.pem"
    shutil.copy(TLS / "p256.pem", certificate)
    shutil.copy(TLS / "p256.key", key)
    log = tmp_path / "log"
    with Started("--certificate", str(certificate), "--key", str(key), errors=log) as started:
        assert started.url.startswith("https://127.0.0.1:")
        boto = client(started, "ADMIN", verify=str(TLS / "authority.pem"))
        url = ByBoto3(boto)("CreateQueue", QueueName="q.fifo", Attributes=FIFO)["QueueUrl"]
        assert url == f"{started.url}/000000000000/q.fifo"
        assert send(ByBoto3(boto), url)["MessageId"]
        first = peer_certificate(started.url)
        shutil.copy(TLS / "rsa.pem", certificate)
        started.process.send_signal(signal.SIGHUP)
        until(lambda: "the certificate stay as they were" in log.read_text(), 10, "nobody says that the files are wrong")
        assert peer_certificate(started.url) == first, "the key isn't the certificate's"
        shutil.copy(next(TLS.glob("rsa*.key")), key)
        started.process.send_signal(signal.SIGHUP)
        until(lambda: peer_certificate(started.url) != first, 10, "the certificate isn't read again")
        address = urlsplit(started.url)
        with socket.create_connection((address.hostname, address.port), timeout=20) as plain:
            plain.sendall(b"GET / HTTP/1.1\r\nHost: localhost\r\n\r\n")
            assert not plain.recv(1 << 16).startswith(b"HTTP/1.1 200")
