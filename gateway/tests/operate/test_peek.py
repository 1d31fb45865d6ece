"""Operators look at messages as LocalStack lets them, and nothing is received by it."""

import hashlib
import http.client
import json
import random
import re
import urllib.error
import urllib.parse
import urllib.request
import xml.etree.ElementTree
from collections import Counter
from collections.abc import Iterator
from contextlib import suppress
from typing import Any

import pytest

from operated import admin_url, get, metric
from rules import FIFO, policy
from started import START, ByBoto3, ByJson, Refused, Started, run
from waiting import until

PATH = "/_aws/sqs/messages"


@pytest.fixture(params=[False, True], ids=["no journal", "journal"])
def gateway(request, tmp_path):
    words = ["--journal", str(tmp_path / "journal")] if request.param else []
    with Started("--admin", "0", "--peek", *words, room=tmp_path) as started:
        yield started


def ask(gateway: Started, url: str | None, path: str = PATH, accept: str = "application/json", **fields: Any) -> tuple[int, str, bytes]:
    fields = {**({} if url is None else {"QueueUrl": url}), **fields}
    request = urllib.request.Request(f"{admin_url(gateway)}{path}?{urllib.parse.urlencode(fields)}", headers={"Accept": accept})
    try:
        with urllib.request.urlopen(request, timeout=60) as response:
            return response.status, response.headers["Content-Type"], response.read()
    except urllib.error.HTTPError as error:
        return error.code, error.headers["Content-Type"], error.read()


def each(result: dict[str, Any], name: str) -> list[Any]:
    """What stands by itself where there is one, and in a list where there are several."""
    value = result.get(name, [])
    assert not (isinstance(value, list) and len(value) == 1)
    return value if isinstance(value, list) else [value]


def result_in_json(answer: bytes) -> dict[str, Any]:
    whole = json.loads(answer)["ReceiveMessageResponse"]
    assert whole["ResponseMetadata"]["RequestId"]
    result = whole["ReceiveMessageResult"]
    if result is None:
        return {"Message": []}
    messages = each(result, "Message")
    for message in messages:
        message.update({name: each(message, name) for name in ("MessageAttribute",) if name in message})
    return {**result, "Message": messages}


def result_in_xml(answer: bytes) -> dict[str, Any]:
    root = xml.etree.ElementTree.fromstring(re.sub(rb' xmlns="[^"]*"', b"", answer))
    assert root.tag == "ReceiveMessageResponse" and root.findtext("ResponseMetadata/RequestId")
    messages = [in_members(message) for message in root.findall("ReceiveMessageResult/Message")]
    token = root.findtext("ReceiveMessageResult/NextToken")
    return {"Message": messages, **({"NextToken": token} if token else {})}


def in_members(element: xml.etree.ElementTree.Element) -> dict[str, Any]:
    found: dict[str, Any] = {}
    for child in element:
        value = in_members(child) if len(child) else child.text or ""
        if child.tag in ("Attribute", "MessageAttribute"):
            found.setdefault(child.tag, []).append(value)
        else:
            found[child.tag] = value
    return found


def peek(gateway: Started, url: str, **fields: Any) -> list[dict[str, Any]]:
    """What is shown, which is the same in both forms."""
    status, kind, answer = ask(gateway, url, **fields)
    assert (status, kind) == (200, "application/json"), answer
    status, kind, other = ask(gateway, url, accept="*/*", **fields)
    assert (status, kind) == (200, "text/xml"), other
    result = result_in_json(answer)
    assert result == result_in_xml(other) and "NextToken" not in result
    return result["Message"]


def pages(gateway: Started, url: str, **fields: Any) -> Iterator[list[dict[str, Any]]]:
    """All messages that are shown, by pages."""
    token: dict[str, str] = {}
    while True:
        result = result_in_json(ask(gateway, url, **fields, **token)[2])
        yield result["Message"]
        if "NextToken" not in result:
            return
        token = {"NextToken": result["NextToken"]}


def bodies(messages: list[dict[str, Any]]) -> list[str]:
    return [message["Body"] for message in messages]


def attributes(message: dict[str, Any]) -> dict[str, str]:
    return {pair["Name"]: pair["Value"] for pair in message["Attribute"]}


def send(call, url: str, body: str, group: str = "g", **more: Any) -> dict[str, Any]:
    dedup = hashlib.md5(body.encode()).hexdigest()
    fifo = {"MessageGroupId": group, "MessageDeduplicationId": dedup} if url.endswith(".fifo") else {}
    return call("SendMessage", QueueUrl=url, MessageBody=body, **fifo, **more)


def receive(call, url: str, most: int = 10) -> list[dict[str, Any]]:
    return call("ReceiveMessage", QueueUrl=url, MaxNumberOfMessages=most, AttributeNames=["All"]).get("Messages", [])


def test_messages_are_shown_with_all_that_they_have(gateway):
    call = ByBoto3(gateway.client())
    url = call("CreateQueue", QueueName="q.fifo", Attributes=FIFO)["QueueUrl"]
    given = {"text": {"DataType": "String.x", "StringValue": "<é&\r>"}, "bytes": {"DataType": "Binary", "BinaryValue": b"\0\xff"}}
    trace = {"AWSTraceHeader": {"DataType": "String", "StringValue": "Root=1"}}
    body = "a\r\n\"<é>"
    digest = hashlib.md5(body.encode()).hexdigest()
    sent = send(call, url, body, MessageAttributes=given, MessageSystemAttributes=trace)
    assert peek(gateway, url) == [{
        "MessageId": sent["MessageId"], "ReceiptHandle": "SQS/BACKDOOR/ACCESS", "Body": body, "MD5OfBody": digest,
        "Attribute": [{"Name": name, "Value": value} for name, value in [
            ("AWSTraceHeader", "Root=1"), ("ApproximateFirstReceiveTimestamp", "0"), ("ApproximateReceiveCount", "0"),
            ("MessageDeduplicationId", digest), ("MessageGroupId", "g"), ("SenderId", "AIDAHOBBYCHAIR0000000"),
            ("SentTimestamp", str(gateway.moment)), ("SequenceNumber", sent["SequenceNumber"])]],
        "MD5OfMessageAttributes": sent["MD5OfMessageAttributes"],
        "MessageAttribute": [{"Name": "bytes", "Value": {"BinaryValue": "AP8=", "DataType": "Binary"}},
                             {"Name": "text", "Value": {"StringValue": "<é&\r>", "DataType": "String.x"}}],
    }]


@pytest.mark.parametrize("name", ["q.fifo", "q"])
def test_nothing_is_received_by_a_look(gateway, name):
    call = ByJson(gateway.url)
    url = call("CreateQueue", QueueName=name, Attributes=FIFO if name.endswith(".fifo") else {})["QueueUrl"]
    for body in "abcd":
        send(call, url, body)
    first = receive(call, url, 1)
    assert bodies(first) == ["a"]
    gateway.set_clock(gateway.moment + 1_000)

    def facts() -> tuple[Any, Any]:
        told = call("GetQueueAttributes", QueueUrl=url, AttributeNames=["All"])["Attributes"]
        text = get(admin_url(gateway) + "/metrics")[1]
        return told, re.findall(r"^hobbychair_(?:journal|memory)\S* \S+$", text, re.MULTILINE)

    before = facts()
    for _ in range(3):
        assert bodies(peek(gateway, url)) == ["b", "c", "d"]
        shown = peek(gateway, url, ShowInvisible="true")
        assert bodies(shown) == ["a", "b", "c", "d"]
        assert [attributes(one)["IsVisible"] for one in shown] == ["false", "true", "true", "true"]
        assert [attributes(one)["ApproximateReceiveCount"] for one in shown] == ["1", "0", "0", "0"]
        assert attributes(shown[0])["ApproximateFirstReceiveTimestamp"] == str(START)
    assert facts() == before
    call("DeleteMessage", QueueUrl=url, ReceiptHandle=first[0]["ReceiptHandle"])
    rest = receive(call, url)
    assert bodies(rest) == ["b", "c", "d"]
    assert {one["Attributes"]["ApproximateReceiveCount"] for one in rest} == {"1"}
    assert peek(gateway, url) == []
    gateway.set_clock(gateway.moment + 30_000)
    assert [attributes(one)["ApproximateReceiveCount"] for one in peek(gateway, url)] == ["1", "1", "1"]


def test_delayed_messages_are_shown_where_that_is_asked_for(gateway):
    call = ByJson(gateway.url)
    fifo = call("CreateQueue", QueueName="late.fifo", Attributes={**FIFO, "DelaySeconds": "60"})["QueueUrl"]
    standard = call("CreateQueue", QueueName="late")["QueueUrl"]
    send(call, fifo, "a")
    gateway.set_clock(gateway.moment + 30_000)
    send(call, fifo, "b")
    send(call, standard, "b", DelaySeconds=40)
    send(call, standard, "a", DelaySeconds=30)
    for url in (fifo, standard):
        assert peek(gateway, url) == []
        shown = peek(gateway, url, ShowDelayed="true")
        assert bodies(shown) == ["a", "b"] and [attributes(one)["IsDelayed"] for one in shown] == ["true", "true"]
    gateway.set_clock(gateway.moment + 30_000)
    for url in (fifo, standard):
        assert bodies(peek(gateway, url)) == ["a"]
        shown = peek(gateway, url, ShowDelayed="1", ShowInvisible="true")
        assert [attributes(one)["IsDelayed"] for one in shown] == ["false", "true"]
        assert [attributes(one)["IsVisible"] for one in shown] == ["true", "true"]


@pytest.mark.parametrize("path", [f"{PATH}/us-east-1/000000000000/q", f"{PATH}/eu-west-1/1/q/"])
def test_the_path_names_a_queue_as_well(gateway, path):
    call = ByJson(gateway.url)
    url = call("CreateQueue", QueueName="q")["QueueUrl"]
    send(call, url, "a")
    assert result_in_json(ask(gateway, None, path)[2])["Message"] == peek(gateway, url)
    send(call, url, "b", MessageAttributes={"one": {"DataType": "String", "StringValue": "x"}})
    assert [len(message.get("MessageAttribute", [])) for message in peek(gateway, url)] == [0, 1]


def test_a_list_goes_on_until_all_were_shown_once(gateway):
    call = ByJson(gateway.url)
    url = call("CreateQueue", QueueName="many")["QueueUrl"]
    for batch in range(130):
        entries = [{"Id": str(place), "MessageBody": str(10 * batch + place)} for place in range(10)]
        call("SendMessageBatch", QueueUrl=url, Entries=entries)
    large = ["x" * 1_000_000, "y" * 1_000_000]
    for body in large:
        send(call, url, body)
    late = [str(number) for number in range(120)]
    for body in late:
        send(call, url, body, DelaySeconds=900)
    found = [bodies(page) for page in pages(gateway, url, ShowDelayed="true")]
    assert [body for page in found for body in page] == [str(number) for number in range(1_300)] + large + late
    assert [len(page) for page in found] == [1_000, 302, 120], "1,000 messages, and 1 MiB"


def counted(call, url: str) -> list[int]:
    told = call("GetQueueAttributes", QueueUrl=url, AttributeNames=["All"])["Attributes"]
    return [int(told[f"ApproximateNumberOfMessages{which}"]) for which in ("", "NotVisible", "Delayed")]


def shown(gateway: Started, url: str) -> list[int]:
    """How many are shown that are visible, in flight, and delayed."""
    whole = pages(gateway, url, ShowInvisible="true", ShowDelayed="true")
    states = [attributes(message) for page in whole for message in page]
    in_flight = sum(state["IsVisible"] == "false" for state in states)
    delayed = sum(state["IsDelayed"] == "true" for state in states)
    return [len(states) - in_flight - delayed, in_flight, delayed]


class Work:
    """What clients do with a queue of each kind and their dead-letter queues, by a seed."""

    def __init__(self, gateway: Started, seed: int) -> None:
        self.gateway, self.random = gateway, random.Random(seed)
        self.call = ByJson(gateway.url)
        self.handles: list[tuple[str, str]] = []
        for suffix, attributes in ((".fifo", {**FIFO, "DelaySeconds": "5"}), ("", {})):
            self.call("CreateQueue", QueueName=f"dead{suffix}", Attributes=FIFO if suffix else {})
            more = {"RedrivePolicy": policy(f"dead{suffix}", 2), "VisibilityTimeout": "10"}
            self.call("CreateQueue", QueueName=f"q{suffix}", Attributes={**attributes, **more})
        self.queues = ["dead", "dead.fifo", "q", "q.fifo"]

    def send(self, turn: int) -> None:
        name, size = self.random.choice(["q", "q.fifo"]), self.random.choice([1, 1, 1, 1, 300_000])
        late = {} if name.endswith(".fifo") else {"DelaySeconds": self.random.choice([0, 0, 3, 20])}
        send(self.call, name, f"{turn}-" + "x" * size, group=str(turn % 3), **late)

    def receive(self) -> None:
        name = self.random.choice(self.queues)
        messages = receive(self.call, name, self.random.randint(1, 10))
        self.handles += [(name, message["ReceiptHandle"]) for message in messages]

    def end(self, action: str, **more: Any) -> None:
        if self.handles:
            name, handle = self.handles.pop(self.random.randrange(len(self.handles)))
            # It may have come too late.
            with suppress(Refused):
                self.call(action, QueueUrl=name, ReceiptHandle=handle, **more)

    def turn(self, number: int) -> None:
        match self.random.randrange(8):
            case 0 | 1 | 2:
                self.send(number)
            case 3 | 4:
                self.receive()
            case 5:
                self.end("DeleteMessage")
            case 6:
                self.end("ChangeMessageVisibility", VisibilityTimeout=self.random.choice([0, 5, 40]))
            case _:
                self.gateway.set_clock(self.gateway.moment + self.random.randrange(15_000))

    def compare(self) -> list[list[int]]:
        """As many are shown as are counted, once what is due is in the store."""
        both: list[tuple[list[int], list[int]]] = []

        def are_equal() -> bool:
            both[:] = [(counted(self.call, name), shown(self.gateway, name)) for name in self.queues]
            return all(count == seen for count, seen in both)

        until(are_equal, 20, lambda: f"counted and shown: {both}")
        return [seen for _, seen in both]


@pytest.mark.parametrize("seed", range(4))
def test_as_many_are_shown_as_are_counted(tmp_path, seed):
    with Started("--admin", "0", "--peek", "--journal", str(tmp_path / "journal"), room=tmp_path) as gateway:
        work, seen = Work(gateway, seed), []
        for number in range(300):
            work.turn(number)
            if number % 25 == 0:
                seen += work.compare()
            if number == 150:
                gateway.kill()
                gateway.start()
                work.call = ByJson(gateway.url)
                seen += work.compare()
        assert all(max(counts) > 1 for counts in zip(*seen)), "there were some of each kind"
        work.call("PurgeQueue", QueueUrl="q")
        work.compare()


def test_what_is_shown_is_there_after_a_restart_too(tmp_path):
    with Started("--admin", "0", "--peek", "--journal", str(tmp_path / "journal"), room=tmp_path) as gateway:
        call = ByJson(gateway.url)
        url = call("CreateQueue", QueueName="q.fifo", Attributes=FIFO)["QueueUrl"]
        for body in ("a", "b", "x" * 600_000):
            send(call, url, body)
        receive(call, url, 1)
        before = peek(gateway, "q.fifo", ShowInvisible="true")
        memory = metric(get(admin_url(gateway) + "/metrics")[1], "hobbychair_memory_used_bytes")
        gateway.kill()
        gateway.start()
        assert peek(gateway, "q.fifo", ShowInvisible="true") == before
        assert metric(get(admin_url(gateway) + "/metrics")[1], "hobbychair_memory_used_bytes") == memory
        ByJson(gateway.url)("PurgeQueue", QueueUrl="q.fifo")
        assert peek(gateway, "q.fifo", ShowInvisible="true") == []


@pytest.mark.parametrize("url, path, status, code", [
    ("none.fifo", PATH, 400, "AWS.SimpleQueueService.NonExistentQueue"), ("http://hello.world", PATH, 404, "InvalidAddress"),
    (None, PATH, 400, "MissingParameter"), (None, f"{PATH}/1/q.fifo", 404, "InvalidAddress"),
])
def test_what_names_no_queue_is_refused_in_both_forms(gateway, url, path, status, code):
    found, kind, answer = ask(gateway, url, path)
    assert (found, kind) == (status, "application/json") and json.loads(answer)["ErrorResponse"]["Error"]["Code"] == code
    found, kind, answer = ask(gateway, url, path, accept="text/xml")
    root = xml.etree.ElementTree.fromstring(re.sub(rb' xmlns="[^"]*"', b"", answer))
    assert (found, kind, root.findtext("Error/Code")) == (status, "text/xml", code)


def test_a_token_that_nobody_gave_out_is_refused(gateway):
    ByJson(gateway.url)("CreateQueue", QueueName="q")
    status, _, answer = ask(gateway, "q", NextToken="stored-x")
    assert status == 400 and json.loads(answer)["ErrorResponse"]["Error"]["Code"] == "InvalidParameterValue"
    assert peek(gateway, "q", NextToken="stored-99") == []


def test_whatever_is_asked_is_answered(gateway):
    call, chance = ByJson(gateway.url), random.Random(7)
    call("CreateQueue", QueueName="q")
    send(call, "q", "a", DelaySeconds=900)
    parts = ["QueueUrl=q", "QueueUrl=", "&", "&NextToken=", "stored-", "delayed-", "-", "0", "18446744073709551615",
             "18446744073709551616", "%00", "%ff", "%", "+", "=", "&ShowDelayed=1", "&ShowInvisible=", "q.fifo", "/", "x" * 5_000]
    host, port = admin_url(gateway).removeprefix("http://").rsplit(":", 1)
    connection = http.client.HTTPConnection(host, int(port), timeout=60)
    statuses = Counter()
    for _ in range(1_000):
        path = chance.choice([PATH, PATH, f"{PATH}/", f"{PATH}/a/b/q", f"{PATH}/a/b/%ff", f"{PATH}//", f"{PATH}x", f"{PATH}/a/b/c/q"])
        query = "QueueUrl=q" * chance.randrange(2) + "".join(chance.choices(parts, k=chance.randrange(6)))
        connection.request("GET", f"{path}?{query}", headers={"Accept": chance.choice(["application/json", "text/xml", ";,;/"])})
        answer = connection.getresponse()
        answer.read()
        statuses[answer.status] += 1
    assert set(statuses) == {200, 400, 404} and min(statuses.values()) > 50, statuses
    assert bodies(peek(gateway, "q", ShowDelayed="1")) == ["a"]


def test_messages_are_shown_to_operators_alone_and_where_that_was_said(tmp_path):
    ended = run("serve", "--port", "0", "--peek")
    assert ended.returncode == 2 and "admin" in ended.stderr and ended.stdout == ""
    with Started("--admin", "0") as silent:
        ByJson(silent.url)("CreateQueue", QueueName="q")
        status, _, answer = ask(silent, "q")
        assert status == 404 and b"--peek" in answer
        assert get(f"{silent.url}{PATH}?QueueUrl=q")[0] == 400
    with Started("--admin", "0", "--peek") as shown:
        call = ByJson(shown.url)
        call("CreateQueue", QueueName="q")
        send(call, "q", "secret")
        for path in (f"{PATH}?QueueUrl=q", f"{PATH}/us-east-1/000000000000/q"):
            status, answer = get(shown.url + path)
            assert status in (400, 404) and "secret" not in answer
        page = urllib.request.Request(f"{admin_url(shown)}{PATH}?QueueUrl=q", headers={"Origin": "http://evil.example"})
        with pytest.raises(urllib.error.HTTPError, match="403"):
            urllib.request.urlopen(page, timeout=20)
        post = urllib.request.Request(f"{admin_url(shown)}{PATH}?QueueUrl=q", data=b"Action=ReceiveMessage")
        with pytest.raises(urllib.error.HTTPError, match="405"):
            urllib.request.urlopen(post, timeout=20)
