"""Requests that are made up by a seed, beside ordinary load, with little memory: the gateway doesn't end, and others are
served. HOBBYCHAIR_TEST_REQUESTS says how many, and HOBBYCHAIR_TEST_SEED which."""

import json
import os
import random
import socket
import threading
import time
import urllib.parse
from functools import partial
from typing import Any

from meanwhile import at_once, meanwhile
from operated import figure, is_well
from started import ByJson, Refused, Started, command, programs_of
from waiting import pace

REQUESTS = int(os.environ.get("HOBBYCHAIR_TEST_REQUESTS", "2000"))
SEED = int(os.environ.get("HOBBYCHAIR_TEST_SEED") or random.randrange(1 << 32))
CLIENTS = 6
MEMORY = 1 << 20  # KiB of addresses
ACTIONS = ["AddPermission", "CancelMessageMoveTask", "ChangeMessageVisibility", "ChangeMessageVisibilityBatch", "CreateQueue",
           "DeleteMessage", "DeleteMessageBatch", "DeleteQueue", "GetCallerIdentity", "GetQueueAttributes", "GetQueueUrl",
           "ListDeadLetterSourceQueues", "ListMessageMoveTasks", "ListQueueTags", "ListQueues", "PurgeQueue",
           "ReceiveMessage", "RemovePermission", "SendMessage", "SendMessageBatch", "SetQueueAttributes",
           "StartMessageMoveTask", "TagQueue", "UntagQueue", "MakeCoffee"]
LIKELY = ["SendMessage", "SendMessageBatch", "ReceiveMessage", "DeleteMessage", "CreateQueue", "PurgeQueue"]
QUEUES = [f"made-{place}{suffix}" for place in range(4) for suffix in ("", ".fifo")]
ATTRIBUTES = ["All", "DelaySeconds", "FifoQueue", "KmsMasterKeyId", "MaximumMessageSize", "MessageRetentionPeriod", "Policy",
              "RedrivePolicy", "RedriveAllowPolicy", "VisibilityTimeout", "ReceiveMessageWaitTimeSeconds",
              "ContentBasedDeduplication", "SenderId", "AWSTraceHeader"]


class Made:
    """Makes requests up: good ones, ones with a bad member, and bytes."""

    def __init__(self, seed: int) -> None:
        self.random = random.Random(seed)
        self.handles = ["", "handle"]

    def one_of(self, *choices: Any) -> Any:
        return self.random.choice(choices)

    def text(self) -> str:
        size = self.one_of(0, 1, 3, 20, 200, 2_000, 100_000)
        if self.random.random() < 0.01:
            size = self.one_of(300_000, 1_048_576, 3_000_000)
        alphabet = self.one_of("a", "aé<\"\\", "\0\x01\x7f\x85\ufffe\uffff\ud7ff", "\U0001f600", "%&=+./ \r\n", "09-e")
        return "".join(self.random.choices(alphabet, k=min(size, 50))) * max(1, size // 50)

    def value(self, depth: int = 0) -> Any:
        kind = self.random.randrange(9)
        if kind == 0:
            return self.one_of(None, True, False, -1, 0, 1, 10, 11, 900, 1e300, 1.5, 2**63, 2**64, -2**70)
        if kind == 1 and depth < 3:
            return [self.value(depth + 1) for _ in range(self.one_of(0, 1, 3, 11))]
        if kind == 2 and depth < 3:
            return {self.text()[:300]: self.value(depth + 1) for _ in range(self.one_of(0, 1, 3, 11))}
        if kind == 3:
            return [self.one_of("All", "", "a.*", 1)] * self.one_of(1, 99, 101, 5_000, 200_000)
        if kind == 4:
            return {"deadLetterTargetArn": self.arn(), "maxReceiveCount": 1}
        return self.one_of(self.text(), self.random.choice(ATTRIBUTES), str(self.random.randrange(-5, 2_000)))

    def arn(self) -> str:
        return f"arn:aws:sqs:us-east-1:000000000000:{self.random.choice(QUEUES)}"

    def attributes(self) -> dict[str, Any]:
        names = [self.text()[:300], "a", "b.c", "AWS.x"]
        types = ["String", "Number", "Binary", "String.\ufffe", "", "Number." + "x" * 300]
        return {self.random.choice(names) + str(place): {"DataType": self.random.choice(types), self.one_of(
            "StringValue", "BinaryValue", "StringListValues"): self.one_of(self.text(), "1", "AAE=")}
            for place in range(self.one_of(1, 2, 10, 11))}

    def message(self) -> dict[str, Any]:
        message = {"MessageBody": self.text(), "MessageGroupId": self.one_of("g", "h", self.text()[:200]),
                   "MessageDeduplicationId": str(self.random.random())}
        if self.random.random() < 0.2:
            message["MessageAttributes"] = self.attributes()
        if self.random.random() < 0.1:
            message["MessageSystemAttributes"] = {"AWSTraceHeader": {"DataType": "String", "StringValue": self.text()}}
        if self.random.random() < 0.2:
            message["DelaySeconds"] = self.one_of(0, 1, 900, 901, "x")
        return message

    def members(self, action: str) -> dict[str, Any]:
        queue = self.random.choice(QUEUES)
        members: dict[str, Any] = {"QueueUrl": self.one_of(queue, f"http://localhost/000000000000/{queue}", self.text())
                                   if self.random.random() < 0.1 else queue}
        if action in ("CreateQueue", "GetQueueUrl"):
            members = {"QueueName": queue, "Attributes": {"FifoQueue": "true"} if queue.endswith("o") else {}}
            if action == "CreateQueue" and self.random.random() < 0.3:
                members["tags"] = {self.text()[:200]: self.text()[:300] for _ in range(self.one_of(1, 49, 51))}
        elif action == "SendMessage":
            members |= self.message()
        elif action.endswith("Batch"):
            entry = {"SendMessageBatch": self.message}.get(action, lambda: {
                "ReceiptHandle": self.random.choice(self.handles), "VisibilityTimeout": self.one_of(0, 1, 50_000)})
            members["Entries"] = [{"Id": str(place), **entry()} for place in range(self.one_of(0, 1, 3, 10, 11))]
        elif action == "ReceiveMessage":
            members |= {"MaxNumberOfMessages": self.one_of(1, 10, 11), "VisibilityTimeout": self.one_of(0, 1, 30),
                        "WaitTimeSeconds": self.one_of(0, 0, 0, 1), "MessageAttributeNames": self.one_of([], ["All"])}
            if self.random.random() < 0.3 and queue.endswith("o"):
                members["ReceiveRequestAttemptId"] = self.one_of("a", "b", str(self.random.random()))
        elif action in ("DeleteMessage", "ChangeMessageVisibility"):
            members |= {"ReceiptHandle": self.random.choice(self.handles), "VisibilityTimeout": self.one_of(0, 5)}
        elif action in ("SetQueueAttributes", "TagQueue"):
            name = "Tags" if action == "TagQueue" else "Attributes"
            members[name] = {self.random.choice(ATTRIBUTES): self.one_of(
                self.text(), "5", json.dumps(self.value()), json.dumps({"deadLetterTargetArn": self.arn(), "maxReceiveCount": 1}))}
        elif "MoveTask" in action:
            members |= {"SourceArn": self.arn(), "DestinationArn": self.arn(), "TaskHandle": self.text()}
        elif action == "AddPermission":
            members |= {"Label": self.text()[:90], "AWSAccountIds": ["000000000000"] * self.one_of(1, 90), "Actions": ["*"]}
        while self.random.random() < 0.3:
            members[self.one_of(*members, "MaxResults", "NextToken", "TagKeys", "AttributeNames", self.text()[:50])] = self.value()
        if self.random.random() < 0.1:
            members.pop(self.one_of(*members))
        return members

    def request(self) -> bytes:
        """One request, or what is none."""
        if self.random.random() < 0.02:
            return self.random.randbytes(self.one_of(1, 100, 40_000))
        action = self.random.choice(LIKELY if self.random.random() < 0.6 else ACTIONS)
        members = self.members(action)
        if self.random.random() < 0.7:
            body = json.dumps(members, ensure_ascii=self.random.random() < 0.5).encode("utf-8", "surrogatepass")
            kind = f"X-Amz-Target: AmazonSQS.{action}\r\nContent-Type: application/x-amz-json-1.0\r\n"
        else:
            fields = [("Action", action)]
            self.flatten("", members, fields)
            body = urllib.parse.urlencode(fields, errors="surrogatepass").encode()
            kind = "Content-Type: application/x-www-form-urlencoded\r\n"
        if self.random.random() < 0.05:
            body = body[:self.random.randrange(len(body) + 1)]
        more = self.one_of("", "", "", f"amz-sdk-invocation-id: {self.random.randrange(50)}\r\namz-sdk-request: attempt=2\r\n",
                           "Origin: http://evil.example\r\n", "Connection: close\r\n", "Expect: 100-continue\r\n",
                           f"X-Any: {'x' * self.one_of(10, 30_000, 40_000)}\r\n")
        if self.random.random() < 0.05:
            framed = b"%x\r\n%s\r\n0\r\n\r\n" % (len(body), body) if body else b"0\r\n\r\n"
            length = self.one_of("Transfer-Encoding: chunked\r\n", "Transfer-Encoding: chunked\r\nContent-Length: 5\r\n")
        else:
            framed, length = body, f"Content-Length: {len(body) + (self.random.random() < 0.02)}\r\n"
        host = "localhost" if self.random.random() < 0.95 else self.one_of("evil.example", "", "127.0.0.1:1")
        whole = f"POST / HTTP/1.1\r\nHost: {host}\r\n{kind}{length}{more}\r\n".encode() + framed
        if self.random.random() < 0.03:
            spoilt = bytearray(whole)
            for _ in range(self.random.randrange(1, 5)):
                spoilt[self.random.randrange(min(len(spoilt), 500))] = self.random.randrange(256)
            whole = bytes(spoilt)
        return whole

    def flatten(self, prefix: str, value: Any, fields: list[tuple[str, str]]) -> None:
        if len(fields) > 3_000:
            return
        if isinstance(value, dict):
            for name, inner in value.items():
                self.flatten(f"{prefix}.{name}" if prefix else name, inner, fields)
        elif isinstance(value, list):
            for place, inner in enumerate(value, 1):
                self.flatten(f"{prefix}.{place}", inner, fields)
        else:
            fields.append((prefix, str(value)))


def attack(gateway: Started, seed: int, count: int) -> None:
    made = Made(seed)
    host, port = gateway.url.removeprefix("http://").rsplit(":", 1)
    while count > 0:
        try:
            with socket.create_connection((host, int(port)), timeout=20) as connection:
                for _ in range(made.random.randrange(1, 30)):
                    count -= 1
                    connection.sendall(made.request())
                    # Some answers are left unread for a while, and some for good.
                    connection.settimeout(made.one_of(0.001, 0.2, 0.2, 2))
                    got = connection.recv(1 << 16)
                    if (place := got.find(b'"ReceiptHandle":"')) > 0:
                        made.handles = made.handles[-20:] + [got[place + 17:].split(b'"')[0].decode()]
                    if not got:
                        break
        except (OSError, TimeoutError):
            pass


class Ordinary:
    """Sends messages in order, and receives and deletes each of them."""

    def __init__(self, gateway: Started, name: str, ended: threading.Event) -> None:
        self.call = ByJson(gateway.url)
        self.name = name
        self.ended = ended
        self.done = 0
        self.slowest = 0.0
        self.failures: list[BaseException] = []

    def served(self, action: str, **members: Any) -> dict[str, Any]:
        """What is refused since there is no room is tried again, as SDKs do it."""
        begun = time.monotonic()
        while True:
            try:
                answer = self.call(action, QueueUrl=self.name, **members)
                self.slowest = max(self.slowest, time.monotonic() - begun)
                return answer
            except Refused as refusal:
                if refusal.code not in ("OverLimit", "ServiceUnavailable") or time.monotonic() - begun > 60:
                    raise
                if refusal.code == "OverLimit":
                    make_room(self.call)
                pace(0.02)

    def run(self) -> None:
        try:
            self.call("CreateQueue", QueueName=self.name, Attributes={"FifoQueue": "true", "ContentBasedDeduplication": "true"})
            while not self.ended.is_set():
                self.served("SendMessage", MessageBody=str(self.done), MessageGroupId="g")
                (message,) = self.served("ReceiveMessage", WaitTimeSeconds=5)["Messages"]
                assert message["Body"] == str(self.done)
                self.served("DeleteMessage", ReceiptHandle=message["ReceiptHandle"])
                self.done += 1
        except BaseException as error:
            self.failures.append(error)


def make_room(call: ByJson) -> None:
    for url in call("ListQueues", QueueNamePrefix="made-").get("QueueUrls", []):
        for action in ("PurgeQueue", "DeleteQueue"):
            try:
                call(action, QueueUrl=url)
            except Refused:
                pass


def test_made_requests_end_nothing_and_others_are_served(monkeypatch, tmp_path):
    print(f"HOBBYCHAIR_TEST_SEED={SEED}")
    limited = tmp_path / "limited"
    limited.write_text(f'#!/bin/sh\nulimit -v {MEMORY}\nexec {command()[0]} "$@" 2>>{tmp_path}/log\n')
    limited.chmod(0o755)
    monkeypatch.setenv("HOBBYCHAIR_GATEWAY", str(limited))
    gateway = Started("--memory", "256MiB", "--journal", str(tmp_path / "journal"), "--journal-size", "1GiB", "--admin", "0",
                      "--no-pauses")
    try:
        programs = programs_of(gateway)
        ended = threading.Event()
        ordinary = [Ordinary(gateway, f"ordinary-{place}.fifo", ended) for place in range(2)]
        with meanwhile(*[one.run for one in ordinary]):
            try:
                at_once([partial(attack, gateway, SEED + place, REQUESTS // CLIENTS) for place in range(CLIENTS)])
            finally:
                ended.set()
        log = (tmp_path / "log").read_text()
        assert [one.failures for one in ordinary] == [[], []], (SEED, log)
        assert all(one.done > 0 and one.slowest < 30 for one in ordinary)
        print([(one.done, round(one.slowest, 2)) for one in ordinary])
        assert gateway.process.poll() is None and programs_of(gateway) == programs, (SEED, log)
        assert "ERROR" not in log
        assert figure(gateway, "hobbychair_cq_restarts_total") == 0
        is_well(gateway)
    finally:
        assert gateway.stop() == 0, (SEED, (tmp_path / "log").read_text())
