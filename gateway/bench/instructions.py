#!/usr/bin/env python3
"""How many instructions gateways take for a send, a receive and a delete, by callgrind of valgrind.

64 requests at once over 64 connections that are kept alive, messages of 100 bytes, each in a group of its own:
`instructions.py [--journal] [--requests 2000] [--bytes 100] NAME=PROGRAM ..`. A count varies by a hundredth from run to run, whatever
else the machine does; what the system and cq do for a request isn't in it. HOBBYCHAIR_CQ names the program cq.
"""

from __future__ import annotations

import argparse
import json
import os
import re
import socket
import subprocess
import tempfile
from collections.abc import Callable
from pathlib import Path

CONNECTIONS = 64
QUEUE = "q.fifo"
# Nobody looks at the signature.
AUTHORIZATION = ("AWS4-HMAC-SHA256 Credential=any/20260101/us-east-1/sqs/aws4_request, SignedHeaders=host, "
                 "Signature=00")


class Counted:
    """A gateway under callgrind."""

    def __init__(self, program: str, room: Path, journal: bool) -> None:
        self.out = room / "out"
        words = ["valgrind", "--quiet", "--tool=callgrind", f"--callgrind-out-file={self.out}", program, "serve", "--port", "0"]
        words += ["--journal", str(room / "journal")] if journal else []
        self.process = subprocess.Popen(words, stdout=subprocess.PIPE, text=True)
        for line in self.process.stdout:
            if line.startswith("listening on "):
                self.port = int(line.rsplit(":", 1)[1])
                break
        else:
            raise RuntimeError(f"{program} ended with {self.process.wait()}")
        self.connections = [socket.create_connection(("127.0.0.1", self.port)) for _ in range(CONNECTIONS)]

    def control(self, *words: str) -> None:
        subprocess.run(["callgrind_control", *words, str(self.process.pid)], check=True, capture_output=True)

    def begin(self, place: int, action: str, members: dict) -> None:
        body = json.dumps(members)
        head = (f"POST / HTTP/1.1\r\nhost: 127.0.0.1:{self.port}\r\nx-amz-target: AmazonSQS.{action}\r\n"
                f"content-type: application/x-amz-json-1.0\r\nauthorization: {AUTHORIZATION}\r\ncontent-length: {len(body)}\r\n\r\n")
        self.connections[place].sendall((head + body).encode())

    def end(self, place: int) -> dict:
        got = b""
        while b"\r\n\r\n" not in got:
            got += self.connections[place].recv(1 << 16)
        head, body = got.split(b"\r\n\r\n", 1)
        length = int(re.search(rb"content-length: (\d+)", head, re.IGNORECASE)[1])
        while len(body) < length:
            body += self.connections[place].recv(1 << 16)
        if not head.startswith(b"HTTP/1.1 200 "):
            raise RuntimeError(f"{head!r} {body!r}")
        return json.loads(body or b"{}")

    def count(self, action: str, requests: int, members: Callable[[int], dict]) -> tuple[float, list[dict]]:
        """The instructions of a request, and the answers."""
        self.control("--zero")
        answers = []
        for begun in range(0, requests, CONNECTIONS):
            some = range(begun, min(begun + CONNECTIONS, requests))
            for request in some:
                self.begin(request - begun, action, members(request))
            answers += [self.end(request - begun) for request in some]
        before = set(self.out.parent.glob("out.*"))
        self.control(f"--dump={action}")
        (dump,) = set(self.out.parent.glob("out.*")) - before
        return int(re.search(r"^(?:summary|totals): (\d+)", dump.read_text(), re.MULTILINE)[1]) / requests, answers

    def works(self, requests: int, length: int) -> dict[str, float]:
        self.begin(0, "CreateQueue", {"QueueName": QUEUE, "Attributes": {"FifoQueue": "true", "VisibilityTimeout": "600"}})
        url = self.end(0)["QueueUrl"]
        for place in range(CONNECTIONS):
            self.begin(place, "GetQueueUrl", {"QueueName": QUEUE})
        for place in range(CONNECTIONS):
            self.end(place)
        sends, _ = self.count("SendMessage", requests, lambda request: {
            "QueueUrl": url, "MessageBody": "x" * length, "MessageGroupId": str(request), "MessageDeduplicationId": str(request)})
        receives, received = self.count("ReceiveMessage", requests, lambda _: {"QueueUrl": url, "MaxNumberOfMessages": 1})
        handles = [one["Messages"][0]["ReceiptHandle"] for one in received]
        deletes, _ = self.count("DeleteMessage", requests, lambda request: {"QueueUrl": url, "ReceiptHandle": handles[request]})
        return {"send": sends, "receive": receives, "delete": deletes}

    def stop(self) -> None:
        self.process.terminate()
        self.process.wait()


def main() -> None:
    parser = argparse.ArgumentParser(description=__doc__, formatter_class=argparse.RawDescriptionHelpFormatter)
    parser.add_argument("--journal", action="store_true")
    parser.add_argument("--requests", type=int, default=2000)
    parser.add_argument("--bytes", type=int, default=100)
    parser.add_argument("gateways", nargs="+", metavar="NAME=PROGRAM")
    options = parser.parse_args()
    for gateway in options.gateways:
        name, program = gateway.split("=", 1)
        with tempfile.TemporaryDirectory() as room:
            counted = Counted(os.path.abspath(program), Path(room), options.journal)
            try:
                told = counted.works(options.requests, options.bytes)
            finally:
                counted.stop()
        print(f"{name:12} " + "  ".join(f"{work} {count:,.0f}" for work, count in told.items()), flush=True)


if __name__ == "__main__":
    main()
