#!/usr/bin/env python3
"""How long a gateway takes to start from a journal of many messages.

Sends so many messages of 100 bytes in batches of ten, receives and deletes a part of them, ends the gateway by SIGKILL,
and starts it again: `starts.py --messages 1000000 --deleted 500000`. HOBBYCHAIR_GATEWAY and HOBBYCHAIR_CQ name the programs.
"""

from __future__ import annotations

import argparse
import http.client
import json
import os
import subprocess
import tempfile
import threading
import time
from pathlib import Path
from urllib.parse import urlsplit

HEADERS = {"Content-Type": "application/x-amz-json-1.0"}
BODY = "x" * 100


class Connection:
    def __init__(self, url: str) -> None:
        address = urlsplit(url)
        self.connection = http.client.HTTPConnection(address.hostname, address.port, timeout=120)

    def call(self, action: str, members: dict) -> dict:
        self.connection.request("POST", "/", json.dumps(members), {**HEADERS, "X-Amz-Target": f"AmazonSQS.{action}"})
        response = self.connection.getresponse()
        body = response.read()
        if response.status != 200:
            raise RuntimeError(f"{action}: {response.status} {body[:300]!r}")
        return json.loads(body or b"{}")


def start(journal: Path) -> tuple[subprocess.Popen, str, float]:
    begun = time.monotonic()
    words = [os.environ["HOBBYCHAIR_GATEWAY"], "serve", "--port", "0", "--journal", str(journal), "--journal-size", "4GiB"]
    process = subprocess.Popen(words, stdout=subprocess.PIPE, text=True)
    for line in process.stdout:
        if line.startswith("listening on "):
            return process, line.split()[-1], time.monotonic() - begun
    raise RuntimeError(f"the gateway ended with {process.wait()}")


def side_by_side(url: str, queues: int, work) -> None:
    threads = [threading.Thread(target=work, args=(Connection(url), f"q{queue}.fifo")) for queue in range(queues)]
    for thread in threads:
        thread.start()
    for thread in threads:
        thread.join()


def main() -> None:
    parser = argparse.ArgumentParser(description=__doc__)
    parser.add_argument("--messages", type=int, default=1_000_000)
    parser.add_argument("--deleted", type=int, default=500_000)
    parser.add_argument("--queues", type=int, default=4)
    options = parser.parse_args()
    each, gone = options.messages // options.queues, options.deleted // options.queues

    def send(connection: Connection, name: str) -> None:
        connection.call("CreateQueue", {"QueueName": name, "Attributes": {"FifoQueue": "true", "VisibilityTimeout": "43200"}})
        for first in range(0, each, 10):
            entries = [{"Id": str(place), "MessageBody": BODY, "MessageGroupId": str(place % 1000),
                        "MessageDeduplicationId": str(place)} for place in range(first, first + 10)]
            connection.call("SendMessageBatch", {"QueueUrl": name, "Entries": entries})

    def delete(connection: Connection, name: str) -> None:
        for _ in range(0, gone, 10):
            messages = connection.call("ReceiveMessage", {"QueueUrl": name, "MaxNumberOfMessages": 10})["Messages"]
            entries = [{"Id": str(place), "ReceiptHandle": message["ReceiptHandle"]} for place, message in enumerate(messages)]
            connection.call("DeleteMessageBatch", {"QueueUrl": name, "Entries": entries})

    with tempfile.TemporaryDirectory() as room:
        journal = Path(room) / "journal"
        process, url, _ = start(journal)
        begun = time.monotonic()
        side_by_side(url, options.queues, send)
        sent = time.monotonic()
        side_by_side(url, options.queues, delete)
        print(f"{options.messages} sent in {sent - begun:.1f} s, {options.deleted} deleted in {time.monotonic() - sent:.1f} s")
        process.kill()
        process.wait()
        size = sum(file.stat().st_blocks * 512 for file in Path(room).iterdir())
        for _ in range(2):
            process, url, seconds = start(journal)
            told = Connection(url).call("GetQueueAttributes", {"QueueUrl": "q0.fifo", "AttributeNames": ["All"]})["Attributes"]
            count = int(told["ApproximateNumberOfMessages"]) + int(told["ApproximateNumberOfMessagesNotVisible"])
            print(f"a start from {size >> 20} MiB took {seconds:.1f} s; q0.fifo has {count} messages of {each - gone}")
            process.kill()
            process.wait()


main()
