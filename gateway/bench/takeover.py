#!/usr/bin/env python3
"""How long a change of head takes with many messages: three nodes and a front on this machine, whose queues have so many messages
of 100 bytes. One client asks by the front all the while, one request after the other. The node of the head is killed, with its
server and its gateway, and for each phase a line says when it ended, in seconds behind that. The programs have to be built:
`./cq --build`, and in gateway/ `cargo build --release`. It needs etcd.

    gateway/bench/takeover.py --messages 1000000 --runs 3
"""

from __future__ import annotations

import argparse
import http.client
import json
import os
import re
import sys
import tempfile
import threading
import time
from datetime import datetime
from pathlib import Path
from urllib.parse import urlsplit

TOP = Path(__file__).resolve().parents[2]
sys.path.insert(0, str(TOP / "gateway" / "tests" / "lib"))

from cluster_work import Served  # noqa: E402
from clusters import Node  # noqa: E402
from waiting import until  # noqa: E402

HEADERS = {"Content-Type": "application/x-amz-json-1.0"}
BODY = "x" * 100

# What the log of the next head's node says, and its gateway by it.
PHASES = [
    ("a gateway is started ahead", "may soon be the head"),
    ("its process runs", "a gateway begins"),
    ("the first chunk of the store is read", "the store begins"),
    ("the last one is", "the store is told"),
    ("the tables are made", "the tables are made"),
    ("the loss is known", "a server is gone"),
    ("the server is the head", " head=true"),
    ("the gateway may ask", "the gateway may ask"),
    ("it serves", "the gateway serves"),
]


class Connection:
    def __init__(self, url: str) -> None:
        address = urlsplit(url)
        self.connection = http.client.HTTPConnection(address.hostname, address.port, timeout=120)

    def call(self, action: str, members: dict) -> int:
        self.connection.request("POST", "/", json.dumps(members), {**HEADERS, "X-Amz-Target": f"AmazonSQS.{action}"})
        response = self.connection.getresponse()
        response.read()
        return response.status


def fill(url: str, queues: int, messages: int) -> None:
    def send(queue: int) -> None:
        name, connection = f"q{queue}.fifo", Connection(url)
        made = connection.call("CreateQueue", {"QueueName": name, "Attributes": {"FifoQueue": "true"}})
        assert made == 200, made
        for first in range(queue * 10, messages, queues * 10):
            entries = [{"Id": str(place), "MessageBody": BODY, "MessageGroupId": str(place % 1000),
                        "MessageDeduplicationId": str(place)} for place in range(first, min(first + 10, messages))]
            sent = connection.call("SendMessageBatch", {"QueueUrl": name, "Entries": entries})
            assert sent == 200, sent

    threads = [threading.Thread(target=send, args=(queue,)) for queue in range(queues)]
    for thread in threads:
        thread.start()
    for thread in threads:
        thread.join()


class Asking:
    """Asks by a front, and knows when each answer came."""

    def __init__(self, url: str) -> None:
        self.url, self.is_over = url, False
        self.answers: list[float] = []
        self.errors = 0
        self.thread = threading.Thread(target=self.ask)
        self.thread.start()

    def ask(self) -> None:
        connection = Connection(self.url)
        while not self.is_over:
            status = connection.call("GetQueueAttributes", {"QueueUrl": "q0.fifo", "AttributeNames": ["All"]})
            self.answers.append(time.time())
            self.errors += status != 200
            time.sleep(0.005)

    def end(self) -> None:
        self.is_over = True
        self.thread.join()

    def longest_pause(self) -> float:
        return max(after - before for before, after in zip(self.answers, self.answers[1:]))


def moment(line: str) -> float | None:
    found = re.match(r"(\d{4}-\d\d-\d\dT\d\d:\d\d:\d\d\.\d+)Z", line)
    return datetime.fromisoformat(found[1] + "+00:00").timestamp() if found else None


def tell(node: Node, killed: float, asking: Asking) -> None:
    told = []
    for phase, said in PHASES:
        lines = [line for line in node.log.read_text().splitlines() if said in line]
        moments = [at for line in lines if (at := moment(line)) is not None and at >= killed]
        if moments:
            told.append((moments[-1], phase))
    first = next(at for at in asking.answers if at > max([at for at, _ in told], default=killed) - 0.05)
    told.append((first, "the first answer came by the front"))
    for at, phase in sorted(told):
        print(f"{at - killed:7.2f}  {phase}")
    print(f"{asking.longest_pause():7.2f}  was the longest time without an answer; {asking.errors} errors", flush=True)


def run(room: Path, messages: int, queues: int) -> None:
    served = Served(room, words=lambda number: ["--memory", "8GiB"], traced=False)
    try:
        cluster, begun = served.cluster, time.monotonic()
        fill(f"http://127.0.0.1:{cluster.node(1).gateway_port}", queues, messages)
        print(f"{messages} messages sent in {time.monotonic() - begun:.0f} s; load {os.getloadavg()[0]:.1f}", flush=True)
        asking = Asking(served.front.url)
        time.sleep(2)
        killed = time.time()
        cluster.kill(1)
        try:
            until(lambda: cluster.gateway_acts(2), 60, "no gateway acts")
            until(lambda: bool(asking.answers) and asking.answers[-1] > time.time() - 0.5, 60, "nobody answers")
            time.sleep(1)
        finally:
            asking.end()
        tell(cluster.node(2), killed, asking)
    finally:
        served.end()


def main() -> int:
    parser = argparse.ArgumentParser(description=__doc__, formatter_class=argparse.RawDescriptionHelpFormatter)
    parser.add_argument("--messages", type=int, default=1_000_000)
    parser.add_argument("--queues", type=int, default=8)
    parser.add_argument("--runs", type=int, default=1)
    given = parser.parse_args()
    for _ in range(given.runs):
        with tempfile.TemporaryDirectory() as room:
            run(Path(room), given.messages, given.queues)
    return 0


if __name__ == "__main__":
    sys.exit(main())
