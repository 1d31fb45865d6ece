#!/usr/bin/env python3
"""How fast a cluster on this machine is, in four parts:

    speed     sends, receives and deletes at one gateway with one cq, at the gateway of the head of a chain of three, and by a front
    members   the same at the head, with one connection, of chains of one to four servers
    join      how long a node takes to join a store of many messages while clients send, and how long one of them waits at most
    etcd      how many transactions a second come to etcd, while nobody asks for anything and while clients send

Nothing keeps a journal. The programs have to be built: `./cq --build`, and in gateway/ `cargo build --release` and
`cargo build --release --example load`. It needs etcd.

    gateway/bench/cluster.py speed members join etcd
"""

from __future__ import annotations

import argparse
import re
import subprocess
import sys
import tempfile
import threading
import time
import urllib.request
from pathlib import Path

TOP = Path(__file__).resolve().parents[2]
sys.path.insert(0, str(TOP / "gateway" / "tests" / "lib"))

from cluster_work import Served  # noqa: E402
from started import Started  # noqa: E402
from waiting import until  # noqa: E402
from takeover import BODY, Connection, fill  # noqa: E402

LOAD = TOP / "gateway" / "target" / "release" / "examples" / "load"


def load(targets: dict[str, str], connections: str, messages: int) -> None:
    words = [word for name, url in targets.items() for word in ("--target", f"{name}={url}")]
    subprocess.run([LOAD, *words, "--connections", connections, "--messages", str(messages), "--batches", "1"], check=True)


def gateway_of_head(served: Served) -> str:
    return f"http://127.0.0.1:{served.cluster.node(1).gateway_port}"


class Measured:
    """A cluster in a folder of its own, which ends with what is measured."""

    def __init__(self, size: int = 3) -> None:
        self.room = tempfile.TemporaryDirectory()
        self.served = Served(Path(self.room.name), size=size, words=lambda number: ["--memory", "8GiB"], traced=False)

    def __enter__(self) -> Served:
        return self.served

    def __exit__(self, *_: object) -> None:
        self.served.end()
        self.room.cleanup()


def speed(messages: int) -> None:
    alone = Started()
    try:
        with Measured() as served:
            load({"alone": alone.url, "head": gateway_of_head(served)}, "64", messages)
            # The head's gateway and the front have the same queues, and each run has its own.
            load({"front": served.front.url}, "64", messages)
    finally:
        alone.kill()


def members(messages: int) -> None:
    for size in (1, 2, 3, 4):
        with Measured(size) as served:
            load({f"{size} servers": gateway_of_head(served)}, "1", messages // 10)


class Sending:
    """Clients that send by a front, one request after the other, and how long the longest answer took."""

    def __init__(self, url: str, clients: int = 4) -> None:
        self.url, self.is_over, self.longest, self.sent = url, False, 0.0, 0
        self.threads = [threading.Thread(target=self.send, args=(client,)) for client in range(clients)]
        for thread in self.threads:
            thread.start()

    def send(self, client: int) -> None:
        connection, number = Connection(self.url), 0
        while not self.is_over:
            number += 1
            members = {"QueueUrl": "q0.fifo", "MessageBody": BODY, "MessageGroupId": f"c{client}",
                       "MessageDeduplicationId": f"c{client}-{number}"}
            begun = time.monotonic()
            status = connection.call("SendMessage", members)
            assert status == 200, status
            self.longest = max(self.longest, time.monotonic() - begun)
            self.sent += 1

    def end(self) -> None:
        self.is_over = True
        for thread in self.threads:
            thread.join()


def join(stored: int) -> None:
    with Measured() as served:
        fill(gateway_of_head(served), 8, stored)
        sending, cluster = Sending(served.front.url), served.cluster
        try:
            time.sleep(2)
            before, longest = sending.sent, sending.longest
            begun = time.monotonic()
            cluster.start_node()
            until(cluster.settles([1, 2, 3, 4]), 120, "it doesn't become a member")
            took = time.monotonic() - begun
        finally:
            sending.end()
        print(f"join: a member {took:.1f} s behind its start, with {stored} messages; {sending.sent - before} sends meanwhile, "
              f"the longest {sending.longest:.2f} s, and {longest:.3f} s before", flush=True)


def transactions(served: Served) -> float:
    with urllib.request.urlopen(served.cluster.etcd.urls[0] + "/metrics", timeout=10) as answer:
        text = answer.read().decode()
    handled = re.findall(r'^grpc_server_handled_total\{.*grpc_method="Txn".*\} (\S+)$', text, re.MULTILINE)
    return sum(float(one) for one in handled)


def rate(served: Served, seconds: float = 20) -> float:
    before, begun = transactions(served), time.monotonic()
    time.sleep(seconds)
    return (transactions(served) - before) / (time.monotonic() - begun)


def etcd(_: int) -> None:
    with Measured() as served:
        fill(gateway_of_head(served), 1, 10)
        idle = rate(served)
        sending = Sending(served.front.url, 16)
        try:
            busy, sent = rate(served), sending.sent
        finally:
            sending.end()
        print(f"etcd: {idle:.1f} transactions a second while nobody asks, {busy:.1f} while {sent} messages are sent in 20 s", flush=True)


PARTS = {"speed": speed, "members": members, "join": join, "etcd": etcd}


def main() -> int:
    parser = argparse.ArgumentParser(description=__doc__, formatter_class=argparse.RawDescriptionHelpFormatter)
    parser.add_argument("parts", nargs="+", choices=PARTS)
    parser.add_argument("--messages", type=int, default=100_000, help="in a run of the first two parts")
    parser.add_argument("--stored", type=int, default=1_000_000, help="before a node joins")
    given = parser.parse_args()
    for part in given.parts:
        PARTS[part](given.stored if part == "join" else given.messages)
    return 0


if __name__ == "__main__":
    sys.exit(main())
