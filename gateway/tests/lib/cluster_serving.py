"""Clusters whose gateways can be kept from serving, and what tells whether the head was given up for that."""

import json
import signal
import threading
import time
from collections.abc import Callable
from pathlib import Path
from typing import Any

import pytest

from cluster_network import Network, Rules
from cluster_work import Served
from clusters import Cluster, Layout, run, send
from preloaded import built
from started import boto3_client
from waiting import pace, until

# A head is given up behind ten seconds in which its gateway can't begin, or three in which no front reaches that.
BEGINNING, REACHING = 10, 3


class Configured:
    """A cluster whose gateways have a file of options each, which a test can spoil."""

    def __init__(self, room: Path, size: int = 3, fronts: int = 1, text: str = "", preloaded: list[Path] | None = None) -> None:
        self.room, self.text = room, text
        for number in range(1, 10):
            self.write(number, text)
        self.served = Served(room, size=size, fronts=fronts, words=lambda number: ["--gateway-config", str(self.file(number))],
                             preloaded=preloaded)
        self.cluster = self.served.cluster

    def file(self, number: int) -> Path:
        return self.room / f"gateway{number}.toml"

    def write(self, number: int, text: str) -> None:
        new = self.room / "new"
        new.write_text(text)
        new.replace(self.file(number))

    def spoil(self, number: int) -> None:
        """It names a file of keys that has none."""
        keys = self.room / "keys.toml"
        keys.write_text("[[key]]\n")
        self.write(number, f'credentials = "{keys}"\n')

    def mend(self, number: int) -> None:
        self.write(number, self.text)

    def status(self) -> dict[str, Any]:
        return json.loads(run("cluster", "status", *self.cluster.which("master"), "--json").stdout)

    def lines(self) -> str:
        return run("cluster", "status", *self.cluster.which("master")).stdout

    def ready(self) -> dict[int, bool | None]:
        return {server["number"]: server["gateway_is_ready"] for server in self.status()["servers"]}

    def sends(self) -> Callable[[], bool]:
        """Whether a send by the front is answered within a second, as long as it is asked."""
        sqs = boto3_client(self.served.front.url, read_timeout=1, connect_timeout=1)

        def send() -> bool:
            try:
                sqs.send_message(QueueUrl=f"{self.served.front.url}/000000000000/q", MessageBody="a")
                return True
            except Exception:  # It isn't answered, or with an error.
                return False
        return send

    def __enter__(self):
        return self

    def __exit__(self, *_: object) -> None:
        print(self.cluster.said())
        self.served.end()


def unserved(cluster: Cluster) -> list[int]:
    """The heads that the log says were given up for their gateways."""
    return [line["detect"]["server"] for line in cluster.log() if line.get("detect", {}).get("unserved")]


def ending(room: Path, **how: Any) -> Configured:
    """The same, whose gateways can be made to end ahead of their first ask (`ended_between_asks.rs`)."""
    library = built("ended_between_asks.rs", room)
    if library is None:
        pytest.skip("the library that ends gateways can't be built: Debian's rustc has the compiler")
    return Configured(room, preloaded=[library], **how)


def never_begins(cluster: Cluster, server: int, milliseconds: int = 0) -> None:
    """From now on each gateway of that server ends before it serves, so much later than it could."""
    node = cluster.node(server)
    new = node.asks.with_suffix(".new")
    new.write_text(f"never {milliseconds}")
    new.replace(node.asks)


def end_gateway(cluster: Cluster, server: int) -> None:
    send(until(cluster.node(server).gateway, 20, "there is no gateway"), signal.SIGKILL)


def reached(cluster: Cluster) -> dict[int, int]:
    """How many fronts reach the port of each server's gateway, as the last beats say; nothing where etcd doesn't answer now."""
    try:
        beats = cluster.etcd.read(f"{cluster.root}/beat/")
    except ConnectionError:
        return {}
    said = {int(key.rsplit("/", 1)[1]): json.loads(beat).get("witnesses") or {} for key, beat in beats.items()}
    return {server: witnesses.get("reach_this", 0) for server, witnesses in said.items()}


def gateway_port(served: Served, server: int, target: str) -> Rules:
    """What comes to the port of that server's gateway is lost, or refused. Its node is reached."""
    node = served.cluster.node(server)
    rule = ("INPUT", "--protocol", "tcp", "--destination-port", str(node.gateway_port))
    return Rules(served.cluster.network, node.machine, [rule], target)


class Asking:
    """A client of a front, who asks all the while."""

    def __init__(self, served: Served, number: int = 0) -> None:
        self.sqs, self.queue = served.client(number), served.queue("q")
        self.answers: list[float] = []
        self.is_over = False
        self.thread = threading.Thread(target=self.run, args=(served.cluster.network, served.cluster.layout), daemon=True)
        self.thread.start()

    def run(self, network: Network, layout: Layout) -> None:
        with network.entered(layout.of_clients()):
            while not self.is_over:
                try:
                    self.sqs.send_message(QueueUrl=self.queue, MessageBody="a")
                    self.answers.append(time.monotonic())
                except Exception:  # Asked again.
                    pass
                pace(0.05)

    def longest_silence(self, since: float) -> float:
        moments = [since, *(one for one in list(self.answers) if one > since), time.monotonic()]
        return max(after - before for before, after in zip(moments, moments[1:]))

    def end(self) -> None:
        self.is_over = True
        self.thread.join(60)
