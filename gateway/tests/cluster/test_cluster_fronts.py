"""Fronts as witnesses: which servers they are in contact with, and what becomes of a head whose gateway they don't reach."""

import json
import socket
import struct
import time
from collections.abc import Iterator
from pathlib import Path

import pytest

from cluster_users import AWAY, BATCH, FRONT, PING, REACH, about, frame, frames
from cluster_work import Served
from clusters import NAME, Cluster, run
from waiting import holds, pass_time, until


@pytest.fixture
def cluster(tmp_path: Path) -> Iterator[Cluster]:
    with Cluster(tmp_path, gateways=True) as one:
        yield one


@pytest.fixture
def served(tmp_path: Path) -> Iterator[Served]:
    """It has no fronts yet."""
    with Served(tmp_path, fronts=0) as one:
        yield one


def said(cluster: Cluster, what: str) -> list:
    """What the last beat of each server says; nothing where etcd doesn't answer now."""
    try:
        beats = cluster.etcd.read(f"{cluster.root}/beat/")
    except ConnectionError:
        return []
    return [json.loads(beats[key]).get(what) for key in sorted(beats)]


def fronts(cluster: Cluster) -> list[int]:
    """How many are in contact with each server, as the last beats say."""
    return [count or 0 for count in said(cluster, "fronts")]


class Witness:
    """A front of the test's own, which pings when it is told to."""

    def __init__(self, cluster: Cluster, server: int) -> None:
        self.socket = socket.create_connection(("127.0.0.1", cluster.node(server).port))
        self.socket.settimeout(20)
        self.frames = frames.frames(self.socket.makefile("rb"))
        self.socket.sendall(frame(FRONT, about(cluster)))

    def ping(self) -> bytes:
        """As a front that says nothing of gateways."""
        self.socket.sendall(frame(PING, bytes(8)))
        return next(self.frames)

    def tell(self, head: int, reaches_head: bool, reaches_this: bool) -> bytes:
        """The same, with which gateways' ports it reaches."""
        self.socket.sendall(frame(REACH, struct.pack("<IBB", head, reaches_head, reaches_this)))
        return next(self.frames)


def test_each_server_says_how_many_fronts_are_in_contact(served):
    cluster = served.cluster
    for count in (1, 2):
        served.add_front()
        until(lambda: fronts(cluster) == [count] * 3, 30, "not all servers are reached")
    until(lambda: said(cluster, "witnesses") == [{"head": 1, "reach_head": 2, "reach_this": 2}] * 3, 30, "not all gateways are reached")

    def shown() -> list[list[str]]:
        rows = run("cluster", "status", *cluster.which("front")).stdout.splitlines()
        places = [rows[1].split().index(name) for name in ("fronts", "reach", "gateway")]
        return [[row.split()[place] for place in places] for row in rows[2:5]]

    wanted = [["2", "2", "acts"], *[["2", "2", "ready"]] * 2]
    until(lambda: shown() == wanted, 30, lambda: f"the status says otherwise: {shown()}")
    cluster.start_node()
    until(cluster.settles([1, 2, 3, 4]), 40, "it doesn't join")
    until(lambda: fronts(cluster) == [2] * 4, 30, "the one that joined isn't reached")
    served.fronts.pop().kill()
    until(lambda: fronts(cluster) == [1] * 4, 30, "a front that is gone counts")
    assert cluster.detected() == []


def test_a_head_whose_gateway_no_front_reaches_is_given_up(served):
    cluster = served.cluster
    proxy = cluster.put_between(cluster.node(1), "gateway")
    served.add_front()
    until(lambda: said(cluster, "witnesses") == [{"head": 1, "reach_head": 1, "reach_this": 1}] * 3, 30, "not all are reached")
    queue = served.queue("q.fifo")
    served.sqs.send_message(QueueUrl=queue, MessageBody="a", MessageGroupId="g", MessageDeduplicationId="a")
    proxy.end()
    until(cluster.settles([2, 3]), 40, "the head stays")
    served.sqs.send_message(QueueUrl=queue, MessageBody="b", MessageGroupId="g", MessageDeduplicationId="b")
    assert [message["Body"] for message in served.receive(queue)] == ["a", "b"]
    why = "the gateway of the head is reached by no front, and another one's is"
    until(lambda: any(why in log.read_text() for log in cluster.room.glob("master*.log")), 10, "no candidate says why")
    assert cluster.detected() == [1] and cluster.log()[0] == {"detect": {"server": 1, "unserved": True}}


def test_a_head_whose_node_no_front_reaches_stays_where_its_gateway_is_reached(served):
    cluster = served.cluster
    # The nodes know the way to each other already. So only fronts go by this one.
    cluster.put_between(cluster.node(1))
    served.add_front()
    until(lambda: fronts(cluster) == [1, 1, 1], 30, "not all servers are reached")
    queue = served.queue("q")
    cluster.between[0].cut()
    until(lambda: fronts(cluster) == [0, 1, 1], 30, "the head's node is reached")
    holds(lambda: served.sqs.send_message(QueueUrl=queue, MessageBody="a"), 8, "a send isn't answered", 0.1)
    assert cluster.detected() == []


def test_a_head_that_one_front_reaches_stays(cluster):
    until(lambda: cluster.gateway_acts(1), 40, "no gateway acts")
    one, others = Witness(cluster, 1), [Witness(cluster, server) for server in (2, 2, 3)]

    def tell() -> bool:
        return one.tell(1, True, True)[1] == PING and all(other.tell(1, False, True)[1] == PING for other in others)

    holds(tell, 6, "a front isn't answered", 0.3)
    until(lambda: tell() and fronts(cluster) == [1, 2, 1], 10, "not all fronts count", 0.3)
    assert cluster.detected() == []
    # And goes where that one is gone. One that says nothing of gateways, or takes another one for the head, is no witness.
    one.socket.close()
    ones = [Witness(cluster, 1), Witness(cluster, 1)]

    def tell_on() -> None:
        try:
            ones[0].ping()
            ones[1].tell(2, True, True)
        except (OSError, StopIteration):
            assert cluster.detected() == [1], "the head ends a connection, and wasn't given up"
        for other in others:
            other.tell(1, False, True)

    until(lambda: cluster.settles([2, 3])() or tell_on(), 30, "the head stays", 0.3)


def test_a_head_stays_where_no_gateway_is_reached(cluster):
    until(lambda: cluster.gateway_acts(1), 40, "no gateway acts")
    witnesses = [Witness(cluster, server) for server in (1, 2, 3)]

    def tell() -> bool:
        return all(witness.tell(1, False, False)[1] == PING for witness in witnesses)

    nothing = [{"head": 1, "reach_head": 0, "reach_this": 0}] * 3
    until(lambda: tell() and said(cluster, "witnesses") == nothing, 20, "not all fronts count", 0.3)
    holds(tell, 6, "a front isn't answered", 0.3)
    for witness in witnesses:
        witness.socket.close()
    until(lambda: fronts(cluster) == [0, 0, 0] and said(cluster, "witnesses") == [None] * 3, 20, "a front that is gone counts")
    pass_time(6, "a head that no front reaches is given up within that time")
    assert cluster.detected() == []


def test_strangers_are_no_fronts(cluster):
    for greeting, why in [(frame(FRONT, frames.text("other") + frames.text(cluster.incarnation)), "this is a server of cluster"),
                          (frame(FRONT, frames.text(NAME) + frames.text("0")), "this is a server of cluster")]:
        with socket.create_connection(("127.0.0.1", cluster.node(1).port)) as one:
            one.settimeout(20)
            one.sendall(greeting)
            [told] = list(frames.frames(one.makefile("rb")))
            assert told[1] == AWAY and why in told.decode(errors="replace")
    one = Witness(cluster, 1)
    assert one.ping()[1] == PING
    one.socket.sendall(frame(BATCH, bytes(12)))
    assert one.socket.recv(1) == b""
    cluster.node(1).logs("a frame came that doesn't belong to a front")
    # No server has the number 0.
    with pytest.raises(StopIteration):
        Witness(cluster, 1).tell(0, False, True)
    # One that says nothing more isn't in contact, and loses its connection.
    silent, begun = Witness(cluster, 1), time.monotonic()
    assert silent.ping()[1] == PING
    assert silent.socket.recv(1) == b"" and 1.5 < time.monotonic() - begun
    until(lambda: fronts(cluster) == [0, 0, 0], 20, "it counts still")
