"""A cluster on machines of their own: each is a namespace of the network, with an address that others reach."""

import os
import socket
import threading
from collections.abc import Iterator
from pathlib import Path

import pytest

from cluster_network import Network, Rules, why_not
from cluster_work import received
from waiting import until


@pytest.mark.parametrize("machines", [True], indirect=True, ids=["nodes listen everywhere"])
def test_a_cluster_on_machines_of_their_own_serves_and_loses_one(machines):
    queue = machines.queue("q")
    for body in "abc":
        machines.sqs.send_message(QueueUrl=queue, MessageBody=body)
    [first] = machines.sqs.receive_message(QueueUrl=queue, WaitTimeSeconds=10)["Messages"]
    machines.delete(queue, first)
    machines.cluster.network.unplug(machines.cluster.node(1).machine)
    until(lambda: machines.cluster.gateway_acts(2), 60, "the next one doesn't act")
    machines.sqs.send_message(QueueUrl=queue, MessageBody="d")
    received(machines.sqs, "q", [body for body in "abcd" if body != first["Body"]])


# ---- the machines themselves


@pytest.fixture
def network() -> Iterator[Network]:
    reason = why_not(("ip", "nsenter", "iptables"))
    if reason:
        pytest.skip(reason)
    one = Network([1, 2, 3])
    try:
        one.begin()
        yield one
    finally:
        one.end()


class Echo:
    """Says on a machine what it hears there, by connections that others of this test make."""

    def __init__(self, network: Network, machine: int) -> None:
        self.network, self.machine, self.heard = network, machine, 0
        with network.entered(machine):
            self.listener = socket.create_server(("0.0.0.0", 7001))
        threading.Thread(target=self.accept, daemon=True).start()

    def accept(self) -> None:
        while True:
            try:
                connection, _ = self.listener.accept()
            except OSError:
                return
            threading.Thread(target=self.echo, args=(connection,), daemon=True).start()

    def echo(self, connection: socket.socket) -> None:
        while data := connection.recv(1000):
            self.heard += len(data)
            connection.sendall(data)

    def connection(self, machine: int) -> socket.socket:
        """From that machine."""
        with self.network.entered(machine):
            connection = socket.create_connection((self.network.address(self.machine), 7001), timeout=5)
        assert is_carried(connection)
        return connection


def is_carried(connection: socket.socket, patience: float = 5) -> bool:
    connection.settimeout(patience)
    try:
        connection.sendall(b"x")
        return connection.recv(1) == b"x"
    except TimeoutError:
        return False


CUTS = {
    "what comes is lost": ([("INPUT", "--source", "10.213.0.1")], 0),
    "what is said is lost": ([("OUTPUT", "--destination", "10.213.0.1")], 1),
    "both are lost": ([("INPUT", "--source", "10.213.0.1"), ("OUTPUT", "--destination", "10.213.0.1")], 0),
    "all is lost": ([("INPUT", "--match", "statistic", "--mode", "random", "--probability", "1")], 0),
}


@pytest.mark.parametrize("cut", CUTS)
def test_a_cut_carries_nothing_one_way_or_both_and_others_are_reached(network, cut):
    echo = Echo(network, 2)
    one, other = echo.connection(1), echo.connection(3)
    rules, heard = CUTS[cut]
    rules = Rules(network, 2, rules)
    before = echo.heard
    assert rules.begins()
    try:
        assert not is_carried(one, 0.5)
        until(lambda: echo.heard == before + heard, 5, "it hears something else")
        if cut != "all is lost":
            assert is_carried(other)
    finally:
        assert rules.ends() > 0
    # What was said meanwhile comes now, and what is said from now on.
    one.settimeout(20)
    assert one.recv(1) == b"x" and is_carried(one)
    echo.listener.close()


def test_of_the_packets_a_part_is_lost(network):
    echo = Echo(network, 2)
    one = echo.connection(1)
    part = ("--match", "statistic", "--mode", "random", "--probability", "0.3")
    rules = Rules(network, 2, [("INPUT", "--in-interface", "net", *part)])
    assert rules.begins()
    carried = [is_carried(one, 30) for _ in range(20)]
    assert rules.ends() > 0 and all(carried)
    echo.listener.close()


def test_nothing_stays_of_a_network(network):
    names = [*network.names.values(), network.switch]
    assert all(Path("/run/netns", name).exists() for name in names)
    here = os.readlink("/proc/thread-self/ns/net")
    with network.entered(1):
        assert os.readlink("/proc/thread-self/ns/net") != here
    assert os.readlink("/proc/thread-self/ns/net") == here
    network.end()
    assert not any(Path("/run/netns", name).exists() for name in names)
