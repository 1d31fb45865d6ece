"""Heads that some fronts reach, or that are reached now and then, stay."""

import time

from cluster_network import Rules
from cluster_serving import REACHING, Asking, gateway_port, reached
from clusters import GATEWAYS
from waiting import holds, pace, until


def test_a_port_that_opens_and_closes_costs_no_head(machines):
    """Each two seconds, for half a minute."""
    asking, begun = Asking(machines), time.monotonic()
    while time.monotonic() - begun < 30:
        rules = gateway_port(machines, 1, "DROP")
        assert rules.begins()
        pace(2)
        rules.ends()
        pace(2)
    until(lambda: asking.longest_silence(time.monotonic() - 1) < 1, 40, "nobody is answered")
    asking.end()
    assert machines.cluster.detected() == []
    assert asking.longest_silence(begun) < 15


def test_a_head_stays_as_long_as_one_front_reaches_its_gateway(machines):
    """One front is cut off from it, and sees others; the other one sees it alone."""
    network, layout = machines.cluster.network, machines.cluster.layout

    def cut(front: int, *servers: int) -> Rules:
        ports = [str(machines.cluster.node(server).gateway_port) for server in servers]
        return Rules(network, layout.of_front(front), [("OUTPUT", "--protocol", "tcp", "--destination-port", port) for port in ports])

    first, second = cut(0, 1), cut(1, 2, 3)
    assert first.begins() and second.begins()
    until(lambda: reached(machines.cluster) == {1: 1, 2: 1, 3: 1}, 40, "they reach others")
    holds(lambda: machines.cluster.detected() == [], REACHING + 7, "the head goes")
    # The second one is cut off by itself, and then nobody reaches the head's.
    third = cut(1, 1)
    assert third.begins()
    until(lambda: machines.cluster.chain()["members"] == [2, 3], 40, "the head stays")
    for rules in (first, second, third):
        rules.ends()
    until(lambda: machines.cluster.gateway_acts(2), 30, "no gateway acts")


def test_a_front_that_is_cut_off_by_itself_costs_no_head(machines):
    network, layout = machines.cluster.network, machines.cluster.layout
    machines.fronts[1].kill()
    ports = [("OUTPUT", "--protocol", "tcp", "--destination-port", str(GATEWAYS + number)) for number in (1, 2, 3)]
    rules = Rules(network, layout.of_front(0), ports)
    assert rules.begins()
    until(lambda: reached(machines.cluster) == {1: 0, 2: 0, 3: 0}, 40, "somebody is reached")
    holds(lambda: machines.cluster.detected() == [], REACHING + 7, "the head goes")
    rules.ends()
    # Where it reaches gateways and not the head's node, that one serves.
    node = Rules(network, machines.cluster.node(1).machine, [("INPUT", "--protocol", "tcp", "--destination-port", "7001", "--source",
                                                             network.address(layout.of_front(0)))])
    assert node.begins()
    asking = Asking(machines)
    holds(lambda: machines.cluster.detected() == [], REACHING + 7, "the head goes")
    until(lambda: len(asking.answers) > 10, 30, "nobody is answered")
    asking.end()
    node.ends()
    assert machines.cluster.detected() == []
