"""Ports of gateways that no front reaches, on machines of their own."""

import time

import pytest

from cluster_serving import REACHING, Asking, gateway_port, reached, unserved
from waiting import holds, pass_time, until


@pytest.mark.parametrize("target", ["DROP", "REJECT"])
def test_a_head_whose_gateway_no_front_reaches_is_given_up_though_its_node_is_reached(machines, target):
    asking, rules = Asking(machines), gateway_port(machines, 1, target)
    begun = time.monotonic()
    assert rules.begins()
    try:
        until(lambda: machines.cluster.chain()["members"] == [2, 3], 40, "the head stays")
        until(lambda: machines.cluster.gateway_acts(2), 30, "no gateway acts")
        pass_time(begun + 45 - time.monotonic(), "it stays closed for as long as the find needed")
    finally:
        rules.ends()
    asking.end()
    print(f"{asking.longest_silence(begun):.1f} s without an answer")
    assert asking.longest_silence(begun) < 20
    assert unserved(machines.cluster) == machines.cluster.detected() == [1]


@pytest.mark.parametrize("target", ["DROP", "REJECT"])
def test_nobody_is_given_up_where_the_ports_of_all_gateways_are_closed(machines, target):
    all_rules = [gateway_port(machines, server, target) for server in (1, 2, 3)]
    assert all([rules.begins() for rules in all_rules])
    try:
        until(lambda: reached(machines.cluster) == {1: 0, 2: 0, 3: 0}, 40, "somebody is reached")
        holds(lambda: machines.cluster.detected() == [], REACHING + 12, "somebody is given up")
    finally:
        for rules in all_rules:
            rules.ends()
    asking = Asking(machines)
    until(lambda: len(asking.answers) > 10, 40, "nobody is answered")
    asking.end()
