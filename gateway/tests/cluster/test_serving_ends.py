"""Heads whose gateways end again and again: those that never serve are given up."""

import time

import pytest

from cluster_serving import BEGINNING, Configured, end_gateway, ending, never_begins, unserved
from waiting import pace, until


@pytest.mark.parametrize(("after", "most"), [(0, 40), (4000, 50)], ids=["at once", "each four seconds"])
def test_a_head_whose_gateways_end_again_and_again_is_given_up(tmp_path, after, most):
    """As where each crashes once it has read the store."""
    with ending(tmp_path, size=4) as one:
        one.served.queue("q")
        until(lambda: one.ready()[3] is True, 40, "it doesn't stand ready")
        never_begins(one.cluster, 2, after)
        begun = time.monotonic()
        one.cluster.kill(1)
        until(one.sends(), most + 10, "nobody is answered")
        took = time.monotonic() - begun
        print(f"{took:.1f} s without an answer")
        assert BEGINNING < took < most
        assert one.cluster.chain()["members"] == [3, 4] and unserved(one.cluster) == [2]


def test_a_head_whose_gateway_serves_between_its_ends_stays(tmp_path):
    with Configured(tmp_path) as one:
        one.served.queue("q")
        until(lambda: one.ready() == {server: True for server in (1, 2, 3)}, 40, "not all stand ready")
        send, answered = one.sends(), 0
        for _ in range(4):
            begun = time.monotonic()
            while time.monotonic() - begun < 8:
                answered += send()
                pace(0.1)
            end_gateway(one.cluster, 1)
        until(send, 40, "nobody is answered")
        print(f"{answered} answers")
        assert answered > 40 and one.cluster.detected() == []
