"""Heads whose gateways can't begin for their options, and heads whose places are all taken."""

import re
import socket
import time

import pytest

from cluster_serving import BEGINNING, REACHING, Configured, unserved
from waiting import holds, until


def test_nobody_takes_the_port_of_a_gateway_that_is_not_needed_yet(tmp_path):
    with Configured(tmp_path, size=2) as one:
        one.served.queue("q")
        port = one.cluster.node(2).gateway_port
        with pytest.raises(OSError, match="Address already in use"):
            socket.create_server(("127.0.0.1", port))
        # Who comes is ended at once, and a gateway is let in with its first connection.
        with socket.create_connection(("127.0.0.1", port)) as early, pytest.raises(ConnectionResetError):
            early.settimeout(20)
            while early.recv(1):
                pass
        one.cluster.kill(1)
        until(lambda: one.cluster.gateway_acts(2), 60, "no gateway acts")
        assert one.served.counts(f"{one.served.front.url}/000000000000/q") == [0, 0, 0]


def test_a_head_whose_options_were_spoilt_is_given_up_for_the_next_one(tmp_path):
    with Configured(tmp_path, size=4) as one:
        one.served.queue("q")
        until(lambda: one.ready() == {server: True for server in (1, 2, 3, 4)}, 40, "not all stand ready")
        one.spoil(2)
        until(lambda: one.ready()[2] is False, 40, "nobody says that it is spoilt")

        def says_so() -> bool:
            said = one.lines()
            return re.search("the gateway of server 2 doesn't stand ready: .*keys.toml", said) and "the chain waits" not in said

        until(says_so, 20, lambda: f"the status says otherwise: {one.lines()}")
        assert one.cluster.detected() == []
        begun = time.monotonic()
        one.cluster.kill(1)
        until(one.sends(), 60, "nobody is answered")
        took = time.monotonic() - begun
        print(f"{took:.1f} s without an answer")
        assert one.cluster.chain()["members"] == [3, 4]
        assert one.cluster.detected() == [1, 2] and unserved(one.cluster) == [2]
        assert BEGINNING < took < 50
        why = "the gateway of the head can't begin"
        until(lambda: any(why in log.read_text() for log in tmp_path.glob("master*.log")), 10, "no candidate says why")


def test_of_two_members_none_is_given_up_for_its_gateway(tmp_path):
    """Nor of three where the next one's doesn't stand ready either. One that joins makes room for it."""
    with Configured(tmp_path, size=3) as one:
        one.served.queue("q")
        one.spoil(2)
        until(lambda: one.ready()[2] is False, 40, "nobody says that it is spoilt")
        one.cluster.kill(1)
        until(lambda: "and without it one member would be left" in (one.status()["waits"] or ""), 40, "the status doesn't say why")
        holds(lambda: one.cluster.chain()["members"] == [2, 3], BEGINNING + 5, "the head goes")
        assert unserved(one.cluster) == []
        one.cluster.start_node()
        until(lambda: one.cluster.chain()["members"] == [3, 4], 60, "it isn't given up")
        until(one.sends(), 40, "nobody is answered")
        assert unserved(one.cluster) == [2]


def test_a_head_whose_connections_are_all_taken_stays(tmp_path):
    with Configured(tmp_path, fronts=1, text="connections = 16\n") as one:
        one.served.queue("q")
        port, slow = one.cluster.node(1).gateway_port, []
        # More than are served and turned away at once. The front has a connection already.
        for _ in range(400):
            slow.append(socket.create_connection(("127.0.0.1", port)))
        send = one.sends()
        holds(lambda: until(send, 20, "the front isn't served"), REACHING + 7, "it isn't served", 0.2)
        # One that comes later has no connection of calls, and is no reason either.
        one.served.add_front()
        one.served.fronts[0].kill()
        holds(lambda: one.cluster.detected() == [], REACHING + 7, "the head goes")
        for connection in slow:
            connection.close()
