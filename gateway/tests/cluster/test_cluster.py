"""A chain on several machines: what users are answered while nodes are lost and joined."""

import json
import os
import random
import signal
import socket
import subprocess
import time

import pytest

from cluster_users import QUEUE, SEED, answered, batch, greeting, request
from clusters import Cluster
from started import TOP, program
from waiting import holds, until


def send_large(cluster: Cluster, count: int) -> None:
    """Sends messages of 250,000 bytes, so that a snapshot has many pieces."""
    send = {"kind": "send", "queue": QUEUE, "group": "large", "body": "x" * 250_000}
    before = cluster_count(cluster)
    with socket.create_connection(("127.0.0.1", cluster.port(1) or 0)) as one:
        # It wants no answers.
        one.sendall(greeting(cluster, 2**32 - 1))
        for number in range(count):
            one.sendall(batch(1, [request(7000 + number, 1, send | {"dedup": f"large-{number}"})]))
        until(lambda: cluster_count(cluster) >= before + count, 40, "they aren't taken")


def cluster_count(cluster: Cluster) -> int:
    """How many entries the head has, as its beat says."""
    beats = cluster.etcd.read(f"{cluster.root}/beat/")
    return json.loads(beats[f"{cluster.root}/beat/{1:010}"])["count"]


@pytest.mark.parametrize("lost", [1, 2, 3], ids=["head", "middle", "tail"])
def test_a_server_is_lost(start, lost):
    cluster, users = start()
    if lost == 1:
        # One candidate is enough.
        cluster.masters[0].kill()
    begun = time.monotonic()
    cluster.kill(lost)
    rest = [server for server in (1, 2, 3) if server != lost]
    until(cluster.settles(rest), 30, "it isn't detected")
    answered(users)
    silence = users.longest_silence(begun - 0.5)
    print(f"{silence:.2f} s without an answer")
    # One that others still hear is given up behind ten seconds.
    assert silence < 9


def test_a_node_joins(start):
    cluster, users = start()
    send_large(cluster, 60)
    begun = time.monotonic()
    cluster.start_node()
    until(cluster.settles([1, 2, 3, 4]), 30, "it doesn't become a member")
    answered(users)
    assert users.longest_silence(begun) < 5
    # All others are lost, so that all depends on what it was fed with.
    for server in (1, 2, 3):
        cluster.kill(server)
    until(cluster.settles([4]), 40, "they aren't detected")
    answered(users)


def test_servers_are_refused_memory_now_and_then(start, tmp_path):
    """What was refused is given again, in order."""
    library = tmp_path / "libfail.so"
    compiled = subprocess.run(["rustc", "-O", "--crate-type", "cdylib", "-o", library, TOP / "check" / "fail.rs"], capture_output=True)
    assert compiled.returncode == 0, compiled.stderr
    generator = random.Random(SEED)

    def refusing(name: str) -> str:
        # The first allocations are those without which it doesn't begin.
        script = tmp_path / f"cq-{name}"
        script.write_text(f"#!/bin/sh\nLD_PRELOAD={library} FAIL=memory:{generator.randint(300, 3000)} exec {program()} \"$@\"\n")
        script.chmod(0o700)
        return str(script)

    cluster, users = start(programs=refusing)
    for server in (4, 5):
        cluster.start_node()
        until(cluster.settles(list(range(1, server + 1))), 40, "it doesn't become a member")
    cluster.kill(1)
    until(cluster.settles([2, 3, 4, 5]), 30, "it isn't detected")
    answered(users)
    # Those that are asked less come to it later.
    until(lambda: sum("a call fails" in log.read_text() for log in tmp_path.glob("node*.log")) > 2, 30, "few are refused memory")


def test_a_node_whose_server_ends_ends(start):
    cluster, users = start()
    node = cluster.node(2)
    node.may_fail = True
    os.kill(node.child(), signal.SIGKILL)
    until(lambda: not node.lives(), 20, "it goes on without its server")
    assert node.process.returncode == 1 and "cq server is gone: it ended by signal 9" in node.log.read_text()
    until(cluster.settles([1, 3]), 30, "it isn't detected")
    answered(users)


def test_a_server_that_is_detected_while_it_lives_ends(start):
    """It hears of it by a link, since it doesn't reach etcd."""
    cluster, users = start()
    node = cluster.node(2)
    node.proxy.cut()
    cluster.condemn(2)
    until(lambda: not node.lives(), 20, "nobody tells it")
    assert "the master's log says that it is lost" in node.log.read_text()
    until(cluster.settles([1, 3]), 30, "the chain doesn't go on")
    answered(users)


def test_the_last_full_member_is_kept(start):
    """The chain waits rather than to go on without what was acknowledged."""
    cluster, users = start(size=2)
    cluster.kill(1)
    until(cluster.settles([2]), 30, "it isn't detected")
    answered(users)
    cluster.condemn(2)
    until(lambda: not cluster.etcd.read(f"{cluster.root}/master/condemned/"), 20, "nobody undoes it")
    holds(lambda: cluster.node(2).lives() and cluster.chain()["members"] == [2], 0.5, "the last one goes")
    answered(users)
