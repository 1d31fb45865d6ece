"""The commands node, master and cluster, and what they say where they can't begin."""

import json
import os
import signal
import socket
import subprocess
from pathlib import Path
from typing import Any

import pytest

from clusters import NAME, Cluster, Etcd, children_of, run
from ports import free_ports
from waiting import until
from started import boto3_client, gateway_program, program


@pytest.fixture
def etcd(tmp_path):
    one = Etcd(tmp_path)
    yield one
    one.end()


def refused(*words: str) -> str:
    done = run(*words)
    assert done.returncode == 1, done
    return done.stderr


def test_what_needs_a_cluster_ends_where_there_is_none(etcd):
    which = ["--cluster", "other", "--etcd", etcd.urls[0]]
    for words in [["node", *which, "--listen", "127.0.0.1:0", "--join"], ["master", *which], ["cluster", "status", *which]]:
        assert "there is no cluster other: hobbychair cluster create makes one" in refused(*words)


def test_addresses_of_other_machines_are_refused(etcd):
    which = ["--cluster", NAME, "--etcd", etcd.urls[0]]
    assert run("cluster", "create", *which, "--nodes", "1").returncode == 0
    assert "isn't on this machine" in refused("node", *which, "--listen", "0.0.0.0:0", "--first", "1")
    node = ["node", *which, "--listen", "127.0.0.1:0", "--first", "1", "--gateway"]
    assert "its gateway has a loopback address" in refused(*node, "10.0.0.1:9324")
    assert "has no port" in refused(*node, "127.0.0.1:0")
    assert "isn't on this machine" in refused("cluster", "status", "--cluster", NAME, "--etcd", "http://10.0.0.1:2379")
    assert "no member of etcd answers" in refused("cluster", "status", "--cluster", NAME, "--etcd", f"http://127.0.0.1:{free_ports(1)[0]}")


def test_a_cluster_is_made_once(etcd):
    words = ["cluster", "create", "--cluster", NAME, "--etcd", etcd.urls[0], "--nodes"]
    assert "a chain has 1 to 8 servers" in refused(*words, "9")
    assert run(*words, "3").returncode == 0
    assert f"there is a cluster {NAME} already" in refused(*words, "3")
    assert "is no name of a cluster" in refused("cluster", "create", "--cluster", "a/b", "--etcd", etcd.urls[0], "--nodes", "1")


def test_a_cluster_of_another_build_is_refused_by_its_name(etcd):
    which, key = ["--cluster", NAME, "--etcd", etcd.urls[0]], f"hobbychair/{NAME}/cluster"
    assert run("cluster", "create", *which, "--nodes", "1").returncode == 0
    etcd.write(key, json.dumps({**json.loads(etcd.read(key)[key]), "version": 1}))
    before, node = etcd.read("hobbychair/"), ["node", *which, "--listen", "127.0.0.1:0"]
    for words in ([*node, "--first", "1"], [*node, "--join"], ["master", *which], ["front", *which], ["cluster", "status", *which]):
        said = refused(*words)
        assert f"cluster {NAME} is of version 1, and this program of version 2." in said and 'docs/CLUSTER.md, "To upgrade"' in said
    assert etcd.read("hobbychair/") == before


def test_a_number_is_used_once(tmp_path):
    """All nodes lose power, and are started again by the same lines: they must not be servers that know nothing."""
    with Cluster(tmp_path) as cluster:
        for server in (1, 2, 3):
            cluster.kill(server)
        which = ["--cluster", NAME, "--etcd", cluster.etcd.urls[0], "--listen", "127.0.0.1:0"]
        for server in ("1", "2", "3"):
            said = refused("node", *which, "--first", server)
            assert f"server {server} was started before" in said and "--join" in said
        assert "there is no server 4" in refused("node", *which, "--first", "4")
        # The chain waits, and says why.
        status = run("cluster", "status", "--cluster", NAME, "--etcd", cluster.etcd.urls[0])
        assert "the chain waits: server 1 doesn't beat" in status.stdout, status.stdout
        assert cluster.chain()["members"] == [1, 2, 3]


def test_the_status_of_a_cluster(tmp_path):
    with Cluster(tmp_path) as cluster:
        words = ["cluster", "status", "--cluster", NAME, "--etcd", cluster.etcd.urls[0]]
        status: dict[str, Any] = {}

        def is_settled() -> bool:
            status.update(json.loads(run(*words, "--json").stdout))
            all_beat = all(server["beats"] and server["is_full"] for server in status["servers"]) and status["waits"] is None
            return all_beat and [server["hears"] for server in status["servers"]] == [[2, 3], [1, 3], [1, 2]]

        until(is_settled, 30, lambda: f"not all beat and hear each other: {status}")
        assert [server["role"] for server in status["servers"]] == ["head", "middle", "tail"]
        rows = run(*words).stdout.splitlines()
        assert rows[1].split() == ["server", "address", "role", "count", "lag", "beats", "hears", "full", "acts", "fronts", "reach", "memory", "journal", "disk", "gateway"]
        assert rows[2].split()[0:3:2] == ["1", "head"]
        [server, *_] = status["servers"]
        assert 1 << 20 < server["memory_bytes"] < 1 << 30 < server["memory_bound_bytes"]


def test_a_whole_cluster_goes_up_serves_and_goes_down(tmp_path):
    folder, config = tmp_path / "up", tmp_path / "gateways.toml"
    config.write_text('[[queue]]\nname = "declared"\n')
    words = [gateway_program(), "cluster", "up", "--nodes", "2", "--folder", str(folder), "--gateway-config", str(config)]
    started = subprocess.Popen(words, env={**os.environ, "HOBBYCHAIR_CQ": program()}, stdout=subprocess.PIPE, text=True)
    said = []
    for line in started.stdout:
        said.append(line)
        if "the cluster is up" in line:
            break
    assert "tail" in "".join(said) and started.poll() is None, said
    url = next(line.split()[-1] for line in said if line.startswith("to send requests: "))
    sqs = boto3_client(url, read_timeout=60)
    queue = sqs.get_queue_url(QueueName="declared")["QueueUrl"]
    sqs.send_message(QueueUrl=queue, MessageBody="a")
    [message] = sqs.receive_message(QueueUrl=queue, WaitTimeSeconds=2)["Messages"]
    assert (message["Body"], queue) == ("a", f"{url}/000000000000/declared")
    children = descendants_of(started.pid)
    assert len(children) >= 9
    started.send_signal(signal.SIGINT)
    assert started.wait(40) == 0
    until(lambda: not any(Path(f"/proc/{child}").exists() for child in children), 20, "processes are left")
    assert (folder / "etcd").is_dir() and len(list((folder / "journals").iterdir())) == 2
    assert "was used before, and is left as it is" in refused("cluster", "up", "--folder", str(folder))
    assert (folder / "etcd").is_dir()


def test_a_node_does_not_begin_where_its_gateway_would_not(tmp_path):
    config = tmp_path / "gateway.toml"
    with Cluster(tmp_path, size=1, masters=0, absent=(1,)) as cluster:
        which = ["--cluster", NAME, "--etcd", cluster.etcd.urls[0], "--listen", "127.0.0.1:0", "--first", "1"]
        [port] = free_ports(1)
        config.write_text("connections = 0\n")
        gateway = ["--gateway", f"127.0.0.1:{port}", "--gateway-config", str(config)]
        assert "connections" in refused("node", *which, *gateway)
        config.write_text('credentials = "nowhere"\n')
        assert "nowhere" in refused("node", *which, *gateway)
        config.write_text("connections = 7\n")
        with socket.create_server(("127.0.0.1", port)):
            assert f"can't listen on 127.0.0.1:{port}" in refused("node", *which, *gateway)
        # Its number wasn't taken by any of these.
        node = cluster.start_node(1)
        until(node.look, 40, "it doesn't begin")


def descendants_of(process: int) -> list[int]:
    """All that it started, and what those started."""
    children = children_of(process)
    return [*children, *(one for child in children for one in descendants_of(child))]
