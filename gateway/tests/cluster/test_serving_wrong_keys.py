"""One wrong file of keys on all machines, and what a front tells operators where nobody answers it."""

import http.client
import signal
import time

from cluster_serving import Configured
from cluster_work import Served
from clusters import Cluster
from started import StartedFront
from waiting import holds, time_until, until


def test_one_wrong_file_of_keys_on_all_machines_loses_no_member(tmp_path):
    with Configured(tmp_path, size=4) as one:
        one.served.queue("q")
        for number in (1, 2, 3, 4):
            one.spoil(number)
        until(lambda: not any(one.ready().values()), 40, "nobody says that they are spoilt")
        one.cluster.kill(1)
        until(lambda: "and no other member's stands ready" in (one.status()["waits"] or ""), 40, "the status doesn't say why")
        # Longer than two heads are apart.
        holds(lambda: one.cluster.chain()["members"] == [2, 3, 4], 62, "the head goes", 0.5)
        assert one.cluster.detected() == [1]
        for number in (1, 2, 3, 4):
            one.mend(number)
        until(one.sends(), 40, "nobody is answered")
        until(lambda: one.status()["waits"] is None, 30, "the status says that the chain waits")
        assert one.cluster.detected() == [1]


class Health:
    """What a front of a cluster tells operators."""

    def __init__(self, cluster: Cluster) -> None:
        self.front = StartedFront(*cluster.which("front"), "--admin", "0")
        self.url = next(line.split()[-1] for line in self.front.said if line.startswith("health and metrics on "))

    def get(self) -> tuple[int, str]:
        connection = http.client.HTTPConnection(self.url.removeprefix("http://"), timeout=10)
        try:
            connection.request("GET", "/health")
            answer = connection.getresponse()
            return answer.status, answer.read().decode()
        finally:
            connection.close()

    def is_well(self) -> bool:
        return self.get()[0] == 200


def test_a_front_is_not_well_where_nobody_answers_it_though_nobody_asks(tmp_path):
    served = Served(tmp_path, fronts=0)
    cluster, health = served.cluster, None
    try:
        health = Health(cluster)
        until(lambda: health.get() == (200, "serving by the gateway of server 1\n"), 30, "it isn't well")
        # It stays so while the head changes as fast as usual, and while etcd is away.
        cluster.etcd.signal(signal.SIGSTOP)
        holds(health.is_well, 5, "it isn't well without etcd")
        cluster.etcd.signal(signal.SIGCONT)
        for node in cluster.nodes:
            node.stop()
        took = time_until(lambda: not health.is_well(), 30, "it is well")
        print(f"not well behind {took:.1f} s: {health.get()[1]}")
        assert health.get()[1].startswith("waiting: the gateway of server 1 doesn't answer: ")
        for node in cluster.nodes:
            node.go_on()
        until(health.is_well, 40, "it isn't well again")
        begun = time.monotonic()
        for node in cluster.nodes:
            node.kill()
        until(lambda: not health.is_well(), 30, "it is well with all nodes killed")
        assert time.monotonic() - begun > 2 and health.get()[1].startswith("waiting: the gateway of server 1 doesn't answer: ")
        cluster.etcd.kill()
        until(lambda: "neither the gateway of server 1 answers (" in health.get()[1], 30, "it doesn't say that etcd is away")
        assert health.get()[0] == 503
    finally:
        print(cluster.said())
        if health:
            health.front.kill()
        served.end()
