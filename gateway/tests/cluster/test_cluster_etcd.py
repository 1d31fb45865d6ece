"""A chain on several machines, and an etcd that is slow, full, or has keys of others."""

import base64
import http.client
import itertools
import json
import os
import re
import signal
import time
import urllib.error
import urllib.request
from collections.abc import Iterator
from pathlib import Path

import pytest

from certificates import Certificates
from cluster_users import answered
from clusters import NAME, Cluster, Etcd, Proxies, run
from started import StartedFront
from waiting import holds, pass_time, time_until, until

# Whoever overwrites something that long ago has it forgotten, where a test says so to candidates.
KEPT = ("--compaction-kept", "1")

# Bytes that etcd's database may have.
QUOTA = 4 << 20


# ---- an etcd that is slow


class Slow:
    """All processes of a cluster that reach etcd by proxies."""

    def __init__(self, cluster: Cluster) -> None:
        self.cluster, self.of_masters = cluster, Proxies(cluster.etcd.urls)
        for _ in range(2):
            cluster.start_master(urls=self.of_masters.urls)

    def delay(self, seconds: float) -> None:
        """For each way from now on."""
        for proxy in [self.of_masters, *(node.proxy for node in self.cluster.nodes)]:
            proxy.delay(seconds)


def test_where_etcd_answers_in_460_ms_a_loss_is_noticed(start):
    cluster, users = start(masters=0)
    slow = Slow(cluster)
    slow.delay(0.23)
    pass_time(10, "all know by then how slow etcd is")
    answered(users)
    assert cluster.detected() == []
    cluster.kill(1)
    took = time_until(cluster.settles([2, 3]), 60, "it isn't detected")
    print(f"the chain goes on behind {took:.1f} s")
    answered(users, 30)
    # A server that doesn't beat while the command looks isn't asked how slow etcd is.
    slowness = re.compile("etcd is slow: an answer took .* so a server is silent after ")
    until(lambda: slowness.search(status_of(cluster)), 20, lambda: f"the status doesn't say it: {status_of(cluster)}")
    assert cluster.detected() == [1]


def test_a_sudden_slowness_gives_nobody_up(start):
    """From one moment to the next all answers take longer than a server may be silent."""
    cluster, users = start(masters=0)
    slow = Slow(cluster)
    pass_time(3, "all know by then how quick etcd is")
    for seconds in (1.2, 0.0, 1.2, 0.3):
        slow.delay(seconds)
        pass_time(8, "longer than a server may be silent")
    assert cluster.detected() == []
    answered(users)
    slow.delay(1.2)
    pass_time(6, "all know by then how slow etcd is")
    cluster.kill(1)
    until(lambda: cluster.detected() == [1], 90, "it isn't detected")
    slow.delay(0.0)
    until(cluster.settles([2, 3]), 60, "the chain doesn't go on")
    answered(users, 30)


def hang_one(start, seconds: float) -> None:
    """One of three members hangs, and the others answer in 300 ms."""
    cluster, users = start(members=3, masters=0)
    slow = Slow(cluster)
    slow.delay(0.15)
    place = cluster.etcd.leader() or 0
    cluster.etcd.signal(signal.SIGSTOP, [place])
    try:
        pass_time(seconds, "longer than a server may be silent")
        assert cluster.detected() == []
        answered(users)
        # The same where the others are slower.
        slow.delay(0.25)
        pass_time(10, "longer than a server may be silent")
        assert cluster.detected() == []
        cluster.kill(2)
        until(cluster.settles([1, 3]), 60, "it isn't detected")
        answered(users, 30)
    finally:
        cluster.etcd.signal(signal.SIGCONT, [place])


def test_one_of_three_members_that_hangs_gives_nobody_up(start):
    hang_one(start, 40)


@pytest.mark.skipif(not os.environ.get("HOBBYCHAIR_TEST_LONG"), reason="HOBBYCHAIR_TEST_LONG isn't set")
def test_one_of_three_members_that_hangs_for_ten_minutes_gives_nobody_up(start):
    hang_one(start, 600)


def test_a_node_whose_writes_etcd_does_not_answer_reads_still(start):
    """It hears nothing by links either, and ends since it reads that it is lost."""
    cluster, users = start(size=2, breakable=True)
    node = cluster.node(2)
    for proxy in node.proxy.all:
        proxy.held = b'"request_put"'
    until(lambda: "no contact with etcd" in node.log.read_text(), 20, "its writes are answered")
    for proxy in cluster.between:
        proxy.cut()
    cluster.condemn(2)
    until(lambda: cluster.detected() == [2], 20, "it isn't given up")
    until(lambda: not node.lives(), 30, "it doesn't read that it is lost")
    assert node.process.returncode == 0 and "the master's log says that it is lost" in node.log.read_text()
    answered(users, 30)


def test_tls_to_a_slow_etcd_comes_about(tmp_path):
    """Each process begins with it, also on a machine with much else to do."""
    certificates = Certificates(tmp_path / "certificates", NAME)
    etcd = Etcd(tmp_path, certificates=certificates)
    proxies = Proxies(etcd.urls)
    proxies.delay(0.25)
    try:
        certificates.has("master", "master")
        which = ["--cluster", NAME, "--etcd", proxies.urls[0], *certificates.words("master")]
        made = run("cluster", "create", *which, "--nodes", "1")
        assert made.returncode == 0, made.stderr
        looked = run("cluster", "log", *which)
        assert looked.returncode == 0, looked.stderr
    finally:
        proxies.end()
        etcd.end()


# ---- an etcd that gets full


class Growing:
    """An etcd of a small quota, with a cluster of which nothing but candidates runs, and keys that are written again and again."""

    def __init__(self, room: Path, *of_masters: str, masters: int = 2) -> None:
        self.cluster = Cluster(room, size=1, masters=masters, absent=(1,), of_masters=of_masters,
                               of_etcd=("--quota-backend-bytes", str(QUOTA)))
        self.etcd, self.numbers = self.cluster.etcd, itertools.count()

    def fill(self, size: int) -> int:
        """Overwrites so many bytes, or less where etcd takes no more. It tells etcd's revision before."""
        revision = int(ask(self.etcd, "/v3/kv/range", {"key": digits("a")})["header"]["revision"])
        value = "x" * (100 << 10)
        for _ in range(size // len(value)):
            put = {"key": digits("hobbychair/filled"), "value": digits(f"{next(self.numbers)}{value}")}
            if "error" in ask(self.etcd, "/v3/kv/put", put):
                break
        return revision

    def is_compacted(self, revision: int) -> bool:
        """Whether what was overwritten behind that revision is forgotten."""
        return "has been compacted" in json.dumps(ask(self.etcd, "/v3/kv/range", {"key": digits("a"), "revision": revision + 1}))

    def alarms(self) -> list[str]:
        return [one["alarm"] for one in ask(self.etcd, "/v3/maintenance/alarm", {"action": "GET"}).get("alarms", [])]

    def log(self, place: int) -> str:
        return (self.cluster.room / f"master{place}.log").read_text()

    def logs(self, said: str) -> None:
        """Waits until both candidates have said that."""
        until(lambda: all(said in self.log(place) for place in (1, 2)), 30, f"not logged: {said}")


@pytest.fixture
def growing(tmp_path) -> Iterator[type]:
    begun: list[Growing] = []

    def begin(*of_masters: str, masters: int = 2) -> Growing:
        begun.append(Growing(tmp_path, *of_masters, masters=masters))
        return begun[-1]

    yield begin
    for one in begun:
        print(one.cluster.said())
        one.cluster.end()


def ask(etcd: Etcd, path: str, body: dict) -> dict:
    """What etcd answers, also where it refuses. One that stands still for a while is waited for."""
    request = urllib.request.Request(etcd.urls[0] + path, json.dumps(body).encode(), {"Content-Type": "application/json"})
    try:
        with urllib.request.urlopen(request, timeout=20) as answer:
            return json.load(answer)
    except urllib.error.HTTPError as refused:
        return json.load(refused)


def digits(text: str) -> str:
    return base64.b64encode(text.encode()).decode()


def status_of(cluster: Cluster) -> str:
    return run("cluster", "status", "--cluster", NAME, "--etcd", cluster.etcd.urls[0]).stdout


def test_candidates_keep_etcd_from_getting_full(growing):
    """Twice as much is overwritten as etcd has room for, while candidates end and begin."""
    one = growing(*KEPT)
    for turn in range(8):
        revision = one.fill(1 << 20)
        until(lambda: one.is_compacted(revision), 60, "etcd isn't compacted")
        master = one.cluster.masters[turn % 2]
        if turn in (2, 5):
            master.kill()
            master.wait()
        if turn in (3, 6):
            one.cluster.start_master((turn + 1) % 2)
    assert one.alarms() == [] and all(master.poll() is None for master in one.cluster.masters)
    one.logs("candidates compact etcd: what was overwritten goes behind that time")
    # What is there stays.
    assert one.cluster.chain()["members"] == [1] and len(one.etcd.read("hobbychair/filled")) == 1


def test_what_was_overwritten_within_an_hour_stays(growing):
    """One candidate compacts what is older, however many there are, and its key says from when on."""
    one = growing()
    key = f"{one.cluster.root}/compaction"
    until(lambda: one.etcd.read(key), 20, "no revision is noted")
    revision = one.fill(1 << 20)
    noted = json.loads(one.etcd.read(key)[key])
    assert noted["revision"] <= revision and abs(noted["at"] - time.time()) < 60
    # As if that had been an hour ago. Candidates that begin look at once.
    one.etcd.write(key, json.dumps({"revision": revision, "at": noted["at"] - 3600}))
    for place in (0, 1):
        one.cluster.masters[place].kill()
        one.cluster.start_master(place)
    until(lambda: one.is_compacted(revision - 2), 20, "etcd isn't compacted")
    assert not one.is_compacted(revision) and json.loads(one.etcd.read(key)[key])["revision"] > revision

    def told() -> int:
        return sum(one.log(place).count("etcd is compacted") for place in (1, 2))

    # Etcd has done it a moment before it is told.
    until(told, 20, "it isn't told")
    holds(lambda: told() == 1, 2, "it is compacted twice")


def test_a_full_etcd_is_told_with_what_to_do(growing):
    one = growing("--no-compaction", *KEPT)
    front = StartedFront(*one.cluster.which("front"), "--admin", "0")
    try:
        one.fill(2 * QUOTA)
        assert one.alarms() == ["NOSPACE"]
        remedy = "etcdctl compact REVISION, etcdctl defrag, etcdctl alarm disarm"
        said = status_of(one.cluster)
        assert "\netcd has the alarm NOSPACE (database space exceeded): it takes no writes" in said and remedy in said, said
        looked = run("cluster", "status", "--cluster", NAME, "--etcd", one.etcd.urls[0], "--json")
        assert json.loads(looked.stdout)["etcd"]["alarms"] == ["NOSPACE"]
        one.logs("etcd has the alarm NOSPACE")
        until(lambda: "hobbychair_front_etcd_alarms 1\n" in metrics(front), 30, "the front doesn't count it")
        assert "etcd is compacted" not in one.log(1) + one.log(2) and "this candidate doesn't compact etcd" in one.log(1)
        # What is written by a command says so, too.
        refused = run("cluster", "create", "--cluster", "other", "--etcd", one.etcd.urls[0], "--nodes", "1")
        assert refused.returncode == 1 and "etcd takes no writes" in refused.stderr and remedy in refused.stderr, refused.stderr
        # That is done.
        ask(one.etcd, "/v3/kv/compaction", {"revision": one.fill(0)})
        ask(one.etcd, "/v3/maintenance/defragment", {})
        for alarm in ask(one.etcd, "/v3/maintenance/alarm", {"action": "GET"})["alarms"]:
            ask(one.etcd, "/v3/maintenance/alarm", {"action": "DEACTIVATE", **alarm})
        assert one.alarms() == [] and "NOSPACE" not in status_of(one.cluster)
        until(lambda: "hobbychair_front_etcd_alarms 0\n" in metrics(front), 30, "the front counts it still")
    finally:
        front.kill()


def metrics(front: StartedFront) -> str:
    url = next(line.split()[-1] for line in front.said if line.startswith("health and metrics on "))
    connection = http.client.HTTPConnection(url.removeprefix("http://"), timeout=10)
    try:
        connection.request("GET", "/metrics")
        return connection.getresponse().read().decode()
    finally:
        connection.close()


def test_where_others_have_keys_candidates_compact_nothing_until_they_are_told_to(growing):
    one = growing(*KEPT, masters=0)
    one.etcd.write("others/key", "kept")
    for _ in range(2):
        one.cluster.start_master()
    revision = one.fill(1 << 20)
    one.logs("candidates don't compact etcd, since others have 1 keys there")
    holds(lambda: not one.is_compacted(revision) and one.etcd.read(f"{one.cluster.root}/compaction") == {}, 4, "it is compacted", 0.2)
    made = run("cluster", "create", "--cluster", "second", "--etcd", one.etcd.urls[0], "--nodes", "1")
    assert "others have keys in this etcd, so candidates don't compact it" in made.stdout, made
    one.cluster.of_masters = (*KEPT, "--compaction")
    one.cluster.start_master()
    until(lambda: one.is_compacted(revision), 30, "etcd isn't compacted")
    one.etcd.delete("others/key")
    one.logs("candidates compact etcd: what was overwritten goes behind that time")
    made = run("cluster", "create", "--cluster", "third", "--etcd", one.etcd.urls[0], "--nodes", "1")
    assert "its candidates compact this etcd" in made.stdout and "--no-compaction" in made.stdout, made
