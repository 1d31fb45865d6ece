"""What is left of a cluster that was recovered: whoever belongs to the earlier incarnation acknowledges nothing any more."""

import http.client
import itertools
import json
import shutil
import signal
import subprocess
import threading
import time
import urllib.parse
import urllib.request
from collections.abc import Iterator
from dataclasses import dataclass
from pathlib import Path

import pytest

from certificates import Certificates
from cluster_journals import acts, kill_all, recover, recovered
from cluster_users import Users
from cluster_work import Front, Served, received
from clusters import NAME, Cluster, Node, Proxies, send
from started import environment, gateway_program
from strangers import Stranger
from waiting import pace, pass_time, until

QUEUE = "q.fifo"


class CutFront(Front):
    """A front that can be cut off from etcd."""

    def start(self) -> None:
        urls = self.cluster.etcd.urls
        self.proxy = Proxies(urls)
        which = [",".join(self.proxy.urls) if word == ",".join(urls) else word for word in self.cluster.which("front")]
        self.process, self.log = self.cluster.start(self.machine, self.name, "front", *which, *self.words)

    def kill(self) -> None:
        super().kill()
        self.proxy.end()


@dataclass
class Answer:
    """What was answered 200."""

    asked: float
    answered: float
    action: str
    body: str


class Callers:
    """Ask a front all the while, whatever becomes of it, and keep what is answered 200."""

    def __init__(self, url: str, count: int = 8) -> None:
        self.url, self.goes_on = url, True
        self.answers: list[Answer] = []
        self.numbers = itertools.count()
        self.threads = [threading.Thread(target=self.run) for _ in range(count)]
        for thread in self.threads:
            thread.start()

    def run(self) -> None:
        while self.goes_on:
            for action in ("SendMessage", "ReceiveMessage", "ListQueues", "GetQueueAttributes"):
                self.ask(action)

    def ask(self, action: str) -> None:
        body, asked = f"{self.url[-5:]}-{next(self.numbers)}", time.monotonic()
        fields = {"Action": action, "QueueUrl": f"{self.url}/000000000000/{QUEUE}", "MessageBody": body,
                  "MessageGroupId": body, "MessageDeduplicationId": body, "AttributeName.1": "All", "VisibilityTimeout": "0"}
        shown = {"SendMessage": ("QueueUrl", "MessageBody", "MessageGroupId", "MessageDeduplicationId"),
                 "ReceiveMessage": ("QueueUrl", "VisibilityTimeout"), "ListQueues": (), "GetQueueAttributes": ("QueueUrl", "AttributeName.1")}
        data = urllib.parse.urlencode({name: fields[name] for name in ("Action", *shown[action])}).encode()
        try:
            with urllib.request.urlopen(self.url, data, timeout=60) as answer:
                answer.read()
                self.answers.append(Answer(asked, time.monotonic(), action, body))
        except (OSError, http.client.HTTPException):
            # Nobody listens there, it may be.
            pace(0.05)

    def sent(self, since: float = 0) -> list[str]:
        """The bodies of sends that were acknowledged."""
        return [one.body for one in self.answers if one.action == "SendMessage" and one.answered > since]

    def stop(self) -> None:
        self.goes_on = False
        for thread in self.threads:
            thread.join(90)
            assert not thread.is_alive()


class Split:
    """A cluster whose processes stand still, or are cut off from etcd, while it is recovered."""

    def __init__(self, room: Path) -> None:
        self.room, self.journals = room, room / "journals"
        self.served = Served(room, fronts=0, words=lambda number: ["--journal", str(self.journals)])
        self.cluster = self.served.cluster
        self.callers: list[Callers] = []
        try:
            self.front = self.add_front()
            self.served.queue(QUEUE)
            self.nodes, self.masters = list(self.cluster.nodes), list(self.cluster.masters)
            self.old = self.call(self.front)
        except BaseException:
            self.end()
            raise

    def add_front(self) -> CutFront:
        front = CutFront(self.cluster, len(self.served.fronts))
        self.served.fronts.append(front)
        until(front.serves, 40, "the front doesn't begin")
        self.served.front = front
        self.served.sqs = self.served.client(len(self.served.fronts) - 1)
        return front

    def call(self, front: Front) -> Callers:
        callers = Callers(front.url)
        self.callers.append(callers)
        until(lambda: len(callers.sent()) > 40, 60, "nothing is acknowledged")
        return callers

    def recover(self) -> Callers:
        """Makes another incarnation of copies of the journals, which serves by a front of its own."""
        pass_time(0.5, "a beat that was on its way when its node stopped is in etcd by then")
        number = len(self.cluster.nodes) + 1
        copies, new = self.room / f"copies{number}", self.room / f"new{number}"
        shutil.copytree(self.journals, copies)
        recovered(self.cluster, [copies], new)
        self.journals = new
        self.cluster.words = lambda _: ["--journal", str(new)]
        node = self.cluster.start_node(1)
        self.cluster.start_master()
        until(node.look, 40, "the node doesn't begin")
        until(lambda: acts(self.cluster, 1) and self.cluster.gateway_acts(1), 60, "its gateway doesn't act")
        return self.call(self.add_front())

    def has_ended(self, process: subprocess.Popen, log: Path) -> bool:
        """Whether a process of an earlier incarnation has ended as it has to."""
        if process.poll() is None:
            return False
        said = f"cluster {NAME} is another one now, of incarnation {self.cluster.incarnation}: it was recovered."
        assert process.returncode == 1 and said in log.read_text(), log.read_text()[-2000:]
        return True

    def all_end(self) -> None:
        ended = [(node.process, node.log) for node in self.nodes]
        ended += [(master, self.room / f"master{place + 1}.log") for place, master in enumerate(self.masters)]
        for process, log in [*ended, (self.front.process, self.front.log)]:
            until(lambda: self.has_ended(process, log), 30, f"{log.name} doesn't end")

    def keeps_all(self, callers: Callers) -> None:
        """The new incarnation has all that it acknowledged, and what the earlier one did ahead of its copies."""
        self.old.stop()
        callers.stop()
        received(self.served.sqs, QUEUE, sorted({*callers.sent(), *self.kept}))

    def end(self) -> None:
        for callers in self.callers:
            callers.goes_on = False
        for node in self.cluster.nodes:
            node.go_on()
        print(self.cluster.said())
        self.served.end()
        for callers in self.callers:
            callers.stop()


@pytest.fixture
def split(tmp_path) -> Iterator[Split]:
    one = Split(tmp_path)
    try:
        yield one
    finally:
        one.end()


def signal_all(split: Split, number: int, with_front: bool) -> None:
    for node in split.nodes:
        node.stop() if number == signal.SIGSTOP else node.go_on()
    for process in [*split.masters, *([split.front.process] if with_front else [])]:
        send(process.pid, number)


@pytest.mark.parametrize("front", ["stands still, too", "is cut off from etcd"])
def test_who_stood_still_meanwhile_acknowledges_nothing(split, front):
    stands_still = front == "stands still, too"
    if not stands_still:
        split.front.proxy.cut()
    signal_all(split, signal.SIGSTOP, stands_still)
    stopped, split.kept = time.monotonic(), split.old.sent()
    # Else what they read comes ahead of what they may answer.
    for node in split.nodes:
        node.proxy.delay(0.12)
    new = split.recover()
    before = time.monotonic()
    signal_all(split, signal.SIGCONT, stands_still)
    for node in split.nodes:
        until(lambda: split.has_ended(node.process, node.log), 30, "a node doesn't end")
    # What was acknowledged before the stop may be on its way to a client still.
    late = [one for one in split.old.answers if one.answered > before and (stands_still or one.asked > stopped)]
    assert late == []
    split.front.proxy.mend()
    split.all_end()
    assert [one for one in split.old.answers if one.answered > before and (stands_still or one.asked > stopped)] == []
    until(lambda: len(new.sent(before)) > 20, 30, "the new incarnation is hurt")
    split.keeps_all(new)


def test_who_was_cut_off_ends_where_there_is_contact_again(split):
    """Without etcd requests go on, as the page promises, also where somebody recovers meanwhile. With contact that has an end."""
    for node in split.nodes:
        node.proxy.cut()
    split.front.proxy.cut()
    for master in split.masters:
        master.send_signal(signal.SIGSTOP)
    until(lambda: split.nodes[0].log.read_text().count("no contact with etcd") > 0, 30, "it is in contact")
    split.kept = split.old.sent()
    new = split.recover()
    cut = time.monotonic()
    until(lambda: len(split.old.sent(cut)) > 5, 30, "requests don't go on without etcd")
    for node in split.nodes:
        node.proxy.mend()
    for node in split.nodes:
        until(lambda: split.has_ended(node.process, node.log), 30, "a node doesn't end")
    ended = time.monotonic()
    split.front.proxy.mend()
    for master in split.masters:
        master.send_signal(signal.SIGCONT)
    split.all_end()
    # What was acknowledged by then may be on its way to a client still.
    assert [one for one in split.old.answers if one.asked > ended or one.answered > ended + 1] == []
    until(lambda: len(new.sent(ended)) > 20, 30, "the new incarnation is hurt")
    split.keeps_all(new)


@pytest.mark.parametrize("who", ["node", "front", "master"])
def test_each_of_them_alone_ends(split, who):
    """The others were killed."""
    process = {"node": split.nodes[1].process, "front": split.front.process, "master": split.masters[0]}[who]
    log = {"node": split.nodes[1].log, "front": split.front.log, "master": split.room / "master1.log"}[who]
    stops = split.nodes[1].stop if who == "node" else lambda: process.send_signal(signal.SIGSTOP)
    stops()
    for other in [*(node.process for node in split.nodes), *split.masters, split.front.process]:
        if other != process:
            other.kill()
    split.kept = split.old.sent()
    new = split.recover()
    before = time.monotonic()
    split.nodes[1].go_on() if who == "node" else process.send_signal(signal.SIGCONT)
    until(lambda: split.has_ended(process, log), 30, "it doesn't end")
    assert [one for one in split.old.answers if one.answered > before] == []
    split.keeps_all(new)


def test_it_is_recovered_twice_while_they_stand_still(split):
    signal_all(split, signal.SIGSTOP, True)
    split.kept = split.old.sent()
    second = split.recover()
    second.stop()
    split.kept += second.sent()
    for process in [split.cluster.nodes[-1].process, split.cluster.masters[-1], split.served.fronts[-1].process]:
        process.kill()
        process.wait()
    third = split.recover()
    before = time.monotonic()
    signal_all(split, signal.SIGCONT, True)
    split.all_end()
    assert [one for one in split.old.answers if one.answered > before] == []
    split.keeps_all(third)


# ---- whoever stood still, and is what there is


def test_who_stood_still_looks_first_and_goes_on(tmp_path):
    with Cluster(tmp_path) as cluster:
        users = Users(cluster, 1)
        until(lambda: len(users.records) > 50, 40, "users aren't answered")
        for with_etcd in (True, False):
            for node in cluster.nodes:
                node.stop()
            if not with_etcd:
                cluster.etcd.signal(signal.SIGSTOP)
            pass_time(3, "they stand still for longer than 1.5 s")
            before = len(users.records)
            logs = [node.log.read_text().count("this process stood still") for node in cluster.nodes]
            for node in cluster.nodes:
                node.go_on()
            # Without etcd that takes until a look has failed, since an answer may be on its way.
            until(lambda: len(users.records) > before + 20, 30, "requests don't go on")
            for node, count in zip(cluster.nodes, logs):
                until(lambda: node.log.read_text().count("this process stood still") > count, 20, "it doesn't know of it")
                node.logs("etcd was looked at, and all goes on")
                node.logs(f"has_read={'true' if with_etcd else 'false'}")
            if not with_etcd:
                cluster.etcd.signal(signal.SIGCONT)
        users.stop()
        assert cluster.detected() == []


def test_a_front_that_stood_still_goes_on_without_etcd(tmp_path):
    with Served(tmp_path, size=1) as served:
        served.queue(QUEUE)
        served.cluster.etcd.signal(signal.SIGSTOP)
        served.front.process.send_signal(signal.SIGSTOP)
        pass_time(3, "it stands still for longer than 1.5 s")
        begun = time.monotonic()
        served.front.process.send_signal(signal.SIGCONT)
        assert served.sqs.list_queues()["QueueUrls"]
        assert 1.5 < time.monotonic() - begun < 19
        until(lambda: "has_read=false" in served.front.log.read_text(), 20, "it didn't know that it stood still")


def test_settings_that_are_gone_are_no_other_incarnation(tmp_path):
    """Of data that are lost etcd may be given a copy. Requests go on meanwhile, and a candidate, which nobody waits for, ends."""
    with Cluster(tmp_path) as cluster:
        users, key = Users(cluster, 1), f"hobbychair/{NAME}/cluster"
        until(lambda: len(users.records) > 50, 40, "users aren't answered")
        settings = cluster.etcd.read(key)[key]
        cluster.etcd.delete(key)
        for node in cluster.nodes:
            node.logs(f"no contact with etcd, and all goes on as it is: etcd knows no cluster {NAME} any more")
        before = len(users.records)
        until(lambda: len(users.records) > before + 50, 30, "requests don't go on")
        for place, master in enumerate(cluster.masters):
            until(lambda: master.poll() == 1, 30, "a candidate goes on")
            assert f"etcd knows no cluster {NAME} any more" in (tmp_path / f"master{place + 1}.log").read_text()
        cluster.etcd.write(key, settings)
        for node in cluster.nodes:
            node.logs("in contact with etcd again")
            assert node.lives()
        cluster.start_master(0)
        cluster.kill(2)
        until(cluster.settles([1, 3]), 40, "it isn't detected")
        users.stop()


# ---- whoever goes on keeps others from recovering


class Half:
    """A cluster all of whose processes were killed but one node."""

    def __init__(self, tmp_path: Path, certificates: Certificates | None = None) -> None:
        self.room = tmp_path / "journals"
        self.cluster = Cluster(tmp_path, gateways=True, certificates=certificates, words=lambda number: ["--journal", str(self.room)])
        try:
            until(lambda: "the gateway serves" in self.cluster.node(1).log.read_text(), 60, "nobody serves")
        except BaseException:
            self.end()
            raise

    def leave(self, server: int) -> Node:
        """Kills all others."""
        for process in [node.process for node in self.cluster.nodes if node.server != server] + self.cluster.masters:
            process.kill()
            process.wait()
        shutil.copytree(self.room, self.room.parent / "copies")
        return self.cluster.node(server)

    def recover(self, *words: str) -> tuple[int, str]:
        return recover(self.cluster, [self.room.parent / "copies"], self.room.parent / "new", *words)

    def refused(self, *words: str) -> str:
        status, said = self.recover(*words)
        assert status == 1 and not (self.room.parent / "new").exists(), said
        return said

    def end(self) -> None:
        print(self.cluster.said())
        self.cluster.end()


@pytest.fixture
def half(tmp_path) -> Iterator[Half]:
    one = Half(tmp_path)
    try:
        yield one
    finally:
        one.end()


def test_where_a_node_stands_still_nothing_is_recovered(half):
    node = half.leave(2)
    node.stop()
    said = half.refused("--silence", "2")
    assert f"server 2 at 127.0.0.1:{node.port} takes connections and says nothing: it may stand still" in said, said
    assert "--fenced says so" in said and "server 1 at" not in said.split("may go on")[1], said
    # All of them are named.
    for one in half.cluster.nodes:
        assert f"server {one.server}: its node at 127.0.0.1:{one.port}, its gateway at 127.0.0.1:{one.gateway_port}" in said
    node.kill()
    begun = time.monotonic()
    status, said = half.recover("--silence", "3")
    assert status == 0 and "waiting for 3 s, in which no node may beat" in said and time.monotonic() - begun >= 3, said


def test_where_one_answers_that_is_cut_off_from_etcd_nothing_is_recovered(half):
    node = half.leave(1)
    node.proxy.cut()
    until(lambda: "no contact with etcd" in node.log.read_text(), 30, "it is in contact")
    said = half.refused("--silence", "2")
    assert f"server 1 at 127.0.0.1:{node.port} answers" in said, said
    assert f"the gateway of server 1 at 127.0.0.1:{node.gateway_port} answers" in said, said
    said = half.refused("--silence", "2", "--dry-run")
    assert f"server 1 at 127.0.0.1:{node.port} answers" in said, said


def test_who_has_a_certificate_is_asked_by_that(tmp_path):
    """A candidate's is enough to ask. Who listens where a node was, and shows another certificate than it has registered, isn't it."""
    certificates = Certificates(tmp_path / "certificates", NAME)
    half = Half(tmp_path, certificates)
    try:
        node = half.leave(1)
        node.proxy.cut()
        until(lambda: "no contact with etcd" in node.log.read_text(), 30, "it is in contact")
        said = half.refused("--silence", "1")
        assert f"server 1 at 127.0.0.1:{node.port} answers" in said, said
        assert f"the gateway of server 1 at 127.0.0.1:{node.gateway_port} answers" in said, said
        node.stop()
        said = half.refused("--silence", "1")
        assert f"server 1 at 127.0.0.1:{node.port} takes connections and says nothing" in said, said
        node.kill()
        with Stranger(node.port, certificates.server("node2"), lambda _: b""):
            status, said = half.recover("--silence", "1")
            assert status == 0 and "is there again" in said, said
            assert f"server 1 at 127.0.0.1:{node.port} is somebody else, or a connection there leads nowhere" in said, said
    finally:
        half.end()


def test_who_is_not_reached_is_named(half):
    """Its machine may be off, or cut off from whoever recovers alone."""
    half.leave(1).kill()
    key = f"{half.cluster.root}/node/{2:010}"
    registration = json.loads(half.cluster.etcd.read(key)[key])
    half.cluster.etcd.write(key, json.dumps(registration | {"address": "224.0.0.1:7001"}))
    status, said = half.recover("--silence", "1")
    assert status == 0 and "server 2 at 224.0.0.1:7001 isn't reached, and may go on for all that is known here" in said, said
    assert "server 1 at" not in said and "server 3 at" not in said, said


def test_a_node_that_begins_meanwhile_is_seen(half):
    half.leave(1).kill()
    words = ["cluster", "recover", *half.cluster.which("master"), "--from", str(half.room.parent / "copies"), "--journal",
             str(half.room.parent / "new"), "--silence", "60"]
    recovering = subprocess.Popen([gateway_program(), *words], env=environment(), stdout=subprocess.PIPE, stderr=subprocess.PIPE, text=True)
    assert any("waiting for 60 s" in line for line in recovering.stdout), recovering.stderr.read()
    half.cluster.start_node()
    assert recovering.wait(40) == 1
    said = recovering.stderr.read()
    assert "nodes of this cluster go on: server 4 at 127.0.0.1:" in said and not (half.room.parent / "new").exists(), said


def test_who_says_that_all_are_cut_off_is_not_believed_where_one_beats(half):
    half.leave(2)
    status, said = half.recover("--fenced")
    assert status == 1 and "nothing is recovered: a node beat meanwhile, or the cluster in etcd was changed" in said, said


def test_without_data_of_etcd_nobody_can_be_asked(half):
    half.leave(1)
    kill_all(half.cluster, with_etcd=True)
    said = half.refused("--silence", "1")
    assert "nobody can be asked whether they go on. Once all are stopped or cut off, --fenced says so" in said, said
    status, said = half.recover("--silence", "1", "--dry-run")
    assert status == 0 and "this was a dry run" in said, said
    status, said = half.recover("--fenced")
    assert status == 0 and "is there again" in said, said
