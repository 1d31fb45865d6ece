"""A cluster that lost all of its servers is made again of their journals."""

import itertools
import re
import struct
import threading
from collections import defaultdict
from pathlib import Path
from typing import Any

import pytest

from cluster_journals import (ENTRY, Journal, acts, begin_again, folder_of, frame, frames_of, kill_all, records_of,
                              recover, recovered)
from cluster_users import Users
from cluster_work import UNANSWERED, Served, received, whole
from clusters import NAME, Cluster, run
from meanwhile import meanwhile
from rules import policy
from started import StartedFront
from waiting import pace, until

LARGE = 600_000


# ---- as clients see it


class Senders:
    """Clients that send until they are stopped, and what was acknowledged to each."""

    def __init__(self, served: Served) -> None:
        self.served, self.sending = served, True
        self.urls = {name: served.queue(name) for name in ("f.fifo", "late", "dead", "large")}
        self.urls["late"] = served.queue("late2", DelaySeconds="3")
        self.urls["source"] = served.queue("source", VisibilityTimeout="1", RedrivePolicy=policy("dead"))
        self.acknowledged: dict[str, list[str]] = defaultdict(list)
        # What came before all nodes were killed.
        self.handed: set[str] = set()
        jobs = [(self.send, "f.fifo", group) for group in "abc"]
        jobs += [(self.send, name, name) for name in ("late", "large", "source")] + [(self.receive,)]
        self.threads = [threading.Thread(target=job[0], args=job[1:]) for job in jobs]
        for thread in self.threads:
            thread.start()

    def send(self, queue: str, name: str) -> None:
        sqs = self.served.client()
        for number in itertools.count():
            body = f"{name}-{number}"
            fifo = {"MessageGroupId": name, "MessageDeduplicationId": body} if queue == "f.fifo" else {}
            text = whole(body, LARGE if queue == "large" else 0)
            try:
                sqs.send_message(QueueUrl=self.urls[queue], MessageBody=text, **fifo)
            except UNANSWERED:
                return
            if not self.sending:
                return
            self.acknowledged["dead" if queue == "source" else queue].append(body)
            pace(0.3 if queue == "large" else 0.01)

    def receive(self) -> None:
        """What is received of it once is a dead letter the next time."""
        sqs = self.served.client()
        while self.sending:
            try:
                sqs.receive_message(QueueUrl=self.urls["source"], MaxNumberOfMessages=10, WaitTimeSeconds=1)
            except UNANSWERED:
                return

    def has_sent(self) -> bool:
        return all(len(self.acknowledged[queue]) >= least for queue, least in (("f.fifo", 60), ("late", 20), ("large", 3), ("dead", 20)))

    def stop(self) -> None:
        self.sending = False
        for thread in self.threads:
            thread.join(60)
            assert not thread.is_alive()


@pytest.mark.parametrize("with_etcd", [False, True], ids=["nodes", "nodes and etcd"])
def test_all_that_was_acknowledged_is_there_again(tmp_path, with_etcd):
    room = tmp_path / "journals"
    with Served(tmp_path, words=lambda number: ["--journal", str(room), "--journal-size", "2MiB", "--durable"]) as served:
        cluster, senders = served.cluster, Senders(served)
        until(senders.has_sent, 60, "nothing is acknowledged")
        kill_all(cluster, with_etcd)
        senders.sending = False
        served.fronts.pop().kill()
        senders.stop()
        said = recovered(cluster, [room], room)
        assert "something may be lost" not in said, said
        begin_again(cluster, room)
        until(lambda: cluster.gateway_acts(1), 60, "no gateway acts")
        for _ in range(2):
            cluster.start_node()
        served.fronts.append(StartedFront("--cluster", NAME, "--etcd", ",".join(cluster.etcd.urls)))
        sqs = served.client()
        came = received(sqs, "f.fifo", senders.acknowledged["f.fifo"])
        for group in "abc":
            of_group = [int(body.split("-")[1]) for body in came if body.startswith(group)]
            assert of_group == sorted(of_group), f"group {group} is out of order"
        received(sqs, "late2", senders.acknowledged["late"])
        received(sqs, "large", senders.acknowledged["large"], LARGE)
        # Those that weren't received yet are received now, and become dead letters a second later.
        dead = senders.acknowledged["dead"]
        url = sqs.get_queue_url(QueueName="source")["QueueUrl"]
        stop = threading.Event()

        def keep_receiving() -> None:
            own = served.client()
            while not stop.is_set():
                own.receive_message(QueueUrl=url, MaxNumberOfMessages=10, WaitTimeSeconds=1)

        with meanwhile(keep_receiving):
            try:
                received(sqs, "dead", dead)
            finally:
                stop.set()
        until(cluster.settles([1, 2, 3]), 60, "the others don't join")


# ---- as servers see it


class Lost:
    """A cluster whose users were answered for a while, and all of whose nodes were killed."""

    def __init__(self, tmp_path: Path, size: int = 3, answers: int = 200) -> None:
        self.room = tmp_path / "journals"
        self.cluster = Cluster(tmp_path, size=size, words=lambda number: ["--journal", str(self.room)])
        self.users = Users(self.cluster, 1, think=0.005)
        try:
            until(lambda: len(self.users.records) > answers, 60, "users aren't answered")
        except BaseException:
            self.end()
            raise

    def kill(self) -> None:
        kill_all(self.cluster)
        self.users.ends = True
        self.users.join(30)

    def folder(self, server: int) -> Path:
        return folder_of(self.cluster, server, self.room)

    def recover(self, *words: str, sources: list[Path] | None = None) -> tuple[int, str]:
        return recover(self.cluster, sources or [self.room], self.room.parent / "new", *words)

    def refused(self, *words: str, sources: list[Path] | None = None) -> str:
        status, said = self.recover(*words, sources=sources)
        assert status == 1, said
        return said

    def end(self) -> None:
        print(self.cluster.said())
        self.users.ends = True
        self.cluster.end()


@pytest.fixture
def lost(tmp_path):
    one = Lost(tmp_path)
    yield one
    one.end()


def files(room: Path) -> dict[str, bytes]:
    return {str(one.relative_to(room)): one.read_bytes() for one in room.rglob("*") if one.is_file()}


def longest(lost: Lost) -> list[tuple[int, bytes]]:
    return max((Journal(lost.folder(server)).entries for server in (1, 2, 3)), key=len)


def test_a_dry_run_says_what_is_taken_and_changes_nothing(lost, tmp_path):
    lost.kill()
    before, keys = files(lost.room), lost.cluster.etcd.read("hobbychair/")
    status, said = lost.recover("--dry-run")
    assert status == 0 and "nothing is done: this was a dry run" in said and "something may be lost" not in said, said
    assert f"taken: {len(longest(lost))} entries of server" in said
    assert (files(lost.room), lost.cluster.etcd.read("hobbychair/")) == (before, keys)
    assert not (tmp_path / "new").exists()


def test_a_cluster_that_goes_on_is_not_recovered(lost):
    lost.users.stop()
    said = lost.refused("--silence", "3", sources=[lost.room])
    at = [f"server {server} at 127.0.0.1:{lost.cluster.port(server)}" for server in (1, 2, 3)]
    assert f"nodes of this cluster go on: {', '.join(at)}. To recover it, stop all" in said, said
    until(lambda: acts(lost.cluster, 3), 30, "it doesn't act any more")


def test_entries_are_those_of_the_longest_and_it_is_done_twice(lost, tmp_path):
    lost.kill()
    entries = longest(lost)
    new = tmp_path / "new"
    kept = files(lost.room)
    recovered(lost.cluster, [lost.room], new)
    assert files(lost.room) == kept, "a journal was changed"
    first = lost.cluster.incarnation
    begin_again(lost.cluster, new)
    assert Journal(folder_of(lost.cluster, 1, new)).base == len(entries)
    users = Users(lost.cluster, 2)
    # Its numbers go on above those that the store knows.
    until(lambda: users.records, 40, "nobody is answered")
    assert users.records[0].length > len(entries)
    kill_all(lost.cluster)
    users.ends = True
    users.join(30)
    # The first ones are of no use any more: they are of another incarnation.
    assert "the journal of server 1, which had all that was acknowledged, is missing" in lost.refused(sources=[lost.room])
    again = tmp_path / "again"
    recovered(lost.cluster, [lost.room, new], again)
    assert lost.cluster.incarnation != first
    begin_again(lost.cluster, again)
    assert Journal(folder_of(lost.cluster, 1, again)).base > len(entries)


def test_a_missing_journal_is_named_and_force_does_without(lost):
    lost.kill()
    all_but = [lost.folder(server) for server in (1, 3)]
    said = lost.refused(sources=all_but)
    assert "something may be lost: the journal of server 2, which had all that was acknowledged, is missing" in said
    status, said = lost.recover("--force", sources=all_but)
    assert status == 0 and "is there again" in said, said


def test_a_torn_end_is_no_loss_and_spoilt_bytes_are_named(lost):
    lost.kill()
    # The head's is the longest: its last frame is cut, and the others have all that was acknowledged.
    segment = lost.folder(1) / "entries.000001"
    whole_bytes = segment.read_bytes()
    segment.write_bytes(whole_bytes[:-3])
    status, said = lost.recover("--dry-run")
    assert status == 0 and "bytes at its end that weren't written whole" in said and "something may be lost" not in said, said
    frames = frames_of(whole_bytes)
    _, place, payload = frames[len(frames) // 2]
    spoilt = bytearray(whole_bytes)
    spoilt[place + 28 + len(payload) // 2] ^= 1
    segment.write_bytes(bytes(spoilt))
    said = lost.refused()
    assert f"{segment} is damaged at byte {place}, and more is behind it" in said, said
    status, said = lost.recover("--force", "--dry-run")
    assert status == 0 and f"taken: {max(len(Journal(lost.folder(server)).entries) for server in (2, 3))} entries" in said, said


def append_entry(segment: Path, client: int) -> None:
    """One more entry, as its node would have written it: a removal of a queue."""
    data = segment.read_bytes()
    number, place, payload = frames_of(data)[-1]
    request = struct.pack("<IQB", client, 1, 1) + struct.pack("<I", 6) + b"z.fifo"
    record = bytes([ENTRY]) + struct.pack("<QI", 1 << 50, len(request)) + request
    segment.write_bytes(data + frame(number + 1, place + 28 + len(payload), record))


def test_journals_that_differ_are_named(lost):
    lost.kill()
    segments = {server: lost.folder(server) / "entries.000001" for server in (1, 2, 3)}
    counts = {server: len(Journal(lost.folder(server)).entries) for server in segments}
    for server, client in ((1, 8888), (3, 9999)):
        for _ in range(max(counts.values()) - counts[server] + 1):
            append_entry(segments[server], client)
    said = lost.refused()
    assert "the journals of servers 3 and 1 differ from entry" in said or "the journals of servers 1 and 3 differ from entry" in said, said


def test_a_head_that_was_given_up_may_have_more_and_is_left_out(lost):
    """It died with entries that nobody else has, and the others went on."""
    lost.cluster.kill(1)
    until(lost.cluster.settles([2, 3]), 30, "it isn't detected")
    before = len(lost.users.records)
    until(lambda: len(lost.users.records) > before + 20, 30, "users aren't answered")
    lost.kill()
    segment = lost.folder(1) / "entries.000001"
    while Journal(lost.folder(1)).count() <= Journal(lost.folder(2)).count():
        append_entry(segment, 9000)
    said = lost.refused(sources=[lost.folder(1)])
    assert "there is nothing to recover: the journal of server 2, which had all that was acknowledged, is missing" in said, said
    status, said = lost.recover()
    assert status == 0 and "something may be lost" not in said, said
    assert "not in the last chain" in said and f"taken: {Journal(lost.folder(2)).count()} entries of server 2" in said, said


def test_without_etcd_the_newest_journal_says_how_the_chain_was(lost):
    lost.cluster.kill(1)
    until(lost.cluster.settles([2, 3]), 30, "it isn't detected")
    before = len(lost.users.records)
    until(lambda: len(lost.users.records) > before + 20, 30, "users aren't answered")
    kill_all(lost.cluster, with_etcd=True)
    lost.users.ends = True
    status, said = lost.recover("--dry-run")
    assert status == 0 and "etcd knows no cluster" in said and "by the newest journal: servers 2, 3; full: 2, 3" in said, said
    assert "it may know of a later chain" in lost.refused("--dry-run", sources=[lost.folder(2)])
    # Of one that was given up earlier nobody can tell that by itself.
    assert "the journal of server 2" in lost.refused("--dry-run", sources=[lost.folder(1), lost.folder(3)])


def test_the_last_full_server_is_killed_while_a_young_one_joins(tmp_path):
    lost = Lost(tmp_path, size=1)
    try:
        cluster = lost.cluster
        # So it joins for long enough to be seen.
        cluster.start_node().proxy.delay(0.2)
        until(lambda: cluster.chain()["joiner"] == 2, 40, "it doesn't join")
        cluster.stop_masters()
        cluster.kill(1)
        chain = cluster.chain()
        lost.kill()
        taken = Journal(lost.folder(1))
        said = lost.refused(sources=[lost.folder(1)])
        assert "the journal of server 2, which " in said and "had all" not in said, said
        if lost.folder(2).exists():
            status, said = lost.recover()
            assert status == 0 and f"taken: {taken.count()} entries of server 1" in said, (chain, said)
            assert all(one.length <= taken.count() for one in lost.users.records)
    finally:
        lost.end()


def test_a_node_of_a_recovered_cluster_needs_what_was_recovered(lost, tmp_path):
    lost.kill()
    new = tmp_path / "new"
    recovered(lost.cluster, [lost.room], new)
    node = ["node", *lost.cluster.which("node"), "--listen", "127.0.0.1:0", "--first", "1"]
    assert "give the --journal that hobbychair cluster recover wrote to" in run(*node).stderr
    assert "begins with what hobbychair cluster recover wrote" in run(*node, "--journal", str(tmp_path / "other")).stderr
    store = folder_of(lost.cluster, 1, new) / "store.000001"
    good = store.read_bytes()
    store.write_bytes(good[:-1])
    assert "isn't whole, or damaged at byte" in run(*node, "--journal", str(new)).stderr
    store.write_bytes(good)
    begin_again(lost.cluster, new)


DAY = 24 * 3_600_000


def make_older(folder: Path, by: int) -> None:
    """All entries of a journal are of earlier moments, by so many milliseconds."""
    for file in folder.glob("entries.??????"):
        written = b""
        for number, _, payload in frames_of(file.read_bytes()):
            records = [written_record(kind, what, by) for kind, what in records_of(payload)]
            written += frame(number, len(written), b"".join(records))
        file.write_bytes(written)


def written_record(kind: int, what: Any, by: int) -> bytes:
    if kind != ENTRY:
        return struct.pack("<BI", kind, len(what)) + what
    moment, request = what
    return struct.pack("<BQI", kind, moment - by, len(request)) + request


def test_how_long_the_chain_stood_still_is_said_by_a_later_head_where_the_first_one_could_not(tmp_path):
    """Of the ten days a day counts. The node that knew of them at its start is gone before a gateway acted, and so is the one that
    was there with it."""
    lost = Lost(tmp_path, size=1)
    cluster = lost.cluster
    try:
        lost.kill()
        make_older(lost.folder(1), 10 * DAY)
        recovered(cluster, [lost.room], tmp_path / "new")
        begin_again(cluster, tmp_path / "new")
        cluster.start_node()
        until(cluster.settles([1, 2]), 40, "it doesn't become a member")
        cluster.kill(1)
        until(cluster.settles([2]), 40, "it isn't detected")
        cluster.gateways = True
        cluster.start_node()
        until(cluster.settles([2, 3]), 40, "it doesn't become a member")
        cluster.kill(2)
        until(lambda: cluster.gateway_acts(3), 40, "no gateway acts")
        cluster.node(3).logs("the clock is far ahead of the last record")
        [uncounted] = re.findall(r"the clock is far ahead of the last record: (\d+) ms of it", cluster.node(3).log.read_text())
        assert 9 * DAY <= int(uncounted) < 9 * DAY + 600_000
    finally:
        print(cluster.said())
        lost.end()
