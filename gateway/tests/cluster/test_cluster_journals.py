"""What nodes of a cluster write down, and what they do where they can't."""

import json
import os
from pathlib import Path

import pytest

from cluster_disks import fill
from cluster_journals import Journal, check_journals, folder_of, kill_all
from cluster_users import Users, answered
from clusters import NAME, Cluster, run
from preloaded import built
from waiting import comes, holds, pace, time_until, until

KINDS = {"buffered": [], "durable": ["--durable"]}


def words(room: Path, *more: str):
    return lambda number: ["--journal", str(room), *more]


@pytest.mark.parametrize("kind", KINDS)
def test_journals_have_all_that_was_acknowledged_when_all_nodes_are_killed(tmp_path, kind):
    room = tmp_path / "journals"
    with Cluster(tmp_path, words=words(room, *KINDS[kind])) as cluster:
        users = Users(cluster, 1, think=0.002)
        until(lambda: len(users.records) > 500, 60, "users aren't answered")
        status = json.loads(run("cluster", "status", *cluster.which("master"), "--json").stdout)
        assert [server["journal"] for server in status["servers"]] == [kind] * 3
        kill_all(cluster)
        users.ends = True
        users.join(30)
        check_journals(cluster, room)
        for server in (1, 2, 3):
            journal = Journal(folder_of(cluster, server, room))
            assert journal.chain["members"] == [1, 2, 3] and journal.base == 0
            for one in users.records:
                assert one.length <= journal.count(), f"server {server} lacks entry {one.length} of {journal.count()}"
                entry = journal.words()[one.length - 1][1] if one.length == journal.count() else None
                assert entry in (None, {"client": one.client, "number": one.number, "ask": one.ask})


def test_a_journal_ends_by_copies_of_the_store_and_one_that_joins_begins_with_one(start, tmp_path):
    room = tmp_path / "journals"
    cluster, users = start(words=words(room, "--journal-size", "20KiB"))

    def copies(server: int) -> list[str]:
        return sorted(one.name for one in folder_of(cluster, server, room).glob("store.??????"))

    def is_tidy(server: int) -> bool:
        """Whether there is one copy, nothing ahead of it, and no other one is being made."""
        found, folder = copies(server), folder_of(cluster, server, room)
        if len(found) != 1 or list(folder.glob("store.*.new")):
            return False
        return all(one.name >= found[0].replace("store", "entries") for one in folder.glob("entries.??????"))

    until(lambda: all(copies(server) and "store.000002" not in copies(server) for server in (1, 2, 3)), 60, "there are no second copies")
    cluster.start_node()
    until(cluster.settles([1, 2, 3, 4]), 40, "it doesn't become a member")
    until(lambda: copies(4), 10, "it doesn't begin with one")
    answered(users)
    cluster.kill(1)
    until(cluster.settles([2, 3, 4]), 30, "it isn't detected")
    answered(users)
    users.stop()
    # What was ahead of a copy goes a moment behind it. One that is killed may leave it.
    until(lambda: all(is_tidy(server) for server in (2, 3, 4)), 20, "what was ahead of a copy stays")
    assert len(copies(1)) in (1, 2)
    for node in (node for node in cluster.nodes if node.lives()):
        node.stop()
    for server in (1, 2, 3, 4):
        assert Journal(folder_of(cluster, server, room)).base > 0
    assert Journal(folder_of(cluster, 4, room)).chain["members"] == [2, 3, 4]
    check_journals(cluster, room)


@pytest.mark.parametrize("kind", KINDS)
def test_a_node_whose_disk_is_full_is_given_up_and_the_others_go_on(small_disk, start, tmp_path, kind):
    full, room = small_disk("4m"), tmp_path / "journals"
    cluster, users = start(words=lambda number: ["--journal", str(full if number == 2 else room), *KINDS[kind]])
    node = cluster.node(2)
    node.may_fail = True
    fill(full)
    until(lambda: not node.lives(), 40, "it isn't given up")
    assert node.process.returncode == 1
    assert "its journal can't be written, and others go on without it" in node.log.read_text()
    assert "No space left on device" in node.log.read_text()
    until(cluster.settles([1, 3]), 30, "the chain doesn't go on")
    answered(users)


def test_the_last_full_server_waits_for_room_on_its_disk(small_disk, start):
    """Nothing that it was asked is lost, and nothing is answered that isn't in its journal."""
    room = small_disk("4m")
    cluster, users = start(size=1, words=words(room, "--durable"))
    node = cluster.node(1)
    filler = fill(room)
    node.logs("the journal can't be written, and nothing leaves this node")
    before = len(users.records)
    words_of_status = ["cluster", "status", *cluster.which("master")]
    why = "server 1 is condemned (its journal can't be written), and no other member is known to have all that was acknowledged"
    until(lambda: f"the chain waits: {why}" in run(*words_of_status).stdout, 30, "the status says nothing")
    assert node.lives() and len(users.records) <= before + 8
    count = Journal(folder_of(cluster, 1, room)).count()
    assert all(one.length <= count for one in users.records)
    filler.unlink()
    node.logs("there is room for the journal again")
    answered(users)
    users.stop()
    node.stop()
    check_journals(cluster, room)


@pytest.fixture
def hanging(tmp_path, monkeypatch) -> None:
    """Syncs of files wait for as long as a file `hang` is beside them."""
    library = built("hanging_disk.rs", tmp_path)
    assert library is not None, "rustc doesn't build it"
    monkeypatch.setenv("LD_PRELOAD", str(library))


def test_a_node_whose_disk_hangs_is_given_up_and_the_others_go_on(hanging, start, tmp_path):
    room = tmp_path / "journals"
    cluster, users = start(words=words(room, "--durable"))
    node = cluster.node(2)
    node.may_fail = True
    (folder_of(cluster, 2, room) / "hang").touch()
    # One that others hear is given up behind ten seconds, whatever its disk does.
    assert time_until(lambda: not node.lives(), 40, "it isn't given up") < 9
    assert node.process.returncode == 1
    node.logs("the disk doesn't end a write")
    until(cluster.settles([1, 3]), 30, "the chain doesn't go on")
    answered(users)


def test_nothing_is_answered_that_is_not_on_the_disk(hanging, start, tmp_path):
    room = tmp_path / "journals"
    cluster, users = start(size=1, words=words(room, "--durable"))
    folder = folder_of(cluster, 1, room)
    (folder / "hang").touch()
    # By then the disk hangs: what all users ask is written, and nobody is answered.
    until(lambda: len(users.open) == users.count and Journal(folder).count() > users.records[-1].length, 20, "it doesn't hang")

    def is_somebody_answered() -> bool:
        before = len(users.records)
        return comes(lambda: len(users.records) > before, 0.3)

    # What a sync that had begun by then lets out is on its way for a moment.
    until(lambda: not is_somebody_answered(), 20, "it doesn't hang")
    before = len(users.records)
    holds(lambda: len(users.records) == before, 1, "somebody is answered")
    (folder / "hang").unlink()
    answered(users)


def all_hang(cluster: Cluster, users: Users, hangs: list[Path], pause: float) -> bool:
    """Has the disks hang, the last server's first: a disk is known to hang only where something is to be written, and entries come
    from the first server. Where not all of them say so, all goes on again."""
    for hang in reversed(hangs):
        hang.touch()
        pace(pause)

    def all_say_so() -> bool:
        beats = cluster.etcd.read(f"{cluster.root}/beat/").values()
        return sum(json.loads(beat).get("condemned") is not None for beat in beats) == len(hangs)

    if comes(all_say_so, 5):
        return True
    for hang in hangs:
        hang.unlink()
    answered(users)
    return False


def test_nobody_is_given_up_where_all_disks_hang_and_all_goes_on_with_them(hanging, start, tmp_path):
    room = tmp_path / "journals"
    cluster, users = start(words=words(room, "--durable"))
    # The master hears of all of them at once.
    cluster.stop_masters()
    hangs = [folder_of(cluster, server, room) / "hang" for server in (1, 2, 3)]
    assert any(all_hang(cluster, users, hangs, 0.005 * pause) for pause in range(10)), "they never hang all at once"
    cluster.masters_go_on()
    holds(lambda: cluster.detected() == [], 3, "somebody is given up")
    for hang in hangs:
        hang.unlink()
    answered(users)
    until(cluster.settles([1, 2, 3]), 30, lambda: f"the chain isn't what it was: {cluster.chain()}")
    assert cluster.detected() == []


@pytest.mark.parametrize("kind", KINDS)
def test_a_loss_of_power_takes_nothing_that_was_acknowledged_where_journals_are_durable(hanging, tmp_path, monkeypatch, kind):
    """Of each file there is what was synced, and no more. Of journals that aren't durable that takes what users were told: so it
    would here, if a node didn't wait."""
    room, synced = tmp_path / "journals", tmp_path / "synced"
    synced.mkdir()
    monkeypatch.setenv("HOBBYCHAIR_TEST_SYNCED", str(synced))
    with Cluster(tmp_path, words=words(room, *KINDS[kind])) as cluster:
        users = Users(cluster, 1, think=0.002)
        until(lambda: len(users.records) > 300, 60, "users aren't answered")
        kill_all(cluster)
        users.ends = True
        users.join(30)
        lose_power(room, synced)
        counts = [Journal(folder_of(cluster, server, room)).count() for server in (1, 2, 3)]
        lost = [one for one in users.records if one.length > min(counts)]
        if kind == "durable":
            assert not lost, f"{len(lost)} of {len(users.records)} are lost: {counts}"
            check_journals(cluster, room)
        else:
            assert lost, "nothing is lost: this test can't tell"


def lose_power(room: Path, synced: Path) -> None:
    """Each file of the journals has no more than was on the disk."""
    for file in room.glob("*/entries.??????"):
        noted = synced / str(file).replace("/", "%")
        size = int(noted.read_text() or 0) if noted.exists() else 0
        assert size <= file.stat().st_size
        os.truncate(file, size)


def test_a_journal_that_cannot_be_begun_ends_the_node_before_it_takes_a_number(tmp_path):
    with Cluster(tmp_path, size=1, masters=0, absent=(1,)) as cluster:
        node = ["node", "--cluster", NAME, "--etcd", cluster.etcd.urls[0], "--listen", "127.0.0.1:0", "--first", "1"]
        (tmp_path / "file").write_text("kept")
        done = run(*node, "--journal", str(tmp_path / "file"))
        assert done.returncode == 1 and "journals can't be kept" in done.stderr
        assert (tmp_path / "file").read_text() == "kept"
        assert "--journal" in run(*node, "--durable").stderr
        assert cluster.etcd.read(f"{cluster.root}/node/") == {}
        cluster.words = words(tmp_path / "deep" / "journals")
        until(cluster.start_node(1).look, 40, "it doesn't begin")
        assert folder_of(cluster, 1, tmp_path / "deep" / "journals").is_dir()
