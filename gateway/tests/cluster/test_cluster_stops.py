"""A chain on several machines: what users are answered while nodes and etcd stand still."""

import json
import signal
import time

from cluster_users import Users, answered
from clusters import Cluster, Etcd
from waiting import holds, pace, pass_time, until


def test_a_node_is_stopped_and_goes_on(start):
    cluster, users = start()
    node = cluster.node(2)
    node.stop()
    until(cluster.settles([1, 3]), 30, "it isn't detected")
    answered(users)
    pass_time(1.5, "it stands still for longer than until the loss was noticed")
    node.go_on()
    until(lambda: not node.lives(), 20, "it doesn't end though the log says that it is lost")
    assert node.process.returncode == 0 and "the master's log says that it is lost" in node.log.read_text()


def test_etcd_is_stopped(start):
    cluster, users = start()
    begun = time.monotonic()
    cluster.etcd.signal(signal.SIGSTOP)
    try:
        pass_time(6, "longer than a server may be silent")
    finally:
        cluster.etcd.signal(signal.SIGCONT)
    assert users.longest_silence(begun) < 4
    holds(lambda: cluster.detected() == [], 3, "somebody is given up")
    until(cluster.settles([1, 2, 3]), 30, lambda: f"the chain isn't what it was: {cluster.chain()}")
    answered(users)


def begin_again(etcd: Etcd) -> None:
    etcd.begin_again()
    until(etcd.answers, 20, "etcd doesn't begin again")


def test_etcd_is_put_back_from_a_copy_that_lacks_beats_alone(start):
    cluster, users = start(members=3)
    etcd = cluster.etcd
    # Nobody appends a line meanwhile.
    cluster.stop_masters()
    etcd.kill()
    etcd.copy()
    begin_again(etcd)
    copied = beats(cluster)
    until(lambda: all(beat > copied[server] for server, beat in beats(cluster).items()), 30, "beats don't go on behind the copy")
    before = beats(cluster)
    etcd.kill()
    etcd.put_back()
    # Their next beats aren't there at once.
    for node in cluster.nodes:
        node.stop()
    begin_again(etcd)
    assert all(beat < before[server] for server, beat in beats(cluster).items()), "etcd isn't put back"
    for node in cluster.nodes:
        node.go_on()
    cluster.masters_go_on()
    answered(users)
    holds(lambda: cluster.detected() == [], 3, "somebody is given up")
    cluster.kill(2)
    until(cluster.settles([1, 3]), 30, "it isn't detected")
    answered(users)


def beats(cluster: Cluster) -> dict[str, int]:
    """The number of each server's last beat."""
    return {server: json.loads(beat)["number"] for server, beat in cluster.etcd.read(f"{cluster.root}/beat/").items()}


def test_who_knows_more_of_the_log_than_etcd_has_waits(tmp_path):
    """A copy of etcd lacks the lines of a change that was done. Nothing is promised then; requests go on, and the chain can't
    change."""
    with Cluster(tmp_path) as cluster:
        users, etcd = Users(cluster, 1), cluster.etcd
        until(lambda: len(users.records) > 50, 40, "users aren't answered")
        etcd.kill()
        etcd.copy()
        begin_again(etcd)
        pass_time(1.5, "by then each candidate has seen each beat change")
        cluster.kill(2)
        until(cluster.settles([1, 3]), 40, "it isn't detected")
        # The change is done by then.
        answered(users)
        lines, logs = len(cluster.log()), [tmp_path / f"master{number}.log" for number in (1, 2)]
        until(lambda: all(f"line={lines}" in log.read_text() for log in logs), 30, "a candidate doesn't know of all lines")
        etcd.kill()
        etcd.put_back()
        begin_again(etcd)
        assert cluster.log() == []
        # For a candidate that knew of no line a server would have been silent for long enough by then.
        holds(lambda: cluster.log() == [] and all(master.poll() is None for master in cluster.masters), 6, "a line is written", 0.2)
        # That etcd was away was told before.
        for log in [*logs, cluster.node(1).log, cluster.node(3).log]:
            until(lambda: "its log has 0 lines" in log.read_text(), 20, f"{log.name} doesn't say why it waits")
        answered(users)
        users.stop()


def test_all_nodes_are_stopped_at_once(start):
    cluster, users = start()
    for node in cluster.nodes:
        node.stop()
    pass_time(5, "longer than a server may be silent")
    for node in cluster.nodes:
        node.go_on()
        pace(0.2)
    answered(users)
    holds(lambda: cluster.detected() == [], 3, "the first one to awake has the others thrown out")


def test_links_break_again_and_again(start):
    """Each goes on behind the last frame that has come, whatever was on its way."""
    cluster, users = start(breakable=True)
    before = len(users.records)

    def times_up() -> int:
        return sum(node.log.read_text().count("a link is up") for node in cluster.nodes)

    def break_all() -> None:
        for proxy in cluster.between:
            proxy.cut()
            proxy.mend()
        pace(0.15)

    for _ in range(30):
        break_all()
    # Beside much other work links come about more slowly.
    until(lambda: times_up() > 40 or break_all(), 30, "links don't come about again")
    answered(users)
    until(lambda: len(users.records) > before + 100, 30, "requests don't go on")
    assert cluster.detected() == []


def test_of_a_link_that_carries_nothing_one_end_is_given_up(start):
    """Both ends beat, and without that nothing would ever go on."""
    cluster, users = start(breakable=True)
    # In front of node 2: what others send to it, and what it answers.
    cluster.between[1].cut()
    until(lambda: len(cluster.detected()) == 1, 40, "nobody is given up")
    [lost] = cluster.detected()
    cluster.node(lost).may_fail = True
    until(cluster.settles([server for server in (1, 2, 3) if server != lost]), 30, "the chain doesn't go on")
    answered(users)
    until(lambda: not cluster.node(lost).lives(), 20, "it doesn't hear that it is lost")


def test_one_that_joins_is_given_up_where_too_much_waits_for_it(start):
    cluster, users = start(words=lambda number: ["--joiner-memory", "1KiB"])
    # Whoever feeds it looks for it once it joins.
    cluster.stop_masters()
    cluster.start_node()
    node = cluster.nodes[3]
    # Nothing comes to it.
    cluster.put_between(node)
    cluster.between[-1].cut()
    cluster.masters_go_on()
    cluster.node(3).logs("too much waits for a server that joins")
    until(lambda: not node.lives(), 40, "it isn't given up")
    assert node.process.returncode == 0 and cluster.detected() == [4]
    answered(users)


def test_who_does_not_reach_etcd_hears_of_a_loss_by_a_link_ahead_of_what_follows(start):
    cluster, users = start()
    cluster.kill(2)
    pass_time(1.4, "the loss is noticed soon behind that")
    proxy = cluster.node(3).proxy
    proxy.cut()
    try:
        # Behind ten seconds this one would be given up, too.
        until(lambda: cluster.detected() == [2], 8, "it isn't detected")
        cluster.node(3).logs("a server is gone server=2")
    finally:
        proxy.mend()
    until(cluster.settles([1, 3]), 30, "the chain doesn't go on")
    answered(users)


def test_a_node_that_is_told_to_end_is_let_go_first(start):
    cluster, users = start()
    node = cluster.node(1)
    node.process.terminate()
    until(lambda: not node.lives(), 20, "it isn't let go")
    assert node.process.returncode == 0
    node.logs("the master's log says that it is lost")
    until(cluster.settles([2, 3]), 30, "the chain doesn't go on")
    answered(users)


def test_the_only_full_server_is_not_let_go(tmp_path):
    with Cluster(tmp_path, size=1, masters=1) as cluster:
        node = cluster.node(1)
        node.process.terminate()
        node.logs("the master is asked to do without it")
        # The master undoes the wish.
        until(lambda: "isn't given up" in (tmp_path / "master1.log").read_text(), 30, "the master says nothing")
        assert node.lives() and cluster.detected() == []
        node.process.terminate()
        until(lambda: not node.lives(), 20, "it doesn't end")
        assert node.process.returncode == 1
        node.logs("it was told to twice, and the chain hasn't let go of it")


def test_a_node_without_a_place_ends_at_once(tmp_path):
    with Cluster(tmp_path, size=1, masters=0) as cluster:
        cluster.start_node()
        node = cluster.nodes[1]
        until(node.look, 40, "it doesn't begin")
        until(lambda: cluster.etcd.read(f"{cluster.root}/beat/{2:010}"), 30, "it doesn't beat")
        node.process.terminate()
        until(lambda: not node.lives(), 20, "it doesn't end")
        assert node.process.returncode == 0
        node.logs("has no place in the chain")
