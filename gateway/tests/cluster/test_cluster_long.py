"""More of what happens to a chain on several machines. It takes minutes, so it isn't in the gate: HOBBYCHAIR_TEST_LONG=1 has the
schedules played, and HOBBYCHAIR_TEST_FAULTS=N as many runs with faults by seeds from HOBBYCHAIR_TEST_SEED on."""

import os
import signal
import time
import urllib.request

import pytest

from cluster_faults import Faults, heals
from cluster_users import SEED, answered
from cluster_work import Served, Work
from waiting import holds, pace, pass_time, until

FAULTS = int(os.environ.get("HOBBYCHAIR_TEST_FAULTS", "0"))
SECONDS = int(os.environ.get("HOBBYCHAIR_TEST_SECONDS", "40"))
long = pytest.mark.skipif(not os.environ.get("HOBBYCHAIR_TEST_LONG"), reason="HOBBYCHAIR_TEST_LONG isn't set")


@long
def test_the_head_is_stopped_and_goes_on(start):
    cluster, users = start()
    node = cluster.node(1)
    node.stop()
    until(cluster.settles([2, 3]), 10, "it isn't detected")
    answered(users)
    node.go_on()
    until(lambda: not node.lives(), 5, "it doesn't end")
    answered(users)


@long
def test_head_and_masters_are_stopped(start):
    """The head is stopped for seven seconds, and the masters for the first half of these."""
    cluster, users = start()
    cluster.stop_masters()
    cluster.node(1).stop()
    pass_time(3.5, "masters stand still for half of the time")
    cluster.masters_go_on()
    pass_time(3.5, "the head stands still for longer")
    cluster.node(1).go_on()
    answered(users)
    assert set(cluster.detected()) <= {1}


@long
def test_a_member_that_never_begins_is_detected(start):
    # Nobody is answered before that.
    cluster, users = start(absent=(2,))
    answered(users)
    assert cluster.detected() == [2]
    # It knows nothing of what was acknowledged meanwhile.
    late = cluster.start_node(2)
    late.may_fail = True
    until(lambda: not late.lives(), 5, "it begins")
    assert "the master's log says that it is lost" in late.log.read_text()


@long
def test_two_of_three_do_not_reach_etcd(start):
    """All links are fine, so nobody is given up."""
    cluster, users = start()
    begun = time.monotonic()
    for server in (1, 2):
        cluster.node(server).proxy.cut()
    pass_time(6, "longer than a server may be silent")
    for server in (1, 2):
        cluster.node(server).proxy.mend()
    holds(lambda: cluster.detected() == [], 3, "somebody is given up")
    assert users.longest_silence(begun) < 2


@long
def test_one_that_never_reaches_etcd_again_is_given_up_and_ends(start):
    cluster, users = start()
    node = cluster.node(3)
    node.proxy.cut()
    until(cluster.settles([1, 2]), 20, "it isn't detected")
    until(lambda: not node.lives(), 5, "nobody tells it")
    answered(users)


@long
def test_a_condemned_one_is_kept_where_the_other_dies(start):
    """Of two members one is condemned while no master lives, and the other dies."""
    cluster, users = start(size=2)
    cluster.stop_masters()
    cluster.condemn(1)
    pass_time(1.5, "no candidate takes the other one for fresh when it goes on")
    cluster.kill(2)
    cluster.masters_go_on()
    until(cluster.settles([1]), 12, "the chain doesn't go on")
    answered(users)


@long
@pytest.mark.parametrize("stage", ["joiner", "member"])
def test_the_last_full_member_dies_while_a_young_one_joins(start, stage):
    """Nothing is answered wrongly: either the young one has all and goes on, or the chain waits."""
    cluster, users = start(size=1)
    cluster.start_node()
    until(lambda: cluster.chain()["joiner"] == 2 if stage == "joiner" else 2 in cluster.chain()["members"], 10, "it doesn't join")
    cluster.stop_masters()
    cluster.kill(1)
    pass_time(0.5, "the masters stand still meanwhile")
    cluster.masters_go_on()
    pass_time(6, "a loss is noticed within that time, where one is")
    chain = cluster.chain()
    assert chain["members"] in ([1], [1, 2]) or chain["members"] == [2] and chain["full"] == [2]


@long
def test_a_server_that_hangs_is_given_up(start):
    """Its node beats, and condemns itself."""
    cluster, users = start()
    os.kill(cluster.node(2).child(), signal.SIGSTOP)
    until(cluster.settles([1, 3]), 15, "it isn't detected")
    answered(users)
    until(lambda: not cluster.node(2).lives(), 5, "it doesn't end")


@long
def test_a_server_that_hangs_for_a_while_is_kept(start):
    cluster, users = start()
    os.kill(cluster.node(2).child(), signal.SIGSTOP)
    pass_time(3, "it may hang for so long")
    os.kill(cluster.node(2).child(), signal.SIGCONT)
    answered(users)
    assert cluster.detected() == []


@long
def test_etcd_of_three_loses_its_leader_and_its_quorum(start):
    cluster, users = start(members=3)
    for places in ([0], [1], [2]):
        begun = time.monotonic()
        cluster.etcd.signal(signal.SIGSTOP, places)
        pass_time(4, "a member stands still for so long")
        cluster.etcd.signal(signal.SIGCONT, places)
        pass_time(2, "it takes part again")
        assert users.longest_silence(begun) < 2
    cluster.etcd.signal(signal.SIGSTOP, [1, 2])
    pass_time(0.3, "asks that were on their way are answered")
    cluster.kill(2)
    pass_time(6, "nobody can note a loss meanwhile")
    cluster.etcd.signal(signal.SIGCONT, [1, 2])
    until(cluster.settles([1, 3]), 20, "it isn't detected")
    answered(users)


@long
def test_nodes_join_one_after_the_other(start):
    cluster, users = start()
    begun = time.monotonic()
    for server in range(4, 9):
        cluster.start_node()
        until(cluster.settles(list(range(1, server + 1))), 10, "it doesn't become a member")
    # With eight the chain is full: a ninth waits, and joins once one is lost.
    cluster.start_node()
    holds(lambda: len(cluster.chain()["members"]) == 8, 3, "it joins a chain that is full")
    cluster.kill(5)
    until(cluster.settles([1, 2, 3, 4, 6, 7, 8, 9]), 15, "it doesn't become a member")
    answered(users)
    assert users.longest_silence(begun) < 5


@long
def test_what_etcd_is_asked_when_nothing_happens(start):
    cluster, users = start()
    users.stop()

    def requests() -> float:
        with urllib.request.urlopen(cluster.etcd.urls[0] + "/metrics") as answer:
            lines = answer.read().decode().splitlines()
        return sum(float(line.split()[-1]) for line in lines if line.startswith("grpc_server_handled_total") and '"Txn"' in line)

    pass_time(2, "what came before is done")
    before = requests()
    pass_time(10, "it is measured for so long")
    assert (requests() - before) / 10 < 14


@long
@pytest.mark.parametrize("seconds", [60, 360])
def test_a_head_and_its_gateway_stand_still_for_minutes(tmp_path, seconds):
    """By then others serve, and nothing that it does counts."""
    with Served(tmp_path, fronts=2) as served:
        work, node = Work(served), served.cluster.node(1)
        work.goes_on()
        node.stop()
        stopped = time.monotonic()
        until(served.cluster.settles([2, 3]), 10, "it isn't detected")
        work.goes_on()
        pass_time(seconds - (time.monotonic() - stopped), "it stands still for so long")
        node.go_on()
        until(lambda: not node.lives(), 10, "it doesn't end")
        work.goes_on()
        work.stop()


@pytest.mark.skipif(FAULTS == 0, reason="HOBBYCHAIR_TEST_FAULTS isn't set")
@pytest.mark.parametrize("seed", range(SEED, SEED + FAULTS))
def test_faults_by_a_seed(start, seed):
    cluster, users = start()
    faults = Faults(cluster, seed)
    end = time.monotonic() + SECONDS
    try:
        while time.monotonic() < end:
            faults.one()
            pause = time.monotonic() + faults.random.uniform(0.2, 5)
            while time.monotonic() < pause:
                faults.due()
                faults.population(3)
                pace(0.1)
        faults.end()
        until(lambda: heals(cluster) or faults.population(3), 40, "it doesn't heal", 0.2)
        answered(users, 20)
    finally:
        faults.end()
        print(f"seed {seed}: {faults.done}")
