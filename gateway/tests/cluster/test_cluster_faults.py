"""A cluster that serves SQS, with faults by a seed: HOBBYCHAIR_TEST_RUNS says how many runs, from HOBBYCHAIR_TEST_SEED on, each of
HOBBYCHAIR_TEST_FAULTS_EACH faults, and HOBBYCHAIR_TEST_NETWORK whether on `namespaces` of the network or on `loopback`. `check/faults`
sets these."""

import contextlib
import os
import random
import time
from collections.abc import Iterator
from dataclasses import dataclass
from pathlib import Path

import pytest

from certificates import Certificates
from cluster_disks import Disks
from cluster_faults import heals
from cluster_journals import check_journals
from cluster_network import Loopback, Network, why_not
from cluster_oracle import stopped
from cluster_report import all_that_happened, keep_table, only_its_own
from cluster_served_faults import ServedFaults
from cluster_work import Served, Work
from clusters import FAKETIME, NAME, Cluster, Layout
from preloaded import built
from waiting import pace, until

SEED = int(os.environ.get("HOBBYCHAIR_TEST_SEED", "6"))
RUNS = int(os.environ.get("HOBBYCHAIR_TEST_RUNS", "1"))
EACH = int(os.environ.get("HOBBYCHAIR_TEST_FAULTS_EACH", "8"))
NETWORK = os.environ.get("HOBBYCHAIR_TEST_NETWORK", "where they can be made")

MEMBERS, FRONTS = 3, 2


@dataclass
class Plan:
    """What kind of a cluster a run has, by its seed."""

    seed: int

    def __post_init__(self) -> None:
        chance = random.Random(f"plan {self.seed}")
        self.size = chance.choice([3, 4, 5])
        self.layout = Layout(is_together=chance.random() < 0.7)
        # None, or whether journals wait for the disk.
        self.durable = chance.choice([None, False, True, True])

    def __str__(self) -> str:
        kept = {None: "no journals", False: "journals", True: "durable journals"}[self.durable]
        return f"{self.size} nodes {'beside' if self.layout.is_together else 'apart from'} etcd and fronts, with {kept}"


@contextlib.contextmanager
def network_of(plan: Plan) -> Iterator[Network | Loopback]:
    """Machines with this test as one of them, or this machine alone."""
    reason = why_not(("ip", "nsenter", "iptables"))
    if NETWORK == "namespaces" and reason:
        pytest.skip(reason)
    if NETWORK == "loopback" or reason:
        yield Loopback()
        return
    network = Network(plan.layout.machines(MEMBERS, FRONTS))
    try:
        network.begin()
        with network.entered(plan.layout.of_clients()):
            yield network
    finally:
        network.end()


def certificates_for(network: Network | Loopback, room: Path) -> Certificates | None:
    """Between machines all speak TLS. Where wall clocks are stepped, certificates are older than these steps."""
    if not network.has_machines:
        return None
    older = {"LD_PRELOAD": str(FAKETIME), "FAKETIME": "-86400"} if FAKETIME.exists() else {}
    return Certificates(room / "certificates", NAME, **older)


@pytest.mark.parametrize("seed", range(SEED, SEED + RUNS))
def test_faults_of_a_cluster_that_serves(tmp_path, seed):
    plan = Plan(seed)
    with network_of(plan) as network:
        disks = None if plan.durable is None else Disks(tmp_path / "disks", plan.durable)
        try:
            play(tmp_path, plan, network, disks)
        finally:
            if disks:
                disks.end()


def play(room: Path, plan: Plan, network: Network | Loopback, disks: Disks | None) -> None:
    counting, hanging = built("ended_between_asks.rs", room), disks.library if disks else None
    served = Served(room, size=plan.size, members=MEMBERS, fronts=FRONTS, breakable=not network.has_machines, clocks=FAKETIME.exists(),
                    words=disks.words if disks else lambda number: [], network=network, layout=plan.layout,
                    certificates=certificates_for(network, room), preloaded=[one for one in (counting, hanging) if one])
    cluster, faults, work = served.cluster, ServedFaults(served, plan.seed, disks, counting is not None), None
    try:
        work = Work(served)
        work.goes_on()
        # So that faults know a chain also where the first one leaves etcd without a quorum.
        until(lambda: cluster.chain(), 30, "etcd tells no chain")
        begun = time.monotonic()
        play_faults(faults, plan.size)
        heal(cluster, faults, plan.size)
        work.goes_on(60)
        print(f"{len(faults.done)} faults, {work.longest_silence(begun):.2f} s without an answer at most")
        work.stop()
        check(cluster, faults, disks)
        about = {"network": "namespaces" if network.has_machines else "loopback", "cluster": str(plan)}
        keep_table(plan.seed, about | {"longest": round(work.longest_silence(begun), 2)}, faults.done, work)
        for trace in room.glob("*.trace"):
            trace.unlink()
    except BaseException:
        print(cluster.said())
        for node in cluster.nodes:
            node.stop()
        report = all_that_happened(plan.seed, faults.done, work, cluster)
        (room / "all-that-happened").write_text(report)
        print(report)
        raise
    finally:
        print(f"seed {plan.seed}, {'namespaces' if network.has_machines else 'loopback'}: {plan}")
        print("\n".join(map(str, faults.done)), f"\nstarted again: {faults.started_again}")
        if work:
            work.give_up()
        try:
            faults.end()
        finally:
            served.end()


def play_faults(faults: ServedFaults, size: int) -> None:
    while len(faults.done) < EACH:
        pause = time.monotonic() + (faults.random.uniform(0.2, 4) if faults.one() else 0.1)
        while time.monotonic() < pause:
            faults.due()
            faults.keep_all_going(size)
            pace(0.1)


def heal(cluster: Cluster, faults: ServedFaults, size: int) -> None:
    """All that was stopped or cut goes on, and then there is a whole chain again, whose gateway acts."""
    faults.until(80, lambda: not faults.later)
    until(lambda: heals(cluster) or faults.keep_all_going(size), 60, "it doesn't heal", 0.2)
    until(lambda: cluster.gateway_acts(cluster.chain()["members"][0]), 30, "no gateway acts")
    faults.keep_all_going(size)


def check(cluster: Cluster, faults: ServedFaults, disks: Disks | None) -> None:
    run = stopped(cluster)
    panicked = [log.name for log in cluster.room.glob("*.log") if "panicked at" in log.read_text()]
    assert not panicked, panicked
    run.check_list()
    print(f"{run.check_servers()} events")
    if disks:
        check_journals(cluster, lambda node: disks.folder(node.number), run)
    if faults.severed:
        print("entries that a killed head alone had:", {server: only_its_own(run, server) for server in faults.severed})
