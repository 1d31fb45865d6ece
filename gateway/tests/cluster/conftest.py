"""What tests of clusters share."""

from collections.abc import Callable, Iterator
from pathlib import Path

import pytest

from certificates import Certificates
from cluster_network import Network, why_not
from cluster_oracle import check
from cluster_serving import reached
from cluster_users import SEED, Users
from cluster_work import Served
from clusters import NAME, Cluster, Layout, has_etcd
from waiting import pass_time, until


@pytest.fixture(scope="session", autouse=True)
def etcd_is_there() -> None:
    if not has_etcd():
        pytest.skip("etcd isn't there: Debian's etcd-server has it")


@pytest.fixture
def start(tmp_path: Path) -> Iterator[Callable[..., tuple[Cluster, Users]]]:
    """Starts a cluster with users, and checks behind the test all that was told and answered."""
    begun: list[tuple[Cluster, Users]] = []

    def start(**how) -> tuple[Cluster, Users]:
        cluster = Cluster(tmp_path, **how)
        users = Users(cluster, SEED)
        begun.append((cluster, users))
        until(lambda: len(users.records) > 50, 40, "users aren't answered")
        pass_time(1.5, "by then each candidate has seen each beat change")
        return cluster, users

    yield start
    for cluster, users in begun:
        try:
            users.stop()
            events = check(cluster, users)
            print(f"{len(users.records)} answers, {events} events")
        except BaseException:
            print(cluster.said())
            raise
        finally:
            cluster.end()


@pytest.fixture
def machines(tmp_path, request) -> Iterator[Served]:
    """Three nodes, and two fronts on machines of their own. Nodes listen everywhere where that is asked for."""
    reason = why_not(("ip", "nsenter", "iptables"))
    if reason:
        pytest.skip(reason)
    layout = Layout(is_together=False)
    network = Network(layout.machines(2, 2))
    try:
        network.begin()
        how = {"network": network, "layout": layout, "certificates": Certificates(tmp_path / "certificates", NAME),
               "everywhere": getattr(request, "param", False)}
        with network.entered(layout.of_clients()), Served(tmp_path, fronts=2, **how) as served:
            until(lambda: reached(served.cluster) == {1: 2, 2: 2, 3: 2}, 40, "not all gateways' ports are reached")
            yield served
    finally:
        network.end()
