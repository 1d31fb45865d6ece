"""Faults of a cluster by a seed: of its nodes, its candidates and etcd."""

import os
import random
import signal
import time
from collections.abc import Callable
from dataclasses import dataclass
from typing import Any

from clusters import Cluster, Node
from waiting import pace


@dataclass
class Fault:
    """What was done, and when it began."""

    moment: float
    kind: str
    about: list[Any]

    def __str__(self) -> str:
        return f"{self.moment:.2f} {self.kind} {' '.join(map(str, self.about))}"


class Held:
    """A process that another one started. It is held, so that a signal never comes to one that has its number later."""

    def __init__(self, process: int) -> None:
        self.process = process
        try:
            self.file: int | None = os.pidfd_open(process)
        except ProcessLookupError:
            self.file = None

    def send(self, number: int) -> None:
        try:
            if self.file is not None:
                signal.pidfd_send_signal(self.file, number)
        except ProcessLookupError:
            os.close(self.file)
            self.file = None

    def lives(self) -> bool:
        self.send(0)
        return self.file is not None


class Faults:
    """Faults by a seed. One full member at least is never touched."""

    def __init__(self, cluster: Cluster, seed: int) -> None:
        self.cluster, self.random = cluster, random.Random(seed)
        self.done: list[Fault] = []
        self.later: list[tuple[float, Callable[[], Any]]] = []
        # Until when a server isn't touched again; 0 is etcd. And until when etcd has no quorum.
        self.busy: dict[int, float] = {}
        self.away = 0.0
        # Until when a candidate stands still.
        self.masters_stopped = 0.0

    def chain(self) -> dict[str, Any]:
        """As it was last, where etcd has no quorum: it isn't asked, since it would take long not to answer."""
        if self.etcd_is_away() and self.cluster.last:
            return self.cluster.last
        asked = time.monotonic()
        chain = self.cluster.chain()
        if time.monotonic() - asked > 1:
            self.away = time.monotonic() + 1
        return chain

    def good(self) -> list[int]:
        now = time.monotonic()
        chain = self.chain()
        alive = {node.server for node in self.cluster.nodes if node.look() and node.lives()}
        return [one for one in chain["members"] if one in chain["full"] and one in alive and self.busy.get(one, 0) < now]

    def one_of_some(self) -> Node | None:
        """One that may be lost, since another one isn't touched."""
        good = self.good()
        return self.cluster.node(self.random.choice(good)) if len(good) > 1 else None

    def note(self, kind: str, *about: Any, moment: float | None = None) -> Fault:
        """`moment`: when it began, if that isn't now."""
        self.done.append(Fault(moment or time.monotonic(), kind, list(about)))
        return self.done[-1]

    def touch(self, server: int, seconds: float) -> None:
        self.busy[server] = time.monotonic() + seconds

    def after(self, seconds: float, what: Callable[[], Any]) -> None:
        self.later.append((time.monotonic() + seconds, what))

    def due(self) -> None:
        now = time.monotonic()
        while due := next((one for one in self.later if one[0] <= now), None):
            self.later.remove(due)
            due[1]()

    def until(self, seconds: float, what: Callable[[], bool]) -> bool:
        """Waits for that, and whether it came. What is due is done meanwhile."""
        end = time.monotonic() + seconds
        while not what():
            if time.monotonic() > end:
                return False
            self.due()
            pace(0.02)
        return True

    def end(self) -> None:
        """All that is to be done later is, whatever comes of it."""
        errors: list[Exception] = []
        while self.later:
            try:
                self.due()
            except Exception as error:
                errors.append(error)
            pace(0.05)
        if errors:
            raise errors[0]

    def kill(self) -> None:
        if node := self.one_of_some():
            self.note("a node killed", node.server)
            node.kill()

    def stop(self) -> None:
        if node := self.one_of_some():
            seconds = self.random.choice([0.3, 0.8, 1.5, 2.2, 3, 5])
            self.note("a node stopped", node.server, seconds)
            self.stop_these([node], seconds)

    def stop_all(self) -> None:
        good = self.good()
        if len(good) > 1:
            seconds = self.random.choice([0.8, 2.2, 5])
            self.note("all nodes stopped at once", *good, seconds)
            self.stop_these([self.cluster.node(one) for one in good], seconds)

    def stop_these(self, nodes: list[Node], seconds: float) -> None:
        for node in nodes:
            self.touch(node.server, seconds + 4)
            node.stop()
            self.after(seconds + self.random.random() * 0.3, lambda node=node: node.lives() and node.go_on())

    def cut_from_etcd(self) -> None:
        if node := self.one_of_some():
            seconds = self.random.choice([1, 3, 6, 12])
            self.note("a node cut from etcd", node.server, seconds)
            self.touch(node.server, seconds + 3)
            node.proxy.cut()
            self.after(seconds, node.proxy.mend)

    def condemn(self) -> None:
        if not self.etcd_is_away() and (node := self.one_of_some()):
            self.touch(node.server, 5)
            self.cluster.condemn(node.server)
            self.note("a living node condemned", node.server)

    # ---- etcd

    def etcd_is_away(self) -> bool:
        """Whether it may have no quorum."""
        return self.away > time.monotonic()

    def etcd_is_touched(self) -> bool:
        """Whether a member may be away, so that no other one is touched now."""
        return self.busy.get(0, 0) > time.monotonic()

    def touch_etcd(self, seconds: float, is_away: bool) -> None:
        self.touch(0, seconds)
        if is_away:
            self.away = self.busy[0]

    def stop_etcd(self) -> None:
        """All of it; of three members also the leader alone, or so many that the other one decides nothing."""
        if self.etcd_is_touched():
            return
        etcd, seconds = self.cluster.etcd, self.random.choice([1, 3, 6])
        which, places = "etcd stopped", list(range(len(etcd.urls)))
        if len(places) > 1:
            which = self.random.choice(["etcd stopped", "etcd's leader stopped", "etcd without a quorum"])
            leader = etcd.leader() or 0
            if which == "etcd's leader stopped":
                places = [leader]
            elif which == "etcd without a quorum":
                places, seconds = [place for place in places if place != leader], 10
        self.note(which, seconds)
        self.touch_etcd(seconds + (1 if which == "etcd stopped" else 3), is_away=True)
        etcd.signal(signal.SIGSTOP, places)
        self.after(seconds, lambda: etcd.signal(signal.SIGCONT, places))

    # ---- candidates

    def masters_are_stopped(self) -> bool:
        return self.masters_stopped > time.monotonic()

    def kill_master(self) -> None:
        place = self.random.randrange(len(self.cluster.masters))
        self.note("a candidate killed", place)
        self.cluster.masters[place].kill()
        self.cluster.masters[place].wait()
        self.cluster.start_master(place)

    def stop_master(self) -> None:
        master, seconds = self.random.choice(self.cluster.masters), self.random.choice([1, 3, 6])
        self.note("a candidate stopped", seconds)
        self.masters_stopped = time.monotonic() + seconds
        master.send_signal(signal.SIGSTOP)
        self.after(seconds, lambda: master.send_signal(signal.SIGCONT))

    def kill_young(self) -> None:
        chain, now = self.chain(), time.monotonic()
        living = [node for node in self.cluster.nodes if node.look() and node.lives()]
        young = [node for node in living if node.server not in chain["full"] and self.busy.get(node.server, 0) < now]
        if young:
            self.note("a node that joins killed", young[0].server)
            young[0].kill()

    # ---- one after the other

    def ways(self) -> list[tuple[Callable[[], None], int]]:
        """What may be done, and how often."""
        return [(self.kill, 8), (self.stop, 7), (self.stop_all, 2), (self.cut_from_etcd, 5), (self.condemn, 4), (self.stop_etcd, 3),
                (self.kill_master, 3), (self.stop_master, 2), (self.kill_young, 2)]

    def one(self) -> bool:
        """Whether something was done: not everything can be at any moment."""
        ways, weights = zip(*self.ways())
        before = len(self.done)
        try:
            self.random.choices(ways, weights)[0]()
        except ConnectionError:
            # Etcd doesn't answer at once.
            pass
        return len(self.done) > before

    def population(self, wanted: int) -> None:
        """A new node for each that is lost."""
        if self.etcd_is_away() or self.cluster.free_machine() is None:
            return
        living = [node for node in self.cluster.nodes if node.lives()]
        try:
            detected = set(self.cluster.detected())
        except ConnectionError:
            self.away = time.monotonic() + 1
            return
        if len([node for node in living if not node.look() or node.server not in detected]) < wanted:
            self.cluster.start_node()


def heals(cluster: Cluster) -> bool:
    chain = cluster.chain()
    living = {node.server for node in cluster.nodes if node.look() and node.lives()}
    members = set(chain["members"])
    return chain["is_ready"] and len(members) >= cluster.size and members <= living and members <= set(chain["full"])
