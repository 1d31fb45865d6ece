"""Faults by a seed of a cluster that serves SQS: also of its gateways, fronts, machines, disks, clocks and links."""

import json
import os
import signal
import time
from collections.abc import Callable

from cluster_cuts import Cut, LoopbackCuts, MachineCuts
from cluster_disks import Disks
from cluster_faults import Faults, Held
from cluster_work import Front, Served
from clusters import Node, children_of

# What a test writes to etcd, and what isn't there any more once a copy from before is put back.
MARK = "of-a-test/behind-the-copy"

# The name of a way to do faults that is taken more often than by chance, and how much more.
OFTEN = os.environ.get("HOBBYCHAIR_TEST_FAULTS_OFTEN")
MORE = 30

# What a node says whose wall clock isn't the cluster's.
OFF = "the wall clock of this machine is off the cluster's time"


class ServedFaults(Faults):
    def __init__(self, served: Served, seed: int, disks: Disks | None = None, can_count_asks: bool = False) -> None:
        super().__init__(served.cluster, seed)
        self.served, self.disks, self.can_count_asks = served, disks, can_count_asks
        self.cuts = (MachineCuts if self.cluster.network.has_machines else LoopbackCuts)(served)
        # Fronts that were killed, until when they are away.
        self.absent: dict[str, float] = {}
        # Machines that were lost.
        self.lost: list[int] = []
        # Heads that were killed with entries that no one else has.
        self.severed: list[int] = []
        # Fronts and candidates that were started again, and how they had ended.
        self.started_again: list[tuple[str, int]] = []

    def head(self) -> Node | None:
        """The head, if it lives."""
        chain = self.chain()["members"]
        return next((node for node in self.cluster.nodes if node.look() and node.server == chain[0] and node.lives()), None)

    def good_head(self) -> Node | None:
        """The head, if it may be lost."""
        good, node = self.good(), self.head()
        return node if node and node.server in good and len(good) > 1 else None

    def touch_all(self, seconds: float) -> None:
        for one in self.good():
            self.touch(one, seconds)

    # ---- gateways and fronts

    def acting_gateway(self) -> int | None:
        node = self.head()
        return node.gateway() if node else None

    def kill_gateway(self) -> None:
        """Once, or again and again once there is another one."""
        times = self.random.choice([1, 1, 3])
        if self.acting_gateway():
            self.note("the gateway that acts killed", times)
        for _ in range(times):
            if process := self.acting_gateway():
                Held(process).send(signal.SIGKILL)
                self.until(self.random.uniform(0.05, 0.8), lambda: False)

    def kill_gateway_between_asks(self) -> None:
        """Ahead of an ask that is one of the next ones."""
        node = self.head()
        if node and node.gateway() and self.can_count_asks:
            count = self.random.choice([0, 1, 2, 3, 5, 10, 30, 100])
            fault = self.note("the gateway that acts killed between two asks", count)
            new = node.asks.with_suffix(".new")
            new.write_text(str(count))
            new.replace(node.asks)
            if not self.until(3, lambda: not node.asks.exists()):
                fault.about.append("it asked less")
                node.asks.unlink(missing_ok=True)

    def stop_gateway(self) -> None:
        """For a minute and for six, too: its node ends it after 5 s."""
        node, process = self.head(), self.acting_gateway()
        if node and process:
            seconds = self.random.choice([0.5, 2, 7, 60, 360])
            self.note("the gateway that acts stopped", process, seconds)
            held = Held(process)
            held.send(signal.SIGSTOP)
            if seconds < 7:
                self.after(seconds, lambda: held.send(signal.SIGCONT))
            else:
                self.after(20, lambda: self.is_ended(held, node))

    def is_ended(self, held: Held, node: Node) -> None:
        """Where the node stood still, too, it ends its gateway later."""
        is_good = node.lives() and self.busy.get(node.server, 0) < time.monotonic() - 20
        assert not (is_good and held.lives()), f"node {node.server} hasn't ended its gateway, which stood still for 20 s"
        held.send(signal.SIGCONT)

    def kill_front(self) -> None:
        front, seconds = self.random.choice(self.served.fronts), self.random.choice([0.1, 1, 4])
        if front.lives():
            self.note("a front killed", front.url, seconds)
            self.absent[front.name] = time.monotonic() + seconds
            front.kill()

    def stop_front(self) -> None:
        front, seconds = self.random.choice(self.served.fronts), self.random.choice([0.5, 2, 5])
        if front.lives():
            self.note("a front stopped", front.url, seconds)
            process = front.process
            process.send_signal(signal.SIGSTOP)
            self.after(seconds, lambda: process.send_signal(signal.SIGCONT))

    # ---- nodes

    def leave(self) -> None:
        """A node is told to end."""
        if not self.etcd_is_away() and (node := self.one_of_some()):
            self.note("a node told to end", node.server)
            self.touch(node.server, 5)
            # Where it isn't let go, it ends with status 1.
            node.may_fail = True
            node.process.terminate()

    def stand_still(self) -> None:
        """A node and its gateway, for so long that nobody knows of them any more when they go on."""
        if node := self.one_of_some():
            self.note("a node stopped for a minute", node.server)
            self.stop_these([node], 60)

    def touch_child(self) -> None:
        """The server of a node ends, or answers nothing for a while."""
        if (node := self.one_of_some()) and (child := node.child()):
            seconds = self.random.choice([0, 1, 3, 7])
            self.note("a server's process stopped" if seconds else "a server's process killed", node.server, seconds)
            self.touch(node.server, seconds + 5)
            node.may_fail = True
            held = Held(child)
            held.send(signal.SIGSTOP if seconds else signal.SIGKILL)
            if seconds:
                self.after(seconds, lambda: held.send(signal.SIGCONT))

    def touch_child_of_master(self) -> None:
        """A candidate whose `cq master` is gone ends, and is started again."""
        children = children_of(self.random.choice(self.cluster.masters).pid)
        if children:
            seconds = self.random.choice([0, 1, 3, 6])
            self.note("a candidate's process stopped" if seconds else "a candidate's process killed", seconds)
            held = Held(children[0])
            held.send(signal.SIGSTOP if seconds else signal.SIGKILL)
            if seconds:
                self.after(seconds, lambda: held.send(signal.SIGCONT))

    def kill_old_tail(self) -> None:
        """It is killed while it feeds one that joins, or once that one is behind it."""
        good, chain = self.good(), self.chain()
        tail = chain["members"][-1]
        if len(good) < 2 or tail not in good or self.etcd_is_away() or chain["joiner"] or self.cluster.free_machine() is None:
            return
        young, old = self.cluster.start_node(), self.cluster.node(tail)
        stages = [lambda: self.chain()["joiner"] == young.server, lambda: young.server in self.chain()["members"]]
        place = self.random.randrange(2)
        self.touch(tail, 15)
        if self.until(10, lambda: young.look() and stages[place]()):
            kind = "the old tail killed " + ("while it feeds one that joins", "behind a join")[place]
            self.note(kind, tail, young.server)
            old.kill()

    def kill_head_alone(self) -> None:
        """What it takes doesn't come to the others for a while, and then it is killed."""
        node, members, good = self.good_head(), self.chain()["members"], self.good()
        if node is None or len(members) < 2 or members[1] not in good:
            return
        cut = self.cuts.from_its_successor(node, self.cluster.node(members[1]))
        moment = time.monotonic()
        if cut and cut.begins():
            fault = self.note("the head killed with entries that no one else has", node.server, moment=moment)
            self.touch_all(4)
            self.until(self.random.uniform(0.3, 1), lambda: False)
            node.kill()
            self.severed.append(node.server)
            fault.about.append(cut.ends())

    def step_clock(self) -> None:
        """The wall clock of a node and its gateway is an hour off, for good. Nothing is to follow, but that the node says so."""
        good = self.good()
        clocks = [node for node in self.cluster.nodes if node.server in good and node.clock]
        if clocks:
            node = self.random.choice(clocks)
            by = self.random.choice([one for one in ("+3600", "-3600", "+7200") if one != node.clock.by])
            before = node.log.read_text().count(OFF)
            self.note("a wall clock stepped", node.server, by)
            self.touch(node.server, 6)
            node.clock.step(by)
            self.until(5, lambda: not node.lives() or node.log.read_text().count(OFF) > before)
            assert not node.lives() or node.log.read_text().count(OFF) > before, f"server {node.server} sees no step of its clock"

    # ---- disks

    def fill_disk(self) -> None:
        if self.disks and (node := self.one_of_some()) and self.disks.fill(node.number):
            self.note("a disk full", node.server)
            self.touch(node.server, 12)
            node.may_fail = True
            self.after(8, lambda: self.disks.free(node.number))

    def hang_disk(self) -> None:
        if self.disks and (node := self.one_of_some()) and (file := self.disks.hang(self.cluster, node)):
            seconds = self.random.choice([0.5, 1.5, 4])
            self.note("a disk that hangs", node.server, seconds)
            self.touch(node.server, seconds + 4)
            node.may_fail = True
            self.after(seconds, lambda: file.unlink(missing_ok=True))

    # ---- etcd

    def kill_etcd(self) -> None:
        """A member, which begins again with what it wrote."""
        if not self.etcd_is_touched():
            etcd, seconds = self.cluster.etcd, self.random.choice([0.5, 2, 6])
            place = self.random.randrange(len(etcd.urls))
            self.note("a member of etcd killed", place, seconds)
            self.touch_etcd(seconds + 3, is_away=len(etcd.urls) < 3)
            etcd.kill([place])
            self.after(seconds, lambda: etcd.begin_again([place]))

    def slow_etcd(self) -> None:
        """Each way between nodes and etcd takes so long, and they say so."""
        slowed = [node for node in self.cluster.nodes if node.proxy and node.look() and node.lives()]
        if not slowed or self.etcd_is_touched():
            return
        delay, seconds = self.random.choice([0.25, 0.5]), self.random.choice([6, 15])
        fault = self.note("a slow etcd", delay, seconds)
        self.touch_etcd(seconds + 8, is_away=False)
        for node in slowed:
            node.proxy.delay(delay)
        said = self.until(seconds, lambda: self.slowest_of(slowed) >= 2000 * delay)
        for node in slowed:
            node.proxy.delay(0)
        fault.about.append(f"{self.slowest_of(slowed)} ms")
        assert said or not any(node.lives() for node in slowed), f"no node says that etcd is slow: {fault}"

    def slowest_of(self, nodes: list[Node]) -> int:
        """The longest that one of these waited for etcd, in milliseconds, as its beat says."""
        beats = self.cluster.etcd.read(f"{self.cluster.root}/beat/")
        said = [json.loads(beats.get(f"{self.cluster.root}/beat/{node.server}", "{}")) for node in nodes]
        return max([beat.get("slowest", 0) for beat in said], default=0)

    def put_etcd_back(self) -> None:
        """All members end, and go on with a copy of what they had a while ago. No candidate appends anything from the copy on,
        nobody registers and nobody joins: only beats are lost, as is promised (docs/CLUSTER.md, "What it rests on")."""
        if self.etcd_is_touched() or self.masters_are_stopped() or not self.all_is_quiet():
            return
        etcd, masters, seconds = self.cluster.etcd, list(self.cluster.masters), self.random.choice([0.5, 2, 4])
        self.touch_etcd(seconds + 15, is_away=True)
        for master in masters:
            master.send_signal(signal.SIGSTOP)
        try:
            before = self.lasting()
            etcd.kill()
            fault = self.note("etcd put back from a copy", seconds)
            etcd.copy()
            etcd.begin_again()
            self.answers_again()
            etcd.write(MARK, str(seconds))
            self.until(seconds, lambda: False)
            is_same = self.lasting() == before
            etcd.kill()
        finally:
            for master in masters:
                master.send_signal(signal.SIGCONT)
        if is_same:
            etcd.put_back()
        etcd.begin_again()
        self.answers_again()
        assert bool(etcd.read(MARK)) != is_same, "etcd isn't put back"
        fault.about.append("put back" if is_same else "left as it was, since something was written")
        self.touch_etcd(1, is_away=True)

    def all_is_quiet(self) -> bool:
        """Whether nobody joins, or is about to."""
        chain = self.chain()
        is_settled = chain["is_ready"] and not chain["joiner"] and set(chain["members"]) == set(chain["full"])
        living = [node for node in self.cluster.nodes if node.lives()]
        return is_settled and all(node.look() and node.server in chain["members"] for node in living)

    def answers_again(self) -> None:
        assert self.until(20, self.cluster.etcd.answers), "etcd doesn't begin again"

    def lasting(self) -> dict[str, str]:
        """All that is written once and rests: the log, the registrations and the messages."""
        found = self.cluster.etcd.read(f"{self.cluster.root}/")
        return {key: value for key, value in found.items() if not key.startswith(f"{self.cluster.root}/beat/")}

    # ---- links

    def cut(self, cut: Cut | None, node: Node, seconds: float, kind: str, *about: object, bites: bool = True) -> bool:
        """Has it cut for a while, if it can be. Where packets are lost, some have to be as long as the node lives, if it `bites`
        whoever is who."""
        moment = time.monotonic()
        if cut is None or not cut.begins():
            return False
        fault = self.note(kind, node.server, *about, seconds, moment=moment)
        self.cluster.unfit.append(node.machine)

        def ends() -> None:
            lost = cut.ends()
            self.cluster.unfit.remove(node.machine)
            if lost is not None:
                fault.about.append(f"{lost} packets lost in {time.monotonic() - fault.moment:.1f} s")
                assert lost or seconds < 1 or not bites or not node.lives(), f"nothing was cut: {fault}"

        self.after(seconds, ends)
        return True

    def way(self) -> str:
        return self.random.choice(["both", "both", "in", "out"])

    def cut_from_etcd(self) -> None:
        """Any node, or the one whose gateway acts."""
        is_head = self.random.random() < 0.4
        if node := self.good_head() if is_head else self.one_of_some():
            seconds, way = self.random.choice([1, 3, 6, 12]), self.way()
            kind = "the gateway that acts cut from etcd" if is_head else "a node cut from etcd"
            if self.cut(self.cuts.from_etcd(node, way), node, seconds, kind, way):
                self.touch(node.server, seconds + 3)

    def cut_links(self) -> None:
        """Those of a node to another one, or to all; where that takes long, one end is given up."""
        if node := self.one_of_some():
            members = self.chain()["members"]
            others = [other for other in self.cluster.nodes if other.lives() and other.look() and other.server in members]
            others.remove(node)
            good = [other for other in others if other.server in self.good()]
            chosen = self.random.choice([others, [self.random.choice(good)]])
            seconds, way = self.random.choice([0.1, 1, 3, 6, 10]), self.way()
            kind = "links cut both ways" if way == "both" else "links cut one way"
            if self.cut(self.cuts.from_nodes(node, chosen, way), node, seconds, kind, way, *(one.server for one in chosen)):
                self.touch_all(seconds + 4)

    def cut_head_off(self) -> None:
        if node := self.good_head():
            seconds = self.random.choice([1, 3, 6, 10])
            if self.cut(self.cuts.from_all_but_etcd(node), node, seconds, "the head cut off from all but etcd"):
                self.touch_all(seconds + 4)

    def cut_from_fronts(self) -> None:
        """Behind ten seconds of it the head is given up, if another gateway stands ready."""
        if node := self.good_head():
            seconds = self.random.choice([1, 3, 6, 10, 25])
            if self.cut(self.cuts.from_fronts(node), node, seconds, "the gateway that acts cut from the fronts", bites=False):
                self.touch_all(seconds + 4)

    def lose_packets(self) -> None:
        """A part of what comes to a node is lost, and of what leaves its machine."""
        if node := self.one_of_some():
            seconds, part = self.random.choice([1, 3, 6]), self.random.choice(["0.1", "0.3", "0.6"])
            if self.cut(self.cuts.losing(node, part), node, seconds, "packets lost", part, bites=False):
                self.touch_all(seconds + 4)

    # ---- machines

    def whole_machine(self) -> Node | None:
        """The node of a machine that may be lost, with a member of etcd where those are on machines of nodes."""
        nodes = [self.cluster.node(one) for one in self.good()]
        with_etcd = [node for node in nodes if node.machine in self.cluster.etcd.machines]
        if self.cluster.layout.is_together and len(nodes) > 1 and with_etcd and not self.etcd_is_touched():
            return self.random.choice(with_etcd)
        return None

    def beside(self, machine: int) -> tuple[list[int], list[int], list[Front]]:
        """The places of the members of etcd and of the candidates that are on a machine, and the fronts."""
        layout = self.cluster.layout
        etcd = [place for place, where in enumerate(self.cluster.etcd.machines) if where == machine]
        masters = [place for place in range(len(self.cluster.masters)) if layout.of_master(place) == machine]
        return etcd, masters, [front for front in self.served.fronts if front.machine == machine]

    def lose_machine(self) -> None:
        """All that runs on it ends at once, and says no farewell. It begins again some time, and a node joins there."""
        if node := self.whole_machine():
            machine, seconds = node.machine, self.random.choice([1, 4, 8])
            etcd, masters, fronts = self.beside(machine)
            self.note("a machine lost", machine, node.server, seconds)
            self.touch_etcd(seconds + 3, is_away=len(self.cluster.etcd.urls) < 3)
            self.lost.append(machine)
            self.cluster.unfit.append(machine)
            self.cluster.network.unplug(machine)
            # Its server and its gateway are ended with it by the system.
            node.kill()
            self.cluster.etcd.kill(etcd)
            for process in [self.cluster.masters[place] for place in masters] + [front.process for front in fronts]:
                process.kill()
                process.wait()
            self.after(seconds, lambda: self.machine_begins(machine, etcd))

    def machine_begins(self, machine: int, etcd: list[int]) -> None:
        self.cluster.network.plug(machine)
        self.cluster.etcd.begin_again(etcd)
        self.cluster.unfit.remove(machine)
        self.lost.remove(machine)

    def stop_machine(self) -> None:
        """All that runs on it stands still."""
        if node := self.whole_machine():
            seconds = self.random.choice([1, 5])
            etcd, masters, fronts = self.beside(node.machine)
            self.note("a machine stopped", node.machine, node.server, seconds)
            self.touch_etcd(seconds + 3, is_away=len(self.cluster.etcd.urls) < 3)
            beside = [self.cluster.etcd.processes[place].pid for place in etcd] + [front.process.pid for front in fronts]
            for place in masters:
                master = self.cluster.masters[place].pid
                beside += [master, *children_of(master)]
            held = [Held(process) for process in beside]
            for one in held:
                one.send(signal.SIGSTOP)
            self.stop_these([node], seconds)
            self.after(seconds, lambda: [one.send(signal.SIGCONT) for one in held])

    # ---- one after the other

    def ways(self) -> list[tuple[Callable[[], None], int]]:
        nodes = [(self.kill, 6), (self.stop, 5), (self.stop_all, 2), (self.stand_still, 1), (self.condemn, 3), (self.leave, 3),
                 (self.kill_young, 2), (self.touch_child, 3), (self.kill_old_tail, 3), (self.kill_head_alone, 4), (self.step_clock, 2)]
        disks = [(self.fill_disk, 3), (self.hang_disk, 3)]
        masters = [(self.kill_master, 2), (self.stop_master, 2), (self.touch_child_of_master, 2)]
        etcd = [(self.stop_etcd, 4), (self.kill_etcd, 2), (self.slow_etcd, 2), (self.put_etcd_back, 2)]
        gateways = [(self.kill_gateway, 3), (self.kill_gateway_between_asks, 4), (self.stop_gateway, 4), (self.cut_from_fronts, 3)]
        fronts = [(self.kill_front, 2), (self.stop_front, 2)]
        links = [(self.cut_from_etcd, 5), (self.cut_links, 6), (self.cut_head_off, 3), (self.lose_packets, 4)]
        machines = [(self.lose_machine, 4), (self.stop_machine, 3)]
        ways = nodes + disks + masters + etcd + gateways + fronts + links + machines
        assert not OFTEN or OFTEN in [way.__name__ for way, _ in ways], f"there is no fault {OFTEN}"
        return [(way, weight * (MORE if way.__name__ == OFTEN else 1)) for way, weight in ways]

    def keep_all_going(self, wanted: int) -> None:
        """What ended is started again, as whoever runs a cluster has it, and a node joins for each that is lost."""
        layout, now = self.cluster.layout, time.monotonic()
        for front in self.served.fronts:
            if not front.lives() and front.machine not in self.lost and self.absent.get(front.name, 0) < now:
                self.started_again.append((front.name, front.process.returncode))
                front.start()
        for place, master in enumerate(self.cluster.masters):
            if master.poll() is not None and layout.of_master(place) not in self.lost:
                self.started_again.append((f"master{place + 1}", master.returncode))
                self.cluster.start_master(place)
        for node in self.cluster.nodes:
            # One that doesn't reach etcd at its start ends.
            if not node.lives() and not node.look() and self.etcd_is_touched():
                node.may_fail = True
        self.population(wanted)
