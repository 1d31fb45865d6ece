"""Machines for tests of clusters: each is a namespace of the network, with an address that others reach, or all are this one."""

import contextlib
import ctypes
import itertools
import os
import re
import shutil
import subprocess
from collections.abc import Iterable, Iterator
from dataclasses import dataclass

_numbers = itertools.count(1)
_tags = itertools.count(1)


def run(*words: str, **more) -> subprocess.CompletedProcess:
    return subprocess.run(words, capture_output=True, text=True, timeout=60, **more)


class Loopback:
    """All machines are this one."""

    has_machines = False

    @staticmethod
    def address(machine: int) -> str:
        return "127.0.0.1"

    @staticmethod
    def at(machine: int, *words: str) -> list[str]:
        return list(words)

    def unplug(self, machine: int) -> None:
        pass

    def plug(self, machine: int) -> None:
        pass


class Network:
    """Machines by their numbers, and a switch between them. Nothing outside knows of it."""

    has_machines = True

    def __init__(self, machines: Iterable[int]) -> None:
        self.prefix = f"hobbychair-{os.getpid()}-{next(_numbers)}"
        self.names = {machine: f"{self.prefix}-{machine}" for machine in sorted(set(machines))}
        self.switch = f"{self.prefix}-switch"

    @staticmethod
    def address(machine: int) -> str:
        return f"10.213.0.{machine}"

    def begin(self) -> None:
        self.ip("netns", "add", self.switch)
        self.ip("-n", self.switch, "link", "add", "bridge", "type", "bridge")
        self.ip("-n", self.switch, "link", "set", "bridge", "up")
        for machine, name in self.names.items():
            self.ip("netns", "add", name)
            self.ip("-n", self.switch, "link", "add", f"port{machine}", "type", "veth", "peer", "name", "net", "netns", name)
            self.ip("-n", self.switch, "link", "set", f"port{machine}", "master", "bridge", "up")
            self.ip("-n", name, "address", "add", f"{self.address(machine)}/24", "dev", "net")
            for device in ("lo", "net"):
                self.ip("-n", name, "link", "set", device, "up")

    @staticmethod
    def ip(*words: str) -> None:
        done = run("ip", *words)
        assert done.returncode == 0, (words, done.stderr)

    def at(self, machine: int, *words: str) -> list[str]:
        """The words that run a command on that machine. The process that is started is that of the command."""
        return ["nsenter", f"--net=/run/netns/{self.names[machine]}", *words]

    @contextlib.contextmanager
    def entered(self, machine: int) -> Iterator[None]:
        """This thread is on that machine, and so are all threads and processes that it starts."""
        before = os.open("/proc/thread-self/ns/net", os.O_RDONLY)
        there = os.open(f"/run/netns/{self.names[machine]}", os.O_RDONLY)
        try:
            _enter(there)
            yield
        finally:
            _enter(before)
            os.close(there)
            os.close(before)

    def unplug(self, machine: int) -> None:
        """Nobody reaches the machine any more."""
        self.ip("-n", self.names[machine], "link", "set", "net", "down")

    def plug(self, machine: int) -> None:
        self.ip("-n", self.names[machine], "link", "set", "net", "up")

    def end(self) -> None:
        for name in (*self.names.values(), self.switch):
            run("ip", "netns", "del", name)


def _enter(namespace: int) -> None:
    network = 0x40000000
    library = ctypes.CDLL(None, use_errno=True)
    if library.setns(namespace, network) != 0:
        raise OSError(ctypes.get_errno(), "no namespace of the network is entered")


@dataclass
class Rules:
    """Rules of a machine's system by which packets are lost, or refused by REJECT: each names a chain of its filter, and which packets."""

    network: Network | Loopback
    machine: int
    rules: list[tuple[str, ...]]
    target: str = "DROP"

    def __post_init__(self) -> None:
        self.tag = f"hobbychair-{os.getpid()}-{next(_tags)}"

    def begins(self) -> bool:
        """Whether it can be said here."""
        begun = all([self.say("--append", rule) for rule in self.rules])
        if not begun:
            self.ends()
        return begun

    def lost(self) -> int:
        """How many packets were lost by them up to now."""
        lines = self.iptables("--list-rules", "--verbose").stdout.splitlines()
        return sum(int(re.search(r" -c (\d+) ", line)[1]) for line in lines if f"{self.tag} " in line)

    def ends(self) -> int:
        """Says how many packets were lost."""
        lost = self.lost()
        for rule in self.rules:
            self.say("--delete", rule)
        return lost

    def say(self, how: str, rule: tuple[str, ...]) -> bool:
        chain, *which = rule
        tagged = ["--match", "comment", "--comment", self.tag]
        return self.iptables("--wait", how, chain, *which, *tagged, "--jump", self.target).returncode == 0

    def iptables(self, *words: str) -> subprocess.CompletedProcess:
        words = tuple(self.network.at(self.machine, "iptables", *words))
        try:
            return run(*words)
        except FileNotFoundError:
            return subprocess.CompletedProcess(words, 1, "", "iptables isn't there")


def why_not(wanted: tuple[str, ...] = ("ip", "nsenter")) -> str | None:
    """Why there can be no machines, if there can't. `wanted` are programs that are needed."""
    absent = [program for program in wanted if shutil.which(program) is None]
    if absent:
        return f"{absent[0]} isn't there: Debian's iproute2, util-linux and iptables have ip, nsenter and iptables"
    if os.geteuid() != 0:
        return "only root makes namespaces of the network"
    name = f"hobbychair-{os.getpid()}-tried"
    at = ["nsenter", f"--net=/run/netns/{name}"]
    tries = [["ip", "netns", "add", name], [*at, "ip", "link", "add", "name", "one", "type", "veth", "peer", "name", "two"],
             [*at, "ip", "link", "add", "name", "three", "type", "bridge"]]
    if "iptables" in wanted:
        tries.append([*at, "iptables", "--append", "INPUT", "--match", "statistic", "--mode", "random", "--probability", "0.1"])
    failed = next((done for done in map(lambda words: run(*words), tries) if done.returncode != 0), None)
    run("ip", "netns", "del", name)
    return f"no namespaces of the network can be made here: {failed.stderr.strip()}" if failed else None
