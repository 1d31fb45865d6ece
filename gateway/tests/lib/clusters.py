"""A cluster that was started for tests: etcd, masters and nodes, each a process that a test can kill or stop."""

from __future__ import annotations

import base64
import contextlib
import http.client
import json
import os
import shutil
import signal
import socket
import subprocess
import tempfile
import threading
import time
import urllib.request
from collections.abc import Callable
from dataclasses import dataclass
from pathlib import Path
from typing import Any

from certificates import Certificates
from cluster_network import Loopback, Network
from ports import free_ports
from started import gateway_program, program
from waiting import STEP, pace, pass_time, until

NAME = "tested"

# Where processes listen that have a machine of their own.
CLIENTS_OF_ETCD, PEERS_OF_ETCD, NODES, GATEWAYS = 2379, 2380, 7001, 9000

# A member of etcd has so long to answer before the next one is asked, and beside much other work all of them together have so
# long, in seconds.
TRY, PATIENCE = 0.7, 10.0


def has_etcd() -> bool:
    return shutil.which("etcd") is not None


def run(*words: str, timeout: float = 30) -> subprocess.CompletedProcess:
    """Runs the command to its end."""
    return subprocess.run([gateway_program(), *words], env={**os.environ, "HOBBYCHAIR_CQ": program()}, timeout=timeout,
                          capture_output=True, text=True)


class Etcd:
    """One etcd, of one member or of three."""

    def __init__(self, room: Path, members: int = 1, certificates: Certificates | None = None,
                 network: Network | Loopback = Loopback(), machines: list[int] | None = None, words: tuple[str, ...] = ()) -> None:
        """`machines`: on which one each member is, where there are some. `words` are more that each gets."""
        self.room, self.certificates, self.network, self.words = room, certificates, network, words
        self.machines = machines or list(range(1, members + 1))
        self.answered_last = 0
        # What tests show it.
        self.context = certificates.client(certificates.has("master", "master")) if certificates else None
        # Where there is memory for it, other work on the disk holds nothing up.
        self.data = tempfile.TemporaryDirectory(dir="/dev/shm" if os.access("/dev/shm", os.W_OK) else None)
        ports = [CLIENTS_OF_ETCD] * members + [PEERS_OF_ETCD] * members if network.has_machines else free_ports(2 * members)
        addresses = [network.address(machine) for machine in self.machines]
        scheme = "https" if certificates else "http"
        self.urls = [f"{scheme}://{address}:{port}" for address, port in zip(addresses, ports[:members])]
        self.peers = [f"http://{address}:{port}" for address, port in zip(addresses, ports[members:])]
        self.processes = [self.start(place) for place in range(members)]
        try:
            until(self.answers, 20, "etcd doesn't begin")
        except BaseException:
            self.end()
            raise

    def start(self, place: int) -> subprocess.Popen:
        cluster = ",".join(f"m{one}={peer}" for one, peer in enumerate(self.peers))
        words = ["etcd", "--name", f"m{place}", "--data-dir", f"{self.data.name}/{place}",
                 "--listen-client-urls", self.urls[place], "--advertise-client-urls", self.urls[place],
                 "--listen-peer-urls", self.peers[place], "--initial-advertise-peer-urls", self.peers[place],
                 "--initial-cluster", cluster, "--logger", "zap", "--log-level", "error"]
        machine = self.machines[place]
        words += self.certificates.words_of_etcd(self.network.address(machine)) if self.certificates else []
        words += self.words
        with open(self.room / f"etcd{place}.log", "ab") as log:
            return subprocess.Popen(self.network.at(machine, *words), stdin=subprocess.DEVNULL, stdout=log, stderr=log)

    def ask(self, path: str, body: dict[str, Any], patience: float = PATIENCE) -> dict[str, Any]:
        """The answer of a member. They are asked again for as long as `patience` says, and have longer each time."""
        data, latest, seconds = json.dumps(body).encode(), time.monotonic() + patience, TRY
        while (told := self.ask_each(path, data, seconds)) is None:
            if time.monotonic() >= latest:
                raise ConnectionError("no member of etcd answers")
            seconds = min(2 * seconds, patience)
            pace(STEP)
        return told

    def ask_each(self, path: str, data: bytes, seconds: float) -> dict[str, Any] | None:
        """The answer of the first member that gives one, from the one on that gave the last one."""
        first = self.answered_last
        for place in (*range(first, len(self.urls)), *range(first)):
            try:
                request = urllib.request.Request(self.urls[place] + path, data, {"Content-Type": "application/json"})
                with urllib.request.urlopen(request, timeout=seconds, context=self.context) as answer:
                    told = json.load(answer)
            except (OSError, http.client.HTTPException):
                continue
            self.answered_last = place
            return told
        return None

    def answers(self) -> bool:
        try:
            self.read("a", patience=0)
            return True
        except ConnectionError:
            return False

    def range(self, prefix: str, patience: float = PATIENCE) -> list[dict[str, str]]:
        last = prefix[:-1] + chr(ord(prefix[-1]) + 1)
        return self.ask("/v3/kv/range", {"key": _digits(prefix), "range_end": _digits(last)}, patience).get("kvs", [])

    def read(self, prefix: str, patience: float = PATIENCE) -> dict[str, str]:
        return {_text(found["key"]): _text(found.get("value", "")) for found in self.range(prefix, patience)}

    def rewritten(self, prefix: str) -> list[str]:
        """The keys that were written more than once."""
        return [_text(found["key"]) for found in self.range(prefix) if int(found["version"]) > 1]

    def write(self, key: str, value: str) -> None:
        self.ask("/v3/kv/put", {"key": _digits(key), "value": _digits(value)})

    def delete(self, key: str) -> None:
        self.ask("/v3/kv/deleterange", {"key": _digits(key)})

    def leader(self) -> int | None:
        """The place of the leader, as far as a member knows it."""
        members = {}
        for place, url in enumerate(self.urls):
            try:
                request = urllib.request.Request(url + "/v3/maintenance/status", b"{}", {"Content-Type": "application/json"})
                with urllib.request.urlopen(request, timeout=0.7, context=self.context) as answer:
                    told = json.load(answer)
            except OSError:
                continue
            members[told["header"]["member_id"]] = place
            leader = told.get("leader")
        return members.get(leader) if members else None

    def signal(self, number: int, places: list[int] | None = None) -> None:
        for place, process in enumerate(self.processes):
            if places is None or place in places:
                process.send_signal(number)

    def kill(self, places: list[int] | None = None) -> None:
        """What they wrote is there still."""
        self.signal(signal.SIGKILL, places)
        for place, process in enumerate(self.processes):
            if places is None or place in places:
                process.wait()

    def begin_again(self, places: list[int] | None = None) -> None:
        """Members that were killed go on with what they wrote."""
        for place, process in enumerate(self.processes):
            if (places is None or place in places) and process.poll() is not None:
                self.processes[place] = self.start(place)

    def copy(self) -> None:
        """Keeps a copy of what all members wrote, which have ended."""
        copied = Path(self.data.name) / "copy"
        shutil.rmtree(copied, ignore_errors=True)
        copied.mkdir()
        self._copy([Path(self.data.name) / str(place) for place in range(len(self.urls))], copied)

    def put_back(self) -> None:
        """All members, which have ended, have what the last copy has."""
        for place in range(len(self.urls)):
            shutil.rmtree(Path(self.data.name) / str(place))
        self._copy(sorted((Path(self.data.name) / "copy").iterdir()), Path(self.data.name))

    @staticmethod
    def _copy(folders: list[Path], goal: Path) -> None:
        subprocess.run(["cp", "--archive", "--sparse=always", *map(str, folders), str(goal)], check=True)

    def __enter__(self) -> Etcd:
        return self

    def __exit__(self, *_: object) -> None:
        self.end()

    def end(self) -> None:
        for process in self.processes:
            process.kill()
            process.wait()
        self.data.cleanup()


def _digits(text: str) -> str:
    return base64.b64encode(text.encode()).decode()


def _text(digits: str) -> str:
    return base64.b64decode(digits).decode()


class Proxy:
    """Stands between one node and etcd, and can be cut, take its time for each way, or hold back requests that have some bytes."""

    def __init__(self, url: str) -> None:
        self.delay, self.held = 0.0, b""
        self.port = int(url.rsplit(":", 1)[1])
        self.listener = socket.create_server(("127.0.0.1", 0))
        self.url = f"{url.split(':')[0]}://127.0.0.1:{self.listener.getsockname()[1]}"
        self.is_cut = False
        self.open: list[socket.socket] = []
        threading.Thread(target=self.accept, daemon=True).start()

    def accept(self) -> None:
        while True:
            try:
                one, _ = self.listener.accept()
                if self.is_cut:
                    one.close()
                    continue
                other = socket.create_connection(("127.0.0.1", self.port))
            except OSError:
                if self.listener.fileno() < 0:
                    return
                continue
            self.open += [one, other]
            for a, b in ((one, other), (other, one)):
                threading.Thread(target=self.carry, args=(a, b), daemon=True).start()

    def carry(self, a: socket.socket, b: socket.socket) -> None:
        try:
            while data := a.recv(1 << 16):
                pass_time(self.delay, "that way takes so long")
                if not self.held or self.held not in data:
                    b.sendall(data)
        except OSError:
            pass
        for one in (a, b):
            try:
                one.shutdown(socket.SHUT_RDWR)
            except OSError:
                pass

    def cut(self) -> None:
        self.is_cut = True
        for one in self.open:
            try:
                one.shutdown(socket.SHUT_RDWR)
            except OSError:
                pass
        self.open.clear()

    def mend(self) -> None:
        self.is_cut = False

    def end(self) -> None:
        # Whoever waits in accept would keep it open.
        with contextlib.suppress(OSError):
            self.listener.shutdown(socket.SHUT_RDWR)
        self.listener.close()
        self.cut()


class Proxies:
    """Stand between one node and all members of etcd."""

    def __init__(self, urls: list[str]) -> None:
        self.all = [Proxy(url) for url in urls]
        self.urls = [one.url for one in self.all]

    def delay(self, seconds: float) -> None:
        for one in self.all:
            one.delay = seconds

    def cut(self) -> None:
        for one in self.all:
            one.cut()

    def mend(self) -> None:
        for one in self.all:
            one.mend()

    def end(self) -> None:
        for one in self.all:
            one.end()


# What has a process believe in another wall clock (Debian's faketime).
FAKETIME = Path("/usr/lib/x86_64-linux-gnu/faketime/libfaketime.so.1")


class WallClock:
    """The wall clock of a node and its gateway, which a test can step."""

    def __init__(self, file: Path) -> None:
        self.file, self.by = file, ""
        self.step("+0")

    def step(self, by: str) -> None:
        """By so many seconds from the machine's, as `+3600`."""
        self.by = by
        new = self.file.with_suffix(".new")
        new.write_text(f"{by}\n")
        new.replace(self.file)

    def environment(self) -> dict[str, str]:
        return {"FAKETIME_TIMESTAMP_FILE": str(self.file), "FAKETIME_NO_CACHE": "1",
                "FAKETIME_DONT_FAKE_MONOTONIC": "1", "DONT_FAKE_MONOTONIC": "1"}


class Node:
    """A process of a node."""

    def __init__(self, process: subprocess.Popen, log: Path, trace: Path, proxy: Proxies | None) -> None:
        self.process, self.log, self.trace, self.proxy = process, log, trace, proxy
        self.server = 0
        # It was started as that one, on that machine.
        self.number, self.machine = 0, 0
        self.port = 0
        self.gateway_port = 0
        self.may_fail = False
        self.clock: WallClock | None = None
        # How many asks its gateway asks yet (`ended_between_asks.rs`).
        self.asks = log.with_suffix(".asks")

    def look(self) -> bool:
        """Whether it has said who it is."""
        for line in self.log.read_text().splitlines():
            if line.startswith("server ") and " listens on " in line:
                words = line.split()
                self.server, self.port = int(words[1]), int(words[-1].rsplit(":", 1)[1])
        return self.server > 0

    def logs(self, said: str) -> None:
        """Waits until its log has this: what a client sees may come first."""
        until(lambda: said in self.log.read_text(), 30, f"not logged: {said}")

    def children(self) -> list[int]:
        """The processes that it started."""
        return children_of(self.process.pid)

    def child(self) -> int | None:
        """The process of its server, as long as there is one."""
        return next((child for child in self.children() if not is_gateway(child)), None)

    def gateway(self) -> int | None:
        """The process of its gateway, if there is one."""
        return next((child for child in self.children() if is_gateway(child)), None)

    def stop(self) -> None:
        """Server and gateway are stopped, too, as on a machine that stands still."""
        for one in (self.process.pid, *self.children()) if self.lives() else ():
            send(one, signal.SIGSTOP)

    def go_on(self) -> None:
        for one in (*self.children(), self.process.pid):
            send(one, signal.SIGCONT)

    def kill(self) -> None:
        self.process.kill()
        self.process.wait()

    def lives(self) -> bool:
        return self.process.poll() is None


def children_of(process: int) -> list[int]:
    """Those that its threads started. A thread that ends meanwhile leaves them to another one: then all are read anew."""
    while True:
        threads = list(Path(f"/proc/{process}/task").glob("*/children"))
        with contextlib.suppress(FileNotFoundError, ProcessLookupError):
            return [int(child) for thread in threads for child in thread.read_text().split()]


def send(process: int, number: int) -> None:
    """Sends a signal to a process that may have ended."""
    with contextlib.suppress(ProcessLookupError):
        os.kill(process, number)


def is_gateway(process: int) -> bool:
    try:
        return b"--beside-node" in Path(f"/proc/{process}/cmdline").read_bytes().split(b"\0")
    except OSError:
        return False


@dataclass(frozen=True)
class Layout:
    """On which machine each process is."""

    # The first machines have a node, a member of etcd, a candidate and a front each; otherwise each node has one for itself.
    is_together: bool = True

    @staticmethod
    def of_nodes() -> range:
        """Where a node may be. A chain has at most eight members, and others wait."""
        return range(1, 11)

    def of_etcd(self, place: int) -> int:
        return place + 1 if self.is_together else 21 + place

    def of_master(self, place: int) -> int:
        return self.of_etcd(place)

    def of_front(self, place: int) -> int:
        return place + 1 if self.is_together else 31 + place

    @staticmethod
    def of_clients() -> int:
        return 41

    def machines(self, members: int, fronts: int) -> list[int]:
        return [*self.of_nodes(), *map(self.of_etcd, range(members)), *map(self.of_front, range(fronts)), self.of_clients()]


class Cluster:
    """A cluster on this machine, or on machines of a network."""

    def __init__(self, room: Path, size: int = 3, members: int = 1, masters: int = 2, absent: tuple[int, ...] = (),
                 programs: Callable[[str], str] = lambda name: program(), breakable: bool = False,
                 gateways: bool = False, certificates: Certificates | None = None, clocks: bool = False,
                 words: Callable[[int], list[str]] = lambda number: [], traced: bool = True,
                 network: Network | Loopback = Loopback(), layout: Layout = Layout(), preloaded: list[Path] | None = None,
                 of_etcd: tuple[str, ...] = (), of_masters: tuple[str, ...] = (), everywhere: bool = False) -> None:
        """`words` are those that the node that is started as that one gets, beside the usual ones, `of_etcd` and `of_masters` those
        that members of etcd and candidates get. With `clocks` the wall clocks of nodes can be stepped. `traced`: nodes write down
        all that servers tell, which takes time. `preloaded` are libraries that nodes load ahead of the system's. `everywhere`: nodes
        listen at all addresses, and say theirs."""
        self.everywhere = everywhere
        self.traced, self.network, self.layout, self.preloaded = traced, network, layout, preloaded or []
        # Machines on which no node is started now, each as often as there is a reason.
        self.unfit: list[int] = []
        self.between: list[Proxy] = []
        self.words = words
        self.room, self.size, self.programs, self.gateways = room, size, programs, gateways
        self.certificates, self.clocks, self.of_masters = certificates, clocks, of_masters
        self.etcd = Etcd(room, members, certificates, network, [layout.of_etcd(place) for place in range(members)], of_etcd)
        self.nodes: list[Node] = []
        self.masters: list[subprocess.Popen] = []
        self.last: dict[str, Any] = {}
        try:
            made = run("cluster", "create", *self.which("master"), "--nodes", str(size))
            assert made.returncode == 0, made.stderr
            self.incarnation = json.loads(self.etcd.read(f"hobbychair/{NAME}/cluster")[f"hobbychair/{NAME}/cluster"])["incarnation"]
            self.root = f"hobbychair/{NAME}/{self.incarnation}"
            # The last one first, so that each finds the ways to those behind it as they stand in etcd by then.
            for server in range(size, 0, -1) if breakable else range(1, size + 1):
                if server not in absent:
                    node = self.start_node(server)
                    if breakable:
                        self.put_between(node)
            for _ in range(masters):
                self.start_master()
            until(lambda: all(node.look() for node in self.nodes), 40, "the nodes don't begin")
        except BaseException:
            self.end()
            raise

    def which(self, role: str, name: str | None = None) -> list[str]:
        """What a process of that role is told of the cluster, and of its own certificate, if it has one."""
        words = ["--cluster", NAME, "--etcd", ",".join(self.etcd.urls)]
        return words + (self.certificates.words(self.certificates.has(role, name or role)) if self.certificates else [])

    def secured_as(self, role: str, name: str) -> dict[str, Any]:
        """What a connection to a node is told, where there are certificates: that of this name is shown."""
        if self.certificates is None:
            return {}
        context = self.certificates.client(self.certificates.has(role, name))
        return {"ssl": context, "server_hostname": self.certificates.name_of("node")}

    def start(self, machine: int, name: str, *words: str, clock: WallClock | None = None,
              preloaded: list[Path] | None = None) -> tuple[subprocess.Popen, Path]:
        """Starts a process of the cluster. It tells the process and its log."""
        log = self.room / f"{name}.log"
        libraries = [*(preloaded or []), *([FAKETIME] if clock else [])]
        environment = {**os.environ, "HOBBYCHAIR_CQ": self.programs(name), **(clock.environment() if clock else {})}
        if libraries:
            environment |= {"LD_PRELOAD": ":".join(map(str, libraries)), "HOBBYCHAIR_TEST_ASKS": str(self.room / f"{name}.asks")}
        with open(log, "ab") as out:
            return subprocess.Popen(self.network.at(machine, gateway_program(), *words), env=environment, stdin=subprocess.DEVNULL,
                                    stdout=out, stderr=out), log

    def free_machine(self) -> int | None:
        """One on which a node can be started."""
        taken = {node.machine for node in self.nodes if node.lives()} | set(self.unfit)
        return next((machine for machine in self.layout.of_nodes() if machine not in taken), None)

    def start_node(self, first: int | None = None) -> Node:
        number, machine = len(self.nodes) + 1, first or self.free_machine() or 0
        name, address = f"node{number}", self.network.address(machine)
        # Between machines links are cut elsewhere.
        proxy = None if self.network.has_machines else Proxies(self.etcd.urls)
        urls = ",".join(proxy.urls if proxy else self.etcd.urls)
        trace = self.room / f"{name}.trace"
        how = ["--first", str(first)] if first else ["--join"]
        listen, port = (NODES, GATEWAYS + number) if self.network.has_machines else (0, *free_ports(1))
        at = "0.0.0.0" if self.everywhere else address
        if self.gateways:
            how += ["--gateway", f"{at}:{port}"]
        if self.everywhere:
            how += ["--advertise", f"{address}:{listen}", "--advertise-gateway", f"{address}:{port}"]
        how += self.words(number)
        which = [urls if word == ",".join(self.etcd.urls) else word for word in self.which("node", name)]
        clock = WallClock(self.room / f"{name}.clock") if self.clocks else None
        traced = ["--trace", str(trace)] if self.traced else []
        process, log = self.start(machine, name, "node", *which, "--listen", f"{at}:{listen}", *traced, *how, clock=clock,
                                  preloaded=self.preloaded)
        node = Node(process, log, trace, proxy)
        node.number, node.machine, node.clock, node.gateway_port = number, machine, clock, port
        self.nodes.append(node)
        return node

    def gateway_acts(self, server: int) -> bool:
        """Whether the gateway of that server's node says that it works. Where etcd doesn't answer now, that isn't known."""
        try:
            beat = self.etcd.read(f"{self.root}/beat/{server:010}")
        except ConnectionError:
            return False
        return any(json.loads(one).get("gateway") == "acts" for one in beat.values())

    def put_between(self, node: Node, what: str = "address") -> Proxy:
        """From now on others find a proxy where the node is registered, or its `gateway`: their connections can be broken. Where the
        gateway has ended, nobody is there."""
        until(node.look, 40, "the node doesn't begin")
        key = f"{self.root}/node/{node.server:010}"
        registration = json.loads(self.etcd.read(key)[key])
        proxy = Proxy(f"http://127.0.0.1:{node.port if what == 'address' else node.gateway_port}")
        self.between.append(proxy)
        registration[what] = proxy.url.removeprefix("http://")
        self.etcd.write(key, json.dumps(registration, separators=(",", ":")))
        return proxy

    def start_master(self, place: int | None = None, urls: list[str] | None = None) -> None:
        """One more, or the one of that place again. `urls` are those of etcd, where it is to reach it by others."""
        place = len(self.masters) if place is None else place
        which = [",".join(urls) if urls and word == ",".join(self.etcd.urls) else word for word in self.which("master")]
        process, _ = self.start(self.layout.of_master(place), f"master{place + 1}", "master", *which, *self.of_masters)
        self.masters[place : place + 1] = [process]

    def node(self, server: int) -> Node:
        return next(node for node in self.nodes if node.look() and node.server == server)

    def port(self, server: int) -> int | None:
        return next((node.port for node in self.nodes if node.look() and node.server == server), None)

    def chain(self) -> dict[str, Any]:
        """The chain as etcd has it, or as it had it when it last answered."""
        try:
            self.last = json.loads(self.etcd.read(f"{self.root}/master/chain", patience=0)[f"{self.root}/master/chain"])
        except ConnectionError:
            pass
        return self.last

    def log(self) -> list[dict[str, Any]]:
        """The lines of the master's log. An etcd that stands still for a moment is waited for."""
        lines = self.etcd.read(f"{self.root}/master/log/", patience=5)
        return [json.loads(lines[key]) for key in sorted(lines)]

    def detected(self) -> list[int]:
        return [line["detect"]["server"] for line in self.log() if "detect" in line]

    def condemn(self, server: int) -> None:
        self.etcd.write(f"{self.root}/master/condemned/{server:010}", "by a test")

    def settles(self, members: list[int]) -> Callable[[], bool]:
        """Whether the chain is this one, and all of it is full."""
        def is_so() -> bool:
            chain = self.chain()
            return chain["members"] == members and chain["is_ready"] and sorted(chain["full"]) == sorted(members)
        return is_so

    def kill(self, server: int) -> None:
        self.node(server).kill()

    def stop_masters(self) -> None:
        for master in self.masters:
            master.send_signal(signal.SIGSTOP)

    def masters_go_on(self) -> None:
        for master in self.masters:
            master.send_signal(signal.SIGCONT)

    def said(self) -> str:
        """All that the processes said, for the report of a test that failed."""
        logs = sorted(self.room.glob("*.log"))
        return "\n".join(f"---- {log.name}\n{log.read_text()[-3000:]}" for log in logs)

    def __enter__(self) -> Cluster:
        return self

    def __exit__(self, *_: object) -> None:
        print(self.said())
        self.end()

    def end(self) -> None:
        for process in [node.process for node in self.nodes] + self.masters:
            process.kill()
            process.wait()
        for node in self.nodes:
            if node.proxy:
                node.proxy.end()
        for proxy in self.between:
            proxy.end()
        self.etcd.end()
