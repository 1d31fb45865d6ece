"""Journals of a cluster's nodes, as this file's own reader finds them, and clusters that are made of them again."""

import json
import struct
import zlib
from collections.abc import Callable
from dataclasses import dataclass, field
from pathlib import Path
from typing import Any

from cluster_oracle import Run
from cluster_users import frames
from clusters import NAME, Cluster, Etcd, Node, run
from waiting import until

MARK = b"\xffHC\xfe"
HEAD, ENTRY, KNOWN, CHUNK, END = range(5)
FRAME_HEAD = 28


def frame(number: int, place: int, payload: bytes) -> bytes:
    head = struct.pack(">QQI", number, place, len(payload))
    return MARK + head + struct.pack(">I", zlib.crc32(head + payload)) + payload


def frames_of(data: bytes) -> list[tuple[int, int, bytes]]:
    """The number, the place and the payload of each good frame up to the first that isn't."""
    found, place = [], 0
    while data[place : place + 4] == MARK and len(data) >= place + FRAME_HEAD:
        number, own, length, checksum = struct.unpack_from(">QQII", data, place + 4)
        payload = data[place + FRAME_HEAD : place + FRAME_HEAD + length]
        if own != place or len(payload) < length or zlib.crc32(data[place + 4 : place + 24] + payload) != checksum:
            break
        found.append((number, place, payload))
        place += FRAME_HEAD + length
    return found


def records_of(payload: bytes) -> list[tuple[int, Any]]:
    reader, found = frames.Reader(payload), []
    while reader.at < len(payload):
        kind = reader.number(1)
        if kind == ENTRY:
            found.append((kind, (reader.number(8), reader.run())))
        else:
            found.append((kind, b"" if kind == END else reader.run()))
    return found


@dataclass
class Journal:
    folder: Path
    base: int = 0
    entries: list[tuple[int, bytes]] = field(default_factory=list)
    chain: dict[str, Any] | None = None

    def __init__(self, folder: Path) -> None:
        self.folder, self.base, self.entries, self.chain = folder, 0, [], None
        stores = sorted(folder.glob("store.??????"))
        first = stores[-1].name[-6:] if stores else "000000"
        segments = [one for one in self.segments() if one.name[-6:] >= first]
        for file in stores[-1:] + segments:
            for _, _, payload in frames_of(file.read_bytes()):
                for kind, what in records_of(payload):
                    self.take(kind, what, file)

    def segments(self) -> list[Path]:
        return sorted(self.folder.glob("entries.??????"))

    def take(self, kind: int, what: Any, file: Path) -> None:
        if kind == ENTRY:
            self.entries.append(what)
        elif kind == HEAD:
            head = json.loads(what)
            if file.name.startswith("store"):
                self.base = head["count"]
            assert head["count"] == self.count(), f"{file} begins behind entry {head['count']}, and not {self.count()}"
            self.chain = head["known"]["chain"] or self.chain
        elif kind == KNOWN:
            self.chain = json.loads(what)["chain"] or self.chain

    def count(self) -> int:
        return self.base + len(self.entries)

    def words(self) -> list[tuple[int, dict[str, Any]]]:
        """Each entry's moment and request."""
        return [(moment, frames.Reader(request).request()) for moment, request in self.entries]


def folder_of(cluster: Cluster, server: int, room: Path) -> Path:
    return room / f"{cluster.incarnation}-{server}"


def check_journals(cluster: Cluster, room: Path | Callable[[Node], Path], run: Run | None = None) -> None:
    """The journal of each server has a front of its list. What it put rests on no more than that."""
    servers = run or Run(cluster)
    for node in cluster.nodes:
        folder = folder_of(cluster, node.server, room if isinstance(room, Path) else room(node))
        if node.look() and folder.exists():
            journal, history = Journal(folder), servers.history(node.server)
            assert journal.count() <= len(history), f"the journal of server {node.server} has more than that server"
            assert journal.words() == history[journal.base : journal.count()], f"the journal of server {node.server} has other entries"


def kill_all(cluster: Cluster, with_etcd: bool = False) -> None:
    """All at once, as by a loss of power. What the system has of files is there still."""
    etcd = cluster.etcd.processes if with_etcd else []
    processes = [node.process for node in cluster.nodes] + cluster.masters + etcd
    for process in processes:
        process.kill()
    for process in processes:
        process.wait()
    cluster.masters.clear()
    for node in cluster.nodes:
        if node.proxy:
            node.proxy.end()
            node.proxy = None
    if with_etcd:
        cluster.etcd.end()
        cluster.etcd = Etcd(cluster.room)


def recover(cluster: Cluster, sources: list[Path], journal: Path, *words: str) -> tuple[int, str]:
    """The command's status, and all that it says. All processes are gone, unless it is told how long none may beat."""
    words = words if {"--fenced", "--silence"} & {*words} else ("--fenced", *words)
    given = [word for source in sources for word in ("--from", str(source))]
    done = run("cluster", "recover", *cluster.which("master"), *given, "--journal", str(journal), *words, timeout=120)
    return done.returncode, done.stdout + done.stderr


def recovered(cluster: Cluster, sources: list[Path], journal: Path, *words: str) -> str:
    status, said = recover(cluster, sources, journal, *words)
    assert status == 0, said
    key = f"hobbychair/{NAME}/cluster"
    cluster.incarnation = json.loads(cluster.etcd.read(key)[key])["incarnation"]
    cluster.root, cluster.size = f"hobbychair/{NAME}/{cluster.incarnation}", 1
    return said


def begin_again(cluster: Cluster, journal: Path, masters: int = 1) -> Node:
    """Starts the first node of a cluster that was recovered, and candidates."""
    words = cluster.words
    cluster.nodes.clear()
    cluster.words = lambda number: ["--journal", str(journal)] if number == 1 else words(number)
    for old in cluster.room.glob("node*.trace"):
        old.rename(old.with_suffix(f".{cluster.root[-4:]}"))
    node = cluster.start_node(1)
    for _ in range(masters):
        cluster.start_master()
    until(node.look, 40, "the node doesn't begin")
    until(lambda: acts(cluster, 1), 40, "its server doesn't act")
    return node


def acts(cluster: Cluster, server: int) -> bool:
    try:
        beat = cluster.etcd.read(f"{cluster.root}/beat/{server:010}")
    except ConnectionError:
        # Beside much work etcd can take longer than it has.
        return False
    return any(json.loads(one)["is_acting"] for one in beat.values())
