"""What is cut between the parts of a cluster that serves: by proxies where all is on this machine, or on real interfaces."""

from dataclasses import dataclass
from typing import Protocol

from clusters import CLIENTS_OF_ETCD, NODES, PEERS_OF_ETCD, Node, Proxies, Proxy
from cluster_network import Rules
from cluster_work import Served

# What comes to a machine is cut, what it says, or both.
WAYS = {"in": ("in",), "out": ("out",), "both": ("in", "out")}
CHAIN = {"in": "INPUT", "out": "OUTPUT"}
THERE = {"in": "--source", "out": "--destination"}
FROM = {"in": "--in-interface", "out": "--out-interface"}


class Cut(Protocol):
    """Something that is cut for a while."""

    def begins(self) -> bool:
        """Whether it can be done here."""

    def ends(self) -> int | None:
        """How many packets were lost, where that is known."""


@dataclass
class ByProxy:
    """Connections that go by it end, and no new ones come about."""

    proxy: Proxy | Proxies

    def begins(self) -> bool:
        self.proxy.cut()
        return True

    def ends(self) -> None:
        self.proxy.mend()


class LoopbackCuts:
    """Of a cluster on one machine."""

    def __init__(self, served: Served) -> None:
        self.served, self.cluster = served, served.cluster

    def from_etcd(self, node: Node, way: str) -> Cut | None:
        return ByProxy(node.proxy) if way == "both" else None

    def from_nodes(self, node: Node, others: list[Node], way: str) -> Cut | None:
        """What comes to one of the first nodes, and what it answers."""
        proxy = dict(zip((one.number for one in self.cluster.nodes), self.cluster.between)).get(node.number)
        return ByProxy(proxy) if proxy and way == "both" and len(others) > 1 else None

    def from_all_but_etcd(self, node: Node) -> Cut | None:
        return None

    def from_fronts(self, node: Node) -> Cut | None:
        """They reach the node itself still."""
        return self.rules(("--destination-port", str(node.gateway_port)))

    def from_its_successor(self, node: Node, successor: Node) -> Cut | None:
        """What it says to that one."""
        return self.from_nodes(successor, self.cluster.nodes, "both")

    def losing(self, node: Node, part: str) -> Cut | None:
        return self.rules(("--destination-port", str(node.port), *by_chance(part)))

    def rules(self, which: tuple[str, ...]) -> Rules:
        return Rules(self.cluster.network, 0, [("INPUT", "--protocol", "tcp", *which)])


class MachineCuts:
    """Of a cluster whose nodes have machines of their own: packets are lost at these."""

    def __init__(self, served: Served) -> None:
        self.served, self.cluster = served, served.cluster

    def rules(self, node: Node, *rules: tuple[str, ...]) -> Rules:
        return Rules(self.cluster.network, node.machine, list(rules))

    def from_etcd(self, node: Node, way: str) -> Cut:
        """Also from a member on the same machine. Members reach each other."""
        port = {"in": ("--source-port", str(CLIENTS_OF_ETCD)), "out": ("--destination-port", str(CLIENTS_OF_ETCD))}
        return self.rules(node, *((CHAIN[one], "--protocol", "tcp", *port[one]) for one in WAYS[way]))

    def from_nodes(self, node: Node, others: list[Node], way: str) -> Cut:
        """From these nodes' machines, and whatever else is on them."""
        return self.from_machines(node, [one.machine for one in others], way)

    def from_machines(self, node: Node, machines: list[int], way: str) -> Cut:
        addresses = [self.cluster.network.address(machine) for machine in machines]
        return self.rules(node, *((CHAIN[one], THERE[one], address) for one in WAYS[way] for address in addresses))

    def from_all_but_etcd(self, node: Node) -> Cut:
        ports = ("--match", "multiport", "!", "--ports", f"{CLIENTS_OF_ETCD},{PEERS_OF_ETCD}")
        return self.rules(node, *((CHAIN[one], FROM[one], "net", "--protocol", "tcp", *ports) for one in WAYS["both"]))

    def from_fronts(self, node: Node) -> Cut:
        """Where these have machines of their own; otherwise they don't reach its gateway, and reach the node itself still."""
        if not self.cluster.layout.is_together:
            return self.from_machines(node, [front.machine for front in self.served.fronts], "both")
        port = str(node.gateway_port)
        return self.rules(node, ("INPUT", "--protocol", "tcp", "--destination-port", port),
                          ("OUTPUT", "--protocol", "tcp", "--source-port", port))

    def from_its_successor(self, node: Node, successor: Node) -> Cut:
        """What it says to all other nodes. Fronts reach it."""
        links = [("--destination-port", str(NODES)), ("--source-port", str(NODES))]
        return self.rules(node, *(("OUTPUT", "--out-interface", "net", "--protocol", "tcp", *link) for link in links))

    def losing(self, node: Node, part: str) -> Cut:
        return self.rules(node, *((CHAIN[one], FROM[one], "net", *by_chance(part)) for one in WAYS["both"]))


def by_chance(part: str) -> tuple[str, ...]:
    return ("--match", "statistic", "--mode", "random", "--probability", part)
