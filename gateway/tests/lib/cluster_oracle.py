"""What has to hold of a cluster's run: of what users were answered, and of all that all servers were told and told."""

import base64
import heapq
import json
import subprocess
from dataclasses import dataclass, field
from pathlib import Path
from typing import Any

from cluster_users import Users, frames
from clusters import Cluster
from started import program

MASTER = "master"


@dataclass
class Step:
    """What one command did: its event, and the parties for whom whole messages were put."""

    event: dict[str, Any] | None
    puts: list[Any]
    told: list[dict[str, Any]] = field(default_factory=list)


def read_trace(path: Path) -> list[Step]:
    """Each command and its responses. What a killed node wrote last may be cut off."""
    steps: list[Step] = []
    with open(path, "rb") as file:
        for data in frames.frames(file):
            reader = frames.Reader(data[1:])
            if data[0] == 0:
                steps.append(Step(reader.command(), []))
                continue
            told = reader.response()
            steps[-1].told.append(told)
            if told["op"] == "put" and is_whole(told):
                steps[-1].puts.append(told["to"])
    return [step for step in steps if step.told and step.told[-1]["op"] in ("done", "heard")]


def is_whole(one: dict[str, Any]) -> bool:
    return "message" in one or bytes.fromhex(one["piece"])[1] == 13


def master_steps(log: list[dict[str, Any]], size: int) -> list[Step]:
    """What the master's process puts behind each line of the log."""
    child = subprocess.Popen([program(), "master", "--servers", str(size)], stdin=subprocess.PIPE, stdout=subprocess.PIPE)
    steps = []

    def ask(data: bytes) -> list[dict[str, Any]]:
        child.stdin.write(data)
        child.stdin.flush()
        told = []
        for answer in frames.frames(child.stdout):
            told.append(frames.Reader(answer).response())
            if told[-1]["op"] not in ("put", "waiting"):
                return told
        raise AssertionError("the master's process ended")

    for line in log:
        (kind, about), = line.items()
        if kind == "take":
            piece = frames.piece_in_words(base64.b64decode(about["piece"]))
            event = {"op": "take", "from": about["server"], "number": about["number"], "index": 0, **piece}
        else:
            event = {"op": kind, "server": about["server"]}
        told = ask(frames.frame(frames.command(event)))
        assert told[-1]["op"] == "heard", f"the log has {line}, and the master tells {told[-1]}"
        steps.append(Step(event, [one["to"] for one in told if one["op"] == "put"], told))
        if kind == "detect":
            ask(frames.frame(frames.command({"op": "gone", "server": about["server"]})))
    child.stdin.close()
    child.wait()
    return steps


class Run:
    """All that all parties of a cluster did."""

    def __init__(self, cluster: Cluster) -> None:
        self.cluster = cluster
        self.log = cluster.log()
        self.size = cluster.size
        self.steps: dict[Any, list[Step]] = {MASTER: master_steps(self.log, self.size)}
        for node in cluster.nodes:
            if node.look():
                self.steps[node.server] = read_trace(node.trace)

    # ---- histories

    def history(self, server: int) -> list[tuple[int, dict[str, Any]]]:
        """The entries of a server, each with its moment: the first ones of a server that joined are those of the one that
        fed it."""
        entries: list[tuple[int, dict[str, Any]]] = []
        for step in self.steps[server]:
            done, event = step.told[-1], step.event
            if event["op"] == "arrive" and done["count"] == len(entries) + 1:
                entries.append((done["last"], {key: event[key] for key in ("client", "number", "ask")}))
            elif event["op"] == "take" and event.get("message", {}).get("kind") == "fwd" and done["count"] == len(entries) + 1:
                message = event["message"]
                assert message["place"] == len(entries) + 1
                entries.append((message["clock"], {key: message[key] for key in ("client", "number", "ask")}))
            elif event["op"] == "take" and "message" not in event and is_whole(event) and done["count"] > len(entries):
                entries = self.history(event["from"])[: done["count"]]
            assert done["op"] != "done" or done["count"] == len(entries), f"server {server} has other entries than it was told"
        return entries

    # ---- one run of the world

    def script(self) -> list[dict[str, Any]]:
        """The events of all parties in an order in which each is behind what it takes, and a server's crash comes behind all
        that it did, and just before its detection."""
        vertices: list[tuple[Any, Step]] = []
        of: dict[Any, list[int]] = {}
        for party, steps in self.steps.items():
            for step in steps:
                event = step.event if is_event(step.event) else None
                if event or step.puts:
                    of.setdefault(party, []).append(len(vertices))
                    vertices.append((party, Step(event, step.puts)))
        behind: list[list[int]] = [[] for _ in vertices]
        before = [0] * len(vertices)

        def edge(one: int, other: int) -> None:
            behind[one].append(other)
            before[other] += 1

        puts: dict[tuple[Any, Any], list[int]] = {}
        for place, (party, step) in enumerate(vertices):
            for to in step.puts:
                puts.setdefault((party, to), []).append(place)
        taken: dict[tuple[Any, Any], int] = {}
        for party, places in of.items():
            for one, other in zip(places, places[1:]):
                edge(one, other)
            for place in places:
                event = vertices[place][1].event
                if event and event["op"] == "take":
                    link = (event["from"], party)
                    number = taken.get(link, 0)
                    taken[link] = number + 1
                    assert number < len(puts.get(link, [])), f"{party} took a message of {event['from']} that it never put"
                    edge(puts[link][number], place)
                elif event and event["op"] == "detect" and event["server"] in of:
                    edge(of[event["server"]][-1], place)
                elif event and event["op"] == "join" and event["server"] in of:
                    edge(place, of[event["server"]][0])
        ready = [place for place, count in enumerate(before) if count == 0]
        heapq.heapify(ready)
        order = []
        while ready:
            place = heapq.heappop(ready)
            order.append(place)
            for other in behind[place]:
                before[other] -= 1
                if before[other] == 0:
                    heapq.heappush(ready, other)
        assert len(order) == len(vertices), "there is no order in which each server's crash is before its detection"
        return [line for place in order for line in lines_of(*vertices[place])]

    def check_world(self) -> int:
        """The run is one of the world, in which each event is enabled and each answer is the one that was given."""
        script = self.script()
        said = replay(script, self.size)
        refused = [line for line in said if "refused" in line]
        assert not refused, f"{refused[0]}: {script[refused[0]['line'] - 1]}"
        given = {party: iter(answers(steps)) for party, steps in self.steps.items()}
        for line in said:
            event = script[line.pop("line") - 1]
            assert plain(line) == next(given[event["from"]]), f"server {event['from']} answered otherwise than {line}"
        for party, rest in given.items():
            assert next(rest, None) is None, f"server {party} gave more answers"
        return len(script)

    def check_servers(self) -> int:
        """What holds whoever asks. Says how many events there were."""
        self.check_gone()
        events = self.check_world()
        nodes = self.cluster.nodes
        failed = [node.server for node in nodes if node.process.poll() not in (None, 0, -9) and not node.may_fail]
        assert not failed, f"servers {failed} failed by themselves"
        return events

    def check_gone(self) -> None:
        """Who takes a message was told ahead of it of each server that its sender had been told of when it put it."""
        at_put: dict[tuple[Any, Any], list[set[int]]] = {}
        for party, steps in self.steps.items():
            for step, gone in zip(steps, told_gone(steps)):
                for to in step.puts:
                    at_put.setdefault((party, to), []).append(gone)
        for party, steps in self.steps.items():
            taken: dict[Any, int] = {}
            for step, gone in zip(steps, told_gone(steps)):
                event = step.event
                if event["op"] == "take" and is_whole(event):
                    number = taken.get(event["from"], 0)
                    taken[event["from"]] = number + 1
                    late = at_put[event["from"], party][number] - gone
                    assert not late, f"{party} took a message of {event['from']} and wasn't told that {late} is gone"

    # ---- users

    def check_heard(self, users: Users) -> None:
        """What users heard of a server is what it put, each answer once and in order, and none is left out between."""
        def which(message: dict[str, Any]) -> tuple[Any, ...]:
            return tuple(message.get(key) for key in ("client", "number", "length", "query"))

        for server, steps in self.steps.items():
            put = [which(told["message"]) for step in steps for told in step.told if told["op"] == "put" and told["to"] == "clients"]
            heard = [which(message) for one, message in users.heard if one == server]
            begin = put.index(heard[0]) if heard else 0
            assert heard == put[begin : begin + len(heard)], f"users heard other answers of server {server} than it put"

    def check_list(self) -> list[tuple[int, dict[str, Any]]]:
        """The list of the chain: what each member has is a front of it."""
        chain = self.cluster.chain()
        histories = {server: self.history(server) for server in chain["members"]}
        entries = max(histories.values(), key=len)
        for server, history in histories.items():
            assert history == entries[: len(history)], f"the history of server {server} is no front of the longest one"
        moments = [moment for moment, _ in entries]
        assert moments == sorted(moments)
        return entries

    def check_users(self, users: Users) -> None:
        """Each acknowledged request has one place in the list, behind all that was acknowledged before it was asked, and its
        answer is that of the list."""
        entries = self.check_list()
        by_place = {}
        highest, floors = 0, {}
        events = [(one.asked, 0, one) for one in users.records] + [(one.at, 1, one) for one in users.records]
        for _, is_answer, one in sorted(events, key=lambda event: event[:2]):
            if is_answer:
                assert one.length not in by_place, f"two requests have place {one.length}"
                by_place[one.length] = one
                assert one.length > floors[id(one)], f"place {one.length} was there before the request"
                highest = max(highest, one.length)
            else:
                floors[id(one)] = highest
        first: dict[tuple[int, int], int] = {}
        for place, (_, entry) in enumerate(entries, 1):
            first.setdefault((entry["client"], entry["number"]), place)
        for place, one in by_place.items():
            assert place <= len(entries), f"the list has {len(entries)} entries, and place {place} was acknowledged"
            entry = entries[place - 1][1]
            assert (entry["client"], entry["number"]) == (one.client, one.number), f"place {place} has another request"
            moment = entries[place - 1][0] / 1000 - users.wall_at_zero
            assert one.asked - 1 < moment < one.at + 1, f"place {place} has a moment {moment - one.asked:.2f} s behind the request"
        list_answers = replay_of_list(entries)
        for one in users.records:
            answer = list_answers[one.length - 1]
            assert answer == {"client": one.client, "number": one.number, "length": one.length, "reply": one.reply}
        for server, message in users.heard:
            if not message["query"]:
                answer = list_answers[message["length"] - 1] if message["length"] <= len(list_answers) else None
                told = {key: message[key] for key in ("client", "number", "length", "reply")}
                assert told == answer, f"server {server} gave another answer than the list's: {told}"


def told_gone(steps: list[Step]) -> list[set[int]]:
    """Of which lost servers a party was told by each of its steps."""
    gone: list[set[int]] = [set()]
    for step in steps:
        new = {step.event["server"]} if step.event["op"] in ("gone", "detect") else set()
        gone.append(gone[-1] | new if new else gone[-1])
    return gone[1:]


def is_event(event: dict[str, Any]) -> bool:
    op = event["op"]
    return op in ("arrive", "ask", "detect", "join") or op == "take" and is_whole(event)


def lines_of(party: Any, step: Step) -> list[dict[str, Any]]:
    lines = []
    if step.event:
        event = dict(step.event)
        if event["op"] in ("arrive", "ask"):
            event["at"] = party
            event.pop("stream", None)
        elif event["op"] == "take":
            event = {"op": "take", "from": event["from"], "to": party}
        elif event["op"] == "detect":
            lines.append({"op": "crash", "server": event["server"]})
        lines.append(event)
    return lines + [{"op": "put", "from": party, "to": to} for to in step.puts]


def answers(steps: list[Step]) -> list[dict[str, Any]]:
    """The answers that a server put."""
    found = []
    for step in steps:
        for told in step.told:
            if told["op"] == "put" and told["to"] == "clients":
                message = told["message"]
                number = {"tag" if message["query"] else "number": message["number"]}
                found.append({key: message[key] for key in ("client", "length", "reply")} | number)
    return found


def plain(answer: dict[str, Any]) -> dict[str, Any]:
    answer["reply"].pop("name", None)
    return answer


def replay(script: list[dict[str, Any]], size: int) -> list[dict[str, Any]]:
    data = "".join(json.dumps(line) + "\n" for line in script).encode()
    done = subprocess.run([program(), "replay", "--servers", str(size)], input=data, capture_output=True, check=True)
    return [json.loads(line) for line in done.stdout.splitlines()]


def replay_of_list(entries: list[tuple[int, dict[str, Any]]]) -> list[dict[str, Any]]:
    """The answers of one queue object to the list."""
    script = []
    for moment, entry in entries:
        script += [{"op": "arrive", "at": 1, "clock": moment, **entry}, {"op": "put", "from": 1, "to": "clients"}]
    said = replay(script, 1)
    for line in said:
        del line["line"]
    return [plain(line) for line in said]


def check(cluster: Cluster, users: Users) -> int:
    """All of it. The users have stopped, and so do the nodes."""
    run = stopped(cluster)
    run.check_users(users)
    run.check_heard(users)
    return run.check_servers()


def check_servers(cluster: Cluster) -> int:
    """What servers did, whoever asked. The nodes stop."""
    run = stopped(cluster)
    run.check_list()
    return run.check_servers()


def stopped(cluster: Cluster) -> Run:
    for node in cluster.nodes:
        if node.lives():
            node.stop()
    written_again = cluster.etcd.rewritten(f"{cluster.root}/master/log/")
    assert not written_again, f"a line was appended where one was already: {written_again}"
    return Run(cluster)
