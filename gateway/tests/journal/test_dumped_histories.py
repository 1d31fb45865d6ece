"""Histories of a journal's stores, as `dump --answers` writes them, and what `check` says of these."""

import contextlib
import itertools
import json
import re
import threading
from collections.abc import Callable, Iterator
from pathlib import Path
from typing import Any

import pytest

from rules import FIFO, policy
from stand_in import StandIn
from started import START, ByBoto3, Refused, Started, files_of, run


Line = dict[str, Any]


def dumped(journal: Path) -> str:
    ended = run("dump", "--answers", str(journal))
    assert ended.returncode == 0 and ended.stderr == "", ended.stderr
    return ended.stdout


def lines_of(journal: Path) -> list[Line]:
    return [json.loads(line) for line in dumped(journal).splitlines()]


def requests_of(journal: Path) -> int:
    """How many requests the journal's stores took, as `verify` says."""
    said = run("verify", str(journal)).stdout
    return sum(int(count) for count in re.findall(r"the store of (\d+) requests", said))


def judged(room: Path, lines: list[Line]) -> tuple[int, str]:
    """What `check` says of a history."""
    history = room / "history.jsonl"
    history.write_text("".join(json.dumps(line) + "\n" for line in lines))
    ended = run("check", str(history))
    assert ended.returncode in (0, 1), ended.stderr
    return ended.returncode, ended.stdout


def all_allowed(count: int) -> tuple[int, str]:
    return 0, f"{count} answers are as the rules say; of 0 they say nothing\n"


class Using:
    """Does with queues what clients can do, under names that end with `turn`."""

    def __init__(self, gateway: Started, turn: str) -> None:
        self.gateway, self.turn, self.numbers = gateway, turn, itertools.count()
        self.call = ByBoto3(gateway.client())

    def move(self, milliseconds: int) -> None:
        self.gateway.set_clock(self.gateway.moment + milliseconds)

    def queue(self, name: str, **attributes: str) -> str:
        name = f"{name}-{self.turn}"
        if "FifoQueue" in attributes:
            name += ".fifo"
        return self.call("CreateQueue", QueueName=name, Attributes=attributes)["QueueUrl"]

    def send(self, queue: str, body: str, group: str = "g", **more: Any) -> None:
        if queue.endswith(".fifo"):
            more = {"MessageGroupId": group, "MessageDeduplicationId": f"{next(self.numbers)}", **more}
        self.call("SendMessage", QueueUrl=queue, MessageBody=body, **more)

    def receive(self, queue: str, size: int = 10, **more: Any) -> list[dict[str, Any]]:
        return self.call("ReceiveMessage", QueueUrl=queue, MaxNumberOfMessages=size, **more).get("Messages", [])

    def delete(self, queue: str, message: dict[str, Any]) -> None:
        self.call("DeleteMessage", QueueUrl=queue, ReceiptHandle=message["ReceiptHandle"])

    def change(self, queue: str, message: dict[str, Any], timeout: int) -> None:
        self.call("ChangeMessageVisibility", QueueUrl=queue, ReceiptHandle=message["ReceiptHandle"], VisibilityTimeout=timeout)

    def refused(self, code: str, action: Callable[[], Any]) -> None:
        with pytest.raises(Refused, match=code):
            action()

    def all(self) -> None:
        self.fifo()
        self.standard()
        self.delays()
        self.dead_letters()
        self.names()
        self.batches()

    def fifo(self) -> None:
        queue = self.queue("fifo", **FIFO, ContentBasedDeduplication="true", VisibilityTimeout="30")
        for place in range(4):
            self.send(queue, f"body {place} with \n\t\"signs\" \u00e9\U0001f600", group=f"g{place % 2}")
        for _ in range(2):
            self.call("SendMessage", QueueUrl=queue, MessageBody="the same", MessageGroupId="same")
        self.move(299_000)
        self.call("SendMessage", QueueUrl=queue, MessageBody="the same", MessageGroupId="same")
        self.move(2_000)
        self.call("SendMessage", QueueUrl=queue, MessageBody="the same", MessageGroupId="same")
        first, second = self.receive(queue, 2, ReceiveRequestAttemptId=f"a-{self.turn}")
        assert len(self.receive(queue, 2, ReceiveRequestAttemptId=f"a-{self.turn}")) == 2
        assert len(self.receive(queue)) == 4 and self.receive(queue) == []
        self.delete(queue, first)
        self.delete(queue, first)
        self.change(queue, second, 0)
        (second,) = self.receive(queue, 1)
        self.change(queue, second, 50)
        self.move(31_000)
        assert len(self.receive(queue, 3)) == 3
        self.move(31_000)
        self.refused("InvalidParameterValue", lambda: self.delete(queue, second))
        self.refused("MessageNotInflight", lambda: self.change(queue, second, 1))
        self.send(queue, "x" * 600_000, group="large")
        self.call("GetQueueAttributes", QueueUrl=queue, AttributeNames=["All"])
        self.call("PurgeQueue", QueueUrl=queue)
        self.move(60_000)
        assert self.receive(queue) == []
        self.call("TagQueue", QueueUrl=queue, Tags={"turn": self.turn})

    def standard(self) -> None:
        queue = self.queue("standard", VisibilityTimeout="10")
        for place in range(5):
            self.send(queue, str(place))
        self.send(queue, "later", DelaySeconds=5)
        messages = self.receive(queue)
        assert len(messages) == 5
        self.move(12_000)
        for message in messages[:3]:
            self.delete(queue, message)
        messages = self.receive(queue)
        assert sorted(message["Body"] for message in messages) == ["3", "4", "later"]
        self.change(queue, messages[0], 0)
        self.call("SetQueueAttributes", QueueUrl=queue, Attributes={"MessageRetentionPeriod": "60"})
        self.move(60_000)
        assert self.receive(queue) == []

    def delays(self) -> None:
        queue = self.queue("delayed", **FIFO, DelaySeconds="3")
        self.send(queue, "delayed")
        assert self.receive(queue) == []
        self.move(3_000)
        (message,) = self.receive(queue)
        self.delete(queue, message)

    def dead_letters(self) -> None:
        dead = self.queue("dead", **FIFO)
        queue = self.queue("source", **FIFO, RedrivePolicy=policy(dead), VisibilityTimeout="1")
        for place in range(3):
            self.send(queue, str(place))
        assert len(self.receive(queue)) == 3
        self.move(1_000)
        assert self.receive(queue) == []
        messages = self.receive(dead)
        assert [message["Body"] for message in messages] == ["0", "1", "2"]
        self.delete(dead, messages[0])

    def names(self) -> None:
        for _ in range(2):
            queue = self.queue("passing", **FIFO)
            self.send(queue, "passing")
            self.call("DeleteQueue", QueueUrl=queue)
            self.refused("QueueDeletedRecently", lambda: self.queue("passing", **FIFO))
            self.refused("NonExistentQueue", lambda: self.send(queue, "none"))
            self.move(61_000)

    def batches(self) -> None:
        queue = self.queue("batch", **FIFO)
        entries = [{"Id": str(place), "MessageBody": str(place), "MessageGroupId": str(place % 3),
                    "MessageDeduplicationId": str(place)} for place in range(10)]
        assert len(self.call("SendMessageBatch", QueueUrl=queue, Entries=entries)["Successful"]) == 10
        handles = [{"Id": str(place), "ReceiptHandle": message["ReceiptHandle"]}
                   for place, message in enumerate(self.receive(queue))]
        assert len(handles) == 10
        changes = [{**handle, "VisibilityTimeout": 3} for handle in handles[5:]]
        self.call("ChangeMessageVisibilityBatch", QueueUrl=queue, Entries=changes)
        self.call("DeleteMessageBatch", QueueUrl=queue, Entries=handles[:5])


@pytest.fixture(scope="module")
def used(tmp_path_factory) -> Path:
    """The journal of two programs that was used, killed, and used again."""
    room = tmp_path_factory.mktemp("used")
    journal = room / "journal"
    gateway = Started("--journal", str(journal), "--shards", "2", room=room)
    Using(gateway, "1").all()
    gateway.kill()
    gateway.start()
    Using(gateway, "2").all()
    assert gateway.stop() == 0
    yield journal
    for file in files_of(journal):
        file.unlink()


@pytest.fixture(scope="module")
def history(used) -> list[Line]:
    return lines_of(used)


def test_each_request_of_a_journal_has_a_line_and_the_rules_allow_all(used, history, tmp_path):
    assert len(history) == requests_of(used) > 200
    assert judged(tmp_path, history) == all_allowed(len(history))
    assert {line["store"]["file"] for line in history} == {1, 2}
    assert [line["at"] for line in history] == sorted(line["at"] for line in history) and history[0]["at"] == START
    for number, file in enumerate(files_of(used), 1):
        own = [line for line in history if line["store"]["file"] == number]
        said = run("verify", str(used)).stdout.splitlines()[number - 1]
        assert said.startswith(f"{file}: ") and said.endswith(f"the store of {len(own)} requests")
        assert judged(tmp_path, own) == all_allowed(len(own))
    actions = {line["action"] for line in history}
    assert actions == {"CreateQueue", "DeleteQueue", "SendMessage", "ReceiveMessage", "DeleteMessage", "ChangeMessageVisibility"}
    queues = {line["request"].get("QueueUrl", "") for line in history}
    assert {re.sub(r"\d+", "N", queue) for queue in queues} >= {"N.fifo", "Nd.fifo", "bN.fifo", "bookN.fifo"}
    assert dumped(used).startswith('{"at":'), "and without the option it is as it was"
    assert json.loads(run("dump", str(used)).stdout.splitlines()[0])["kind"] == "store"


def test_what_clients_were_told_is_what_stands_there(tmp_path):
    """Bodies, numbers and refusals, by a gateway that a test can follow."""
    gateway = Started("--journal", str(tmp_path / "journal"), room=tmp_path)
    using = Using(gateway, "one")
    queue = using.queue("q", **FIFO, VisibilityTimeout="7")
    using.send(queue, "a body\n\u20ac")
    using.send(queue, "a body\n\u20ac", MessageDeduplicationId="0")
    gateway.set_clock(START + 5)
    (message,) = using.receive(queue, 3)
    using.change(queue, message, 9)
    using.delete(queue, message)
    assert gateway.stop() == 0
    lines = lines_of(tmp_path / "journal")
    (name,) = {line["request"]["QueueName"] for line in lines if line["action"] == "CreateQueue"
               and line["request"]["Attributes"]["VisibilityTimeout"] == "7"}
    of_queue = [line for line in lines if name in line["request"].values()]
    create, *sends, receive, change, delete = of_queue
    assert create["answer"] == {"QueueUrl": name, "Incarnation": 1} and create["at"] == START
    assert [send["answer"]["MessageId"] for send in sends] == ["1-1", "1-1"], "a repeat has the first one's"
    assert all(send["request"]["MessageBody"].endswith("a body\n\u20ac") for send in sends)
    (told,) = receive["answer"]["Messages"]
    assert receive["at"] == START + 5 and receive["request"]["VisibilityTimeout"] == 7
    assert told["MessageId"] == "1-1" and told["ReceiptHandle"] == "1-1-1" and told["Body"] == sends[0]["request"]["MessageBody"]
    assert told["MD5OfBody"] == sends[0]["answer"]["MD5OfMessageBody"]
    assert told["Attributes"] == {"ApproximateReceiveCount": "1", "MessageGroupId": "g", "SequenceNumber": "1"}
    assert change["request"] == {"QueueUrl": name, "ReceiptHandle": "1-1-1", "VisibilityTimeout": 9} and change["answer"] == {}
    assert delete["request"] == {"QueueUrl": name, "ReceiptHandle": "1-1-1"} and delete["answer"] == {"Removed": True}
    assert repeats_in(lines) == 0


# ---- histories that were changed


def received(history: list[Line], least: int) -> Line:
    return next(line for line in history if len(line.get("answer", {}).get("Messages", [])) >= least)


def other_body_sent(history: list[Line]) -> int:
    line = next(line for line in history if line["action"] == "SendMessage" and "answer" in line)
    line["request"]["MessageBody"] += "!"
    return history.index(line)


def other_body_handed(history: list[Line]) -> int:
    line = received(history, 1)
    line["answer"]["Messages"][0]["Body"] += "!"
    return history.index(line)


def other_order(history: list[Line]) -> int:
    line = received(history, 2)
    line["answer"]["Messages"].reverse()
    return history.index(line)


def doubled_delivery(history: list[Line]) -> int:
    handed: dict[tuple[int, str], Line] = {}
    for place, line in enumerate(history):
        if "Messages" in line.get("answer", {}):
            queue = (line["store"]["file"], line["request"]["QueueUrl"])
            if queue in handed:
                line["answer"] = handed[queue]
                return place
            if line["answer"]["Messages"]:
                handed[queue] = line["answer"]
    raise AssertionError("no queue was received from twice")


def lost_message(history: list[Line]) -> int:
    line = received(history, 2)
    del line["answer"]["Messages"][1]
    return history.index(line)


def other_refusal(history: list[Line]) -> int:
    line = next(line for line in history if line.get("error", {}).get("code") == "QueueDoesNotExist")
    line["error"]["code"] = "ReceiptHandleIsInvalid"
    return history.index(line)


def delete_without_effect(history: list[Line]) -> int:
    line = next(line for line in history if line.get("answer", {}).get("Removed"))
    line["answer"]["Removed"] = False
    return history.index(line)


CHANGES = [other_body_sent, other_body_handed, other_order, doubled_delivery, lost_message, other_refusal, delete_without_effect]


@pytest.mark.parametrize("change", CHANGES, ids=[change.__name__ for change in CHANGES])
def test_a_line_that_was_changed_is_found(history, tmp_path, change):
    changed = json.loads(json.dumps(history))
    place = change(changed)
    status, said = judged(tmp_path, changed)
    assert status == 1 and said.startswith(f"line {place + 1}, {changed[place]['action']}: "), said


def test_a_request_that_is_missing_is_found(history, tmp_path):
    place = next(place for place, line in enumerate(history) if line["action"] == "SendMessage" and "answer" in line)
    status, said = judged(tmp_path, history[:place] + history[place + 1 :])
    assert status == 1 and int(re.match(r"line (\d+), ", said)[1]) > place


# ---- files in other states


@contextlib.contextmanager
def at_work(gateway: Started, clients: int, work: Callable[[Using, str], None], **attributes: str) -> Iterator[list[BaseException]]:
    """So many clients do this again and again meanwhile, each with a queue of its own. Tells what they met."""
    is_over, failures = threading.Event(), []

    def run_one(using: Using) -> None:
        try:
            queue = using.queue("q", **FIFO, **attributes)
            while not is_over.is_set():
                work(using, queue)
        except BaseException as error:
            failures.append(error)

    threads = [threading.Thread(target=run_one, args=(Using(gateway, str(client)),)) for client in range(clients)]
    for thread in threads:
        thread.start()
    try:
        yield failures
    finally:
        is_over.set()
        for thread in threads:
            thread.join()


def test_a_dump_while_a_gateway_runs_has_what_was_answered(tmp_path):
    journal = tmp_path / "journal"
    gateway = Started("--journal", str(journal), "--shards", "2")

    def work(using: Using, queue: str) -> None:
        using.send(queue, "x" * 1000)
        for message in using.receive(queue, 3):
            using.delete(queue, message)

    counts = []
    with at_work(gateway, 4, work) as failures:
        for _ in range(3):
            before = requests_of(journal)
            lines = lines_of(journal)
            assert before <= len(lines) <= requests_of(journal)
            assert judged(tmp_path, lines) == all_allowed(len(lines))
            counts.append(len(lines))
    assert failures == [] and counts == sorted(counts) and counts[-1] > counts[0]
    assert gateway.stop() == 0
    lines = lines_of(journal)
    assert len(lines) == requests_of(journal) and judged(tmp_path, lines) == all_allowed(len(lines))


def repeats_in(lines: list[Line]) -> int:
    return len(lines) - len({(line["store"]["client"], line["store"]["number"]) for line in lines})


def test_requests_that_were_asked_twice_have_two_lines(tmp_path):
    """Where `cq` ends, the gateway asks the open requests again under their numbers. Here it ends where an answer was about to come."""
    journal, stand_in = tmp_path / "journal", StandIn(tmp_path)

    def work(using: Using, queue: str) -> None:
        # One that was open at two ends is refused.
        with contextlib.suppress(Refused):
            using.send(queue, "x")
            using.receive(queue, 1)

    with Started("--journal", str(journal), "--cq", str(stand_in.path)) as gateway:
        own = Using(gateway, "own")
        with at_work(gateway, 8, work, VisibilityTimeout="0") as failures:
            for turn in range(6):
                stand_in.tell("once-close")
                # It is answered once `cq` has begun again.
                own.queue(f"turn{turn}", **FIFO)
        assert failures == []
    lines = lines_of(journal)
    assert len(lines) == requests_of(journal) and judged(tmp_path, lines) == all_allowed(len(lines))
    assert repeats_in(lines) >= 6


def gone_of(journal: Path) -> int:
    """How many requests are gone from a journal, as `dump --answers` says."""
    ended = run("dump", "--answers", str(journal))
    assert ended.returncode == 0, ended.stderr
    said = re.fullmatch(rf"hobbychair: {journal}\.cq1: its first (\d+) requests are gone: the history begins with the store that "
                        r"they made\n", ended.stderr)
    assert said or ended.stderr == "", ended.stderr
    return int(said[1]) if said else 0


def test_where_requests_are_gone_a_history_begins_with_their_store(tmp_path):
    """Ids, receipts, timeouts and removals from before it count."""
    journal = tmp_path / "journal"
    gateway = Started("--journal", str(journal), room=tmp_path)
    using = Using(gateway, "one")
    queue, other, passing = (using.queue(name, **FIFO, VisibilityTimeout="30") for name in ("q", "other", "passing"))
    standard = using.queue("standard", VisibilityTimeout="30")
    while not gone_of(journal):
        for place in range(3):
            using.send(other, str(place), MessageDeduplicationId=f"{place}")
        using.send(standard, "standard")
        handed = [*using.receive(other, 2), *using.receive(standard, 1)]
        using.call("DeleteQueue", QueueUrl=passing)
        for _ in range(10):
            using.send(queue, "x" * 250_000)
            using.delete(queue, using.receive(queue, 1)[0])
        if not gone_of(journal):
            using.move(60_000)
            using.queue("passing", **FIFO, VisibilityTimeout="30")
    for place in range(3):
        using.send(other, str(place), MessageDeduplicationId=f"{place}")
    if handed:
        using.change(other, handed[0], 0)
    using.move(31_000)
    for messages, name in ((using.receive(other), other), (using.receive(standard), standard)):
        for message in messages[:2]:
            using.delete(name, message)
    using.refused("QueueDeletedRecently", lambda: using.queue("passing", **FIFO, VisibilityTimeout="30"))
    using.move(31_000)
    using.queue("passing", **FIFO, VisibilityTimeout="30")
    gateway.kill()
    gateway.start()
    Using(gateway, "2").all()
    assert gateway.stop() == 0
    gone, history = gone_of(journal), [json.loads(line) for line in run("dump", "--answers", str(journal)).stdout.splitlines()]
    chunks = [line for line in history if line["action"] == "LoadStore"]
    assert history[: len(chunks)] == chunks and chunks
    requests = len(history) - len(chunks)
    assert gone + requests == requests_of(journal) and gone > 0
    assert judged(tmp_path, history) == (0, f"{requests} answers are as the rules say; of {len(chunks)} they say nothing\n")
    for change in CHANGES:
        changed = json.loads(json.dumps(history))
        place = change(changed)
        status, said = judged(tmp_path, changed)
        assert status == 1 and said.startswith(f"line {place + 1}, "), (change.__name__, said)
    status, said = judged(tmp_path, history[len(chunks) :])
    assert status == 1 and "the rules refuse it, QueueDoesNotExist" in said, "without its store it is refuted"


def test_damage_and_other_files_are_refused(used, tmp_path):
    files = [tmp_path / f"journal.cq{number}" for number in (1, 2)]
    whole = [file.read_bytes() for file in files_of(used)]
    for file, data in zip(files, whole):
        file.write_bytes(data)
    (second,) = [place for place, data in enumerate(whole) if b"body 1 with" in data][:1]
    at = whole[second].index(b"body 1 with")
    files[second].write_bytes(whole[second][:at] + b"B" + whole[second][at + 1 :])
    ended = run("dump", "--answers", str(tmp_path / "journal"))
    assert ended.returncode == 1
    found = re.fullmatch(rf"hobbychair: {files[second]}: it is damaged at byte (\d+)\n", ended.stderr)
    assert found and at - 300_000 < int(found[1]) < at, ended.stderr
    lines = [json.loads(line) for line in ended.stdout.splitlines()]
    assert judged(tmp_path, lines) == all_allowed(len(lines)), "what stands before the damage is told"
    files[second].write_text("Dear Sir or Madam")
    ended = run("dump", "--answers", str(tmp_path / "journal"))
    assert (ended.returncode, ended.stdout) == (1, "") and f"{files[second]} is no journal of this build" in ended.stderr
    files[second].write_bytes(whole[second])
    files[0].unlink()
    ended = run("dump", "--answers", str(tmp_path / "journal"))
    assert (ended.returncode, ended.stdout) == (1, "") and f"{files[0]} is missing" in ended.stderr
    ended = run("dump", "--answers", str(tmp_path / "none"))
    assert (ended.returncode, ended.stdout) == (1, "") and "there is no journal" in ended.stderr
