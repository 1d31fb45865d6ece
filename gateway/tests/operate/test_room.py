"""What a gateway does where a journal has no room, and what it takes up of a store at a start."""

import json
import os
import signal
import sys
import zlib
from pathlib import Path

import pytest

from rules import FIFO, arn, policy
from started import LIBRARY, START, ByJson, Refused, Started, dumped, files_of, names_in_store, program, programs_of, run
from waiting import pass_time, until

DAY = 24 * 3_600_000

# Refuses requests that a test names, as where there is no room, and what was given behind them in their streams. All else is passed
# on, and answered one by one.
FULL = """#!{python}
import json, subprocess, sys
if sys.argv[1] != 'server': sys.exit(subprocess.run([{program!r}, *sys.argv[1:]]).returncode)
sys.path.insert(0, {tests!r})
import spoken
STREAM_ENDED, NO_ROOM = 49, 70

def told():
    try:
        with open({orders!r}) as file: return json.load(file)
    except (OSError, ValueError): return {{}}

cq = subprocess.Popen([{program!r}, *sys.argv[1:]], stdin=subprocess.PIPE, stdout=subprocess.PIPE)
responses, ended, passed = spoken.frames(cq.stdout), 0, 0
def tell(frames):
    sys.stdout.buffer.write(b''.join(frames))
    sys.stdout.buffer.flush()
def comes_of(frame):
    cq.stdin.write(frame); cq.stdin.flush()
    return spoken.answer(responses)
try:
    tell(spoken.answer(responses))
except StopIteration:
    sys.exit(cq.wait())
for frame in spoken.frames(sys.stdin.buffer):
    orders, command = told(), spoken.command(frame)
    if command['op'] == 'arrive':
        text = spoken.words(frame)
        if command['stream'] <= ended:
            tell([spoken.refusal(STREAM_ENDED)])
            continue
        if len(text) > orders.get('longer', 0) and any(word in text for word in orders.get('refuse', [])):
            passed += 1
            if passed > orders.get('pass', 0):
                ended = command['stream']
                tell([spoken.refusal(NO_ROOM)])
                continue
        if orders.get('answers'):
            # It is kept, and isn't answered any more.
            comes_of(frame)
            with open({orders!r}, 'w') as file: json.dump({{'refuse': ['"op":"arrive"']}}, file)
            sys.exit(cq.kill())
    tell(comes_of(frame))
"""


class Full:
    """A gateway with a `cq` that has no room where a test says so."""

    def __init__(self, room: Path, *words: str) -> None:
        self.orders, cq, self.journal = room / "orders", room / "full-cq", room / "journal"
        cq.write_text(FULL.format(python=sys.executable, program=program(), orders=str(self.orders), tests=str(LIBRARY)))
        cq.chmod(0o755)
        words = (*words, "--no-pauses", "--cq", str(cq))
        self.gateway = Started("--journal", str(self.journal), *words, room=room)

    def call(self, action: str, **members):
        return ByJson(self.gateway.url)(action, **members)

    def tell(self, *texts: str, **more) -> None:
        """Requests with one of these texts, as lines of JSON, have no room, if they are `longer` than that, and behind the first ones
        that `pass`. With `answers` the next one is done, `cq` ends before it answers, and no request has room then."""
        new = self.orders.with_suffix(".new")
        new.write_text(json.dumps({"refuse": texts, **more}))
        new.replace(self.orders)

    def bodies(self, name: str) -> list[str]:
        got = self.call("ReceiveMessage", QueueUrl=name, MaxNumberOfMessages=10, VisibilityTimeout=0)
        return sorted(message["Body"] for message in got.get("Messages", []))


@pytest.fixture
def full(tmp_path):
    full = Full(tmp_path)
    yield full
    assert full.gateway.stop() == 0


def refused(full: Full, action: str, **members) -> tuple[str, int]:
    with pytest.raises(Refused) as refusal:
        full.call(action, **members)
    return refusal.value.code, refusal.value.status


def test_what_has_no_room_is_refused_by_its_kind_and_changes_nothing(full):
    for name in ("q", "f.fifo"):
        kind = {"FifoQueue": "true"} if name.endswith(".fifo") else {}
        full.call("CreateQueue", QueueName=name, Attributes={**kind, "VisibilityTimeout": "600"})
    full.call("SendMessage", QueueUrl="q", MessageBody="m")
    (message,) = full.call("ReceiveMessage", QueueUrl="q")["Messages"]
    receipt = {"QueueUrl": "q", "ReceiptHandle": message["ReceiptHandle"]}
    kinds, programs = ("create", "remove", "send", "receive", "delete", "change"), programs_of(full.gateway)
    full.tell(*(f'"kind":"{kind}"' for kind in kinds))
    assert refused(full, "SendMessage", QueueUrl="q", MessageBody="x") == ("OverLimit", 403)
    assert refused(full, "SendMessage", QueueUrl="q", MessageBody="x" * 300_000) == ("OverLimit", 403)
    assert refused(full, "CreateQueue", QueueName="r") == ("OverLimit", 403)
    for action, members in (("ReceiveMessage", {"QueueUrl": "q"}), ("DeleteMessage", receipt),
                            ("ChangeMessageVisibility", {**receipt, "VisibilityTimeout": 9}),
                            ("TagQueue", {"QueueUrl": "q", "Tags": {"a": "b"}}), ("DeleteQueue", {"QueueUrl": "q"}),
                            ("GetQueueAttributes", {"QueueUrl": "q", "AttributeNames": ["All"]})):
        assert refused(full, action, **members) == ("ServiceUnavailable", 503), action
    entries = [{"Id": str(place), "MessageBody": "b", "MessageGroupId": "g", "MessageDeduplicationId": str(place)}
               for place in range(10)]
    failed = full.call("SendMessageBatch", QueueUrl="f.fifo", Entries=entries)["Failed"]
    assert [one["Code"] for one in failed] == ["OverLimit"] * 10
    full.tell()
    assert programs_of(full.gateway) == programs
    for restarts in (False, True):
        if restarts:
            full.gateway.kill()
            full.gateway.start()
        counts = full.call("GetQueueAttributes", QueueUrl="q", AttributeNames=["All"])["Attributes"]
        assert counts["ApproximateNumberOfMessagesNotVisible"] == "1" and counts["ApproximateNumberOfMessages"] == "0"
        assert [url.rsplit("/", 1)[-1] for url in full.call("ListQueues")["QueueUrls"]] == ["f.fifo", "q"]
    assert len(full.call("SendMessageBatch", QueueUrl="f.fifo", Entries=entries)["Successful"]) == 10
    full.call("DeleteMessage", **receipt)
    # Parts of what was refused go.
    until(lambda: not any(name.startswith("b") and "k" not in name for name in names_in_store(full.journal)), 20,
          "a name of a removed queue is there still")


@pytest.mark.parametrize("passing", [0, 1, 2])
@pytest.mark.parametrize("kind", ["dead letters", "a task", "due messages"])
def test_a_copy_that_has_no_room_leaves_its_original(full, kind, passing):
    """Of three copies so many have room. Each message is moved once, when there is room again."""
    full.call("CreateQueue", QueueName="dead")
    full.call("CreateQueue", QueueName="q", Attributes={"VisibilityTimeout": "0", "RedrivePolicy": policy("dead")})
    sent = ["0", "1", "2"]
    source, target = {"dead letters": ("q", "dead"), "a task": ("dead", "q"), "due messages": ("q", "q")}[kind]
    more = {"DelaySeconds": 5} if kind == "due messages" else {}
    for body in sent:
        full.call("SendMessage", QueueUrl=source, MessageBody=body, **more)
    if kind == "dead letters":
        assert full.bodies("q") == sent
    full.tell('\\"of\\":', **{"pass": passing})
    if kind == "dead letters":
        assert refused(full, "ReceiveMessage", QueueUrl="q", MaxNumberOfMessages=10) == ("ServiceUnavailable", 503)
    elif kind == "a task":
        full.call("StartMessageMoveTask", SourceArn=arn("dead"), DestinationArn=arn("q"))
    else:
        full.gateway.set_clock(full.gateway.moment + 5000)
    pass_time(0.3, "what is done of it meanwhile is refused")
    full.tell()
    if kind == "dead letters":
        until(lambda: full.bodies("q") == [] and len(full.bodies("dead")) == 3, 20, "not all are dead letters")
    elif kind == "due messages":
        full.gateway.set_clock(full.gateway.moment + 2000)
    found: list[str] = []

    def is_all_there() -> bool:
        got = full.call("ReceiveMessage", QueueUrl=target, MaxNumberOfMessages=10, VisibilityTimeout=600)
        found.extend(message["Body"] for message in got.get("Messages", []))
        return len(found) >= 3

    until(is_all_there, 20, "not all is there")
    full.gateway.kill()
    full.gateway.start()
    assert sorted(found) == sent and full.bodies("q") == full.bodies("dead") == []


@pytest.mark.parametrize("shards", ["1", "2"])
def test_what_is_behind_a_copy_that_has_no_room_is_not_moved_before_it(tmp_path, shards):
    """The names are with two programs, where there are two."""
    full = Full(tmp_path, "--shards", shards)
    names = ("q.fifo", "dead.fifo")
    assert len({zlib.crc32(name.encode()) % int(shards) for name in names}) == int(shards)
    full.call("CreateQueue", QueueName="dead.fifo", Attributes={"FifoQueue": "true"})
    full.call("CreateQueue", QueueName="q.fifo", Attributes={**FIFO, "VisibilityTimeout": "0", "RedrivePolicy": policy("dead.fifo")})
    bodies = ["0", "1" + "x" * 5000, "2"]
    for body in bodies:
        full.call("SendMessage", QueueUrl="q.fifo", MessageBody=body, MessageGroupId="g", MessageDeduplicationId=body[0])
    assert full.bodies("q.fifo") == bodies
    full.tell('\\"of\\":', longer=3000)
    assert refused(full, "ReceiveMessage", QueueUrl="q.fifo", MaxNumberOfMessages=10) == ("ServiceUnavailable", 503)
    full.tell()
    until(lambda: full.bodies("q.fifo") == [], 20, "a message is there still")
    found = []
    while messages := full.call("ReceiveMessage", QueueUrl="dead.fifo", MaxNumberOfMessages=10).get("Messages"):
        found += [message["Body"] for message in messages]
        for message in messages:
            full.call("DeleteMessage", QueueUrl="dead.fifo", ReceiptHandle=message["ReceiptHandle"])
    assert found == bodies
    assert full.gateway.stop() == 0


def test_an_answer_that_has_no_room_ends_the_gateway_and_the_next_one_knows_what_was_done(full):
    full.call("CreateQueue", QueueName="q")
    full.tell(answers=True)
    with pytest.raises((OSError, Refused)):
        full.call("SendMessage", QueueUrl="q", MessageBody="m")
    assert full.gateway.process.wait(20) == 1
    full.tell()
    full.gateway.start()
    assert full.bodies("q") == ["m"]
    full.call("SendMessage", QueueUrl="q", MessageBody="n")
    assert full.bodies("q") == ["m", "n"]


def test_a_message_tells_the_tables_when_it_was_sent_also_in_a_queue_that_delays_all(tmp_path):
    with Started("--journal", str(tmp_path / "journal"), room=tmp_path) as gateway:
        call = ByJson(gateway.url)
        call("CreateQueue", QueueName="q.fifo", Attributes={"FifoQueue": "true", "DelaySeconds": "60"})
        for place in range(3):
            call("SendMessage", QueueUrl="q.fifo", MessageBody=str(place), MessageGroupId="g", MessageDeduplicationId=str(place))
            gateway.set_clock(gateway.moment + 10_000)
        gateway.kill()
        gateway.start()
        call = ByJson(gateway.url)
        for delayed in (3, 3, 3, 2, 1, 0):
            counts = call("GetQueueAttributes", QueueUrl="q.fifo", AttributeNames=["All"])["Attributes"]
            assert int(counts["ApproximateNumberOfMessagesDelayed"]) == delayed
            gateway.set_clock(gateway.moment + 10_000)
        got = call("ReceiveMessage", QueueUrl="q.fifo", MaxNumberOfMessages=10, AttributeNames=["All"])["Messages"]
        assert [int(message["Attributes"]["SentTimestamp"]) - START for message in got] == [0, 10_000, 20_000]


def test_names_of_parts_are_used_again_after_a_minute(tmp_path):
    """`cq` remembers each name for good."""
    journal = tmp_path / "journal"
    with Started("--journal", str(journal), room=tmp_path) as gateway:
        ByJson(gateway.url)("CreateQueue", QueueName="q")

        def names() -> set[str]:
            return {name for name in names_in_store(journal) if name.startswith("b") and not name.startswith("book")}

        def send_and_delete(body: str) -> set[str]:
            call = ByJson(gateway.url)
            call("SendMessage", QueueUrl="q", MessageBody=body)
            found = names()
            (message,) = call("ReceiveMessage", QueueUrl="q")["Messages"]
            assert message["Body"] == body
            call("DeleteMessage", QueueUrl="q", ReceiptHandle=message["ReceiptHandle"])
            until(lambda: names() == set(), 20, "a name is there still")
            return found

        bodies = [str(number) * 300_000 for number in range(4)]
        assert send_and_delete(bodies[0]) == {"b1.fifo"} and send_and_delete(bodies[1]) == {"b2.fifo"}
        gateway.set_clock(gateway.moment + 60_000)
        assert send_and_delete(bodies[2]) == {"b1.fifo"}
        gateway.kill()
        gateway.start()
        assert send_and_delete(bodies[3]) == {"b2.fifo"} and send_and_delete(bodies[0]) == {"b3.fifo"}


def test_an_attempt_is_given_the_same_after_a_start(tmp_path):
    gateway = Started("--journal", str(tmp_path / "journal"), room=tmp_path)
    call = ByJson(gateway.url)
    call("CreateQueue", QueueName="q.fifo", Attributes={"FifoQueue": "true", "VisibilityTimeout": "100"})
    for place in range(4):
        call("SendMessage", QueueUrl="q.fifo", MessageBody=str(place), MessageGroupId=str(place // 2), MessageDeduplicationId=str(place))

    def receive(attempt: str) -> dict[str, str]:
        got = ByJson(gateway.url)("ReceiveMessage", QueueUrl="q.fifo", MaxNumberOfMessages=2, ReceiveRequestAttemptId=attempt)
        return {message["Body"]: message["ReceiptHandle"] for message in got.get("Messages", [])}

    first, second = receive("a"), receive("b")
    assert [*first] == ["0", "1"] and [*second] == ["2", "3"]
    gateway.set_clock(gateway.moment + 50_000)
    assert receive("b") == second
    ByJson(gateway.url)("ChangeMessageVisibility", QueueUrl="q.fifo", ReceiptHandle=first["0"], VisibilityTimeout=200)
    for _ in range(2):
        gateway.kill()
        gateway.start()
        # One was changed, and with it the attempt is over.
        assert receive("a") == {} and receive("b") == second
    gateway.set_clock(gateway.moment + 60_000)
    assert receive("b") == second
    ByJson(gateway.url)("DeleteMessage", QueueUrl="q.fifo", ReceiptHandle=second["2"])
    gateway.kill()
    gateway.start()
    assert receive("b") == {}
    assert gateway.stop() == 0


def test_a_day_of_a_pause_counts_at_this_start_and_at_later_ones(tmp_path):
    gateway = Started("--journal", str(tmp_path / "journal"), room=tmp_path)
    call = ByJson(gateway.url)
    call("CreateQueue", QueueName="q", Attributes={"MessageRetentionPeriod": str(2 * DAY // 1000)})
    call("SendMessage", QueueUrl="q", MessageBody="m")
    assert gateway.stop() == 0
    gateway.set_clock(gateway.moment + 9 * DAY)

    def bodies() -> list[str]:
        got = ByJson(gateway.url)("ReceiveMessage", QueueUrl="q", VisibilityTimeout=0)
        return [message["Body"] for message in got.get("Messages", [])]

    for _ in range(2):
        gateway.start()
        assert bodies() == ["m"]
        gateway.kill()
    gateway.start()
    gateway.set_clock(gateway.moment + DAY - 1)
    assert bodies() == ["m"]
    gateway.set_clock(gateway.moment + 1)
    assert bodies() == []
    assert gateway.stop() == 0


def test_a_day_of_a_pause_counts_where_there_is_no_room_to_say_so_at_first(full):
    full.call("CreateQueue", QueueName="q", Attributes={"MessageRetentionPeriod": str(2 * DAY // 1000)})
    full.call("SendMessage", QueueUrl="q", MessageBody="m")
    full.gateway.kill()
    full.gateway.set_clock(full.gateway.moment + 9 * DAY)
    full.tell('\\"jump\\":')
    full.gateway.start()
    assert full.bodies("q") == ["m"]
    full.tell()
    until(lambda: b'"jump":' in dumped(full.journal), 20, "the book has no jump")
    full.gateway.kill()
    full.gateway.start()
    assert full.bodies("q") == ["m"]


def test_each_program_has_a_file_and_no_other_number_of_them_is_taken(tmp_path):
    journal = tmp_path / "journal"
    words = ("--journal", str(journal))
    gateway = Started(*words, "--shards", "3")
    names = [f"q{number}" for number in range(9)]
    for name in names:
        ByJson(gateway.url)("CreateQueue", QueueName=name)
        ByJson(gateway.url)("SendMessage", QueueUrl=name, MessageBody=name)
    assert [file.name for file in files_of(journal)] == ["journal.cq1", "journal.cq2", "journal.cq3"]
    # Another gateway that looks for no lock.
    other = tmp_path / "other"
    other.mkdir()
    for file in tmp_path.glob("journal.*[0-9]"):
        (other / file.name).symlink_to(file)
    again = run("--port", "0", "--journal", str(other / "journal"), "--shards", "3")
    assert again.returncode == 1 and ("JournalBusy" in again.stderr or "NotAJournal" in again.stderr), again.stderr
    for child in programs_of(gateway):
        os.kill(child, signal.SIGKILL)
    for name in names:
        assert ByJson(gateway.url)("ReceiveMessage", QueueUrl=name)["Messages"][0]["Body"] == name
    assert gateway.stop() == 0
    for shards in ("2", "4"):
        refused = run("--port", "0", *words, "--shards", shards)
        assert refused.returncode == 1 and "--shards" in refused.stderr, refused.stderr
    with Started(*words, "--shards", "3") as gateway:
        assert len(ByJson(gateway.url)("ListQueues")["QueueUrls"]) == 9
