"""The journal: what a start keeps, cuts off and refuses."""

import hashlib
import json
import os
import re
import shutil
import socket
import stat
import struct
import subprocess
from pathlib import Path

import pytest

from operated import get, metric
from rules import new_name
from started import START, TOP, ByBoto3, ByJson, Refused, Started, command, environment, program, run
from waiting import pace, until

LEAD = "hobbychair_clock_lead_seconds"


@pytest.fixture
def journal(tmp_path):
    """A journal of a queue with three messages."""
    path = tmp_path / "journal"
    gateway = Started("--journal", str(path), room=tmp_path)
    call = ByBoto3(gateway.client())
    call("CreateQueue", QueueName="q.fifo", Attributes={"FifoQueue": "true", "VisibilityTimeout": "0"})
    for place in range(3):
        call("SendMessage", QueueUrl="q.fifo", MessageBody=f"m{place}", MessageGroupId="g", MessageDeduplicationId=str(place))
    assert gateway.stop() == 0
    return path


def start(path, *words: str) -> subprocess.CompletedProcess:
    return subprocess.run(command("--port", "0", "--journal", str(path), *words), env=environment(), timeout=60,
                          capture_output=True, text=True)


# Where refusals say that one finds what to do.
UPGRADE = 'docs/GATEWAY.md, "Upgrade"'


def all_in(room: Path) -> dict[str, bytes]:
    return {file.name: hashlib.sha256(file.read_bytes()).digest() for file in room.iterdir()}


def refusals(path: Path, *words: str) -> list[str]:
    """What a start says of a journal, and what commands say that look at it. They refuse it and change nothing."""
    before, copy = all_in(path.parent), str(path.with_name("copy"))
    asked = [[word, str(path), *([copy] if word == "backup" else [])] for word in words or ("verify", "dump", "backup")]
    refused = [start(path), *(run(*one) for one in asked)]
    for one in refused:
        assert one.returncode == 1 and "undamaged" not in one.stdout and len(one.stderr.splitlines()) == 1, one
    assert all_in(path.parent) == before
    return [one.stderr for one in refused]


def test_all_that_is_kept_comes_again(tmp_path):
    path = tmp_path / "journal"
    with Started("--journal", str(path), room=tmp_path) as gateway:
        call = ByBoto3(gateway.client())
        attributes = {"FifoQueue": "true", "VisibilityTimeout": "100"}
        queue = call("CreateQueue", QueueName=new_name(), Attributes=attributes, tags={"a": "1"})["QueueUrl"].split("/")[-1]
        gone = call("CreateQueue", QueueName=new_name(), Attributes=attributes)["QueueUrl"].split("/")[-1]
        call("DeleteQueue", QueueUrl=gone)
        call("SetQueueAttributes", QueueUrl=queue, Attributes={"DeduplicationScope": "messageGroup"})
        call("TagQueue", QueueUrl=queue, Tags={"b": "2"})
        call("UntagQueue", QueueUrl=queue, TagKeys=["a"])
        given = {"x": {"DataType": "Binary", "BinaryValue": b"\0\xff"}, "y": {"DataType": "String", "StringValue": "ü"}}
        for dedup in ("1", "2", "3"):
            call("SendMessage", QueueUrl=queue, MessageBody="b" + dedup, MessageGroupId=dedup, MessageDeduplicationId=dedup,
                 MessageAttributes=given)
        gateway.set_clock(gateway.moment + 5_000)
        whole = {"QueueUrl": queue, "AttributeNames": ["All"], "MessageAttributeNames": ["All"]}
        (first,) = call("ReceiveMessage", **whole, ReceiveRequestAttemptId="x")["Messages"]
        (second,) = call("ReceiveMessage", **whole)["Messages"]
        call("DeleteMessage", QueueUrl=queue, ReceiptHandle=second["ReceiptHandle"])
        names = ["All"]
        before = call("GetQueueAttributes", QueueUrl=queue, AttributeNames=names)["Attributes"]
        call("PurgeQueue", QueueUrl=call("CreateQueue", QueueName="p.fifo", Attributes=attributes)["QueueUrl"])
        gateway.kill()

        gateway.start()
        call = ByBoto3(gateway.client())
        assert call("GetQueueAttributes", QueueUrl=queue, AttributeNames=names)["Attributes"] == before
        assert call("ListQueueTags", QueueUrl=queue)["Tags"] == {"b": "2"}
        assert [url.split("/")[-1] for url in call("ListQueues")["QueueUrls"]] == ["p.fifo", queue]
        (again,) = call("ReceiveMessage", **whole, ReceiveRequestAttemptId="x")["Messages"]
        assert again == first
        (third,) = call("ReceiveMessage", **whole)["Messages"]
        assert third["Body"] == "b3" and third["MessageAttributes"] == given
        with pytest.raises(Exception, match="PurgeQueueInProgress"):
            call("PurgeQueue", QueueUrl="p.fifo")
        with pytest.raises(Exception, match="QueueDeletedRecently"):
            call("CreateQueue", QueueName=gone, Attributes=attributes)


def test_a_file_that_is_no_journal_is_left_alone(tmp_path):
    path = tmp_path / "letter"
    path.write_text("Dear Sir or Madam")
    ended = start(path)
    assert ended.returncode == 1 and len(ended.stderr.splitlines()) == 1 and "is no journal" in ended.stderr
    assert path.read_text() == "Dear Sir or Madam"
    path.rename(tmp_path / "letter.cq1")
    for said in refusals(path):
        assert said.startswith(f"hobbychair: {path}.cq1 is no journal of this build: it is of another one, cut off, or none"), said
    assert "letter.cq1 is no journal by itself" in start(tmp_path / "letter.cq1").stderr


def test_a_second_gateway_is_kept_out(journal):
    with Started("--journal", str(journal)) as gateway:
        ended = start(journal)
        assert ended.returncode == 1
        assert ended.stderr == f"hobbychair: {journal} is in use by another process\n"


@pytest.mark.parametrize("name", ["its own, without the lock file", "a hard link", "a symbolic link"])
def test_what_a_gateway_writes_is_locked_by_whichever_name(journal, tmp_path, name):
    with Started("--journal", str(journal)) as gateway:
        path, file = journal, journal.with_name("journal.cq1")
        if name.startswith("its own"):
            journal.with_name("journal.lock").unlink()
        else:
            path = tmp_path / "other" / "journal"
            path.parent.mkdir()
            (os.link if name == "a hard link" else os.symlink)(file, path.with_name("journal.cq1"))
        ended = start(path)
        assert ended.returncode == 1 and ended.stdout == ""
        assert "JournalBusy" in ended.stderr or "NotAJournal" in ended.stderr, ended.stderr
        call = ByBoto3(gateway.client())
        call("SendMessage", QueueUrl="q.fifo", MessageBody="b", MessageGroupId="h", MessageDeduplicationId="h")
        gateway.kill()
        path.with_name("journal.cq1").unlink() if path != journal else None
        gateway.start()
        messages = ByBoto3(gateway.client())("ReceiveMessage", QueueUrl="q.fifo", MaxNumberOfMessages=10)["Messages"]
        assert [message["Body"] for message in messages] == ["m0", "m1", "m2", "b"]


def test_a_file_that_is_missing_is_told(journal):
    kept = journal.with_name("kept")
    journal.with_name("journal.cq1").rename(kept)
    for said in refusals(journal):
        assert said.startswith(f"hobbychair: {journal}.cq1 is missing, and had requests, as {journal}.lock notes."), said
    kept.rename(journal.with_name("journal.cq1"))
    with Started("--journal", str(journal)) as gateway:
        assert ByBoto3(gateway.client())("ReceiveMessage", QueueUrl="q.fifo")["Messages"][0]["Body"] == "m0"


def test_a_file_that_is_removed_while_it_is_written_to_is_missing_at_the_next_start(journal):
    gateway = Started("--journal", str(journal))
    journal.with_name("journal.cq1").unlink()
    ByBoto3(gateway.client())("SendMessage", QueueUrl="q.fifo", MessageBody="b", MessageGroupId="h", MessageDeduplicationId="h")
    gateway.kill()
    ended = start(journal)
    assert ended.returncode == 1 and f"{journal}.cq1 is missing" in ended.stderr


EARLIER = ["", ".1", ".2", ".cq1.lines", ".cq2.entries", ".old.1", ".old.cq1", ".version1"]


@pytest.mark.parametrize("suffix", EARLIER)
def test_what_an_earlier_build_kept_is_refused_by_its_name(tmp_path, suffix):
    file = tmp_path / f"journal{suffix}"
    file.write_text("hobbychair journal 8\n")
    for said in refusals(tmp_path / "journal"):
        assert said.startswith(f"hobbychair: {file} is of the journal of an earlier build.") and UPGRADE in said, said


def test_a_journal_beside_which_an_earlier_build_left_something_stays_as_it_is(journal):
    marker = journal.with_name("journal.1")
    marker.write_text("hobbychair journal 9\n")
    for said in refusals(journal):
        assert said.startswith(f"hobbychair: {marker} is of the journal of an earlier build."), said
    marker.unlink()
    # What an upgrade put away is nobody's any more.
    journal.with_name("journal.old.cq1").write_text("kept")
    with Started("--journal", str(journal)) as gateway:
        assert ByBoto3(gateway.client())("ReceiveMessage", QueueUrl="q.fifo")["Messages"][0]["Body"] == "m0"


@pytest.mark.parametrize("length", [None, 1 << 20, 24 << 20], ids=["whole", "a root", "a part"])
def test_a_file_of_a_session_is_refused_by_its_name(tmp_path, length):
    """As the builds had it that spoke lines with `cq`."""
    file = tmp_path / "journal.cq1"
    words = [program(), "session", "--journal", str(file), "--journal-size", "96"]
    ask = {"kind": "create", "queue": "1.fifo", "visibility": 30}
    line = json.dumps({"op": "arrive", "at": 1, "clock": 5, "client": 1, "number": 1, "ask": ask})
    subprocess.run(words, input=line.encode() + b"\n", stdout=subprocess.DEVNULL, check=True)
    if length:
        os.truncate(file, length)
    for said in refusals(tmp_path / "journal"):
        assert said.startswith(f"hobbychair: {file} is no journal of this build") and UPGRADE in said, said


def with_book(file: Path, form: int) -> None:
    """Makes a journal whose book says that it has this form. Earlier builds said none."""
    said = {"place": 0, "count": 1, "secret": "00000000-0000-0000-0000-000000000000", **({"form": form} if form else {})}
    texts = {"1.fifo": "no envelope", "book1.fifo": json.dumps({"program": said}, separators=(",", ":"))}
    asks = [{"queue": queue, **more} for queue, body in texts.items()
            for more in ({"kind": "create"}, {"kind": "send", "group": "g", "dedup": "1", "body": body})]
    lines = (json.dumps({"op": "arrive", "clock": 5, "client": 1, "number": number, "ask": ask}) for number, ask in enumerate(asks, 1))
    frames = subprocess.run([TOP / "check" / "frames"], input="\n".join(lines).encode(), capture_output=True, check=True).stdout
    server = [program(), "server", "--id", "1", "--first", "1", "--journal", str(file), "--journal-size", "96"]
    subprocess.run(server, input=frames, stdout=subprocess.DEVNULL, check=True)


@pytest.mark.parametrize("form", [0, 2])
def test_a_book_of_another_form_is_refused_by_its_files_name(journal, form):
    file, lock = journal.with_name("journal.cq1"), journal.with_name("journal.lock")
    noted = lock.read_text()
    file.unlink()
    with_book(file, form)
    for note in ("", "hobbychair: each file of this journal has requests\n", None):
        lock.unlink() if note is None else lock.write_text(note)
        for said in refusals(journal, "verify", "backup"):
            assert said.startswith(f"hobbychair: {file} is no journal of this build") and UPGRADE in said, said
            assert f"its book has the form {form}, and those of this build have 1" in said
    # Where another file has taken the place of one of this build, `cq` has opened it by then.
    lock.write_text(noted)
    assert f"its book has the form {form}" in start(journal).stderr
    assert json.loads(run("dump", str(journal)).stdout.splitlines()[-1]) == {"entries": 4, "kind": "entries"}


def test_a_gateway_refuses_a_store_of_another_form_that_a_node_tells(tmp_path):
    with_book(tmp_path / "journal.cq1", 0)
    lines = map(json.loads, run("dump", str(tmp_path / "journal")).stdout.splitlines())
    chunks = [bytes.fromhex(line["chunk"]) for line in lines if line["kind"] == "store"]

    def told(kind: int, parts: bytes) -> bytes:
        return struct.pack("<I", 2 + len(parts)) + bytes([1, kind]) + parts

    node, own = socket.socketpair()
    with node, own:
        gateway = subprocess.Popen(command("--beside-node", "--port", "0"), stdin=own, stderr=subprocess.PIPE, text=True)
        store = b"".join(told(1, struct.pack("<I", len(chunk)) + chunk) for chunk in [*chunks, b""])
        node.sendall(told(0, bytes(16)) + store + told(2, struct.pack("<I", 1)))
        said = gateway.communicate(timeout=20)[1].splitlines()[-1]
    assert gateway.returncode == 1 and 'docs/CLUSTER.md, "To upgrade"' in said, said
    assert said.startswith("hobbychair: the store of the head is of another build: its book has the form 0,"), said


@pytest.mark.parametrize("name", ["orders.fifo", "orders"])
def test_a_queue_is_moved_as_the_page_says(name):
    """By the script of docs/GATEWAY.md, "Upgrade", between two gateways."""
    page = (TOP / "docs" / "GATEWAY.md").read_text()
    (script,) = (part for part in re.findall("```python\n(.*?)```", page, re.DOTALL) if "old, new" in part)
    old, new = Started(), Started()
    calls, is_fifo = [ByBoto3(gateway.client()) for gateway in (old, new)], name.endswith(".fifo")
    for call in calls:
        call("CreateQueue", QueueName=name, Attributes={"FifoQueue": "true"} if is_fifo else {})
    given = {"x": {"DataType": "Binary", "BinaryValue": b"\0\xff"}, "y": {"DataType": "Number", "StringValue": "7"}}
    for number in range(23):
        more = {"MessageDeduplicationId": f"id-{number}"} if is_fifo else {}
        calls[0]("SendMessage", QueueUrl=name, MessageBody=f"m{number:02}", MessageGroupId=f"group-{number % 3}",
                 MessageAttributes=given if number % 2 else {}, **more)
    ports = {"9324": old.url.rsplit(":", 1)[1], "9325": new.url.rsplit(":", 1)[1]}
    exec(re.sub("932[45]", lambda found: ports[found[0]], script.replace("orders.fifo", name)), {})
    whole = {"QueueUrl": name, "MaxNumberOfMessages": 10, "AttributeNames": ["All"], "MessageAttributeNames": ["All"]}
    assert calls[0]("ReceiveMessage", **whole).get("Messages", []) == []
    found = []
    while messages := calls[1]("ReceiveMessage", **whole).get("Messages"):
        found += messages
        for one in messages:
            calls[1]("DeleteMessage", QueueUrl=name, ReceiptHandle=one["ReceiptHandle"])
    told = [(one["Body"], one["Attributes"]["MessageGroupId"], one.get("MessageAttributes", {})) for one in found]
    sent = [(f"m{number:02}", f"group-{number % 3}", given if number % 2 else {}) for number in range(23)]
    assert sorted(told, key=lambda one: one[0]) == sent
    for group in range(3):
        bodies = [body for body, own, _ in told if own == f"group-{group}"]
        assert bodies == sorted(bodies) or not is_fifo
    ids = {one["Attributes"].get("MessageDeduplicationId") for one in found}
    assert ids == ({f"id-{number}" for number in range(23)} if is_fifo else {None})
    assert (old.stop(), new.stop()) == (0, 0)


def test_a_journal_whose_making_is_cut_off_is_made_again(tmp_path):
    """The gateway is killed at any moment of its first start."""
    for turn in range(20):
        room = tmp_path / str(turn)
        room.mkdir()
        for delay in (0.004 * turn, 0.01 * turn):
            words = ["--port", "0", "--journal", str(room / "journal"), "--shards", "2", "--journal-size", "192MiB"]
            starting = subprocess.Popen(command(*words), env=environment(), stdout=subprocess.PIPE)
            pace(delay)
            starting.kill()
            starting.wait()
        gateway = Started("--journal", str(room / "journal"), "--shards", "2")
        ByBoto3(gateway.client())("CreateQueue", QueueName="q", Attributes={})
        gateway.kill()
        gateway.start()
        assert len(ByBoto3(gateway.client())("ListQueues")["QueueUrls"]) == 1
        assert gateway.stop() == 0
        assert sorted(file.name for file in room.iterdir()) == ["journal.cq1", "journal.cq2", "journal.lock"]
        shutil.rmtree(room)


def test_a_message_whose_form_is_too_long_for_the_store_outlives_a_kill(tmp_path):
    path = tmp_path / "journal"
    with Started("--journal", str(path), room=tmp_path) as gateway:
        call = ByBoto3(gateway.client())
        call("CreateQueue", QueueName="q.fifo", Attributes={"FifoQueue": "true", "VisibilityTimeout": "0"})
        attributes = {"a": {"DataType": "Binary", "BinaryValue": b"\xff" * 100_000}}
        body = "ü" * 81_000
        sent = call("SendMessage", QueueUrl="q.fifo", MessageBody=body, MessageGroupId="g", MessageDeduplicationId="d",
                    MessageAttributes=attributes)
        for _ in range(2):
            (message,) = call("ReceiveMessage", QueueUrl="q.fifo", MessageAttributeNames=["All"])["Messages"]
            assert message["Body"] == body and message["MessageAttributes"] == attributes
            assert message["MessageId"] == sent["MessageId"]
            gateway.kill()
            gateway.start()
            call = ByBoto3(gateway.client())
        again = call("SendMessage", QueueUrl="q.fifo", MessageBody="b", MessageGroupId="g", MessageDeduplicationId="d")
        assert again["MessageId"] == sent["MessageId"]


def test_handles_of_a_lost_future_fit_nothing(tmp_path):
    """A journal is put back from a copy, and other messages get the numbers of those that were lost."""
    path, file = tmp_path / "journal", tmp_path / "journal.cq1"
    gateway = Started("--journal", str(path), room=tmp_path)
    ByJson(gateway.url)("CreateQueue", QueueName="q.fifo", Attributes={"FifoQueue": "true", "VisibilityTimeout": "0"})
    assert gateway.stop() == 0
    kept = file.read_bytes()
    handles = []
    for body in ("first", "second"):
        gateway = Started("--journal", str(path), room=tmp_path)
        gateway.set_clock(START + (1000 if body == "first" else 2000))
        call = ByJson(gateway.url)
        call("SendMessage", QueueUrl="q.fifo", MessageBody=body, MessageGroupId="g", MessageDeduplicationId=body)
        (message,) = call("ReceiveMessage", QueueUrl="q.fifo", VisibilityTimeout=60)["Messages"]
        handles.append(message["ReceiptHandle"])
        if body == "second":
            with pytest.raises(Refused, match="ReceiptHandleIsInvalid"):
                call("DeleteMessage", QueueUrl="q.fifo", ReceiptHandle=handles[0])
            call("DeleteMessage", QueueUrl="q.fifo", ReceiptHandle=handles[1])
        gateway.kill()
        file.write_bytes(kept)


def test_a_journal_that_cannot_be_written_ends_the_gateway(tmp_path):
    none = tmp_path / "none"
    ended = start(none / "journal")
    assert ended.returncode == 1
    assert ended.stderr == f"hobbychair: there is no folder {none} for the journal {none / 'journal'}\n"


def mode(path) -> int:
    return stat.S_IMODE(os.lstat(path).st_mode)


def test_files_are_their_owners_alone_and_no_link_is_followed(tmp_path):
    victim = tmp_path / "victim"
    victim.write_text("kept")
    victim.chmod(0o644)
    (tmp_path / "journal.cq1.new").symlink_to(victim)
    (tmp_path / "journal.lock").touch(0o644)
    with Started("--journal", str(tmp_path / "journal")) as gateway:
        ByBoto3(gateway.client())("CreateQueue", QueueName="q", Attributes={})
        assert victim.read_text() == "kept" and mode(victim) == 0o644
        assert not (tmp_path / "journal.cq1").is_symlink()
        assert {mode(tmp_path / f"journal.{name}") for name in ("cq1", "lock")} == {0o600}


@pytest.mark.parametrize("link", ["symbolic link", "symbolic link to nothing", "hard link"])
def test_a_lock_that_is_a_link_is_refused_and_what_is_behind_it_stays(tmp_path, link):
    victim, lock = tmp_path / "victim", tmp_path / "journal.lock"
    victim.write_text("kept")
    victim.chmod(0o644)
    if link == "hard link":
        os.link(victim, lock)
    else:
        lock.symlink_to(victim if link == "symbolic link" else tmp_path / "nothing")
    ended = start(tmp_path / "journal")
    why = "it has a hard link" if link == "hard link" else "it is a symbolic link"
    assert ended.returncode == 1 and ended.stderr == f"hobbychair: {lock}: {why}\n"
    assert victim.read_text() == "kept" and mode(victim) == 0o644 and not (tmp_path / "nothing").exists()
    assert sorted(file.name for file in tmp_path.glob("journal*")) == ["journal.lock"]


def test_a_clock_that_is_far_ahead_of_the_machines_is_told(tmp_path):
    """One start whose clock was wrong leaves its times to all later ones."""
    year = 366 * 86_400_000
    gateway = Started("--journal", str(tmp_path / "journal"), "--admin", "0", room=tmp_path, errors=tmp_path / "errors")
    admin = gateway.said[0].split()[-1]
    assert "ahead" not in (tmp_path / "errors").read_text() and metric(get(admin + "/metrics")[1], LEAD) == 0
    gateway.set_clock(START + year)
    call = ByBoto3(gateway.client())
    call("CreateQueue", QueueName="q", Attributes={})
    assert gateway.stop() == 0
    gateway.set_clock(START + 60_000)
    gateway.start()
    told = f"the clock is {(year - 60_000) // 1000} s ahead of this machine's"
    until(lambda: told in (tmp_path / "errors").read_text(), 20, "nobody says how far ahead the clock is")
    assert metric(get(gateway.said[0].split()[-1] + "/metrics")[1], LEAD) == (year - 60_000) // 1000
    assert gateway.stop() == 0
    gateway.set_clock(START + year - 59_000)
    gateway.start()
    assert "ahead" not in (tmp_path / "errors").read_text()
    assert gateway.stop() == 0


def test_no_line_of_the_log_has_a_body(tmp_path):
    """Not even where cq refuses a request, which a clock beyond its bound has it do."""
    gateway = Started("--log-level", "debug", room=tmp_path, errors=tmp_path / "errors")
    call = ByBoto3(gateway.client())
    queue = call("CreateQueue", QueueName="q", Attributes={})["QueueUrl"]
    gateway.set_clock(1 << 62)
    with pytest.raises(Refused):
        call("SendMessage", QueueUrl=queue, MessageBody="nobody's business", MessageAttributes={
            "a": {"DataType": "String", "StringValue": "nor this"}})
    until(lambda: "cq refused a send" in (tmp_path / "errors").read_text(), 20, "the log has no line of the refusal")
    gateway.kill()
    told = (tmp_path / "errors").read_text()
    assert "business" not in told and "nor this" not in told


@pytest.mark.parametrize("name", ["journal", "journal.lock"])
def test_a_pipe_in_a_files_place_is_told(tmp_path, name):
    os.mkfifo(tmp_path / name)
    ended = start(tmp_path / "journal")
    assert ended.returncode == 1 and f"{tmp_path / name}: it is no file" in ended.stderr


def test_errors_name_their_file(tmp_path, journal):
    os.rename(f"{journal}.cq1", f"{journal}.kept")
    os.mkdir(f"{journal}.cq1")
    ended = start(journal)
    assert ended.returncode == 1 and "NotAJournal" in ended.stderr or f"{journal}.cq1" in ended.stderr
    none = tmp_path / "none"
    none.mkdir()
    for path in (str(none), f"{none}/"):
        ended = subprocess.run(command("--port", "0", "--journal", path), env=environment(), capture_output=True, text=True,
                               timeout=60)
        assert ended.returncode == 1
        assert ended.stderr == f"hobbychair: {none} is a folder: a journal is named by a file in one, as {none}/journal\n"
    assert sorted(tmp_path.glob("none*")) == [none] and not list(none.iterdir())
