"""Commands that look at a journal: copies of one, also of a gateway that runs, and what it says where something is wrong."""

import itertools
import threading
from functools import partial
from pathlib import Path

import pytest

from meanwhile import meanwhile
from rules import FIFO
from started import ByJson, Refused, Started, dumped, files_of, run
from waiting import pace



def kept_of(copy: Path) -> list[str]:
    gateway = Started("--journal", str(copy))
    messages = ByJson(gateway.url)("ReceiveMessage", QueueUrl="kept.fifo", MaxNumberOfMessages=10)["Messages"]
    assert gateway.stop() == 0
    return [message["Body"] for message in messages]


def test_a_copy_of_a_gateway_that_writes_is_good(tmp_path):
    """It has all that was acknowledged when it was begun, and the gateway goes on."""
    journal = tmp_path / "journal"
    gateway = Started("--journal", str(journal), "--no-pauses")
    call = ByJson(gateway.url)
    call("CreateQueue", QueueName="kept.fifo", Attributes={**FIFO, "VisibilityTimeout": "0"})
    is_over = threading.Event()

    def work(client: int) -> None:
        own = ByJson(gateway.url)
        try:
            for turn in itertools.count():
                name = f"passing-{client}.fifo"
                own("CreateQueue", QueueName=name, Attributes=FIFO, tags={"kind": "remove"})
                for place in range(20):
                    own("SendMessage", QueueUrl=name, MessageBody="x" * 30_000, MessageGroupId="g",
                        MessageDeduplicationId=f"{turn}-{place}")
                own("DeleteQueue", QueueUrl=name)
                if is_over.is_set():
                    return
        except Refused as refused:
            assert refused.code == "OverLimit"

    copies = []
    with meanwhile(*[partial(work, client) for client in range(3)]):
        try:
            for number in range(6):
                pace(0.3)
                call("SendMessage", QueueUrl="kept.fifo", MessageBody=str(number), MessageGroupId="g", MessageDeduplicationId=str(number))
                copies.append(tmp_path / f"copy{number}")
                made = run("backup", str(journal), str(copies[-1]))
                assert made.returncode == 0 and made.stdout.endswith("undamaged\n"), made.stderr
        finally:
            is_over.set()
    assert gateway.stop() == 0
    for number, copy in enumerate(copies):
        assert kept_of(copy) == [str(place) for place in range(number + 1)]
        for file in files_of(copy):
            file.unlink()


def test_a_copy_needs_a_free_name_and_a_journal(tmp_path):
    journal = tmp_path / "journal"
    gateway = Started("--journal", str(journal), "--shards", "2")
    ByJson(gateway.url)("CreateQueue", QueueName="kept.fifo", Attributes=FIFO)
    ByJson(gateway.url)("SendMessage", QueueUrl="kept.fifo", MessageBody="0", MessageGroupId="g", MessageDeduplicationId="0")
    assert run("backup", str(journal), str(tmp_path / "copy")).returncode == 0
    assert sorted(file.name for file in tmp_path.glob("copy*")) == ["copy.cq1", "copy.cq2"]
    before = [file.read_bytes() for file in files_of(tmp_path / "copy")]
    again = run("backup", str(journal), str(tmp_path / "copy"))
    assert again.returncode == 1 and f"{tmp_path}/copy.cq1 is there: a copy needs a name that nothing has" in again.stderr
    assert [file.read_bytes() for file in files_of(tmp_path / "copy")] == before
    assert gateway.stop() == 0
    gateway = Started("--journal", str(tmp_path / "copy"), "--shards", "2")
    assert ByJson(gateway.url)("ReceiveMessage", QueueUrl="kept.fifo")["Messages"][0]["Body"] == "0"
    assert gateway.stop() == 0
    for words in (["verify", "none"], ["dump", "none"], ["backup", "none", "copy2"]):
        ended = run(words[0], *(str(tmp_path / word) for word in words[1:]))
        assert ended.returncode == 1 and len(ended.stderr.splitlines()) == 1 and "there is no journal" in ended.stderr


def test_what_a_journal_holds_is_told_and_what_is_wrong_with_it(tmp_path):
    journal = tmp_path / "journal"
    gateway = Started("--journal", str(journal))
    call = ByJson(gateway.url)
    call("CreateQueue", QueueName="q.fifo", Attributes=FIFO)
    call("SendMessage", QueueUrl="q.fifo", MessageBody="a body", MessageGroupId="g", MessageDeduplicationId="0")
    for _ in range(2):
        told = run("verify", str(journal))
        assert told.returncode == 0 and told.stdout.startswith(f"{journal}.cq1: ") and told.stdout.endswith("undamaged\n")
        assert b"a body" in dumped(journal)
        gateway.stop()
    (file,) = files_of(journal)
    file.rename(tmp_path / "journal.cq2")
    for word in ("verify", "dump"):
        ended = run(word, str(journal))
        assert ended.returncode == 1 and f"{journal}.cq1 is missing" in ended.stderr
    (tmp_path / "journal.cq1").write_text("Dear Sir or Madam")
    for word in ("verify", "dump"):
        ended = run(word, str(journal))
        assert ended.returncode == 1 and f"{journal}.cq1 is no journal of this build" in ended.stderr


def blocks(file: Path) -> int:
    return 512 * file.stat().st_blocks


@pytest.mark.parametrize("shards", [1, 2])
def test_a_restored_journal_has_all_of_its_space_from_its_first_start_on(tmp_path, shards):
    """A disk that gets full later takes nothing from it."""
    journal, copy, words = tmp_path / "journal", tmp_path / "copy", ["--shards", str(shards)]
    gateway = Started("--journal", str(journal), *words)
    ByJson(gateway.url)("CreateQueue", QueueName="kept.fifo", Attributes=FIFO)
    ByJson(gateway.url)("SendMessage", QueueUrl="kept.fifo", MessageBody="0", MessageGroupId="g", MessageDeduplicationId="0")
    assert run("backup", str(journal), str(copy)).returncode == 0
    assert gateway.stop() == 0
    assert len(files_of(copy)) == shards and all(blocks(file) < file.stat().st_size / 2 for file in files_of(copy))
    before = [file.read_bytes() for file in files_of(copy)]
    with Started("--journal", str(copy), *words) as gateway:
        assert all(blocks(file) >= file.stat().st_size for file in files_of(copy))
        assert [len(data) for data in before] == [file.stat().st_size for file in files_of(copy)]
        assert ByJson(gateway.url)("ReceiveMessage", QueueUrl="kept.fifo")["Messages"][0]["Body"] == "0"
