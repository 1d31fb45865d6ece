"""Files of a journal that were removed, replaced or emptied, while a gateway runs or before its start: what was acknowledged and
isn't there any more is told, and nothing is served in its place."""

import os
import shutil
import signal
import subprocess
from pathlib import Path

import pytest

from started import ByJson, Started, files_of, program, programs_of, run

FIFO = {"FifoQueue": "true", "VisibilityTimeout": "0"}


def send(call, *texts: str) -> None:
    for text in texts:
        call("SendMessage", QueueUrl="q.fifo", MessageBody=text, MessageGroupId=text, MessageDeduplicationId=text)


def bodies(gateway: Started) -> list[str]:
    messages = ByJson(gateway.url)("ReceiveMessage", QueueUrl="q.fifo", MaxNumberOfMessages=10).get("Messages", [])
    return [message["Body"] for message in messages]


def filled(journal: Path, *words: str) -> Started:
    gateway = Started("--journal", str(journal), *words, errors=journal.with_name("errors"))
    call = ByJson(gateway.url)
    call("CreateQueue", QueueName="q.fifo", Attributes=FIFO)
    send(call, "a", "b")
    return gateway


def end_program(gateway: Started, place: int = 0) -> None:
    os.kill(programs_of(gateway)[place], signal.SIGKILL)


def last_words(gateway: Started) -> str:
    assert gateway.process.wait(20) == 1
    return gateway.errors.read_text().splitlines()[-1]


def make_empty(file: Path) -> None:
    """A journal that is whole and has no request."""
    file.unlink(missing_ok=True)
    words = ["server", "--id", "1", "--first", "1", "--journal", str(file), "--journal-size", "64"]
    subprocess.run([program(), *words], stdin=subprocess.DEVNULL, stdout=subprocess.DEVNULL, check=True)


@pytest.mark.parametrize("is_kept", [True, False], ids=["renamed", "removed"])
def test_a_file_that_goes_while_the_gateway_runs_ends_it(tmp_path, is_kept):
    """Once `cq` ends, no file is made in its place, and a start is refused until it is there again."""
    gateway, kept = filled(tmp_path / "journal"), tmp_path / "kept"
    (file,) = files_of(tmp_path / "journal")
    file.rename(kept)
    send(ByJson(gateway.url), "c")
    end_program(gateway)
    assert last_words(gateway) == f"hobbychair: {file} is gone: it was removed or renamed while the gateway ran"
    assert not file.exists()
    ended = run("--port", "0", "--journal", str(tmp_path / "journal"))
    assert ended.returncode == 1 and f"{file} is missing" in ended.stderr and not file.exists()
    if is_kept:
        kept.rename(file)
        gateway.start()
        assert bodies(gateway) == ["a", "b", "c"]
        assert gateway.stop() == 0


def test_an_older_copy_in_its_place_ends_the_gateway_and_is_taken_at_a_start(tmp_path):
    gateway, copy = filled(tmp_path / "journal"), tmp_path / "copy"
    (file,) = files_of(tmp_path / "journal")
    shutil.copy(file, copy)
    send(ByJson(gateway.url), "c", "d")
    copy.rename(file)
    end_program(gateway)
    words = last_words(gateway)
    assert words.startswith(f"hobbychair: {file} has ") and "were kept there: while the gateway ran, another file took its place" in words
    # As a restore wants it.
    gateway.start()
    assert bodies(gateway) == ["a", "b"]
    assert gateway.stop() == 0


@pytest.mark.parametrize("what", ["a journal without requests", "zeros", "nothing"])
def test_an_emptied_file_is_refused_by_its_name(tmp_path, what):
    journal = tmp_path / "journal"
    gateway = filled(journal)
    (file,) = files_of(journal)
    whole = tmp_path / "whole"
    shutil.copy(file, whole)
    empty = tmp_path / "empty"
    make_empty(empty)
    if what != "a journal without requests":
        os.truncate(empty, 0)
    if what == "zeros":
        os.truncate(empty, file.stat().st_size)
    empty.replace(file)
    end_program(gateway)
    assert str(file) in last_words(gateway)
    before = file.read_bytes() if what != "a journal without requests" else None
    refused = run("--port", "0", "--journal", str(journal))
    assert refused.returncode == 1 and str(file) in refused.stderr and len(refused.stderr.splitlines()) == 1, refused.stderr
    for words in (["verify", str(journal)], ["backup", str(journal), str(tmp_path / "copy")]):
        ended = run(*words)
        assert ended.returncode == 1 and "undamaged" not in ended.stdout, ended
        assert str(file) in ended.stderr or str(tmp_path / "copy.cq1") in ended.stderr, ended.stderr
    # (a journal that is one notes how often it was opened)
    assert before in (None, file.read_bytes()) and not list(tmp_path.glob("copy*"))
    if what == "a journal without requests":
        assert "has no requests, and had some" in refused.stderr and f"remove {journal}.lock" in refused.stderr
        # Who says so begins with nothing.
        journal.with_name("journal.lock").unlink()
        gateway = Started("--journal", str(journal))
        assert gateway.stop() == 0
        assert run("verify", str(journal)).returncode == 0
    whole.replace(file)
    with Started("--journal", str(journal)) as gateway:
        assert bodies(gateway) == ["a", "b"]


def test_of_several_programs_the_one_whose_file_is_another_ends_the_gateway(tmp_path):
    journal = tmp_path / "journal"
    gateway = filled(journal, "--shards", "3")
    copies = [shutil.copy(file, tmp_path / f"copy{place}") for place, file in enumerate(files_of(journal))]
    call = ByJson(gateway.url)
    for number in range(12):
        call("CreateQueue", QueueName=f"more{number}.fifo", Attributes=FIFO)
    os.replace(copies[1], files_of(journal)[1])
    end_program(gateway, 1)
    assert f"{journal}.cq2 has " in last_words(gateway)


def test_a_copy_that_lacks_its_last_file_is_no_good_copy(tmp_path):
    journal, copy = tmp_path / "journal", tmp_path / "copy"
    gateway = filled(journal, "--shards", "3")
    for _ in range(2):
        assert run("backup", str(journal), str(copy)).returncode == 0
        assert run("verify", str(copy)).stdout.endswith("undamaged\n")
        (tmp_path / "copy.cq3").unlink()
        for words in (["verify", str(copy)], ["backup", str(copy), str(tmp_path / "second")]):
            ended = run(*words)
            assert ended.returncode == 1 and "undamaged" not in ended.stdout
            assert f"{copy}.cq3 is missing: the journal has a file for each program, and its book says that there are 3" in ended.stderr
        assert not list(tmp_path.glob("second*"))
        for count in ("2", "3"):
            ended = run("--port", "0", "--journal", str(copy), "--shards", count)
            assert ended.returncode == 1 and str(copy) in ended.stderr
        for file in tmp_path.glob("copy*"):
            file.unlink()
        if gateway.process.poll() is None:
            assert gateway.stop() == 0


def test_a_start_that_is_cut_off_before_the_first_request_is_no_loss(tmp_path):
    """The journal is there and has nothing, and nothing was noted."""
    journal = tmp_path / "journal"
    make_empty(tmp_path / "journal.cq1")
    gateway = Started("--journal", str(journal))
    ByJson(gateway.url)("CreateQueue", QueueName="q.fifo", Attributes=FIFO)
    assert gateway.stop() == 0
    assert run("verify", str(journal)).returncode == 0
