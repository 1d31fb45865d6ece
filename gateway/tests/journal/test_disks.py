"""Disks that are full: a first start needs the space of its files, and a later one needs none."""

import os
from pathlib import Path

import pytest

from started import ByJson, Refused, Started, run


def fill(disk: Path) -> Path:
    """Takes all that is free of the disk."""
    filler = disk / "filler"
    with filler.open("wb", buffering=0) as file:
        for size in (1 << 16, 1 << 12):
            try:
                while True:
                    file.write(b"\0" * size)
            except OSError:
                pass
    assert os.statvfs(disk).f_bavail == 0
    return filler


@pytest.mark.parametrize("free", [0, 1 << 20, 40 << 20])
def test_a_first_start_on_a_full_disk_ends_and_leaves_nothing(tmp_path, small_disk, free):
    disk = small_disk("140m")
    (disk / "spare").write_bytes(b"\0" * free)
    filler = fill(disk)
    (disk / "spare").unlink()
    words = ["--journal", str(disk / "journal"), "--journal-size", "96MiB"]
    for _ in range(3):
        ended = run("--port", "0", *words)
        assert ended.returncode == 1 and "JournalFailed, and its disk has " in ended.stderr, ended.stderr
        assert " MiB too little for all of it" in ended.stderr, ended.stderr
        assert set(os.listdir(disk)) <= {"filler", "journal.lock"}
    filler.unlink()
    with Started(*words) as gateway:
        ByJson(gateway.url)("CreateQueue", QueueName="q")


def test_a_disk_that_is_filled_later_takes_nothing_from_a_journal(tmp_path, small_disk):
    """It is filled and freed ten times, while messages come and go and the gateway is killed."""
    disk = small_disk("140m")
    gateway = Started("--journal", str(disk / "journal"), "--journal-size", "96MiB")
    call = lambda action, **members: ByJson(gateway.url)(action, **members)
    call("CreateQueue", QueueName="q.fifo", Attributes={"FifoQueue": "true", "VisibilityTimeout": "600"})
    there: list[str] = []
    for turn in range(10):
        filler = fill(disk)
        for number in range(100):
            body = f"{turn}-{number}-" + "x" * 20_000
            try:
                call("SendMessage", QueueUrl="q.fifo", MessageBody=body, MessageGroupId=str(number % 7), MessageDeduplicationId=body[:9])
                there.append(body)
            except Refused as refusal:
                assert refusal.code == "OverLimit"
        if turn % 3 == 0:
            gateway.kill()
            gateway.start()
        found = []
        while messages := call("ReceiveMessage", QueueUrl="q.fifo", MaxNumberOfMessages=10).get("Messages"):
            for message in messages:
                found.append(message["Body"])
                call("DeleteMessage", QueueUrl="q.fifo", ReceiptHandle=message["ReceiptHandle"])
        assert sorted(found) == sorted(there), turn
        there = []
        filler.unlink()
        gateway.kill()
        gateway.start()
    assert gateway.stop() == 0


@pytest.mark.parametrize("size, taken", [("96MiB", 24 << 20), ("144MiB", 36 << 20)])
def test_messages_take_a_quarter_of_a_journal(tmp_path, size, taken):
    with Started("--journal", str(tmp_path / "journal"), "--journal-size", size) as gateway:
        call, sent, body = ByJson(gateway.url), 0, "x" * 200_000
        call("CreateQueue", QueueName="q")
        with pytest.raises(Refused, match="OverLimit"):
            while sent < 2 * taken:
                call("SendMessage", QueueUrl="q", MessageBody=body)
                sent += len(body)
        # From 95 % on none is taken.
        assert 0.9 * taken < sent < taken


def test_a_backup_to_a_full_disk_says_what_it_lacks_and_leaves_nothing(tmp_path, small_disk):
    disk = small_disk("24m")
    with Started("--journal", str(tmp_path / "journal")) as gateway:
        ByJson(gateway.url)("CreateQueue", QueueName="q")
        ended = run("backup", str(tmp_path / "journal"), str(disk / "copy"))
        assert ended.returncode == 1 and "JournalFailed, and its disk has " in ended.stderr, ended.stderr
        assert os.listdir(disk) == []
