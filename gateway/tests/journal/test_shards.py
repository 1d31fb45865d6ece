"""Several programs cq that share the queues and one journal."""

import os
import signal
import subprocess
import time
import zlib
from functools import partial
from pathlib import Path

from meanwhile import meanwhile
from started import ByJson, Started, command, environment, files_of, programs_of
from waiting import pace

COUNT = 3
NAMES = [f"queue{number}.fifo" for number in range(12)]


def shard_of(name: str) -> int:
    return zlib.crc32(name.encode()) % COUNT


def started(path: Path, room: Path | None = None) -> Started:
    return Started("--shards", str(COUNT), "--journal", str(path), room=room)


def send(call, name: str, text: str) -> None:
    call("SendMessage", QueueUrl=name, MessageBody=text, MessageGroupId="g", MessageDeduplicationId=text)


def bodies(call, name: str) -> list[str]:
    messages = call("ReceiveMessage", QueueUrl=name, MaxNumberOfMessages=10).get("Messages", [])
    return [message["Body"] for message in messages]


def fill(call) -> None:
    for name in NAMES:
        call("CreateQueue", QueueName=name, Attributes={"FifoQueue": "true", "VisibilityTimeout": "0"})
    for turn in range(3):
        for name in NAMES:
            send(call, name, f"{name}-{turn}")


def expected(name: str) -> list[str]:
    return [f"{name}-{turn}" for turn in range(3)]


def test_the_names_are_of_all_shards():
    assert {shard_of(name) for name in NAMES} == set(range(COUNT))


def test_all_is_there_after_a_kill(tmp_path):
    gateway = started(tmp_path / "journal", tmp_path)
    assert len(programs_of(gateway)) == COUNT
    fill(ByJson(gateway.url))
    gateway.kill()
    gateway.start()
    call = ByJson(gateway.url)
    urls = call("ListQueues")["QueueUrls"]
    assert [url.rsplit("/", 1)[1] for url in urls] == sorted(NAMES)
    for name in NAMES:
        assert bodies(call, name) == expected(name)
    assert gateway.stop() == 0


def test_another_number_is_refused_and_says_what_to_do(tmp_path):
    journal = tmp_path / "journal"
    gateway = started(journal)
    fill(ByJson(gateway.url))
    assert gateway.stop() == 0
    before = {file.name: file.read_bytes() for file in files_of(journal)}
    for number in (1, COUNT + 1):
        refused = subprocess.run(command("--port", "0", "--journal", str(journal), "--shards", str(number)),
                                 env=environment(), timeout=60, capture_output=True, text=True)
        assert refused.returncode == 1 and "the journal has a file for each program" in refused.stderr and "--shards" in refused.stderr
    assert before == {file.name: file.read_bytes() for file in files_of(journal)}
    for wrong in ("0", "17", "two"):
        refused = subprocess.run(command("--port", "0", "--shards", wrong), env=environment(), timeout=60,
                                 capture_output=True, text=True)
        assert refused.returncode == 2


def test_the_others_go_on_while_a_program_is_started_again(tmp_path):
    """One program stands still; its queue waits, and the other shards' queues are served. Then it is killed."""
    gateway = started(tmp_path / "journal")
    call = ByJson(gateway.url)
    fill(call)
    stopped = programs_of(gateway)[0]
    os.kill(stopped, signal.SIGSTOP)
    waiting = next(name for name in NAMES if shard_of(name) == 0)
    with meanwhile(partial(send, call, waiting, f"{waiting}-3"), patience=30) as [sent]:
        since = time.monotonic()
        for name in NAMES:
            if shard_of(name) != 0:
                send(call, name, f"{name}-3")
                assert bodies(call, name) == [*expected(name), f"{name}-3"]
                # Answers of what is read from the tables wait for their own shard alone.
                assert call("GetQueueUrl", QueueName=name)["QueueUrl"].endswith(name)
        assert time.monotonic() - since < 20
        assert not sent.done()
        os.kill(stopped, signal.SIGKILL)
    assert stopped not in programs_of(gateway) and len(programs_of(gateway)) == COUNT
    for name in NAMES:
        if shard_of(name) != 0 or name == waiting:
            assert bodies(call, name) == [*expected(name), f"{name}-3"]
        else:
            assert bodies(call, name) == expected(name)
    assert gateway.stop() == 0


def test_programs_that_are_killed_under_load_lose_nothing(tmp_path):
    gateway = started(tmp_path / "journal")
    call = ByJson(gateway.url)
    fill(call)
    sent = {name: expected(name) for name in NAMES}

    def keep_sending(name: str) -> None:
        for turn in range(3, 10):
            send(call, name, f"{name}-{turn}")
            sent[name].append(f"{name}-{turn}")

    with meanwhile(*[partial(keep_sending, name) for name in NAMES]):
        for running in programs_of(gateway):
            os.kill(running, signal.SIGKILL)
            pace(0.2)
    for name in NAMES:
        assert len(sent[name]) == 10 and bodies(call, name) == sent[name]
    gateway.kill()
    gateway.start()
    call = ByJson(gateway.url)
    for name in NAMES:
        assert bodies(call, name) == sent[name]
    assert gateway.stop() == 0
