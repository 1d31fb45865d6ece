"""A program cq that hangs, closes its output, or answers garbage or out of turn. A stand-in passes on what the real one
says, until it is told otherwise."""

import os
import signal
import subprocess
import sys
from functools import partial
from pathlib import Path

import pytest

from meanwhile import meanwhile
from operated import admin_url, figure, get, is_well
from rules import FIFO
from stand_in import StandIn
from started import LIBRARY, ByJson, Refused, Started, command, environment, is_alive, program, programs_of, run
from steered import SteeredCq
from waiting import pass_time, until



@pytest.fixture
def stand_in(tmp_path) -> StandIn:
    return StandIn(tmp_path)


def send(call: ByJson, number: int) -> None:
    call("SendMessage", QueueUrl="q.fifo", MessageBody=str(number), MessageGroupId="g", MessageDeduplicationId=str(number))


@pytest.mark.parametrize("what", ["hang", "close", "garbage", "endless", "misnumbered"])
def test_a_program_that_answers_no_more_is_started_anew(tmp_path, stand_in, what):
    with Started("--cq", str(stand_in.path), "--cq-timeout", "4", "--journal", str(tmp_path / "journal"), "--admin", "0") as gateway:
        call = ByJson(gateway.url)
        call("CreateQueue", QueueName="q.fifo", Attributes=FIFO)
        send(call, 1)
        is_well(gateway)
        (first,) = programs_of(gateway)
        stand_in.tell(f"once-{what}")
        with meanwhile(partial(send, call, 2)):
            if what == "hang":
                until(lambda: get(admin_url(gateway) + "/health") == (503, "waiting: cq doesn't answer\n"), 3, "it is well")
                assert figure(gateway, "hobbychair_cq_answering") in (0, 1)
        until(lambda: not is_alive(first), 20, "the first program runs still")
        is_well(gateway)
        until(lambda: figure(gateway, "hobbychair_cq_answering") == 1, 20, "cq doesn't answer")
        assert figure(gateway, "hobbychair_cq_restarts_total") == 1
        messages = call("ReceiveMessage", QueueUrl="q.fifo", MaxNumberOfMessages=10)["Messages"]
        assert [message["Body"] for message in messages] == ["1", "2"]


def test_without_a_journal_a_program_that_hangs_ends_the_gateway(stand_in):
    gateway = Started("--cq", str(stand_in.path), "--cq-timeout", "3")
    stand_in.tell("hang")
    with pytest.raises((OSError, Refused)):
        ByJson(gateway.url)("CreateQueue", QueueName="q.fifo", Attributes=FIFO)
    assert gateway.process.wait(20) == 1


@pytest.mark.parametrize("what, said", [("garbage 2", "can't be read"), ("close 1", "went on")])
def test_a_start_with_such_a_program_ends_and_says_why(tmp_path, stand_in, what, said):
    """The first frames tell the store. However long that takes, it is waited for."""
    journal = ["--journal", str(tmp_path / "journal")]
    gateway = Started("--cq", str(stand_in.path), *journal)
    call = ByJson(gateway.url)
    call("CreateQueue", QueueName="q.fifo", Attributes=FIFO)
    send(call, 1)
    assert gateway.stop() == 0
    stand_in.tell(what)
    words = command("serve", "--port", "0", "--cq", str(stand_in.path), "--cq-timeout", "3", *journal)
    ended = subprocess.run(words, env=environment(), capture_output=True, text=True, timeout=60)
    assert ended.returncode == 1 and said in ended.stderr.splitlines()[-1]


def test_a_program_that_ends_at_whatever_it_is_asked_ends_the_gateway(tmp_path):
    """The first two commands have the store told, and those behind it are what it is asked again."""
    cq = SteeredCq(tmp_path)
    gateway = Started("--journal", str(tmp_path / "journal"), *cq.words())
    call = ByJson(gateway.url)
    call("CreateQueue", QueueName="q.fifo", Attributes=FIFO)
    cq.tell(end='"op":"a', behind=2)
    with pytest.raises((OSError, Refused)):
        for number in range(5):
            send(call, number)
    assert gateway.process.wait(60) == 1 and cq.ends() == 9


@pytest.mark.parametrize("number", [signal.SIGTERM, signal.SIGKILL])
@pytest.mark.parametrize("what", ["hang", "close"])
def test_no_program_outlives_the_gateway(tmp_path, stand_in, number, what):
    gateway = Started("--cq", str(stand_in.path), "--cq-timeout", "60", "--journal", str(tmp_path / "journal"))
    call = ByJson(gateway.url)
    (stood_in,) = programs_of(gateway)
    stand_in.tell(what)
    with meanwhile(lambda: pytest.raises((OSError, Refused), call, "CreateQueue", QueueName="q", Attributes={})):
        pass_time(0.5, "the stand-in has heard of it")
        gateway.process.send_signal(number)
        assert gateway.process.wait(20) == (0 if number == signal.SIGTERM else -number)
        until(lambda: not is_alive(stood_in), 20, "the program runs still")


def test_an_answer_out_of_turn_loses_no_message_of_a_batch(tmp_path, stand_in):
    """The first of three has an answer with another number. Each is told its own id all the same."""
    with Started("--cq", str(stand_in.path), "--journal", str(tmp_path / "journal")) as gateway:
        call = ByJson(gateway.url)
        call("CreateQueue", QueueName="q.fifo", Attributes=FIFO)
        stand_in.tell("once-misnumbered")
        entries = [{"Id": str(number), "MessageBody": str(number), "MessageGroupId": "g",
                    "MessageDeduplicationId": str(number)} for number in range(3)]
        sent = call("SendMessageBatch", QueueUrl="q.fifo", Entries=entries)
        assert not sent.get("Failed")
        messages = call("ReceiveMessage", QueueUrl="q.fifo", MaxNumberOfMessages=10)["Messages"]
        assert [message["Body"] for message in messages] == ["0", "1", "2"]
        told = {entry["Id"]: entry["MessageId"] for entry in sent["Successful"]}
        assert told == {message["Body"]: message["MessageId"] for message in messages}


def test_another_version_of_cq_is_refused(tmp_path):
    other = tmp_path / "cq"
    other.write_text("#!/bin/sh\necho cq 99.0.0\n")
    other.chmod(0o755)
    ended = run("--port", "0", "--cq", str(other))
    assert ended.returncode == 1 and ended.stderr.startswith(f"hobbychair: {other} is of version 99.0.0, and ")
    ended = run("--port", "0", "--cq", "/bin/true")
    assert ended.returncode == 1 and ended.stderr == "hobbychair: /bin/true doesn't say at --version that it is cq\n"


def test_a_cq_that_ends_at_once_is_told(tmp_path):
    other = tmp_path / "cq"
    other.write_text(f"#!/bin/sh\n[ $1 = --version ] && exec {program()} --version\nexit 1\n")
    other.chmod(0o755)
    for more in ([], ["--journal", str(tmp_path / "journal")]):
        ended = run("--port", "0", "--cq", str(other), *more)
        assert ended.returncode == 1 and ended.stderr.endswith("cq is gone: it ended with status 1\n")


def test_the_version_is_told():
    told = run("--version")
    assert told.returncode == 0 and told.stdout.startswith("hobbychair ")


def test_cq_that_ends_at_every_request_ends_no_gateway(tmp_path):
    """It is asked twice, and then the request is an InternalFailure, and others are served."""
    wrapped = tmp_path / "cq"
    wrapped.write_text(
        f"#!{sys.executable}\n"
        "import subprocess, sys\n"
        f"if sys.argv[1] != 'server': sys.exit(subprocess.run([{program()!r}, *sys.argv[1:]]).returncode)\n"
        f"sys.path.insert(0, {str(LIBRARY)!r})\n"
        "import spoken\n"
        f"cq = subprocess.Popen([{program()!r}, *sys.argv[1:]], stdin=subprocess.PIPE)\n"
        "for frame in spoken.frames(sys.stdin.buffer):\n"
        "    if b'poison' in frame: sys.exit(cq.kill())\n"
        "    cq.stdin.write(frame); cq.stdin.flush()\n")
    wrapped.chmod(0o755)
    with Started("--journal", str(tmp_path / "journal"), "--cq", str(wrapped)) as gateway:
        call = ByJson(gateway.url)
        call("CreateQueue", QueueName="q.fifo", Attributes={"FifoQueue": "true"})

        def send(body: str):
            return call("SendMessage", QueueUrl="q.fifo", MessageBody=body, MessageGroupId="g", MessageDeduplicationId=body)

        assert send("a")["SequenceNumber"].endswith("1")
        with pytest.raises(Refused) as refused:
            send("poison")
        assert (refused.value.code, refused.value.status) == ("InternalFailure", 500)
        assert send("b")["SequenceNumber"].endswith("2")


def ends_when_started(tmp_path, starts: range) -> Path:
    """A `cq` that is killed before it has read its journal, at these starts on one, from 0."""
    wrapped, count = tmp_path / "cq", tmp_path / "starts"
    wrapped.write_text(
        f"#!{sys.executable}\n"
        "import os, signal, sys\n"
        f"if sys.argv[1] == 'server':\n"
        f"    with open({str(count)!r}, 'a+') as file:\n"
        "        file.write('.')\n"
        "        file.flush()\n"
        "        start = file.tell() - 1\n"
        f"    if {starts.start} <= start < {starts.stop}: os.kill(os.getpid(), signal.SIGKILL)\n"
        f"os.execv({program()!r}, sys.argv)\n")
    wrapped.chmod(0o755)
    return wrapped


@pytest.mark.parametrize("ends", [1, 4, 7])
def test_a_cq_that_is_killed_before_it_has_read_its_journal_is_started_again(tmp_path, ends):
    """It was killed once before, so that it is started again at all."""
    first = Started("--journal", str(tmp_path / "journal"))
    ByJson(first.url)("CreateQueue", QueueName="q", Attributes={})
    assert first.stop() == 0
    wrapped = ends_when_started(tmp_path, range(1, 1 + ends))
    with Started("--journal", str(tmp_path / "journal"), "--cq", str(wrapped), "--admin", "0") as gateway:
        call = ByJson(gateway.url)
        call("SendMessage", QueueUrl="q", MessageBody="a")
        os.kill(programs_of(gateway)[0], signal.SIGKILL)
        call("SendMessage", QueueUrl="q", MessageBody="b")
        assert len((tmp_path / "starts").read_text()) == 1 + ends + 1
        assert figure(gateway, "hobbychair_cq_restarts_total") == ends + 1
        messages = call("ReceiveMessage", QueueUrl="q", MaxNumberOfMessages=10)["Messages"]
        assert [message["Body"] for message in messages] == ["a", "b"]


def test_eight_ends_in_a_row_before_the_journal_is_read_end_the_gateway(tmp_path):
    first = Started("--journal", str(tmp_path / "journal"))
    ByJson(first.url)("CreateQueue", QueueName="q", Attributes={})
    assert first.stop() == 0
    wrapped = ends_when_started(tmp_path, range(1, 100))
    gateway = Started("--journal", str(tmp_path / "journal"), "--cq", str(wrapped), errors=tmp_path / "errors")
    os.kill(programs_of(gateway)[0], signal.SIGKILL)
    assert gateway.process.wait(30) == 1
    assert len((tmp_path / "starts").read_text()) == 1 + 8
    assert "signal 9" in (tmp_path / "errors").read_text().splitlines()[-1]
