"""What people see of a chain: pictures of runs, and a shell."""

import os
import pty
import select
import subprocess
import time

from started import TOP, command, environment, gateway_program, program


def run(*words: str, told: str) -> subprocess.CompletedProcess:
    return subprocess.run(command(*words), input=told, capture_output=True, text=True, timeout=60, env=environment())


def test_the_pictures_are_those_of_the_examples():
    names = {script.stem for script in (TOP / "examples").glob("*.jsonl")} - {"live"}
    assert {picture.stem for picture in (TOP / "docs" / "pictures").glob("*.svg")} == names
    compared = subprocess.run([TOP / "check" / "pictures"], capture_output=True, text=True, timeout=60,
                              env=environment() | {"HOBBYCHAIR_GATEWAY": gateway_program()})
    assert compared.returncode == 0, compared.stdout + compared.stderr


def test_a_line_that_asks_draws_nothing():
    create = '{"op":"arrive","at":1,"clock":1,"client":1,"number":1,"ask":{"kind":"create","queue":"q.fifo"}}\n'
    asking = run("draw", "--text", told=f'{{"op":"show"}}\n{create}')
    assert asking.returncode == 0, asking.stderr
    assert asking.stdout.splitlines()[-1].endswith("client 1 asks server 1: #1 create q.fifo")


def test_a_bad_line_is_told_by_its_number():
    drawn = run("draw", told='{"op":"join","server":2}\n\n{"op":"tak"}\n')
    assert (drawn.returncode, drawn.stdout) == (2, "")
    assert drawn.stderr == "hobbychair: line 3 is none of a script (docs/LINES.md)\n"


def test_letters_tell_a_run():
    drawn = run("draw", "--text", "--servers", "2",
                told='{"op":"arrive","at":1,"clock":1,"client":1,"number":1,"ask":{"kind":"create","queue":"q.fifo"}}\n'
                     '{"op":"put","from":1,"to":2}\n{"op":"crash","server":1}\n')
    assert drawn.returncode == 0, drawn.stderr
    assert [line.rstrip() for line in drawn.stdout.splitlines()] == [
        "   client 1   server 1   server 2    master",
        "                head       tail",
        "1      ├─────────▶│          │          │       client 1 asks server 1: #1 create q.fifo",
        "2      │          ●          │          │       server 1 puts Fwd 1 for server 2",
        "3      │          ╳          │          │       server 1 crashes",
        "Fwd 1 of line 2, from server 1 to server 2, is never taken",
    ]


def test_a_crash_and_a_join_in_the_shell(tmp_path):
    saved = tmp_path / "saved.jsonl"
    told = run("shell", told="create q.fifo\nsend q.fifo a d1 hello there\nreceive q.fifo 10\ncrash 2\n"
                             "send q.fifo b d2 other\ndetect 2\nagain\njoin 4\ncount q.fifo\ndelete 1-1-1\nshow\n"
                             f"save {saved}\n")
    assert told.returncode == 0, told.stderr
    assert told.stdout == f"""\
the queue is there
sent, as number 1 of the queue
1-1-1  group a  hello there
server 2 has crashed
chain: 1 → 2 → 3
no answer yet: server 2 has crashed, and the master doesn't know; `detect 2` tells it
client 1, request 4: sent, as number 2 of the queue
server 2 is known to have crashed
chain: 1 → 3
sent, as number 2 of the queue
server 4 joins
chain: 1 → 3 → 4
1 visible, 1 in flight
deleted
chain: 1 → 3 → 4
server  role                 entries   acked
     1  head                       6       6
     2  crashed                    3       3
     3  middle                     6       6
     4  tail                       6       6
1 → 2: 1 never to be taken
q.fifo: 1 visible, 0 in flight
  group b: 1 visible, 0 in flight
{saved} has {len(saved.read_text().splitlines())} lines
"""
    # What was saved gives the same answers once more.
    replayed = subprocess.run([program(), "replay", "--servers", "3"], input=saved.read_text(), capture_output=True,
                              text=True, timeout=60)
    assert (replayed.returncode, replayed.stderr) == (0, "")
    answers = replayed.stdout.splitlines()
    assert all('"reply"' in answer for answer in answers)
    assert len(answers) == 6 and '"removed":true' in answers[-1]


def test_messages_move_one_by_one(tmp_path):
    told = run("shell", "--servers", "2", told="create q.fifo\nstep\nsend q.fifo a d1 x\nshow\nstep\nstep\ngo\nsand\n")
    assert told.stdout.splitlines() == [
        "the queue is there",
        "From now on messages move by `step` and `go` alone.",
        "nothing can move",
        "it is at server 1; `step` moves one message",
        "chain: 1 → 2",
        "server  role                 entries   acked",
        "     1  head                       2       1",
        "     2  tail                       1       1",
        "1 → 2: 1 to be put, next Fwd 2",
        "q.fifo: 0 visible, 0 in flight",
        "server 1 puts Fwd 2 for server 2",
        "server 2 takes a message of server 1",
        "sent, as number 1 of the queue",
        "`sand` means nothing here; `help` lists what can be said",
    ]


class Terminal:
    """A shell at a terminal of its own."""

    def __init__(self) -> None:
        self.leader, follower = pty.openpty()
        self.shell = subprocess.Popen(command("shell"), stdin=follower, stdout=follower, stderr=follower,
                                      env=environment() | {"TERM": "xterm", "COLUMNS": "120"})
        os.close(follower)
        self.seen = ""

    def until(self, wanted: str) -> None:
        end = time.monotonic() + 60
        while wanted not in self.seen:
            assert time.monotonic() < end, self.seen
            if select.select([self.leader], [], [], 0.2)[0]:
                self.seen += os.read(self.leader, 4096).decode(errors="replace")
        self.seen = self.seen.partition(wanted)[2]

    def say(self, keys: str, *answers: str) -> None:
        """Types these keys, and waits for what is told then, and for the next prompt."""
        os.write(self.leader, keys.encode())
        for answer in (*answers, "chain> "):
            self.until(answer)


def test_a_person_at_a_terminal(tmp_path):
    saved = tmp_path / "saved.jsonl"
    terminal = Terminal()
    try:
        terminal.until("chain> ")
        terminal.say("create q.fifp\x7fo\r", "the queue is there\r\n")      # a letter is taken back
        terminal.say("\x1b[A\r", "the queue is there\r\n")                  # the line before once more
        terminal.say("send q.fifo a d1 hello\r", "sent, as number 1 of the queue\r\n")
        terminal.say("crash 1\r", "server 1 has crashed\r\n")
        terminal.say("receive q.fifo\r", "no server is the head: server 1 has crashed")
        terminal.say("detect 1\r", "chain: 2 → 3\r\n")
        terminal.say("join 4\r", "chain: 2 → 3 → 4\r\n")
        terminal.say("receive q.fifo\r", "1-1-1  group a  hello\r\n")
        terminal.say(f"save {saved}\r", "lines\r\n")
        os.write(terminal.leader, b"\x04")
        assert terminal.shell.wait(timeout=60) == 0
    finally:
        terminal.shell.kill()
        os.close(terminal.leader)
    replayed = subprocess.run([program(), "replay", "--servers", "3"], input=saved.read_text(), capture_output=True,
                              text=True, timeout=60)
    assert replayed.stdout.splitlines()[-1].endswith('[{"body":"hello","group":"a","receipt":"1-1-1"}]}}')
