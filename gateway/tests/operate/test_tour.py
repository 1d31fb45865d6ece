"""docs/TOUR.md: its commands are run, and print what stands there."""

import itertools
import os
import re
import shutil
import signal
import subprocess
import time
from collections.abc import Iterator
from pathlib import Path
from typing import IO

import pytest

from clusters import has_etcd
from ports import free_ports
from started import TOP, gateway_program, program
from waiting import pace, until

PAGE = (TOP / "docs" / "TOUR.md").read_text()
BLOCK = re.compile(r"^```(\w*)\n(.*?)^```$", re.DOTALL | re.MULTILINE)
PORT = "9324"

# What else a shell and its programs say: of jobs that were killed, in logs, and on a busy machine.
ASIDE = re.compile(r"(.*: line \d+: +\d+ (Killed|Terminated)\b.*|\d{4}-\d\d-\d\dT\S+ +(INFO|WARN|ERROR) .*|\S+ has ended \(.*"
                   r"|the cluster is down|etcd is slow: .*)$")

# The end of what was started last.
ENDS_LAST = re.compile(r"kill( -9)? \$!")

# What only looks. It may find a beat that is late.
LOOK = "hobbychair cluster status "

pytestmark = pytest.mark.skipif(not has_etcd() or shutil.which("curl") is None, reason="etcd or curl isn't there")


def blocks(kind: str) -> list[str]:
    return [block.group(2) for block in BLOCK.finditer(PAGE) if block.group(1) == kind]


def commands() -> Iterator[tuple[str, list[str]]]:
    """Each command, and the lines that it prints."""
    for block in blocks("console"):
        for part in re.split(r"^\$ ", block, flags=re.MULTILINE)[1:]:
            command, *printed = part.rstrip("\n").split("\n")
            yield command, printed


def matches(line: str, printed: str) -> bool:
    """`..` stands for anything, and blanks for any number of them."""
    parts = [r"\s+".join(map(re.escape, part.split())) for part in printed.split("..")]
    return re.fullmatch(r".*".join(rf"\s*{part}\s*" for part in parts), line) is not None


class Shell:
    def __init__(self, room: Path) -> None:
        (room / "bin").mkdir()
        for name, file in (("cq", program()), ("hobbychair", gateway_program())):
            (room / "bin" / name).symlink_to(file)
        (room / "examples").symlink_to(TOP / "examples")
        environment = {**os.environ, "PATH": f"{room / 'bin'}:{os.environ['PATH']}"}
        self.process = subprocess.Popen(["bash"], stdin=subprocess.PIPE, stdout=subprocess.PIPE, stderr=subprocess.STDOUT, cwd=room,
                                        env=environment, start_new_session=True)
        os.set_blocking(self.process.stdout.fileno(), False)
        self.pending = b""

    def type(self, line: str) -> None:
        stdin: IO[bytes] = self.process.stdin
        stdin.write(line.encode() + b"\n")
        stdin.flush()

    def lines(self) -> Iterator[str]:
        """What is printed, but for what is said beside it."""
        begun = time.monotonic()
        while True:
            line, feed, rest = self.pending.partition(b"\n")
            if feed:
                self.pending = rest
                if not ASIDE.fullmatch(line.decode()):
                    yield line.decode()
                continue
            assert time.monotonic() - begun < 90, f"nothing more comes behind {line!r}"
            self.pending += self.process.stdout.read() or b""
            pace(0.02)

    def run(self, command: str) -> list[str]:
        """What a command prints up to its end, without blank lines."""
        # A process that was killed has its port and its files for a moment.
        waits = " && wait $!" if ENDS_LAST.fullmatch(command) else ""
        self.type(f"{command}{waits}; printf '\\n=%s=\\n' $?")
        return [line for line in itertools.takewhile(lambda line: not re.fullmatch(r"=\d+=", line), self.lines()) if line]

    def end(self) -> None:
        os.killpg(self.process.pid, signal.SIGTERM)
        try:
            self.process.wait(20)
        except subprocess.TimeoutExpired:
            os.killpg(self.process.pid, signal.SIGKILL)
            self.process.wait()


def test_the_commands_of_the_tour_print_what_stands_there(tmp_path):
    [port] = free_ports(1)
    shell = Shell(tmp_path)
    try:
        for command, printed in commands():
            command, printed = command.replace(PORT, str(port)), [line.replace(PORT, str(port)) for line in printed]
            if command.endswith("&"):
                shell.type(command)
                lines = shell.lines()
                for wanted in printed:
                    assert any(matches(line, wanted) for line in lines), wanted
                continue
            said: list[str] = []

            def is_as_told() -> bool:
                said[:] = shell.run(command)
                return len(said) == len(printed) and all(map(matches, said, printed))

            until(is_as_told, 20 if command.startswith(LOOK) else 0, lambda: f"{command}: {said}")
    finally:
        shell.end()


def test_scripts_stand_there_as_they_are():
    """The lines of the crash, and between them what they print."""
    numbered = re.compile(r"^(\d+) +(\{.*)$", re.MULTILINE)
    script, printed = [], []
    for block in blocks("")[: 4]:
        script += [line for _, line in numbered.findall(block)]
        printed += [line.strip() for line in block.splitlines() if line.startswith("    {")]
    example = TOP / "examples" / "head-lost"
    assert script == [line for line in example.with_suffix(".jsonl").read_text().splitlines() if line]
    assert printed == example.with_suffix(".out").read_text().splitlines()
