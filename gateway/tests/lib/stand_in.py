"""A stand-in for the program cq, which passes on what the real one says, until it is told otherwise."""

import os
from pathlib import Path

from started import LIBRARY, program

STAND_IN = """#!/usr/bin/python3
import os, subprocess, sys
real, told = {real!r}, {told!r}
if sys.argv[1] != "server":
    os.execv(real, [real, *sys.argv[1:]])
sys.path.insert(0, {tests!r})
import spoken
from waiting import pass_time
for number, frame in enumerate(spoken.frames(subprocess.Popen([real, *sys.argv[1:]], stdout=subprocess.PIPE).stdout)):
    what, _, after = (open(told).read() if os.path.exists(told) else "").partition(" ")
    if what and number >= int(after or 0) and (spoken.is_answer(frame) or not what.endswith("misnumbered")):
        if what.startswith("once-"):
            os.unlink(told)
        what = what.removeprefix("once-")
        if what == "close":
            os.close(1)
        if what in ("close", "hang"):
            pass_time(1000, "it answers no more")
        garbage = {{"garbage": b"\\x02\\0\\0\\0\\x01\\x4d", "endless": b"x" * 100_000_000}}
        frame = spoken.misnumbered(frame) if what == "misnumbered" else garbage[what]
    sys.stdout.buffer.write(frame)
    sys.stdout.buffer.flush()
"""


class StandIn:
    def __init__(self, room: Path) -> None:
        self.told = room / "told"
        self.path = room / "stand-in"
        self.path.write_text(STAND_IN.format(real=os.path.abspath(program()), told=str(self.told), tests=str(LIBRARY)))
        self.path.chmod(0o755)

    def tell(self, what: str) -> None:
        new = self.told.with_suffix(".new")
        new.write_text(what)
        new.replace(self.told)
