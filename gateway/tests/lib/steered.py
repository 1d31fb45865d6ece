"""A `cq` that does to commands what a test tells it: it keeps them waiting, ends at them, or takes its time."""

import json
import sys
from pathlib import Path
from typing import Any

from started import program

SOURCE = """#!{python}
import json, os, subprocess, sys
if sys.argv[1] != 'server': sys.exit(subprocess.run([{program!r}, *sys.argv[1:]]).returncode)
sys.path.insert(0, {tests!r})
import spoken
from waiting import pace

def told():
    try:
        with open({orders!r}) as file: return json.load(file)
    except (OSError, ValueError): return {{}}

cq = subprocess.Popen([{program!r}, *sys.argv[1:]], stdin=subprocess.PIPE)
found, counted = None, 0
for number, frame in enumerate(spoken.frames(sys.stdin.buffer)):
    text = spoken.words(frame)
    if found != told().get('each'): found, counted = told().get('each'), 0
    if found and any(word in text for word in found):
        counted += 1
        if counted > told().get('pass', 1 << 30):
            with open({ends!r}, 'a') as file: file.write('.')
            if told().get('kill'):
                os.unlink({orders!r})
                sys.exit(cq.kill())
            while told().get('each'): pace(0.005)
    if (word := told().get('hold')) is not None and word in text:
        with open({holds!r}, 'a') as file: file.write('.')
        while (word := told().get('hold')) is not None and word in text: pace(0.005)
    if (word := told().get('end')) is not None and word in text and number >= told().get('behind', 0):
        with open({ends!r}, 'a') as file: file.write('.')
        sys.exit(cq.kill())
    if (word := told().get('slow')) is not None and word in text: pace(0.003)
    cq.stdin.write(frame); cq.stdin.flush()
"""


class SteeredCq:
    def __init__(self, room: Path) -> None:
        self.program, self.orders, self.told_ends, self.told_holds = (room / name for name in ("steered-cq", "orders", "ends", "holds"))
        self.program.write_text(SOURCE.format(python=sys.executable, program=program(), orders=str(self.orders), ends=str(self.told_ends),
                                              holds=str(self.told_holds), tests=str(Path(__file__).parent)))
        self.program.chmod(0o755)

    def words(self) -> list[str]:
        return ["--cq", str(self.program)]

    def ends(self) -> int:
        """How often it ended since it was told to."""
        return self.told_ends.stat().st_size if self.told_ends.exists() else 0

    def holds(self) -> int:
        """How many commands it has kept waiting, or keeps waiting now."""
        return self.told_holds.stat().st_size if self.told_holds.exists() else 0

    def tell(self, **orders: Any) -> None:
        """`hold`, `end` and `slow`: what happens to commands that have this text, as lines of JSON; `behind` so many commands, it
        ends. Of those that have one of the texts `each` so many `pass`, and at the next one it waits, or ends once if `kill` is
        true. What was told before counts no more."""
        new = self.orders.with_suffix(".new")
        new.write_text(json.dumps(orders))
        new.replace(self.orders)
