"""What is told of a run with faults: how long nobody was answered behind each, and, where something is hurt, all that happened."""

import json
import os
import time
from bisect import bisect_right
from pathlib import Path
from typing import Any

from cluster_faults import Fault
from cluster_oracle import Run
from cluster_work import Work
from clusters import Cluster

# A fault may be noted so long behind the last answer before it, in seconds.
BEFORE = 0.1


def silences(faults: list[Fault], answers: list[float]) -> list[float]:
    """The longest time without an answer that began behind each fault and ahead of the next one."""
    begun = [fault.moment for fault in faults]
    longest = [0.0] * len(faults)
    answers = sorted(answers)
    for before, after in zip(answers, answers[1:]):
        place = bisect_right(begun, before + BEFORE) - 1
        if place >= 0:
            longest[place] = max(longest[place], after - before)
    return longest


def keep_table(seed: int, about: dict[str, Any], faults: list[Fault], work: Work) -> None:
    """For whoever started the tests, in the folder that HOBBYCHAIR_TEST_TABLE names."""
    folder = os.environ.get("HOBBYCHAIR_TEST_TABLE")
    if folder:
        rows = [[fault.kind, round(silence, 2)] for fault, silence in zip(faults, silences(faults, work.answers))]
        load = os.getloadavg()[0]
        table = {"seed": seed, **about, "load": load, "answers": len(work.answers), "errors": len(work.errors), "faults": rows}
        (Path(folder) / f"{seed}.json").write_text(json.dumps(table))


def all_that_happened(seed: int, faults: list[Fault], work: Work | None, cluster: Cluster) -> str:
    """Seed, faults, what clients were answered and what the nodes have, in the order of time. Clients are placed by when their
    calls ended, and entries by the cluster's time, which may differ a little."""
    lines = [(fault.moment, f"fault: {fault.kind} {' '.join(map(str, fault.about))}") for fault in faults]
    if work:
        calls = list(work.history)
        lines += [(ended, f"client: {what}, asked {ended - asked:.3f} s before: {came}") for asked, ended, what, came in calls]
    try:
        lines += entries(cluster)
    except Exception as error:
        lines.append((time.monotonic(), f"what the nodes have can't be told: {error!r}"))
    return "\n".join([f"seed {seed}", *(f"{moment:.3f} {line}" for moment, line in sorted(lines))])


def entries(cluster: Cluster) -> list[tuple[float, str]]:
    """Each entry of the longest list that a server has, and how many each server has."""
    servers = Run(cluster)
    histories = {server: servers.history(server) for server in servers.steps if isinstance(server, int)}
    wall_at_zero = time.time() - time.monotonic()
    longest = max(histories.values(), key=len, default=[])
    lines = [(moment / 1000 - wall_at_zero, f"entry {place}: {said(entry)}") for place, (moment, entry) in enumerate(longest, 1)]
    counts = ", ".join(f"{server}: {len(history)}" for server, history in histories.items())
    return [*lines, (time.monotonic(), f"entries of each server: {counts}")]


def said(entry: dict[str, Any]) -> str:
    """A request, whose body may be long."""
    short = {key: f"{value[:40]}.." if isinstance(value, str) and len(value) > 60 else value for key, value in entry["ask"].items()}
    return f"client {entry['client']}, number {entry['number']}, {json.dumps(short)}"


def only_its_own(run: Run, server: int) -> int:
    """How many entries a server had that aren't in the list of the chain."""
    longest, own = run.check_list(), run.history(server)
    same = next((place for place, (one, other) in enumerate(zip(own, longest)) if one != other), min(len(own), len(longest)))
    return len(own) - same
