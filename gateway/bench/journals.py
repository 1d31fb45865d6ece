#!/usr/bin/env python3
"""How fast the gateway of a cluster's head is while the nodes keep no journal, one, and one that waits for the disk: three nodes on
this machine, one run after the other, by the load generator. The programs have to be built: `./cq --build`, and in gateway/
`cargo build --release` and `cargo build --release --example load`. It needs etcd.

    gateway/bench/journals.py --folder FOLDER --connections 1,64 --messages 20000
"""

from __future__ import annotations

import argparse
import subprocess
import sys
import tempfile
from pathlib import Path

TOP = Path(__file__).resolve().parents[2]
sys.path.insert(0, str(TOP / "gateway" / "tests" / "lib"))

from clusters import Cluster  # noqa: E402
from waiting import until  # noqa: E402

KINDS = {"none": [], "buffered": ["--journal"], "durable": ["--durable", "--journal"]}


def main() -> int:
    parser = argparse.ArgumentParser(description=__doc__, formatter_class=argparse.RawDescriptionHelpFormatter)
    parser.add_argument("--folder", type=Path, default=Path(tempfile.gettempdir()), help="on the disk that is measured")
    parser.add_argument("--connections", default="64")
    parser.add_argument("--messages", default="20000")
    given = parser.parse_args()
    load = TOP / "gateway" / "target" / "release" / "examples" / "load"
    for kind, words in KINDS.items():
        with tempfile.TemporaryDirectory(dir=given.folder) as room:
            kept = [*words, str(Path(room) / "journals")] if words else []
            cluster = Cluster(Path(room), gateways=True, words=lambda number: kept, traced=False)
            try:
                until(lambda: cluster.gateway_acts(1), 30, "no gateway acts")
                target = f"{kind}=http://127.0.0.1:{cluster.node(1).gateway_port}"
                asked = ["--target", target, "--connections", given.connections, "--messages", given.messages, "--batches", "1"]
                subprocess.run([load, *asked], check=True)
            finally:
                cluster.end()
    return 0


if __name__ == "__main__":
    sys.exit(main())
