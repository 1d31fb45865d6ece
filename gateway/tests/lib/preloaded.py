"""Libraries of the tests that programs load ahead of the system's."""

import subprocess
from pathlib import Path


def built(source: str, room: Path) -> Path | None:
    """The library of that source, if it can be built here."""
    library = room / f"lib{source.removesuffix('.rs')}.so"
    words = ["rustc", "--edition", "2021", "-O", "--crate-type", "cdylib", "-o", library, Path(__file__).with_name(source)]
    try:
        return library if subprocess.run(words, capture_output=True).returncode == 0 else None
    except FileNotFoundError:
        return None
