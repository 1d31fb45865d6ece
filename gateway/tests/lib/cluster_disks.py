"""Disks of nodes' journals that get full, or hang."""

import subprocess
from pathlib import Path

from cluster_journals import folder_of
from clusters import Cluster, Node
from preloaded import built
from waiting import until


def fill(folder: Path) -> Path:
    """Leaves no room on a disk. The file that takes it all can go again."""
    with open(folder / "filler", "wb", buffering=0) as file:
        size = 1 << 20
        while size:
            try:
                file.write(bytes(size))
            except OSError:
                size //= 2
    return folder / "filler"


class Disks:
    """Each node's journal has a disk of its own, which is small where one can be mounted. Where a library can be built, syncs of
    files hang for as long as a file `hang` is beside them."""

    def __init__(self, room: Path, is_durable: bool) -> None:
        self.room, self.is_durable = room, is_durable
        self.room.mkdir()
        self.mounted: list[Path] = []
        self.library = built("hanging_disk.rs", room) if is_durable else None

    def folder(self, number: int) -> Path:
        return self.room / f"disk{number}"

    def words(self, number: int) -> list[str]:
        """What a node is told that is started as that one."""
        folder = self.folder(number)
        folder.mkdir()
        if subprocess.run(["mount", "-t", "tmpfs", "-o", "size=128m", "tmpfs", str(folder)], capture_output=True).returncode == 0:
            self.mounted.append(folder)
        kept = ["--journal", str(folder), "--journal-size", "100KiB", "--journal-reserve", "1MiB"]
        return [*kept, "--durable"] if self.is_durable else kept

    def fill(self, number: int) -> bool:
        """Leaves no room on a node's disk, if it is a small one."""
        folder = self.folder(number)
        if folder not in self.mounted:
            return False
        fill(folder)
        return True

    def free(self, number: int) -> None:
        (self.folder(number) / "filler").unlink(missing_ok=True)

    def hang(self, cluster: Cluster, node: Node) -> Path | None:
        """Has its syncs hang for as long as the file is there."""
        folder = folder_of(cluster, node.server, self.folder(node.number))
        if self.library is None or not folder.is_dir():
            return None
        file = folder / "hang"
        file.touch()
        return file

    def end(self) -> None:
        """Processes that were just killed may have files of a disk for a moment."""
        for folder in self.mounted:
            until(lambda: subprocess.run(["umount", str(folder)], capture_output=True).returncode == 0, 20,
                  f"a process has a file in {folder} still")
        self.mounted.clear()
