"""What tests share: started gateways, the ways to call them, and moto where it is installed."""

import shutil
import subprocess
import sys
from collections.abc import Callable, Iterator
from pathlib import Path
from typing import Any

import pytest

from longest import SECONDS
from rules import Rules
from started import START, TOP, ByBoto3, ByJson, ByQuery, Started, boto3_client, gateway_program, program
from waiting import until

sys.path.append(str(TOP / "check"))
from recorder import Recorder  # noqa: E402

try:
    import moto
    import moto.sqs.models
except ImportError:
    moto = None

def pytest_sessionstart() -> None:
    if shutil.which(program()) is None:
        pytest.exit(f"{program()} isn't built. To prove and build it: ./cq --build", returncode=3)
    if shutil.which(gateway_program()) is None:
        pytest.exit(f"{gateway_program()} isn't built. To build it: cargo build --release", returncode=3)


def pytest_collection_modifyitems(items: list[pytest.Item]) -> None:
    """The files that take longest begin first, so that no worker is left with one of them at the end."""
    items.sort(key=lambda item: -SECONDS.get(item.path.stem, 0))


@pytest.fixture(autouse=True)
def journals_go(request) -> Iterator[None]:
    """The files of journals go with their test: each has 96 MiB."""
    room = request.getfixturevalue("tmp_path") if "tmp_path" in request.fixturenames else None
    yield
    for file in room.rglob("*.cq[0-9]*") if room else []:
        if not file.is_dir():
            file.unlink(missing_ok=True)


@pytest.fixture(scope="session")
def gateway(tmp_path_factory):
    """A gateway whose clock the tests set."""
    with Started("--admin", "0", room=tmp_path_factory.mktemp("gateway")) as started:
        yield started


@pytest.fixture(params=["boto3", "json", "query"])
def call(request, gateway) -> Callable[..., dict[str, Any]]:
    if request.param == "boto3":
        return ByBoto3(gateway.client())
    return ByJson(gateway.url) if request.param == "json" else ByQuery(gateway.url)


@pytest.fixture
def small_disk(tmp_path) -> Iterator[Callable[[str], Path]]:
    """Mounts a disk of so many bytes, as `24m`, that is gone behind the test."""
    disks: list[Path] = []

    def mount(size: str) -> Path:
        room = tmp_path / "small"
        room.mkdir()
        mounted = subprocess.run(["mount", "-t", "tmpfs", "-o", f"size={size}", "tmpfs", str(room)], capture_output=True)
        if mounted.returncode != 0:
            pytest.skip("no tmpfs can be mounted here")
        disks.append(room)
        return room

    yield mount
    for room in disks:
        # A program that was just killed may have its file for a moment.
        until(lambda: subprocess.run(["umount", str(room)]).returncode == 0, 20,
              "a program that the test began has a file of the disk still")


# Rules of which the other one is a service's choice.
CHOICES = {"test_sequence_numbers_rise", "test_groups_come_one_after_the_other"}


def refuted(history: Path) -> str:
    """The first answer of a history that the rules don't allow; nothing where they allow all."""
    judged = subprocess.run([gateway_program(), "check", str(history)], capture_output=True, text=True)
    assert judged.returncode in (0, 1), judged.stderr
    return judged.stdout if judged.returncode else ""


@pytest.fixture(params=["gateway", "moto"])
def rules(request, monkeypatch, tmp_path):
    """What is asked and answered is recorded, and `hobbychair check` allows it where the rules are followed."""
    history = tmp_path / "history.jsonl"
    if request.param != "moto":
        gateway = request.getfixturevalue(request.param)
        client = Recorder(history.open("w"), lambda: gateway.moment).watch(gateway.client())
        yield Rules(ByBoto3(client), lambda step: gateway.set_clock(gateway.moment + step))
        assert not refuted(history)
        return
    if moto is None:
        pytest.skip("moto isn't installed")
    moment = [START]
    monkeypatch.setattr(moto.sqs.models, "unix_time_millis", lambda *_: float(moment[0]))
    monkeypatch.setattr(moto.sqs.models, "unix_time", lambda *_: moment[0] / 1000)

    def move(step: int) -> None:
        moment[0] += step

    differs = request.node.get_closest_marker("moto_differs")
    if differs:
        request.node.add_marker(pytest.mark.xfail(strict=True, reason="moto's rule is another one"))
    with moto.mock_aws():
        yield Rules(ByBoto3(Recorder(history.open("w"), lambda: moment[0]).watch(boto3_client(None))), move)
    found = refuted(history)
    if differs and request.node.originalname not in CHOICES:
        assert found, history.read_text()
    else:
        # moto tells a repeated send another MessageId, whatever the rule is about.
        assert not found or "that of the first send" in found, found
