"""`hobbychair front` and `hobbychair serve`: each has options of its own, and says where those of the other one belong."""

from __future__ import annotations

import re
from pathlib import Path

import pytest

from clusters import Etcd, has_etcd
from started import StartedFront, run

OF_FRONTS = ["--cluster", "--etcd", "--authority", "--tls-certificate", "--tls-key"]
OF_GATEWAYS = ["--cq", "--cq-timeout", "--shards", "--journal", "--journal-size", "--memory", "--url", "--allowed-hosts", "--account",
               "--region", "--polls", "--no-pauses", "--peek"]
SHARED = ["--config", "--host", "--port", "--threads", "--request-memory", "--credentials", "--open", "--connections", "--admin", "--log",
          "--log-level", "--certificate", "--key"]
TO_FRONT = "is nothing that a gateway is told: it is for a front of a cluster. Use `hobbychair front`"
TO_SERVE = "is nothing that a front is told: it is for `hobbychair serve`, and for the gateways beside nodes (--gateway-config)"


def refused(*words: str, **variables: str) -> str:
    """What is said of words that can't be meant."""
    ended = run(*words, **variables)
    assert (ended.returncode, ended.stdout) == (2, ""), ended
    return ended.stderr


def options_of(command: str) -> set[str]:
    return set(re.findall(r"^ +(?:-h, )?(--[a-z-]+)", run(command, "--help").stdout, re.M)) - {"--help"}


def test_each_command_has_its_options_alone():
    assert options_of("serve") == {*SHARED, *OF_GATEWAYS}
    assert options_of("front") == {*SHARED, *OF_FRONTS}


@pytest.mark.parametrize("option", OF_FRONTS)
def test_an_option_of_a_front_is_none_of_a_gateway(option):
    assert refused("serve", "--port", "0", option, "c") == f"hobbychair: {option} {TO_FRONT}\n"
    assert refused("serve", f"{option}=c") == f"hobbychair: {option} {TO_FRONT}\n"


@pytest.mark.parametrize("option", OF_GATEWAYS)
def test_an_option_of_a_gateway_is_none_of_a_front(option):
    which = ["--cluster", "c", "--etcd", "http://127.0.0.1:1"]
    assert refused("front", *which, option, "1") == f"hobbychair: {option} {TO_SERVE}\n"


def test_what_no_command_has_is_told_as_ever():
    for command in ("serve", "front"):
        said = refused(command, "--prot", "1")
        assert said.startswith("error: ") and "'--prot'" in said and f"hobbychair {command} " in said
    # What nodes and tests say to a gateway is no option of anybody's.
    assert "nothing that" not in refused("front", "--beside-node")


def test_a_variable_that_names_a_cluster_starts_no_gateway():
    assert refused("serve", "--port", "0", HOBBYCHAIR_CLUSTER="c") == f"hobbychair: HOBBYCHAIR_CLUSTER {TO_FRONT}\n"


@pytest.mark.parametrize("command, text, said", [
    ("serve", "port = 0\ncluster = \"c\"\n", f", line 2: cluster {TO_FRONT}"),
    ("serve", "tls-key = \"k.pem\"\n", f", line 1: tls-key {TO_FRONT}"),
    ("front", "# of a front\ncluster = \"c\"\njournal = \"j\"\n", f", line 3: journal {TO_SERVE}"),
    ("front", "[[queue]]\nname = \"q\"\n", f": [[queue]] {TO_SERVE}"),
    ("front", "prot = 1\n", ", line 1: prot is no option of front"),
    ("serve", "clock-file = \"c\"\n", ", line 1: clock-file is no option of serve"),
    ("front", "cluster = \"c\"\nport = 70000\n", ", line 2: Invalid value '70000' for '--port <PORT>'"),
    ("front", "etcd = 1.5\n", ", line 1: etcd has no such value"),
    ("front", "cluster =", ": "),
])
def test_what_is_wrong_in_a_file_is_told_with_its_line(tmp_path, command, text, said):
    file = tmp_path / "options.toml"
    file.write_text(text)
    assert refused(command, "--config", str(file)).startswith(f"hobbychair: {file}{said}")


@pytest.mark.parametrize("words, said", [
    ([], "--cluster and --etcd are given together"),
    (["--cluster", "c"], "--cluster and --etcd are given together"),
    (["--etcd", "http://127.0.0.1:1"], "--cluster and --etcd are given together"),
    (["--cluster", "c", "--etcd", "http://127.0.0.1:1", "--certificate", "c"], "are given together"),
    (["--cluster", "c", "--etcd", "http://127.0.0.1:1", "--tls-key", "k"], "a certificate for TLS and its key are given together"),
    (["--cluster", "c", "--etcd", "http://127.0.0.1:1", "--connections", "0"], "connections must be 1 to 1000000"),
])
def test_a_front_that_is_told_too_little_says_so(words, said):
    assert said in refused("front", "--port", "0", *words)


@pytest.fixture(scope="module")
def etcd(tmp_path_factory):
    if not has_etcd():
        pytest.skip("etcd isn't there: Debian's etcd-server has it")
    one = Etcd(tmp_path_factory.mktemp("etcd"))
    made = run("cluster", "create", "--cluster", "named", "--etcd", one.urls[0], "--nodes", "1")
    assert made.returncode == 0, made.stderr
    yield one
    one.end()


@pytest.fixture
def file(etcd: Etcd, tmp_path: Path) -> Path:
    """What a front of the cluster is told by a file."""
    path = tmp_path / "front.toml"
    path.write_text(f'cluster = "named"\netcd = ["{etcd.urls[0]}"]\nhost = "127.0.0.2"\nlog = "json"\n')
    return path


def test_options_go_before_variables_and_these_before_the_file(file, monkeypatch):
    def address(*words: str) -> str:
        front = StartedFront(*words)
        assert front.stop() == 0
        return front.url.rsplit(":", 1)[0]

    assert address("--config", str(file)) == "http://127.0.0.2"
    monkeypatch.setenv("HOBBYCHAIR_HOST", "127.0.0.3")
    monkeypatch.setenv("HOBBYCHAIR_CONFIG", str(file))
    assert address() == "http://127.0.0.3"
    assert address("--host", "127.0.0.4") == "http://127.0.0.4"


def test_variables_of_gateways_have_no_effect_on_a_front(file, tmp_path, monkeypatch):
    """An image says where a gateway keeps its journal."""
    for name, value in {"JOURNAL": str(tmp_path / "journal"), "SHARDS": "99", "CQ": "/nowhere", "PEEK": "true"}.items():
        monkeypatch.setenv(f"HOBBYCHAIR_{name}", value)
    front = StartedFront("--config", str(file))
    try:
        assert front.said[-1].startswith("listening on ") and not list(tmp_path.glob("journal*"))
    finally:
        assert front.stop() == 0
