"""The command line, and what is said where the gateway can't start or has to end."""

import os
import shutil
import signal
import subprocess
import urllib.error

import pytest

from started import TOP, ByJson, Started, environment, is_alive, programs_of, run
from waiting import until


@pytest.mark.parametrize("words", [
    ["live"], ["--port", "x"], ["--port", "65536"], ["--servers", "3"], ["--account", "1"], ["dump"], ["serve", "extra"],
])
def test_bad_words_end_with_status_2(words):
    ended = run(*words)
    assert ended.returncode == 2 and ended.stdout == ""
    assert ended.stderr.startswith("error: ")


def test_a_word_that_is_none_is_told_in_a_few_lines():
    ended = run("serve", "--prot", "1")
    assert ended.returncode == 2 and "--port" in ended.stderr and "hobbychair serve [OPTIONS]" in ended.stderr
    assert "clock-file" not in ended.stderr and max(map(len, ended.stderr.splitlines())) < 120


def test_a_variable_that_is_empty_says_nothing(monkeypatch):
    for name in ("JOURNAL", "PORT", "OPEN", "CREDENTIALS", "CONFIG", "MEMORY", "LOG"):
        monkeypatch.setenv(f"HOBBYCHAIR_{name}", "")
    with Started() as gateway:
        assert gateway.url.startswith("http://127.0.0.1:") and ByJson(gateway.url)("ListQueues") == {}


def test_help_names_the_commands():
    ended = run("--help")
    assert ended.returncode == 0 and "dump" in ended.stdout and "serve" in ended.stdout
    assert "--journal" in run("serve", "--help").stdout


@pytest.mark.parametrize("shell", ["bash", "zsh", "fish"])
def test_completions_know_commands_and_options(shell):
    ended = run("completions", shell)
    assert ended.returncode == 0 and ended.stderr == ""
    assert all(word in ended.stdout for word in ("serve", "verify", "journal-size"))


def test_both_programs_have_one_version():
    version = run("--version").stdout.split()[1]
    told = subprocess.run([environment()["HOBBYCHAIR_CQ"], "--version"], capture_output=True, text=True, timeout=60)
    assert told.stdout == f"cq {version}\n"


def test_a_missing_program_is_told():
    for words, variables in ([["--cq", "/nowhere/cq"], {}], [[], {"HOBBYCHAIR_CQ": "/nowhere/cq"}]):
        ended = run("--port", "0", *words, **variables)
        said = f"hobbychair: /nowhere/cq is no program: ./cq --build at the top of the repository builds cq\n"
        assert ended.returncode == 1 and ended.stderr == said


def test_a_checkout_whose_program_is_not_built_is_told(tmp_path):
    script = shutil.copy(TOP / "cq", tmp_path)
    ended = run("--port", "0", "--cq", script)
    said = f"hobbychair: the program isn't built. To prove and build it: {script} --build\n"
    assert ended.returncode == 1 and ended.stderr == said


def test_a_port_that_is_taken_is_told():
    with Started() as gateway:
        port = gateway.url.rsplit(":", 1)[-1]
        ended = run("--port", port)
        assert ended.returncode == 1 and len(ended.stderr.splitlines()) == 1 and "can't listen" in ended.stderr


def test_a_gateway_whose_cq_is_gone_ends_and_says_so():
    gateway = Started()
    call = ByJson(gateway.url)
    call("CreateQueue", QueueName="q.fifo", Attributes={"FifoQueue": "true"})
    (cq,) = programs_of(gateway)
    os.kill(cq, signal.SIGKILL)
    assert gateway.process.wait(20) == 1
    with pytest.raises(urllib.error.URLError):
        call("ListQueues")


def test_cq_ends_with_the_gateway():
    gateway = Started()
    (cq,) = programs_of(gateway)
    gateway.kill()
    until(lambda: not is_alive(cq), 20, "cq runs still")


def test_a_history_is_judged_by_its_status(tmp_path):
    example = TOP / "examples" / "histories" / "two-at-once.jsonl"
    refuted = run("check", str(example))
    assert (refuted.returncode, refuted.stderr) == (1, "hobbychair: the rules don't allow this history\n")
    assert refuted.stdout.startswith("line 5, ReceiveMessage: it handed m2")
    good = tmp_path / "good.jsonl"
    good.write_text("\n".join(example.read_text().splitlines()[:4]))
    assert (run("check", str(good)).returncode, run("check", str(good)).stdout) == (0, "4 answers are as the rules say; of 0 they say nothing\n")
    good.write_text("{}\n")
    bad = run("check", str(good))
    assert bad.returncode == 2 and bad.stderr.startswith("hobbychair: line 1 is no line of a history: missing field")
    assert run("check", str(tmp_path / "none")).returncode == 1
