"""Clients that others wrote: Terraform, the AWS CLI, Celery and the AWS SDK for Go. They wait most of the time, so all run
side by side, each with a gateway of its own."""

import hashlib
import importlib.util
import json
import os
import shutil
import signal
import subprocess
import sys
import time
from collections import Counter
from collections.abc import Callable, Iterator
from concurrent.futures import ThreadPoolExecutor
from contextlib import contextmanager, suppress
from pathlib import Path
from typing import Any

import boto3
import pytest

from started import LIBRARY, TOP, Started, gateway_program, program
from waiting import until

FILES = Path(__file__).parent / "clients"
REGISTRY = "registry.terraform.io"
ACCESS_KEY = "CLIENT"
SECRET = "secret-of-the-client"
# Both in seconds: what one program or one wait may take, on a machine that is slow and busy, and what a task of Celery
# has.
LONGEST = 900
VISIBILITY_TIMEOUT = 30

Scenario = Callable[[Path], None]
_scenarios: dict[str, Scenario] = {}


def side_by_side(missing: str | None) -> Callable[[Scenario], Callable[..., None]]:
    """Makes a test of a scenario, which begins with the first test of this file, in a thread of its own and in a new
    folder. Where something is missing, the test is skipped."""

    def test_of(scenario: Scenario) -> Callable[..., None]:
        name = scenario.__name__
        if missing is None:
            _scenarios[name] = scenario

        def test(running) -> None:
            running[name].result()

        test.__name__, test.__doc__ = name, scenario.__doc__
        return pytest.mark.skipif(missing is not None, reason=missing or "")(test)

    return test_of


@pytest.fixture(scope="module")
def running(request, tmp_path_factory):
    """The runs of the scenarios whose tests were selected, by name."""
    selected = [item.name for item in request.session.items if item.module is request.module]
    with ThreadPoolExecutor(len(_scenarios)) as pool:
        yield {name: pool.submit(_scenarios[name], tmp_path_factory.mktemp(name))
               for name in selected if name in _scenarios}


@contextmanager
def served(*words: str) -> Iterator[Started]:
    with Started(*words) as gateway:
        yield gateway


@contextmanager
def served_with_keys(room: Path) -> Iterator[Started]:
    keys = room / "keys.toml"
    keys.write_text(f'[[key]]\naccess_key = "{ACCESS_KEY}"\nsecret = "{SECRET}"\n')
    with served("--credentials", str(keys)) as gateway:
        yield gateway


def settings(**more: str) -> dict[str, str]:
    """An environment with the key, and with nothing else that says how AWS is reached."""
    inherited = {name: value for name, value in os.environ.items() if not name.startswith(("AWS_", "TF_"))}
    return {**inherited, "AWS_ACCESS_KEY_ID": ACCESS_KEY, "AWS_SECRET_ACCESS_KEY": SECRET,
            "AWS_DEFAULT_REGION": "us-east-1", "AWS_CONFIG_FILE": os.devnull,
            "AWS_SHARED_CREDENTIALS_FILE": os.devnull, "AWS_EC2_METADATA_DISABLED": "true", "NO_PROXY": "127.0.0.1",
            "LC_ALL": "C.UTF-8", **more}


class EndedBadly(Exception):
    """A program ended with another status than 0."""


def run(*words: str, cwd: Path, env: dict[str, str]) -> str:
    """What a program writes that ends well."""
    ran = subprocess.run(words, cwd=cwd, env=env, stdin=subprocess.DEVNULL, capture_output=True, text=True,
                         timeout=LONGEST)
    if ran.returncode != 0:
        raise EndedBadly(f"{words} ended with {ran.returncode}:\n{ran.stdout}{ran.stderr}")
    return ran.stdout


def signing_client(gateway: Started):
    session = boto3.session.Session(ACCESS_KEY, SECRET, region_name="us-east-1")
    return session.client("sqs", endpoint_url=gateway.url)


# Terraform

def folder_of_providers() -> Path | None:
    """The folder that holds the AWS provider: the one that a variable names, or one of those two below the root."""
    named = os.environ.get("HOBBYCHAIR_TEST_PROVIDERS")
    folders = [Path(named)] if named else [found.parent for found in Path(os.sep).glob(f"*/*/{REGISTRY}")]
    return next((folder for folder in folders if list(folder.glob(f"{REGISTRY}/hashicorp/aws/*"))), None)


def missing_for_terraform() -> str | None:
    if shutil.which("terraform") is None:
        return "terraform isn't on the path"
    if folder_of_providers() is None:
        return "no folder with the AWS provider of Terraform is there"
    return None


@side_by_side(missing_for_terraform())
def test_terraform_makes_queues_and_removes_them(room):
    """It finds the queues as its configuration says them, and signs what it asks."""
    with served_with_keys(room) as gateway:
        folder = room / "configuration"
        folder.mkdir()
        shutil.copy(FILES / "queues.tf", folder)
        env = settings(TF_VAR_endpoint=gateway.url, TF_CLI_CONFIG_FILE=os.devnull, TF_INPUT="0", CHECKPOINT_DISABLE="1")

        def terraform(*words: str) -> None:
            run("terraform", *words, "-no-color", cwd=folder, env=env)

        terraform("init", f"-plugin-dir={folder_of_providers()}")
        terraform("apply", "-auto-approve")
        sqs = signing_client(gateway)
        names = [url.rsplit("/", 1)[-1] for url in sqs.list_queues()["QueueUrls"]]
        assert names == ["dead-fifo.fifo", "dead-standard", "orders-fifo.fifo", "orders-standard"]
        url = sqs.get_queue_url(QueueName="orders-fifo.fifo")["QueueUrl"]
        told = sqs.get_queue_attributes(QueueUrl=url, AttributeNames=["All"])["Attributes"]
        assert (told["DelaySeconds"], told["KmsMasterKeyId"]) == ("5", "alias/aws/sqs")
        assert json.loads(told["RedrivePolicy"])["maxReceiveCount"] == 4
        assert sqs.list_queue_tags(QueueUrl=url)["Tags"] == {"kind": "fifo", "team": "shop"}
        terraform("plan", "-detailed-exitcode")
        terraform("destroy", "-auto-approve")
        assert "QueueUrls" not in sqs.list_queues()


# The AWS CLI

BODY = "a body with \"quotes\", <angles> & an é,\nand a second line"
ATTRIBUTES = {"kind": {"StringValue": "an ö", "DataType": "String"},
              "count": {"StringValue": "12.50", "DataType": "Number"}}

Cli = Callable[..., dict[str, Any]]


def cli(gateway: Started, room: Path, **more: str) -> Cli:
    env = settings(AWS_PAGER="", **more)

    def call(action: str, **members: Any) -> dict[str, Any]:
        words = [word for name, value in members.items() for word in (
            f"--{name.replace('_', '-')}", value if isinstance(value, str) else json.dumps(value))]
        wrote = run("aws", "--endpoint-url", gateway.url, "--output", "json", "sqs", action, *words, cwd=room, env=env)
        return json.loads(wrote or "{}")

    return call


def counts_by_cli(aws: Cli, url: str) -> tuple[str, str]:
    told = aws("get-queue-attributes", queue_url=url, attribute_names="All")["Attributes"]
    return told["ApproximateNumberOfMessages"], told["ApproximateNumberOfMessagesNotVisible"]


def session_of_cli(aws: Cli, name: str, attributes: dict[str, str], **order: str) -> None:
    """All that is done with a queue and its messages. Its timeout is longer than all of this can take."""
    attributes = {"VisibilityTimeout": "3600", **attributes}
    url = aws("create-queue", queue_name=name, attributes=attributes, tags={"team": "shop"})["QueueUrl"]
    assert aws("list-queues", queue_name_prefix=name)["QueueUrls"] == [url]
    sent = aws("send-message", queue_url=url, message_body=BODY, message_attributes=ATTRIBUTES, **order)
    assert sent["MD5OfMessageBody"] == hashlib.md5(BODY.encode()).hexdigest()
    (message,) = aws("receive-message", queue_url=url, message_attribute_names="All")["Messages"]
    assert (message["Body"], message["MessageAttributes"]) == (BODY, ATTRIBUTES)
    for member in ("MessageId", "MD5OfMessageAttributes"):
        assert message[member] == sent[member]
    aws("send-message", queue_url=url, message_body="another body", **order)
    assert counts_by_cli(aws, url) == ("1", "1")
    aws("delete-message", queue_url=url, receipt_handle=message["ReceiptHandle"])
    assert counts_by_cli(aws, url) == ("1", "0")
    aws("purge-queue", queue_url=url)
    assert counts_by_cli(aws, url) == ("0", "0")
    aws("delete-queue", queue_url=url)


def sessions_of_cli(aws: Cli) -> None:
    session_of_cli(aws, "orders.fifo", {"FifoQueue": "true", "ContentBasedDeduplication": "true"}, message_group_id="g")
    session_of_cli(aws, "orders", {"ReceiveMessageWaitTimeSeconds": "1"})


missing_for_cli = None if shutil.which("aws") else "aws isn't on the path"


@side_by_side(missing_for_cli)
def test_the_aws_cli_does_all_with_messages(room):
    with served() as gateway:
        sessions_of_cli(cli(gateway, room))


@side_by_side(missing_for_cli)
def test_the_aws_cli_signs(room):
    with served_with_keys(room) as gateway:
        with pytest.raises(EndedBadly, match="SignatureDoesNotMatch"):
            cli(gateway, room, AWS_SECRET_ACCESS_KEY="another secret")("list-queues")
        sessions_of_cli(cli(gateway, room))


# The AWS SDK for Go, which compares the digests of bodies by itself

SDK = Path(os.environ.get("GOPATH") or "/usr/share/gocode") / "src" / "github.com" / "aws" / "aws-sdk-go"


def missing_for_go() -> str | None:
    if shutil.which("go") is None:
        return "golang-go isn't installed"
    return None if SDK.is_dir() else "golang-github-aws-aws-sdk-go-dev isn't installed"


@side_by_side(missing_for_go())
def test_the_aws_sdk_for_go_finds_the_digests_that_it_makes(room):
    run(str(TOP / "check" / "clients"), cwd=room,
        env=settings(HOBBYCHAIR_GATEWAY=gateway_program(), HOBBYCHAIR_CQ=program()))


# Celery

def missing_for_celery() -> str | None:
    absent = [name for name in ("celery", "pycurl") if importlib.util.find_spec(name) is None]
    return f"python3-{absent[0]} isn't installed" if absent else None


@contextmanager
def worker(room: Path, env: dict[str, str]) -> Iterator[None]:
    """A worker of Celery with two processes, which are all killed in the end, whatever they do."""
    with (room / "log").open("a") as log:
        process = subprocess.Popen(
            [sys.executable, "-m", "celery", "--app", "tasks", "worker", "--concurrency", "2", "--loglevel", "info"],
            cwd=FILES, env=env, stdin=subprocess.DEVNULL, stdout=log, stderr=log, start_new_session=True)
        try:
            yield
            assert process.poll() is None
        finally:
            with suppress(ProcessLookupError):
                os.killpg(process.pid, signal.SIGKILL)
            process.wait()


def told_by(room: Path) -> Counter[str]:
    file = room / "told"
    return Counter(file.read_text().splitlines() if file.exists() else [])


def wait_until(condition: Callable[[], bool], room: Path) -> None:
    until(condition, LONGEST, lambda: f"{told_by(room)}\n{(room / 'log').read_text()}", 0.1)


def in_flight(sqs, url: str) -> int:
    """How many messages are in flight. There must be no others."""
    names = ["ApproximateNumberOfMessages", "ApproximateNumberOfMessagesNotVisible"]
    told = sqs.get_queue_attributes(QueueUrl=url, AttributeNames=names)["Attributes"]
    assert told[names[0]] == "0"
    return int(told[names[1]])


@side_by_side(missing_for_celery())
def test_celery_does_each_task_and_the_one_of_a_killed_worker_again(room):
    """Tasks are done once each. The message of one with `acks_late`, whose worker is killed, comes again after the
    timeout."""
    with served_with_keys(room) as gateway:
        broker = gateway.url.replace("http://", f"sqs://{ACCESS_KEY}:{SECRET}@")
        env = settings(TASKS_ROOM=str(room), TASKS_BROKER=f"{broker}//", PYTHONDONTWRITEBYTECODE="1", PYTHONPATH=str(LIBRARY),
                       TASKS_VISIBILITY_TIMEOUT=str(VISIBILITY_TIMEOUT))
        run(sys.executable, "tasks.py", cwd=FILES, env=env)
        sqs = signing_client(gateway)
        url = sqs.get_queue_url(QueueName="celery")["QueueUrl"]
        first = Counter(["begun late", *(f"done {place}" for place in range(10))])
        with worker(room, env):
            wait_until(lambda: told_by(room) >= first, room)
            begun = time.monotonic()
            wait_until(lambda: in_flight(sqs, url) == 1, room)
        assert told_by(room) == first
        (room / "allowed").touch()
        with worker(room, env):
            wait_until(lambda: told_by(room)["done late"] > 0, room)
            assert time.monotonic() - begun > VISIBILITY_TIMEOUT / 2
            wait_until(lambda: in_flight(sqs, url) == 0, room)
        assert told_by(room) == first + Counter(["begun late", "done late"])
