"""What operators do: addresses, configuration, health, metrics, logs, signals."""

import json
import os
import signal
import socket
import subprocess
import time
import urllib.error
import urllib.request
from concurrent.futures import ThreadPoolExecutor
from email.utils import parsedate_to_datetime
from pathlib import Path

import boto3
import pytest

from meanwhile import meanwhile
from operated import admin_url, get, is_well, metric, polls
from rules import FIFO
from started import START, ByBoto3, ByJson, ByQuery, Refused, Started, command, environment, programs_of, run
from waiting import pace, pass_time, until



@pytest.fixture(scope="module")
def gateway():
    with Started("--admin", "0") as started:
        yield started


# ---- for test suites


@pytest.mark.parametrize("way", [ByJson, ByQuery])
@pytest.mark.parametrize("journal", [False, True])
def test_without_pauses_queues_are_made_and_purged_at_once(tmp_path, way, journal):
    words = ["--journal", str(tmp_path / "journal")] if journal else []
    with Started("--no-pauses", *words, room=tmp_path) as started:
        call = way(started.url)

        def send(body: str) -> None:
            call("SendMessage", QueueUrl="q.fifo", MessageBody=body, MessageGroupId="g", MessageDeduplicationId=body)

        def bodies() -> list[str]:
            messages = call("ReceiveMessage", QueueUrl="q.fifo", MaxNumberOfMessages=10, VisibilityTimeout=0).get("Messages", [])
            return [message["Body"] for message in messages]

        for _ in range(3):
            call("CreateQueue", QueueName="q.fifo", Attributes=FIFO)
            send("a")
            send("b")
            for _ in range(2):
                call("PurgeQueue", QueueUrl="q.fifo")
            assert bodies() == []
            send("a")
            send("c")
            assert bodies() == ["c"], "a purge keeps the ids"
            call("DeleteQueue", QueueUrl="q.fifo")
        if journal:
            started.kill()
            started.start()
            call = way(started.url)
        call("CreateQueue", QueueName="q.fifo", Attributes=FIFO)
        send("a")
        assert bodies() == ["a"], "a queue that is made again has no ids"


# ---- where it listens


@pytest.mark.parametrize("host", ["127.0.0.1", "127.8.9.10", "localhost", "::1", "[::1]"])
def test_addresses_of_this_machine_are_served(host):
    with Started("--host", host) as started:
        assert ByJson(started.url)("ListQueues") == {}
        url = ByJson(started.url)("CreateQueue", QueueName="q.fifo", Attributes=FIFO)["QueueUrl"]
        assert url == f"{started.url}/000000000000/q.fifo"
        assert ByQuery(started.url)("GetQueueAttributes", QueueUrl=url)== {}


@pytest.mark.parametrize("host", ["0.0.0.0", "::", "[::]"])
def test_other_addresses_want_keys_or_open(host):
    ended = run("serve", "--host", host, "--port", "0")
    assert ended.returncode == 2 and ended.stdout == ""
    assert "without --credentials only this machine is served" in ended.stderr and "--open" in ended.stderr
    with Started("--host", host, "--open") as started:
        port = started.url.rsplit(":", 1)[-1]
        assert ByJson(f"http://127.0.0.1:{port}" if "." in host else f"http://[::1]:{port}")("ListQueues") == {}


@pytest.mark.parametrize("host", ["nowhere.invalid", "[127.0.0.1", "1.2.3.4.5"])
def test_a_host_that_is_none_is_told(host):
    ended = run("serve", "--host", host, "--port", "0")
    assert ended.returncode == 1 and f"can't listen on {host}:0" in ended.stderr


def test_urls_say_where_the_gateway_is_known():
    gateway = Started("--allowed-hosts", "queues.example")
    call = ByJson(gateway.url)
    call("CreateQueue", QueueName="url.fifo", Attributes=FIFO)
    body = b'{"QueueName":"url.fifo"}'
    headers = {"X-Amz-Target": "AmazonSQS.GetQueueUrl", "Content-Type": "application/x-amz-json-1.0"}
    for more, expected in [
        ({"Host": "queues.example"}, "http://queues.example/000000000000/url.fifo"),
        ({"Host": "queues.example", "X-Forwarded-Proto": "https"}, "https://queues.example/000000000000/url.fifo"),
    ]:
        request = urllib.request.Request(gateway.url, data=body, headers={**headers, **more})
        assert json.load(urllib.request.urlopen(request, timeout=20))["QueueUrl"] == expected
    assert gateway.stop() == 0
    with Started("--url", "https://known.example/sqs/", "--account", "123456789012") as started:
        url = ByJson(started.url)("CreateQueue", QueueName="q.fifo", Attributes=FIFO)["QueueUrl"]
        assert url == "https://known.example/sqs/123456789012/q.fifo"
        assert ByJson(started.url)("ListQueues") == {"QueueUrls": [url]}


# ---- what it is told


def test_a_file_says_what_options_say_and_options_go_first(tmp_path):
    file = tmp_path / "hobbychair.toml"
    file.write_text(
        'host = "127.0.0.2"\naccount = "111111111111"\nregion = "eu-west-1"\nadmin = 0\nlog = "json"\n'
        '[[queue]]\nname = "a.fifo"\nattributes = { FifoQueue = "true", VisibilityTimeout = "7" }\ntags = { team = "x" }\n'
        '[[queue]]\nname = "no name"\n[[queue]]\nname = "b.fifo"\nattributes = { FifoQueue = "true" }\n'
        '[[queue]]\nname = "standard"\nattributes = { DelaySeconds = "3" }\n'
    )
    with Started("--config", str(file), "--account", "222222222222") as started:
        assert started.url.startswith("http://127.0.0.2:")
        call = ByJson(started.url)
        urls = call("ListQueues")["QueueUrls"]
        names = ["a.fifo", "b.fifo", "standard"]
        assert [url.rsplit("/", 2)[1:] for url in urls] == [["222222222222", name] for name in names]
        told = call("GetQueueAttributes", QueueUrl=urls[0], AttributeNames=["All"])["Attributes"]
        assert told["VisibilityTimeout"] == "7" and told["QueueArn"] == "arn:aws:sqs:eu-west-1:222222222222:a.fifo"
        assert call("ListQueueTags", QueueUrl=urls[0]) == {"Tags": {"team": "x"}}
        is_well(started)


def test_variables_say_what_options_say_and_go_before_the_file(tmp_path, monkeypatch):
    file = tmp_path / "hobbychair.toml"
    file.write_text('account = "111111111111"\nregion = "eu-west-1"\n')
    monkeypatch.setenv("HOBBYCHAIR_CONFIG", str(file))
    monkeypatch.setenv("HOBBYCHAIR_ACCOUNT", "333333333333")
    with Started() as started:
        call = ByJson(started.url)
        url = call("CreateQueue", QueueName="q.fifo", Attributes=FIFO)["QueueUrl"]
        told = call("GetQueueAttributes", QueueUrl=url, AttributeNames=["QueueArn"])["Attributes"]
        assert told == {"QueueArn": "arn:aws:sqs:eu-west-1:333333333333:q.fifo"}


@pytest.mark.parametrize("text, said", [
    ("prot = 1", "prot"), ("port = 70000", "70000"), ('memory = "1MB"', "1MB is no size"), ("host =", "line 1"),
    ('log = "xml"', "xml"), ('[[queue]]\nnames = "a.fifo"', "names"), ("connections = 0", "connections"),
    ('certificate = "c.pem"', "key"), ("shards = 99", "shards"),
])
def test_a_file_that_is_wrong_ends_with_status_2(tmp_path, text, said):
    file = tmp_path / "hobbychair.toml"
    file.write_text(text)
    ended = run("serve", "--port", "0", "--config", str(file))
    assert ended.returncode == 2 and said in ended.stderr and ended.stdout == ""


@pytest.mark.parametrize("words", [
    ["--memory", "1MB"], ["--polls", "-1"], ["--log", "xml"], ["--admin", "here"], ["--url", "queues"], ["--open=maybe"],
    ["--certificate", "c.pem"], ["--key", "k.pem"], ["--journal-size", "1GiB"], ["--connections", "0"],
    ["--threads", "257"], ["--threads", "4000000000"], ["--connections", "1000001"], ["--polls", "4000000000"],
    ["--region", "us east"], ["--region", ""], ["--region", "a:b"], ["--cq-timeout", "0"], ["--cq-timeout", "3601"],
    ["--request-memory", "1MiB"], ["--allowed-hosts", "a:80"],
])
def test_words_that_are_wrong_end_with_status_2(words):
    ended = run("serve", "--port", "0", *words)
    assert ended.returncode == 2 and ended.stdout == "" and ended.stderr


def test_files_that_are_not_there_are_told(tmp_path):
    for option, status in (("--config", 2), ("--credentials", 1)):
        ended = run("serve", "--port", "0", option, str(tmp_path / "none"))
        assert ended.returncode == status and str(tmp_path / "none") in ended.stderr


# ---- what it tells


def test_health_and_metrics(gateway):
    admin = admin_url(gateway)
    is_well(gateway)
    call = ByJson(gateway.url)
    call("CreateQueue", QueueName="metrics.fifo", Attributes=FIFO)
    before = get(admin + "/metrics")[1]
    for place in range(3):
        call("SendMessage", QueueUrl="metrics.fifo", MessageBody="b", MessageGroupId=f"g{place}", MessageDeduplicationId=f"{place}")
    call("ReceiveMessage", QueueUrl="metrics.fifo")
    with pytest.raises(Refused):
        call("SendMessage", QueueUrl="metrics.fifo", MessageBody="b")
    status, text = get(admin + "/metrics")
    assert status == 200
    sent = 'hobbychair_requests_total{action="SendMessage",status="200"}'
    earlier = metric(before, sent) if sent in before else 0
    assert metric(text, sent) - earlier == 3
    assert metric(text, 'hobbychair_messages{queue="metrics.fifo",state="visible"}') == 2
    assert metric(text, 'hobbychair_messages{queue="metrics.fifo",state="in flight"}') == 1
    assert metric(text, 'hobbychair_request_duration_seconds_count{action="SendMessage"}') >= 3
    assert metric(text, "hobbychair_cq_restarts_total") == 0
    assert metric(text, "hobbychair_connections") >= 0
    assert get(admin + "/")[0] == 404
    # The protocol's own address has neither.
    assert get(gateway.url + "/health")[0] == 404


def test_health_says_that_it_starts(tmp_path):
    """A program that takes its time for its first answer keeps the gateway starting."""
    slow = tmp_path / "slow"
    slow.write_text(f'#!/bin/sh\n[ "$1" = server ] && sleep 3\nexec {os.environ["HOBBYCHAIR_CQ"]} "$@"\n')
    slow.chmod(0o755)
    process = subprocess.Popen(command("serve", "--port", "0", "--admin", "0", "--cq", str(slow)), env=environment(),
                               stdout=subprocess.PIPE, text=True)
    try:
        admin = process.stdout.readline().split()[-1]
        assert get(admin + "/health") == (503, "starting\n")
        assert get(admin + "/metrics")[0] == 200
        assert process.stdout.readline().startswith("listening on ")
        until(lambda: get(admin + "/health") == (200, "serving\n"), 20, "it doesn't serve")
    finally:
        process.terminate()
        assert process.wait(20) == 0


def logged(*words: str, level: str) -> list[str]:
    process = subprocess.Popen(command("serve", "--port", "0", "--log-level", level, *words), env=environment(),
                               stdout=subprocess.PIPE, stderr=subprocess.PIPE, text=True)
    url = process.stdout.readline().split()[-1]
    call = ByJson(url)
    call("CreateQueue", QueueName="q.fifo", Attributes=FIFO)
    call("SendMessage", QueueUrl="q.fifo", MessageBody="a secret body", MessageGroupId="g", MessageDeduplicationId="d")
    with pytest.raises(Refused):
        call("SendMessage", QueueUrl="none.fifo", MessageBody="another", MessageGroupId="g", MessageDeduplicationId="d")
    process.terminate()
    lines = process.communicate(timeout=20)[1].splitlines()
    assert process.returncode == 0
    return lines


def test_each_request_is_a_line_at_debug_and_no_body_is_told():
    lines = [json.loads(line) for line in logged("--log", "json", level="debug")]
    answered = [line for line in lines if line["message"] == "answered"]
    assert [(line["action"], line["queue"], line["status"]) for line in answered] == [
        ("CreateQueue", "q.fifo", 200), ("SendMessage", "q.fifo", 200), ("SendMessage", "none.fifo", 400)]
    assert all(line["request"] and line["peer"].startswith("127.0.0.1:") and line["level"] == "DEBUG" for line in answered)
    assert "secret" not in json.dumps(lines) and "another" not in json.dumps(lines)
    text = logged(level="debug")
    assert sum("answered" in line and "action=\"SendMessage\"" in line for line in text) == 2
    assert not any("answered" in line for line in logged(level="info"))


def test_nobody_waits_for_a_log_that_nobody_reads():
    process = subprocess.Popen(command("serve", "--port", "0", "--admin", "0", "--log-level", "debug"), env=environment(),
                               stdout=subprocess.PIPE, stderr=subprocess.PIPE, text=True)
    try:
        admin = process.stdout.readline().split()[-1]
        call = ByJson(process.stdout.readline().split()[-1])
        for _ in range(3000):
            with pytest.raises(Refused):
                call("SendMessage", QueueUrl="none.fifo", MessageBody="b", MessageGroupId="g", MessageDeduplicationId="d")
        assert metric(get(admin + "/metrics")[1], "hobbychair_log_lines_lost_total") > 100
        process.terminate()
        assert process.wait(20) == 0
    finally:
        process.kill()


def test_signatures_and_dates_go_by_the_wall_clock(tmp_path):
    """The clock of messages may be another one, and SDKs mend their own by the header Date."""
    keys = tmp_path / "keys.toml"
    keys.write_text('[[key]]\naccess_key = "A"\nsecret = "the secret of A"\n')
    with Started("--credentials", str(keys), room=tmp_path) as started:
        signed = boto3.client("sqs", endpoint_url=started.url, region_name="us-east-1", aws_access_key_id="A",
                              aws_secret_access_key="the secret of A")
        answer = signed.create_queue(QueueName="q")
        date = answer["ResponseMetadata"]["HTTPHeaders"]["date"]
        assert abs(parsedate_to_datetime(date).timestamp() - time.time()) < 60
        told = signed.get_queue_attributes(QueueUrl=answer["QueueUrl"], AttributeNames=["CreatedTimestamp"])
        assert told["Attributes"]["CreatedTimestamp"] == str(START // 1000)


def ticks(pids: list[int]) -> int:
    """The processor time of programs and of their threads, in hundredths of a second."""
    stats = [Path(f"/proc/{pid}/stat").read_text().rsplit(")", 1)[1].split() for pid in pids]
    return sum(int(stat[11]) + int(stat[12]) for stat in stats)


def test_a_gateway_that_nobody_asks_takes_no_processor_time(tmp_path):
    with Started("--journal", str(tmp_path / "journal"), "--admin", "0") as gateway:
        call = ByJson(gateway.url)
        for place in range(20):
            call("CreateQueue", QueueName=f"q{place}")
            call("SendMessage", QueueUrl=f"q{place}", MessageBody="b")
        call("CreateQueue", QueueName="empty")
        with ThreadPoolExecutor(1) as pool:
            poll = pool.submit(call, "ReceiveMessage", QueueUrl="empty", WaitTimeSeconds=8)
            pass_time(2, "what the asks before needed is done")
            programs = [gateway.process.pid, *programs_of(gateway)]
            before = ticks(programs)
            pass_time(5, "it is measured for so long")
            assert ticks(programs) - before <= 5, "a hundredth of a processor"
            assert poll.result() == {}


# ---- with few open files


def with_few_files(monkeypatch, tmp_path, count: int) -> None:
    """The gateways that are started from now on may open so many files, and write their logs to a file."""
    limited = tmp_path / "limited"
    limited.write_text(f'#!/bin/sh\nulimit -n {count}\nexec {command()[0]} "$@" 2>>{tmp_path}/log\n')
    limited.chmod(0o755)
    monkeypatch.setenv("HOBBYCHAIR_GATEWAY", str(limited))


def test_connections_leave_the_files_that_the_gateway_needs(monkeypatch, tmp_path):
    with_few_files(monkeypatch, tmp_path, 256)
    with Started("--journal", str(tmp_path / "journal"), "--admin", "0", "--connections", "500") as gateway:
        cut = "256 open files, so 120 connections are served at once, and not 500"
        until(lambda: cut in (tmp_path / "log").read_text(), 20, "nobody says how many connections are served")
        call = ByBoto3(gateway.client())
        call("CreateQueue", QueueName="q.fifo", Attributes=FIFO)
        idle = []
        for url in (gateway.url, admin_url(gateway)):
            host, port = url.removeprefix("http://").rsplit(":", 1)
            idle += [socket.create_connection((host, int(port)), timeout=20) for _ in range(200)]
        pass_time(0.5, "all places are taken by then, and nobody can ask")
        for place in range(5):
            (cq,) = programs_of(gateway)
            os.kill(cq, signal.SIGKILL)
            call("SendMessage", QueueUrl="q.fifo", MessageBody="b", MessageGroupId="g", MessageDeduplicationId=f"{place}")
        for connection in idle:
            connection.close()
        is_well(gateway)
        assert len(call("ReceiveMessage", QueueUrl="q.fifo", MaxNumberOfMessages=10)["Messages"]) == 5


def test_the_limit_of_open_files_is_raised(monkeypatch, tmp_path):
    """What a shell has is less than the connections need."""
    limited = tmp_path / "limited"
    limited.write_text(f'#!/bin/sh\nulimit -S -n 200\nexec {command()[0]} "$@"\n')
    limited.chmod(0o755)
    monkeypatch.setenv("HOBBYCHAIR_GATEWAY", str(limited))
    with Started("--connections", "400") as gateway:
        host, port = gateway.url.removeprefix("http://").rsplit(":", 1)
        idle = [socket.create_connection((host, int(port)), timeout=20) for _ in range(399)]
        for connection in idle:
            connection.sendall(b"GET / HTTP/1.1\r\nHost: localhost\r\n\r\n")
        assert {connection.recv(12) for connection in idle} == {b"HTTP/1.1 400"}
        assert ByJson(gateway.url)("ListQueues") == {}
        for connection in idle:
            connection.close()


def test_too_few_files_are_told(monkeypatch, tmp_path):
    with_few_files(monkeypatch, tmp_path, 64)
    assert run("serve", "--port", "0").returncode == 1
    assert "the system allows 64 open files, and the gateway needs" in (tmp_path / "log").read_text()


# ---- how it ends


def slow_start(tmp_path, seconds: int) -> subprocess.Popen:
    slow = tmp_path / "slow"
    slow.write_text(f'#!/bin/sh\n[ "$1" = server ] && sleep {seconds}\nexec {environment()["HOBBYCHAIR_CQ"]} "$@"\n')
    slow.chmod(0o755)
    process = subprocess.Popen(command("serve", "--port", "0", "--admin", "0", "--cq", str(slow)), env=environment(),
                               stdout=subprocess.PIPE, text=True)
    assert process.stdout.readline().startswith("health and metrics on ")
    return process


def test_a_hangup_during_the_start_ends_nothing(tmp_path):
    process = slow_start(tmp_path, 2)
    try:
        for _ in range(3):
            process.send_signal(signal.SIGHUP)
            pace(0.1)
        assert process.stdout.readline().startswith("listening on ")
    finally:
        process.terminate()
        assert process.wait(20) == 0


@pytest.mark.parametrize("number", [signal.SIGTERM, signal.SIGINT])
def test_a_signal_during_the_start_ends_it_well(tmp_path, number):
    process = slow_start(tmp_path, 60)
    try:
        process.send_signal(number)
        assert process.wait(20) == 0
    finally:
        process.kill()


@pytest.mark.parametrize("number", [signal.SIGTERM, signal.SIGINT])
def test_a_signal_answers_open_polls_and_ends_within_10_s(number):
    gateway = Started("--admin", "0")
    call = ByJson(gateway.url)
    call("CreateQueue", QueueName="q.fifo", Attributes=FIFO)

    def poll() -> tuple[dict, float]:
        begun = time.monotonic()
        return call("ReceiveMessage", QueueUrl="q.fifo", WaitTimeSeconds=20), time.monotonic() - begun

    idle = socket.create_connection(tuple(gateway.url.split("//")[1].split(":")), timeout=20)
    with meanwhile(*[poll] * 5) as answers:
        polls(gateway, 5)
        begun = time.monotonic()
        gateway.process.send_signal(number)
        assert gateway.process.wait(20) == 0
        # What isn't answered then is cut off behind eight seconds.
        assert time.monotonic() - begun < 7
    assert all(answer == {} and seconds < 15 for answer, seconds in (one.result() for one in answers))
    idle.close()


def test_two_gateways_do_not_share_a_port(gateway):
    port = gateway.url.rsplit(":", 1)[-1]
    ended = run("serve", "--port", port)
    assert ended.returncode == 1 and "can't listen" in ended.stderr
