"""A cluster whose processes have certificates: who is believed, and who isn't."""

from __future__ import annotations

import contextlib
import json
import os
import signal
import socket
import ssl
import struct
import subprocess
import threading
import time
import urllib.error
import urllib.request
from collections.abc import Iterator
from pathlib import Path

import pytest

import started
from certificates import Certificates, Chain, chain_of_many_names, chain_of_one_name, make
from cluster_oracle import check
from cluster_users import AWAY, FRONT, LINK, PING, STANDING, WELCOME, Users, about, frame, frames, greeting
from clusters import NAME, Cluster, Etcd, Proxy, run
from ports import free_ports
from started import StartedFront, boto3_client, gateway_program, program
from strangers import Stranger
from waiting import until


@pytest.fixture(scope="module")
def certificates(tmp_path_factory) -> Certificates:
    """Those of the cluster, and some that aren't for what they will be used."""
    made = Certificates(tmp_path_factory.mktemp("certificates"), NAME)
    for role in ("node", "front", "master"):
        made.has(role, role)
    made.make("--role", "node", "--name", "node3", "--days", "2")
    made.make_by_dates("node", "expired", "20200101000000Z", "20210101000000Z")
    return made


@pytest.fixture(scope="module")
def others(tmp_path_factory) -> Certificates:
    """Those of another authority, for a cluster of the same name."""
    made = Certificates(tmp_path_factory.mktemp("others"), NAME)
    made.has("node", "node")
    return made


@pytest.fixture(scope="module")
def of_another_cluster(certificates) -> str:
    """A node's certificate of the same authority."""
    done = make("--cluster", "another", "--folder", str(certificates.folder), "--role", "node", "--name", "another")
    assert done.returncode == 0, done.stderr
    return "another"


@pytest.fixture(scope="module")
def strange(tmp_path_factory) -> Chain:
    """A certificate that comes with 14 others, over which there are more ways than anybody can try."""
    return chain_of_one_name(tmp_path_factory.mktemp("strange"), 14)


def refused(*words: str) -> str:
    done = run(*words)
    assert done.returncode != 0, done
    return done.stderr


# ---- making them


def test_certificates_are_made_and_files_that_are_there_are_left(tmp_path):
    words = ["--cluster", "made", "--folder", str(tmp_path / "made")]
    assert "isn't there: without --role the authority is made" in make(*words, "--role", "node").stderr
    assert make(*words).returncode == 0
    done = make(*words, "--role", "node,master", "--name", "one", "--address", "10.0.0.1", "--address", "one.example.com")
    assert "one.pem is good for 365 days, as node and master" in done.stdout
    assert make(*words, "--role", "front", "--days", "2").returncode == 0
    files = {file.name: (file.stat().st_mode & 0o777, file.read_bytes()) for file in (tmp_path / "made").iterdir()}
    assert {name: mode for name, (mode, _) in files.items()} == {
        "authority.pem": 0o644, "authority.key": 0o600, "one.pem": 0o644, "one.key": 0o600, "front.pem": 0o644, "front.key": 0o600}
    told = subprocess.run(["openssl", "x509", "-in", str(tmp_path / "made" / "one.pem"), "-noout", "-ext", "subjectAltName"],
                          capture_output=True, text=True, check=True).stdout
    for name in ["DNS:node.made.hobbychair.internal", "DNS:master.made.hobbychair.internal", "IP Address:10.0.0.1", "DNS:one.example.com"]:
        assert name in told
    for more, why in [
        ([], "authority.pem is there already, and is left as it is"),
        (["--role", "node", "--name", "one"], "one.pem is there already"),
        (["--role", "node", "--name", "../one"], "is no name of files"),
        (["--role", "node", "--name", "two", "--address", "master.made.hobbychair.internal"], "is in the domain of roles"),
        (["--role", "node", "--name", "two", "--address", "a b"], "is no host and no address"),
        (["--role", "gateway"], "possible values: node, master, front, etcd"),
    ]:
        done = make(*words, *more)
        assert done.returncode != 0 and why in done.stderr, done
    assert "no name of a cluster with certificates" in make("--cluster", "Made", "--folder", str(tmp_path / "b")).stderr
    missing = subprocess.run([gateway_program(), "cluster", "certificates", "--cluster", "made", "--folder", str(tmp_path / "c")],
                             env={"PATH": str(tmp_path)}, capture_output=True, text=True)
    assert "there is no program openssl on the path: Debian's package openssl has it" in missing.stderr
    assert files == {file.name: (file.stat().st_mode & 0o777, file.read_bytes()) for file in (tmp_path / "made").iterdir()}
    assert not list((tmp_path / "c").iterdir())


# ---- a cluster


class Served:
    """A cluster, and a front of it."""

    def __init__(self, room: Path, certificates: Certificates) -> None:
        self.certificates = certificates
        self.cluster = Cluster(room, gateways=True, certificates=certificates)
        try:
            self.front = StartedFront(*self.cluster.which("front"))
            until(lambda: self.cluster.gateway_acts(1), 60, "no gateway acts")
        except BaseException:
            print(self.cluster.said())
            self.cluster.end()
            raise
        self.sqs = boto3_client(self.front.url, read_timeout=60)
        self.queue = self.sqs.create_queue(QueueName="q")["QueueUrl"]

    def goes_on(self) -> None:
        """A message goes through the whole chain."""
        self.sqs.send_message(QueueUrl=self.queue, MessageBody="a")
        [message] = self.sqs.receive_message(QueueUrl=self.queue, WaitTimeSeconds=5)["Messages"]
        self.sqs.delete_message(QueueUrl=self.queue, ReceiptHandle=message["ReceiptHandle"])

    def end(self) -> None:
        self.front.kill()
        self.cluster.end()


@pytest.fixture(scope="module")
def served(tmp_path_factory, certificates) -> Iterator[Served]:
    one = Served(tmp_path_factory.mktemp("served"), certificates)
    try:
        yield one
        one.goes_on()
        assert one.cluster.detected() == [] and one.cluster.chain()["members"] == [1, 2, 3]
    except BaseException:
        print(one.cluster.said())
        raise
    finally:
        one.end()


def logged(log: Path, said: str) -> contextlib.AbstractContextManager[None]:
    """What is done within is logged so."""
    @contextlib.contextmanager
    def looked_for() -> Iterator[None]:
        before = log.stat().st_size
        yield
        until(lambda: said in log.read_bytes()[before:].decode(), 30, f"not logged: {said}")
    return looked_for()


def registration(cluster: Cluster, server: int) -> dict[str, str]:
    key = f"{cluster.root}/node/{server:010}"
    return json.loads(cluster.etcd.read(key)[key])


def link(cluster: Cluster, sender: int, to: int, nonce: str, gone: list[int]) -> bytes:
    """The first frame of a link."""
    parts = struct.pack("<I", sender) + frames.text(nonce) + struct.pack("<II", to, len(gone))
    return frame(LINK, about(cluster) + parts + b"".join(struct.pack("<I", one) for one in gone))


def asked(port: int, context: ssl.SSLContext | None, name: str, data: bytes) -> tuple[int, bytes]:
    """The kind of the first frame that comes back, and what is in it; nothing where the connection ends."""
    try:
        with socket.create_connection(("127.0.0.1", port), timeout=10) as plain:
            with context.wrap_socket(plain, server_hostname=name) if context else contextlib.nullcontext(plain) as one:
                one.sendall(data)
                for found in frames.frames(one.makefile("rb")):
                    return found[1], found[2:]
    except (ConnectionError, ssl.SSLError, EOFError):
        pass
    return -1, b""


def test_clients_of_a_front_are_served(served):
    served.goes_on()
    assert served.queue.startswith(f"{served.front.url}/"), served.queue
    shown = run("cluster", "status", *served.cluster.which("master"))
    assert shown.stdout.splitlines()[2].split()[2] == "head", shown
    assert run("cluster", "log", *served.cluster.which("front")).returncode == 0


def test_an_end_that_is_near_is_logged(served):
    said = "this process's certificate expires within 14 days"
    served.cluster.node(3).logs(said)
    assert said not in served.cluster.node(1).log.read_text()


def test_strangers_at_a_node_are_refused(served, certificates, others, of_another_cluster):
    cluster = served.cluster
    node, name = cluster.node(1), certificates.name_of("node")
    hello = link(cluster, 2, 1, registration(cluster, 2)["nonce"], [])
    believed = certificates.client("node1")
    strange = ssl.create_default_context(cafile=str(certificates.file("authority.pem")))
    strange.load_cert_chain(others.file("node.pem"), others.file("node.key"))
    for context, said in [
        (None, "it doesn't speak TLS"),
        (certificates.client(None), "it shows no certificate"),
        (strange, "its certificate is of another authority"),
        (certificates.client("expired"), "its certificate has expired"),
        (certificates.client(of_another_cluster), f"its certificate is none of a node of cluster {NAME}"),
        (certificates.client("front"), f"its certificate is none of a node of cluster {NAME}"),
        (certificates.client("master"), f"its certificate is none of a node of cluster {NAME}"),
    ]:
        for data in (hello, greeting(cluster, 5000, 5000)):
            with logged(node.log, said):
                assert asked(node.port, context, name, data)[0] in (AWAY, -1), said
    for first, said in [
        # The right role and nonce, and a certificate that isn't that server's.
        (hello, "server 2 was registered with another certificate"),
        (link(cluster, 9, 1, "n", []), "server 9 isn't known here yet"),
        (link(cluster, 2, 7, registration(cluster, 2)["nonce"], []), "this is server 1, and not 7"),
    ]:
        with logged(node.log, said):
            kind, why = asked(node.port, believed, name, first)
            assert kind == AWAY and said in why.decode()
    # A front's is enough for a front, which is no client.
    witness = frame(FRONT, about(cluster)) + frame(PING, bytes(8))
    assert [asked(node.port, certificates.client(one), name, witness)[0] for one in ("front", "node1")] == [PING, PING]
    with logged(node.log, f"its certificate is none of a front or a node of cluster {NAME}"):
        assert asked(node.port, certificates.client("master"), name, witness)[0] in (AWAY, -1)
    # A node's certificate is enough for a client, and a link needs the one that is registered.
    assert asked(node.port, believed, name, greeting(cluster, 5000, 5000))[0] == STANDING
    assert asked(node.port, certificates.client("node2"), name, hello)[0] == WELCOME
    served.goes_on()


def get(url: str, context: ssl.SSLContext | None) -> int | None:
    """The status of an answer, if there is one."""
    try:
        with urllib.request.urlopen(url, timeout=10, context=context) as answer:
            return answer.status
    except urllib.error.HTTPError as error:
        return error.code
    except OSError:
        return None


def test_the_gateway_of_the_head_serves_fronts_alone(served, certificates, others, of_another_cluster):
    node = served.cluster.node(1)
    url = f"https://127.0.0.1:{node.gateway_port}/"
    strange = ssl.create_default_context(cafile=str(certificates.file("authority.pem")))
    strange.load_cert_chain(others.file("node.pem"), others.file("node.key"))
    for context, said in [
        (certificates.client(None), "it shows no certificate"),
        (strange, "its certificate is of another authority"),
        (certificates.client("expired"), "its certificate has expired"),
        (certificates.client(of_another_cluster), f"its certificate is none of a front or a node of cluster {NAME}"),
        (certificates.client("master"), f"its certificate is none of a front or a node of cluster {NAME}"),
    ]:
        with logged(node.log, said):
            assert get(url, context) is None, said
    with logged(node.log, "it doesn't speak TLS"):
        assert get(url.replace("https", "http"), None) is None
    assert [get(url, certificates.client(name)) for name in ("front", "node2")] == [400, 400]
    served.goes_on()


def test_a_gateway_shows_what_was_registered_whatever_stands_in_the_files(served, certificates):
    """Files are replaced while a process runs. What it begins later shows its old certificate still."""
    node, kept = served.cluster.node(1), {}
    for end in ("pem", "key"):
        kept[end] = certificates.file(f"node1.{end}").read_bytes()
        certificates.file(f"node1.{end}").write_bytes(certificates.file(f"node.{end}").read_bytes())
    try:
        old = node.gateway()
        os.kill(old, signal.SIGKILL)
        until(lambda: node.gateway() not in (None, old) and served.cluster.gateway_acts(1), 40, "no gateway acts")
        served.goes_on()
    finally:
        for end, data in kept.items():
            certificates.file(f"node1.{end}").write_bytes(data)


def test_who_is_asked_by_a_front_shows_what_was_registered(served, certificates):
    """Somebody else with a node's certificate where the gateway of the head is to be."""
    cluster, log = served.cluster, served.cluster.room / "front.log"
    key, was = f"{cluster.root}/node/{1:010}", registration(cluster, 1)
    [port] = free_ports(1)
    heard: list[bytes] = []
    with open(log, "wb") as out, Stranger(port, certificates.server("node"), lambda data: heard.append(data) or b""):
        cluster.etcd.write(key, json.dumps(was | {"gateway": f"127.0.0.1:{port}"}))
        front = subprocess.Popen(started.command("front", "--port", "0", *cluster.which("front")), stdout=out, stderr=out)
        try:
            until(lambda: "listening on " in log.read_text(), 30, "the front doesn't begin")
            url = next(line.split()[-1] for line in log.read_text().splitlines() if line.startswith("listening on "))
            with contextlib.suppress(OSError):
                urllib.request.urlopen(url, b"Action=ListQueues", timeout=1)
            until(lambda: "it shows another certificate than was registered" in log.read_text(), 30, "not logged")
            assert heard == [], "it was told something"
        finally:
            front.kill()
            front.wait()
            cluster.etcd.write(key, json.dumps(was, separators=(",", ":")))
    served.goes_on()


# ---- chains of certificates that take long to verify

TOO_MANY = "its certificate isn't taken: it comes with 14 others, and at most 2 are looked at"


def processor_time(process: int) -> float:
    """What a process has used so far, in seconds."""
    fields = Path(f"/proc/{process}/stat").read_text().rsplit(")", 1)[1].split()
    return (int(fields[11]) + int(fields[12])) / os.sysconf("SC_CLK_TCK")


class Attack:
    """Strangers who show that chain again and again, until the end of this."""

    def __init__(self, port: int, context: ssl.SSLContext, name: str) -> None:
        self.port, self.context, self.name, self.goes_on = port, context, name, True
        self.threads = [threading.Thread(target=self.run) for _ in range(3)]

    def run(self) -> None:
        while self.goes_on:
            assert asked(self.port, self.context, self.name, b"a")[0] == -1

    def __enter__(self) -> Attack:
        for thread in self.threads:
            thread.start()
        return self

    def __exit__(self, *_) -> None:
        self.goes_on = False
        for thread in self.threads:
            thread.join()


def quick(what) -> None:
    begun = time.monotonic()
    assert what()
    # To verify such a chain would take far longer.
    assert time.monotonic() - begun < 5, "a stranger holds others up"


def test_a_chain_of_many_certificates_holds_no_node_up(served, certificates, strange):
    node, name = served.cluster.node(1), certificates.name_of("node")
    context = strange.client(certificates.file("authority.pem"))
    used = processor_time(node.process.pid)
    with logged(node.log, TOO_MANY):
        assert asked(node.port, context, name, b"a")[0] == -1
    assert processor_time(node.process.pid) - used < 0.3
    believed, hello = certificates.client("node1"), greeting(served.cluster, 5000, 5000)
    with Attack(node.port, context, name):
        for _ in range(20):
            quick(lambda: asked(node.port, believed, name, hello)[0] == STANDING)
    served.goes_on()


def test_nor_does_one_of_many_names_with_constraints_on_names(served, certificates, tmp_path):
    """Each name would be compared with each constraint."""
    node, name = served.cluster.node(1), certificates.name_of("node")
    context = chain_of_many_names(tmp_path, 2500, 700).client(certificates.file("authority.pem"))
    used = processor_time(node.process.pid)
    with logged(node.log, "its certificate isn't taken: one that comes with it constrains names, which isn't supported"):
        for _ in range(10):
            assert asked(node.port, context, name, b"a")[0] == -1
    assert processor_time(node.process.pid) - used < 0.5


def test_nor_the_gateway_of_the_head(served, certificates, strange):
    node, name = served.cluster.node(1), certificates.name_of("node")
    context = strange.client(certificates.file("authority.pem"))
    used = processor_time(node.gateway())
    with logged(node.log, TOO_MANY):
        assert asked(node.gateway_port, context, name, b"a")[0] == -1
    assert processor_time(node.gateway()) - used < 0.3
    believed = certificates.client("front")
    with Attack(node.gateway_port, context, name):
        for _ in range(20):
            quick(lambda: get(f"https://127.0.0.1:{node.gateway_port}/", believed) == 400)
    served.goes_on()


@pytest.mark.parametrize("role", ["front", "master"])
def test_nor_whoever_is_shown_it_by_a_false_etcd(served, certificates, strange, tmp_path, role):
    """The good etcd is away for a while, and there is a false one where another member is to be."""
    cluster, log, [port] = served.cluster, tmp_path / "log", free_ports(1)
    proxy = Proxy(cluster.etcd.urls[0])
    which = [f"{proxy.url},https://127.0.0.1:{port}" if word in cluster.etcd.urls else word for word in cluster.which(role)]
    words = ["front", *which, "--port", "0"] if role == "front" else ["master", *which]
    environment = {**os.environ, "HOBBYCHAIR_CQ": program()}
    with open(log, "wb") as out, Stranger(port, strange.server(), lambda _: b""):
        process = subprocess.Popen([gateway_program(), *words], env=environment, stdout=out, stderr=out)
        try:
            begun = "requests go to the gateway of the head" if role == "front" else "a candidate for the master begins"
            until(lambda: begun in log.read_text(), 30, "it doesn't begin")
            used = processor_time(process.pid)
            proxy.cut()
            # (What a candidate writes of other things may name the same reason sooner.)
            until(lambda: any("no contact with etcd" in line and TOO_MANY in line for line in log.read_text().splitlines()), 20,
                 "not logged")
            if role == "front":
                until(lambda: "listening on " in log.read_text(), 20, "it doesn't listen")
                url = next(line.split()[-1] for line in log.read_text().splitlines() if line.startswith("listening on "))
                for _ in range(20):
                    quick(lambda: urllib.request.urlopen(url, b"Action=ListQueues", timeout=10).status == 200)
            proxy.mend()
            until(lambda: "in contact with etcd again" in log.read_text(), 20, "it doesn't find the good one again")
            assert processor_time(process.pid) - used < 2
        finally:
            process.kill()
            process.wait()
            proxy.end()


def test_nor_a_front_that_is_shown_it_by_a_false_node(served, certificates, strange, tmp_path):
    cluster, log = served.cluster, tmp_path / "log"
    key, was, [port] = f"{cluster.root}/node/{2:010}", registration(cluster, 2), free_ports(1)
    with open(log, "wb") as out, Stranger(port, strange.server(), lambda _: b""):
        cluster.etcd.write(key, json.dumps(was | {"address": f"127.0.0.1:{port}"}))
        front = subprocess.Popen(started.command("front", "--port", "0", *cluster.which("front")), stdout=out, stderr=out)
        try:
            until(lambda: "listening on " in log.read_text(), 30, "the front doesn't begin")
            url = next(line.split()[-1] for line in log.read_text().splitlines() if line.startswith("listening on "))
            until(lambda: f"no contact with a server server=2 error={TOO_MANY}" in log.read_text(), 30, "not logged")
            for _ in range(20):
                quick(lambda: urllib.request.urlopen(url, b"Action=ListQueues", timeout=10).status == 200)
        finally:
            front.kill()
            front.wait()
            cluster.etcd.write(key, json.dumps(was, separators=(",", ":")))
    served.goes_on()


def welcome(gone: list[int]) -> bytes:
    """What a link is answered: nothing was received so far, and these servers are gone."""
    return frame(WELCOME, struct.pack("<QI", 0, len(gone)) + b"".join(struct.pack("<I", one) for one in gone))


def test_nobody_takes_the_place_of_a_node_that_is_gone(tmp_path, certificates):
    """Links of users go on over losses and joins; and whoever listens where a node was isn't believed, even by a node's
    certificate, unless that is the one of the node itself."""
    cluster = Cluster(tmp_path, certificates=certificates)
    users = Users(cluster, 1)
    try:
        until(lambda: len(users.records) > 50, 40, "users aren't answered")
        cluster.stop_masters()
        port = cluster.node(3).port
        cluster.kill(3)
        with Stranger(port, certificates.server("node"), lambda _: welcome([1, 2])):
            for server in (1, 2):
                cluster.node(server).logs("a link is down to=3 error=it shows another certificate than was registered")
            cluster.masters_go_on()
            until(cluster.settles([1, 2]), 40, "it isn't detected")
        cluster.start_node()
        until(cluster.settles([1, 2, 4]), 40, "it doesn't join")
        answers = len(users.records)
        until(lambda: len(users.records) > answers + 50, 40, "users aren't answered")
        cluster.kill(1)
        until(cluster.settles([2, 4]), 40, "it isn't detected")
        users.stop()
        cluster.stop_masters()
        # The nodes are stopped by this.
        check(cluster, users)
        assert cluster.detected() == [3, 1] and all(cluster.node(server).lives() for server in (2, 4))
        # The same by the node's own certificate, so that it is this that was missing.
        port = cluster.node(4).port
        cluster.kill(4)
        with Stranger(port, certificates.server("node4"), lambda _: welcome([2])):
            cluster.node(2).go_on()
            until(lambda: not cluster.node(2).lives(), 30, "who has the node's certificate isn't believed")
    except BaseException:
        print(cluster.said())
        raise
    finally:
        cluster.masters_go_on()
        cluster.end()


# ---- what processes are told


def test_what_does_not_fit_ends_a_process_at_its_start(served, certificates, others, of_another_cluster):
    cluster = served.cluster
    etcd = ["--cluster", NAME, "--etcd", cluster.etcd.urls[0]]
    node = ["--listen", "127.0.0.1:0", "--join"]
    for words, why in [
        (["node", *etcd, *certificates.words("front"), *node], f"lacks the name node.{NAME}.hobbychair.internal"),
        (["node", *etcd, *certificates.words("expired"), *node], "it has expired"),
        (["node", *etcd, *certificates.words(of_another_cluster), *node], "lacks the name node."),
        (["node", *etcd, *certificates.words("node"), "--listen", "0.0.0.0:0", "--join"], "say one by --advertise"),
        (["node", *etcd, *certificates.words("node"), *node, "--gateway", "0.0.0.0:1"], "say one by --advertise-gateway"),
        (["node", *etcd, *certificates.words("node"), *node, "--advertise", "nowhere"], "is no address"),
        (["node", *etcd, *node], "isn't of http: for https give --certificate, --key and --authority"),
        (["master", *etcd, *certificates.words("node")], f"lacks the name master.{NAME}.hobbychair.internal"),
        (["cluster", "status", *etcd, *others.words("node")], "no member of etcd answers"),
        (["cluster", "status", *etcd, *certificates.words("node")[:-2], "--authority", str(others.file("authority.pem"))],
         "the authority hasn't signed it"),
        (["cluster", "status", *etcd, *certificates.words("node")[:4]], "--authority"),
        (["front", *etcd, *certificates.words("master"), "--port", "0"], f"lacks the name front.{NAME}.hobbychair.internal or node."),
        (["front", *etcd, *certificates.words("front")[:4], "--port", "0"], "are given together"),
        (["front", *certificates.words("front"), "--port", "0"], "are given together"),
    ]:
        said = refused(*words)
        assert why in said, (words, said)


@pytest.mark.parametrize("has_some", [True, False], ids=["with", "without"])
def test_a_cluster_is_with_certificates_or_without(tmp_path, certificates, has_some):
    """What a process has is what the cluster was made with."""
    with Etcd(tmp_path, certificates=certificates if has_some else None) as etcd:
        words = ["--cluster", NAME, "--etcd", etcd.urls[0], *(certificates.words("master") if has_some else [])]
        assert run("cluster", "create", *words, "--nodes", "1").returncode == 0
        key = f"hobbychair/{NAME}/cluster"
        settings = json.loads(etcd.read(key)[key])
        assert settings.pop("has_certificates", False) == has_some
        etcd.write(key, json.dumps(settings | ({} if has_some else {"has_certificates": True})))
        why = "was created without certificates" if has_some else "has certificates: give --certificate, --key and --authority"
        said = refused("cluster", "status", *words)
        assert f"cluster {NAME} {why}" in said, said


def test_a_whole_cluster_goes_up_with_certificates(tmp_path):
    folder = tmp_path / "up"
    words = [gateway_program(), "cluster", "up", "--nodes", "1", "--folder", str(folder), "--certificates"]
    up = subprocess.Popen(words, env={**os.environ, "HOBBYCHAIR_CQ": program()}, stdout=subprocess.PIPE, text=True)
    try:
        said = []
        for line in up.stdout:
            said.append(line)
            if "the cluster is up" in line:
                break
        url = next(line.split()[-1] for line in said if line.startswith("to send requests: "))
        sqs = boto3_client(url, read_timeout=60)
        queue = sqs.create_queue(QueueName="q")["QueueUrl"]
        sqs.send_message(QueueUrl=queue, MessageBody="a")
        assert sqs.receive_message(QueueUrl=queue, WaitTimeSeconds=5)["Messages"][0]["Body"] == "a"
        # What it says is done as it says it.
        for front in ("to look at it: hobbychair ", "to add a node: hobbychair "):
            line = next(line for line in said if line.startswith(front)).removeprefix(front).split()
            if line[0] == "cluster":
                assert run(*line).returncode == 0
                continue
            with subprocess.Popen([gateway_program(), *line], env={**os.environ, "HOBBYCHAIR_CQ": program()}, stdout=subprocess.PIPE) as node:
                assert node.stdout.readline().startswith(b"server 2 listens on ")
                node.kill()
    finally:
        up.send_signal(signal.SIGINT)
        assert up.wait(40) == 0
