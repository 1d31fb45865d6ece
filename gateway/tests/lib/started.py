"""A gateway that was started for tests, and three ways to call it."""

from __future__ import annotations

import base64
import json
import os
import re
import shutil
import subprocess
import tempfile
import urllib.error
import urllib.parse
import urllib.request
import uuid
import xml.etree.ElementTree
import zlib
from pathlib import Path
from typing import Any

import boto3
import botocore.exceptions
import spoken
from botocore.config import Config

TOP = Path(__file__).resolve().parents[3]
# Where modules are that programs of the tests may import.
LIBRARY = Path(__file__).resolve().parent
START = 1_700_000_000_000

def _with_small_journal(words: list[str]) -> list[str]:
    """The words. Where they name a journal and say nothing of its size, it is as small as can be."""
    if "--journal" not in words or "--journal-size" in words:
        return words
    programs = int(words[words.index("--shards") + 1]) if "--shards" in words else 1
    return [*words, "--journal-size", f"{96 * programs}MiB"]


def files_of(journal: Path) -> list[Path]:
    """The files of a journal, one for each program."""
    return sorted(journal.parent.glob(f"{journal.name}.cq[0-9]"))


def program() -> str:
    return os.environ.get("HOBBYCHAIR_CQ") or str(TOP / "crates" / "cq_main" / "out" / "cq_main")


def gateway_program() -> str:
    return os.environ.get("HOBBYCHAIR_GATEWAY") or str(TOP / "gateway" / "target" / "release" / "hobbychair")


def command(*words: str) -> list[str]:
    if words and words[0].startswith("--") and words[0] not in ("--help", "--version"):
        words = ("serve", *words)
    return [gateway_program(), *words]


def environment() -> dict[str, str]:
    return {**os.environ, "HOBBYCHAIR_CQ": program()}


def run(*words: str, timeout: float = 60, **variables: str) -> subprocess.CompletedProcess:
    """Runs the command to its end, with what is said in variables of the environment."""
    return subprocess.run(
        command(*words), env={**environment(), **variables}, timeout=timeout, capture_output=True, text=True
    )


def dumped(journal: Path) -> bytes:
    """The bytes of the stores by a journal, as `dump` writes them."""
    ended = run("dump", str(journal))
    assert ended.returncode == 0, ended.stderr
    lines = [json.loads(line) for line in ended.stdout.splitlines()]
    assert lines[-1]["kind"] == "entries"
    return b"".join(bytes.fromhex(line["chunk"]) for line in lines if line["kind"] == "store")


def names_in_store(journal: Path) -> set[str]:
    """The names that live in the stores by a journal. Nobody asks for anything meanwhile."""
    return {name for name, incarnation in all_names_in_store(journal).items() if incarnation is not None}


def all_names_in_store(journal: Path) -> dict[str, int | None]:
    """All names that the stores by a journal know, and which queue of its name is there, from 1; None where there is none."""
    return {name: incarnation for file in files_of(journal) for name, incarnation in _names_in(file).items()}


def _names_in(file: Path) -> dict[str, int | None]:
    with tempfile.TemporaryDirectory() as room:
        chunks = spoken.store_of(program(), shutil.copy(file, room))
    digits = "01" + b"".join(chunk[1:] for chunk in chunks).hex()
    words = subprocess.run([TOP / "check" / "wire", "store"], input=digits, capture_output=True, check=True, text=True).stdout
    names = re.findall(r"name ([0-9a-f]+) \d+ (?:\d+|none) (\d+|none)", words)
    incarnations = {name: None if incarnation == "none" else int(incarnation) for name, incarnation in names}
    return {bytes.fromhex(name).decode(): incarnation for name, incarnation in incarnations.items()}


class Refused(Exception):
    """An error of SQS, whichever way it came."""

    def __init__(self, code: str, status: int, shape: str | None = None) -> None:
        super().__init__(f"{code} {status}")
        self.code = code
        self.status = status
        self.shape = shape


class Started:
    """A running gateway."""

    kind = "serve"

    def __init__(self, *words: str, room: Path | None = None, errors: Path | None = None) -> None:
        """What it says of faults goes to the file `errors`, if there is one."""
        self.words, self.errors = _with_small_journal(list(words)), errors
        self.clock_file = None
        if room is not None:
            self.clock_file = room / "clock"
            self.set_clock(START)
            self.words += ["--clock-file", str(self.clock_file)]
        self.start()

    def start(self) -> None:
        self.process = subprocess.Popen(
            command(self.kind, "--port", "0", *self.words), env=environment(), stdout=subprocess.PIPE, text=True,
            stderr=self.errors and self.errors.open("w"),
        )
        assert self.process.stdout is not None
        self.said: list[str] = []
        for line in self.process.stdout:
            self.said.append(line.strip())
            if line.startswith("listening on "):
                self.url = line.split()[-1]
                return
        raise RuntimeError(f"the gateway ended with {self.process.wait()}: {self.said}")

    def set_clock(self, moment: int) -> None:
        assert self.clock_file is not None
        self.moment = moment
        new = self.clock_file.with_suffix(".new")
        new.write_text(str(moment))
        new.replace(self.clock_file)

    def kill(self) -> None:
        self.process.kill()
        self.process.wait()

    def stop(self) -> int:
        self.process.terminate()
        try:
            return self.process.wait(20)
        finally:
            self.process.kill()

    def __enter__(self) -> Started:
        return self

    def __exit__(self, error: type[BaseException] | None, *_: object) -> None:
        """It ends well. Where the test failed already, that says more."""
        status = self.stop()
        assert error or status == 0, f"the gateway ended with {status}"

    def client(self):
        return boto3_client(self.url)


class StartedFront(Started):
    """A running front of a cluster."""

    kind = "front"


def programs_of(gateway: Started) -> list[int]:
    """The processes of cq in the order of their shards: by the files that they keep, or else by their starts. Each thread of
    the gateway has a list of the children that it started. One that ends meanwhile leaves them to another: then all are read
    anew."""
    while True:
        lists = list(Path(f"/proc/{gateway.process.pid}/task").glob("*/children"))
        try:
            children = [int(child) for one in lists for child in one.read_text().split()]
            return sorted(children, key=lambda child: (_file_kept_by(child), child))
        except (FileNotFoundError, ProcessLookupError):
            continue


def _file_kept_by(child: int) -> str:
    words = Path(f"/proc/{child}/cmdline").read_text().split("\0")
    return words[words.index("--journal") + 1] if "--journal" in words else ""


def is_alive(process: int) -> bool:
    """Whether it runs still. One that has ended may be there until somebody has waited for it."""
    try:
        return Path(f"/proc/{process}/stat").read_text().rsplit(")", 1)[1].split()[0] != "Z"
    except OSError:
        return False


def memory_of(process: int) -> int:
    """What is resident of a process, in KiB."""
    return _status(process, "VmRSS")


def peak_of(process: int) -> float:
    """The most that was resident of it, in MiB."""
    return _status(process, "VmHWM") / 1024


def _status(process: int, row: str) -> int:
    return int(Path(f"/proc/{process}/status").read_text().split(f"{row}:")[1].split()[0])


def boto3_client(url: str | None, **more: Any):
    return boto3.client(
        "sqs",
        endpoint_url=url,
        region_name="us-east-1",
        aws_access_key_id="any",
        aws_secret_access_key="any",
        config=Config(retries={"max_attempts": 0}, max_pool_connections=64, **more),
    )


class ByBoto3:
    """Calls by the real client, in the protocol that its version speaks."""

    def __init__(self, client) -> None:
        self.client = client

    def __call__(self, action: str, **members: Any) -> dict[str, Any]:
        method = re.sub(r"(?<!^)(?=[A-Z])", "_", action).lower()
        try:
            result = getattr(self.client, method)(**members)
        except botocore.exceptions.ClientError as error:
            answer = error.response
            raise Refused(answer["Error"]["Code"], answer["ResponseMetadata"]["HTTPStatusCode"],
                          type(error).__name__) from None
        result.pop("ResponseMetadata", None)
        return result


def post(url: str, body: bytes, headers: dict[str, str]) -> tuple[int, dict[str, str], bytes]:
    request = urllib.request.Request(url, data=body, headers=headers, method="POST")
    try:
        with urllib.request.urlopen(request, timeout=60) as response:
            return response.status, _lower(response.headers), response.read()
    except urllib.error.HTTPError as error:
        return error.code, _lower(error.headers), error.read()


def _lower(headers) -> dict[str, str]:
    return {name.lower(): value for name, value in headers.items()}


class ByJson:
    """Calls in AWS JSON 1.0, written here."""

    def __init__(self, url: str, **headers: str) -> None:
        """`headers` go with each call, beside those that all have."""
        self.url, self.headers = url, headers

    def __call__(self, action: str, **members: Any) -> dict[str, Any]:
        headers = {"X-Amz-Target": f"AmazonSQS.{action}", "Content-Type": "application/x-amz-json-1.0",
                   "x-amzn-query-mode": "true"} | self.headers
        status, got, body = post(self.url + "/", json.dumps(members, default=_base64).encode(), headers)
        assert got["content-type"] == "application/x-amz-json-1.0" and got["x-amzn-requestid"]
        result = json.loads(body)
        if status != 200:
            code, fault = got["x-amzn-query-error"].split(";")
            assert fault == ("Sender" if status < 500 else "Receiver")
            raise Refused(code, status, result["__type"].split("#")[1])
        return _with_bytes(result)


def _base64(value: bytes) -> str:
    return base64.b64encode(value).decode()


def _with_bytes(result: Any) -> Any:
    if isinstance(result, dict):
        return {key: base64.b64decode(value) if key == "BinaryValue" else _with_bytes(value)
                for key, value in result.items()}
    return [_with_bytes(one) for one in result] if isinstance(result, list) else result


_FLAT = {"AttributeNames": "AttributeName", "MessageAttributeNames": "MessageAttributeName", "TagKeys": "TagKey",
         "AWSAccountIds": "AWSAccountId", "Actions": "ActionName",
         "MessageSystemAttributeNames": "MessageSystemAttributeName"}
_PAIRS = {"Attributes": ("Attribute", "Name"), "Tags": ("Tag", "Key"), "tags": ("Tag", "Key"),
          "MessageAttributes": ("MessageAttribute", "Name"), "MessageSystemAttributes": ("MessageSystemAttribute", "Name")}
_RESULT_PAIRS = {"Attribute": ("Attributes", "Name"), "Tag": ("Tags", "Key"), "MessageAttribute": ("MessageAttributes", "Name")}


class ByQuery:
    """Calls in the older query form, written here: to the queue's own URL, where there is one."""

    def __init__(self, url: str) -> None:
        self.url = url

    def __call__(self, action: str, **members: Any) -> dict[str, Any]:
        url = self.url + "/"
        queue = members.pop("QueueUrl", None)
        fields = {"Action": action, "Version": "2012-11-05", **self._flat(action, members)}
        if queue is not None and queue.startswith("http"):
            url = queue
        elif queue is not None:
            fields["QueueUrl"] = queue
        body = urllib.parse.urlencode(fields).encode()
        status, got, answer = post(url, body, {"Content-Type": "application/x-www-form-urlencoded"})
        assert got["content-type"].startswith("text/xml")
        root = xml.etree.ElementTree.fromstring(re.sub(rb' xmlns="[^"]*"', b"", answer))
        if status != 200:
            assert root.tag == "ErrorResponse" and root.findtext("RequestId")
            assert root.findtext("Error/Type") == ("Sender" if status < 500 else "Receiver")
            raise Refused(root.findtext("Error/Code"), status)
        assert root.tag == f"{action}Response" and root.findtext("ResponseMetadata/RequestId")
        result = root.find(f"{action}Result")
        return {} if result is None else self._members(result)

    def _flat(self, action: str, members: dict[str, Any]) -> dict[str, str]:
        flat: dict[str, str] = {}
        for name, value in members.items():
            if name in _FLAT:
                flat.update({f"{_FLAT[name]}.{place}": one for place, one in enumerate(value, 1)})
            elif name in _PAIRS:
                tag, key = _PAIRS[name]
                for place, (one, content) in enumerate(value.items(), 1):
                    flat[f"{tag}.{place}.{key}"] = one
                    inner = content if isinstance(content, dict) else {"": content}
                    for part, text in inner.items():
                        text = _base64(text) if isinstance(text, bytes) else text
                        flat[f"{tag}.{place}.Value{'.' + part if part else ''}"] = text
            elif name == "Entries":
                if not value:
                    flat["Entries"] = ""
                for place, entry in enumerate(value, 1):
                    inner = self._flat(action, entry)
                    flat.update({f"{action}RequestEntry.{place}.{part}": text for part, text in inner.items()})
            else:
                flat[name] = str(value)
        return flat

    def _members(self, element) -> dict[str, Any]:
        found: dict[str, Any] = {}
        for child in element:
            if child.tag in _RESULT_PAIRS:
                member, key = _RESULT_PAIRS[child.tag]
                value = child.find("Value")
                content: Any = value.text or ""
                if len(value):
                    content = {part.tag: base64.b64decode(part.text) if part.tag == "BinaryValue" else part.text
                               for part in value}
                found.setdefault(member, {})[child.findtext(key)] = content
            elif child.tag == "Message" and len(child):
                found.setdefault("Messages", []).append(self._members(child))
            elif child.tag.endswith("BatchResultEntry"):
                found.setdefault("Successful", []).append(self._members(child))
            elif child.tag == "BatchResultErrorEntry":
                found.setdefault("Failed", []).append(self._members(child))
            elif child.tag == "QueueUrl" and element.tag == "ListQueuesResult":
                found.setdefault("QueueUrls", []).append(child.text)
            elif child.tag == "ListMessageMoveTasksResultEntry":
                found.setdefault("Results", []).append(self._members(child))
            elif child.tag == "QueueUrl" and element.tag == "ListDeadLetterSourceQueuesResult":
                found.setdefault("queueUrls", []).append(child.text)
            else:
                found[child.tag] = {"true": True, "false": False}.get(child.text, child.text or "")
        return found


def known_again(journal: Path, queue: str, handle: str) -> str:
    """The handle for the handing that another one names: its check is made by the secret that the book of the queue's program has."""
    programs = re.findall(rb'"program":\{"place":(\d+),"count":(\d+),"secret":"([0-9a-f-]{36})"', dumped(journal))
    place = zlib.crc32(queue.encode()) % int(programs[-1][1])
    (*_, secret) = (secret for own, _, secret in programs if int(own) == place)
    numbers = base64.urlsafe_b64decode(handle + "=" * (-len(handle) % 4))[:32]
    check = siphash(uuid.UUID(secret.decode()).bytes, numbers)
    return base64.urlsafe_b64encode(numbers + check.to_bytes(8, "big")).rstrip(b"=").decode()


def siphash(key: bytes, data: bytes) -> int:
    """SipHash-2-4, as its authors describe it."""
    mask = (1 << 64) - 1
    words = [int.from_bytes(key[place:place + 8], "little") for place in (0, 8)]
    v = [start ^ words[place % 2] for place, start in enumerate(
        (0x736F6D6570736575, 0x646F72616E646F6D, 0x6C7967656E657261, 0x7465646279746573))]

    def turned(word: int, by: int) -> int:
        return (word << by | word >> 64 - by) & mask

    def rounds(count: int) -> None:
        for _ in range(count):
            v[0], v[2] = v[0] + v[1] & mask, v[2] + v[3] & mask
            v[1], v[3] = turned(v[1], 13) ^ v[0], turned(v[3], 16) ^ v[2]
            v[0] = turned(v[0], 32)
            v[2], v[0] = v[2] + v[1] & mask, v[0] + v[3] & mask
            v[1], v[3] = turned(v[1], 17) ^ v[2], turned(v[3], 21) ^ v[0]
            v[2] = turned(v[2], 32)

    whole = data + b"\0" * (7 - len(data) % 8) + bytes([len(data) % 256])
    for place in range(0, len(whole), 8):
        word = int.from_bytes(whole[place:place + 8], "little")
        v[3] ^= word
        rounds(2)
        v[0] ^= word
    v[2] ^= 0xFF
    rounds(4)
    return v[0] ^ v[1] ^ v[2] ^ v[3]


def handing(message: dict[str, Any]) -> int:
    """Which handing of a message the store says this is, by its receipt handle."""
    text = message["ReceiptHandle"]
    return int.from_bytes(base64.urlsafe_b64decode(text + "=" * (-len(text) % 4))[24:32], "big")
