"""Receipt handles that clients make by themselves, of those that they were given."""

import base64
import zlib
from pathlib import Path

import pytest

from rules import FIFO
from started import ByJson, Refused, Started, known_again, run



def numbers_of(handle: str) -> list[int]:
    """The moment, the queue, the message and the handing."""
    data = base64.urlsafe_b64decode(handle + "=" * (-len(handle) % 4))
    return [int.from_bytes(data[place:place + 8], "big") for place in range(0, 32, 8)]


def texts_of(numbers: list[int], check: bytes) -> list[str]:
    """Handles of these numbers as someone writes them who has no key: with the check of another one, and with sums."""
    data = b"".join(number.to_bytes(8, "big") for number in numbers)
    crc = zlib.crc32(data).to_bytes(4, "big")
    checks = [check, crc, crc + crc, b"\0" * 8, b""]
    return [base64.urlsafe_b64encode(data + one).rstrip(b"=").decode() for one in checks]


def receive(call: ByJson, queue: str) -> list[dict]:
    return call("ReceiveMessage", QueueUrl=queue, MaxNumberOfMessages=10, VisibilityTimeout=600).get("Messages", [])


@pytest.mark.parametrize("words", [[], ["--journal"], ["--journal", "--shards"]], ids=["in memory", "journal", "shards"])
def test_who_was_given_one_handle_makes_none_of_another_message(tmp_path, words):
    """With the rights to delete and to hide alone such a client would have all that is in flight with others."""
    options = [part for word in words for part in ((word, str(tmp_path / "journal")) if word == "--journal" else (word, "2"))]
    with Started(*options, room=tmp_path) as gateway:
        call = ByJson(gateway.url)
        for queue, attributes, member in (("q.fifo", FIFO, {"MessageGroupId": "g"}), ("s", {}, {})):
            call("CreateQueue", QueueName=queue, Attributes=attributes)
            for body in ("mine", "another's"):
                dedup = {"MessageDeduplicationId": body} if queue == "q.fifo" else {}
                call("SendMessage", QueueUrl=queue, MessageBody=body, **member, **dedup)
            mine, other = receive(call, queue)
            numbers, check = numbers_of(mine["ReceiptHandle"]), base64.urlsafe_b64decode(mine["ReceiptHandle"] + "==")[32:]
            forged = [numbers[0], numbers[1], numbers[2] + 1, 1]
            # All but the check is guessed right.
            assert forged == numbers_of(other["ReceiptHandle"])
            for handle in texts_of(forged, check):
                for action, more in (("DeleteMessage", {}), ("ChangeMessageVisibility", {"VisibilityTimeout": 0})):
                    with pytest.raises(Refused, match="ReceiptHandleIsInvalid"):
                        call(action, QueueUrl=queue, ReceiptHandle=handle, **more)
            call("ChangeMessageVisibility", QueueUrl=queue, ReceiptHandle=other["ReceiptHandle"], VisibilityTimeout=0)
            assert [one["Body"] for one in receive(call, queue)] == (["another's"] if queue == "s" else [])
            call("DeleteMessage", QueueUrl=queue, ReceiptHandle=mine["ReceiptHandle"])


def restored(journal: Path, copy: Path) -> Path:
    made = run("backup", str(journal), str(copy))
    assert made.returncode == 0, made.stderr
    return copy


@pytest.mark.parametrize("what", ["start", "restore"])
@pytest.mark.parametrize("shards", [1, 2])
def test_handles_stay_what_they_are(tmp_path, what, shards):
    journal, words = tmp_path / "journal", ["--shards", str(shards)]
    gateway = Started("--journal", str(journal), *words)
    call, handles = ByJson(gateway.url), {}
    for queue in ("a", "b", "c"):
        call("CreateQueue", QueueName=queue, Attributes={"VisibilityTimeout": "600"})
        call("SendMessage", QueueUrl=queue, MessageBody=queue)
        (message,) = receive(call, queue)
        handles[queue] = message["ReceiptHandle"]
        # The key is what the book keeps, and nothing else.
        assert handles[queue] == known_again(journal, queue, handles[queue])
    (gateway.kill if what == "start" else gateway.stop)()
    with Started("--journal", str(journal if what == "start" else restored(journal, tmp_path / "copy")), *words) as gateway:
        call = ByJson(gateway.url)
        for queue, handle in handles.items():
            call("ChangeMessageVisibility", QueueUrl=queue, ReceiptHandle=handle, VisibilityTimeout=300)
            call("DeleteMessage", QueueUrl=queue, ReceiptHandle=handle)
            told = call("GetQueueAttributes", QueueUrl=queue, AttributeNames=["All"])["Attributes"]
            assert told["ApproximateNumberOfMessagesNotVisible"] == "0"
