"""Queues that are created and removed again: what `cq` keeps of their names counts, and leaves the rest to messages."""

from itertools import count

import pytest

from started import ByJson, Refused, Started

# A quarter of what `--memory` says has room for so many names of 1,700 bytes, and one for so many removals of 1,850, which count for
# a minute.
MOST = (1 << 20) // 4 // 1700
REMOVALS = (1 << 20) // 4 // 1850


def use_up(call: ByJson, prefix: str) -> int:
    """Creates queues and removes them again until one is refused. Tells how many there were."""
    for number in count():
        try:
            url = call("CreateQueue", QueueName=f"{prefix}{number}")["QueueUrl"]
        except Refused as error:
            assert (error.code, error.status) == ("OverLimit", 403)
            return number
        call("DeleteQueue", QueueUrl=url)
    raise AssertionError


@pytest.mark.parametrize("kept", [True, False], ids=["journal", "memory"])
def test_names_of_removed_queues_use_up_no_more_than_their_part(tmp_path, kept):
    words = ["--journal", str(tmp_path / "journal")] if kept else []
    gateway = Started("--memory", "1MiB", *words, room=tmp_path)
    call = ByJson(gateway.url)
    call("CreateQueue", QueueName="stays")
    first = use_up(call, "first")
    assert REMOVALS - 8 <= first <= REMOVALS + 8
    gateway.set_clock(gateway.moment + 60_000)
    assert MOST - 8 <= first + use_up(call, "more") <= MOST + 8
    # What is there goes on.
    for number in range(50):
        call("SendMessage", QueueUrl="stays", MessageBody=str(number))
    assert len(call("ReceiveMessage", QueueUrl="stays", MaxNumberOfMessages=10)["Messages"]) > 0
    if kept:
        assert gateway.stop() == 0
        gateway.start()
        call = ByJson(gateway.url)
        assert use_up(call, "second") <= 8
        call("SendMessage", QueueUrl="stays", MessageBody="more")
    assert gateway.stop() == 0
