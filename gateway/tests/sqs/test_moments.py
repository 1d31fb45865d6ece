"""Deletes and changes that are with `cq` at the same time are decided in their order."""

from concurrent.futures import ThreadPoolExecutor

import pytest

from rules import new_queue
from started import ByJson, Refused, Started
from steered import SteeredCq
from waiting import holds, until


@pytest.fixture
def slow(tmp_path):
    """A gateway and its `cq`, which can be steered."""
    cq = SteeredCq(tmp_path)
    with Started(*cq.words(), "--admin", "0", room=tmp_path) as gateway:
        yield gateway, cq


@pytest.mark.parametrize("first, is_deleted", [
    (("ChangeMessageVisibility", {"VisibilityTimeout": 100}), True),
    (("ChangeMessageVisibility", {"VisibilityTimeout": 0}), False),
    (("DeleteMessage", {}), True),
])
def test_a_delete_is_decided_behind_what_was_asked_before_it(slow, first, is_deleted):
    """What was asked first is of a moment before the end of the timeout, and isn't answered when the delete comes.

    Behind a change to 0 the delete comes before the timeout that the tables still have would end.
    """
    gateway, cq = slow
    call = ByJson(gateway.url)
    queue = new_queue(call, VisibilityTimeout="10")
    call("SendMessage", QueueUrl=queue, MessageBody="b", MessageGroupId="g", MessageDeduplicationId="d")
    (message,) = call("ReceiveMessage", QueueUrl=queue)["Messages"]
    action, members = first
    with ThreadPoolExecutor(2) as pool:
        cq.tell(hold='"op":"arrive"')
        asked = pool.submit(call, action, QueueUrl=queue, ReceiptHandle=message["ReceiptHandle"], **members)
        until(lambda: cq.holds() == 1, 10, "cq isn't asked")
        if members != {"VisibilityTimeout": 0}:
            gateway.set_clock(gateway.moment + 10_000)
        delete = pool.submit(call, "DeleteMessage", QueueUrl=queue, ReceiptHandle=message["ReceiptHandle"])
        holds(lambda: not asked.done() and not delete.done(), 0.3, "one of them is answered")
        cq.tell()
        asked.result(10)
        if is_deleted:
            delete.result(10)
        else:
            with pytest.raises(Refused, match="InvalidParameterValue"):
                delete.result(10)
    gateway.set_clock(gateway.moment + 200_000)
    assert len(call("ReceiveMessage", QueueUrl=queue).get("Messages", [])) == (0 if is_deleted else 1)
