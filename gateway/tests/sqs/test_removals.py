"""Removals: a queue that was removed stays so, and what clients write removes none."""


import pytest

from rules import FIFO, new_name
from started import ByJson, Started, names_in_store
from steered import SteeredCq
from waiting import until

LIKE_A_REMOVAL = {"kind": "remove", "queue": "1.fifo", "removed": "q.fifo"}


def names(call) -> list[str]:
    return [url.rsplit("/", 1)[-1] for url in call("ListQueues").get("QueueUrls", [])]


@pytest.mark.parametrize("how", ["TagQueue", "CreateQueue"])
def test_a_tag_removes_no_queue(tmp_path, how):
    gateway = Started("--journal", str(tmp_path / "journal"), room=tmp_path)
    call = ByJson(gateway.url)
    call("CreateQueue", QueueName="q.fifo", Attributes=FIFO, tags=LIKE_A_REMOVAL if how == "CreateQueue" else {})
    for body in "abc":
        call("SendMessage", QueueUrl="q.fifo", MessageBody=body, MessageGroupId="g", MessageDeduplicationId=body)
    if how == "TagQueue":
        call("TagQueue", QueueUrl="q.fifo", Tags=LIKE_A_REMOVAL)
    assert gateway.stop() == 0
    for _ in range(2):
        gateway.start()
        call = ByJson(gateway.url)
        assert names(call) == ["q.fifo"] and call("ListQueueTags", QueueUrl="q.fifo")["Tags"] == LIKE_A_REMOVAL
        gateway.kill()
    gateway.start()
    messages = ByJson(gateway.url)("ReceiveMessage", QueueUrl="q.fifo", MaxNumberOfMessages=10)["Messages"]
    assert [message["Body"] for message in messages] == ["a", "b", "c"]
    assert gateway.stop() == 0


def test_a_removal_that_ends_the_program_each_time_ends_no_gateway(tmp_path):
    """It is tried again and again, and nothing else is asked. The queue is gone, and its name goes from the store as soon as
    it can."""
    cq, journal = SteeredCq(tmp_path), tmp_path / "journal"
    with Started("--journal", str(journal), *cq.words(), room=tmp_path) as gateway:
        call = ByJson(gateway.url)
        call("CreateQueue", QueueName="q.fifo", Attributes=FIFO)
        cq.tell(end='"kind":"remove"')
        call("DeleteQueue", QueueUrl="q.fifo")
        until(lambda: cq.ends() >= 6 or gateway.process.poll() is not None, 60, "nothing is tried again and again")
        assert gateway.process.poll() is None and names(call) == []
        cq.tell()
        until(lambda: "1.fifo" not in names_in_store(journal), 20, "the queue is there still")
        for _ in range(2):
            gateway.kill()
            gateway.start()
            assert names(ByJson(gateway.url)) == []


def test_removals_and_creations_of_one_name_follow_each_other(tmp_path):
    with Started("--journal", str(tmp_path / "journal"), "--no-pauses", room=tmp_path) as gateway:
        name = new_name()
        for turn in range(3):
            call = ByJson(gateway.url)
            call("CreateQueue", QueueName=name, Attributes=FIFO)
            call("SendMessage", QueueUrl=name, MessageBody=str(turn), MessageGroupId="g", MessageDeduplicationId="d")
            call("DeleteQueue", QueueUrl=name)
        call("CreateQueue", QueueName=name, Attributes=FIFO)
        gateway.kill()
        gateway.start()
        call = ByJson(gateway.url)
        assert names(call) == [name] and "Messages" not in call("ReceiveMessage", QueueUrl=name)
