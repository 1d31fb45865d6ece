"""Purges that are cut off are brought to their end (API Reference, PurgeQueue)."""


import pytest

from kept import Kept
from started import Refused, handing
from waiting import until

COUNT = 40


class Purged(Kept):
    """A queue with messages of which some were handed out, some are in flight, and some wait behind these."""

    def __init__(self, room, end: str, *words: str) -> None:
        super().__init__(room, *words, steered=True)
        self.fifo, self.name = bool(end), f"q{end}"
        self.create(self.name, VisibilityTimeout="600")
        for number in range(COUNT):
            self.send(str(number))
        self.receive(2)
        self.receive(3, VisibilityTimeout=0)
        if not end:
            self.send("delayed", DelaySeconds=60)

    def send(self, body: str, **more) -> dict:
        if self.fifo:
            more = {"MessageGroupId": f"g{len(body)}{body[-1]}", "MessageDeduplicationId": body}
        return self.call("SendMessage", QueueUrl=self.name, MessageBody=body, **more)

    def receive(self, count: int = 10, **more) -> list[dict]:
        return super().receive(self.name, MaxNumberOfMessages=count, **more)

    def is_taken(self, body: str, **more) -> bool:
        """Whether a send is taken. One that is open while the program ends at something else, and again, fails and isn't there."""
        try:
            self.send(body, **more)
        except Refused as refused:
            assert refused.code == "InternalFailure", refused
            return False
        return True

    def counts(self) -> list[int]:
        return super().counts(self.name)

    def purge(self) -> None:
        self.call("PurgeQueue", QueueUrl=self.name)


@pytest.fixture(params=["", ".fifo"])
def kind(request) -> str:
    return request.param


@pytest.mark.parametrize("passing", [0, 1, 3, 20, COUNT - 1])
def test_a_purge_that_is_cut_off_is_finished_by_a_start(tmp_path, kind, passing):
    purged = Purged(tmp_path, kind)
    assert purged.cut_off(purged.purge, '"kind":"delete"', passing=passing)
    assert purged.counts() == [0, 0, 0]
    with pytest.raises(Refused, match="PurgeQueueInProgress"):
        purged.purge()
    purged.gateway.set_clock(purged.gateway.moment + 60_000)
    assert purged.receive() == []
    if kind:
        # Deduplication ids stay.
        purged.send("1")
    purged.send("new")
    (message,) = purged.receive()
    assert (message["Body"], handing(message)) == ("new", 1)
    purged.purge()
    assert purged.counts() == [0, 0, 0]
    assert purged.gateway.stop() == 0


def test_a_purge_that_fails_goes_on_and_leaves_what_was_sent_since(tmp_path, kind):
    purged = Purged(tmp_path, kind, "--no-pauses")
    purged.cq.tell(end='"kind":"delete"')
    with pytest.raises(Refused, match="InternalFailure"):
        purged.purge()
    assert purged.cq.ends() >= 2
    for body, more in (("new1", {}), ("new2", {}), *([] if kind else [("late", {"DelaySeconds": 60})])):
        until(lambda: purged.is_taken(body, **more), 20, f"{body} isn't taken")
    purged.cq.tell()
    until(lambda: purged.counts() == [2, 0, int(not kind)], 20, "it isn't finished")
    found = purged.receive()
    assert [(message["Body"], handing(message)) for message in found] == [("new1", 1), ("new2", 1)]
    purged.restart()
    assert purged.counts() == [0, 2, int(not kind)]
    assert purged.gateway.stop() == 0
