"""What is said of queues stands in the store: creations and removals that are cut off, changes, and books begun anew."""

from collections.abc import Callable
from functools import partial
from pathlib import Path

import pytest

from kept import Kept
from meanwhile import at_once, meanwhile
from started import ByJson, Refused, Started
from waiting import pace, pass_time, until

TAGS = {"team": "shop", "kind": "remove"}
MOMENTS = ["CreatedTimestamp", "LastModifiedTimestamp"]


class Books(Kept):
    """A gateway whose `cq` waits or ends where it is told to."""

    def __init__(self, room: Path) -> None:
        super().__init__(room, "--no-pauses", steered=True)

    def create(self, name: str = "q", timeout: int = 7) -> None:
        self.call("CreateQueue", QueueName=name, Attributes={"VisibilityTimeout": str(timeout)}, tags=TAGS)

    def send(self, body: str, name: str = "q", **more) -> None:
        self.call("SendMessage", QueueUrl=name, MessageBody=body, **more)

    def bodies(self, name: str = "q") -> list[str]:
        return super().bodies(name, VisibilityTimeout=0)

    def shown(self, name: str = "q") -> tuple[dict, dict]:
        attributes = self.call("GetQueueAttributes", QueueUrl=name, AttributeNames=["All"])["Attributes"]
        return attributes, self.call("ListQueueTags", QueueUrl=name).get("Tags", {})

    def cut(self, passing: int, what: Callable[[], None]) -> bool:
        return self.cut_off(what, '"kind":"create"', '"queue":"book', '"kind":"remove"', passing=passing)


@pytest.fixture
def kept(tmp_path):
    with Books(tmp_path) as kept:
        yield kept


def test_a_creation_that_is_cut_off_is_there_whole_or_not_at_all(kept):
    kept.create("other", 9)
    kept.send("another's", "other")
    before, passing, found = kept.store_names(), 0, []
    while kept.cut(passing, kept.create):
        found.append(kept.names())
        assert found[-1] in (["other"], ["other", "q"])
        if "q" in found[-1]:
            assert kept.shown()[0]["VisibilityTimeout"] == "7" and kept.shown()[1] == TAGS
            kept.call("DeleteQueue", QueueUrl="q")
        # Nothing is left of it in the store.
        until(lambda: kept.store_names() == before, 20, "what was cut off is there still")
        passing += 1
    assert found[:2] == [["other"], ["other"]] and kept.names() == ["other", "q"]
    assert kept.bodies() == [] and kept.bodies("other") == ["another's"]
    assert kept.shown()[1] == TAGS and kept.shown("other")[0]["VisibilityTimeout"] == "9"


@pytest.mark.parametrize("delayed", [False, True])
def test_a_removal_that_is_cut_off_is_finished_or_not_begun(kept, delayed):
    kept.create()
    kept.send("m")
    if delayed:
        kept.send("late", DelaySeconds=600)
    before, passing, found = kept.shown(), 0, []
    while kept.cut(passing, lambda: kept.call("DeleteQueue", QueueUrl="q")):
        found.append(kept.names())
        if found[-1] == ["q"]:
            assert kept.shown() == before and kept.bodies() == ["m"]
        else:
            until(lambda: all(name.startswith("book") for name in kept.store_names()), 20, "the queue is there still")
            kept.create()
            assert kept.bodies() == [] and kept.shown()[0]["ApproximateNumberOfMessagesDelayed"] == "0"
            kept.send("m")
            if delayed:
                kept.send("late", DelaySeconds=600)
            before = kept.shown()
        passing += 1
    # What looks after books may ask for a removal, too, which is one ask more.
    assert len(found) >= 2 + delayed and found == [["q"], *[[]] * (len(found) - 1)] and kept.names() == []
    kept.restart()
    assert kept.names() == []


@pytest.mark.parametrize("passing", range(3))
def test_a_program_that_ends_at_a_creation_or_a_removal_is_asked_again(kept, passing):
    for action in (kept.create, lambda: kept.call("DeleteQueue", QueueUrl="q")):
        kept.cq.tell(each=['"kind":"create"', '"queue":"book', '"kind":"remove"'], kill=True, **{"pass": passing})
        action()
        kept.cq.tell()
    assert kept.names() == []
    kept.restart()
    assert kept.names() == []


def test_a_change_that_ends_the_program_each_time_changes_nothing(kept):
    kept.create()
    before = kept.shown()
    for action, end, more in (
            ("TagQueue", "poison", {"QueueUrl": "q", "Tags": {"a": "poison"}}), ("DeleteQueue", "removed", {"QueueUrl": "q"}),
            ("SetQueueAttributes", "8765", {"QueueUrl": "q", "Attributes": {"VisibilityTimeout": "8765"}}),
            ("CreateQueue", "poison", {"QueueName": "r", "tags": {"a": "poison"}})):
        kept.cq.tell(end=end)
        with pytest.raises(Refused, match="InternalFailure"):
            kept.call(action, **more)
    kept.cq.tell()
    until(lambda: kept.store_names() == {"1.fifo", "book1.fifo"}, 20, "another name is there still")
    for _ in range(2):
        assert kept.shown() == before and kept.names() == ["q"]
        kept.restart()


def test_changes_at_once_are_all_there(kept):
    kept.create()
    keys = [f"key{number}" for number in range(40)]
    kept.call("TagQueue", QueueUrl="q", Tags={key: key for key in keys})
    kept.cq.tell(hold='"queue":"book')
    with meanwhile(*[partial(kept.call, "UntagQueue", QueueUrl="q", TagKeys=[key]) for key in keys]):
        until(lambda: kept.cq.holds() > 0, 10, "no change comes to cq")
        pass_time(0.3, "the other changes have come by then, and wait for that one")
        kept.cq.tell()
    for _ in range(2):
        assert kept.shown()[1] == TAGS
        kept.restart()


def test_creations_of_one_name_at_once_are_one(kept):
    answers = at_once([lambda: kept.call("CreateQueue", QueueName="q")["QueueUrl"]] * 20)
    assert len(set(answers)) == 1 and kept.store_names() == {"1.fifo", "book1.fifo"}


@pytest.mark.parametrize("passing", [None, 0, 1, 4, 6])
def test_a_book_is_begun_anew_when_most_of_it_is_old(kept, passing):
    """The gateway is killed while that is done, and goes on with it."""
    for name in ("q", "r", "s"):
        kept.create(name)
        kept.send(f"m of {name}", name)
    kept.create("gone")
    kept.call("DeleteQueue", QueueUrl="gone")
    large = {f"{number:03}": "v" * 250 for number in range(40)}
    for turn in range(80):
        kept.call("TagQueue", QueueUrl="q", Tags={**large, "turn": str(turn)})
    assert kept.store_names() == {"1.fifo", "2.fifo", "3.fifo", "book1.fifo"}

    def fill(turns: int) -> None:
        for turn in range(80, 80 + turns):
            kept.call("TagQueue", QueueUrl="q", Tags={"turn": str(turn)})
            pace(0.05)

    if passing is None:
        fill(40)
    else:
        before = kept.cq.ends()
        # It goes on until it is cut off.
        kept.cut_off(partial(fill, 400), '"queue":"book2', '"queue":"book1.fifo"}', passing=passing)
        assert kept.cq.ends() > before
    until(lambda: "book1.fifo" not in kept.store_names(), 20, "the first book is there still")
    assert kept.store_names() == {"1.fifo", "2.fifo", "3.fifo", "book2.fifo"}
    shown = [kept.shown(name) for name in ("q", "r", "s")]
    assert shown[0][1].keys() == {*TAGS, *large, "turn"} and int(shown[0][1]["turn"]) >= 79 and shown[1][1] == TAGS
    for _ in range(2):
        kept.restart()
        assert [kept.shown(name) for name in ("q", "r", "s")] == shown and kept.names() == ["q", "r", "s"]
        assert [kept.bodies(name) for name in ("q", "r", "s")] == [["m of q"], ["m of r"], ["m of s"]]


def test_a_removal_is_told_in_a_book_that_was_begun_anew(tmp_path):
    with Started("--journal", str(tmp_path / "journal"), room=tmp_path) as gateway:
        call = ByJson(gateway.url)
        for name in ("q", "gone"):
            call("CreateQueue", QueueName=name)
        call("DeleteQueue", QueueUrl="gone")
        large = {f"{number:03}": "v" * 250 for number in range(40)}
        for turn in range(120):
            call("TagQueue", QueueUrl="q", Tags={**large, "turn": str(turn)})
        data = lambda: b"".join(file.read_bytes() for file in tmp_path.glob("journal*"))
        # A removal's byte, and the length of the name, as an entry is kept (docs/JOURNAL.md).
        until(lambda: b"\x03\x04\x03\x02\x03\x0dbook1.fifo" in data(), 20, "the first book isn't removed")
        gateway.kill()
        gateway.start()
        with pytest.raises(Refused, match="QueueDeletedRecently"):
            ByJson(gateway.url)("CreateQueue", QueueName="gone")
        gateway.set_clock(gateway.moment + 60_000)
        ByJson(gateway.url)("CreateQueue", QueueName="gone")
