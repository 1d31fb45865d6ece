"""Names of the store that are used again: nothing of a queue that is gone touches the one that has its name by now."""

import os
import signal
import time
from concurrent.futures import ThreadPoolExecutor

import pytest

from kept import Kept
from meanwhile import meanwhile
from operated import polls
from rules import arn, policy
from started import ByJson, Refused, Started, all_names_in_store, names_in_store, programs_of
from waiting import pace, pass_time

# A minute, and the five in which ids count.
PAUSE = 360_000


class Named(Kept):
    """What is done with queues that come and go."""

    def end(self, what: str) -> None:
        """Ends nothing, cq, or the gateway, which is started again then."""
        if what == "cq":
            os.kill(programs_of(self.gateway)[0], signal.SIGKILL)
        elif what != "nothing":
            if what == "gateway":
                self.gateway.kill()
            else:
                assert self.gateway.stop() == 0
            self.gateway.start()

    def queues_in_store(self) -> dict[str, int]:
        """The queues of clients that stand in the store, and which ones of their names they are."""
        found = all_names_in_store(self.journal).items()
        return {name: incarnation for name, incarnation in found if incarnation and not name.startswith("b")}

    def create_as(self, stored: str, name: str, **attributes: str) -> str:
        """Creates a queue that has this name in the store, which is free. It waits once more where the gateway itself still has the queue
        before, as in a sweep of all queues, or in what it does next once `cq` is there again."""
        for _ in range(4):
            queue = self.create(name, **attributes)
            if stored in self.queues_in_store():
                return queue
            self.call("DeleteQueue", QueueUrl=queue)
            self.move(PAUSE)
        raise AssertionError(f"no queue gets the name {stored}")

    def send(self, queue: str, body: str, **more) -> dict:
        ids = {"MessageGroupId": f"g{body}", "MessageDeduplicationId": f"d{body}"} if queue.endswith(".fifo") else {}
        given = {name: value for name, value in {**ids, **more}.items() if value is not None}
        return self.call("SendMessage", QueueUrl=queue, MessageBody=body, **given)

    def receive(self, queue: str, **more) -> list[dict]:
        return super().receive(queue, **{"VisibilityTimeout": 43_200, "AttributeNames": ["All"], **more})


@pytest.fixture
def kept(tmp_path):
    with Named(tmp_path, "--admin", "0") as kept:
        yield kept


def bodies(messages: list[dict]) -> list[str]:
    return sorted(message["Body"] for message in messages)


def try_old_handles(kept: Named, queue: str, handles: list[str]) -> None:
    """None of them is good for a message of this queue."""
    for handle in handles:
        assert kept.refusal("DeleteMessage", QueueUrl=queue, ReceiptHandle=handle) == "ReceiptHandleIsInvalid"
        change = {"QueueUrl": queue, "ReceiptHandle": handle, "VisibilityTimeout": 0}
        assert kept.refusal("ChangeMessageVisibility", **change) == "ReceiptHandleIsInvalid"
    entries = [{"Id": str(place), "ReceiptHandle": handle} for place, handle in enumerate(handles)]
    changes = [{**entry, "VisibilityTimeout": 0} for entry in entries]
    for action, given in (("DeleteMessageBatch", entries), ("ChangeMessageVisibilityBatch", changes)):
        result = kept.call(action, QueueUrl=queue, Entries=given)
        assert not result.get("Successful") and len(result["Failed"]) == len(handles)
        assert {entry["Code"] for entry in result["Failed"]} == {"ReceiptHandleIsInvalid"}


@pytest.mark.parametrize("ended", ["nothing", "cq", "gateway", "stopped gateway"])
@pytest.mark.parametrize("before, behind", [("a.fifo", "b.fifo"), ("a.fifo", "b"), ("a", "b.fifo"), ("a", "a"), ("a.fifo", "a.fifo")])
def test_nothing_of_a_queue_that_is_gone_touches_the_next_one_of_its_name(kept, before, behind, ended):
    attributes = {"ContentBasedDeduplication": "true"} if behind.endswith(".fifo") else {}
    old = kept.create(before, **({"ContentBasedDeduplication": "true"} if before.endswith(".fifo") else {}))
    sent = [kept.send(old, str(number))["MessageId"] for number in range(3)]
    if before.endswith(".fifo"):
        sent.append(kept.send(old, "made", MessageDeduplicationId=None)["MessageId"])
        handed = kept.receive(old, ReceiveRequestAttemptId="attempt")
    else:
        sent.append(kept.send(old, "late", DelaySeconds=900)["MessageId"])
        handed = kept.receive(old)
    assert len(handed) >= 3
    handles = [message["ReceiptHandle"] for message in handed]
    (store,) = (name for name in kept.queues_in_store() if "d" not in name)
    kept.call("DeleteQueue", QueueUrl=old)
    kept.end(ended)
    kept.move(PAUSE)
    new = kept.create_as(store, behind, **attributes)
    kept.end(ended)
    assert kept.queues_in_store() == {store: 2}
    # Nothing of the old one is there, also not under its attempt.
    attempt = {"ReceiveRequestAttemptId": "attempt"} if behind.endswith(".fifo") else {}
    assert kept.receive(new, **attempt) == []
    try_old_handles(kept, new, handles)
    # What was sent there is sent here, and is another message.
    again = [kept.send(new, str(number)) for number in range(3)]
    if behind.endswith(".fifo"):
        again.append(kept.send(new, "made", MessageDeduplicationId=None))
        assert [int(one["SequenceNumber"]) for one in again] == sorted(int(one["SequenceNumber"]) for one in again)
    ids = [one["MessageId"] for one in again]
    assert len({*sent, *ids}) == len(sent) + len(ids)
    got = kept.receive(new, **({"ReceiveRequestAttemptId": "other"} if attempt else {}))
    assert bodies(got) == sorted(["0", "1", "2"] + ["made"] * bool(attempt))
    assert {message["MessageId"] for message in got} == set(ids)
    assert {message["Attributes"]["ApproximateReceiveCount"] for message in got} == {"1"}
    # In the store these stand as the old ones did: the same numbers, and the same handings.
    try_old_handles(kept, new, handles)
    kept.end(ended)
    try_old_handles(kept, new, handles)
    assert kept.receive(new) == []
    for message in got:
        kept.call("DeleteMessage", QueueUrl=new, ReceiptHandle=message["ReceiptHandle"])
    kept.move(43_200_000)
    assert kept.receive(new) == []


@pytest.mark.parametrize("ended", ["nothing", "gateway"])
def test_a_name_is_not_used_before_its_pause_is_over(kept, ended):
    kept.call("DeleteQueue", QueueUrl=kept.create("a.fifo"))
    kept.end(ended)
    kept.move(PAUSE - 1)
    kept.create("b.fifo")
    assert kept.queues_in_store() == {"2.fifo": 1}
    kept.end(ended)
    kept.move(1)
    kept.create("c.fifo")
    kept.create("d.fifo")
    assert kept.queues_in_store() == {"1.fifo": 2, "2.fifo": 1, "3.fifo": 1}


def test_the_name_that_went_first_is_used_first(kept):
    urls = [kept.create(f"{name}.fifo") for name in "abc"]
    for place in (1, 2, 0):
        kept.call("DeleteQueue", QueueUrl=urls[place])
        kept.move(1)
    kept.move(PAUSE)
    for expected in ({"2.fifo"}, {"2.fifo", "3.fifo"}, {"1.fifo", "2.fifo", "3.fifo"}, {"1.fifo", "2.fifo", "3.fifo", "4.fifo"}):
        kept.create(f"new{len(expected)}.fifo")
        assert kept.queues_in_store().keys() == expected


def test_what_was_delayed_comes_to_no_later_queue(kept):
    """It stands in a queue of the store beside its own, whose name is used again, too."""
    for turn in range(1, 4):
        queue = kept.create_as("1.fifo", f"q{turn}")
        kept.send(queue, f"late {turn}", DelaySeconds=900)
        assert kept.queues_in_store() == {"1.fifo": turn, "1d.fifo": turn}
        kept.call("DeleteQueue", QueueUrl=queue)
        kept.end("gateway" if turn == 2 else "nothing")
        kept.move(PAUSE)
    queue = kept.create_as("1.fifo", "plain")
    assert kept.queues_in_store() == {"1.fifo": 4}
    kept.move(900_000)
    assert kept.receive(queue) == []
    kept.send(queue, "own", DelaySeconds=1)
    assert kept.queues_in_store() == {"1.fifo": 4, "1d.fifo": 4}
    kept.move(1000)
    assert bodies(kept.receive(queue, WaitTimeSeconds=5)) == ["own"]


def test_repeats_by_an_sdk_touch_no_later_queue(kept):
    """As long as the answer to a receive is kept, the name of its queue isn't used again."""
    def again(action: str, attempt: int, **members):
        headers = {"amz-sdk-invocation-id": f"call {action}", "amz-sdk-request": f"attempt={attempt}; max=5"}
        return ByJson(kept.gateway.url, **headers)(action, **members)

    kept.create("q")
    send = {"QueueUrl": "q", "MessageBody": "same"}
    first = again("SendMessage", 1, **send)["MessageId"]
    assert again("SendMessage", 2, **send)["MessageId"] == first
    assert again("ReceiveMessage", 1, QueueUrl="q")["Messages"][0]["MessageId"] == first
    again("DeleteQueue", 1, QueueUrl="q")
    kept.move(PAUSE)
    kept.create("q")
    assert kept.queues_in_store() == {"2.fifo": 1}
    # It repeats the removal of the old one.
    again("DeleteQueue", 2, QueueUrl="q")
    assert kept.queues_in_store() == {"2.fifo": 1}
    kept.call("DeleteQueue", QueueUrl="q")
    kept.end("gateway")
    kept.move(PAUSE)
    kept.create("q")
    assert kept.queues_in_store() == {"1.fifo": 2}
    other = again("SendMessage", 2, **send)["MessageId"]
    assert other != first
    got = again("ReceiveMessage", 2, QueueUrl="q")["Messages"]
    assert [message["MessageId"] for message in got] == [other]


@pytest.mark.parametrize("ended", ["nothing", "gateway"])
def test_a_task_of_a_queue_that_is_gone_moves_and_ends_nothing(kept, ended):
    """The later queue has the same name by which clients know it, too."""
    def pair() -> tuple[str, str]:
        dead = kept.create_as("1.fifo", "dead.fifo")
        return kept.create_as("2.fifo", "source.fifo", RedrivePolicy=policy(dead)), dead

    def fill(source: str) -> None:
        for number in range(4):
            kept.send(source, str(number))
        while kept.receive(source, VisibilityTimeout=0):
            pass

    source, dead = pair()
    fill(source)
    handle = kept.call("StartMessageMoveTask", SourceArn=arn("dead.fifo"), MaxNumberOfMessagesPerSecond=1)["TaskHandle"]
    for queue in (dead, source):
        kept.call("DeleteQueue", QueueUrl=queue)
    kept.end(ended)
    pass_time(1.5, "a task goes on once a second")
    kept.move(PAUSE)
    source, dead = pair()
    found = kept.queues_in_store()
    assert found.keys() == {"1.fifo", "2.fifo"} and min(found.values()) > 1
    fill(source)
    assert kept.refusal("CancelMessageMoveTask", TaskHandle=handle) == "ResourceNotFoundException"
    assert kept.call("ListMessageMoveTasks", SourceArn=arn("dead.fifo")).get("Results", []) == []
    kept.move(10_000)
    pass_time(0.5, "what is due would be moved meanwhile")
    assert kept.receive(source) == []
    assert bodies(kept.receive(dead)) == ["0", "1", "2", "3"]


def test_a_poll_of_a_queue_that_is_gone_is_handed_nothing_of_the_next(kept):
    queue = kept.create("q.fifo")

    def poll() -> list[dict] | str:
        try:
            return kept.receive(queue, WaitTimeSeconds=20)
        except Refused as refused:
            return refused.code

    with meanwhile(*[poll] * 5) as told:
        polls(kept.gateway, 5)
        kept.call("DeleteQueue", QueueUrl=queue)
        kept.move(PAUSE)
        assert kept.create("q.fifo") == queue
        kept.send(queue, "own")
    assert all(one.result() in ([], "AWS.SimpleQueueService.NonExistentQueue") for one in told)
    assert bodies(kept.receive(queue)) == ["own"]


@pytest.mark.parametrize("kind", ["", ".fifo"])
def test_no_message_id_comes_twice(kept, kind):
    """50 queues have a name of the store by turns, or two, where one waits once more. The gateway and cq end in between."""
    ids, names = [], set()
    for turn in range(50):
        queue = kept.create(f"q{turn % 3}{kind}")
        numbers = []
        for number in range(3):
            sent = kept.send(queue, str(number))
            ids.append(sent["MessageId"])
            numbers.append(int(sent.get("SequenceNumber", number)))
        assert numbers == sorted(set(numbers))
        if not kind:
            ids.append(kept.send(queue, "late", DelaySeconds=60)["MessageId"])
            kept.move(60_000)
        got = {}
        while messages := kept.receive(queue):
            got |= {message["MessageId"]: message["Body"] for message in messages}
        assert len(got) == 3 + (not kind) and set(got) <= set(ids)
        # By turns: one of both has the first name.
        if turn % 10 in (4, 5):
            names |= kept.queues_in_store().keys()
        kept.call("DeleteQueue", QueueUrl=queue)
        kept.end({0: "gateway", 5: "cq"}.get(turn % 10, "nothing"))
        kept.move(PAUSE)
    assert len(set(ids)) == len(ids)
    assert "1.fifo" in names and names <= {"1.fifo", "2.fifo", *([] if kind else ["1d.fifo", "2d.fifo"])}


@pytest.mark.parametrize("is_kept", [True, False], ids=["journal", "memory"])
def test_queues_come_and_go_for_ever_once_time_passes(tmp_path, is_kept):
    """Names may take a quarter of a MiB: 154 of them. There are many times as many queues, and books among them."""
    words = ["--journal", str(tmp_path / "journal")] if is_kept else []
    gateway = Started("--memory", "1MiB", *words, room=tmp_path)
    call = ByJson(gateway.url)

    def create(name: str) -> str:
        # A full memory is free again as soon as a book is begun anew.
        latest = time.monotonic() + 60
        while True:
            try:
                return call("CreateQueue", QueueName=name)["QueueUrl"]
            except Refused as refused:
                assert refused.code == "OverLimit" and time.monotonic() < latest
                pace(0.1)

    call("CreateQueue", QueueName="stays")
    for turn in range(10):
        for number in range(130):
            call("DeleteQueue", QueueUrl=create(f"{turn}-{number}"))
        gateway.set_clock(gateway.moment + PAUSE)
        if is_kept and turn == 5:
            gateway.kill()
            gateway.start()
            call = ByJson(gateway.url)
    call("SendMessage", QueueUrl="stays", MessageBody="more")
    assert gateway.stop() == 0
    if is_kept:
        names = all_names_in_store(tmp_path / "journal")
        assert len(names) < 154 and sum(name.startswith("book") for name in names) < 20


def test_books_have_an_order_whatever_their_names(tmp_path):
    """Books are begun anew under names of earlier ones, and the gateway is killed at each turn: what was said last counts."""
    kept = Named(tmp_path, "--memory", "1MiB")
    queue = kept.create("q.fifo")
    for turn in range(6):
        fill_book(kept, queue, turn)
        kept.end("gateway")
        assert kept.call("ListQueueTags", QueueUrl=queue)["Tags"] == {"turn": f"{turn} last"}
        kept.move(PAUSE)
    incarnations = all_names_in_store(kept.journal)
    assert max(incarnation or 0 for name, incarnation in incarnations.items() if name.startswith("book")) > 1
    assert kept.gateway.stop() == 0


def fill_book(kept: Named, queue: str, turn: int) -> None:
    """Has the book say so much that another one is begun, and something more then."""
    before = names_in_store(kept.journal)
    latest, number = time.monotonic() + 180, 0
    while names_in_store(kept.journal) == before:
        assert time.monotonic() < latest
        for _ in range(400):
            number += 1
            kept.call("TagQueue", QueueUrl=queue, Tags={"turn": f"{turn} {number} {'x' * 200}"})
        pass_time(0.3, "a book that is begun anew gets the name meanwhile")
    kept.call("TagQueue", QueueUrl=queue, Tags={"turn": f"{turn} last"})


def test_queues_that_come_and_go_at_once_leave_room_for_others(tmp_path):
    """The removals of a minute may take a quarter of what messages may take of the file, and no more queues are made then."""
    with Started("--journal", str(tmp_path / "journal"), "--journal-size", "96MiB", room=tmp_path) as gateway:
        counts = [0] * 6

        def come_and_go(worker: int) -> None:
            call = ByJson(gateway.url)
            try:
                while True:
                    call("DeleteQueue", QueueUrl=call("CreateQueue", QueueName=f"{worker}-{counts[worker]}")["QueueUrl"])
                    counts[worker] += 1
            except Refused as refused:
                assert (refused.code, refused.status) == ("OverLimit", 403)

        def exchange(call: ByJson, number: int) -> None:
            call("SendMessage", QueueUrl="own", MessageBody=str(number))
            (message,) = call("ReceiveMessage", QueueUrl="own")["Messages"]
            call("DeleteMessage", QueueUrl="own", ReceiptHandle=message["ReceiptHandle"])

        call = ByJson(gateway.url)
        call("CreateQueue", QueueName="own")
        with ThreadPoolExecutor(len(counts)) as workers:
            begun = [workers.submit(come_and_go, worker) for worker in range(len(counts))]
            number = 0
            while not all(one.done() for one in begun):
                exchange(call, number)
                number += 1
            [one.result() for one in begun]
        assert number > 100 and 6_900 < sum(counts) < 7_100, (number, counts)
        gateway.set_clock(gateway.moment + 60_000)
        for number in range(20):
            call("DeleteQueue", QueueUrl=call("CreateQueue", QueueName=f"more-{number}")["QueueUrl"])
            exchange(call, number)
