"""A gateway of a test's own that has a journal, so that its queues outlive it, and what is asked of these."""

import contextlib
import threading
from collections.abc import Callable
from pathlib import Path
from typing import Any

from rules import FIFO
from started import ByJson, Refused, Started, names_in_store
from steered import SteeredCq
from waiting import pass_time, until


class Kept:
    """A gateway with a journal, and a `cq` that can be steered if that is asked for."""

    def __init__(self, room: Path, *words: str, steered: bool = False) -> None:
        self.journal, self.cq = room / "journal", SteeredCq(room)
        self.gateway = Started("--journal", str(self.journal), *words, *(self.cq.words() if steered else []), room=room)

    def __enter__(self):
        return self

    def __exit__(self, *error: Any) -> None:
        self.gateway.__exit__(*error)

    def call(self, action: str, **members: Any) -> dict[str, Any]:
        return ByJson(self.gateway.url)(action, **members)

    def refusal(self, action: str, **members: Any) -> str:
        """The code with which that is refused."""
        try:
            self.call(action, **members)
        except Refused as refused:
            return refused.code
        raise AssertionError(f"{action} isn't refused")

    def create(self, name: str, **attributes: str) -> str:
        kind = FIFO if name.endswith(".fifo") else {}
        return self.call("CreateQueue", QueueName=name, Attributes={**kind, **attributes})["QueueUrl"]

    def receive(self, queue: str, **more: Any) -> list[dict[str, Any]]:
        return self.call("ReceiveMessage", QueueUrl=queue, **{"MaxNumberOfMessages": 10, **more}).get("Messages", [])

    def bodies(self, queue: str, **more: Any) -> list[str]:
        return [message["Body"] for message in self.receive(queue, **more)]

    def delete(self, queue: str, *messages: dict[str, Any]) -> None:
        for message in messages:
            self.call("DeleteMessage", QueueUrl=queue, ReceiptHandle=message["ReceiptHandle"])

    def counts(self, queue: str) -> list[int]:
        """How many messages are visible, in flight and delayed."""
        told = self.call("GetQueueAttributes", QueueUrl=queue, AttributeNames=["All"])["Attributes"]
        return [int(told[f"ApproximateNumberOfMessages{which}"]) for which in ("", "NotVisible", "Delayed")]

    def names(self) -> list[str]:
        return [url.rsplit("/", 1)[-1] for url in self.call("ListQueues").get("QueueUrls", [])]

    def store_names(self) -> set[str]:
        """The names that the store has by the journal."""
        return names_in_store(self.journal)

    def move(self, milliseconds: int) -> None:
        self.gateway.set_clock(self.gateway.moment + milliseconds)

    def restart(self) -> None:
        self.gateway.kill()
        self.gateway.start()

    def cut_off(self, act: Callable[[], Any], *each: str, passing: int) -> bool:
        """Acts, and kills the gateway before `cq` has the command behind so many of those that have one of these texts. False if there
        were no more, and then it was done."""
        self.cq.tell(each=list(each), **{"pass": passing})
        done = threading.Event()

        def run() -> None:
            with contextlib.suppress(OSError):
                act()
                done.set()

        acting, ends = threading.Thread(target=run), self.cq.ends()
        acting.start()
        until(lambda: not acting.is_alive() or self.cq.ends() > ends, 20, "it isn't cut off", 0.005)
        pass_time(0.1, "what was answered by then is on disk")
        self.gateway.kill()
        self.cq.tell()
        acting.join()
        self.gateway.start()
        return not done.is_set()
