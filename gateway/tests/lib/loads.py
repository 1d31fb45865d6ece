"""Clients that work at a gateway until it is killed, for tests of what outlives that."""

import random
import threading
import time
import zlib
from collections.abc import Callable

from started import Refused
from waiting import pace


def text_of(name: str, one_in: int) -> str:
    """The body of a message: its name, and behind one name in so many more than the store takes."""
    return name + "." * (300_000 if zlib.crc32(name.encode()) % one_in == 0 else 0)


class Load:
    """Clients of some kinds of queues, and what they were told. Each test says what they do, and what has to hold."""

    # What may not happen while the gateway is killed, either.
    faults: tuple[type[Exception], ...] = (AssertionError, Refused)

    def __init__(self, seed: int) -> None:
        self.random = random.Random(seed)
        self.failures: list[BaseException] = []

    def begin(self, client: int) -> Callable[[], None]:
        """What a client does again and again. It is called in the client's thread."""
        raise NotImplementedError

    def count_of_sends(self) -> int:
        """How many sends were acknowledged so far."""
        raise NotImplementedError

    def work(self, clients: int, end: Callable[[threading.Event], None], breaks_off: bool = True) -> None:
        """Lets clients work until `end` comes back. That has to set the event before it kills the gateway.

        `breaks_off`: from the event on a connection or an answer may break off, and nothing else may happen.
        """
        self.failures = []
        stop = threading.Event()

        def work(client: int) -> None:
            act = self.begin(client)
            try:
                while not stop.is_set():
                    act()
            except Exception as error:
                if not (breaks_off and stop.is_set()) or isinstance(error, self.faults):
                    self.failures.append(error)

        threads = [threading.Thread(target=work, args=(client,)) for client in range(clients)]
        for thread in threads:
            thread.start()
        end(stop)
        for thread in threads:
            thread.join()
        assert self.failures == []

    def wait_for_sends(self, sends: int, look: Callable[[], None] = lambda: None) -> None:
        """Waits until about so many sends more were acknowledged, and no longer than ten seconds. Looks all the while."""
        wanted, latest = self.count_of_sends() + sends, time.monotonic() + 10
        while self.count_of_sends() < wanted and time.monotonic() < latest and self.failures == []:
            pace(self.random.uniform(0, 0.01))
            look()
