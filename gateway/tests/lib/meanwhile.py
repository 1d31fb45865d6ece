"""What goes on at the same time in tests."""

import contextlib
from collections.abc import Callable, Iterator
from concurrent.futures import Future, ThreadPoolExecutor
from typing import Any


@contextlib.contextmanager
def meanwhile(*works: Callable[[], Any], patience: float = 60) -> Iterator[list[Future]]:
    """Does each of these in a thread of its own while the block is done. Behind it they end within `patience` seconds, and what one of
    them raises is raised."""
    pool = ThreadPoolExecutor(max(1, len(works)))
    futures = [pool.submit(work) for work in works]
    try:
        yield futures
        for future in futures:
            future.result(patience)
    finally:
        pool.shutdown(wait=False)


def at_once(works: list[Callable[[], Any]], patience: float = 300) -> list[Any]:
    """What comes of all of them, each in a thread of its own."""
    with meanwhile(*works, patience=patience) as futures:
        pass
    return [future.result() for future in futures]
