"""Waiting for events, each with a bound; and letting time pass, where no event tells that it has."""

import time
from collections.abc import Callable
from typing import TypeVar

Value = TypeVar("Value")

# Between two looks, in seconds.
STEP = 0.02


def until(condition: Callable[[], Value], seconds: float, why: str | Callable[[], str], step: float = STEP) -> Value:
    """Waits until the condition holds, and tells its value. Where it never does, `why` says what is wrong then."""
    latest = time.monotonic() + seconds
    while not (value := condition()):
        assert time.monotonic() < latest, why if isinstance(why, str) else why()
        time.sleep(step)
    return value


def time_until(condition: Callable[[], object], seconds: float, why: str, step: float = STEP) -> float:
    """The same, and tells for how many seconds it waited."""
    begun = time.monotonic()
    until(condition, seconds, why, step)
    return time.monotonic() - begun


def comes(condition: Callable[[], object], seconds: float, step: float = STEP) -> bool:
    """Whether the condition holds within that time."""
    latest = time.monotonic() + seconds
    while not condition():
        if time.monotonic() >= latest:
            return False
        time.sleep(step)
    return True


def holds(condition: Callable[[], object], seconds: float, why: str, step: float = 5 * STEP) -> None:
    """Sees that the condition holds at each look for so long."""
    latest = time.monotonic() + seconds
    while time.monotonic() < latest:
        assert condition(), why
        time.sleep(step)


def pass_time(seconds: float, why: str) -> None:
    """Lets time pass. `why` says what needs it, so that no event could be waited for."""
    assert why
    time.sleep(max(0.0, seconds))


def pace(seconds: float) -> None:
    """What a client or a fault of a load lets pass between two of its acts."""
    time.sleep(seconds)
