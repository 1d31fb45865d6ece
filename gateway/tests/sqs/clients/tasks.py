"""Tasks of Celery, which tell in a file what they do. The environment names the broker, the visibility timeout in
seconds, and the folder of the file."""

import os
from pathlib import Path

from celery import Celery

from waiting import until

ROOM = Path(os.environ["TASKS_ROOM"])

application = Celery("tasks", broker=os.environ["TASKS_BROKER"])
application.conf.broker_transport_options = {
    "is_secure": False,
    "region": "us-east-1",
    "visibility_timeout": int(os.environ["TASKS_VISIBILITY_TIMEOUT"]),
}


def tell(what: str) -> None:
    with (ROOM / "told").open("a") as file:
        file.write(f"{what}\n")


@application.task
def work(name: str) -> None:
    tell(f"done {name}")


@application.task(acks_late=True)
def work_when_allowed(name: str) -> None:
    """Begins, and is done when the file `allowed` is there. Its message is deleted when it is done."""
    tell(f"begun {name}")
    until((ROOM / "allowed").exists, 60, "it is never allowed")
    tell(f"done {name}")


def send() -> None:
    for place in range(10):
        work.delay(str(place))
    work_when_allowed.delay("late")


if __name__ == "__main__":
    send()
