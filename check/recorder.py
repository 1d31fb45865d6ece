"""Records what clients of SQS ask and are answered, as a history that `hobbychair check` judges (docs/CHECKING.md).

    recorder = Recorder(open("history.jsonl", "w"))
    recorder.watch(boto3.client("sqs", endpoint_url=".."))

From then on each call of a client that is watched has a line in the file.
"""

from __future__ import annotations

import base64
import json
import threading
import time
from collections.abc import Callable
from typing import IO, Any

import botocore.exceptions


def wall_clock() -> int:
    return int(time.time() * 1000)


class Recorder:
    """Writes lines in the order in which calls took effect: they wait for each other, also those of several clients."""

    def __init__(self, file: IO[str], moment: Callable[[], int] = wall_clock) -> None:
        """`moment` is the service's time in milliseconds."""
        self.file, self.moment, self.one_by_one = file, moment, threading.Lock()

    def watch(self, client: Any) -> Any:
        """A call that has no answer, since its connection broke, say, has no line: whether it took effect isn't known, and what
        follows may be judged wrongly."""
        call = client._make_api_call

        def recorded(action: str, request: dict[str, Any]) -> dict[str, Any]:
            with self.one_by_one:
                try:
                    answer = call(action, request)
                except botocore.exceptions.ClientError as error:
                    self.write(action, request, error={"code": error.response["Error"]["Code"]})
                    raise
                self.write(action, request, answer={name: value for name, value in answer.items() if name != "ResponseMetadata"})
                return answer

        client._make_api_call = recorded
        return client

    def write(self, action: str, request: dict[str, Any], **told: Any) -> None:
        line = {"at": self.moment(), "action": action, "request": request, **told}
        self.file.write(json.dumps(line, default=lambda data: base64.b64encode(data).decode()) + "\n")
        self.file.flush()
