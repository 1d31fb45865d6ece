"""What a gateway and `cq server` say to each other, for programs that stand between both (docs/WIRE.md, "Commands, responses and
frames")."""

import importlib.machinery
import json
import subprocess
import types
from collections.abc import Iterator
from pathlib import Path
from typing import Any, BinaryIO

_CODEC = types.ModuleType("codec")
importlib.machinery.SourceFileLoader("codec", str(Path(__file__).resolve().parents[3] / "check" / "frames")).exec_module(_CODEC)

SAVE = _CODEC.frame(_CODEC.command({"op": "save"}))
_ENDS = ("done", "refused", "unread", "heard")
# The number of an answer stands there in the frame that puts it to clients.
_NUMBER = 33
_KEYS = ("kind", "queue", "group", "dedup", "body", "size", "visibility", "receipt")


def frames(source: BinaryIO) -> Iterator[bytes]:
    """The frames of a file, with their lengths, up to its end."""
    return (_CODEC.frame(data) for data in _CODEC.frames(source))


def command(frame: bytes) -> dict[str, Any]:
    """A command, with the parts of an ask in the order of a line's."""
    found = _CODEC.Reader(frame[4:]).command()
    if "ask" in found:
        found["ask"] = {key: found["ask"][key] for key in _KEYS if key in found["ask"]}
    return found


def words(frame: bytes) -> str:
    """A command as a line of JSON without spaces."""
    return json.dumps(command(frame), ensure_ascii=False, separators=(",", ":"))


def response(frame: bytes) -> dict[str, Any]:
    return _CODEC.Reader(frame[4:]).response()


def is_last(frame: bytes) -> bool:
    """Whether a response is the last one to its command."""
    return _CODEC.RESPONSES[frame[5]] in _ENDS


def is_answer(frame: bytes) -> bool:
    """Whether a response puts an answer to clients."""
    return _CODEC.RESPONSES[frame[5]] == "put" and frame[6] == 1


def misnumbered(frame: bytes) -> bytes:
    """An answer with another request's number."""
    number = int.from_bytes(frame[_NUMBER : _NUMBER + 8], "little") + 10**18
    return frame[:_NUMBER] + number.to_bytes(8, "little") + frame[_NUMBER + 8 :]


def refusal(code: int) -> bytes:
    return _CODEC.frame(bytes([1, _CODEC.RESPONSES.index("refused")]) + code.to_bytes(4, "little"))


def answer(responses: Iterator[bytes]) -> list[bytes]:
    """The responses to one command."""
    found = [next(responses)]
    while not is_last(found[-1]):
        found.append(next(responses))
    return found


def store_of(program: str, file: Path | str) -> list[bytes]:
    """The chunks of the store by a journal that nobody has open."""
    cq = subprocess.Popen([program, "server", "--id", "1", "--first", "1", "--journal", str(file)], stdin=subprocess.PIPE,
                          stdout=subprocess.PIPE)
    assert cq.stdin and cq.stdout
    responses, chunks = frames(cq.stdout), []
    answer(responses)
    while True:
        cq.stdin.write(SAVE)
        cq.stdin.flush()
        chunk = bytes.fromhex(response(answer(responses)[0])["chunk"])
        if not chunk:
            cq.stdin.close()
            assert cq.wait(60) == 0
            return chunks
        chunks.append(chunk)
