"""What the library's answers become."""

from __future__ import annotations

from typing import Any

from .library import call
from .refused import Refused


def accepted(answer: Any) -> Any:
    """An answer, which is raised where it is a refusal."""
    if answer.number:
        raise Refused(answer.number, answer.place)
    return answer


def written(room: int, function: Any, *arguments: Any) -> bytes:
    """What a call writes into an output of this room, its last argument."""
    out = bytearray(room)
    answer = accepted(call(function, *arguments, out))
    return bytes(out[: answer.length])
