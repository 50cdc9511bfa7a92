"""Fast Modbus: the check and the frames of a scan.

Every frame begins FD 46 and ends with the check, low byte first.
"""

from __future__ import annotations

import enum
from typing import NamedTuple, Union

from .calls import accepted, written
from .library import call, moor
from .values import BYTE, LONG, Bytes, data, whole

__all__ = [
    "Answer",
    "End",
    "Found",
    "Request",
    "check",
    "read_answer",
    "read_request",
    "write_end",
    "write_found",
    "write_request",
]

# Also the answer that ends a scan.
_REQUEST_FRAME = 5
_FOUND_FRAME = 10


class Answer(enum.IntEnum):
    """Which answer it is; `Found` and `End` are what it says."""

    FOUND = 3
    END = 4


class Request(enum.IntEnum):
    """A scan request."""

    START = 1
    """Starts a scan: every device becomes unscanned."""
    CONTINUE = 2
    """Continues a scan."""


class Found(NamedTuple):
    """The answer of a device: its serial, its address as sent, and how many FF
    were passed over before it."""

    serial: int
    address: int
    skipped: int


class End(NamedTuple):
    """The answer that ends a scan, and how many FF were passed over before it."""

    skipped: int


def check(frame: Bytes) -> int:
    """The Modbus check of the bytes. It is sent low byte first.

    >>> check(b"\\xfd\\x46\\x01").to_bytes(2, "little").hex(" ")
    '13 90'
    """
    return int(call(moor.moor_modbus_check, data(frame, "frame")))


def read_request(frame: Bytes) -> Request:
    """What a request frame asks; it must fill the input. Refused with 13 to 16.

    >>> read_request(bytes.fromhex("FD 46 02 53 91"))
    <Request.CONTINUE: 2>
    """
    answer = accepted(call(moor.moor_read_request, data(frame, "frame")))
    return Request(answer.request)


def read_answer(frame: Bytes) -> Union[Found, End]:
    """What an answer frame says; up to 32 leading FF are passed over, and the
    frame must fill the rest. Refused with 13 to 17, or with 19.

    >>> read_answer(bytes.fromhex("FF FF FD 46 03 00 01 EB 37 0C CE DC"))
    Found(serial=125751, address=12, skipped=2)
    >>> read_answer(bytes.fromhex("FD 46 04 D3 93"))
    End(skipped=0)
    """
    answer = accepted(call(moor.moor_read_answer, data(frame, "frame")))
    if answer.answer == Answer.END:
        return End(answer.skipped)
    return Found(answer.serial, answer.address, answer.skipped)


def write_request(request: int) -> bytes:
    """The frame of a request. Refused with 15 for one that there is not.

    >>> write_request(Request.START).hex(" ")
    'fd 46 01 13 90'
    """
    return written(_REQUEST_FRAME, moor.moor_write_request, whole(request, BYTE, "request"))


def write_found(serial: int, address: int) -> bytes:
    """The answer of a device found, with no FF before it. Refused with 17.

    >>> write_found(0x0001EB37, 0x0C).hex(" ")
    'fd 46 03 00 01 eb 37 0c ce dc'
    """
    return written(
        _FOUND_FRAME,
        moor.moor_write_found,
        whole(serial, LONG, "serial"),
        whole(address, BYTE, "address"),
    )


def write_end() -> bytes:
    """The answer that ends a scan.

    >>> write_end().hex(" ")
    'fd 46 04 d3 93'
    """
    return written(_REQUEST_FRAME, moor.moor_write_end)
