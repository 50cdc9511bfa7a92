"""The exchanges of a capture: the raw bytes of a bus, as a file or a serial
line has them."""

from __future__ import annotations

import re
from dataclasses import dataclass
from typing import BinaryIO, Iterator, NamedTuple, Optional, Union

from ..library import call, moor
from ..refused import Refused
from ..values import SIZE, Bytes, data, whole
from .exchanges import Exchange, Listener, answer_to

SYN = b"\xaa"

_NO_SYN = re.compile(rb"[^\xaa]")

# Read at a time from a file, so that memory does not grow with it.
_RUN = 1 << 16


class Stretch(NamedTuple):
    """A part of a capture: the bytes from `start` on that stand before `end`."""

    start: int
    end: int


@dataclass(frozen=True)
class Found:
    """An exchange of a capture: where it starts, and the exchange, or why it
    was refused, whose place counts from that start."""

    offset: int
    exchange: Optional[Exchange]
    refused: Optional[Refused]


def next_exchange(capture: Bytes, at: int = 0) -> Stretch:
    """Where the next exchange of a capture stands, from a position on. Idle
    time is passed over, and the exchange goes on through the next SYN. Where
    none is left, both are the capture's length.

    >>> next_exchange(bytes.fromhex("AA AA 10 AA 10 FE 07 00 00 6C AA AA"))
    Stretch(start=4, end=11)
    """
    answer = call(moor.moor_next_exchange, data(capture, "capture"), whole(at, SIZE, "at"))
    return Stretch(answer.start, answer.end)


def capture(source: Union[Bytes, BinaryIO]) -> Iterator[Found]:
    """The exchanges of a capture, in order, accepted ones and refused ones.

    >>> run = bytes.fromhex("AA AA 10 08 B5 11 01 01 89 00 01 2A B1 00 AA AA")
    >>> for found in capture(run + run.replace(b"\\x89", b"\\x88")):
    ...     print(found.offset, found.refused or found.exchange.data.hex())
    2 2a
    18 refused 9 at 6 (wrong check byte)

    The source is bytes, or a file opened in binary mode, of any length: it is
    read as its bytes arrive, until it gives none, and is not held in memory.

    >>> import io
    >>> [found.offset for found in capture(io.BytesIO(run * 3))]
    [2, 18, 34]
    """
    if isinstance(source, (bytes, bytearray, memoryview)):
        return _of_bytes(data(source, "source"))
    if not hasattr(source, "read"):
        kind = type(source).__name__
        raise TypeError(f"source has to be bytes or a binary file, and is {kind}")
    return _of_file(source)


def _of_bytes(source: Bytes) -> Iterator[Found]:
    if isinstance(source, memoryview) and (source.readonly or not source.c_contiguous):
        # Copied once here, and not for each exchange (see library.call).
        source = bytes(source)
    start, end = next_exchange(source)
    while start < end:
        yield _found(start, answer_to(memoryview(source)[start:end]))
        start, end = next_exchange(source, end)


def _of_file(file: BinaryIO) -> Iterator[Found]:
    """A listener hears one exchange, from the first byte that is no SYN on. It
    is dropped at the next SYN: there it has answered, or heard no more than a
    source, which is idle time."""
    listener: Optional[Listener] = None
    start = heard = 0
    settled = False
    for run in _runs(file):
        at = 0
        while at < len(run):
            if listener is None:
                first = _NO_SYN.search(run, at)
                if first is None:
                    break
                at = first.start()
                listener, start, settled = Listener(), heard + at, False
            end = run.find(SYN, at) + 1 or len(run)
            if not settled:
                listener.feed(run[at:end])
                settled = listener.answered
                if settled:
                    yield _found(start, listener.answer())
            if run[end - 1 : end] == SYN:
                listener = None
            at = end
        heard += len(run)
    if listener is not None and not settled:
        yield _found(start, listener.answer())


def _runs(file: BinaryIO) -> Iterator[bytes]:
    # Of a file that has it, read1 gives what has arrived and does not wait for more.
    read = getattr(file, "read1", file.read)
    while True:
        run = read(_RUN)
        if not isinstance(run, bytes):
            kind = type(run).__name__
            raise TypeError(f"source has to be a binary file that blocks; it gave {kind}")
        if not run:
            return
        yield run


def _found(offset: int, answer: Union[Exchange, Refused]) -> Found:
    if isinstance(answer, Refused):
        return Found(offset, None, answer)
    return Found(offset, answer, None)
