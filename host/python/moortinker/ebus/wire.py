"""The check byte, escapes and addresses."""

from __future__ import annotations

import enum
from typing import NamedTuple

from ..calls import accepted, written
from ..library import call, moor
from ..values import BYTE, SIZE, Bytes, data, whole


class Kind(enum.IntEnum):
    """The kind of an exchange, which its destination decides."""

    BROADCAST = 1
    """To all: neither an acknowledge byte nor a reply."""
    INITIATOR_INITIATOR = 2
    """To an initiator: an acknowledge byte, no reply."""
    INITIATOR_TARGET = 3
    """To a target: an acknowledge byte, a reply, and an acknowledge byte."""


class Logical(NamedTuple):
    """A logical byte of a raw run, and the position behind it."""

    byte: int
    next: int


def check(logical: Bytes) -> int:
    """The check byte of logical bytes. It is taken over the bytes as they are
    expanded: A9 counts as A9 00, AA as A9 01.

    >>> hex(check(bytes.fromhex("10 08 B5 11 01 01")))
    '0x89'
    """
    return int(call(moor.moor_ebus_check, data(logical, "logical")))


def is_initiator(address: int) -> bool:
    """Whether this is an initiator's address: both nibbles are among 0, 1, 3,
    7 and F.

    >>> is_initiator(0x10), is_initiator(0x08)
    (True, False)
    """
    return bool(call(moor.moor_is_initiator, whole(address, BYTE, "address")))


def is_reserved(address: int) -> bool:
    """Whether this is A9 or AA, which no destination may be.

    >>> [address for address in range(256) if is_reserved(address)] == [0xA9, 0xAA]
    True
    """
    return bool(call(moor.moor_is_reserved, whole(address, BYTE, "address")))


def kind(destination: int) -> Kind:
    """The kind of an exchange with this destination. Every byte has one, also
    A9 and AA, which a telegram refuses.

    >>> kind(0xFE), kind(0x08)
    (<Kind.BROADCAST: 1>, <Kind.INITIATOR_TARGET: 3>)
    """
    return Kind(call(moor.moor_kind, whole(destination, BYTE, "destination")))


def logical_at(run: Bytes, at: int = 0) -> Logical:
    """The logical byte at a position of a raw run. Refused with 3, 4 or 5.

    >>> logical_at(b"\\x10\\xa9\\x01", 1)
    Logical(byte=170, next=3)
    """
    answer = call(moor.moor_logical_at, data(run, "run"), whole(at, SIZE, "at"))
    accepted(answer)
    return Logical(answer.byte, answer.next)


def expand(logical: Bytes) -> bytes:
    """Logical bytes as they go on the wire.

    >>> expand(b"\\xa9\\xaa").hex(" ")
    'a9 00 a9 01'
    """
    logical = data(logical, "logical")
    # No logical byte takes more than two on the wire.
    return written(2 * len(logical), moor.moor_expand, logical)


def undo(raw: Bytes) -> bytes:
    """The logical bytes of raw bytes. Refused with the first 3, 4 or 5 in them.

    >>> undo(b"\\xa9\\x00\\xa9\\x01").hex(" ")
    'a9 aa'
    >>> undo(b"\\x10\\xa9\\x55")
    Traceback (most recent call last):
    moortinker.refused.Refused: refused 4 at 2 (wrong escape)
    """
    raw = data(raw, "raw")
    return written(len(raw), moor.moor_undo, raw)
