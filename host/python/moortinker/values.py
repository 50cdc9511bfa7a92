"""What callers hand in, looked at before the library is called."""

from __future__ import annotations

import operator
from array import array
from typing import Iterable, Type, TypeVar, Union

Bytes = Union[bytes, bytearray, memoryview]
"""What every call takes as bytes."""

T = TypeVar("T")

BYTE = 0xFF
WORD = 0xFFFF
LONG = 0xFFFFFFFF
SIZE = 0xFFFFFFFFFFFFFFFF


def whole(value: int, most: int, what: str) -> int:
    """A whole number from 0 to `most`; anything else is a TypeError.

    >>> whole(256, BYTE, "address")
    Traceback (most recent call last):
    TypeError: address has to be a whole number from 0 to 255
    """
    try:
        number = operator.index(value)
    except TypeError:
        number = -1
    if not 0 <= number <= most:
        raise TypeError(f"{what} has to be a whole number from 0 to {most}")
    return number


def data(value: Bytes, what: str) -> Bytes:
    """Bytes, not copied; anything else is a TypeError.

    >>> data("AA", "run")
    Traceback (most recent call last):
    TypeError: run has to be bytes, bytearray or memoryview, and is str
    """
    if type(value) in (bytes, bytearray):
        return value
    if isinstance(value, (bytes, bytearray)):
        # A subclass may say anything of its length; a view has the buffer's own.
        return memoryview(value)
    if not isinstance(value, memoryview):
        kind = type(value).__name__
        raise TypeError(f"{what} has to be bytes, bytearray or memoryview, and is {kind}")
    if value.ndim != 1 or value.itemsize != 1:
        raise TypeError(f"{what} has to be a memoryview of single bytes")
    return value


def own(value: Bytes, what: str) -> bytes:
    """Bytes, copied: for a call that writes columns, of which a view may be
    handed in, and no buffer that is written may overlap another."""
    return bytes(data(value, what))


def of(kind: Type[T], value: T, what: str) -> T:
    """A value of this class; anything else is a TypeError.

    >>> of(int, "5", "number")
    Traceback (most recent call last):
    TypeError: number has to be int, and is str
    """
    if not isinstance(value, kind):
        raise TypeError(f"{what} has to be {kind.__name__}, and is {type(value).__name__}")
    return value


def byte_column(values: Union[Bytes, Iterable[int]], what: str) -> bytearray:
    """A column of bytes of its own."""
    if isinstance(values, (bytes, bytearray, memoryview)):
        return bytearray(data(values, what))
    return bytearray(whole(value, BYTE, f"each of {what}") for value in _each(values, what))


def long_column(values: Iterable[int], what: str) -> array[int]:
    """A column of 32-bit numbers of its own."""
    return array("I", (whole(value, LONG, f"each of {what}") for value in _each(values, what)))


def _each(values: Iterable[int], what: str) -> Iterable[int]:
    try:
        return iter(values)
    except TypeError:
        raise TypeError(f"{what} has to be numbers, and is {type(values).__name__}") from None
