"""Fast Modbus: the devices' side of a scan, as a model on a perfect bus, and
whole scans.

Silence is an answer of no bytes.
"""

from __future__ import annotations

import enum
from array import array
from dataclasses import dataclass
from typing import Iterable, NamedTuple, Optional, Tuple, Union

from .calls import accepted, written
from .library import ANSWER_ROOM, MOST_DEVICES, call, moor
from .refused import Number, Refused
from .values import SIZE, Bytes, byte_column, long_column, of, own, whole

__all__ = ["Decided", "Device", "Outcome", "Scan", "Table", "contest", "is_valid", "scan"]


class Device(NamedTuple):
    """A device of a table or of a scan."""

    serial: int
    address: int


class Outcome(enum.IntEnum):
    """How a whole scan ended."""

    COMPLETE = 1
    """The end of the scan was heard."""
    NOBODY = 2
    """Nobody answered."""
    UNFINISHED = 3
    """The cap was reached first."""


@dataclass(frozen=True)
class Scan:
    """A whole scan: how it ended, the devices in the order heard, the requests
    sent, and how many FF stood before all its answers together."""

    outcome: Outcome
    devices: Tuple[Device, ...]
    requests: int
    skipped: int


class Decided(NamedTuple):
    """What a contest gives: the key that remains, and how many windows were
    dominant."""

    key: int
    dominant: int


def contest(keys: Iterable[int]) -> Decided:
    """The contest of 32-bit keys: the smallest remains. Where nobody contends
    both numbers are 0.

    >>> contest([9, 5, 0x0001EB37])
    Decided(key=5, dominant=30)
    """
    answer = call(moor.moor_contest, long_column(keys, "keys"))
    return Decided(answer.key, answer.dominant)


class Table:
    """Devices: a column of serials, one of addresses, and one of marks, 1 for
    a device that is scanned and 0 for others.

    The columns are the table's own. They may be changed; calls on columns that
    are not valid are refused with 2, as the making of such a table is.

    >>> from moortinker import modbus
    >>> table = Table([0x0001EB37, 5, 9], [0x0C, 0x02, 0x03])
    >>> modbus.read_answer(table.start())
    Found(serial=5, address=2, skipped=30)
    >>> list(table.marks)
    [0, 1, 0]
    >>> Table([5, 5], [1, 2])
    Traceback (most recent call last):
    moortinker.refused.Refused: refused 2 at 0 (table not valid)
    """

    __slots__ = ("_addresses", "_marks", "_serials")

    def __init__(
        self,
        serials: Iterable[int],
        addresses: Union[Bytes, Iterable[int]],
        marks: Optional[Union[Bytes, Iterable[int]]] = None,
    ) -> None:
        self._serials = long_column(serials, "serials")
        self._addresses = byte_column(addresses, "addresses")
        if marks is None:
            marks = bytes(len(self._serials))
        self._marks = byte_column(marks, "marks")
        if not is_valid(self):
            raise Refused(Number.TABLE_NOT_VALID)

    @property
    def serials(self) -> array[int]:
        """The serials, each below 2^28 and different."""
        return self._serials

    @property
    def addresses(self) -> bytearray:
        """The addresses; equal ones are allowed."""
        return self._addresses

    @property
    def marks(self) -> bytearray:
        """The marks, which scans change."""
        return self._marks

    @property
    def columns(self) -> Tuple[array[int], bytearray, bytearray]:
        """The three columns, as the library takes them."""
        return self._serials, self._addresses, self._marks

    def __repr__(self) -> str:
        return f"Table({list(self._serials)}, {list(self._addresses)}, {list(self._marks)})"

    def start(self) -> bytes:
        """A start: all marks become 0, then all devices contend, and the one
        that remains answers and is marked. The answer is one FF for each
        dominant window, and then the frame."""
        return written(ANSWER_ROOM, moor.moor_start, *self.columns)

    def resume(self) -> bytes:
        """A continue: all devices contend with the marks as they stand. One
        that was marked answers with the end of the scan."""
        return written(ANSWER_ROOM, moor.moor_resume, *self.columns)

    def offer(self, frame: Bytes) -> bytes:
        """A raw frame offered to the devices: the start or continue that it
        names. Refused as `modbus.read_request` is."""
        return written(ANSWER_ROOM, moor.moor_offer, own(frame, "frame"), *self.columns)

    def scan(self, cap: int = MOST_DEVICES + 1) -> Scan:
        """A whole scan: a start, then continues, until the end, silence or
        `cap` requests; without a cap, as many as any table needs."""
        count = len(self._serials)
        serials, addresses = array("I", bytes(4 * count)), bytearray(count)
        cap = whole(cap, SIZE, "cap")
        answer = accepted(call(moor.moor_scan, *self.columns, serials, addresses, cap))
        heard = tuple(map(Device, serials[: answer.found], addresses))
        return Scan(Outcome(answer.end), heard, answer.requests, answer.skipped)


def is_valid(table: Table) -> bool:
    """Whether the columns of a table are valid.

    >>> table = Table([5, 9], [1, 2])
    >>> table.marks[0] = 2
    >>> is_valid(table)
    False
    """
    return bool(call(moor.moor_table_valid, *of(Table, table, "table").columns))


def scan(table: Table, cap: int = MOST_DEVICES + 1) -> Scan:
    """A whole scan of a table; see `Table.scan`.

    >>> heard = scan(Table([0x0001EB37, 5, 9], [0x0C, 0x02, 0x03]), 100)
    >>> heard.outcome, heard.requests, heard.skipped
    (<Outcome.COMPLETE: 1>, 4, 106)
    >>> heard.devices[0]
    Device(serial=5, address=2)
    """
    return of(Table, table, "table").scan(cap)
