"""Railbus: packets, and a relay device.

A packet is text: RP, the address in two hex digits, a letter, the register in
two digits, with some letters the data in eight, and the checksum in two.
Digits are upper case.

>>> relay = Relay(0x93, bytes([Access.READ_WRITE]) * 256)
>>> on = write(Packet(0x93, Letter.WRITE, register=0, data=0x10))
>>> on
b'RP93W00000000109F'
>>> Status(read(relay.offer(on)).data)
<Status.RECEIVED: 1>
>>> relay.registers[0], relay.finish(), relay.registers[0]
(0, b'RP93I0000000010EE', 16)

A copy that comes late is not carried out once more:

>>> Status(read(relay.offer(on)).data), relay.finish()
(<Status.DONE_BEFORE: 3>, b'')
"""

from __future__ import annotations

import enum
from array import array
from dataclasses import dataclass
from typing import Any, Iterable, NamedTuple, Optional, Union

from . import library
from .calls import accepted, written
from .library import RELAY_REGISTERS, RELAY_ROOM, call, moor
from .refused import Number, Refused
from .values import BYTE, LONG, Bytes, byte_column, data, long_column, of, whole

__all__ = [
    "Access",
    "Letter",
    "Packet",
    "Phase",
    "Relay",
    "Remembered",
    "Status",
    "check",
    "is_valid",
    "read",
    "write",
]


class Letter(str, enum.Enum):
    """What a packet is."""

    READ = "R"
    WRITE = "W"
    SYNC = "S"
    READ_DONE = "K"
    WRITE_DONE = "I"
    NO_REGISTER = "N"
    STATUS = "n"


class Access(enum.IntEnum):
    """What an access byte says of its register."""

    ABSENT = 0
    READ = 1
    WRITE = 2
    READ_WRITE = 3


class Status(enum.IntEnum):
    """The data of an 'n' of a relay device."""

    RECEIVED = 0x01
    """The first copy of a write."""
    RETRANSMISSION = 0x02
    """A further copy, while it runs."""
    DONE_BEFORE = 0x03
    """A further copy, after it has finished."""
    FORBIDDEN = 0x07
    """The register is not to be read, or written."""
    BUSY = 0x08
    """A write runs, and this is no copy of it."""
    SYNCED = 0x10
    """No write runs, and none is remembered now."""


class Phase(enum.IntEnum):
    """How far a write is that a relay device remembers."""

    IDLE = 0
    """None is remembered."""
    RUNNING = 1
    FINISHED = 2


class Remembered(NamedTuple):
    """The write that a relay device remembers; of none all is 0."""

    phase: Phase
    register: int
    data: int


@dataclass(frozen=True)
class Packet:
    """A packet: `data` is 0 where its letter carries none. `checked` is
    whether its checksum was examined; what is written has one that will be."""

    address: int
    letter: str
    register: int
    data: int = 0
    checked: bool = True

    def __str__(self) -> str:
        return write(self).decode("ascii")


def check(characters: Bytes) -> int:
    """The checksum of the characters.

    >>> f"{check(b'RPFFR00'):02X}"
    '9E'
    """
    return int(call(moor.moor_railbus_check, data(characters, "characters")))


def read(characters: Bytes) -> Packet:
    """What a packet says; it must fill the input. Refused with 13 to 16, or
    with 26.

    >>> packet = read(b"RPFFK000015002AF4")
    >>> packet.letter, hex(packet.data), packet.checked
    (<Letter.READ_DONE: 'K'>, '0x15002a', True)
    >>> read(b"RPFFR009F")
    Traceback (most recent call last):
    moortinker.refused.Refused: refused 16 at 7 (wrong check)
    """
    answer = accepted(call(moor.moor_read_railbus, data(characters, "characters")))
    letter = Letter(chr(answer.letter))
    return Packet(answer.address, letter, answer.reg, answer.data, bool(answer.checked))


def write(packet: Packet) -> bytes:
    """The characters of a packet. Refused with 15 for a letter that is none of
    the seven.

    >>> write(Packet(0xFF, Letter.READ, 0x00))
    b'RPFFR009E'
    """
    of(Packet, packet, "packet")
    return written(
        RELAY_ROOM,
        moor.moor_write_railbus,
        _character(packet.letter),
        whole(packet.address, BYTE, "address"),
        whole(packet.register, BYTE, "register"),
        whole(packet.data, LONG, "data"),
    )


def _character(letter: str) -> int:
    if len(of(str, letter, "letter")) != 1:
        raise TypeError("letter has to be one character")
    return whole(ord(letter), BYTE, "letter")


class Relay:
    """A relay device: its address, 256 registers, as many access bytes, and
    the write that it remembers.

    The columns are the device's own. They may be changed; calls on columns
    that are not valid are refused with 2, as the making of such a device is.
    """

    __slots__ = ("_access", "_registers", "_write", "address")

    def __init__(
        self,
        address: int,
        access: Union[Bytes, Iterable[int]],
        registers: Optional[Iterable[int]] = None,
    ) -> None:
        self.address = whole(address, BYTE, "address")
        self._access = byte_column(access, "access")
        fresh = [0] * RELAY_REGISTERS
        self._registers = long_column(fresh if registers is None else registers, "registers")
        self._write = library.Remembered()
        if not is_valid(self):
            raise Refused(Number.TABLE_NOT_VALID)

    @property
    def registers(self) -> array[int]:
        """What the registers hold."""
        return self._registers

    @property
    def access(self) -> bytearray:
        """What may be done with each of them, see `Access`."""
        return self._access

    @property
    def remembered(self) -> Remembered:
        """The write that it remembers."""
        return Remembered(Phase(self._write.phase), self._write.reg, self._write.data)

    def offer(self, packet: Bytes) -> bytes:
        """A packet offered to the device, and its answer, no characters where
        there is none. Refused as `read` is."""
        return self._answer(
            moor.moor_offer_railbus, data(packet, "packet"), self._registers, self._access
        )

    def finish(self) -> bytes:
        """The write that runs has finished: its register takes its data, and
        the answer says so; where none runs there is no answer."""
        return self._answer(moor.moor_finish_railbus, self._registers, self._access)

    def _answer(self, function: Any, *arguments: Any) -> bytes:
        room = bytearray(RELAY_ROOM)
        address = whole(self.address, BYTE, "address")
        answer = accepted(call(function, address, *arguments, self._write, room))
        self._write = answer.write
        return bytes(room[: answer.length])


def is_valid(relay: Relay) -> bool:
    """Whether registers and access bytes are those of a relay device.

    >>> relay = Relay(0x93, bytes(256))
    >>> relay.access[0] = 4
    >>> is_valid(relay)
    False
    """
    of(Relay, relay, "relay")
    return bool(call(moor.moor_relay_valid, relay.registers, relay.access))
