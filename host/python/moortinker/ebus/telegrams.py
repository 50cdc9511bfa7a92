"""Commands and replies: read from a raw run, and written as they go on the
wire."""

from __future__ import annotations

from dataclasses import dataclass

from ..calls import accepted, written
from ..library import COMMAND_WIRE, REPLY_WIRE, call, moor
from ..values import BYTE, SIZE, Bytes, data, whole

COMMAND_HEAD = 5
"""The bytes of a command before its data: SRC DST PB SB LEN."""

REPLY_HEAD = 1
"""The byte of a reply before its data: LEN."""


@dataclass(frozen=True)
class Telegram:
    """A command or reply that was read. Its check byte was not judged.

    `logical` are its logical bytes, check byte included, `data` those between
    LEN and check byte; `check_place` is where the check byte's first raw byte
    stands, and `next` the position behind the telegram.
    """

    logical: bytes
    data: bytes
    check_place: int
    next: int

    @property
    def is_check_right(self) -> bool:
        """Whether its check byte is that of the bytes before it."""
        return check_right(self.logical)


def read_command(run: Bytes, at: int = 0) -> Telegram:
    """The command at a position of a raw run. Refused with 3 to 8.

    >>> command = read_command(bytes.fromhex("10 08 B5 11 01 01 89 00"))
    >>> command.data, command.is_check_right, command.next
    (b'\\x01', True, 7)
    """
    return _read(run, at, COMMAND_HEAD)


def read_reply(run: Bytes, at: int = 0) -> Telegram:
    """The reply at a position of a raw run. Refused with 3, 4, 5 or 8.

    >>> read_reply(bytes.fromhex("01 2A B1 00 AA")).data.hex()
    '2a'
    """
    return _read(run, at, REPLY_HEAD)


def _read(run: Bytes, at: int, head: int) -> Telegram:
    answer = call(
        moor.moor_telegram_at, data(run, "run"), head == COMMAND_HEAD, whole(at, SIZE, "at")
    )
    accepted(answer)
    logical = bytes(answer.bytes[: answer.length])
    return Telegram(logical, logical[head:-1], answer.last, answer.next)


def check_right(telegram: Bytes) -> bool:
    """Whether the last of these logical bytes is the check byte of those
    before it; of no bytes it is not.

    >>> check_right(b"\\x01\\x2a\\xb1"), check_right(b"")
    (True, False)
    """
    return bool(call(moor.moor_check_right, data(telegram, "telegram")))


def write_command(
    source: int, destination: int, primary: int, secondary: int, payload: Bytes = b""
) -> bytes:
    """A command as it goes on the wire. Refused with 6, 7 or 8.

    >>> write_command(0x10, 0x08, 0xB5, 0x11, b"\\x01").hex(" ")
    '10 08 b5 11 01 01 89'
    >>> write_command(0x02, 0x08, 0xB5, 0x11)
    Traceback (most recent call last):
    moortinker.refused.Refused: refused 6 at 0 (source no initiator)
    """
    return written(
        COMMAND_WIRE,
        moor.moor_write_command,
        whole(source, BYTE, "source"),
        whole(destination, BYTE, "destination"),
        whole(primary, BYTE, "primary"),
        whole(secondary, BYTE, "secondary"),
        data(payload, "payload"),
    )


def write_reply(payload: Bytes = b"") -> bytes:
    """A reply as it goes on the wire. Refused with 8.

    >>> write_reply(b"\\x2a").hex(" ")
    '01 2a b1'
    """
    return written(REPLY_WIRE, moor.moor_write_reply, data(payload, "payload"))
