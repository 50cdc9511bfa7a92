"""The judging of exchanges, recorded whole or as their bytes arrive."""

from __future__ import annotations

from dataclasses import dataclass
from typing import Any, Sequence, Tuple, Union

from ..library import COMMAND_ROOM, REPLY_ROOM, call, moor
from ..refused import Refused
from ..values import BYTE, Bytes, data, whole
from .telegrams import COMMAND_HEAD, REPLY_HEAD
from .wire import Kind


@dataclass(frozen=True)
class Exchange:
    """An exchange that was accepted.

    `command` is the accepted command, SRC through check byte; `replies` are
    the attempts at the reply, LEN through check byte, a NACKed one included;
    `data` is what the accepted reply carries, nothing where there is none.
    All of them are logical bytes. `bytes_read` counts raw bytes, idle time in
    front and SYN included.
    """

    kind: Kind
    command: bytes
    command_attempts: int
    reply_attempts: int
    replies: Tuple[bytes, ...]
    data: bytes
    bytes_read: int

    @property
    def source(self) -> int:
        """SRC."""
        return self.command[0]

    @property
    def destination(self) -> int:
        """DST."""
        return self.command[1]

    @property
    def service(self) -> Tuple[int, int]:
        """PB and SB."""
        return self.command[2], self.command[3]

    @property
    def command_data(self) -> bytes:
        """What the command carries."""
        return self.command[COMMAND_HEAD:-1]


class Listener:
    """Judges an exchange whose bytes arrive in runs. However a recording is
    cut, the answer is that of `judge` on all of it.

    >>> listener = Listener()
    >>> listener.feed(bytes.fromhex("AA AA 10 08 B5 11 01 01 89 00"))
    10
    >>> listener.answered
    False
    >>> listener.feed(bytes.fromhex("01 2A B1 00 AA 10 08"))
    5
    >>> listener.answered, listener.close().data
    (True, b'*')

    It is plain data: it may be copied, pickled and kept.
    """

    __slots__ = ("_state",)

    def __init__(self) -> None:
        self._state = call(moor.moor_listen)

    def feed(self, run: Bytes) -> int:
        """Hears a run, and says how many of its bytes were used: all up to the
        one that settles the exchange, and none once it is settled."""
        fed = call(moor.moor_feed, self._state, data(run, "run"))
        self._state = fed.state
        return int(fed.used)

    @property
    def answered(self) -> bool:
        """Whether the answer is known, so that no more bytes are used."""
        return bool(call(moor.moor_has_answered, self._state))

    def close(self) -> Exchange:
        """The answer to all bytes used so far, refused as `judge` does: with 3
        where it is not known yet. From then on it stays the answer."""
        return raised(self.answer())

    def answer(self) -> Union[Exchange, Refused]:
        """What `close` gives, with a refusal handed back and not raised."""
        rooms = _rooms()
        closed = call(moor.moor_close, self._state, *rooms)
        self._state = closed.state
        return answer_of(closed.judged, rooms)


def judge(run: Bytes) -> Exchange:
    """Judges a recorded run, through the SYN that ends its exchange; bytes
    behind that are not looked at. The run may start in idle time.

    >>> run = bytes.fromhex("10 08 B5 11 01 01 89 00 01 2A B1 00 AA")
    >>> exchange = judge(run)
    >>> exchange.kind, exchange.service == (0xB5, 0x11), exchange.data, exchange.bytes_read
    (<Kind.INITIATOR_TARGET: 3>, True, b'*', 13)

    Refused with 3 to 12, at the raw byte that decides it:

    >>> judge(run.replace(b"\\x89\\x00", b"\\x89\\x55"))
    Traceback (most recent call last):
    moortinker.refused.Refused: refused 12 at 7 (bus error)
    """
    return raised(answer_to(data(run, "run")))


def answer_to(run: Bytes) -> Union[Exchange, Refused]:
    """What `judge` gives, with a refusal handed back and not raised."""
    rooms = _rooms()
    return answer_of(call(moor.moor_judge, run, *rooms), rooms)


def reply_data(reply_1: Bytes, reply_2: Bytes, attempt: int) -> bytes:
    """What the reply of attempt 1 or 2 carries, LEN through check byte being
    handed in; nothing for another attempt or where its bytes are not there.

    >>> reply_data(b"\\x01\\x2a\\xb1", b"", 1)
    b'*'
    """
    reply_1, reply_2 = data(reply_1, "reply_1"), data(reply_2, "reply_2")
    part = call(moor.moor_reply_data, reply_1, reply_2, whole(attempt, BYTE, "attempt"))
    reply = reply_2 if part.attempt == 2 else reply_1
    return bytes(reply[part.start : part.start + part.length])


def _rooms() -> Tuple[bytearray, bytearray, bytearray]:
    return bytearray(COMMAND_ROOM), bytearray(REPLY_ROOM), bytearray(REPLY_ROOM)


def answer_of(judged: Any, rooms: Sequence[bytearray]) -> Union[Exchange, Refused]:
    """An answer of the library, with the buffers that it filled."""
    if judged.number:
        return Refused(judged.number, judged.place)
    command, reply_1, reply_2 = rooms
    attempts: int = judged.reply_attempts
    return Exchange(
        kind=Kind(judged.kind),
        command=_telegram(command, COMMAND_HEAD),
        command_attempts=judged.command_attempts,
        reply_attempts=attempts,
        replies=tuple(_telegram(reply, REPLY_HEAD) for reply in rooms[1 : 1 + attempts]),
        data=reply_data(reply_1, reply_2, attempts),
        bytes_read=judged.read,
    )


def _telegram(room: bytearray, head: int) -> bytes:
    """What a buffer starts with: a head whose last byte is LEN, data, check byte."""
    return bytes(room[: head + room[head - 1] + 1])


def raised(answer: Union[Exchange, Refused]) -> Exchange:
    """An exchange; a refusal is raised."""
    if isinstance(answer, Refused):
        raise answer
    return answer
