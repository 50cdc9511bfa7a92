"""Fast Modbus: events. The frames of event polling, and the devices' side of
it as a model on a perfect bus.

>>> from moortinker.devices import Table
>>> queues = Queues(Table([0x0001EB37, 9], [0x05, 0x0A]))
>>> queues.add(0x05, Event(kind=4, identifier=0x01D0, data=b"\\x04\\x00"))
>>> packet = read_events(queues.poll(Poll(minimum=0, most=100)).raw)
>>> packet.sender, packet.queued, packet.events
(5, 1, (Event(kind=4, identifier=464, data=b'\\x04\\x00'),))

The next poll confirms that packet, and nobody has events any more:

>>> reply = queues.poll(Poll(0, 100, confirmed=packet.sender, flag=packet.flag))
>>> read_events(reply.raw)
NoEvents(skipped=6)
"""

from __future__ import annotations

import enum
from dataclasses import dataclass
from typing import Any, NamedTuple, Optional, Tuple, Union

from .calls import accepted, written
from .devices import Table
from .library import POLL_ROOM, SLOTS_LENGTH, call, moor
from .refused import Number, Refused
from .values import BYTE, SIZE, WORD, Bytes, byte_column, data, of, own, whole

__all__ = [
    "Answer",
    "Event",
    "NoEvents",
    "Packet",
    "Poll",
    "Queues",
    "Reply",
    "event_at",
    "is_valid",
    "read_events",
    "read_poll",
    "write_no_events",
    "write_poll",
]

_POLL_FRAME = 9
_NO_EVENTS_FRAME = 5


class Answer(enum.IntEnum):
    """How a poll is answered."""

    SILENCE = 0
    PACKET = 17
    NO_EVENTS = 18


@dataclass(frozen=True)
class Event:
    """An event: its type, its identifier and its data."""

    kind: int
    identifier: int
    data: bytes


@dataclass(frozen=True)
class Poll:
    """An event request: the smallest id that may answer, the most bytes of
    events, and the packet that it confirms, by its sender's id and its flag.
    Id 0 confirms nothing, since no device has it."""

    minimum: int
    most: int
    confirmed: int = 0
    flag: int = 0


class Packet(NamedTuple):
    """A packet of events: its sender, its flag, how many events that has
    queued, those that are listed, and how many FF were passed over before."""

    sender: int
    flag: int
    queued: int
    events: Tuple[Event, ...]
    skipped: int


class NoEvents(NamedTuple):
    """That nobody has events, and how many FF were passed over before."""

    skipped: int


@dataclass(frozen=True)
class Reply:
    """What a poll gives: who answers, of a packet its flag and how many events
    it lists, how many FF it begins with, and its raw bytes, the FF included.
    All of them are 0 or empty where there is silence."""

    answer: Answer
    sender: int
    flag: int
    events: int
    skipped: int
    raw: bytes


def read_poll(frame: Bytes) -> Poll:
    """What an event request asks; it must fill the input. Refused with 13 to 16.

    >>> read_poll(bytes.fromhex("FD 46 10 00 64 0A 01 7E 15"))
    Poll(minimum=0, most=100, confirmed=10, flag=1)
    """
    answer = accepted(call(moor.moor_read_event_request, data(frame, "frame")))
    return Poll(answer.minimum, answer.most, answer.confirmed, answer.flag)


def write_poll(poll: Poll) -> bytes:
    """The frame of an event request.

    >>> write_poll(Poll(0, 100, 10, 1)).hex(" ")
    'fd 46 10 00 64 0a 01 7e 15'
    """
    return written(_POLL_FRAME, moor.moor_write_event_request, *_asked(poll))


def read_events(frame: Bytes) -> Union[Packet, NoEvents]:
    """What came back for an event request; up to 32 leading FF are passed
    over, and the frame must fill the rest. Refused with 13 to 16, or with 19.

    >>> read_events(bytes.fromhex("FF 05 46 11 01 01 06 02 04 01 D0 04 00 2B AC")).events
    (Event(kind=4, identifier=464, data=b'\\x04\\x00'),)
    >>> read_events(bytes.fromhex("FD 46 12 52 5D"))
    NoEvents(skipped=0)
    """
    frame = data(frame, "frame")
    answer = accepted(call(moor.moor_read_events, frame))
    if answer.answer == Answer.NO_EVENTS:
        return NoEvents(answer.skipped)
    events = []
    at: int = answer.first
    for _ in range(answer.listed):
        read = call(moor.moor_event_at, frame, at)
        events.append(_event(frame, read))
        at = read.next
    return Packet(answer.sender, answer.flag, answer.queued, tuple(events), answer.skipped)


def event_at(frame: Bytes, at: int = 0) -> Optional[Tuple[Event, int]]:
    """The event at a position of any bytes, and the position behind it, where
    all of it is there.

    >>> event_at(bytes.fromhex("02 04 01 D0 04 00"))
    (Event(kind=4, identifier=464, data=b'\\x04\\x00'), 6)
    >>> event_at(b"") is None
    True
    """
    frame = data(frame, "frame")
    read = call(moor.moor_event_at, frame, whole(at, SIZE, "at"))
    return (_event(frame, read), int(read.next)) if read.whole else None


def _event(frame: Bytes, read: Any) -> Event:
    carried = bytes(frame[read.start : read.start + read.size])
    return Event(read.kind, read.identifier, carried)


def write_no_events() -> bytes:
    """The answer that nobody has events.

    >>> write_no_events().hex(" ")
    'fd 46 12 52 5d'
    """
    return written(_NO_EVENTS_FRAME, moor.moor_write_no_events)


class Queues:
    """The event queues of the devices of a table, whose addresses are the ids:
    of each device the flag of its next packet, how many events its last packet
    had, how many are queued, and its slots. Of fresh queues all are 0.

    The columns are the queues' own. They may be changed; calls on table and
    queues that are not valid are refused with 2, as the making of such is.
    """

    __slots__ = ("_counts", "_flags", "_lasts", "_slots", "_table")

    def __init__(
        self,
        table: Table,
        flags: Optional[Bytes] = None,
        lasts: Optional[Bytes] = None,
        counts: Optional[Bytes] = None,
        slots: Optional[Bytes] = None,
    ) -> None:
        self._table = of(Table, table, "table")
        none = bytes(len(table.serials))
        self._flags = byte_column(none if flags is None else flags, "flags")
        self._lasts = byte_column(none if lasts is None else lasts, "lasts")
        self._counts = byte_column(none if counts is None else counts, "counts")
        self._slots = byte_column(none * SLOTS_LENGTH if slots is None else slots, "slots")
        if not is_valid(self):
            raise Refused(Number.TABLE_NOT_VALID)

    @property
    def table(self) -> Table:
        """The table that they stand beside."""
        return self._table

    @property
    def flags(self) -> bytearray:
        """Of each device the flag of its next packet, 0 or 1."""
        return self._flags

    @property
    def lasts(self) -> bytearray:
        """How many events its last packet had, 0 where none waits to be confirmed."""
        return self._lasts

    @property
    def counts(self) -> bytearray:
        """How many events are queued, at most 8."""
        return self._counts

    @property
    def slots(self) -> bytearray:
        """The slots, 8 of 13 bytes for each device: 1 where the event is urgent
        and 0 where not, the number of its data bytes, its type, its identifier,
        high byte first, and its data."""
        return self._slots

    @property
    def columns(self) -> Tuple[Any, ...]:
        """The columns of table and queues, as the library takes them."""
        return (*self._table.columns, self._flags, self._lasts, self._counts, self._slots)

    def add(self, id: int, event: Event, urgent: bool = False) -> None:
        """A new event for the device with this id. Refused with 13 where there
        is no such device or the event has over 8 data bytes, and with 18 where
        the queue is full."""
        of(Event, event, "event")
        answer = call(
            moor.moor_add_event,
            *self.columns,
            whole(id, BYTE, "id"),
            bool(urgent),
            whole(event.kind, BYTE, "kind"),
            whole(event.identifier, WORD, "identifier"),
            own(event.data, "data"),
        )
        accepted(answer)

    def poll(self, poll: Poll) -> Reply:
        """A poll: the packet that it names is confirmed and its events are
        dropped; then the devices contend, and the winner sends as many of its
        oldest events as fit, or says that nobody has any."""
        return self._reply(moor.moor_poll, *_asked(poll))

    def offer_poll(self, frame: Bytes) -> Reply:
        """A raw event request offered to the devices. Refused as `read_poll` is."""
        return self._reply(moor.moor_offer_poll, own(frame, "frame"))

    def _reply(self, function: Any, *asked: Any) -> Reply:
        room = bytearray(POLL_ROOM)
        answer = accepted(call(function, *asked, *self.columns, room))
        return Reply(
            answer=Answer(answer.answer),
            sender=answer.sender,
            flag=answer.flag,
            events=answer.events,
            skipped=answer.skipped,
            raw=bytes(room[: answer.length]),
        )


def is_valid(queues: Queues) -> bool:
    """Whether the columns of queues and of their table are valid.

    >>> queues = Queues(Table([5, 9], [1, 2]))
    >>> queues.counts[0] = 9
    >>> is_valid(queues)
    False
    """
    return bool(call(moor.moor_queues_valid, *of(Queues, queues, "queues").columns))


def _asked(poll: Poll) -> Tuple[int, int, int, int]:
    of(Poll, poll, "poll")
    return (
        whole(poll.minimum, BYTE, "minimum"),
        whole(poll.most, BYTE, "most"),
        whole(poll.confirmed, BYTE, "confirmed"),
        whole(poll.flag, BYTE, "flag"),
    )
