"""Refusals: a number and a place."""

from __future__ import annotations

import enum


class Number(enum.IntEnum):
    """The numbers handed back on refusal, each with its short name. Not every
    number is in use.

    >>> Number(9)
    <Number.CHECK_WRONG: 9>
    >>> Number.CHECK_WRONG.words
    'wrong check byte'
    """

    words: str

    def __new__(cls, number: int, words: str = "") -> Number:
        member = int.__new__(cls, number)
        member._value_ = number
        member.words = words
        return member

    OUTPUT_SHORT = 1, "output too short"
    TABLE_NOT_VALID = 2, "table not valid"
    RUN_ENDED = 3, "run ended"
    ESCAPE_WRONG = 4, "wrong escape"
    SYN_EARLY = 5, "SYN too early"
    SOURCE_WRONG = 6, "source no initiator"
    DESTINATION_WRONG = 7, "destination A9 or AA"
    LENGTH_OVER = 8, "LEN over 16"
    CHECK_WRONG = 9, "wrong check byte"
    COMMAND_NACKED = 10, "command NACKed twice"
    REPLY_NACKED = 11, "reply NACKed twice"
    BUS_ERROR = 12, "bus error"
    FRAME_LENGTH = 13, "wrong length"
    FRAME_HEAD = 14, "wrong mark"
    SUBCOMMAND_WRONG = 15, "subcommand or letter not taken"
    FRAME_CHECK = 16, "wrong check"
    SERIAL_OVER = 17, "serial too large"
    QUEUE_FULL = 18, "queue full"
    FILL_OVER = 19, "over 32 FF"
    DIGIT_WRONG = 26, "no hex digit"


class Refused(ValueError):
    """A refusal: why, and the offset of the raw byte that is named, 0 where
    none is. Whatever was lent to a call that refuses keeps its content.

    >>> refused = Refused(9, 6)
    >>> refused.number, refused.place, refused.name
    (<Number.CHECK_WRONG: 9>, 6, 'wrong check byte')
    >>> print(refused)
    refused 9 at 6 (wrong check byte)
    >>> refused == Refused(Number.CHECK_WRONG, 6)
    True
    """

    number: Number
    place: int

    def __init__(self, number: int, place: int = 0) -> None:
        self.number = Number(number)
        self.place = place
        # Plain numbers, from which it is shown, copied and unpickled.
        super().__init__(int(number), place)

    @property
    def name(self) -> str:
        """The number's short name."""
        return self.number.words

    def __str__(self) -> str:
        return f"refused {self.number:d} at {self.place} ({self.name})"

    def __eq__(self, other: object) -> bool:
        if not isinstance(other, Refused):
            return NotImplemented
        return (self.number, self.place) == (other.number, other.place)

    def __hash__(self) -> int:
        return hash((self.number, self.place))
