"""eBUS: check byte, escapes, addresses, telegrams, and the judging of
exchanges, recorded whole or as their bytes arrive.

*Raw* bytes are those on the wire. *Logical* bytes are those meant: on the wire
every A9 becomes A9 00 and every AA becomes A9 01, since a raw AA is always SYN.
"""

from .captures import Found, Stretch, capture, next_exchange
from .exchanges import Exchange, Listener, judge, reply_data
from .telegrams import (
    Telegram,
    check_right,
    read_command,
    read_reply,
    write_command,
    write_reply,
)
from .wire import (
    Kind,
    Logical,
    check,
    expand,
    is_initiator,
    is_reserved,
    kind,
    logical_at,
    undo,
)

__all__ = [
    "Exchange",
    "Found",
    "Kind",
    "Listener",
    "Logical",
    "Stretch",
    "Telegram",
    "capture",
    "check",
    "check_right",
    "expand",
    "is_initiator",
    "is_reserved",
    "judge",
    "kind",
    "logical_at",
    "next_exchange",
    "read_command",
    "read_reply",
    "reply_data",
    "undo",
    "write_command",
    "write_reply",
]
