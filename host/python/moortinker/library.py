"""The C interface as it stands: the structs, rooms and functions of
moortinker.h.

The other modules offer every one of these calls with what was handed in
looked at first; a program that uses this one owes what the header says.

>>> out = bytearray(4)
>>> written = call(moor.moor_expand, b"\\xa9\\xaa", out)
>>> written.number, written.length, out.hex(" ")
(0, 4, 'a9 00 a9 01')
"""

from __future__ import annotations

import ctypes
import ctypes.util
import os
from array import array
from ctypes import c_bool, c_char, c_size_t, c_uint8, c_uint16, c_uint32, c_void_p
from pathlib import Path
from typing import Any, Dict, List, Tuple, Type, Union

from .values import Bytes

COMMAND_ROOM = 22
REPLY_ROOM = 18
ANSWER_ROOM = 42
POLL_ROOM = 116
COMMAND_WIRE = 41
REPLY_WIRE = 35
MOST_DEVICES = 247
MOST_FILL = 32
MOST_QUEUED = 8
MOST_DATA = 8
SLOT_LENGTH = 13
SLOTS_LENGTH = 104
RELAY_ROOM = 17
RELAY_REGISTERS = 256


class Written(ctypes.Structure):
    _fields_ = [("number", c_uint8), ("place", c_size_t), ("length", c_size_t)]


class Logical(ctypes.Structure):
    _fields_ = [
        ("number", c_uint8),
        ("byte", c_uint8),
        ("place", c_size_t),
        ("next", c_size_t),
    ]


class Telegram(ctypes.Structure):
    _fields_ = [
        ("number", c_uint8),
        ("place", c_size_t),
        ("length", c_size_t),
        ("last", c_size_t),
        ("next", c_size_t),
        ("bytes", c_uint8 * 22),
    ]


class Judged(ctypes.Structure):
    _fields_ = [
        ("number", c_uint8),
        ("kind", c_uint8),
        ("command_attempts", c_uint8),
        ("reply_attempts", c_uint8),
        ("place", c_size_t),
        ("read", c_size_t),
    ]


class Listening(ctypes.Structure):
    _fields_ = [
        ("start", c_size_t),
        ("place", c_size_t),
        ("due", c_uint8),
        ("number", c_uint8),
        ("held", c_uint8),
        ("command_attempts", c_uint8),
        ("reply_attempts", c_uint8),
        ("command_length", c_uint8),
        ("reply_1_length", c_uint8),
        ("reply_2_length", c_uint8),
        ("raw", c_uint8 * 46),
        ("kept", c_uint8 * 58),
    ]


class Fed(ctypes.Structure):
    _fields_ = [("state", Listening), ("used", c_size_t)]


class Closed(ctypes.Structure):
    _fields_ = [("judged", Judged), ("state", Listening)]


class Stretch(ctypes.Structure):
    _fields_ = [("start", c_size_t), ("end", c_size_t)]


class Part(ctypes.Structure):
    _fields_ = [("attempt", c_uint8), ("start", c_size_t), ("length", c_size_t)]


class RequestRead(ctypes.Structure):
    _fields_ = [("number", c_uint8), ("request", c_uint8), ("place", c_size_t)]


class AnswerRead(ctypes.Structure):
    _fields_ = [
        ("number", c_uint8),
        ("answer", c_uint8),
        ("address", c_uint8),
        ("serial", c_uint32),
        ("place", c_size_t),
        ("skipped", c_size_t),
    ]


class Decided(ctypes.Structure):
    _fields_ = [("key", c_uint32), ("dominant", c_size_t)]


class Scanned(ctypes.Structure):
    _fields_ = [
        ("number", c_uint8),
        ("end", c_uint8),
        ("place", c_size_t),
        ("requests", c_size_t),
        ("found", c_size_t),
        ("skipped", c_size_t),
    ]


class EventRequestRead(ctypes.Structure):
    _fields_ = [
        ("number", c_uint8),
        ("minimum", c_uint8),
        ("most", c_uint8),
        ("confirmed", c_uint8),
        ("flag", c_uint8),
        ("place", c_size_t),
    ]


class EventsRead(ctypes.Structure):
    _fields_ = [
        ("number", c_uint8),
        ("answer", c_uint8),
        ("sender", c_uint8),
        ("flag", c_uint8),
        ("queued", c_uint8),
        ("size", c_uint8),
        ("place", c_size_t),
        ("listed", c_size_t),
        ("first", c_size_t),
        ("skipped", c_size_t),
    ]


class Event(ctypes.Structure):
    _fields_ = [
        ("whole", c_uint8),
        ("kind", c_uint8),
        ("size", c_uint8),
        ("identifier", c_uint16),
        ("start", c_size_t),
        ("next", c_size_t),
    ]


class Added(ctypes.Structure):
    _fields_ = [("number", c_uint8), ("place", c_size_t)]


class Polled(ctypes.Structure):
    _fields_ = [
        ("number", c_uint8),
        ("answer", c_uint8),
        ("sender", c_uint8),
        ("flag", c_uint8),
        ("events", c_uint8),
        ("place", c_size_t),
        ("length", c_size_t),
        ("skipped", c_size_t),
    ]


class RailbusRead(ctypes.Structure):
    _fields_ = [
        ("number", c_uint8),
        ("letter", c_uint8),
        ("address", c_uint8),
        ("reg", c_uint8),
        ("checked", c_uint8),
        ("data", c_uint32),
        ("place", c_size_t),
    ]


class Remembered(ctypes.Structure):
    _fields_ = [("phase", c_uint8), ("reg", c_uint8), ("data", c_uint32)]


class Relayed(ctypes.Structure):
    _fields_ = [
        ("number", c_uint8),
        ("write", Remembered),
        ("place", c_size_t),
        ("length", c_size_t),
    ]


# A pointer and the length behind it.
_LENT: List[Any] = [c_void_p, c_size_t]
_TABLE = _LENT * 3
_QUEUES = _LENT * 7

FUNCTIONS: Dict[str, Tuple[Type[Any], List[Any]]] = {
    "moor_ebus_check": (c_uint8, _LENT),
    "moor_modbus_check": (c_uint16, _LENT),
    "moor_railbus_check": (c_uint8, _LENT),
    "moor_is_initiator": (c_bool, [c_uint8]),
    "moor_is_reserved": (c_bool, [c_uint8]),
    "moor_kind": (c_uint8, [c_uint8]),
    "moor_logical_at": (Logical, [*_LENT, c_size_t]),
    "moor_expand": (Written, _LENT * 2),
    "moor_undo": (Written, _LENT * 2),
    "moor_telegram_at": (Telegram, [*_LENT, c_bool, c_size_t]),
    "moor_check_right": (c_bool, _LENT),
    "moor_write_command": (Written, [c_uint8] * 4 + _LENT * 2),
    "moor_write_reply": (Written, _LENT * 2),
    "moor_judge": (Judged, _LENT * 4),
    "moor_listen": (Listening, []),
    "moor_feed": (Fed, [Listening, *_LENT]),
    "moor_has_answered": (c_bool, [Listening]),
    "moor_close": (Closed, [Listening, *_LENT * 3]),
    "moor_next_exchange": (Stretch, [*_LENT, c_size_t]),
    "moor_reply_data": (Part, [*_LENT * 2, c_uint8]),
    "moor_read_request": (RequestRead, _LENT),
    "moor_read_answer": (AnswerRead, _LENT),
    "moor_write_request": (Written, [c_uint8, *_LENT]),
    "moor_write_found": (Written, [c_uint32, c_uint8, *_LENT]),
    "moor_write_end": (Written, _LENT),
    "moor_table_valid": (c_bool, _TABLE),
    "moor_contest": (Decided, _LENT),
    "moor_start": (Written, [*_TABLE, *_LENT]),
    "moor_resume": (Written, [*_TABLE, *_LENT]),
    "moor_offer": (Written, [*_LENT, *_TABLE, *_LENT]),
    "moor_scan": (Scanned, [*_TABLE, *_LENT * 2, c_size_t]),
    "moor_read_event_request": (EventRequestRead, _LENT),
    "moor_write_event_request": (Written, [c_uint8] * 4 + _LENT),
    "moor_read_events": (EventsRead, _LENT),
    "moor_event_at": (Event, [*_LENT, c_size_t]),
    "moor_write_no_events": (Written, _LENT),
    "moor_queues_valid": (c_bool, _QUEUES),
    "moor_add_event": (Added, [*_QUEUES, c_uint8, c_uint8, c_uint8, c_uint16, *_LENT]),
    "moor_poll": (Polled, [c_uint8] * 4 + _QUEUES + _LENT),
    "moor_offer_poll": (Polled, [*_LENT, *_QUEUES, *_LENT]),
    "moor_read_railbus": (RailbusRead, _LENT),
    "moor_write_railbus": (Written, [c_uint8, c_uint8, c_uint8, c_uint32, *_LENT]),
    "moor_relay_valid": (c_bool, _LENT * 2),
    "moor_offer_railbus": (Relayed, [c_uint8, *_LENT * 3, Remembered, *_LENT]),
    "moor_finish_railbus": (Relayed, [c_uint8, *_LENT * 2, Remembered, *_LENT]),
}
"""What each function gives and what it takes."""

SONAME = "libmoortinker.so.0"
"""The name that programs look for; another major version has another one."""


def _place() -> str:
    """Where the library is: a path, or a name that the system looks up."""
    named = os.environ.get("MOORTINKER_LIBRARY")
    if named:
        return named
    built = Path(__file__).resolve().parent / "../../../target/staticlib/libmoortinker.so"
    if built.is_file():
        return str(built.resolve())
    # find_library needs a compiler or linker to look into LD_LIBRARY_PATH; the
    # loader, which is handed the plain name, does not.
    return ctypes.util.find_library("moortinker") or SONAME


def _loaded(place: str) -> ctypes.PyDLL:
    advice = (
        "host/archive writes it into the repository and host/install PREFIX elsewhere "
        "(then PREFIX/lib has to be in LD_LIBRARY_PATH); MOORTINKER_LIBRARY may name its path"
    )
    try:
        # PyDLL keeps other threads of Python from changing what a call was lent.
        library = ctypes.PyDLL(place)
    except OSError as said:
        raise ImportError(f"the library of Moortinker was not found: {said}; {advice}") from None
    for name, (gives, takes) in FUNCTIONS.items():
        try:
            function = getattr(library, name)
        except AttributeError:
            fault = f"{place} has no {name}, so it is of another version"
            raise ImportError(f"{fault}; {advice}") from None
        function.restype, function.argtypes = gives, takes
    return library


PLACE = _place()
"""Where the library was found."""

moor = _loaded(PLACE)
"""The library: `moor.moor_judge` and so on."""


def call(function: Any, *arguments: Any) -> Any:
    """Calls a function of the library. Each buffer among the arguments, bytes,
    bytearray, memoryview or array, becomes its pointer and its length.

    The buffers are lent for the call alone: an exception that is raised behind
    it does not keep a bytearray from being resized.
    """
    taken: List[Any] = []
    for argument in arguments:
        if isinstance(argument, (bytes, bytearray, memoryview, array)):
            taken += _lent(argument)
        else:
            taken.append(argument)
    return function(*taken)


def _lent(buffer: Union[Bytes, array[int]]) -> Tuple[Any, int]:
    """Pointer and length. Nothing is copied but a memoryview that may not be
    written or has gaps, for which ctypes has no pointer."""
    if type(buffer) is bytes:
        return buffer, len(buffer)
    view = memoryview(buffer)
    if view.nbytes == 0:
        return None, 0
    if view.readonly or not view.c_contiguous:
        copy = bytes(view)
        return copy, len(copy)
    return ctypes.byref(c_char.from_buffer(view)), view.nbytes // view.itemsize
