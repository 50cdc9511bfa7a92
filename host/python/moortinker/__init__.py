"""The proved bus core of a plant-room gateway, from Python: eBUS to the boilers
(`ebus`), Fast Modbus to the sensors (`modbus` for the scan frames, `devices`
for the devices' side of a scan and whole scans, `events` for event polling),
Railbus to the relays (`railbus`).

The work is done by the library, whose functions are proved to return for any
bytes of any length, to touch only what they were lent, and to give exactly the
answer of the rules. This package adds types and decides nothing itself.

Bytes are handed in as bytes, bytearray or memoryview, and are not copied, but
for a memoryview that is read-only or has gaps and for what is handed to a call
that writes columns. Anything else, and a number that
is out of range, is a TypeError. What the rules refuse is a `Refused`.

>>> import moortinker
>>> exchange = moortinker.judge(bytes.fromhex("10 08 B5 11 01 01 89 00 01 2A B1 00 AA"))
>>> exchange.data.hex()
'2a'
>>> moortinker.judge(bytes.fromhex("10 08 B5 11 01 01 88 00 01 2A B1 00 AA"))
Traceback (most recent call last):
moortinker.refused.Refused: refused 9 at 6 (wrong check byte)
"""

from . import devices, ebus, events, library, modbus, railbus
from .devices import Device, Outcome, Table, scan
from .ebus import Exchange, Found, Kind, Listener, capture, judge
from .events import Event, Poll, Queues
from .railbus import Packet, Relay
from .refused import Number, Refused

__version__ = "0.2.0"

__all__ = [
    "Device",
    "Event",
    "Exchange",
    "Found",
    "Kind",
    "Listener",
    "Number",
    "Outcome",
    "Packet",
    "Poll",
    "Queues",
    "Refused",
    "Relay",
    "Table",
    "capture",
    "devices",
    "ebus",
    "events",
    "judge",
    "library",
    "modbus",
    "railbus",
    "scan",
]
