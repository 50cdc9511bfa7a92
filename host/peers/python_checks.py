"""The checks as Debian's Python packages compute them.

One argument names whose check it is: pymodbus, crccheck-modbus, crccheck-ebus
or crccheck-railbus. Each line of standard input is a frame in hex, which may be
empty; each line of standard output is its check in hex. The program ends with
status 3 where the package is not installed.
"""

import sys


def pymodbus_check():
    from pymodbus.utilities import computeCRC

    def check(frame):
        # It answers with the two bytes as they are sent, low byte first.
        return int.from_bytes(computeCRC(frame).to_bytes(2, "big"), "little")

    return check


def crccheck_modbus():
    from crccheck.crc import CrcModbus

    return CrcModbus.calc


def crccheck_ebus():
    from crccheck.crc import Crc8Base

    class Crc8(Crc8Base):
        _poly = 0x9B
        _initvalue = 0

    def check(frame):
        # crccheck lets eight zero bits follow the bytes and eBUS does not, so
        # that eBUS's last byte has only been added to what was left before it.
        wire = expand(frame)
        return Crc8.calc(wire[:-1]) ^ wire[-1] if wire else 0

    return check


def crccheck_railbus():
    from crccheck.crc import Crc7

    def check(frame):
        # The top bit says that the checksum is to be examined.
        return Crc7.calc(frame) | 0x80

    return check


def expand(frame):
    """The bytes as they go on the wire: A9 as A9 00, AA as A9 01."""
    wire = bytearray()
    for byte in frame:
        wire += bytes([0xA9, byte - 0xA9]) if byte in (0xA9, 0xAA) else bytes([byte])
    return wire


PEERS = {
    "pymodbus": pymodbus_check,
    "crccheck-modbus": crccheck_modbus,
    "crccheck-ebus": crccheck_ebus,
    "crccheck-railbus": crccheck_railbus,
}


def main():
    try:
        check = PEERS[sys.argv[1]]()
    except ImportError:
        return 3
    for line in sys.stdin:
        print(f"{check(bytearray.fromhex(line.strip())):X}")
    return 0


sys.exit(main())
