"""Other people's packages build frames, and the library judges them."""

import importlib
import random

import pytest

from moortinker import ebus, modbus, railbus


def right(frame):
    """Whether a Modbus RTU frame ends with its check."""
    return modbus.check(frame[:-2]) == int.from_bytes(frame[-2:], "little")


def peer(module, *names):
    """These names of a module; the test is left out where they are not there."""
    package = module.split(".")[0]
    try:
        found = importlib.import_module(module)
        return [getattr(found, name) for name in names]
    except (ImportError, AttributeError):
        pytest.skip(f"python3-{package} is not installed, or has no {names[0]}")


def requests():
    """Requests as pymodbus has them, each with an address, and answers."""
    [ReadCoilsRequest] = peer("pymodbus.bit_read_message", "ReadCoilsRequest")
    ReadHoldingRegistersRequest, ReadHoldingRegistersResponse = peer(
        "pymodbus.register_read_message", "ReadHoldingRegistersRequest", "ReadHoldingRegistersResponse")
    WriteMultipleRegistersRequest, WriteSingleRegisterRequest = peer(
        "pymodbus.register_write_message", "WriteMultipleRegistersRequest", "WriteSingleRegisterRequest")

    rng = random.Random(1)
    for _ in range(200):
        unit, address = rng.randrange(1, 248), rng.randrange(65536)
        values = [rng.randrange(65536) for _ in range(rng.randrange(1, 20))]
        yield ReadCoilsRequest(address, rng.randrange(1, 100), unit)
        yield ReadHoldingRegistersRequest(address, rng.randrange(1, 125), unit)
        yield WriteSingleRegisterRequest(address, values[0], unit)
        yield WriteMultipleRegistersRequest(address, values, unit)
        yield ReadHoldingRegistersResponse(values, unit=unit)


def test_frames_of_pymodbus_have_the_right_check():
    [ModbusRtuFramer] = peer("pymodbus.transaction", "ModbusRtuFramer")
    framer = ModbusRtuFramer(None)
    for request in requests():
        frame = framer.buildPacket(request)
        assert right(frame)
        spoiled = bytearray(frame)
        spoiled[len(frame) // 2] ^= 0x10
        assert not right(spoiled)


def test_pymodbus_takes_frames_with_our_check():
    [ModbusRtuFramer] = peer("pymodbus.transaction", "ModbusRtuFramer")
    [ServerDecoder] = peer("pymodbus.factory", "ServerDecoder")
    framer = ModbusRtuFramer(ServerDecoder())
    for request in requests():
        if "Response" in type(request).__name__:
            continue
        frame = bytes([request.unit_id, request.function_code]) + request.encode()
        frame += modbus.check(frame).to_bytes(2, "little")
        heard = []
        framer.processIncomingPacket(frame, heard.append, request.unit_id)
        assert [(type(one), one.unit_id, one.encode()) for one in heard] == [
            (type(request), request.unit_id, request.encode())]


def random_runs():
    rng = random.Random(1)
    return [rng.randbytes(rng.randrange(40)) for _ in range(500)] + [b"", b"\xa9", b"\xaa", b"\xa9\xaa"]


def test_crccheck_modbus():
    [CrcModbus] = peer("crccheck.crc", "CrcModbus")
    for run in random_runs():
        assert modbus.check(run) == CrcModbus.calc(run)


def test_crccheck_ebus():
    [Crc8Base] = peer("crccheck.crc", "Crc8Base")

    class Ebus(Crc8Base):
        _poly, _initvalue = 0x9B, 0

    for run in random_runs():
        wire = ebus.expand(run)
        # crccheck lets eight zero bits follow the bytes, and eBUS none.
        assert ebus.check(run) == (Ebus.calc(wire[:-1]) ^ wire[-1] if wire else 0)


def test_crccheck_railbus():
    [Crc7] = peer("crccheck.crc", "Crc7")
    for run in random_runs():
        assert railbus.check(run) == Crc7.calc(run) | 0x80
