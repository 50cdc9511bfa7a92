"""What is handed in: every kind of bytes, everything else, and that refusals
change nothing."""

import copy
import gc
import mmap
import pickle
import threading
from array import array

import pytest

from moortinker import (
    Event, Listener, Packet, Poll, Queues, Refused, Relay, Table, capture, devices, ebus, events, judge, library,
    modbus, railbus, scan,
)

W7 = bytes.fromhex("10 08 B5 11 01 01 89 00 01 2A B1 00 AA")


class Lying(bytes):
    """Bytes that say anything of themselves."""

    def __len__(self):
        return 1 << 40

    def __getitem__(self, index):
        raise RuntimeError("not to be asked")


class LyingArray(bytearray):
    __len__ = Lying.__len__
    __getitem__ = Lying.__getitem__


def gaps(run):
    """A view of every other byte, the others being wrong."""
    return memoryview(bytearray(byte for pair in zip(run, b"\x5a" * len(run)) for byte in pair))[::2]


KINDS = [
    bytes, bytearray, memoryview, lambda run: memoryview(bytearray(run)), gaps,
    lambda run: gaps(run).toreadonly(), Lying, LyingArray,
]


@pytest.mark.parametrize("kind", KINDS)
@pytest.mark.parametrize("length", [0, 1, 13])
def test_every_kind_of_bytes(kind, length):
    run = W7[:length]
    lent = kind(run)
    assert ebus.check(lent) == ebus.check(run)
    assert ebus.expand(lent) == ebus.expand(run)
    assert modbus.check(lent) == modbus.check(run)
    listener = Listener()
    assert listener.feed(lent) == length
    assert list(capture(lent)) == list(capture(run))
    if length == 13:
        assert judge(lent) == judge(run)
        assert ebus.reply_data(kind(run[8:]), b"", 1) == b"\x2a"
    else:
        with pytest.raises(Refused) as caught:
            judge(lent)
        assert caught.value == Refused(3, length)


TAKE_BYTES = [
    ebus.check, ebus.logical_at, ebus.expand, ebus.undo, ebus.read_command, ebus.read_reply, ebus.check_right,
    lambda data: ebus.write_command(0x10, 0x08, 0, 0, data), ebus.write_reply, judge, Listener().feed,
    ebus.next_exchange, capture, lambda data: ebus.reply_data(data, b"", 1), lambda data: ebus.reply_data(b"", data, 1),
    modbus.check, modbus.read_request, modbus.read_answer, Table([], []).offer,
    events.read_poll, events.read_events, events.event_at, Queues(Table([], [])).offer_poll,
    lambda data: Queues(Table([5], [5])).add(5, Event(0, 0, data)),
    railbus.check, railbus.read, Relay(0, bytes(256)).offer,
]
NO_BYTES = [
    "AA", None, 5, 5.0, [0xAA], (), object(), array("I", [1]), bytes, memoryview(array("I", [1])),
    memoryview(b"1234").cast("B", (2, 2)),
]


@pytest.mark.parametrize("call", TAKE_BYTES)
@pytest.mark.parametrize("value", NO_BYTES, ids=lambda value: type(value).__name__)
def test_what_is_no_bytes(call, value):
    with pytest.raises(TypeError):
        call(value)


BYTE_CALLS = [
    ebus.is_initiator, ebus.is_reserved, ebus.kind, modbus.write_request,
    lambda number: ebus.write_command(number, 0x08, 0, 0), lambda number: ebus.write_command(0x10, number, 0, 0),
    lambda number: ebus.write_command(0x10, 0x08, number, 0), lambda number: ebus.write_command(0x10, 0x08, 0, number),
    lambda number: ebus.reply_data(b"", b"", number), lambda number: modbus.write_found(0, number),
    lambda number: Table([5], [number]), lambda number: Table([5], [5], [number]),
    lambda number: events.write_poll(Poll(number, 0)), lambda number: events.write_poll(Poll(0, number)),
    lambda number: events.write_poll(Poll(0, 0, number)), lambda number: events.write_poll(Poll(0, 0, 0, number)),
    lambda number: Queues(Table([5], [5])).add(number, Event(0, 0, b"")),
    lambda number: Queues(Table([5], [5])).add(5, Event(number, 0, b"")),
    lambda number: Relay(number, bytes(256)), lambda number: Relay(0, [number] * 256),
    lambda number: railbus.write(Packet(number, "R", 0)), lambda number: railbus.write(Packet(0, "R", number)),
]
LARGER = [
    (0xFFFF, lambda number: Queues(Table([5], [5])).add(5, Event(0, number, b""))),
    (0xFFFFFFFF, lambda number: modbus.write_found(number, 0)),
    (0xFFFFFFFF, lambda number: Table([number], [5])),
    (0xFFFFFFFF, lambda number: devices.contest([number])),
    (0xFFFFFFFF, lambda number: railbus.write(Packet(0, "W", 0, number))),
    (0xFFFFFFFF, lambda number: Relay(0, bytes(256), [number] * 256)),
    (2**64 - 1, lambda number: scan(Table([], []), number)),
    (2**64 - 1, lambda number: ebus.logical_at(b"", number)),
    (2**64 - 1, lambda number: ebus.next_exchange(b"", number)),
    (2**64 - 1, lambda number: events.event_at(b"", number)),
]


@pytest.mark.parametrize("most, call", [(0xFF, call) for call in BYTE_CALLS] + LARGER)
def test_numbers_out_of_range(most, call):
    for number in (-1, most + 1, 10**5000, "5", 5.0, None, b"5", [5]):
        with pytest.raises(TypeError, match="has to be a whole number"):
            call(number)
    for number in (0, most):
        try:
            call(number)
        except Refused:
            pass


@pytest.mark.parametrize(
    "call",
    [
        lambda: scan("table"), lambda: devices.is_valid(None), lambda: Queues([1]), lambda: events.is_valid(5),
        lambda: Queues(Table([], [])).poll((0, 0)), lambda: Queues(Table([5], [5])).add(5, b""),
        lambda: railbus.write("RPFFR009E"), lambda: railbus.is_valid(None), lambda: railbus.write(Packet(0, b"R", 0)),
        lambda: railbus.write(Packet(0, "RW", 0)), lambda: railbus.write(Packet(0, "\u0394", 0)),
        lambda: Table(5, [5]), lambda: Table([5], 5), lambda: Table("5", [5]), lambda: Relay(0, 256),
    ],
)
def test_other_things(call):
    with pytest.raises(TypeError):
        call()


def test_a_refusal_keeps_no_buffer():
    run = bytearray(b"\x02\xaa")
    with pytest.raises(Refused) as caught:
        judge(run)
    run.append(0)  # a BufferError if the traceback still had it lent
    with pytest.raises(Refused):
        modbus.read_answer(memoryview(run))
    run.clear()
    assert caught.value == Refused(6, 0)


def test_a_capture_may_change_while_it_is_walked():
    run = bytearray(b"\xaa" + W7)
    walk = capture(run)
    assert next(walk).exchange.data == b"\x2a"
    run += W7[:3]
    assert next(walk).refused == Refused(3, 3)
    run.clear()
    assert list(walk) == []


def test_lent_buffers_stay_on_refusal():
    """Every call that writes, through the library itself."""
    lib, call = library.moor, library.call
    table = lambda: (array("I", [5]), bytearray([5]), bytearray([1]))
    queues = lambda: (*table(), bytearray(1), bytearray(1), bytearray([8]), bytearray(104))
    relay = lambda: (array("I", [7] * 256), bytearray([3] * 256))
    out = lambda length: bytearray(b"\x5a" * length)
    running = library.Remembered(1, 2, 3)
    refusing = {
        "moor_expand": (1, (b"\xa9\xaa", out(3))),
        "moor_undo": (4, (b"\x10\xa9\x55", out(3))),
        "moor_write_command": (6, (0x02, 0x08, 0, 0, b"", out(41))),
        "moor_write_reply": (8, (bytes(17), out(35))),
        "moor_judge": (12, (W7[:7] + b"\x55", out(22), out(18), out(18))),
        "moor_close": (3, (call(lib.moor_listen), out(22), out(18), out(18))),
        "moor_write_request": (15, (3, out(5))),
        "moor_write_found": (17, (1 << 28, 0, out(10))),
        "moor_write_end": (1, (out(4),)),
        "moor_start": (1, (*table(), out(41))),
        "moor_resume": (1, (*table(), out(41))),
        "moor_offer": (16, (bytes.fromhex("FD 46 01 13 91"), *table(), out(42))),
        "moor_scan": (1, (*table(), array("I"), bytearray(1), 9)),
        "moor_write_event_request": (1, (0, 0, 0, 0, out(8))),
        "moor_write_no_events": (1, (out(4),)),
        "moor_add_event": (18, (*queues(), 5, 0, 0, 0, b"")),
        "moor_poll": (1, (0, 255, 5, 0, *queues(), out(115))),
        "moor_offer_poll": (15, (bytes.fromhex("FD 46 01 13 90"), *queues(), out(116))),
        "moor_write_railbus": (15, (0x58, 0, 0, 0, out(17))),
        "moor_offer_railbus": (26, (0xFF, b"RPfFR009E", *relay(), running, out(17))),
        "moor_finish_railbus": (1, (0xFF, *relay(), running, out(16))),
    }
    for name, (number, arguments) in refusing.items():
        before = [copy.copy(argument) for argument in arguments]
        answer = call(getattr(lib, name), *arguments)
        assert getattr(answer, "judged", answer).number == number, name
        for kept, argument in zip(before, arguments):
            if isinstance(argument, (bytearray, array)):
                assert kept == argument, name


def test_columns_stay_on_refusal():
    table = Table([0x0001EB37, 5], [5, 6], [1, 1])
    queues = Queues(table)
    queues.add(5, Event(4, 1, b"1"))
    queues.poll(Poll(0, 100))
    relay = Relay(0x93, [3] * 256)
    relay.offer(b"RP93W00000000109F")
    kept = pickle.dumps((table, queues.columns, relay.registers, relay.access, relay.remembered))
    for call in [
        lambda: table.offer(b"\xfd\x46\x01\x13\x91"), lambda: queues.offer_poll(b"\xfd\x46\x10"),
        lambda: queues.add(7, Event(0, 0, b"")), lambda: relay.offer(b"RP93W00000000109E"),
    ]:
        with pytest.raises(Refused):
            call()
    assert kept == pickle.dumps((table, queues.columns, relay.registers, relay.access, relay.remembered))


def test_columns_that_are_no_longer_valid():
    table = Table([5, 9], [1, 2])
    queues, relay = Queues(table), Relay(0, bytes(256))
    table.marks[0] = 2
    relay.registers.pop()
    for call in [table.start, table.resume, table.scan, lambda: queues.poll(Poll(0, 9)), relay.finish]:
        with pytest.raises(Refused) as caught:
            call()
        assert caught.value == Refused(2, 0)


def test_a_column_handed_in_as_a_frame():
    # What is written may overlap nothing else that is lent, so that this one is copied.
    table = Table([5] + list(range(6, 10)), [1] * 5, [0] * 5)
    with pytest.raises(Refused) as caught:
        table.offer(table.marks)
    assert caught.value == Refused(14, 0)


def test_states_are_copied_and_pickled():
    listener = Listener()
    listener.feed(W7[:9])
    relay = Relay(0x93, [3] * 256)
    relay.offer(b"RP93W00000000109F")
    for again in (lambda value: pickle.loads(pickle.dumps(value)), copy.deepcopy):
        other, device = again(listener), again(relay)
        assert other.feed(W7[9:]) == 4 and other.close() == judge(W7)
        assert not listener.answered
        assert device.finish() == b"RP93I0000000010EE" and relay.registers[0] == 0
    other = copy.copy(listener)
    other.feed(W7[9:])
    assert other.answered and not listener.answered
    table = Table([5, 9], [1, 2])
    assert pickle.loads(pickle.dumps(table)).columns == table.columns


def test_nothing_is_kept():
    run = bytearray(W7)
    for _ in range(3):
        judge(run)
        list(capture(run))
    gc.collect()
    run.clear()


def test_a_mapped_file(tmp_path):
    path = tmp_path / "capture"
    path.write_bytes((b"\xaa" + W7) * 3)
    with open(path, "rb") as file, mmap.mmap(file.fileno(), 0, access=mmap.ACCESS_READ) as mapped:
        assert [found.offset for found in capture(mapped)] == [1, 15, 29]


def test_threads():
    faults = []

    def work():
        try:
            for _ in range(300):
                assert judge(W7).data == b"\x2a"
                assert scan(Table([9, 5], [1, 2])).requests == 3
        except BaseException as fault:
            faults.append(fault)

    threads = [threading.Thread(target=work) for _ in range(4)]
    for thread in threads:
        thread.start()
    for thread in threads:
        thread.join()
    assert faults == []
