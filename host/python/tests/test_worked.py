"""The worked examples W1 to W14 of docs/RULES.md, and its other examples."""

import pytest

from moortinker import (
    Device, Event, Kind, Listener, Outcome, Poll, Queues, Refused, Relay, Table, ebus, events, judge,
    modbus, railbus, scan,
)

W7 = bytes.fromhex("10 08 B5 11 01 01 89 00 01 2A B1 00 AA")
W10 = bytes.fromhex("FD 46 04 D3 93")


def refused(call, *arguments):
    with pytest.raises(Refused) as caught:
        call(*arguments)
    return int(caught.value.number), caught.value.place


@pytest.mark.parametrize(
    "logical, check",
    [("10 08 B5 11 01 01", 0x89), ("AA", 0xEC), ("A9", 0xED), ("", 0x00), ("42", 0x42)],
)
def test_w1_to_w4_check_bytes(logical, check):
    assert ebus.check(bytes.fromhex(logical)) == check


def test_w5_escapes():
    assert ebus.expand(b"\xa9\xaa") == b"\xa9\x00\xa9\x01"
    assert ebus.undo(b"\xa9\x00\xa9\x01") == b"\xa9\xaa"
    assert refused(ebus.undo, b"\xa9") == (3, 1)
    assert refused(ebus.undo, b"\xa9\x55") == (4, 1)
    assert refused(ebus.undo, b"\xa9\xaa") == (5, 1)
    assert ebus.logical_at(b"\xa9\x01") == (0xAA, 2)
    assert refused(ebus.logical_at, b"\x00", 2**64 - 1) == (3, 1)


def test_w6_kinds_and_addresses():
    assert [ebus.kind(address) for address in (0xFE, 0x10, 0x08)] == [1, 2, 3]
    assert sum(map(ebus.is_initiator, range(256))) == 25
    assert [address for address in range(256) if ebus.is_reserved(address)] == [0xA9, 0xAA]


def test_w7_exchange():
    exchange = judge(W7)
    assert exchange == ebus.Exchange(
        kind=Kind.INITIATOR_TARGET, command=W7[:7], command_attempts=1, reply_attempts=1,
        replies=(W7[8:11],), data=b"\x2a", bytes_read=13,
    )
    assert (exchange.source, exchange.destination, exchange.service) == (0x10, 0x08, (0xB5, 0x11))
    assert exchange.command_data == b"\x01"
    assert judge(b"\xaa\xaa\xaa" + W7).bytes_read == 16


def test_nacked_attempts():
    exchange = judge(W7[:7] + b"\xff" + W7[:11] + b"\xff" + W7[8:])
    assert (exchange.command_attempts, exchange.reply_attempts) == (2, 2)
    assert exchange.replies == (W7[8:11], W7[8:11])
    wrong = judge(W7[:8] + b"\x02\x11\x22\x33\xff" + W7[8:])
    assert wrong.replies == (b"\x02\x11\x22\x33", W7[8:11]) and wrong.data == b"\x2a"


def test_broadcast_has_no_reply():
    exchange = judge(ebus.write_command(0x10, 0xFE, 0x07, 0x00, b"\xa9\xaa") + b"\xaa")
    assert (exchange.kind, exchange.replies, exchange.data) == (Kind.BROADCAST, (), b"")
    assert exchange.command_data == b"\xa9\xaa" and exchange.reply_attempts == 0


def test_w8_and_other_refusals():
    assert refused(judge, W7[:7] + b"\x55" + W7[8:]) == (12, 7)
    assert refused(judge, b"\x02\xaa") == (6, 0)
    assert refused(judge, b"\xa9\x10") == (4, 1)
    assert refused(judge, b"\xaa\xaa") == (3, 2)
    assert refused(judge, b"\x10\x08\xaa") == (5, 2)
    assert refused(judge, b"") == (3, 0)
    assert refused(judge, (W7[:7] + b"\xff") * 2) == (10, 15)
    assert refused(judge, W7[:8] + (W7[8:11] + b"\xff") * 2) == (11, 15)
    assert refused(ebus.write_command, 0x02, 0xA9, 0, 0, bytes(17)) == (6, 0)
    assert refused(ebus.write_command, 0x10, 0xA9, 0, 0, bytes(17)) == (7, 0)
    assert refused(ebus.write_command, 0x10, 0x08, 0, 0, bytes(17)) == (8, 0)
    assert refused(ebus.write_reply, bytes(17)) == (8, 0)


def test_telegrams():
    command = ebus.read_command(b"\x00" + W7, 1)
    assert (command.logical, command.data, command.check_place, command.next) == (W7[:7], b"\x01", 7, 8)
    assert command.is_check_right and not ebus.check_right(W7[:6])
    reply = ebus.read_reply(W7, 8)
    assert (reply.logical, reply.data, reply.next) == (W7[8:11], b"\x2a", 11)
    assert refused(ebus.read_command, b"\x10\x08\x00\x00\x11") == (8, 4)
    assert ebus.reply_data(b"", W7[8:11], 2) == b"\x2a"
    assert ebus.reply_data(W7[8:11], b"", 2) == ebus.reply_data(W7[8:11], b"", 3) == b""


def test_listening():
    listener = Listener()
    assert listener.feed(bytes.fromhex("10 08 B5 11 02 A9")) == 6 and not listener.answered
    assert listener.feed(bytes.fromhex("00 A9 01 57 00 01 2A B1 00 AA 10 08")) == 10
    assert listener.answered and listener.feed(W7) == 0
    assert listener.close().command_data == b"\xa9\xaa"
    assert refused(Listener().close) == (3, 0)


def test_w9_requests():
    assert modbus.write_request(modbus.Request.START) == bytes.fromhex("FD 46 01 13 90")
    assert modbus.write_request(modbus.Request.CONTINUE) == bytes.fromhex("FD 46 02 53 91")
    assert modbus.read_request(bytes.fromhex("FD 46 02 53 91")) is modbus.Request.CONTINUE
    assert refused(modbus.write_request, 3) == (15, 0)
    assert modbus.check(b"") == 0xFFFF


def test_w10_w11_answers():
    assert modbus.write_end() == W10
    found = bytes.fromhex("FD 46 03 00 01 EB 37 0C CE DC")
    assert modbus.write_found(0x0001EB37, 0x0C) == found
    assert modbus.read_answer(found) == modbus.Found(0x0001EB37, 0x0C, skipped=0)
    assert modbus.read_answer(b"\xff" * 32 + W10) == modbus.End(skipped=32)
    assert refused(modbus.read_answer, b"\xff" * 33 + W10) == (19, 32)
    assert refused(modbus.read_answer, b"\xff" * 32) == (13, 0)
    assert refused(modbus.write_found, 1 << 28, 0) == (17, 0)


DEVICES = [0x0001EB37, 5, 9], [0x0C, 0x02, 0x03]
IN_ORDER = (Device(5, 0x02), Device(9, 0x03), Device(0x0001EB37, 0x0C))


def test_w12_to_w14_scans():
    heard = scan(Table(*DEVICES), 100)
    assert (heard.outcome, heard.devices, heard.requests, heard.skipped) == (
        Outcome.COMPLETE, IN_ORDER, 4, 30 + 30 + 20 + 26)
    heard = scan(Table(*DEVICES), 3)
    assert (heard.outcome, heard.devices, heard.skipped) == (Outcome.UNFINISHED, IN_ORDER, 80)
    heard = scan(Table([], []), 1)
    assert (heard.outcome, heard.devices, heard.requests, heard.skipped) == (Outcome.NOBODY, (), 1, 0)
    heard = scan(Table(*DEVICES), 1)
    assert (heard.outcome, heard.devices, heard.requests) == (Outcome.UNFINISHED, IN_ORDER[:1], 1)
    assert scan(Table(*DEVICES), 0).requests == 0


def test_tables():
    largest = Table(range(247), bytes(247))
    heard = scan(largest)
    assert heard.outcome is Outcome.COMPLETE and heard.requests == 248
    assert bytes(largest.marks) == b"\x01" * 247
    for columns in [
        (range(248), bytes(248)), ([1 << 28], [0]), ([5, 5], [0, 0]), ([5], []), ([5], [0], [2]), ([5], [0], []),
    ]:
        assert refused(Table, *columns) == (2, 0)


def test_a_scan_by_hand():
    table = Table(*DEVICES)
    answers = [modbus.read_answer(table.offer(modbus.write_request(modbus.Request.START)))]
    while not isinstance(answers[-1], modbus.End):
        answers.append(modbus.read_answer(table.resume()))
    assert tuple(Device(found.serial, found.address) for found in answers[:-1]) == IN_ORDER
    assert sum(answer.skipped for answer in answers) == 106
    assert modbus.read_answer(table.start()).serial == 5
    assert Table([], []).start() == b""


def test_event_frames():
    request = bytes.fromhex("FD 46 10 00 64 0A 01 7E 15")
    assert events.read_poll(request) == Poll(0, 0x64, 0x0A, 1)
    assert events.write_poll(Poll(0, 0x64, 0x0A, 1)) == request
    packet = bytes.fromhex("05 46 11 01 01 06 02 04 01 D0 04 00 2B AC")
    assert events.read_events(packet) == events.Packet(
        sender=5, flag=1, queued=1, events=(Event(4, 0x01D0, b"\x04\x00"),), skipped=0)
    assert events.write_no_events() == bytes.fromhex("FD 46 12 52 5D")
    assert refused(events.read_events, b"\xff" * 33) == (19, 32)


def test_events_are_polled_and_confirmed():
    queues = Queues(Table([0x0001EB37, 9], [0x05, 0x0A]))
    normal, urgent = Event(4, 0x01D0, b"\x04\x00"), Event(3, 2, bytes(8))
    queues.add(0x05, normal)
    queues.add(0x0A, urgent, urgent=True)
    first = queues.poll(Poll(0, 100))
    assert (first.answer, first.sender, first.events) == (events.Answer.PACKET, 0x0A, 1)
    assert events.read_events(first.raw).events == (urgent,)
    # An oldest event of 8 data bytes needs 12: with 11 its device sits out.
    assert queues.poll(Poll(0, 11)).sender == 0x05
    second = queues.offer_poll(events.write_poll(Poll(0, 100, first.sender, first.flag)))
    assert events.read_events(second.raw).events == (normal,)
    assert bytes(queues.counts) == b"\x01\x00" and bytes(queues.flags) == b"\x00\x01"
    third = queues.poll(Poll(0, 100, second.sender, second.flag))
    assert (third.answer, third.sender) == (events.Answer.NO_EVENTS, 0x05)
    assert third.skipped == events.read_events(third.raw).skipped
    silence = queues.poll(Poll(0xF8, 100))
    assert (silence.answer, silence.raw) == (events.Answer.SILENCE, b"")
    assert refused(queues.add, 0x06, normal) == (13, 0)
    assert refused(queues.add, 0x05, Event(4, 0, bytes(9))) == (13, 0)
    for _ in range(8):
        queues.add(0x05, normal)
    assert refused(queues.add, 0x05, normal) == (18, 0)
    assert refused(Queues, Table([5, 9], [1, 1])) == (2, 0)


def test_railbus_packets():
    assert railbus.check(b"RPFFR00") == 0x9E and railbus.check(b"") == 0x80
    assert railbus.read(b"RPFFR009E") == railbus.Packet(0xFF, "R", 0)
    assert railbus.read(b"RPFFR0000").checked is False
    assert str(railbus.Packet(0x93, railbus.Letter.WRITE, 0, 0x10)) == "RP93W00000000109F"
    for packet, answer in [
        (b"RPFFR009F", (16, 7)), (b"RPFFR0", (13, 0)), (b"RPFFr009E", (15, 4)), (b"RPfFR009E", (26, 2)),
        (b"RXFFR009E", (14, 1)),
    ]:
        assert refused(railbus.read, packet) == answer
    assert refused(railbus.write, railbus.Packet(0, "X", 0)) == (15, 0)


def test_a_relay():
    relay = Relay(0xFF, [3] * 256, [0x0015002A] + [0] * 255)
    assert relay.offer(b"RPFFR009E") == b"RPFFK000015002AF4"
    assert relay.offer(b"RP93W00000000109F") == b""
    relay.address = 0x93
    relay.access[1], relay.access[2] = railbus.Access.ABSENT, railbus.Access.READ
    status = lambda reply: railbus.Status(railbus.read(reply).data).name
    on, other = b"RP93W00000000109F", railbus.write(railbus.Packet(0x93, "W", 3, 1))
    sync = railbus.write(railbus.Packet(0x93, "S", 0))
    assert relay.offer(on) == b"RP93n0000000001A5"
    assert relay.remembered == (railbus.Phase.RUNNING, 0, 0x10)
    assert [status(relay.offer(packet)) for packet in (on, other, sync)] == ["RETRANSMISSION", "BUSY", "BUSY"]
    assert relay.registers[0] == 0x0015002A
    assert relay.finish() == b"RP93I0000000010EE" and relay.registers[0] == 0x10
    assert relay.finish() == b""
    assert [status(relay.offer(packet)) for packet in (on, sync, on)] == ["DONE_BEFORE", "SYNCED", "RECEIVED"]
    absent, forbidden = railbus.Packet(0x93, "R", 1), railbus.Packet(0x93, "W", 2, 1)
    assert railbus.read(relay.offer(railbus.write(absent))).letter is railbus.Letter.NO_REGISTER
    assert status(relay.offer(railbus.write(forbidden))) == "FORBIDDEN"
    for access, registers in [([3] * 255, None), ([4] * 256, None), ([3] * 256, [0] * 257)]:
        assert refused(Relay, 0, access, registers) == (2, 0)
