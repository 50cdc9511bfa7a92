"""Random inputs: every answer is an answer, and the two ways to one agree."""

import random

import pytest
import recordings

from moortinker import Listener, Refused, Relay, Queues, Table, ebus, events, judge, modbus, railbus


def answer(call, *arguments):
    """What a call gives, or its refusal."""
    try:
        return call(*arguments)
    except Refused as refused:
        return refused


def test_judge_and_listener_agree():
    rng = random.Random(1)
    numbers = set()
    for _ in range(5000):
        run = recordings.recording(rng)
        judged = answer(judge, run)
        listener = Listener()
        used = 0
        for piece in recordings.cuts(rng, run):
            used += listener.feed(piece)
        assert answer(listener.close) == judged == answer(listener.close)
        assert listener.answered and listener.feed(run) == 0
        if isinstance(judged, Refused):
            numbers.add(int(judged.number))
            assert judged.place <= used <= len(run)
        else:
            assert judged.bytes_read == used
    assert numbers == set(range(3, 13))


READERS = [
    judge, ebus.undo, ebus.logical_at, ebus.read_command, ebus.read_reply, modbus.read_request, modbus.read_answer,
    events.read_poll, events.read_events, events.event_at, railbus.read, ebus.check_right, ebus.next_exchange,
    Table([5, 9], [1, 2]).offer, Queues(Table([5, 9], [1, 2])).offer_poll, Relay(0x93, [3] * 256).offer,
]
FRAMES = [bytes.fromhex(frame) for frame in [
    "FD 46 01 13 90", "FD 46 04 D3 93", "FD 46 03 00 01 EB 37 0C CE DC", "FD 46 10 00 64 0A 01 7E 15",
    "05 46 11 01 01 06 02 04 01 D0 04 00 2B AC", "FD 46 12 52 5D",
]] + [b"RPFFR009E", b"RP93W00000000109F", b"RP93I0000000010EE"]


@pytest.mark.parametrize("reader", READERS)
def test_readers_take_anything(reader):
    rng = random.Random(1)
    for _ in range(600):
        frame = rng.choice(FRAMES + [rng.randbytes(rng.randrange(60))])
        fill = b"\xff" * rng.choice([0, 0, 0, 1, 31, 32, 33])
        frame = fill + recordings.spoiled(rng, frame)
        given = answer(reader, frame)
        assert not isinstance(given, Refused) or given.place <= len(frame)


@pytest.mark.parametrize("seed", range(10))
def test_what_is_written_is_read_back(seed):
    rng = random.Random(seed)
    for _ in range(100):
        logical = recordings.data(rng, 60)
        assert ebus.undo(ebus.expand(logical)) == logical
        assert ebus.check_right(logical + bytes([ebus.check(logical)]))
        serial, address = rng.randrange(1 << 28), rng.randrange(256)
        assert modbus.read_answer(modbus.write_found(serial, address)) == (serial, address, 0)
        poll = events.Poll(*rng.randbytes(4))
        assert events.read_poll(events.write_poll(poll)) == poll
        letter = rng.choice(list(railbus.Letter))
        carried = rng.randrange(1 << 32) if letter.value in "WKIn" else 0
        packet = railbus.Packet(rng.randrange(256), letter, rng.randrange(256), carried)
        assert railbus.read(railbus.write(packet)) == packet


@pytest.mark.parametrize("seed", range(5))
def test_scans_hear_every_device_in_order(seed):
    rng = random.Random(seed)
    serials = rng.sample(range(1 << 28), rng.randrange(1, 60))
    table = Table(serials, rng.randbytes(len(serials)), [rng.randrange(2) for _ in serials])
    heard = table.scan()
    assert [device.serial for device in heard.devices] == sorted(serials)
    assert heard.requests == len(serials) + 1
    assert {device.serial: device.address for device in heard.devices} == dict(zip(table.serials, table.addresses))


@pytest.mark.parametrize("seed", range(5))
def test_no_event_is_lost_or_doubled(seed):
    rng = random.Random(seed)
    ids = rng.sample(range(1, 248), 5)
    queues = Queues(Table(rng.sample(range(1 << 28), 5), ids))
    sent = {id: [] for id in ids}
    heard = {id: [] for id in ids}
    confirmed, flag = 0, 0
    for step in range(400):
        if step < 300 and rng.random() < 0.5:
            id = rng.choice(ids)
            event = events.Event(rng.randrange(256), rng.randrange(65536), rng.randbytes(rng.randrange(9)))
            if answer(queues.add, id, event, rng.random() < 0.2) is None:
                sent[id].append(event)
            continue
        reply = queues.poll(events.Poll(0, rng.choice([12, 40, 255]), confirmed, flag))
        packet = events.read_events(reply.raw)
        assert packet.skipped == reply.skipped
        confirmed = flag = 0
        if isinstance(packet, events.Packet) and rng.random() < 0.7:  # else the answer was lost
            confirmed, flag = packet.sender, packet.flag
            heard[packet.sender] += packet.events
    assert heard == sent and bytes(queues.counts) == bytes(5)
