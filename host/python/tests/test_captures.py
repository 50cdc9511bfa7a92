"""Captures, as bytes and as files, in any cuts."""

import io
import os
import random
import threading

import pytest
import recordings

from moortinker import Refused, capture, ebus, judge

W7 = bytes.fromhex("10 08 B5 11 01 01 89 00 01 2A B1 00 AA")


class Pieces(io.RawIOBase):
    """A file that gives its bytes in pieces, as a serial line does."""

    def __init__(self, pieces):
        self.pieces = [piece for piece in pieces if piece]
        self.most = 0

    def read(self, size=-1):
        self.most = max(self.most, size)
        return self.pieces.pop(0) if self.pieces else b""


def random_capture(rng):
    return b"".join(recordings.recording(rng) for _ in range(rng.randrange(8)))


def by_stretches(run):
    """The walk as the header has it."""
    start, end = ebus.next_exchange(run)
    while start < end:
        try:
            answer = judge(run[start:end])
        except Refused as refused:
            answer = refused
        yield start, end, answer
        start, end = ebus.next_exchange(run, end)


@pytest.mark.parametrize("seed", range(20))
def test_bytes_and_files_in_any_cuts_give_the_same(seed):
    rng = random.Random(seed)
    accepted = refused = 0
    for _ in range(60):
        run = random_capture(rng)
        whole = list(capture(run))
        assert [(found.offset, found.exchange or found.refused) for found in whole] == [
            (start, answer) for start, _, answer in by_stretches(run)]
        for pieces in (recordings.cuts(rng, run), [bytes([byte]) for byte in run]):
            assert list(capture(Pieces(pieces))) == whole
        assert list(capture(io.BytesIO(run))) == list(capture(memoryview(bytearray(run)))) == whole
        accepted += sum(found.exchange is not None for found in whole)
        refused += sum(found.refused is not None for found in whole)
    assert accepted > 50 and refused > 50


@pytest.mark.parametrize("seed", range(5))
def test_stretches(seed):
    rng = random.Random(seed)
    for _ in range(100):
        run = random_capture(rng)
        at = 0
        for start, end, answer in by_stretches(run):
            assert at <= start < end and b"\xaa" not in run[start : end - 1]
            assert end == len(run) or run[end - 1] == 0xAA
            # Only idle time is passed over: with SYN behind it, nothing is refused.
            assert isinstance(answer, (ebus.Exchange, Refused))
            with pytest.raises(Refused) as caught:
                judge(run[at:start])
            assert caught.value == Refused(3, start - at)
            if isinstance(answer, ebus.Exchange):
                assert answer.bytes_read == end - start
            at = end


def test_what_is_found():
    run = b"\xaa\x31\xaa" + W7 + b"\xaa\xaa" + W7[:7] + b"\x55\x01\xaa" + W7[:4]
    assert [(found.offset, found.refused) for found in capture(run)] == [
        (3, None), (18, Refused(12, 7)), (28, Refused(3, 4))]
    assert next(capture(run)).exchange == judge(W7)


def test_idle_time_alone():
    for run in (b"", b"\xaa" * 99, b"\x10\xaa\xa9\xaa\xff\xa9\xaa"):
        assert list(capture(run)) == list(capture(io.BytesIO(run))) == []
        assert ebus.next_exchange(run) == ebus.next_exchange(run, 1000) == (len(run), len(run))


def test_a_long_capture_is_not_held():
    day = Pieces([b"\xaa" * 60000 + W7] * 50)
    assert [found.offset for found in capture(day)] == [60000 + 60013 * n for n in range(50)]
    assert 0 < day.most <= 1 << 16


def test_an_exchange_is_found_as_it_arrives():
    reading, writing = os.pipe()
    closing = threading.Timer(5, os.close, [writing])
    closing.start()
    with open(reading, "rb") as file:
        walk = capture(file)
        os.write(writing, W7)
        assert next(walk).exchange == judge(W7)
        assert closing.is_alive(), "it was found only at the end of the file"
        closing.cancel()
        os.write(writing, W7[:3])
        os.close(writing)
        assert next(walk).refused == Refused(3, 3)


def test_files_that_are_none():
    with pytest.raises(TypeError):
        list(capture(io.StringIO("AA")))
    with pytest.raises(TypeError):
        capture(open)
