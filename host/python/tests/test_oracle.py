"""A tester's own suite: the library as the oracle of somebody else's decoder.

The decoder here has an error that has looked right: it takes the check byte
before the escapes are expanded, which is wrong only with A9 or AA in the
telegram.
"""

import random

import pytest
import recordings

import moortinker


def careless_check(logical):
    """eBUS's check byte, over the logical bytes."""
    register = 0
    for byte in logical:
        for bit in range(7, -1, -1):
            register = register << 1 | byte >> bit & 1
            if register & 0x100:
                register ^= 0x19B
    return register


class Decoder:
    """Somebody's decoder of a recorded broadcast: its data, or None."""

    def __init__(self, check):
        self.check = check

    def decode(self, run):
        logical = run[:-1].replace(b"\xa9\x01", b"\xaa").replace(b"\xa9\x00", b"\xa9")
        if self.check(logical[:-1]) != logical[-1]:
            return None
        return logical[5:-1]


def oracle(run):
    try:
        return moortinker.judge(run).command_data
    except moortinker.Refused:
        return None


def differing(decoder):
    """The data of broadcasts on which a decoder and the oracle differ."""
    rng = random.Random(1)
    for _ in range(300):
        carried = recordings.data(rng)
        run = moortinker.ebus.write_command(0x10, 0xFE, 0xB5, 0x16, carried) + b"\xaa"
        if decoder.decode(run) != oracle(run):
            yield carried


@pytest.fixture
def wrong_decoder():
    return Decoder(careless_check)


def test_the_wrong_decoder_is_caught(wrong_decoder):
    caught = list(differing(wrong_decoder))
    assert caught
    assert all(set(carried) & {0xA9, 0xAA} for carried in caught)


def test_the_right_decoder_passes():
    assert list(differing(Decoder(moortinker.ebus.check))) == []


@pytest.mark.parametrize("spoil", range(1, 8))
def test_what_the_oracle_refuses_is_named(spoil):
    run = bytearray(moortinker.ebus.write_command(0x10, 0xFE, 0xB5, 0x16, b"\x01\x02") + b"\xaa")
    run[spoil] ^= 0x04
    with pytest.raises(moortinker.Refused) as caught:
        moortinker.judge(run)
    assert caught.value.place <= len(run)
