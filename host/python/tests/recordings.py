"""Random recordings: runs that are nearly exchanges, so that every rule is met."""

from moortinker import ebus

SOURCES = [0x10, 0x31, 0xFF, 0x00, 0x71]
DESTINATIONS = [0x08, 0x10, 0xFE, 0x50, 0x15, 0xFF]
AWKWARD = [0x00, 0x01, 0xA9, 0xAA, 0xFF, 0x10, 0x55]


def data(random, most=16):
    pick = lambda: random.choice(AWKWARD) if random.random() < 0.4 else random.randrange(256)
    return bytes(pick() for _ in range(random.choice([0, 1, 2, random.randint(0, most)])))


def idle(random):
    pieces = [b"\xaa", b"\xa9\xaa", b"\x10\xaa", b"\x31\xa9\xaa"]
    return b"".join(random.choices(pieces, [6, 1, 1, 1], k=random.choice([0, 0, 1, 2, 5])))


def exchange(random):
    """An exchange by the rules, with or without NACKed attempts."""
    run = b""
    while True:
        destination = random.choice(DESTINATIONS)
        run += ebus.write_command(
            random.choice(SOURCES), destination, random.randrange(256), random.randrange(256), data(random))
        kind = ebus.kind(destination)
        if kind == ebus.Kind.BROADCAST:
            return run + b"\xaa"
        if random.random() < 0.8:
            break
        run += b"\xff"
    run += b"\x00"
    while kind == ebus.Kind.INITIATOR_TARGET:
        run += ebus.write_reply(data(random))
        if random.random() < 0.8:
            run += b"\x00"
            break
        run += b"\xff"
    return run + b"\xaa"


def spoiled(random, run):
    """The run with a few bytes changed, lost or added."""
    spoiled = bytearray(run)
    for _ in range(random.choice([0, 0, 1, 1, 2])):
        at = random.randrange(len(spoiled) + 1)
        new = random.choice([bytes([random.choice(AWKWARD)]), b"\xa9\x00", b"\xa9\x01"])
        spoiled[at : at + random.choice([0, 1, 1])] = random.choice([new, new, b""])
    return bytes(spoiled)


def recording(random):
    """Idle time, an exchange that may be spoiled, and whatever follows."""
    if random.random() < 0.1:
        return random.randbytes(random.randrange(40))
    run = idle(random) + spoiled(random, exchange(random)) + random.randbytes(random.choice([0, 0, 3]))
    return run[: random.randrange(len(run) + 1)] if random.random() < 0.1 else run


def cuts(random, run):
    """The run in pieces, some of them empty."""
    marks = sorted(random.randrange(len(run) + 1) for _ in range(random.choice([0, 1, 2, 5, len(run)])))
    return [run[start:end] for start, end in zip([0] + marks, marks + [len(run)])]
