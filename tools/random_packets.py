"""Random packets and words, for the tools that compare."""

from packet_model import PACKET, PARITIES


def random_word(rng):
    """Any word; now and then one of all zeros or all ones."""
    return rng.choice([bytes(16), b"\xff" * 16] + [rng.randbytes(16) for _ in range(8)])


def random_adaptation(rng):
    """The adaptation control and what follows the header up to the payload; payloads of 1 to 184 bytes
    are all as likely, and some packets have none."""
    if rng.random() < 0.05:
        return 0b10, bytes([183]) + rng.randbytes(183)
    length = rng.randint(1, 184)
    if length == 184:
        return 0b01, b""
    return 0b11, bytes([183 - length]) + rng.randbytes(183 - length)


def random_control(rng, direction, parity, free):
    """The scrambling control: any where the packet passes by its header (`free`), else one that is accepted."""
    if free:
        return rng.randrange(4)
    if direction == "scramble":
        return 0b00
    return rng.choice([0b00, PARITIES[parity], PARITIES[parity], PARITIES[parity]])


def random_packet(rng, direction, parity, pids):
    joined = rng.random() < 0.8
    error = rng.random() < 0.05
    pid = rng.choice(pids) if joined else rng.choice([p for p in rng.sample(range(8192), 20) if p not in pids])
    adaptation, field = random_adaptation(rng)
    if (error or not joined) and rng.random() < 0.2:
        # Of these packets nothing behind the PID is looked at.
        adaptation, field = rng.randrange(4), rng.randbytes(1)
    free = error or not joined or adaptation == 0b10
    control = random_control(rng, direction, parity, free)
    flags = error << 7 | rng.randrange(4) << 5
    header = bytes([0x47, flags | pid >> 8, pid & 0xFF, control << 6 | adaptation << 4 | rng.randrange(16)])
    return (header + field + rng.randbytes(PACKET))[:PACKET]
