"""Random inputs for the program `scrambler`: whole fields, good and faulty, and damaged streams.

A stream is made field by field beside a session of the model, so that later fields can use what earlier
ones did: packets that were scrambled are descrambled again, and moments follow the loads that were taken.
"""

import wire_model as wire
from packet_model import PACKET, PARITIES, with_control
from random_packets import random_packet, random_word
from wire_model import DESCRAMBLE, JOIN, LOAD, PICK, SCRAMBLE

EDGE_PIDS = [0, 31, 32, 33, 8190, 8191, 8192, 65535]
LAST_MOMENT = 4_000_000_000
LARGEST = 0xFFFF

# How often a stream has each kind of field, by what the stream is mostly about.
MIXES = {
    "batches": {"join": 2, "load": 2, "pick": 2, "batch": 8, "faulty": 1},
    "loads": {"join": 1, "load": 20, "burst": 1, "pick": 2, "batch": 1, "faulty": 1},
    "joins": {"join": 30, "load": 1, "pick": 1, "batch": 1, "faulty": 1},
    "faulty": {"join": 1, "load": 1, "pick": 1, "batch": 1, "faulty": 4},
    "empty": {"pick": 3, "batch": 3, "join": 1},
}
FIELDS = {"batches": (1, 25), "loads": (10, 60), "joins": (50, 110), "faulty": (1, 25), "empty": (0, 6)}


class Stream:
    """The fields made up to here, and the model's session after them."""

    def __init__(self, rng):
        self.rng = rng
        self.session = wire.Session()
        self.fields = []
        self.scrambled = []

    def put(self, tag, value):
        answer = self.session.answer(tag, value)
        self.fields.append(wire.field(tag, value))
        if tag == SCRAMBLE and answer.number == wire.ACCEPTED and value:
            self.scrambled.append(answer.after())

    # ---- calls

    def join(self):
        joined = self.session.engine.pids
        kinds = [self.rng.choice(EDGE_PIDS), self.rng.randrange(0x10000)] + [self.rng.randint(32, 8190)] * 8
        if joined:
            kinds += [self.rng.choice(joined)]
        self.put(JOIN, self.rng.choice(kinds).to_bytes(2, "big"))

    def moment(self):
        """Near the next moment at which a load is taken, near a span's end, back, far ahead, or too high."""
        rng, engine = self.rng, self.session.engine
        last = engine.taken[-1] if engine.taken else rng.choice([0, rng.randrange(5000), rng.randrange(LAST_MOMENT)])
        due = engine.next_load()
        end = (last // 300 + 1) * 300
        near = [due, due, due, due, due + 1, due - 1, due + rng.randrange(20)]
        others = [last, last + 9, last + 10, end - 1, end, end + 1, last - rng.randrange(1000), last + rng.randrange(700)]
        rare = [LAST_MOMENT, LAST_MOMENT + 1, LAST_MOMENT - rng.randrange(400), 2**32 - 1, rng.randrange(2**32)]
        kind = rng.choices([near, others, rare], [8, 4, 0.3])[0]
        return max(rng.choice(kind), 0)

    def load_at(self, moment):
        parity = bytes([self.rng.randrange(2)])
        self.put(LOAD, parity + random_word(self.rng) + min(moment, 2**32 - 1).to_bytes(4, "big"))

    def load(self):
        self.load_at(self.moment())

    def burst(self):
        """About ten loads in one span, and some after them."""
        rng, due = self.rng, self.session.engine.next_load()
        moment = (due // 300 + 1) * 300 + rng.choice([0, 0, rng.randrange(200)])
        for _ in range(rng.randint(9, 14)):
            self.load_at(moment)
            moment += rng.choice([10, 10, 10, 11, rng.randint(10, 28)])

    def pick(self):
        self.put(PICK, bytes([self.rng.randrange(2)]))

    # ---- batches

    def count(self):
        """How many packets; large batches are rare."""
        rng = self.rng
        return rng.choices([0, 1, 2, rng.randint(3, 8), rng.randint(9, 64), 64], [2, 10, 6, 6, 1, 0.3])[0]

    def packets(self, tag):
        rng, engine = self.rng, self.session.engine
        pids = engine.pids or [rng.randint(32, 8190)]
        direction = "scramble" if tag == SCRAMBLE else "descramble"
        parities = list(engine.words) or list(PARITIES)
        return [random_packet(rng, direction, rng.choice(parities), pids) for _ in range(self.count())]

    def spoil(self, packet):
        """The packet with one thing changed that may make it faulty."""
        rng = self.rng
        kind = rng.randrange(5)
        if kind == 0:
            return bytes([rng.choice([0x00, 0x46, 0x57, 0xC7, rng.randrange(256)])]) + packet[1:]
        if kind == 1:
            return with_control(packet, rng.randrange(4))
        if kind == 2:
            return packet[:3] + bytes([packet[3] & 0xCF | rng.randrange(4) << 4]) + packet[4:]
        if kind == 3:
            adaptation = rng.choice([0b10, 0b11])
            length = rng.choice([0, 182, 183, 184, 255, rng.randrange(256)])
            return packet[:3] + bytes([packet[3] & 0xCF | adaptation << 4, length]) + packet[5:]
        at = rng.randrange(PACKET)
        return packet[:at] + bytes([packet[at] ^ 1 << rng.randrange(8)]) + packet[at + 1:]

    def batch(self):
        rng = self.rng
        if self.scrambled and rng.random() < 0.3:
            self.again()
            return
        tag = rng.choice([SCRAMBLE, DESCRAMBLE])
        packets = self.packets(tag)
        for _ in range(rng.choice([0, 0, 1, 2]) if packets else 0):
            at = rng.randrange(len(packets))
            packets[at] = self.spoil(packets[at])
        value = b"".join(packets)
        if rng.random() < 0.05:
            value = rng.choice([value[:rng.randint(0, len(value))], value[:-1], value + b"\x47"])
        self.put(tag, value)

    def again(self):
        """Packets that were scrambled before: all, some, repeated or in another order; at times to scramble."""
        rng = self.rng
        value = rng.choice(self.scrambled)
        packets = [value[at:at + PACKET] for at in range(0, len(value), PACKET)]
        if rng.random() < 0.5:
            packets = rng.choices(packets, k=rng.randint(1, len(packets)))
        self.put(SCRAMBLE if rng.random() < 0.1 else DESCRAMBLE, b"".join(packets))

    # ---- faulty fields

    def faulty(self):
        rng = self.rng
        kind = rng.choices(["tag", "length", "parity", "long", "any"], [5, 5, 5, 0.6, 2])[0]
        if kind == "tag":
            tag = rng.choice([0, 6, 7, 127, 128, 129, 255, rng.randint(6, 255)])
            self.put(tag, rng.randbytes(rng.choice([0, 1, 2, 21, PACKET, rng.randrange(400)])))
        elif kind == "length":
            tag = rng.choice([JOIN, LOAD, PICK])
            stated = wire.STATED_LENGTHS[tag]
            self.put(tag, bytes(rng.choice([0, stated - 1, stated + 1, rng.randrange(300)])))
        elif kind == "parity":
            tag = rng.choice([LOAD, PICK])
            parity = bytes([rng.choice([2, 3, 128, 255, rng.randrange(256)])])
            self.put(tag, parity + rng.randbytes(wire.STATED_LENGTHS[tag] - 1))
        elif kind == "long":
            length = rng.choice([wire.LONGEST_VALUE + 1, wire.LONGEST_VALUE + PACKET, LARGEST,
                                 rng.randint(wire.LONGEST_VALUE + 1, LARGEST)])
            self.put(rng.choice([0, JOIN, LOAD, PICK, SCRAMBLE, DESCRAMBLE, 200]), rng.randbytes(length))
        else:
            self.put(rng.randrange(8), rng.randbytes(rng.choice([0, 1, 2, 21, PACKET])))

    def some(self, mix):
        kind = self.rng.choices(list(mix), list(mix.values()))[0]
        getattr(self, kind)()


def ready(stream):
    """Joins, loads and picks, so that batches find words."""
    for _ in range(stream.rng.randint(1, 4)):
        stream.join()
    for _ in range(stream.rng.randint(1, 3)):
        stream.load()
        stream.pick()


def damaged(rng, data):
    """The input as it is, or cut, or with bytes changed, left out, put in or repeated."""
    kind = rng.choices(["whole", "cut", "changed", "left out", "put in", "repeated"], [12, 4, 1, 1, 1, 1])[0]
    at = rng.randint(0, len(data))
    to = min(len(data), at + rng.choice([1, 1, 2, 3, 4, 188]))
    if kind == "cut":
        return data[:at]
    if kind == "changed":
        return data[:at] + rng.randbytes(to - at) + data[to:]
    if kind == "left out":
        return data[:at] + data[to:]
    if kind == "put in":
        return data[:at] + rng.randbytes(rng.randint(1, 4)) + data[at:]
    if kind == "repeated":
        return data[:to] + data[at:]
    return data


def random_stream(rng):
    """One input."""
    if rng.random() < 0.03:
        return rng.randbytes(rng.randrange(400))
    kind = rng.choices(list(MIXES), [10, 3, 1, 3, 1])[0]
    stream = Stream(rng)
    if kind == "batches":
        ready(stream)
    for _ in range(rng.randint(*FIELDS[kind])):
        stream.some(MIXES[kind])
    return damaged(rng, b"".join(stream.fields))
