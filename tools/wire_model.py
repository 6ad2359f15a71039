"""The program `scrambler` as docs/wire.md has it, for the tools that make and compare its runs.

Written from the rules of docs/wire.md, docs/engine.md, docs/packets.md and docs/shelves.md alone. A
service's pace is read off the list of all moments that it took, as the rule is stated; single blocks
come from the package `cryptography`, through tools/packet_model.py.
"""

from typing import NamedTuple

from packet_model import NAMES, PACKET, PARITIES, Model, payload_start, with_control

JOIN, LOAD, PICK, SCRAMBLE, DESCRAMBLE = range(1, 6)
TAGS = {JOIN: "join", LOAD: "load", PICK: "pick", SCRAMBLE: "scramble", DESCRAMBLE: "descramble"}
STATED_LENGTHS = {JOIN: 2, LOAD: 21, PICK: 1}
PARITY_BYTES = {0: "even", 1: "odd"}

HEADER = 3
LONGEST_VALUE = 64 * PACKET
ANSWERED = 128
REFUSED_FIELD = 255

ACCEPTED = 0
PID_OUTSIDE, PID_JOINED, TABLE_FULL = 5, 6, 7
MOMENT_ABOVE, TOO_SOON, NO_WORD = 9, 10, 11
BATCH_LENGTH, NO_SYNC, ADAPTATION, SCRAMBLED_ALREADY, RESERVED_CONTROL = 13, 14, 15, 16, 17
UNKNOWN_TAG, BAD_VALUE, CUT_OFF = 24, 25, 26

MEANINGS = {
    ACCEPTED: "accepted",
    PID_OUTSIDE: "the PID is not in 32 to 8190",
    PID_JOINED: "the PID is joined already",
    TABLE_FULL: "there are 64 components already",
    MOMENT_ABOVE: "the moment is above 4,000,000,000",
    TOO_SOON: "the load comes too soon",
    NO_WORD: "no word is held",
    BATCH_LENGTH: "the batch is no multiple of 188 bytes",
    NO_SYNC: "byte 0 of a packet is not 0x47",
    ADAPTATION: "the adaptation control or length is not allowed",
    SCRAMBLED_ALREADY: "a packet to scramble has control bits other than 00",
    RESERVED_CONTROL: "a packet to descramble has the control bits 01",
    UNKNOWN_TAG: "the tag is unknown",
    BAD_VALUE: "the value has a wrong length or parity",
    CUT_OFF: "the input ends inside a field",
}

# Every way in which a field of each tag can be answered: number and cause. A field that is cut off
# has no tag that counts.
BATCH_WAYS = [
    (ACCEPTED, ""), (BAD_VALUE, "too long"), (BATCH_LENGTH, ""), (NO_SYNC, ""), (ADAPTATION, "control 00"),
    (ADAPTATION, "control 10, length not 183"), (ADAPTATION, "control 11, length above 182"),
]
WAYS = {
    JOIN: [(ACCEPTED, ""), (PID_OUTSIDE, ""), (PID_JOINED, ""), (TABLE_FULL, ""), (BAD_VALUE, "length")],
    LOAD: [(ACCEPTED, ""), (MOMENT_ABOVE, ""), (TOO_SOON, "within 10 seconds"), (TOO_SOON, "ten in the span"),
           (BAD_VALUE, "length"), (BAD_VALUE, "parity")],
    PICK: [(ACCEPTED, ""), (NO_WORD, "even"), (NO_WORD, "odd"), (BAD_VALUE, "length"), (BAD_VALUE, "parity")],
    SCRAMBLE: BATCH_WAYS + [(SCRAMBLED_ALREADY, "control bits 01"), (SCRAMBLED_ALREADY, "control bits 10"),
                            (SCRAMBLED_ALREADY, "control bits 11"), (NO_WORD, "")],
    DESCRAMBLE: BATCH_WAYS + [(RESERVED_CONTROL, ""), (NO_WORD, "even"), (NO_WORD, "odd")],
    "other tags": [(UNKNOWN_TAG, "")],
    "cut off": [(CUT_OFF, "")],
}


class Refusal(Exception):
    """A number, and which of its causes it was where there are several."""

    def __init__(self, number, cause=""):
        super().__init__(number, cause)
        self.number = number
        self.cause = cause


class Answer(NamedTuple):
    """An answer's bytes, and what they say."""
    data: bytes
    number: int
    cause: str

    def after(self):
        """What follows the number: the batch, for the tags that have one."""
        return self.data[HEADER + 1:]


def field(tag, value):
    """The bytes of a field, and of an answer, which has the same form."""
    return bytes([tag]) + len(value).to_bytes(2, "big") + value


# ---- the engine

def check_adaptation(packet):
    """Step 4 of the tests: the adaptation control and the adaptation field's length."""
    control = packet[3] >> 4 & 0b11
    length = packet[4]
    if control == 0b00:
        raise Refusal(ADAPTATION, "control 00")
    if control == 0b10 and length != 183:
        raise Refusal(ADAPTATION, "control 10, length not 183")
    if control == 0b11 and length > 182:
        raise Refusal(ADAPTATION, "control 11, length above 182")


class Engine:
    """CISSA over a pacing plain shelf, with service 0 open: what it holds, and its calls."""

    def __init__(self):
        self.pids = []
        self.words = {}
        self.taken = []
        self.picked = None

    def next_load(self):
        """The first moment at which the service takes a word, from all moments that it took."""
        if not self.taken:
            return 0
        last = self.taken[-1]
        same_span = [m for m in self.taken if m // 300 == last // 300]
        end = (last // 300 + 1) * 300
        return max(last + 10, end) if len(same_span) == 10 else last + 10

    def join(self, pid):
        if not 32 <= pid <= 8190:
            raise Refusal(PID_OUTSIDE)
        if pid in self.pids:
            raise Refusal(PID_JOINED)
        if len(self.pids) == 64:
            raise Refusal(TABLE_FULL)
        self.pids.append(pid)

    def load(self, parity, word, moment):
        if moment > 4_000_000_000:
            raise Refusal(MOMENT_ABOVE)
        if moment < self.next_load():
            early = moment < self.taken[-1] + 10
            raise Refusal(TOO_SOON, "within 10 seconds" if early else "ten in the span")
        self.taken.append(moment)
        self.words[parity] = Model("cissa", word)

    def pick(self, parity):
        if parity not in self.words:
            raise Refusal(NO_WORD, parity)
        self.picked = parity

    def parity_to_scramble(self, packet):
        if packet[3] >> 6 != 0b00:
            raise Refusal(SCRAMBLED_ALREADY, f"control bits {packet[3] >> 6:02b}")
        if self.picked not in self.words:
            raise Refusal(NO_WORD)
        return self.picked

    def parity_to_descramble(self, packet):
        """None for a packet that passes."""
        control = packet[3] >> 6
        if control == 0b00:
            return None
        if control == 0b01:
            raise Refusal(RESERVED_CONTROL)
        if NAMES[control] not in self.words:
            raise Refusal(NO_WORD, NAMES[control])
        return NAMES[control]

    def changed(self, packet, scrambling):
        """The packet after the call, by the tests of docs/packets.md in their order."""
        if packet[0] != 0x47:
            raise Refusal(NO_SYNC)
        pid = (packet[1] & 0x1F) << 8 | packet[2]
        if packet[1] & 0x80 or pid not in self.pids:
            return packet
        check_adaptation(packet)
        start = payload_start(packet)
        if start is None:
            return packet
        parity = self.parity_to_scramble(packet) if scrambling else self.parity_to_descramble(packet)
        if parity is None:
            return packet
        model = self.words[parity]
        if scrambling:
            return with_control(packet[:start], PARITIES[parity]) + model.scramble(packet[start:])
        return with_control(packet[:start], 0b00) + model.descramble(packet[start:])

    def batch(self, value, scrambling):
        if len(value) % PACKET or len(value) > LONGEST_VALUE:
            raise Refusal(BATCH_LENGTH)
        packets = [value[at:at + PACKET] for at in range(0, len(value), PACKET)]
        return b"".join([self.changed(packet, scrambling) for packet in packets])


# ---- fields and answers

def check_field(tag, value):
    """Refuses a field that reaches no call of the engine."""
    if tag not in TAGS:
        raise Refusal(UNKNOWN_TAG)
    if len(value) > LONGEST_VALUE:
        raise Refusal(BAD_VALUE, "too long")
    if len(value) != STATED_LENGTHS.get(tag, len(value)):
        raise Refusal(BAD_VALUE, "length")
    if tag in (LOAD, PICK) and value[0] not in PARITY_BYTES:
        raise Refusal(BAD_VALUE, "parity")


def refused_field(refusal):
    return Answer(field(REFUSED_FIELD, bytes([refusal.number])), refusal.number, refusal.cause)


class Session:
    """One run of the program: an answer to each field."""

    def __init__(self):
        self.engine = Engine()

    def call(self, tag, value):
        """The bytes that follow the number of an accepted call."""
        if tag == JOIN:
            self.engine.join(int.from_bytes(value, "big"))
        elif tag == LOAD:
            self.engine.load(PARITY_BYTES[value[0]], value[1:17], int.from_bytes(value[17:], "big"))
        elif tag == PICK:
            self.engine.pick(PARITY_BYTES[value[0]])
        else:
            return self.engine.batch(value, tag == SCRAMBLE)
        return b""

    def answer(self, tag, value):
        try:
            check_field(tag, value)
        except Refusal as refusal:
            return refused_field(refusal)
        try:
            number, cause, after = ACCEPTED, "", self.call(tag, value)
        except Refusal as refusal:
            number, cause = refusal.number, refusal.cause
            after = value if tag in (SCRAMBLE, DESCRAMBLE) else b""
        return Answer(field(tag + ANSWERED, bytes([number]) + after), number, cause)


def split(stream):
    """The whole fields of an input, as pairs of tag and value, and what is left of a last one."""
    fields = []
    at = 0
    while at + HEADER <= len(stream):
        end = at + HEADER + int.from_bytes(stream[at + 1:at + HEADER], "big")
        if end > len(stream):
            break
        fields.append((stream[at], stream[at + HEADER:end]))
        at = end
    return fields, stream[at:]


def answers(stream):
    """The answer to each field of an input, and to a last one that is cut off."""
    session = Session()
    fields, left = split(stream)
    given = [session.answer(tag, value) for tag, value in fields]
    return given + ([refused_field(Refusal(CUT_OFF))] if left else [])


def ways(stream, given):
    """The way in which each field of an input was answered: its tag as WAYS has it, number and cause."""
    tags = [tag if tag in TAGS else "other tags" for tag, _ in split(stream)[0]] + ["cut off"]
    return [(tag, answer.number, answer.cause) for tag, answer in zip(tags, given)]


def output(stream):
    """All that the program writes for an input."""
    return b"".join(answer.data for answer in answers(stream))
