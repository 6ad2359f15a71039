#!/usr/bin/env python3
"""Drives `scrambler` through a pipe: one process scrambles a packet, a second one brings it back.

Needs python3 and the built program (`rt run </dev/null` in crates/scrambler). In the repository's root:

    python3 examples/drive.py [PROGRAM]

PROGRAM is crates/scrambler/out/scrambler where none is given. docs/wire.md has the format.
"""

import subprocess
import sys

JOIN, LOAD, PICK, SCRAMBLE, DESCRAMBLE = range(1, 6)
EVEN = bytes([0])


class Refused(Exception):
    """The program answered with this number; docs/wire.md and docs/refusals.md say what it means."""


class Scrambler:
    """A running scrambler, and its calls."""

    def __init__(self, program):
        self.process = subprocess.Popen([program], stdin=subprocess.PIPE, stdout=subprocess.PIPE)

    def __enter__(self):
        return self

    def __exit__(self, *_):
        self.process.stdin.close()
        self.process.stdout.close()
        self.process.wait()

    def read(self, length):
        data = self.process.stdout.read(length)
        if len(data) < length:
            raise EOFError("scrambler ended before its answer")
        return data

    def call(self, tag, value):
        """Sends a field and waits for its answer; what follows the number of an accepted one."""
        self.process.stdin.write(bytes([tag]) + len(value).to_bytes(2, "big") + value)
        self.process.stdin.flush()
        header = self.read(3)
        answer = self.read(int.from_bytes(header[1:], "big"))
        if answer[0] != 0:
            raise Refused(answer[0])
        return answer[1:]

    def join(self, pid):
        self.call(JOIN, pid.to_bytes(2, "big"))

    def load(self, parity, word, moment):
        self.call(LOAD, parity + word + moment.to_bytes(4, "big"))

    def pick(self, parity):
        self.call(PICK, parity)

    def scramble(self, batch):
        return self.call(SCRAMBLE, batch)

    def descramble(self, batch):
        return self.call(DESCRAMBLE, batch)


def main():
    program = sys.argv[1] if len(sys.argv) > 1 else "crates/scrambler/out/scrambler"
    pid, word = 128, bytes.fromhex("00112233445566778899aabbccddeeff")
    packet = bytes([0x47, pid >> 8, pid & 0xFF, 0x10]) + bytes(range(184))

    with Scrambler(program) as sender:
        sender.join(pid)
        sender.load(EVEN, word, moment=1000)
        sender.pick(EVEN)
        scrambled = sender.scramble(packet)

    # The receiver has its own joins and loads, and picks nothing: each packet shows its parity.
    with Scrambler(program) as receiver:
        receiver.join(pid)
        receiver.load(EVEN, word, moment=5000)
        clear = receiver.descramble(scrambled)
        try:
            receiver.load(EVEN, word, moment=5009)
        except Refused as refused:
            print(f"a load 9 seconds after the last: refused, {refused}")

    print(f"scrambled: {scrambled.hex(' ')}")
    print(f"clear:     {clear.hex(' ')}")
    if clear != packet:
        sys.exit("the packet did not come back")
    print("the packet came back")


if __name__ == "__main__":
    main()
