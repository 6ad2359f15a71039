"""Payloads and packets as docs/profiles.md and docs/packets.md have them, for the tools that compare.

Written from the rules; only single blocks come from other software, the package `cryptography`
(DES is TripleDES with three equal keys).
"""

from cryptography.hazmat.primitives.ciphers import Cipher, modes
from cryptography.hazmat.primitives.ciphers.algorithms import AES

try:
    from cryptography.hazmat.decrepit.ciphers.algorithms import TripleDES
except ImportError:
    from cryptography.hazmat.primitives.ciphers.algorithms import TripleDES

PACKET = 188
PARITIES = {"even": 0b10, "odd": 0b11}
NAMES = {control: name for name, control in PARITIES.items()}
PROFILES = {
    "cissa": {"width": 16, "vector": b"DVBTMCPTAESCISSA", "tail": "clear"},
    "idsa": {"width": 16, "vector": bytes(16), "tail": "masked"},
    "des": {"width": 8, "vector": bytes(8), "tail": "masked"},
}


def xor(a, b):
    """Place by place; what is past the end of either is left out."""
    return bytes(x ^ y for x, y in zip(a, b))


class Model:
    """Scrambles and descrambles payloads under one profile and word."""

    def __init__(self, profile, word):
        rules = PROFILES[profile]
        self.width = rules["width"]
        self.vector = rules["vector"]
        self.masked = rules["tail"] == "masked"
        algorithm = TripleDES(word[:8] * 3) if profile == "des" else AES(word)
        self.encryptor = Cipher(algorithm, modes.ECB()).encryptor()
        self.decryptor = Cipher(algorithm, modes.ECB()).decryptor()

    def encrypt(self, block):
        return self.encryptor.update(block)

    def decrypt(self, block):
        return self.decryptor.update(block)

    def blocks(self, payload):
        """The whole blocks of a payload from its start, and its tail."""
        whole = len(payload) // self.width * self.width
        return [payload[at:at + self.width] for at in range(0, whole, self.width)], payload[whole:]

    def turn_tail(self, chain, tail):
        """The same both ways: the tail as it is, or XOR the leftmost bytes of E(chain value)."""
        return xor(tail, self.encrypt(chain)) if self.masked else tail

    def scramble(self, payload):
        blocks, tail = self.blocks(payload)
        chain = self.vector
        made = []
        for block in blocks:
            chain = self.encrypt(xor(block, chain))
            made.append(chain)
        return b"".join(made) + self.turn_tail(chain, tail)

    def descramble(self, payload):
        blocks, tail = self.blocks(payload)
        chain = self.vector
        made = []
        for block in blocks:
            made.append(xor(self.decrypt(block), chain))
            chain = block
        return b"".join(made) + self.turn_tail(chain, tail)


def payload_start(packet):
    """Where the payload starts, or None."""
    control = packet[3] >> 4 & 0b11
    return {0b01: 4, 0b11: 5 + packet[4]}.get(control)


def with_control(packet, control):
    return packet[:3] + bytes([packet[3] & 0x3F | control << 6]) + packet[4:]


def expected(model, direction, parity, pids, packet):
    """The packet that must come out. Only packets that reel accepts are asked about."""
    error = packet[1] & 0x80
    pid = (packet[1] & 0x1F) << 8 | packet[2]
    if error or pid not in pids:
        return packet
    start = payload_start(packet)
    if start is None:
        return packet
    if direction == "scramble":
        turned = with_control(packet, PARITIES[parity])
        return turned[:start] + model.scramble(packet[start:])
    if packet[3] >> 6 == 0b00:
        return packet
    turned = with_control(packet, 0b00)
    return turned[:start] + model.descramble(packet[start:])
