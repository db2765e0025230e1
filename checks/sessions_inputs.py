"""What a network sends to a handset's sessions, drawn at random beside an executable model."""
from elements import mutated
from qos import operation, operations

ADDRESSES = ["010a2d0002", "020102030405060708", "0301020304050607080a2d0002"]
AMBRS = ["0603e80603e8", "0100ff04ffff", "000000000000", "ff1234ff5678"]
SLICES = ["01", "0401020304", "01010203"]
DNNS = ["08696e7465726e6574", "0161026263", "0361626303" + "7a7a7a"]
CAUSES = [26, 27, 28, 31, 36, 43, 43, 50, 51, 83, 84, 96, 97, 98, 0, 255]
TO_NETWORK = [0xC1, 0xC9, 0xCC, 0xCD, 0xD1, 0xD4]
# Elements that a message doesn't know, or knows and has elsewhere.
OTHERS = ["56aa", "5924", "550010", "7b000100", "91", "250161", "2a0101", "79000790060120410101"]


def tlv(iei, octets):
    return bytes([iei, len(octets)]) + octets


def tlv_e(iei, octets):
    return bytes([iei]) + counted(octets)


def counted(octets):
    return len(octets).to_bytes(2, "big") + octets


class SessionNetwork:
    """Draws what reaches a handset's sessions next, by what is open there."""

    def __init__(self, rng, handset):
        self.rng, self.handset = rng, handset
        self.frames = []  # that reached it

    def chance(self, p):
        return self.rng.random() < p

    def drawn(self, values):
        return bytes.fromhex(self.rng.choice(values))

    def psi(self):
        """Mostly one that isn't inactive, sometimes none of 1 to 15."""
        used = [psi for psi in range(1, 16) if self.handset.psis[psi].word != "Inactive"]
        if used and self.chance(0.85):
            return self.rng.choice(used)
        return self.rng.choice([0, 16, 255]) if self.chance(0.2) else self.rng.randint(1, 15)

    def pti(self, psi):
        """Mostly that of the transaction that is open, or 0; sometimes one that was used, or any."""
        open_now = self.handset.psis[psi].trans if 1 <= psi <= 15 else None
        if open_now and self.chance(0.65):
            return open_now.pti
        return self.rng.choice([0, 0, 255, max(self.handset.next_pti - 1, 0), self.handset.next_pti, self.rng.randrange(256)])

    # messages behind their heads

    def rules(self):
        """Operations on the rules of a new session: mostly such as apply."""
        if self.chance(0.1):
            return b""
        if self.chance(0.15):
            return operations(self.rng, 3)
        octets = operation(self.rng, 1, 1, True)
        for rule in range(2, self.rng.choice([2, 3, 3, 17, 18])):
            octets += operation(self.rng, 1, rule, False, self.rng.choice([1, 1, 15]))
        return mutated(self.rng, octets) if self.chance(0.1) else octets

    def accept(self):
        octets = bytes([self.rng.choice([0x11, 0x12, 0x13, 0x31, self.rng.randrange(256)])])
        octets += counted(self.rules()) + bytes([6]) + self.drawn(AMBRS)
        elements = [b"\x59\x32", tlv(0x29, self.drawn(ADDRESSES)), tlv(0x22, self.drawn(SLICES)), tlv(0x25, self.drawn(DNNS))]
        return octets + b"".join(element for element in elements if self.chance(0.6))

    def command(self):
        octets = b""
        if self.chance(0.2):
            octets += bytes([0x59, self.rng.choice(CAUSES)])
        if self.chance(0.5):
            octets += tlv(0x2A, self.drawn(AMBRS))
        if self.chance(0.75):
            made = operations(self.rng, self.rng.choice([1, 1, 1, 3]))
            octets += tlv_e(0x7A, mutated(self.rng, made) if self.chance(0.15) else made)
        return octets

    def body(self, kind):
        if kind == 0xC2:
            return self.accept()
        if kind == 0xCB:
            return self.command()
        if kind in TO_NETWORK:
            return b"\xff\xff" + self.rng.randbytes(3)
        return bytes([self.rng.choice(CAUSES)])

    # frames

    def kind(self, psi):
        """Mostly one that the session's state awaits."""
        word = self.handset.psis[psi].word if 1 <= psi <= 15 else "Inactive"
        awaited = {
            "Inactive": [0xD3, 0xCB, 0xC2],
            "ActivePending": [0xC2, 0xC2, 0xC2, 0xC2, 0xC3],
            "Active": [0xCB, 0xCB, 0xCB, 0xCB, 0xD3],
            "ModificationPending": [0xCB, 0xCB, 0xCB, 0xCA],
            "InactivePending": [0xD3, 0xD2, 0xCB],
        }
        if self.chance(0.75):
            return self.rng.choice(awaited[word])
        return self.rng.choice([0xC2, 0xC3, 0xCB, 0xCA, 0xD3, 0xD2, 0xD6] + TO_NETWORK + [self.rng.randrange(256)])

    def message(self):
        psi = self.psi()
        kind = self.kind(psi)
        octets = bytes([0x2E, psi, self.pti(psi), kind]) + self.body(kind)
        for _ in range(self.rng.choice([0, 0, 0, 0, 1, 2])):
            octets += self.drawn(OTHERS)
        return octets

    def again(self):
        """What reached it before: as it was, with another element behind it, or under another identity."""
        octets = bytearray(self.rng.choice(self.frames[-8:]))
        drawn = self.rng.random()
        if drawn < 0.2:
            octets += self.drawn(OTHERS)
        elif drawn < 0.3 and len(octets) > 2:
            octets[2] = self.rng.choice([0, 255, self.rng.randrange(256)])
        return bytes(octets)

    def frame(self):
        drawn = self.rng.random()
        if self.frames and drawn < 0.2:
            octets = self.again()
        elif drawn < 0.3:
            octets = mutated(self.rng, self.message())
        elif drawn < 0.33:
            octets = self.rng.randbytes(self.rng.choice([0, 1, 3, 4, 5, 20]))
        else:
            octets = self.message()
        self.frames.append(octets[:4100])
        return octets[:4100]

    def returned(self):
        """What isn't forwarded: mostly the request of a transaction that is open."""
        opened = [open_now.frame for open_now in (place.trans for place in self.handset.psis[1:]) if open_now]
        if opened and self.chance(0.7):
            octets = bytearray(self.rng.choice(opened))
            if self.chance(0.2):
                octets[self.rng.randrange(4)] ^= 1 << self.rng.randrange(8)
            return bytes(octets)[: self.rng.choice([3, 4, 4096])]
        return self.frame()
