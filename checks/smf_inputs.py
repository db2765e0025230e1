"""What a handset sends to an SMF's sessions, drawn at random beside an executable model."""
from elements import mutated
from qos import operation, operations
from sessions_inputs import OTHERS, SLICES, tlv_e

DNNS = [b"\x08internet", b"\x01a\x02bc", b"\x03ims", b"\x01z"]
CAUSES = [26, 36, 43, 47, 69, 83, 84, 96, 97, 98, 111, 0]
TO_HANDSET = [0xC2, 0xC3, 0xCA, 0xCB, 0xD2, 0xD3]


class HandsetSessions:
    """Draws what a handset of a subscriber sends next, by what the SMF has of it. It has a context of which the challenge is known, and
    counts the identities of its transactions."""

    def __init__(self, rng, record):
        self.rng, self.record = rng, record
        self.frames = []  # that were sent: the identity beside it, data network, slice and octets
        self.pti = 0
        self.challenge = (rng.randrange(1 << 48), rng.randbytes(16))

    def chance(self, p):
        return self.rng.random() < p

    def renew(self):
        """Another context."""
        self.challenge, self.pti = (self.rng.randrange(1 << 48), self.rng.randbytes(16)), 0

    def psi(self):
        """Mostly one that has a session, and few others."""
        there = list(self.record.sessions)
        if there and self.chance(0.75):
            return self.rng.choice(there)
        return self.rng.choice([1, 2, 5, 15]) if self.chance(0.9) else self.rng.randint(1, 15)

    def state(self, psi):
        session = self.record.sessions.get(psi)
        return session.state if session else None

    def new_pti(self):
        """Mostly the next, sometimes one that was used, 0 or 255."""
        if self.chance(0.75) and self.pti < 254:
            self.pti += 1
            return self.pti
        return self.rng.choice([0, 255, self.pti, max(self.pti - 1, 0), self.rng.randrange(256)])

    def open_pti(self, psi):
        """Mostly that of the command that is open."""
        session = self.record.sessions.get(psi)
        if session and session.open and self.chance(0.8):
            return session.open[0]
        return self.new_pti()

    # messages

    def operations(self):
        """Operations on the rules of a session, of which some apply to those of one that was just established."""
        drawn = self.rng.random()
        if drawn < 0.35:
            return operation(self.rng, 1, self.rng.randint(2, 6), False)
        if drawn < 0.5:
            return operation(self.rng, 1, self.rng.randint(2, 255), False, 15)
        if drawn < 0.6:
            return operation(self.rng, 2, self.rng.randint(2, 6), False)
        made = operations(self.rng, 3)
        return mutated(self.rng, made) if self.chance(0.2) else made

    def request(self, kind):
        """A request with its body behind its head."""
        if kind == 0xC1:
            octets = b"\xff\xff"
            if self.chance(0.8):
                octets += bytes([0x90 | self.rng.choice([1, 1, 2, 2, 3, 3, 3, 3, self.rng.randrange(16)])])
            return octets + (b"\xa1" if self.chance(0.7) else b"")
        if kind == 0xC9:
            return tlv_e(0x7A, self.operations()) if self.chance(0.95) else b""
        if kind in (0xD1, 0xD4):
            return b"\x59\x24" if self.chance(0.6) else b""
        if kind in (0xCD, 0xD6):
            return bytes([self.rng.choice([43, 47, 47, 83] + CAUSES)])
        return b"" if kind == 0xCC else self.rng.randbytes(4)

    def kind(self, psi):
        fitting = {
            None: [0xC1, 0xC1, 0xC1, 0xC1, 0xC9, 0xD1],
            "Active": [0xC9, 0xC9, 0xC9, 0xD1, 0xC1, 0xCC, 0xD6],
            "Modifying": [0xCC, 0xCC, 0xCC, 0xCD, 0xD6, 0xC9, 0xC1, 0xD1],
            "Settling": [0xC9, 0xC9, 0xCC, 0xD6, 0xC1, 0xD1],
            "Releasing": [0xD4, 0xD4, 0xD1, 0xC9, 0xCC, 0xC1, 0xD6],
        }
        if self.chance(0.85):
            return self.rng.choice(fitting[self.state(psi)])
        return self.rng.choice([0xC1, 0xC9, 0xCC, 0xCD, 0xD1, 0xD4, 0xD6, self.rng.randrange(256)] + TO_HANDSET)

    def message(self):
        """The identity beside it, data network, slice and octets."""
        psi = self.psi()
        kind = self.kind(psi)
        pti = self.new_pti() if kind in (0xC1, 0xC9, 0xD1) else self.open_pti(psi)
        octets = bytes([0x2E, psi, pti, kind]) + self.request(kind)
        for _ in range(self.rng.choice([0, 0, 0, 0, 1, 2])):
            octets += bytes.fromhex(self.rng.choice(OTHERS))
        beside = psi if self.chance(0.97) else self.rng.randint(1, 15)
        return beside, self.dnn(), self.slice(), octets

    def dnn(self):
        if self.chance(0.4):
            return None
        return self.rng.choice(self.record.dnns) if self.chance(0.85) else self.rng.choice(DNNS)

    def slice(self):
        """The octets of a slice, or nothing."""
        return bytes.fromhex(self.rng.choice(SLICES)) if self.chance(0.3) else None

    def frame(self):
        drawn = self.rng.random()
        if self.frames and drawn < 0.15:
            return self.rng.choice(self.frames[-6:])
        beside, dnn, slice, octets = self.message()
        if drawn < 0.22:
            octets = mutated(self.rng, octets)
        elif drawn < 0.24:
            octets = self.rng.randbytes(self.rng.choice([0, 1, 3, 4, 5, 20]))
        made = beside, dnn, slice, octets[:4100]
        self.frames.append(made)
        return made
