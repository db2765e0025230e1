"""Octets for a network that network.py sends beside those of the model's handsets: messages of handsets, in frames or plain, as they
are or changed."""
from elements import mutated
from frame_inputs import CAPABILITIES, CAUSES, Frames

LAST_SQN = (1 << 48) - 1
REQUESTS = (0x41, 0x45, 0x4C)  # those that name their sender, in frames of header type 1
IDENTITIES = ["", "0100f110f0ff01000102", "0900f110f0ff00000000000010", "0100f110f0ff0000000000", "0100a110f0ff00000000000010", "03f1", "f4004000", "f200f110020040000000"]
SESSIONS = ["50022000", "5002feff", "50020000", "500120"]
EXTRAS = ["", "", "", "a1", "220101", "7b000100", "2e", "2e01a0", "50", "01ff"]

# Message types and what follows: those of procedures, and those that a network takes nothing from, with wrong parts or of no known
# type. The cause is cc.
ANSWERS = ["57", "5702", "572d10" + 16 * "00", "59cc", "5914", "591a", "5947", "5915", "5f17", "5fcc", "5e", "43", "48", "48", "64cc", "55"]
WRONG = ["40", "7f", "ff", "41", "45", "4c", "5c", "59", "5f", "64", "67", "670100", "42", "44cc", "4e", "5b01", "5d", "56", "68", "47", "572d", ""]


def counted(octets):
    """The octets behind their number in two octets."""
    return len(octets).to_bytes(2, "big") + octets


class Handsets(Frames):
    """Handsets as the network's other end: they see its model, so that what they send can be right. `gutis` are those that were
    given, and `contexts` those that were in use."""

    def __init__(self, rng, crypto, codec, network):
        super().__init__(rng, crypto, True)
        self.codec, self.network = codec, network
        self.gutis, self.contexts = [], []

    def record(self):
        """One of the subscribers, mostly one that has a context in use or an open procedure."""
        records = list(self.network.subs.values())
        known = [record for record in records if record.in_use] if self.chance(0.6) else [record for record in records if record.proc]
        return self.rng.choice(known if known and self.chance(0.9) else records)

    # messages

    def identity(self, record):
        """The octets of an identity, mostly one of the subscriber's."""
        rng, codec, drawn = self.rng, self.codec, self.rng.random()
        gutis = list(record.kept) if record.kept and self.chance(0.8) else self.gutis
        if drawn < 0.35:
            return self.suci(record)
        if drawn < 0.9 and gutis:
            guti = rng.choice(gutis)
            if self.chance(0.15):
                guti = guti._replace(**{rng.choice(["region", "set_pointer", "tmsi"]): rng.choice([0, 1, 2, 64])})
            return codec.Identity.write(guti if drawn < 0.75 else codec.Stmsi(guti.set_pointer, guti.tmsi))
        return bytes.fromhex(rng.choice(IDENTITIES))

    def suci(self, record):
        """A SUCI, mostly the subscriber's."""
        plmn, rng = self.network.cfg.plmn, self.rng
        msin = record.supi[len(plmn.mcc) + len(plmn.mnc) :]
        if self.chance(0.1):
            msin = rng.choice(["1", "123456789", msin[::-1]])
        return self.codec.Identity.write(self.codec.Suci(plmn, rng.choice(["0", "0", "12", "1234"]), msin))

    def request(self, record):
        """A REGISTRATION REQUEST."""
        rng = self.rng
        kind = rng.choice([1, 1, 1, 2, 2, 3, 3, 4, 0, 7]) | rng.choice([0, 8]) | rng.choice([0, 0x70, 0x10])
        capability = bytes.fromhex(rng.choice(CAPABILITIES)) if self.chance(0.9) else b"\xa0"
        elements = b"" if self.chance(0.25) else bytes([0x2E, len(capability)]) + capability
        if self.chance(0.2):
            elements += bytes.fromhex(rng.choice(SESSIONS))
        elements += bytes.fromhex(rng.choice(EXTRAS))
        return bytes([0x7E, 0, 0x41, kind]) + counted(self.identity(record)) + elements

    def completion(self, record):
        """A SECURITY MODE COMPLETE, mostly with a whole request."""
        drawn = self.rng.random()
        if drawn < 0.2:
            return bytes([0x7E, 0, 0x5E])
        whole = self.request(record) if drawn < 0.9 else mutated(self.rng, self.any_message(record))
        return bytes([0x7E, 0, 0x5E, 0x71]) + counted(whole)

    def failure(self, record):
        """An AUTHENTICATION FAILURE that the sequence number isn't fresh, right or wrong."""
        challenge = getattr(record.proc, "challenge", None)
        if challenge is None:
            return bytes([0x7E, 0, 0x59, 21, 0x30, 14]) + self.rng.randbytes(14)
        sqn = challenge[0] + self.rng.choice([0, 0, 1, 1000]) if self.chance(0.9) else LAST_SQN - self.rng.randint(0, 1)
        sqn = min(max(sqn, challenge[0]), LAST_SQN)
        auts = self.crypto.check_autn(record.k, record.opc, challenge[1], record.proc.autn, sqn)[1]
        if self.chance(0.15):
            auts = self.rng.choice([auts[:13], auts[:6] + bytes(8)])
        return bytes([0x7E, 0, 0x59, 21, 0x30, len(auts)]) + auts

    def response(self, record):
        """An AUTHENTICATION RESPONSE, right where a challenge is open."""
        answer = getattr(record.proc, "xres", None)
        return bytes([0x7E, 0, 0x57, 0x2D, 0x10]) + (answer or self.rng.randbytes(16))

    def transport(self):
        """An UL NAS TRANSPORT."""
        rng = self.rng
        size = rng.choice([0, 1, 4, 20]) if self.chance(0.9) else rng.choice([4070, 4075, 4076, 4077, 4079, 4082])
        elements = rng.choice(["", "1205", "1205", "1200", "1210", "120581", "12058122010125090869" + "6e7465726e6574", "2201", "5902"])
        kind = rng.choice([1, 1, 1, 2, 5, 0, 15])
        return bytes([0x7E, 0, 0x67, kind]) + counted(rng.randbytes(size)) + bytes.fromhex(elements)

    def any_message(self, record):
        """A plain message."""
        rng, drawn = self.rng, self.rng.randrange(13)
        if drawn < 3:
            return self.request(record)
        if drawn == 3:
            return bytes([0x7E, 0, 0x4C, rng.randrange(256)]) + counted(self.identity(record)) + bytes.fromhex(rng.choice(SESSIONS + EXTRAS))
        if drawn == 4:
            return bytes([0x7E, 0, 0x45, rng.choice([1, 9, 0x79, 2])]) + counted(self.identity(record))
        if drawn == 5:
            return bytes([0x7E, 0, 0x5C]) + counted(self.identity(record))
        if drawn == 6:
            return rng.choice([self.completion, self.failure, self.response])(record)
        if drawn in (7, 8):
            return self.transport()
        return bytes.fromhex("7e00" + rng.choice(ANSWERS if drawn < 11 else WRONG).replace("cc", f"{rng.choice(CAUSES):02x}"))

    # frames

    def context(self, record):
        """A context that the message could be framed under, mostly the one that is pending or in use, or nothing."""
        pending = getattr(record.proc, "pending", None)
        if self.contexts and self.chance(0.1):
            return self.rng.choice(self.contexts)
        return pending if pending and (record.in_use is None or self.chance(0.5)) else record.in_use

    def header(self, message):
        """The header type that such a message has, or another."""
        if self.chance(0.12):
            return self.rng.randint(1, 4)
        kind = message[2] if len(message) > 2 else 0
        return 1 if kind in REQUESTS and self.chance(0.7) else 4 if kind == 0x5E else 2

    def framed(self, record, message):
        context = self.context(record)
        if context is None:
            return bytes([0x7E, self.rng.randint(1, 15)]) + self.rng.randbytes(5) + message
        return self.frame(context, self.header(message), message)

    # strings

    def waiting(self):
        """A link on which a request awaits an identity, with an answer; or nothing."""
        links = [number for number, link in self.network.links.items() if link.waiting]
        if not links:
            return None
        record = self.record()
        identity = self.suci(record) if self.chance(0.7) else self.identity(record)
        return self.rng.choice(links), bytes([0x7E, 0, 0x5C]) + counted(identity)

    def next_in_line(self, record):
        """What the subscriber's handset could send next in a procedure that is open, or nothing."""
        phase = getattr(record.proc, "phase", None)
        if phase == "Auth":
            drawn = self.rng.random()
            if drawn < 0.2:
                return bytes([0x7E, 0, 0x59, self.rng.choice([20, 26, 71, 71])])
            return self.response(record) if drawn < 0.6 else self.failure(record)
        if phase == "Mode" and self.chance(0.9):
            return self.frame(record.proc.pending, 4, self.completion(record))
        if record.offered and not record.completed and record.in_use:
            return self.frame(record.in_use, 2, bytes([0x7E, 0, 0x43]))
        if record.word == "Deregistering" and record.in_use:
            return self.frame(record.in_use, 2, bytes([0x7E, 0, 0x48]))
        return None

    def odd(self, record):
        """Octets that no handset sends."""
        kind, made = self.rng.randrange(8), None
        if kind < 2:
            return self.none()
        if kind == 2:
            return self.long(self.rng.choice([bytes([0x7E, 0, 0x7F]), self.request(record), self.response(record)]))
        if kind == 3 and record.in_use:
            made = self.long_frame(record.in_use, 2, self.rng.choice([bytes([0x7E, 0, 0x7F]), self.transport()]))
        if kind in (4, 5):
            made = self.again()
        return mutated(self.rng, self.any_message(record)) if made is None else made

    def string(self):
        """What reaches the network next, with its link, or nothing in place of the link where any would do."""
        answer = self.waiting() if self.chance(0.3) else None
        if answer:
            return answer
        record = self.record()
        octets = (self.next_in_line(record) if self.chance(0.3) else None) or self.any_string(record)
        link = getattr(record.proc, "link", None)
        return link if link and self.chance(0.7) else record.link or link, octets

    def any_string(self, record):
        drawn, message = self.rng.random(), self.any_message(record)
        if drawn < (0.65 if record.in_use else 0.2):
            return self.framed(record, message)
        if drawn < 0.7:
            return message
        if drawn < 0.8:
            return mutated(self.rng, self.framed(record, message))
        return self.odd(record)
