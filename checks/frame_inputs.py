"""Frames that an end could send to the other, right and wrong ones, and octets that no end sends."""
from elements import mutated

LONGEST = 4096  # octets of a message, and of a frame
LONGEST_MESSAGE = LONGEST - 7  # of one in a frame
MOST = 4100  # octets that 5GMM takes
COUNTS = 1 << 24
CAPABILITIES = ["a020", "8020", "2020", "a000", "a0200000", "ffff", "f0f0f0f0f0f0f0f0"]
CAUSES = [3, 7, 9, 10, 11, 22, 71, 72, 73, 75, 85, 86, 87, 97, 111, 0, 255]


class Frames:
    """Makes frames. The crypto is the model's; `up` says in which direction they go."""

    def __init__(self, rng, crypto, up):
        self.rng, self.crypto, self.up = rng, crypto, up
        self.frames = []  # what was made

    def chance(self, p):
        return self.rng.random() < p

    def frame(self, context, header, message):
        """The message in a frame under the context, mostly at the next count."""
        rng, count = self.rng, context.up if self.up else context.down
        if self.chance(0.12):
            count += rng.choice([1, 2, 5, 254, 255, 256, 300, -1, -1, -1, -256])
        copy = context.copy()
        copy.up = copy.down = max(0, min(count, COUNTS - 1))
        direction = self.crypto.UP if self.up else self.crypto.DOWN
        made = self.crypto.protect(copy, direction, header, message[:LONGEST_MESSAGE])[1]
        if self.chance(0.05):
            made = made[:1] + bytes([made[1] | rng.choice([0x10, 0x50, 0xF0])]) + made[2:]
        self.frames.append(made)
        return made

    def again(self):
        """A frame of before, as it was or changed, or nothing."""
        if not self.frames:
            return None
        made = self.rng.choice(self.frames[-3:])
        return made if self.chance(0.5) else mutated(self.rng, made)

    def none(self):
        """Octets that are no message."""
        rng = self.rng
        if self.chance(0.5):
            return rng.choice([b"", b"\x7e", b"\x7e\x00", b"\x2e", b"\x7e\x02", b"\x7e\x03" + bytes(5), b"\x7e\x02" + bytes(6), b"\x2e\x01\x01\xc1\xff\xff"])
        return rng.randbytes(rng.randint(0, 40))

    def long(self, message):
        """The message with unknown elements behind it, as long as one may be, or a little longer."""
        return message + bytes([0xA0]) * (self.rng.choice([LONGEST, LONGEST + 1, MOST, MOST + 1, 5000]) - len(message))

    def long_frame(self, context, header, message):
        """The same in a frame."""
        message += bytes([0xA0]) * (self.rng.choice([LONGEST_MESSAGE - 1, LONGEST_MESSAGE]) - len(message))
        return self.frame(context, header, message) + self.rng.choice([b"", b"", b"\xa0", b"\xa0\xa0"])
