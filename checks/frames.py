"""Compares nas_probe's calls of nas_security with the package `cryptography` and Python's hmac. See frames.sh.

usage: frames.py PROBE [ROUNDS [SEED]]
"""
import random
import sys

from aes import nea2, nia2
from keys import kdf
from probe import compare, text

COUNTS = 1 << 24
MOST = 4096  # octets of a frame
BLOCK = 16


def nas_key(kamf, distinguisher, algorithm):
    """TS 33.501 clause A.8: 1 names NAS ciphering, 2 NAS integrity; the key is the second half."""
    return kdf(kamf, 0x69, bytes([distinguisher]), bytes([algorithm]))[16:]


def ciphered(kamf, nea, count, direction, header, message):
    """What a message is sent as, and what a sent one is the message of."""
    if nea == 0 or header in (1, 3):
        return message
    return nea2(nas_key(kamf, 1, nea), count, direction, message)


def mac(kamf, count, direction, covered):
    return nia2(nas_key(kamf, 2, 2), count, direction, covered)


def frame(kamf, nea, count, direction, header, plain):
    """TS 24.501 clause 9.1.1, figure 9.1.1.2; the MAC is over the sequence number and what is sent (clause 4.4.3.3)."""
    covered = bytes([count % 256]) + ciphered(kamf, nea, count, direction, header, plain)
    return bytes([0x7E, header]) + mac(kamf, count, direction, covered) + covered


def estimate(next_count, number):
    """The least count from the next one on with this sequence number (TS 24.501 clause 4.4.3.1)."""
    return next_count + (number - next_count) % 256


def form(octets):
    """What keeps octets from being a frame, or nothing."""
    if octets[:1] == b"\x7e" and len(octets) > 1 and octets[1] % 16 == 0:
        return "plain"
    if octets and octets[0] != 0x7E:
        return "malformed 0"
    if len(octets) > 1 and octets[1] % 16 > 4:
        return "malformed 1"
    if len(octets) < 8 or len(octets) > MOST:
        return f"malformed {min(len(octets), MOST)}"
    return None


def verdict(kamf, nea, next_count, direction, octets):
    hindered = form(octets)
    if hindered:
        return hindered
    count = estimate(next_count, octets[6])
    if count >= COUNTS:
        return "spent"
    want = mac(kamf, count, direction, octets[6:])
    if want != octets[2:6]:
        return f"failed {text(want)} {text(octets[2:6])}"
    header = octets[1] % 16
    return f"passed {count} {header} {text(ciphered(kamf, nea, count, direction, header, octets[7:]))}"


def size(rng):
    """The length of a message, of which many are at the end of a block, and some the greatest."""
    if rng.random() < 0.02:
        return rng.choice([0, 1, MOST - 8, MOST - 7])
    return max(0, BLOCK * rng.randint(0, 8) + rng.randint(-2, 2))


def next_count(rng):
    """A next count, of which every second one lies at the end of 256 or of them all."""
    end = rng.choice([256, 65536, COUNTS]) if rng.random() < 0.5 else rng.randint(2, COUNTS)
    return max(0, min(COUNTS, end + rng.randint(-2, 2)))


def changed(rng, octets):
    """The octets with one of them changed, cut, or with one more."""
    at = rng.randrange(len(octets))
    if rng.random() < 0.6:
        at = rng.randrange(min(len(octets), 8))
    kind = rng.random()
    if kind < 0.2:
        return octets[:at]
    if kind < 0.3:
        return octets + rng.randbytes(1)
    return octets[:at] + bytes([octets[at] ^ 1 << rng.randrange(8)]) + octets[at + 1 :]


def cases(rng):
    kamf, nea = rng.randbytes(32), rng.choice([0, 2])
    count, direction, header = next_count(rng), rng.choice(["up", "down"]), rng.randint(1, 4)
    plain = rng.randbytes(size(rng))
    words = f"{text(kamf)} {nea}"
    made = frame(kamf, nea, count, direction, header, plain) if count < COUNTS else None
    yield f"protect {words} {count} {direction} {header} {text(plain)}", made or "spent"
    sent = made or frame(kamf, nea, COUNTS - 1, direction, header, plain)
    there = max(0, min(COUNTS, count - rng.choice([0, 0, 1, 255, 256, rng.randint(0, 300)])))
    for octets in (sent, changed(rng, sent)):
        yield f"unprotect {words} {there} {direction} {text(octets)}", verdict(kamf, nea, there, direction, octets)


def main():
    probe = sys.argv[1]
    rounds = int(sys.argv[2]) if len(sys.argv) > 2 else 600
    seed = int(sys.argv[3]) if len(sys.argv) > 3 else 1
    rng = random.Random(seed)
    drawn = [case for _ in range(rounds) for case in cases(rng)]
    return compare("frames", probe, drawn, "cryptography and hmac", seed)


if __name__ == "__main__":
    sys.exit(main())
