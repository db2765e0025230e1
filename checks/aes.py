"""Compares nas_probe's calls of aes_cmac with the package `cryptography`. See aes.sh.

usage: aes.py PROBE [LINES [SEED]]
"""
import random
import sys

from cryptography.hazmat.primitives.ciphers import Cipher, algorithms, modes
from cryptography.hazmat.primitives.cmac import CMAC

from probe import compare, text

MOST = 4200  # octets of a message
BEARER = 1  # the NAS connection over 3GPP access


def encrypt_block(key, block):
    encryptor = Cipher(algorithms.AES(key), modes.ECB()).encryptor()
    return encryptor.update(block) + encryptor.finalize()


def ctr_apply(key, first, octets):
    encryptor = Cipher(algorithms.AES(key), modes.CTR(first)).encryptor()
    return encryptor.update(octets) + encryptor.finalize()


def cmac(key, octets):
    mac = CMAC(algorithms.AES(key))
    mac.update(octets)
    return mac.finalize()


def head(count, direction):
    """COUNT in 32 bits, BEARER in 5, DIRECTION in 1, and 26 zero bits (TS 33.401 clauses B.1.3 and B.2.3)."""
    bit = {"up": 0, "down": 1}[direction]
    return (count << 32 | BEARER << 27 | bit << 26).to_bytes(8, "big")


def nia2(key, count, direction, octets):
    return cmac(key, head(count, direction) + octets)[:4]


def nea2(key, count, direction, octets):
    return ctr_apply(key, head(count, direction) + bytes(8), octets)


def size(rng):
    """A length, of which every second one lies at the end of a block or beside it."""
    if rng.random() < 0.5:
        return rng.randint(0, MOST)
    return max(0, min(MOST, 16 * rng.randint(0, MOST // 16) + rng.randint(-1, 1) + rng.choice([0, 8])))


def first_block(rng):
    """A counter block, of which every second one is near an end of 32, 64 or 128 bits."""
    block = rng.randbytes(16)
    if rng.random() < 0.5:
        ones = rng.choice([4, 8, 16])
        block = block[: 16 - ones] + b"\xff" * (ones - 1) + bytes([rng.randint(0xF0, 0xFF)])
    return block


def case(rng):
    """A line for the program, and the answer that it has to give."""
    call = rng.choice(["encrypt_block", "ctr_apply", "cmac", "nia2", "nea2"])
    key = rng.randbytes(16)
    if call == "encrypt_block":
        block = rng.randbytes(16)
        return f"{call} {key.hex()} {block.hex()}", encrypt_block(key, block)
    octets = rng.randbytes(size(rng))
    if call == "ctr_apply":
        first = first_block(rng)
        return f"{call} {key.hex()} {first.hex()} {text(octets)}", ctr_apply(key, first, octets)
    if call == "cmac":
        return f"{call} {key.hex()} {text(octets)}", cmac(key, octets)
    count = rng.choice([0, 0xFF, 0x100, 0xFFFFFF, rng.randrange(1 << 24)])
    direction = rng.choice(["up", "down"])
    answer = {"nia2": nia2, "nea2": nea2}[call](key, count, direction, octets)
    return f"{call} {key.hex()} {count} {direction} {text(octets)}", answer


def main():
    probe = sys.argv[1]
    lines = int(sys.argv[2]) if len(sys.argv) > 2 else 4000
    seed = int(sys.argv[3]) if len(sys.argv) > 3 else 1
    rng = random.Random(seed)
    cases = [case(rng) for _ in range(lines)]
    return compare("aes", probe, cases, "the package cryptography", seed)


if __name__ == "__main__":
    sys.exit(main())
