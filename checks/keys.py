"""Compares nas_probe's calls of key_chain with Python's hmac. See keys.sh.

usage: keys.py PROBE [ROUNDS [SEED]]
"""
import hashlib
import hmac
import random
import sys

from probe import compare, text


def mac(key, text):
    return hmac.new(key, text, hashlib.sha256).digest()


def kdf(key, fc, *parameters):
    """HMAC-SHA-256 over FC, P0, L0, P1, L1, and so on (TS 33.220 Annex B.2)."""
    text = bytes([fc])
    for parameter in parameters:
        text += parameter + len(parameter).to_bytes(2, "big")
    return mac(key, text)


def length(rng, most):
    """A length, of which every second one is near the block of 64 octets or its half."""
    if rng.random() < 0.5:
        return rng.randint(0, most)
    return max(0, min(most, rng.choice([0, 32, 55, 64, 128]) + rng.randint(-2, 2)))


def hmac_cases(rng):
    key, octets = rng.randbytes(length(rng, 300)), rng.randbytes(length(rng, 4000))
    yield f"hmac256 {text(key)} {text(octets)}", mac(key, octets)


def kdf_cases(rng):
    key, fc = rng.randbytes(length(rng, 100)), rng.randrange(256)
    parameters = [rng.randbytes(length(rng, most)) for most in (600, 3, 70)]
    if rng.random() < 0.02:
        parameters[0] = rng.randbytes(65535)
    for count in (1, 2, 3):
        words = " ".join(text(p) for p in parameters[:count])
        yield f"kdf{count} {text(key)} {fc:02x} {words}", kdf(key, fc, *parameters[:count])


def chain_cases(rng):
    """The calls for a drawn subscriber of a drawn network, whose network code has two or three digits."""
    mcc, mnc = f"{rng.randrange(1000):03}", rng.choice([f"{rng.randrange(100):02}", f"{rng.randrange(1000):03}"])
    name = f"5G:mnc{mnc:>03}.mcc{mcc}.3gppnetwork.org".encode()
    imsi = f"{mcc}{mnc}{rng.randrange(10**10):010}"[:15]
    ck, ik, rand, res, hidden = (rng.randbytes(n) for n in (16, 16, 16, 8, 6))
    abba = rng.randbytes(rng.choice([0, 2, 2, 5]))
    kausf = kdf(ck + ik, 0x6A, name, hidden)
    kseaf = kdf(kausf, 0x6C, name)
    plmn = mcc + mnc
    yield f"snn {plmn}", name
    yield f"res_star {text(ck)} {text(ik)} {plmn} {text(rand)} {text(res)}", kdf(ck + ik, 0x6B, name, rand, res)[16:]
    yield f"kausf {text(ck)} {text(ik)} {plmn} {text(hidden)}", kausf
    yield f"kseaf {text(kausf)} {plmn}", kseaf
    yield f"kamf {text(kseaf)} {imsi} {text(abba)}", kdf(kseaf, 0x6D, imsi.encode(), abba)


def main():
    probe = sys.argv[1]
    rounds = int(sys.argv[2]) if len(sys.argv) > 2 else 400
    seed = int(sys.argv[3]) if len(sys.argv) > 3 else 1
    rng = random.Random(seed)
    cases = [case for _ in range(rounds) for kind in (hmac_cases, kdf_cases, chain_cases) for case in kind(rng)]
    return compare("keys", probe, cases, "Python's hmac", seed)


if __name__ == "__main__":
    sys.exit(main())
