"""Compares nas_probe's calls of mm_messages, sm_messages and nas_show with an executable model. See messages.sh.

usage: messages.py MODEL PROBE [LINES [SEED]]
"""
import sys

from elements import mutated
from probe import against_model, text

# A message of each type, or more, to start from.
MESSAGES = [
    "7e004179000d0100f110f0ff000000000000102e02a02050022000",
    "7e004109000bf200f110020040000000015200f1100000012e04a0200000",
    "7e0042010177000bf200f1100200400000000154070000f11000000115020101500200005e0106",
    "7e0043",
    "7e004403",
    "7e0045790007f4004000000001",
    "7e0046",
    "7e004701580a",
    "7e0048",
    "7e004c100007f400400000000150020400",
    "7e004d0950022000",
    "7e004e50022000",
    "7e0054d177000bf200f1100200400000000146aa4700112233445566",
    "7e0055",
    "7e00560002000021000102030405060708090a0b0c0d0e0f2010101112131415161718191a1b1c1d1e1f",
    "7e00572d10000102030405060708090a0b0c0d0e0f",
    "7e0058",
    "7e005915300e000102030405060708090a0b0c0d",
    "7e005b01",
    "7e005c000d0100f110f0ff00000000000010",
    "7e005d220002a02036010257aa",
    "7e005e7100037e0041",
    "7e005f17",
    "7e006461",
    "7e00670100042e0101d3120181220401010203250908696e7465726e657459aa",
    "7e00680100032e01011205585a",
    "7e0211223344057e0043",
    "2e0101c1ffff91a1",
    "2e0f00c10102550010",
    "2e0101c211000901000631310101ff01060603e80603e82905010a2d0002220101790006012041010109250908696e7465726e6574",
    "2e01fec2f80000060300010400025932290d030102030405060708" + "0a2d000256aa",
    "2e0101c31a",
    "2e0101c97a000402000140",
    "2e0102c9592455001013ffff7a0000",
    "2e0101ca54",
    "2e0100cb7a000402000140",
    "2e0100cb59242a060603e80603e87a00010056aa",
    "2e0101cc",
    "2e0101cd53",
    "2e0101d15924",
    "2e0101d22b",
    "2e0101d324",
    "2e0101d45924",
    "2effffd66f",
]
# Elements known to some messages and unknown to others, whole, doubled and cut.
ELEMENTS = [
    "2e02a020", "50022000", "50030400ff", "77000bf200f11002004000000001", "770007f4004000000001", "54070000f110000001", "150401010202",
    "1500", "5e0106", "5e020601", "d3", "81", "a1", "1205", "585a", "36010f", "7100027e00", "22010a", "2203010203", "25020161", "2502ff61",
    "21" + "00" * 16, "2010" + "11" * 16, "2d10" + "22" * 16, "300e" + "33" * 14, "7b000100", "3f02aabb", "01ff", "7affff", "50",
    "9a", "a9", "5924", "29050a0b0c0d0e", "2905010a2d0002", "2909020102030405060708", "2a060100ff04ffff", "2a0101", "790000", "7900020102", "7a0000",
    "7a000402000140", "550010", "13ffff", "56aa", "59",
]


def given(rng):
    """Octets: a message with elements behind it, then changed a little; or any."""
    if rng.random() < 0.05:
        return rng.randbytes(rng.randint(0, 30))
    octets = bytes.fromhex(rng.choice(MESSAGES))
    for _ in range(rng.choice([0, 0, 0, 1, 2, 3])):
        octets += bytes.fromhex(rng.choice(ELEMENTS))
    return mutated(rng, octets) if rng.random() < 0.7 else octets


def mm(codec, octets):
    """The octets that the model writes the 5GMM message as."""
    return text(codec.encode_mm(codec.decode_mm(octets)))


def sm(codec, octets):
    """The octets that the model writes the 5GSM message as."""
    return text(codec.encode_sm(*codec.decode_sm(octets)))


def decoded(read, codec, octets):
    """What is read and written again, or why there is no message."""
    try:
        return read(codec, octets)
    except codec.Ignored as refusal:
        return f"ignored {refusal.at}"
    except codec.UnknownType as refusal:
        return f"unknown {refusal.n}"
    except codec.Mandatory as refusal:
        return f"mandatory {refusal.part} {refusal.at}"


def shown(codec, octets):
    """The model's text with a stroke for each line's end, or the place of the fault."""
    try:
        return "".join(line + "|" for line in codec.show(octets))
    except codec.ShowRefusal as refusal:
        return f"octets {refusal.place}"


def case(rng, codec):
    octets = given(rng)
    if rng.random() < 0.5:
        return f"show {text(octets)}", shown(codec, octets)
    read = sm if (octets[:1] == b"\x2e") != (rng.random() < 0.05) else mm
    return f"{read.__name__} {text(octets)}", decoded(read, codec, octets)


def cases(rng, codec, lines):
    return [case(rng, codec) for _ in range(lines)]


if __name__ == "__main__":
    sys.exit(against_model("messages", cases))
