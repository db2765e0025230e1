"""Compares nas_probe's calls of nas_elements with an executable model. See elements.sh.

usage: elements.py MODEL PROBE [LINES [SEED]]
"""
import sys

from probe import against_model, text


class OfType:
    """The model's reader of identities, for those with this type in bits 1 to 3 of the first octet alone."""

    def __init__(self, codec, kind):
        self.codec, self.kind = codec, kind

    def read(self, octets):
        if not octets or octets[0] & 7 != self.kind:
            raise self.codec.Wrong(0)
        return self.codec.Identity.read(octets)

    def write(self, value):
        return self.codec.Identity.write(value)


def readers(codec):
    """The calls, each with the model's reader, and octets of values to start from."""
    gutis = ["f200f11002004000000001", "f221436520ff123456789a"]
    stmsis = ["f4004000000001"]
    sucis = ["0100f110f0ff00000000000010", "0121436521f30000f7", "0100f1102143010012", "0100f11021ff000021"]
    others = ["0911", "0382", "05", "0700ff", "1102"]
    return {
        "read_address": (codec.AddressC, ["010a2d0002", "020102030405060708", "0301020304050607080a2d0002"]),
        "read_algs": (codec.AlgsC, ["02", "21"]),
        "read_ambr": (codec.AmbrC, ["0603e80603e8", "0100ff04ffff"]),
        "read_asi": (codec.U8, ["00", "02"]),
        "read_capability": (codec.Octs(2, 8), ["a020", "f0f0f0f0", "a020000000000000"]),
        "read_dnn": (codec.DnnC, ["08696e7465726e6574", "0161", "3f" + "61" * 63 + "23" + "62" * 35]),
        "read_guti": (OfType(codec, 2), gutis),
        "read_identity": (codec.Identity, gutis + stmsis + sucis * 3 + others),
        "read_nssai": (codec.NssaiC, ["0101", "0401010203", "0201020501020304050801020304050607ff", "0101" * 8]),
        "read_slice": (codec.SliceC, ["01", "01010203", "0102", "0101020304", "0101020301010203"]),
        "read_status": (codec.StatusC, ["2000", "feff", "02800000"]),
        "read_stmsi": (OfType(codec, 4), stmsis),
        "read_tai_list": (codec.Octs(7, 112), ["0000f110000001", "00" + "f110000001" * 16]),
        "read_timer3": (codec.U8, ["06", "e0"]),
    }


def mutated(rng, octets):
    """The octets with a few changes: an octet replaced, dropped or added, a bit turned, or the end cut or made longer."""
    octets = bytearray(octets)
    for _ in range(rng.choice([0, 1, 1, 2, 3])):
        at = rng.randint(0, len(octets))
        change = rng.randrange(5)
        if change == 0:
            octets[at:] = b""
        elif change == 1:
            octets.insert(at, rng.randrange(256))
        elif change == 2:
            octets += rng.randbytes(rng.choice([1, 1, 2, 5, 40]))
        elif at < len(octets):
            octets[at] = rng.randrange(256) if change == 3 else octets[at] ^ 1 << rng.randrange(8)
    return bytes(octets)


def given(rng, values):
    """Octets for a reader: those of a value, changed a little, or any."""
    if rng.random() < 0.7:
        return mutated(rng, bytes.fromhex(rng.choice(values)))
    return rng.randbytes(rng.choice([0, 1, 2, 3, 6, 7, 8, 9, rng.randint(0, 120)]))


def answer(codec, reader, octets):
    """What the model reads the octets as, written again, or the place where they are wrong."""
    try:
        return text(reader.write(reader.read(octets)))
    except codec.Wrong as wrong:
        return f"wrong {wrong.at}"


def case(rng, codec, calls):
    call = rng.choice(sorted(calls))
    reader, values = calls[call]
    octets = given(rng, values)
    return f"{call} {text(octets)}", answer(codec, reader, octets)


def cases(rng, codec, lines):
    calls = readers(codec)
    return [case(rng, codec, calls) for _ in range(lines)]


if __name__ == "__main__":
    sys.exit(against_model("elements", cases))
