"""Compares nas_probe's calls of nas_qos with an executable model. See qos.sh.

usage: qos.py MODEL PROBE [LINES [SEED]]
"""
import sys

from elements import mutated
from probe import against_model, text

SIZES = {0x01: 0, 0x10: 8, 0x11: 8, 0x30: 1, 0x40: 2, 0x50: 2, 0x41: 4, 0x51: 4}


def parts(rng):
    """The components of a filter, mostly few."""
    octets = b""
    for _ in range(rng.choice([1, 1, 1, 2, 3])):
        kind = rng.choice(sorted(SIZES))
        octets += bytes([kind]) + rng.randbytes(SIZES[kind])
    return octets


def filters(rng, code, names):
    """Filters with these identifiers, as an operation with this code has them."""
    octets = b""
    for name in names:
        if code == 5:
            octets += bytes([name])
        else:
            inner = parts(rng)
            octets += bytes([rng.choice([0x10, 0x20, 0x30]) | name, len(inner)]) + inner
    return octets


def operation(rng, code=None, rule=None, default=None, number=None):
    """An operation on one of a few rules, well-formed, which goes with the rules or doesn't."""
    code = code or rng.choice([1, 1, 2, 3, 3, 4, 5, 5, 6])
    rule = rule or rng.choice([1, 1, 2, 2, 3, 4, 5, rng.randint(1, 255)])
    default = rng.random() < (0.5 if rule == 1 else 0.1) if default is None else default
    number = 0 if code in (2, 6) else number or rng.choice([1, 1, 1, 2, 3, rng.randint(1, 15)])
    names = rng.sample(range(rng.choice([max(number, 4), 16])), number)
    tail = bytes([rng.choice([rule, rule, rng.randrange(8), rng.randrange(256)]), rng.randrange(256)])
    if code != 1 and rng.random() < 0.5:
        tail = b""
    contents = bytes([code << 5 | default << 4 | number]) + filters(rng, code, names) + tail
    return bytes([rule]) + len(contents).to_bytes(2, "big") + contents


def operations(rng, most):
    return b"".join(operation(rng) for _ in range(rng.randint(0, most)))


def ops_case(rng, codec):
    octets = operations(rng, rng.choice([1, 2, 3, 10, 60]))
    if rng.random() < 0.7:
        octets = mutated(rng, octets)
    try:
        wanted = text(codec.write_ops(codec.read_ops(octets)))
    except codec.Syntax as wrong:
        wanted = f"syntax {wrong.at}"
    return f"ops {text(octets)}", wanted


def shown(rules):
    """Rules as nas_probe shows them."""
    words = []
    for rule in rules:
        words.append("r" + bytes([rule.id, rule.default, rule.precedence, rule.qfi]).hex())
        for f in rule.filters:
            words.append((bytes([f.direction, f.id]) + b"".join(bytes([kind]) + value for kind, value in f.parts)).hex())
    return " ".join(words) or "none"


def creates(rng):
    """Creates of rules, each in a list of its own: mostly of a default one, then of as many rules or filters as a session has, or few."""
    if rng.random() < 0.05:
        return []
    rules, number = rng.choice([(1, None), (3, None), (rng.randint(14, 17), 1), (rng.randint(3, 5), 15)])
    return [operation(rng, 1, rule, rule == 1, number) for rule in range(1, rules + 1)]


def chain(rng, codec):
    """Lists of operations to be applied in turn, which go with the rules that are there then."""
    lists, there = [], ()
    for octets in creates(rng):
        lists, there = grown(codec, lists, there, octets)
    for _ in range(rng.choice([0, 1, 3, 12, 40])):
        lists, there = grown(codec, lists, there, operations(rng, rng.choice([1, 1, 2, 4])))
    return lists


def last(rng):
    """The last list of a chain: mostly one operation that may go, sometimes several, or octets that are changed a little."""
    if rng.random() < 0.3:
        return operation(rng, 1, rng.randint(1, 255), False, rng.choice([1, 2, 15]))
    octets = operations(rng, rng.choice([0, 1, 1, 2, 3, 8]))
    return mutated(rng, octets) if rng.random() < 0.1 else octets


def grown(codec, lists, there, octets):
    """The lists and rules with one list more where it goes with the rules."""
    try:
        return lists + [octets], codec.apply_ops(there, codec.read_ops(octets))
    except (codec.Semantic, codec.TooMany):
        return lists, there


def apply_case(rng, codec):
    lists = chain(rng, codec) + [last(rng)]
    rules = ()
    try:
        for octets in lists:
            rules = codec.apply_ops(rules, codec.read_ops(octets))
        wanted = shown(rules)
    except codec.Syntax as wrong:
        wanted = f"syntax {wrong.at}"
    except codec.Semantic as wrong:
        wanted = f"semantic {wrong.rule}"
    except codec.TooMany as wrong:
        wanted = f"many {wrong.count}"
    return "apply " + " ".join(text(octets) for octets in lists), wanted


def case(rng, codec):
    return ops_case(rng, codec) if rng.random() < 0.5 else apply_case(rng, codec)


def cases(rng, codec, lines):
    return [case(rng, codec) for _ in range(lines)]


if __name__ == "__main__":
    sys.exit(against_model("qos", cases))
