"""Compares the program with an executable model: model.py MODEL PROGRAM COUNT SEED.

Each case is a configuration and a script made at random. In one half the configuration may be wrong at any key and the script at any
line; in the other both are right, and the script goes through the procedures of a handset that the network knows: messages are
delivered, lost, repeated and changed, moments pass, connections are lost, and octets are forged with the keys of the run itself.
"""
import importlib.util
import os
import random
import subprocess
import sys
import tempfile

NO_KEY = None
WORDS = ("1", "true", '""', "1979-05-27", "[]", "{}", "-1", "0")


def digits(r, count):
    return "".join(r.choice("0123456789") for _ in range(count))


def hexes(r, octets):
    return "".join(r.choice("0123456789abcdefABCDEF") for _ in range(2 * octets))


def text(value):
    return '"%s"' % value


def texts(values):
    return "[%s]" % ", ".join(text(v) for v in values)


class Wrongs:
    """How often a key is wrong: never, or now and then."""

    def __init__(self, r, rate):
        self.r, self.rate = r, rate

    def of(self, value, kinds=()):
        """The value as TOML, or something wrong in its place."""
        if self.r.random() >= self.rate:
            return value
        return self.r.choice(list(kinds) + [NO_KEY, *WORDS, "[%s]" % value])

    def now(self):
        return self.r.random() < self.rate


def table(name, pairs, many=True):
    head = "[[%s]]" % name if many else "[%s]" % name
    return "\n".join([head] + ["%s = %s" % (k, v) for k, v in pairs if v is not NO_KEY]) + "\n"


def hex_key(r, w, octets):
    value = hexes(r, octets)
    return w.of(text(value), [text(value[:-1]), text(value + "0"), text(value + "00"), text("z" + value[1:])])


def network(r, w, plmn):
    pool = r.choice(("10.45.0.2", "0.0.0.0", "255.255.255.250", digits(r, 1) + ".1.2.%d" % r.randint(0, 255)))
    size = r.choice((1, 5, 250, 65536)) if not pool.startswith("255") else r.choice((1, 5, 6))
    sizes = ["65537", "7" if pool.startswith("255") else "70000", '"1"', "1.0"]
    pairs = [
        ("plmn", w.of(text(plmn), [text(plmn[:4]), text(plmn + "11"), text(plmn[:-1] + "x")])),
        ("amf", hex_key(r, w, 3)),
        ("tmsi", w.of(str(r.choice((1, 7, 4294967295, 4294967294))), ["4294967296", '"1"'])),
        ("ciphering", w.of(str(r.choice((0, 2, 2))), ["3", "2.0"])),
        ("tac", hex_key(r, w, 3)),
        ("t3512", hex_key(r, w, 1)),
        ("pool", w.of(text(pool), [text("1.2.3"), text("01.2.3.4"), text("256.1.1.1"), text("1.2.3.4.5"), text("1..2.3")])),
        ("pool_size", w.of(str(size), sizes)),
        ("ambr", hex_key(r, w, 6)),
    ]
    return table("network", pairs, many=False)


TIMERS = ("t3510", "t3516", "t3517", "t3521", "t3522", "t3550", "t3560", "t3580", "t3581", "t3582", "t3591", "t3592")


def timers(r, w):
    pairs = [(k, w.of(str(r.choice((1, 1000, 6000, 86400000))), ["86400001", '"6000"'])) for k in TIMERS if r.random() < 0.3]
    return table("timers", pairs, many=False)


def dnn(r):
    return r.choice(("internet", "ims", "a.b", "x-1.y", "A" * 63, "a" * 63 + ".b" * 17))


WRONG_DNNS = ("", ".a", "a..b", "a.", "A" * 64, "a b", "a" * 63 + "." + "b" * 40, "a_b", "\u00e9")


def dnns(r, w):
    right = texts(dnn(r) for _ in range(r.randint(1, 8) if r.random() < 0.2 else 1))
    return w.of(right, [texts([r.choice(WRONG_DNNS)]), texts(["a"] * 9), '[1]', '"internet"'])


def slices(r, w):
    right = texts(hexes(r, r.choice((1, 4))) for _ in range(r.randint(1, 8) if r.random() < 0.2 else 1))
    return w.of(right, [texts(["0102"]), texts(["01"] * 9), texts(["0"]), texts(["zz"]), '["01", 1]'])


class Keys:
    """What the card and the network share."""

    def __init__(self, r):
        self.k, self.opc, self.sqn = hexes(r, 16), hexes(r, 16), r.choice(("ff9bb4d0b606",) * 6 + ("000000000000", "fffffffffffd", "ffffffffffff", hexes(r, 6)))


def subscriber(r, w, plmn, supi, keys):
    field = "%02x" % r.choice((0x80, 0xB9, 0xFF)) + hexes(r, 1)
    pairs = [
        ("supi", w.of(text(supi), [text(supi[:-1]), text(supi + "0"), text("9" + supi[1:])])),
        ("k", w.of(text(keys.k), [text(keys.k[2:])])),
        ("opc", w.of(text(keys.opc), [text(keys.opc + "00")])),
        ("field", w.of(text(field), [text("7fff"), text("00b9")])),
        ("sqn", w.of(text(keys.sqn), [text(keys.sqn[1:])])),
        ("dnns", dnns(r, w)),
        ("slices", slices(r, w)),
    ]
    return table("subscriber", pairs)


def handset(r, w, supi, keys, capability):
    sqn = keys.sqn if r.random() < 0.85 else hexes(r, 6)
    pairs = [
        ("supi", w.of(text(supi), [text(supi[:-1]), text(supi + "0"), text("9" + supi[1:])])),
        ("k", w.of(text(keys.k), [text(keys.k[2:])])),
        ("opc", w.of(text(keys.opc), [text("")])),
        ("sqn", w.of(text(sqn), [text(sqn + "00")])),
        ("capability", w.of(text(capability), [text(capability[:3]), text(capability + "00" * 8), text("zz00"), text("a0")])),
    ]
    return table("handset", pairs)


def configuration(r, rate):
    """A configuration, wrong at each key with this rate."""
    w = Wrongs(r, rate)
    plmn = digits(r, r.choice((5, 6)))
    own = plmn + digits(r, 15 - len(plmn))
    keys = Keys(r)
    count = r.choice((1, 1, 2, 3, 64)) if not w.now() else r.choice((0, 65))
    known = [own] if r.random() < 0.9 else []
    while len(known) < count:
        supi = plmn + digits(r, 15 - len(plmn))
        if supi not in known and supi != own:
            known.append(supi)
    known = known[:count]
    r.shuffle(known)
    if known and w.now():
        known.append(r.choice(known))
    capability = "a020" if r.random() < 0.7 else r.choice(("2020", "8020", "a0a0", "f0f0f0f0", "8080", "0020", hexes(r, r.randint(2, 8))))
    out = []
    if not w.now():
        out.append(network(r, w, plmn))
    if r.random() < 0.3:
        out.append(timers(r, w))
    out += [subscriber(r, w if count < 4 else Wrongs(r, 0), plmn, s, keys if s == own else Keys(r)) for s in known]
    # a model may run more than one handset, 16 at most, which the program doesn't yet; neither runs 17
    out += [handset(r, w, own, keys, capability) for _ in range(1 if not w.now() else r.choice((0, 17)))]
    if r.random() < 0.1:
        r.shuffle(out)
    if rate and r.random() < 0.02:
        out.append(r.choice(("= 1\n", "a = 9223372036854775808\n", "[network]\n", "x = \"\n")))
    octets = "\n".join(out).encode()
    return octets + b'c = "\xff"\n' if rate and r.random() < 0.02 else octets


COMMANDS = ("register", "register mobility", "register periodic", "service", "deregister", "switch-off")
ORDERS = ("net-authenticate", "net-deregister")
LOSSES = ("drop-ue", "drop-net", "restart")
NO_LINES = ["registr", "register ", " register", "register initial", "to-net", "to-net 0", "to-net 01", "to-net  1", "to-ue -1", "to-ue 1x",
            "to-ue 4294967296", "to-net 1 2", "Register", "register\t", "register\r", "to-ue 1 ", "#\u00e9", "to-nets 1", "inject-net",
            "inject-net fresh", "inject-net fresh  00", "inject-net Fresh 00", "inject-ue 0", "inject-ue zz", "inject-ue -0", "random -",
            "random 00", "random " + "0" * 34, "ue-at 1000000000000001", "ue-at 01", "net-at -", "net-at", "drop", "drop-ue 1",
            "inject-ue " + "00" * 4098, "service 1", "net-authenticate 1", "switch off"]


def loose_line(r):
    """A line of any kind, with no regard to what was sent."""
    return r.choice((
        lambda: r.choice(COMMANDS + ORDERS + LOSSES),
        lambda: "to-net %d" % r.randint(1, 6),
        lambda: "to-ue %d" % r.randint(1, 6),
        lambda: "%s %d" % (r.choice(("ue-at", "net-at")), r.choice((0, 1, 5000, 10**15))),
        lambda: "random " + hexes(r, 16),
        lambda: "%s %s" % (r.choice(("inject-net", "inject-net fresh", "inject-ue")), r.choice(("-", hexes(r, r.randint(1, 9)), "7e" + hexes(r, 2)))),
        lambda: r.choice(("", "#", "# a comment", "#to-net 0")),
    ))()


def loose_script(r):
    lines = [loose_line(r) for _ in range(r.randint(0, 30))]
    if r.random() < 0.4:
        lines.insert(r.randint(0, len(lines)), r.choice(NO_LINES))
    return ("\n".join(lines) + r.choice(("", "\n"))).encode()


class Walk:
    """A script that goes on from where the model's world stands."""

    def __init__(self, r, model, config):
        self.r, self.model = r, model
        self.world = model.world.World(config)
        self.brought = {"to-net": 0, "to-ue": 0}
        self.moments = {"ue-at": 0, "net-at": 0}

    def step(self, world, line):
        world.step(self.model.script.read_line(line))

    def log(self, way):
        return self.world.up if way == "to-net" else self.world.down

    def next_message(self):
        """The first message that wasn't delivered yet, or None."""
        for way in self.r.sample(("to-net", "to-ue"), 2):
            if self.brought[way] < len(self.log(way)):
                self.brought[way] += 1
                return "%s %d" % (way, self.brought[way])
        return None

    def any_message(self):
        way = self.r.choice(("to-net", "to-ue"))
        return "%s %d" % (way, max(1, len(self.log(way)) - self.r.randint(0, 5)))

    def moment(self):
        end = self.r.choice(("ue-at", "net-at"))
        self.moments[end] += self.r.choice((0, 1, 1000, 5999, 6000, 15000, 30000))
        return "%s %d" % (end, self.moments[end])

    def forged(self):
        """A message that an end would have sent had it been told something else."""
        other = self.world.copy()
        up = self.r.random() < 0.5
        before = len(other.up), len(other.down)
        line = self.r.choice(COMMANDS) if up else self.r.choice(ORDERS + ("net-at %d" % (self.moments["net-at"] + 6000),))
        self.step(other, line)
        new = other.up[before[0]:] if up else other.down[before[1]:]
        if not new:
            return None
        octets = bytearray(new[0].octets)
        if self.r.random() < 0.3 and len(octets) > 1:
            octets[self.r.choice((1, self.r.randrange(len(octets))))] ^= self.r.choice((1, 0x10))
        return "%s %s" % (("inject-net" + self.r.choice(("", " fresh"))) if up else "inject-ue", octets.hex())

    def changed(self):
        """A message that was sent, changed or cut."""
        way = self.r.choice(("to-net", "to-ue"))
        if not self.log(way):
            return None
        octets = bytearray(self.r.choice(self.log(way)[-6:]).octets)
        if self.r.random() < 0.5 and octets:
            octets[self.r.randrange(len(octets))] ^= 1 << self.r.randrange(8)
        else:
            octets = octets[:self.r.randint(0, len(octets))]
        word = "inject-ue" if way == "to-ue" else "inject-net" + self.r.choice(("", " fresh"))
        return "%s %s" % (word, octets.hex() or "-")

    def line(self):
        d = self.r.random()
        made = None
        if d < 0.66:
            made = self.next_message()
        elif d < 0.71:
            made = self.any_message()
        elif d < 0.80:
            made = self.r.choice(COMMANDS)
        elif d < 0.84:
            made = self.r.choice(ORDERS)
        elif d < 0.89:
            made = self.moment()
        elif d < 0.91:
            made = self.r.choice(LOSSES)
        elif d < 0.92:
            made = "random " + hexes(self.r, 16)
        elif d < 0.95:
            made = self.forged()
        elif d < 0.98:
            made = self.changed()
        else:
            made = "%s %s" % (self.r.choice(("inject-net", "inject-net fresh", "inject-ue")), self.r.choice(("-", "7e0041", "7e007f", hexes(self.r, 6))))
        return made or self.r.choice(("register", "register mobility"))

    def script(self):
        lines = []
        for _ in range(self.r.randint(10, 80)):
            lines.append(self.line())
            self.step(self.world, lines[-1])
        return "\n".join(lines).encode()


class Files:
    """The two files, as the model reads them."""

    def __init__(self, contents):
        self.contents = contents

    def read(self, name, limit):
        return self.contents[name]


def load(path):
    spec = importlib.util.spec_from_file_location("nas_model", path)
    model = importlib.util.module_from_spec(spec)
    spec.loader.exec_module(model)
    import nas_script
    import nas_world
    model.script, model.world = nas_script, nas_world
    return model


def case_of(r, model):
    if r.random() < 0.5:
        return [configuration(r, 0.02), loose_script(r)]
    config = configuration(r, 0)
    return [config, Walk(r, model, model.script.read_config(config)).script()]


def main():
    model_path, program, count, seed = sys.argv[1], sys.argv[2], int(sys.argv[3]), int(sys.argv[4])
    model = load(model_path)
    r = random.Random(seed)
    statuses, verdicts = {}, {}
    with tempfile.TemporaryDirectory() as folder:
        names = [os.path.join(folder, "config"), os.path.join(folder, "script")]
        for case in range(count):
            contents = case_of(r, model)
            for name, octets in zip(names, contents):
                with open(name, "wb") as f:
                    f.write(octets)
            written = []
            status = model.nas(["run"] + names, Files(dict(zip(names, contents))), written.append)
            told = "".join(written).encode()
            run = subprocess.run([program, "run"] + names, capture_output=True)
            if run.returncode != status or run.stdout != told:
                print("case %d of seed %d differs: status %d, the model's is %d" % (case, seed, run.returncode, status))
                for octets in contents:
                    sys.stdout.buffer.write(octets + b"\n--\n")
                sys.stdout.buffer.write(run.stdout + b"-- the model:\n" + told)
                return 1
            statuses[status] = statuses.get(status, 0) + 1
            if status == 0:
                end = told.decode().splitlines()[-1].split(" events ")[1]
                verdicts[end] = verdicts.get(end, 0) + 1
    print("%d cases agree with the model; statuses %s; verdicts %s" % (count, dict(sorted(statuses.items())), dict(sorted(verdicts.items()))))
    return 0


if __name__ == "__main__":
    sys.exit(main())
