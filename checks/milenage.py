"""Compares nas_probe's calls of milenage with osmo-auc-gen. See milenage.sh.

usage: milenage.py PROBE [CHALLENGES [SEED]]
"""
import random
import subprocess
import sys


def probed(probe, lines):
    """The answers of the program to these lines."""
    run = subprocess.run([probe], input="".join(line + "\n" for line in lines), capture_output=True, text=True, check=True)
    answers = run.stdout.splitlines()
    assert len(answers) == len(lines), run.stderr
    return answers


def generated(*words):
    """What osmo-auc-gen prints, by name."""
    run = subprocess.run(["osmo-auc-gen", "-3", "-a", "MILENAGE", *words], capture_output=True, text=True, check=True)
    return dict(line.split(":\t", 1) for line in run.stdout.splitlines() if ":\t" in line)


def challenge(rng):
    """K, OP, RAND, the AMF field, which is one for 5G, and the sequence number, now and then at an end of its range."""
    k, op, rand = (rng.randbytes(16).hex() for _ in range(3))
    field = f"{0x8000 | rng.randrange(0x8000):04x}"
    return k, op, rand, field, rng.choice([rng.randrange(1, 2**48), rng.randrange(1, 300), 2**48 - 1])


def differences(probe, case):
    """What differs for one challenge: the values, what they should be, and what they are."""
    k, op, rand, field, number = case
    [opc] = probed(probe, [f"opc_of {k} {op}"])
    [vector] = probed(probe, [f"make_vector {k} {opc} {rand} {number} {field}"])
    autn, res, ck, ik, ak = vector.split(" ")
    checks = [f"check_autn {k} {opc} {rand} {autn} {sqn_ms}" for sqn_ms in (number - 1, number)]
    fresh, stale = probed(probe, checks)
    auts = stale.removeprefix("synch_failure ")
    made = generated("-k", k, "-O", op, "-r", rand, "-f", field, "-s", str(number))
    again = generated("-k", k, "-o", opc, "-r", rand, "-f", field, "-s", str(number))
    opened = generated("-k", k, "-o", opc, "-r", rand, "-f", field, "-A", auts, "-l", "0")
    pairs = [
        ("AUTN, RES, CK, IK", [made[name] for name in ("AUTN", "RES", "CK", "IK")], [autn, res, ck, ik]),
        ("AUTN under OPc", made["AUTN"], again["AUTN"]),
        ("the answer to a fresh challenge", f"accepted {number} {res} {ck} {ik} {ak}", fresh),
        ("the sequence number in AUTS", str(number), opened.get("SQN.MS")),
    ]
    return [pair for pair in pairs if pair[1] != pair[2]]


def main():
    probe = sys.argv[1]
    challenges = int(sys.argv[2]) if len(sys.argv) > 2 else 40
    seed = int(sys.argv[3]) if len(sys.argv) > 3 else 1
    rng = random.Random(seed)
    for _ in range(challenges):
        case = challenge(rng)
        for what, wanted, got in differences(probe, case):
            print(f"milenage: {what} of {case}\n  wanted {wanted}\n  got    {got}")
            return 1
    print(f"milenage: {challenges} challenges agree with osmo-auc-gen (seed {seed})")
    return 0


if __name__ == "__main__":
    sys.exit(main())
