"""Hands lines to a program that answers each, such as nas_probe, and compares each answer with the one that is wanted."""

import os
import random
import subprocess
import sys


def text(octets):
    """The octets as these programs read and write them."""
    return octets.hex() or "-"


def answered(answer):
    """An answer as these programs write it: octets as text, words as they are."""
    return answer if isinstance(answer, str) else text(answer)


def compare(name, probe, cases, yardstick, seed):
    """Cases are pairs of a line and the octets or words that are wanted. Prints what came of them, and answers the exit status."""
    run = subprocess.run([probe], input="".join(line + "\n" for line, _ in cases), capture_output=True, text=True)
    answers = run.stdout.splitlines()
    if run.returncode != 0 or len(answers) != len(cases):
        print(f"{name}: {probe} ended with status {run.returncode} and {len(answers)} answers for {len(cases)} lines: {run.stderr}")
        return 1
    for (line, wanted), answer in zip(cases, answers):
        if answer != answered(wanted):
            print(f"{name}: {line[:400]}\n  wanted {answered(wanted)}\n  got    {answer}")
            return 1
    print(f"{name}: {len(cases)} lines agree with {yardstick} (seed {seed})")
    return 0


def against_model(name, cases):
    """Compares with the codec of a model by the words MODEL PROBE [LINES [SEED]]; `cases(rng, codec, lines)` are so many cases."""
    model, probe = sys.argv[1:3]
    lines = int(sys.argv[3]) if len(sys.argv) > 3 else 4000
    seed = int(sys.argv[4]) if len(sys.argv) > 4 else 1
    sys.path.insert(0, os.path.dirname(os.path.abspath(model)))
    import nas_codec as codec

    return compare(name, probe, cases(random.Random(seed), codec, lines), "the model", seed)
