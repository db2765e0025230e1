"""Tries the commands that the documents show: guide.py PROGRAM FILE ..

An indented line `$ ./nas WORDS` is run, and the lines behind it must be the program's, in order; `...` stands for any number of
lines, also for none.
"""
import subprocess
import sys

PROMPT = "$ ./nas "


def shown(path):
    """The commands of a document, each with the lines that it shows."""
    out = []
    with open(path, encoding="utf-8") as f:
        for line in f.read().splitlines():
            indented = line.startswith("    ")
            if indented and line[4:].startswith(PROMPT):
                out.append((line[4 + len(PROMPT):], []))
            elif indented and line[4:].startswith("$ "):
                out.append(("", []))
            elif indented and out:
                out[-1][1].append(line[4:])
            elif line and out:
                out.append(("", []))
    return [(words, lines) for words, lines in out if words and lines]


def fits(wanted, told):
    """Whether the lines told are those that are wanted."""
    if not wanted:
        return not told
    if wanted[0] == "...":
        return any(fits(wanted[1:], told[i:]) for i in range(len(told) + 1))
    return bool(told) and told[0] == wanted[0] and fits(wanted[1:], told[1:])


def main():
    program, count = sys.argv[1], 0
    for path in sys.argv[2:]:
        for words, lines in shown(path):
            told = subprocess.run([program, *words.split()], capture_output=True, text=True).stdout.splitlines()
            if not fits(lines, told):
                print("%s: ./nas %s says something else" % (path, words))
                return 1
            count += 1
    print("%d commands of the documents say what is shown" % count)
    return 0


if __name__ == "__main__":
    sys.exit(main())
