#!/usr/bin/env python3
"""parts.py PROGRAM [--networks N] [--seed S]: whether `part` is said exactly where each open leaf was left to others.

Draws networks, makes a certificate of each by a run that its budget cuts, lowers the upper bound in FILE, and runs each of two to
four parts with a limit. Which leaves were left to others is read off the first certificate and which are open off the part's, both by
their paths. Prints how many parts ended with which word, and ends with status 1 at the first word that is not the leaves'.
"""
import argparse
import collections
import itertools
import pathlib
import random
import subprocess
import sys
import tempfile


def network(rng):
    """A network's variables and functions as lines of a wcsp file."""
    variables = rng.randint(6, 12)
    sizes = [rng.randint(2, 4) for _ in range(variables)]
    pairs = [pair for pair in itertools.combinations(range(variables), 2) if rng.random() < 0.5]
    lines = [" ".join(map(str, sizes))]
    for x in range(variables):
        lines += [f"1 {x} 0 {sizes[x]}"] + [f"{a} {rng.randint(0, 4)}" for a in range(sizes[x])]
    for x, y in pairs:
        lines.append(f"2 {x} {y} 0 {sizes[x] * sizes[y]}")
        lines += [f"{a} {b} {rng.randint(0, 9)}" for a in range(sizes[x]) for b in range(sizes[y])]
    return variables, max(sizes), variables + len(pairs), lines


def write(path, drawn, upper):
    variables, most, functions, lines = drawn
    path.write_text("\n".join([f"drawn {variables} {most} {functions} {upper}"] + lines) + "\n")


def leaves(text):
    """The paths of the leaves of a certificate's tree, each with whether it is open, in the order of the text."""
    lines = text.splitlines()
    at = lines.index("tree") + 1
    found = []
    ahead = [()]
    while ahead:
        path = ahead.pop()
        while True:
            line = lines[at]
            at += 1
            word = line.split()[0]
            if word in ("open", "closed"):
                found.append((path, word == "open"))
                break
            if word in ("split", "part"):
                ahead += [path + ("not " + line,), path + (line,)]
                break
            path += (line,)
    assert lines[at] == "end"
    return found


def run(words):
    done = subprocess.run([str(word) for word in words], capture_output=True, text=True, check=False)
    said = dict(line.split(" ", 1) for line in done.stdout.splitlines() if " " in line)
    return said, done.stdout


def wanted(own, others, nodes, limit):
    """The words that may be said where so many leaves are open, with ample memory."""
    if own + others == 0:
        return ("optimum", "none")
    if own == 0:
        return ("part",)
    if limit[0] == "--budget":
        return ("budget",) if nodes == limit[1] else ()
    return ("time",)


def main():
    words = argparse.ArgumentParser()
    words.add_argument("program")
    words.add_argument("--networks", type=int, default=40)
    words.add_argument("--seed", type=int, default=1)
    asked = words.parse_args()
    rng = random.Random(asked.seed)
    counts = collections.Counter()
    fewer = 0
    folder = pathlib.Path(tempfile.mkdtemp())
    file, old, new = folder / "file.wcsp", folder / "old.cert", folder / "new.cert"
    for _ in range(asked.networks):
        drawn = network(rng)
        write(file, drawn, 100000)
        least = int(run([asked.program, "solve", file, new])[0]["upper"])
        write(file, drawn, least + rng.randint(5, 60))
        run([asked.program, "solve", file, old, "--budget", rng.randint(3, 40)])
        before = [path for path, is_open in leaves(old.read_text()) if is_open]
        write(file, drawn, least + rng.randint(0, 4))
        parts = rng.randint(2, 4)
        for part in range(1, parts + 1):
            aside = {path for number, path in enumerate(before) if number % parts != part - 1}
            limit = rng.choice([("--seconds", 0), ("--budget", 0), ("--budget", rng.randint(1, 30))])
            said, text = run([asked.program, "rebase", file, old, new, "--part", part, "--parts", parts, *limit])
            after = leaves(new.read_text())
            assert aside <= {path for path, _ in after}
            still = [path for path, is_open in after if is_open]
            others = sum(path in aside for path in still)
            own = len(still) - others
            counts[said["result"]] += 1
            fewer += 0 < own and len(still) <= len(aside)
            if said["result"] not in wanted(own, others, int(said["nodes"]), limit):
                print(f"own {own}, others' {others} of {len(aside)}, {limit}\n{text}")
                return 1
    print(f"{sum(counts.values())} parts: {dict(counts)}; own leaves open though no more are open than were left to others: {fewer}")
    return 0


sys.exit(main())
