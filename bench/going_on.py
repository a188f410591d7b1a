#!/usr/bin/env python3
"""Cuts runs short, and goes on with `rebase` until they end: going_on.py PROGRAM FILE .. [--cuts C] [--seconds]

Each file is solved once in one go. Then it is solved in pieces: a first search, and `rebase` of its certificate onto itself, until
the result is an optimum or none. Each piece has a budget of nodes that is drawn anew, of which C and somewhat more make as many
nodes as one go; or with `--seconds` so many seconds of the clock, 1 at least, and those beside that it reads for, about 2.2 times
those of `check`. Each certificate is judged by `check`, no lower bound may fall, no best cost may rise, and the end must be the
same. Ends with 1 where one is not so.
"""
import argparse
import math
import os
import random
import subprocess
import sys
import tempfile
import time


def run(*words):
    ran = subprocess.run(words, stdout=subprocess.PIPE, text=True)
    return ran.returncode, dict(line.split(maxsplit=1) for line in ran.stdout.splitlines() if " " in line)


def in_pieces(program, file, limit, wanted):
    """Whether the pieces end well, how many they were, and their nodes."""
    with tempfile.TemporaryDirectory() as room:
        certificate = f"{room}/c"
        status, said = run(program, "solve", file, certificate, *limit(0))
        pieces, spent, lower, upper = 1, int(said["nodes"]), -1, None
        while True:
            began = time.monotonic()
            judged, verdict = run(program, "check", file, certificate)
            reading = 2.2 * (time.monotonic() - began)
            falls = int(said["lower"]) < lower or (upper is not None and (said["upper"] == "none" or int(said["upper"]) > upper))
            tells = verdict.get("verified") == f"lower {said['lower']} best {said['upper']}"
            if judged or falls or not tells:
                return False, pieces, spent
            lower, upper = int(said["lower"]), None if said["upper"] == "none" else int(said["upper"])
            if status in (0, 1):
                return (lower, said["upper"]) == wanted, pieces, spent
            status, said = run(program, "rebase", file, certificate, certificate, *limit(reading))
            pieces, spent = pieces + 1, spent + int(said["nodes"])


def words():
    asked = argparse.ArgumentParser(description=__doc__.splitlines()[0])
    asked.add_argument("program")
    asked.add_argument("files", nargs="+", metavar="FILE")
    asked.add_argument("--cuts", type=int, default=10, help="about how often a run is cut (10)")
    asked.add_argument("--seconds", action="store_true", help="cut by seconds of the clock, and not by nodes")
    return asked.parse_args()


def main():
    given = words()
    dice, failed = random.Random(11), 0
    for file in given.files:
        with tempfile.TemporaryDirectory() as room:
            began = time.monotonic()
            _, said = run(given.program, "solve", file, f"{room}/c")
            seconds = time.monotonic() - began
        nodes, wanted = int(said["nodes"]), (int(said["lower"]), said["upper"])

        def limit(reading):
            share = (dice.random() + 0.5) / (given.cuts + 1)
            if given.seconds:
                return "--seconds", str(math.ceil(reading + max(seconds * share, 0.5)))
            return "--budget", str(max(round(nodes * share), 1))

        well, pieces, spent = in_pieces(given.program, file, limit, wanted)
        failed += not well
        print(f"{os.path.basename(file)}: {nodes} nodes in {seconds:.1f} s in one go, {spent} in {pieces} pieces, {'well' if well else 'NOT WELL'}", flush=True)
    return 1 if failed else 0


if __name__ == "__main__":
    sys.exit(main())
