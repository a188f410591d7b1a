#!/usr/bin/env python3
"""Records searches and runs the records again: records.py [--runs R] [--mutated M] [--wcspsolve PROGRAM]

Five instances are drawn. Each is searched R times by 2, 4 and 8 workers and recorded, and each record is replayed: the bytes of the
replay's certificate must be those of the run's. Then M records are mutated, a byte, a number, a line or several of them at a time:
each must be refused, or give a certificate that `check` verifies with the network's bounds. At last it prints, in processor seconds,
the least of some runs: a search by one worker, the same one recorded, the replay of its record, and `check` of its certificate.
Ends with 1 where one is not so.
"""

import argparse
import filecmp
import os
import random
import resource
import subprocess
import sys
import tempfile

import networks
from kinds import KINDS, instance

BENCH = os.path.dirname(os.path.abspath(__file__))
TOP = os.path.dirname(BENCH)
SMALL = ("colouring", "frequency", "max2sat", "latin", "rosters")
COSTS = (("colouring", "medium"), ("frequency", "medium"), ("maxcsp-dense-loose", "medium"), ("max2sat", "medium"), ("rosters", "medium"))


def drawn(name, size, folder):
    """The file of an instance."""
    path = os.path.join(folder, f"{name}-{size}.wcsp")
    with open(path, "w", encoding="ascii") as file:
        networks.write(instance(KINDS[name], size, 1).network(f"{name}-{size}"), file)
    return path


def run(*words):
    """The status of a run, what it said, and its processor seconds."""
    before = resource.getrusage(resource.RUSAGE_CHILDREN)
    done = subprocess.run(words, stdout=subprocess.PIPE, check=False)
    after = resource.getrusage(resource.RUSAGE_CHILDREN)
    return done.returncode, done.stdout.decode(), after.ru_utime + after.ru_stime - before.ru_utime - before.ru_stime


def come_again(program, file, runs, folder):
    """Whether each record of several workers gives its run's certificate again."""
    certificate, record, again = (os.path.join(folder, name) for name in ("certificate", "record", "again"))
    well = True
    for workers in ("2", "4", "8"):
        equal = 0
        for _ in range(runs):
            status, _, _ = run(program, "solve", file, certificate, "--workers", workers, "--record", record)
            replayed, said, _ = run(program, "replay", file, record, again)
            equal += (status, replayed, said) == (0, 0, "replayed\n") and filecmp.cmp(certificate, again, shallow=False)
        print(f"{os.path.basename(file)}, {workers} workers: {equal} of {runs} come again", flush=True)
        well = well and equal == runs
    return well


def mutated(dice, text):
    """A text with one or several changes."""
    for _ in range(dice.choice((1, 1, 1, 2, 3))):
        lines = text.split(b"\n")
        place = dice.randrange(len(lines))
        words = lines[place].split(b" ")
        how = dice.randrange(7)
        if how == 0 and text:
            at = dice.randrange(len(text))
            text = text[:at] + bytes([dice.choice(b"0123456789 \nabcdeopstuv")]) + text[at + 1 :]
            continue
        if how <= 2:
            at = dice.randrange(len(words))
            if words[at].isdigit():
                number = int(words[at])
                words[at] = str(dice.choice((number + 1, max(number - 1, 0), 0, 1, 2**31, 2**63 - 1, 2**63, dice.randrange(2**20)))).encode()
            lines[place] = b" ".join(words)
        elif how == 3:
            del lines[place]
        elif how == 4:
            lines.insert(dice.randrange(len(lines)), lines[place])
        elif how == 5:
            other = dice.randrange(len(lines))
            lines[place], lines[other] = lines[other], lines[place]
        else:
            lines = lines[:place]
        text = b"\n".join(lines)
    return text


def judge_mutated(program, files, count, folder):
    """Whether each of many mutated records is refused, or gives a certificate that `check` verifies."""
    dice, refused, verified, wrong = random.Random(5), 0, 0, 0
    certificate, record, again = (os.path.join(folder, name) for name in ("certificate", "record", "again"))
    texts = []
    for file in files:
        run(program, "solve", file, certificate, "--workers", "2", "--record", record)
        with open(record, "rb") as it:
            texts.append((file, it.read()))
    for _ in range(count):
        file, text = dice.choice(texts)
        with open(record, "wb") as it:
            it.write(mutated(dice, text))
        if os.path.exists(again):
            os.remove(again)
        status, said, _ = run(program, "replay", file, record, again)
        if status == 7 and said.startswith("refused ") and not os.path.exists(again):
            refused += 1
        elif status == 0 and said == "replayed\n" and run(program, "check", file, again)[0] == 0:
            verified += 1
        else:
            wrong += 1
    print(f"of {count} mutated records {refused} are refused, {verified} give a certificate that check verifies, {wrong} neither", flush=True)
    return wrong == 0


def costs(program, file, folder):
    """Prints what recording and replaying cost."""
    plain, certificate, record, again = (os.path.join(folder, name) for name in ("plain", "certificate", "record", "again"))
    calls = {
        "search": ("solve", file, plain),
        "recorded": ("solve", file, certificate, "--record", record),
        "replay": ("replay", file, record, again),
        "check": ("check", file, certificate),
    }
    least = {name: float("inf") for name in calls}
    for _ in range(7):
        for name, words in calls.items():
            least[name] = min(least[name], run(program, *words)[2])
    sizes = [os.path.getsize(path) / 1e6 for path in (certificate, record)]
    print(f"|{os.path.basename(file)[:-5]}|" + "|".join(f"{least[name]:.3f}" for name in calls) + f"|{least['recorded'] / least['search']:.3f}|{least['replay'] / least['check']:.2f}|{sizes[0]:.2f}|{sizes[1]:.2f}|", flush=True)


def main():
    asked = argparse.ArgumentParser(description=__doc__.splitlines()[0])
    asked.add_argument("--runs", type=int, default=100, help="how many runs of each instance by each number of workers (100)")
    asked.add_argument("--mutated", type=int, default=10_000, help="how many mutated records (10,000)")
    asked.add_argument("--wcspsolve", metavar="PROGRAM", help="the program (built by the script at the top)")
    given = asked.parse_args()
    program = given.wcspsolve
    if program is None:
        subprocess.run([os.path.join(TOP, "wcspsolve"), "prove"], stdout=subprocess.DEVNULL, check=False)
        program = os.path.join(TOP, "crates", "wcspsolve", "out", "wcspsolve")
    well = True
    with tempfile.TemporaryDirectory() as folder:
        files = [drawn(name, "small", folder) for name in SMALL]
        for file in files:
            well = come_again(program, file, given.runs, folder) and well
        examples = [os.path.join(TOP, "examples", name) for name in ("tiny.wcsp", "tri.wcsp")]
        well = judge_mutated(program, examples + files, given.mutated, folder) and well
        print("|Instance|Search|Recorded|Replay|Check|Recorded / search|Replay / check|Certificate MB|Record MB|\n|---|---|---|---|---|---|---|---|---|")
        for name, size in COSTS:
            costs(program, drawn(name, size, folder), folder)
    return 0 if well else 1


if __name__ == "__main__":
    sys.exit(main())
