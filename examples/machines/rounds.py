#!/usr/bin/env python3
"""Solves one problem on many machines, in rounds.

    rounds.py FILE CERT [--parts N] [--seconds S] [--prefix 'COMMAND ..' | --through 'COMMAND ..'] [--rounds R] [--wcnf]

A round deals the open leaves of CERT to N parts, lets each part search for S seconds (`rebase --part`), and merges what came back
into CERT (`merge`). The time that a part takes to read CERT comes on top of S, and a part searches at least ten times as long as
it reads: so rounds grow longer as CERT grows. It ends where CERT shows an optimum, or that there is no assignment, or after R
rounds. Where there is no CERT yet, a short search on this machine makes the first one.

Each part is a command of its own. It is started on this machine, all at once; or behind a prefix, as 'srun -N1 -n1 --exclusive';
or all are written, one a line, to the standard input of one command, as 'parallel --sshloginfile hosts'. FILE, CERT and its parts
(CERT.round12345.part1 and so on) lie where all machines see them, by the same names.

A part that is lost, killed or has a broken file is left out of the merge: it costs its own seconds alone. No machine has to be
trusted, since `merge` judges each part by itself, and `check` judges CERT.

The program is `wcspsolve` on the path, or what the variable WCSPSOLVE names. Standard library alone.
"""
import argparse
import os
import math
import shlex
import subprocess
import sys
import time

PROGRAM = shlex.split(os.environ.get("WCSPSOLVE", "wcspsolve"))


def say(text):
    print(text, flush=True)


class Round:
    """One problem with its certificate, and how its parts are started."""

    def __init__(self, given):
        self.given = given
        self.format = ["--wcnf"] if given.wcnf else []

    def run(self, *words):
        """Runs the program here, and returns its status and what it said."""
        ran = subprocess.run([*PROGRAM, *words, *self.format], stdout=subprocess.PIPE, text=True)
        return ran.returncode, ran.stdout.strip()

    def begin(self):
        """Makes the first certificate, where there is none; whether there is one then."""
        if os.path.exists(self.given.certificate):
            return True
        status, said = self.run("solve", self.given.file, self.given.certificate, "--budget", str(self.given.budget))
        if status > 2:
            say(said)
        return status <= 2

    def state(self):
        """The number of open leaves of the certificate, its lower bound, its best cost or none, and the upper bound."""
        leaves, lower, best, upper = 0, 0, None, 0
        with open(self.given.certificate, encoding="ascii") as lines:
            for line in lines:
                words = line.split()
                if words[0] == "open":
                    leaves += 1
                elif words[0] == "network":
                    upper = int(words[3])
                elif words[0] == "lower":
                    lower = int(words[1])
                elif words[0] == "best" and words[1] != "none":
                    best = int(words[1])
        return leaves, lower, best, upper

    def seconds(self):
        """The seconds that a part gets: they count from its start, so what it reads for, about twice `check`'s time, comes on top."""
        began = time.monotonic()
        self.run("check", self.given.file, self.given.certificate)
        reading = 2 * (time.monotonic() - began)
        return math.ceil(reading + max(self.given.seconds, 10 * reading))

    def part(self, number):
        """A name of this run's own, so that no other file is touched."""
        return f"{self.given.certificate}.round{os.getpid()}.part{number}"

    def command(self, number, parts, seconds):
        words = ["rebase", self.given.file, self.given.certificate, self.part(number)]
        words += ["--part", str(number), "--parts", str(parts), "--seconds", str(seconds)]
        return [*PROGRAM, *words, *self.format]

    def start_all(self, parts):
        """Starts all parts, and waits for them."""
        seconds = self.seconds()
        commands = [self.command(number, parts, seconds) for number in range(1, parts + 1)]
        if self.given.through:
            lines = "".join(shlex.join(words) + "\n" for words in commands)
            subprocess.run(shlex.split(self.given.through), input=lines, text=True, stdout=subprocess.DEVNULL)
            return
        prefix = shlex.split(self.given.prefix)
        running = [subprocess.Popen([*prefix, *words], stdout=subprocess.DEVNULL) for words in commands]
        for it in running:
            it.wait()

    def good_parts(self, parts):
        """The parts that `check` judges good: the others are left out."""
        found = [self.part(number) for number in range(1, parts + 1)]
        good = [it for it in found if os.path.exists(it) and self.run("check", self.given.file, it)[0] == 0]
        if len(good) < parts:
            say(f"{parts - len(good)} of {parts} parts are lost" + ("" if good else f", and {self.given.certificate} is as it was"))
        return good

    def merge(self, parts):
        """Merges what came back; whether that went well."""
        good = self.good_parts(parts)
        merged = good and self.run("merge", self.given.file, self.given.certificate, *good)
        for number in range(1, parts + 1):
            if os.path.exists(self.part(number)):
                os.remove(self.part(number))
        if not merged:
            return False
        status, said = merged
        say(said)
        return status == 0


def words():
    asked = argparse.ArgumentParser(description=__doc__.splitlines()[0])
    asked.add_argument("file")
    asked.add_argument("certificate")
    asked.add_argument("--parts", type=int, default=4, help="into how many parts a round deals the open leaves")
    asked.add_argument("--seconds", type=int, default=60, help="how long each part may search in a round, at least")
    asked.add_argument("--prefix", default="", help="what stands in front of each part's command")
    asked.add_argument("--through", default="", help="a command that takes all parts' commands from its standard input")
    asked.add_argument("--rounds", type=int, default=1000, help="after how many rounds it ends at the latest")
    asked.add_argument("--budget", type=int, default=20000, help="how many nodes the first search makes")
    asked.add_argument("--wcnf", action="store_true", help="FILE is classic wcnf")
    return asked.parse_args()


def main():
    given = words()
    work = Round(given)
    if not work.begin():
        return 1
    for number in range(1, given.rounds + 1):
        leaves, lower, best, upper = work.state()
        if leaves == 0:
            say(f"optimum {best}" if best is not None else "none")
            return 0
        say(f"round {number}: {leaves} open leaves, lower {lower}, best {'none' if best is None else best}, upper bound {upper}")
        parts = min(given.parts, leaves)
        work.start_all(parts)
        if not work.merge(parts):
            return 1
    return 2


if __name__ == "__main__":
    sys.exit(main())
