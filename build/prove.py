#!/usr/bin/env python3
"""Builds the program from a copy of the crates that it stands on, each of which is proved first (`./wcspsolve prove`).

`rt ci` proves them, those first that the longest chain of others waits for, and as many side by side as there are processors (`rt
lib` would lock all crates below the one that it proves, so that hardly two ever went side by side). It keeps what it proved on this
machine, so a build that was broken off goes on. The copy has no tests and no must-fail edits, which the gate alone tries.

`costs.txt` has what each crate took, in units of the check of `cfn_model`; from these, and from what the crates before took on
this machine, the minutes left are reckoned.
"""
import os
import shutil
import subprocess
import sys
import tempfile
import time

from kit import NO_PROGRAM, PROGRAM, PROVE_SPACE, TOP, find_kit, lines_of_crates, need_space, put_program, say, status_of


def needed_crates():
    """The crates that the program stands on, and its own: each with its line of crates.txt and those directly below it."""
    lines, names = lines_of_crates()
    needed, ahead = {}, [PROGRAM]
    while ahead:
        name = ahead.pop()
        if name not in needed:
            needed[name] = [it for it in names[name] if it in names]
            ahead += needed[name]
    return {name: (lines[name], needed[name]) for name in lines if name in needed}


def copy_to(folder, crates):
    """Copies the sources of these crates, and what the program is run on."""
    os.makedirs(f"{folder}/crates")
    shutil.copy(f"{TOP}/HANDLES", folder)
    with open(f"{folder}/crates.txt", "w", encoding="utf-8") as file:
        file.writelines(line for line, _ in crates.values())
    for name in crates:
        shutil.copytree(f"{TOP}/crates/{name}", f"{folder}/crates/{name}", ignore=shutil.ignore_patterns("out", "must-fail"))


def costs_of(crates):
    """What each crate costs, in units of one of them; one that was not measured counts as a small one."""
    costs = {}
    with open(f"{TOP}/build/costs.txt", encoding="utf-8") as file:
        for line in file:
            words = line.partition("#")[0].split()
            if len(words) == 2:
                costs[words[0]] = float(words[1])
    return {name: costs.get(name, 0.5) for name in crates}


class Clock:
    """How much is proved, how much is left, and how long a unit takes here."""

    def __init__(self, crates):
        self.costs, self.below, self.start = costs_of(crates), {name: it for name, (_, it) in crates.items()}, time.monotonic()
        self.left, self.worked = set(crates), 0.0

    def note(self, name, is_new):
        self.left.discard(name)
        self.worked += self.costs[name] * is_new

    def longest(self):
        """The cost of the longest chain of crates that are left."""
        chains = {}
        for name in self.below:
            if name in self.left:
                chains[name] = self.costs[name] + max((chains.get(it, 0.0) for it in self.below[name]), default=0.0)
        return max(chains.values(), default=0.0)

    def minutes(self):
        """The minutes left: what is left at the pace so far, or its longest chain at the pace of one processor, whichever is more."""
        if not self.worked:
            return None
        processors = os.cpu_count() or 1
        each = (time.monotonic() - self.start) / self.worked
        return max(each * sum(self.costs[it] for it in self.left), each * processors * self.longest()) / 60


def follow(lines, log, clock):
    """Keeps what `rt ci` says in the log, and says what it has proved."""
    for line in lines:
        log.write(line)
        words = line.split()
        if words[:1] == ["rt:"] and len(words) > 2 and words[1] in clock.left and words[2] in ("proved", "is"):
            clock.note(words[1], words[2] == "proved")
            minutes = clock.minutes()
            behind = "" if minutes is None else f"; about {minutes:.0f} minutes left"
            say(f"{words[1]} is proved, {len(clock.left)} of {len(clock.below)} to go{behind}")


def build():
    find_kit()
    need_space(PROVE_SPACE)
    crates, began = needed_crates(), time.time()
    say(f"each function of {len(crates)} crates is proved, which takes long the first time on a machine")
    with tempfile.TemporaryDirectory(prefix=f"{PROGRAM}-") as folder:
        copy_to(folder, crates)
        with open(f"{folder}/log", "w+", encoding="utf-8") as log:
            how = {"cwd": folder, "stdin": subprocess.DEVNULL, "stdout": subprocess.PIPE, "stderr": subprocess.STDOUT}
            with subprocess.Popen(["rt", "ci"], text=True, errors="replace", **how) as proving:
                follow(proving.stdout, log, Clock(crates))
            made = f"{folder}/crates/{PROGRAM}/out/{PROGRAM}"
            if proving.returncode or not os.path.isfile(made):
                log.seek(0)
                say("it is not proved:")
                print("".join(log.readlines()[-40:]), end="", file=sys.stderr)
                return NO_PROGRAM
        put_program(made, f"{TOP}/crates/{PROGRAM}/out/{PROGRAM}", began)
    say("proved on this machine: each later run uses this program")
    return 0


if __name__ == "__main__":
    sys.exit(status_of(build))
