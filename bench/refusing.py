#!/usr/bin/env python3
"""What the program answers where memory is refused: each of its allocations in turn, on one run of each command, on `check`,
`rebase`, `merge` and `checkbest` of certificates with 100,000 nested splits, on `solve` by several workers, and on `kbest`.

A library that cc compiles from refusing.c stands between the program and the C library, and refuses one allocation.
It prints the statuses by ranges of allocations, and whether a run says what the whole run says; for several workers, whose allocations come in another order each time, how often each status came, and whether each certificate that a
report stands for was judged good. Twice as many allocations are refused there as the whole run asked for. Of `kbest` it prints
the same of each allocation that the whole run asked for. Of each command it prints how many allocations the whole run asked for
behind the first byte that it wrote, to a file or to standard output: writing and saying are promised to take no memory. It ends with
1 where a status is neither that of the whole run nor 6, a certificate is not good, or an allocation came behind the first byte.
"""

import argparse
import collections
import os
import subprocess
import sys
import tempfile

BENCH = os.path.dirname(os.path.abspath(__file__))
TOP = os.path.dirname(BENCH)
NETWORK = os.path.join(TOP, "examples", "tiny.wcsp")
TRI = os.path.join(TOP, "examples", "tri.wcsp")
SPLITS = 100_000


def asked(count):
    """How many allocations the last run asked for, and how many of them behind the first byte that it wrote."""
    with open(count, "rb") as file:
        return [int.from_bytes(file.read(8), sys.byteorder) for _ in range(2)]


def write_deep(path):
    """A good certificate of the network in which each split stands in the first child of the one before."""
    with open(path, "w", encoding="ascii") as file:
        file.write("wcspcert 2\nnetwork 1 1 10\nlower 0\nbest none\ntree\n")
        file.write("split 0 1\n" * SPLITS + "open\n" * (SPLITS + 1) + "end\n")


def write_deep_list(path):
    """A good list of no assignment, with the same tree."""
    with open(path, "w", encoding="ascii") as file:
        file.write("wcspbest 1\nnetwork 1 1 10\ncount 1\nlower 0\nbest 0\ntree\n")
        file.write("split 0 1\n" * SPLITS + "open\n" * (SPLITS + 1) + "end\n")


def write_wide(network, certificate):
    """A network of a variable for each split, and a good certificate of it of which `rebase` keeps all."""
    with open(network, "w", encoding="ascii") as file:
        file.write(f"wide {SPLITS} 2 0 10\n" + "2\n" * SPLITS)
    with open(certificate, "w", encoding="ascii") as file:
        file.write(f"wcspcert 2\nnetwork {SPLITS} 0 10\nlower 0\nbest none\ntree\n")
        file.writelines(f"split {variable} 0\n" for variable in range(SPLITS))
        file.write("open\n" * (SPLITS + 1) + "end\n")


class Runs:
    """Runs of a program of which an allocation is refused."""

    def __init__(self, program, scratch):
        self.program, self.scratch = program, scratch
        self.library, self.count = self.file("refusing.so"), self.file("count")
        source = os.path.join(BENCH, "refusing.c")
        subprocess.run(["cc", "-O1", "-shared", "-fPIC", source, "-o", self.library, "-ldl"], check=True)

    def file(self, name):
        return os.path.join(self.scratch, name)

    def run(self, words, refused):
        environment = {"LD_PRELOAD": self.library, "REFUSE": str(refused), "REFUSE_COUNT": self.count}
        done = subprocess.run([self.program, *words], env=environment, stdout=subprocess.PIPE, check=False, timeout=60)
        return done.returncode, done.stdout

    def answers(self, words):
        """The status of the whole run, the number of its allocations, how many came behind the first byte, and the answer where each
        of them is refused."""
        status, said = self.run(words, 0)
        allocations, behind = asked(self.count)
        each = []
        for refused in range(1, allocations + 1):
            other, text = self.run(words, refused)
            each.append((other, "as the whole run" if text == said else text.decode().split("\n")[-2:-1]))
        return status, allocations, behind, each

    def judged(self, name, words, judge, rounds):
        """Prints how often each status and last line came where one of `rounds` times as many allocations as the whole run asked
        for was refused, and whether the certificate was judged good. Answers whether all is right."""
        whole, _ = self.run(words, 0)
        certificate, tally = judge[-1], collections.Counter()
        for refused in range(1, rounds * asked(self.count)[0] + 1):
            if os.path.exists(certificate):
                os.remove(certificate)
            status, said = self.run(words, refused)
            last = said.decode().split("\n")[-2] if said else "nothing"
            if last.startswith("result"):
                verdict = subprocess.run([self.program, *judge], stdout=subprocess.PIPE, check=False)
                last += ", " + verdict.stdout.decode().split(" ")[0]
            tally[status, last] += 1
        for (status, last), times in sorted(tally.items()):
            print(f"{name}: status {status}, last line {last}: {times} times")
        return all(status in (whole, 6) and (not last.startswith("result") or last.endswith(", verified")) for status, last in tally)


def tell(name, status, allocations, behind, each):
    """Prints the answers of one command by ranges, and answers whether each status is right and nothing was asked for behind the
    first byte."""
    print(f"{name}: status {status}, {allocations} allocations, {behind} of them behind the first byte written")
    first = 0
    for place in range(1, allocations + 1):
        if place == allocations or each[place] != each[first]:
            print(f"  {first + 1} to {place} refused: status {each[first][0]}, last line {each[first][1]}")
            first = place
    return behind == 0 and all(other in (status, 6) for other, _ in each)


def measured(program):
    with tempfile.TemporaryDirectory() as scratch:
        runs = Runs(program, scratch)
        certificate, deep, written = runs.file("certificate"), runs.file("deep"), runs.file("written")
        subprocess.run([program, "solve", NETWORK, certificate], stdout=subprocess.DEVNULL, check=False)
        write_deep(deep)
        listed, deep_list = runs.file("listed"), runs.file("deep_list")
        subprocess.run([program, "kbest", NETWORK, "2", listed], stdout=subprocess.DEVNULL, check=False)
        write_deep_list(deep_list)
        recording = runs.file("recording")
        subprocess.run([program, "solve", NETWORK, written, "--record", recording], stdout=subprocess.DEVNULL, check=False)
        wide, wide_deep = runs.file("wide"), runs.file("wide_deep")
        write_wide(wide, wide_deep)
        commands = {
            "solve": ["solve", NETWORK, written],
            "solve with a record": ["solve", NETWORK, written, "--record", runs.file("record")],
            "replay": ["replay", NETWORK, recording, written],
            "check": ["check", NETWORK, certificate],
            "check of nested splits": ["check", NETWORK, deep],
            "cost": ["cost", NETWORK, "1"],
            "normal": ["normal", NETWORK],
            "trial": ["trial", "7", "3"],
            "migrate": ["migrate", NETWORK, certificate, written],
            "migrate of nested splits": ["migrate", NETWORK, deep, written],
            "rebase": ["rebase", NETWORK, certificate, written],
            "rebase of nested splits": ["rebase", NETWORK, deep, written, "--budget", "0"],
            "rebase of nested splits that are kept": ["rebase", wide, wide_deep, written, "--budget", "0"],
            "merge": ["merge", NETWORK, written, certificate, certificate],
            "merge of nested splits": ["merge", NETWORK, written, deep, deep],
            "kbest": ["kbest", NETWORK, "2", written],
            "checkbest": ["checkbest", NETWORK, listed],
            "checkbest of nested splits": ["checkbest", NETWORK, deep_list],
        }
        right = [tell(name, *runs.answers(words)) for name, words in commands.items()]
        for workers in ("2", "4"):
            words = ["solve", TRI, written, "--workers", workers]
            right.append(runs.judged(f"solve by {workers} workers", words, ["check", TRI, written], 2))
        right.append(runs.judged("kbest of 7", ["kbest", TRI, "7", written], ["checkbest", TRI, written], 1))
    return all(right)


def main():
    parser = argparse.ArgumentParser(description="Refuses each allocation of the program in turn.")
    parser.add_argument("--wcspsolve", metavar="PATH", help="the program (built by the script at the top)")
    program = parser.parse_args().wcspsolve
    if program is None:
        subprocess.run([os.path.join(TOP, "wcspsolve"), "prove"], stdout=subprocess.DEVNULL, check=False)
        program = os.path.join(TOP, "crates", "wcspsolve", "out", "wcspsolve")
    return 0 if measured(os.path.abspath(program)) else 1


if __name__ == "__main__":
    sys.exit(main())
