#!/usr/bin/env python3
"""How long the program reads large files, and the most memory that it has while it does.

Makes files in a scratch folder: `wide` has ten functions of two variables, all of whose 40,000,000 tuples are listed;
`many` has 1,000,000 functions of two variables with two listed tuples each; `few` has 15 functions of two variables with
60,000,000 tuples, of which 15,000 are listed. In the first two the constant is the upper bound, so that the opening sweep
closes the root and `solve` is reading and no search. `cost` reads a file and makes no store. It asserts nothing.
"""

import os
import subprocess
import tempfile

TOP = os.path.dirname(os.path.dirname(os.path.abspath(__file__)))


def write_wide(path):
    size = 2000
    with open(path, "w") as file:
        file.write(f"wide 2 {size} 11 1\n{size} {size}\n0 1 0\n")
        for _ in range(10):
            file.write(f"2 0 1 0 {size * size}\n")
            for first in range(size):
                file.write("".join(f"{first} {second} {(first + second) % 2}\n" for second in range(size)))


def write_many(path):
    functions = 1_000_000
    variables = 100_000
    with open(path, "w") as file:
        file.write(f"many {variables} 2 {functions + 1} 1\n" + "2 " * variables + "\n0 1 0\n")
        for number in range(functions):
            first = number % variables
            second = (first + 1 + number % 97) % variables
            file.write(f"2 {first} {second} 0 2\n0 0 1\n1 1 1\n")


def write_few(path):
    size = 2000
    with open(path, "w") as file:
        file.write(f"few 2 {size} 15 1000\n{size} {size}\n")
        for number in range(15):
            file.write("2 0 1 0 1000\n")
            file.write("".join(f"{2 * place} {(7 * place + number) % size} {1 + place % 9}\n" for place in range(1000)))


def solve(path, scratch):
    return ["solve", path, os.path.join(scratch, "certificate")]


def cost(path, scratch):
    return ["cost", path, "0", "0"]


def measure(name, words, path):
    command = [os.path.join(TOP, "wcspsolve")] + words
    process = subprocess.Popen(command, stdout=subprocess.DEVNULL)
    _, status, usage = os.wait4(process.pid, 0)
    seconds = usage.ru_utime + usage.ru_stime
    code = os.waitstatus_to_exitcode(status)
    size = os.path.getsize(path) / 1e6
    print(f"{name}: {size:.1f} MB, {seconds:.2f} processor seconds, {usage.ru_maxrss / 1024:.0f} MiB at most, status {code}")


def main():
    with tempfile.TemporaryDirectory() as scratch:
        rows = (
            ("wide", write_wide, (solve, cost)),
            ("many", write_many, (solve,)),
            ("few", write_few, (cost,)),
        )
        for name, write, commands in rows:
            path = os.path.join(scratch, name + ".wcsp")
            write(path)
            for command in commands:
                measure(f"{name} {command.__name__}", command(path, scratch), path)
            os.remove(path)


if __name__ == "__main__":
    main()
