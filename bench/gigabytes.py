#!/usr/bin/env python3
"""Whether certificates of some gigabytes are judged, kept and merged, in which time and memory.

Writes a good certificate of a small network in a scratch folder: a binary tree of open leaves over all variables, of which each
node has many steps that move costs forth and back. `check` judges it, `rebase` with no node keeps it, and `merge` joins it with a
small one that begins with the same root. What the last two write has to be that certificate again, byte for byte but for the
merged lines in front of its tree. It ends with 1 where an answer is not as it has to be.
"""

import argparse
import os
import subprocess
import sys
import tempfile

TOP = os.path.dirname(os.path.dirname(os.path.abspath(__file__)))
VARIABLES = 12
NODES = 2 ** (VARIABLES + 1) - 1
NETWORK = f"small {VARIABLES} 2 {VARIABLES} 1000\n" + "2 " * VARIABLES + "\n" + "".join(f"1 {x} 3 1\n1 1\n" for x in range(VARIABLES))
LIFTS = b"".join(b"p %d 0 0 3\np %d 0 1 1\nu %d 1\n" % (x, x, x) for x in range(VARIABLES))
PAIRS = b"".join(b"e %d 0 0 2\np %d 0 0 2\n" % (x, x) for x in range(VARIABLES))


def front(best, values):
    return f"wcspcert 2\nnetwork {VARIABLES} {VARIABLES} 1000\nlower {VARIABLES}\nbest {best}\nvalues {' '.join(map(str, values))}\ntree\n".encode()


def write_node(file, depth, steps):
    """The lines of a node and of all below it, which have these steps each."""
    file.write(steps)
    if depth == VARIABLES:
        file.write(b"open\n")
        return
    file.write(b"split %d 0\n" % depth)
    write_node(file, depth + 1, steps)
    write_node(file, depth + 1, steps)


def write_certificate(path, best, values, steps):
    with open(path, "wb") as file:
        file.write(front(best, values) + LIFTS + b"split 0 0\n")
        write_node(file, 1, steps)
        write_node(file, 1, steps)
        file.write(b"end\n")


def same_tree(one, other):
    """Whether two certificates are the same from the lines of their trees on."""
    with open(one, "rb") as first, open(other, "rb") as second:
        for file in (first, second):
            while file.readline() not in (b"tree\n", b""):
                pass
        while True:
            piece = first.read(1 << 24)
            if piece != second.read(1 << 24):
                return False
            if not piece:
                return True


def measure(*command):
    """What a run says, and its status, seconds by the clock and the processor, and most memory, printed."""
    process = subprocess.Popen(command, stdout=subprocess.PIPE, text=True)
    said = process.stdout.read()
    _, status, usage = os.wait4(process.pid, 0)
    print(f"{command[1]}: status {os.waitstatus_to_exitcode(status)}, {usage.ru_utime + usage.ru_stime:.1f} processor seconds, {usage.ru_maxrss / 1024:,.0f} MiB at most, last line {said.splitlines()[-1:]}", flush=True)
    return said


def measured(program, scratch, size):
    network, large, small, written = (os.path.join(scratch, name) for name in ("network", "large", "small", "written"))
    with open(network, "w", encoding="ascii") as file:
        file.write(NETWORK)
    repeats = max(round(size / len(PAIRS) / (NODES - 1)), 1)
    write_certificate(large, VARIABLES + 2, [0] + [1] * (VARIABLES - 1), PAIRS * repeats)
    write_certificate(small, VARIABLES, [1] * VARIABLES, b"")
    lines = len(LIFTS.splitlines()) + (NODES - 1) * repeats * 2 * VARIABLES + NODES + 7
    print(f"{lines:,} lines, {os.path.getsize(large) / 1e9:.2f} GB, {NODES:,} nodes", flush=True)
    good = measure(program, "check", network, large) == f"verified lower {VARIABLES} best {VARIABLES + 2}\n"
    good &= "result budget\n" in measure(program, "rebase", network, large, written, "--budget", "0") and same_tree(large, written)
    os.remove(written)
    good &= measure(program, "merge", network, written, large, small) == f"merged lower {VARIABLES} best {VARIABLES}\n" and same_tree(large, written)
    print("each answer is as it has to be" if good else "AN ANSWER IS NOT AS IT HAS TO BE")
    return good


def main():
    parser = argparse.ArgumentParser(description="Judges, keeps and merges a certificate of some gigabytes.")
    parser.add_argument("--wcspsolve", metavar="PATH", default=os.path.join(TOP, "wcspsolve"), help="the program")
    parser.add_argument("--gigabytes", type=float, default=5.0, help="the size of the certificate (5); the folder needs twice as much")
    parser.add_argument("--folder", help="where the scratch folder is made")
    given = parser.parse_args()
    with tempfile.TemporaryDirectory(dir=given.folder) as scratch:
        return 0 if measured(os.path.abspath(given.wcspsolve), scratch, given.gigabytes * 1e9) else 1


if __name__ == "__main__":
    sys.exit(main())
