#!/usr/bin/env python3
"""Which bounds `wcspsolve` and toulbar2 know after some seconds, on instances that kinds.py draws.

A run is ended behind the last of these seconds. What it tells meanwhile is read as it comes: lines of progress, or toulbar2's
lines on new solutions and gaps. `wcspsolve` tells five times a second; toulbar2 tells a gap where it changes. The seconds are
those of the clock, so nothing else should be at work. Exit status: 0, or 1 where a lower bound was above a cost that is known.
"""

from __future__ import annotations

import argparse
import os
import re
import select
import shutil
import signal
import subprocess
import sys
import tempfile
import time
from collections.abc import Sequence
from pathlib import Path

from kinds import KINDS, SIZES
from solving import TOP, Instance, make, several

PROGRESS = re.compile(r"^progress \S+ lower (\d+) upper (\d+|none) ")
REPORT = re.compile(r"^(lower|upper) (\d+)$")
GAP = re.compile(r"^(?:Optimality gap|Initial lower and upper bounds): \[(\d+), \d+\]")
FOUND = re.compile(r"^New solution: (\d+) ")
OPTIMUM = re.compile(r"^Optimum: (\d+) in ")


class Known:
    """The best bounds so far."""

    def __init__(self) -> None:
        self.lower: int | None = None
        self.upper: int | None = None

    def raise_lower(self, cost: str) -> None:
        self.lower = max(self.lower or 0, int(cost))

    def lower_upper(self, cost: str) -> None:
        self.upper = int(cost) if self.upper is None else min(self.upper, int(cost))

    def hear(self, line: str) -> None:
        """Takes in what a line of either solver says of the bounds."""
        if told := PROGRESS.match(line):
            self.raise_lower(told[1])
            if told[2] != "none":
                self.lower_upper(told[2])
        elif told := REPORT.match(line):
            (self.raise_lower if told[1] == "lower" else self.lower_upper)(told[2])
        elif told := GAP.match(line):
            self.raise_lower(told[1])
        elif told := FOUND.match(line):
            self.lower_upper(told[1])
        elif told := OPTIMUM.match(line):
            self.raise_lower(told[1])
            self.lower_upper(told[1])

    def cell(self) -> str:
        if self.lower is not None and self.lower == self.upper:
            return f"{self.lower:,}"
        lower = "?" if self.lower is None else f"{self.lower:,}"
        return f"{lower} to " + ("?" if self.upper is None else f"{self.upper:,}")


def listen(command: Sequence[str | Path], moments: Sequence[float]) -> tuple[list[str], Known]:
    """Runs a command up to the last moment; what was known at each, and at the end."""
    start = time.monotonic()
    process = subprocess.Popen(
        command, stdin=subprocess.DEVNULL, stdout=subprocess.PIPE, stderr=subprocess.STDOUT, start_new_session=True
    )
    assert process.stdout is not None
    known, cells, rest, ended = Known(), [], b"", False
    for moment in moments:
        while not ended and (left := start + moment - time.monotonic()) > 0:
            if not select.select([process.stdout], [], [], left)[0]:
                break
            said = os.read(process.stdout.fileno(), 65536)
            ended = not said
            *lines, rest = (rest + said).split(b"\n")
            for line in lines:
                known.hear(line.decode(errors="replace").strip())
        cells.append(known.cell())
    try:
        os.killpg(process.pid, signal.SIGKILL)
    except ProcessLookupError:
        pass
    process.wait()
    process.stdout.close()
    return cells, known


def commands(options: argparse.Namespace, of: Instance, scratch: Path) -> list[tuple[str, list[str | Path]]]:
    ways: list[tuple[str, list[str | Path]]] = []
    program = shutil.which(options.toulbar2)
    if program is not None:
        ways.append(("toulbar2", [program, of.path]))
    ours = [options.wcspsolve, "solve", of.path, scratch / "certificate", "--progress", "--workers", str(options.workers)]
    ways.append(("wcspsolve", ours))
    return ways


def parse() -> argparse.Namespace:
    parser = argparse.ArgumentParser(description="Bounds after some seconds. Lists are parted by commas.")
    add = parser.add_argument
    add("--kinds", type=several(list(KINDS)), default=list(KINDS), help="which kinds (all)")
    add("--size", choices=SIZES, default="large", help="which size (large)")
    add("--seed", type=int, default=1, help="which seed (1)")
    add("--seconds", type=lambda words: [float(word) for word in words.split(",")], default=[1.0, 3.0, 10.0], help="when (1,3,10)")
    add("--workers", type=int, default=1, help="workers of wcspsolve (1)")
    add("--wcspsolve", type=Path, default=TOP / "wcspsolve", metavar="PATH", help="the program (built by the script at the top)")
    add("--toulbar2", default="toulbar2", metavar="PATH", help="the program (on the PATH)")
    return parser.parse_args()


def main() -> int:
    options = parse()
    moments = sorted(options.seconds)
    print("|Instance|Solver|" + "".join(f"{moment:g} s|" for moment in moments))
    print("|---|---|" + "---|" * len(moments))
    wrong = False
    with tempfile.TemporaryDirectory(prefix="anytime-") as folder:
        for kind in options.kinds:
            of = make(kind, options.size, options.seed, Path(folder))
            lowers, uppers = [], []
            for name, command in commands(options, of, Path(folder)):
                cells, known = listen(command, moments)
                print(f"|{kind}|{name}|" + "".join(f"{cell}|" for cell in cells), flush=True)
                lowers += [known.lower] if known.lower is not None else []
                uppers += [known.upper] if known.upper is not None else []
            if lowers and uppers and max(lowers) > min(uppers):
                print(f"{kind}: a lower bound of {max(lowers)} and a cost of {min(uppers)}", file=sys.stderr)
                wrong = True
    return int(wrong)


if __name__ == "__main__":
    sys.exit(main())
