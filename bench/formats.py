#!/usr/bin/env python3
"""Networks to and from toulbar2 in files: whether both find the same optimum, and what comes back is the same.

    formats.py [--count N]

For the examples and N drawn networks (200): the file that the package writes (wcsp, and cfn with names, decimal and negative
costs) is solved by toulbar2; the files that toulbar2 writes of it (-nopre -z, cfn and wcsp) are read and solved by wcspsolve.
Drawn uai and wcnf files are solved by both. Ends with 1 where two optima differ.

The program is what the variable WCSPSOLVE names; toulbar2 is on the PATH.
"""

from __future__ import annotations

import argparse
import math
import random
import re
import subprocess
import sys
import tempfile
from collections import Counter
from fractions import Fraction
from pathlib import Path
from typing import Sequence, Union

TOP = Path(__file__).resolve().parent.parent
sys.path[:0] = [str(TOP / "python"), str(TOP / "python" / "tests")]

from drawn import draw  # noqa: E402
from wcspsolve import Format, Network, Sense, Word, read, solve, write  # noqa: E402

# An optimum, None where there is no plan, or what was said in their place.
Optimum = Union[Fraction, None, str]


def toulbar2(path: Path, *options: str) -> str:
    """What toulbar2 says of a file."""
    command = ["toulbar2", path.name, *options]
    return subprocess.run(command, cwd=path.parent, stdout=subprocess.PIPE, stderr=subprocess.STDOUT, text=True).stdout


def toulbar2_optimum(path: Path) -> Optimum:
    """The optimum that toulbar2 finds, None where it says that there is no solution; where it says neither, its last line."""
    said = toulbar2(path)
    found = re.search(r"^Optimum: (\S+)", said, re.MULTILINE)
    if found:
        return Fraction(found[1])
    return None if "No solution" in said else said.splitlines()[-1]


def toulbar2_energy(path: Path) -> Optimum:
    """The negated logarithm of the greatest product of factors that toulbar2 finds, of which it tells three digits."""
    said = toulbar2(path)
    found = re.search(r"^Optimum: \S+ energy: (\S+)", said, re.MULTILINE)
    if found:
        return Fraction(found[1])
    return None if "No solution" in said else said.splitlines()[-1]


def own_optimum(problem: "Network | Path") -> Optimum:
    result = solve(problem, seconds=60)
    if result.word is Word.NONE:
        return None
    return Fraction(result.cost) if result.is_optimal else result.word.value


class Tally:
    """Comparisons with their counts."""

    def __init__(self) -> None:
        self.counts: Counter = Counter()
        self.is_good = True

    def compare(self, what: str, name: str, one: Optimum, other: Optimum, most: Fraction = Fraction(0)) -> None:
        numbers = isinstance(one, Fraction) and isinstance(other, Fraction)
        if one == other or (numbers and abs(one - other) <= most):
            self.counts[what, "the same"] += 1
            self.counts[what, "of these none"] += one is None
        else:
            self.is_good = False
            self.counts[what, "different"] += 1
            print(f"{what}: {name}: {one} and {other}")

    def tell(self) -> None:
        for what in sorted({what for what, _ in self.counts}):
            same, none, other = (self.counts[what, kind] for kind in ("the same", "of these none", "different"))
            print(f"{what}: {same} the same ({none} without a plan), {other} different")


def there_and_back(tally: Tally, network: Network, folder: Path) -> None:
    """Both directions for one network."""
    own = own_optimum(network)
    for form in (Format.WCSP, Format.CFN):
        path = folder / f"own.{form.value}"
        with open(path, "w") as file:
            write(network, file, form)
        written = read(path)
        theirs = toulbar2_optimum(path)
        tally.compare(f"{form.value} that the package writes", network.name, own_optimum(written), theirs)
        if form is Format.CFN:
            tally.compare("the model, and its cfn", network.name, own, theirs)
        for back in (Format.WCSP, Format.CFN):
            dump = folder / f"theirs.{back.value}"
            dump.unlink(missing_ok=True)
            toulbar2(path, "-nopre", f"-z={dump.name}")
            what = f"{back.value} that toulbar2 writes of {form.value}"
            if not dump.exists():
                tally.compare(f"{what}: no file", network.name, theirs, None)
            elif back is Format.CFN or form is Format.WCSP:  # its wcsp of decimal costs has others, without saying which
                tally.compare(what, network.name, theirs, own_optimum(dump))


def factors(seed: int) -> str:
    """A drawn uai text of a Markov network. Each set of variables has one factor at most, and each factor its variables in order.

    toulbar2 1.1.1 finds other optima of some files where they are not so, which no plan has.
    """
    draws = random.Random(seed)
    sizes = [draws.randint(1, 4) for _ in range(draws.randint(2, 6))]
    drawn = (sorted(draws.sample(range(len(sizes)), draws.randint(1, min(3, len(sizes))))) for _ in range(draws.randint(1, 8)))
    scopes = list({frozenset(scope): scope for scope in drawn}.values())
    tables = []
    for scope in scopes:
        cells = math.prod(sizes[number] for number in scope)
        tables.append([0 if draws.random() < 0.1 else round(draws.random() * draws.choice([0.01, 1, 20]), 5) for _ in range(cells)])
    return uai_text("MARKOV", sizes, scopes, tables)


def bayes(seed: int) -> str:
    """A drawn uai text of a Bayesian network: of each variable the probabilities of its values, by those of variables before it."""
    draws = random.Random(seed)
    sizes = [draws.randint(1, 4) for _ in range(draws.randint(2, 7))]
    scopes = [[*draws.sample(range(place), draws.randint(0, min(2, place))), place] for place in range(len(sizes))]
    tables = []
    for scope in scopes:
        table = []
        for _ in range(math.prod(sizes[number] for number in scope[:-1])):
            cuts = sorted(draws.randint(0, 1000) for _ in range(sizes[scope[-1]] - 1))
            table += [(end - begin) / 1000 for begin, end in zip([0, *cuts], [*cuts, 1000])]
        tables.append(table)
    return uai_text("BAYES", sizes, scopes, tables)


def uai_text(kind: str, sizes: Sequence[int], scopes: Sequence[Sequence[int]], tables: Sequence[Sequence[float]]) -> str:
    lines = [[kind], [len(sizes)], sizes, [len(scopes)], *([len(scope), *scope] for scope in scopes)]
    lines += [line for table in tables for line in ([len(table)], table)]
    return "\n".join(" ".join(map(str, line)) for line in lines) + "\n"


def formula(seed: int) -> str:
    """A drawn text of the classic wcnf."""
    draws = random.Random(seed)
    count = draws.randint(2, 9)
    clauses = []
    for _ in range(draws.randint(1, 25)):
        literals = [number * draws.choice([1, -1]) for number in draws.sample(range(1, count + 1), draws.randint(1, min(count, 4)))]
        clauses.append(f"{draws.choice([1000, draws.randint(1, 30)])} {' '.join(map(str, literals))} 0")
    return "\n".join([f"p wcnf {count} {len(clauses)} 1000", *clauses]) + "\n"


def main() -> None:
    parser = argparse.ArgumentParser(description=__doc__, formatter_class=argparse.RawDescriptionHelpFormatter)
    parser.add_argument("--count", type=int, default=200)
    given = parser.parse_args()
    tally = Tally()
    with tempfile.TemporaryDirectory() as name:
        folder = Path(name)
        for path in sorted((TOP / "examples").glob("*.wcsp")):
            there_and_back(tally, read(path), folder)
        for seed in range(given.count):
            sense = (Sense.LEAST, Sense.GREATEST)[seed // 4 % 2]
            network = draw(seed, least=-20 if seed % 3 else 0, digits=seed % 4, sense=sense)
            if network.bound is not None and network.bound < 1:  # toulbar2 1.1.1 reads a mustbe of -0.5 as 0.5
                network.bound += 1
            there_and_back(tally, network, folder)
        for seed in range(given.count):
            path = folder / "drawn.wcnf"
            path.write_text(formula(seed))
            tally.compare("wcnf", str(seed), own_optimum(path), toulbar2_optimum(path))
            path = folder / "drawn.uai"
            for kind, text in (("MARKOV", factors(seed)), ("BAYES", bayes(seed))):
                path.write_text(text)
                what = f"uai of {kind}, to three digits"
                tally.compare(what, str(seed), own_optimum(path), toulbar2_energy(path), Fraction(6, 10000))
    tally.tell()
    sys.exit(not tally.is_good)


if __name__ == "__main__":
    main()
