"""What the tests share: networks drawn from seeds, their least cost by trying all plans, and the program where there is one."""

from __future__ import annotations

import itertools
import os
import random
import sys
import unittest
from fractions import Fraction
from pathlib import Path
from typing import List, Optional, Sequence, Tuple

TOP = Path(__file__).resolve().parents[2]
sys.path.insert(0, str(TOP / "python"))

from wcspsolve.network import Cost, Network, Sense, Table, Variable  # noqa: E402


def built_program() -> Optional[str]:
    """The program that WCSPSOLVE names, or that the repository has built. It is never built for the tests."""
    named = os.environ.get("WCSPSOLVE")
    built = TOP / "crates" / "wcspsolve" / "out" / "wcspsolve"
    return named or (str(built) if os.access(built, os.X_OK) else None)


class WithProgram(unittest.TestCase):
    """Tests that run the program. They are skipped where there is none."""

    @classmethod
    def setUpClass(cls) -> None:
        program = built_program()
        if program is None:
            raise unittest.SkipTest("no program is built: set WCSPSOLVE")
        os.environ["WCSPSOLVE"] = program


def draw(seed: int, least: int = 0, digits: int = 0, sense: Sense = Sense.LEAST) -> Network:
    """A small network with costs from `least` on and so many digits behind the point; some are forbidden."""
    draws = random.Random(seed)
    sizes = [draws.randint(1, 4) for _ in range(draws.randint(1, 6))]
    variables = [Variable(f"x{number}", tuple(f"v{value}" for value in range(size))) for number, size in enumerate(sizes)]
    tables = [_table(draws, sizes, least, digits) for _ in range(draws.randint(0, 9))]
    bound = Fraction(draws.randint(5, 300), 10**digits) if draws.random() < 0.7 else None
    return Network(f"drawn{seed}", variables, tables, bound, sense)


def _table(draws: random.Random, sizes: Sequence[int], least: int, digits: int) -> Table:
    scope = draws.sample(range(len(sizes)), draws.randint(0, min(3, len(sizes))))
    cells = 1
    for number in scope:
        cells *= sizes[number]

    def cost() -> Optional[Cost]:
        return None if draws.random() < 0.05 else Fraction(draws.randint(least, 60), 10**digits)

    if draws.random() < 0.5:
        return Table.dense(scope, [cost() for _ in range(cells)])
    return Table.sparse(scope, cells, cost(), {cell: cost() for cell in draws.sample(range(cells), draws.randint(0, cells))})


def best(network: Network) -> Optional[Cost]:
    """The best cost that a plan has, None where each one is forbidden: all are tried."""
    prices = [network.price(places) for places in itertools.product(*map(range, network.sizes()))]
    allowed = [price for price in prices if price is not None]
    return (min if network.sense is Sense.LEAST else max)(allowed, default=None)


def prices(network: Network) -> List[Tuple[Tuple[int, ...], Optional[Cost]]]:
    """What each plan costs."""
    return [(places, network.price(places)) for places in itertools.product(*map(range, network.sizes()))]
