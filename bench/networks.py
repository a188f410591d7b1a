"""Weighted constraint networks for the measurements: built, written as toulbar2's wcsp text, read back, and priced.

The reader and the prices share no code with wcspsolve or toulbar2, so that both can be judged with them.
"""

from __future__ import annotations

import itertools
import math
from collections import Counter
from collections.abc import Callable, Iterator, Sequence
from dataclasses import dataclass
from typing import TextIO

Values = tuple[int, ...]

# toulbar2 reads costs through numbers that are exact below this.
EXACT = 2**53
# What wcspsolve reads at most (README.md, docs/FORMAT.md).
MOST_VALUES, MOST_FUNCTIONS, MOST_TABLE, MOST_CELLS = 4096, 2**20, 2**22, 2**26


@dataclass(frozen=True)
class Function:
    """A cost function in extension: what a tuple of values of its variables costs, and the default of all others."""

    scope: Values
    default: int
    costs: dict[Values, int]

    def cost(self, values: Sequence[int]) -> int:
        return self.costs.get(tuple(values[variable] for variable in self.scope), self.default)

    def greatest(self) -> int:
        return max(self.default, *self.costs.values()) if self.costs else self.default


@dataclass(frozen=True)
class Network:
    """Domain sizes, cost functions, and the upper bound: an assignment that costs so much or more is forbidden."""

    name: str
    sizes: Values
    functions: list[Function]
    top: int

    def price(self, values: Sequence[int]) -> int:
        """The cost of an assignment, not capped. ValueError where it is none."""
        if len(values) != len(self.sizes):
            raise ValueError(f"{len(values)} values for {len(self.sizes)} variables")
        for variable, (value, size) in enumerate(zip(values, self.sizes)):
            if not 0 <= value < size:
                raise ValueError(f"variable {variable} has no value {value}")
        return sum(function.cost(values) for function in self.functions)

    def cells(self) -> int:
        return sum(self._table(function) for function in self.functions)

    def excesses(self) -> Iterator[str]:
        """Each limit of wcspsolve or toulbar2 that the network passes."""
        if not all(1 <= size <= MOST_VALUES for size in self.sizes):
            yield "a domain size"
        if len(self.functions) > MOST_FUNCTIONS:
            yield "the number of functions"
        if any(self._table(function) > MOST_TABLE for function in self.functions) or self.cells() > MOST_CELLS:
            yield "the number of cells"
        if sum(function.greatest() for function in self.functions) >= EXACT or self.top >= EXACT:
            yield "the sum of costs"

    def _table(self, function: Function) -> int:
        return math.prod(self.sizes[variable] for variable in function.scope)


def tabulate(scope: Values, sizes: Sequence[int], cost: Callable[..., int]) -> Function:
    """The function that costs cost(value, ..) on these variables. Its commonest cost is the default."""
    tuples = itertools.product(*(range(sizes[variable]) for variable in scope))
    costs = {values: cost(*values) for values in tuples}
    default = Counter(costs.values()).most_common(1)[0][0]
    return Function(scope, default, {values: cost for values, cost in costs.items() if cost != default})


def write(network: Network, file: TextIO) -> None:
    """Writes the network as a wcsp text."""
    sizes, functions = network.sizes, network.functions
    file.write(f"{network.name} {len(sizes)} {max(sizes)} {len(functions)} {network.top}\n")
    file.write(" ".join(map(str, sizes)) + "\n")
    for function in functions:
        numbers = (len(function.scope), *function.scope, function.default, len(function.costs))
        file.write(" ".join(map(str, numbers)) + "\n")
        file.writelines(" ".join(map(str, (*values, cost))) + "\n" for values, cost in function.costs.items())


def read(text: str) -> Network:
    """The network of a wcsp text without global functions. Of a tuple that is listed twice the last listing counts."""
    words = iter(text.split())
    name = next(words)
    numbers = map(int, words)
    variables, _, functions, top = itertools.islice(numbers, 4)
    sizes = tuple(itertools.islice(numbers, variables))
    return Network(name, sizes, [_read_function(numbers) for _ in range(functions)], top)


def _read_function(numbers: Iterator[int]) -> Function:
    arity = next(numbers)
    scope = tuple(itertools.islice(numbers, arity))
    default, listed = itertools.islice(numbers, 2)
    costs = {}
    for _ in range(listed):
        values = tuple(itertools.islice(numbers, arity))
        costs[values] = next(numbers)
    return Function(scope, default, costs)
