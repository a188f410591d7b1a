"""Cost functions over named variables with exact costs, and the same in whole costs from 0 on, as the wcsp format has them."""

from __future__ import annotations

import itertools
import math
from collections import Counter
from dataclasses import dataclass, field
from decimal import Decimal
from enum import Enum
from fractions import Fraction
from typing import Any, Dict, Final, Hashable, Iterable, Iterator, List, Optional, Sequence, TextIO, Tuple, Union

# What a plan costs: a whole number where it is one.
Cost = Union[int, Fraction]
# The cost of values that no plan may have together.
FORBIDDEN: Final = None
# The value of each variable, by its name.
Plan = Dict[str, Any]

# What the program reads at most (docs/FORMAT.md).
MOST_VARIABLES: Final = 2**20
MOST_VALUES: Final = 2**12
MOST_FUNCTIONS: Final = 2**20
MOST_TABLE: Final = 2**22
MOST_CELLS: Final = 2**26
COST_LIMIT: Final = 2**63


class ModelError(ValueError):
    """Words that make no model: an unknown name, a cost that is none, or more than the program reads."""


class Sense(Enum):
    """Whether the least or the greatest sum is asked for. The greatest is the least of the negated costs."""

    LEAST = 1
    GREATEST = -1


@dataclass(frozen=True)
class Variable:
    """A choice of one of these values. One that is not told serves the model alone: no plan shows it."""

    name: str
    values: Tuple[Hashable, ...]
    is_told: bool = True


@dataclass(frozen=True)
class Table:
    """A cost function: the cost of each cell of its scope, the last variable running fastest; of an unlisted cell the default.

    `cells` is how many cells there are.
    """

    scope: Tuple[int, ...]
    cells: int
    default: Optional[Cost]
    listed: Dict[int, Optional[Cost]]

    @staticmethod
    def dense(scope: Sequence[int], costs: Sequence[Optional[Cost]]) -> Table:
        """The function with these costs, one for each cell. The commonest is the default."""
        default = Counter(costs).most_common(1)[0][0]
        listed = {cell: cost for cell, cost in enumerate(costs) if cost != default}
        return Table(tuple(scope), len(costs), default, listed)

    @staticmethod
    def sparse(scope: Sequence[int], cells: int, default: Optional[Cost], listed: Dict[int, Optional[Cost]]) -> Table:
        """The function with this default. Where each cell is listed the default says nothing, and the commonest takes its place."""
        if len(listed) == cells:
            return Table.dense(scope, [listed[cell] for cell in range(cells)])
        return Table(tuple(scope), cells, default, {cell: cost for cell, cost in listed.items() if cost != default})

    def cost(self, cell: int) -> Optional[Cost]:
        return self.listed.get(cell, self.default)

    def entries(self) -> Iterator[Cost]:
        """The costs that a cell has, without the forbidden ones."""
        for entry in itertools.chain([self.default], self.listed.values()):
            if entry is not None:
                yield entry


@dataclass(frozen=True)
class Units:
    """What a cost of the file is in the user's units: step times it, plus offset, negated where the greatest is asked for."""

    step: Fraction = Fraction(1)
    offset: Fraction = Fraction(0)
    sense: Sense = Sense.LEAST

    def told(self, cost: int) -> Cost:
        return whole_where_it_is(self.sense.value * (self.step * cost + self.offset))


@dataclass
class Network:
    """A weighted constraint network: a plan gives each variable one of its values, and costs the sum of the tables.

    A plan that costs `bound` or more is forbidden. Tables and bound are in units of `unit`; where the greatest is asked for,
    they are negated gains. Costs of a file that are no fractions are rounded: each plan's cost is told to within `rounding`.
    """

    name: str
    variables: List[Variable]
    tables: List[Table]
    bound: Optional[Cost] = None
    sense: Sense = Sense.LEAST
    unit: Fraction = Fraction(1)
    rounding: Fraction = Fraction(0)

    def sizes(self) -> List[int]:
        return [len(variable.values) for variable in self.variables]

    def plan(self, places: Sequence[int]) -> Plan:
        """The plan with these numbers of values. ModelError where there is none."""
        if len(places) != len(self.variables):
            raise ModelError(f"{len(places)} values for {len(self.variables)} variables")
        for variable, place in zip(self.variables, places):
            if not 0 <= place < len(variable.values):
                raise ModelError(f"{variable.name} has no value {place}")
        pairs = zip(self.variables, places)
        return {variable.name: variable.values[place] for variable, place in pairs if variable.is_told}

    def price(self, places: Sequence[int]) -> Optional[Cost]:
        """What the plan with these numbers of values costs in the user's units, or FORBIDDEN."""
        sizes, total = self.sizes(), Fraction(0)
        for table in self.tables:
            cost = table.cost(cell_of([places[number] for number in table.scope], [sizes[number] for number in table.scope]))
            if cost is None:
                return FORBIDDEN
            total += cost
        if self.bound is not None and total >= self.bound:
            return FORBIDDEN
        return whole_where_it_is(self.sense.value * self.unit * total)


@dataclass
class Whole:
    """A network in whole costs from 0 on: a cost of table i is (cost - shifts[i]) times scale, or `top` where it is forbidden."""

    network: Network
    scale: int = field(init=False)
    shifts: List[Cost] = field(init=False)
    top: int = field(init=False)

    def __post_init__(self) -> None:
        check_limits(self.network)
        tables = self.network.tables
        self.scale = scale_of(cost.denominator for table in tables for cost in table.entries())
        self.shifts = [min(0, min(table.entries(), default=0)) for table in tables]
        self.top = self._top()
        if self.top >= COST_LIMIT:
            raise ModelError(f"the costs are too great: times {self.scale} they add up to {self.top}, and the limit is 2^63")

    def units(self) -> Units:
        """What a cost of the file is in the network's own units."""
        network = self.network
        return Units(network.unit / self.scale, network.unit * sum(self.shifts, Fraction(0)), network.sense)

    def _top(self) -> int:
        """The upper bound of the file: the network's, or one more than a plan can cost, where it has none or too great a one."""
        bound = self.network.bound
        given = None if bound is None else max(0, math.ceil((bound - sum(self.shifts)) * self.scale))
        if given is not None and given < COST_LIMIT:
            return given
        greatest = 0
        for table, shift in zip(self.network.tables, self.shifts):
            costs = (self._scaled(cost, shift) for cost in table.entries())
            greatest += max((cost for cost in costs if given is None or cost < given), default=0)
        return greatest + 1

    def _scaled(self, cost: Cost, shift: Cost) -> int:
        return int((cost - shift) * self.scale)

    def _cost(self, cost: Optional[Cost], shift: Cost) -> int:
        return self.top if cost is None else min(self.top, self._scaled(cost, shift))

    def write(self, file: TextIO) -> None:
        """Puts the network in the wcsp format (docs/FORMAT.md)."""
        sizes, tables = self.network.sizes(), self.network.tables
        print(word_of(self.network.name), len(sizes), max(sizes), len(tables), self.top, file=file)
        print(*sizes, file=file)
        for table, shift in zip(tables, self.shifts):
            scope_sizes = [sizes[number] for number in table.scope]
            default = self._cost(table.default, shift)
            priced = ((cell, self._cost(cost, shift)) for cell, cost in sorted(table.listed.items()))
            listed = [(cell, cost) for cell, cost in priced if cost != default]
            print(len(table.scope), *table.scope, default, len(listed), file=file)
            for cell, cost in listed:
                print(*values_of(cell, scope_sizes), cost, file=file)


def check_limits(network: Network) -> None:
    """ModelError where the program would refuse the network's size."""
    sizes, tables = network.sizes(), network.tables
    if not sizes:
        raise ModelError("there are no variables")
    if len(sizes) > MOST_VARIABLES:
        raise ModelError(f"{len(sizes)} variables are too many: the limit is {MOST_VARIABLES}")
    if len(tables) > MOST_FUNCTIONS:
        raise ModelError(f"{len(tables)} cost functions are too many: the limit is {MOST_FUNCTIONS}")
    for variable in network.variables:
        check_values(variable.name, variable.values)
    for table in tables:
        cells_of([network.variables[number].name for number in table.scope], [sizes[number] for number in table.scope])
    cells = sum(table.cells for table in tables)
    if cells > MOST_CELLS:
        raise ModelError(f"{cells} cells in all cost functions are too many: the limit is {MOST_CELLS}")


def check_values(name: str, values: Sequence[Hashable]) -> None:
    """ModelError where a variable can't have these values."""
    if not values:
        raise ModelError(f"{name} has no values")
    if len(values) > MOST_VALUES:
        raise ModelError(f"{name} has {len(values)} values: the limit is {MOST_VALUES}")


def cells_of(names: Sequence[str], sizes: Sequence[int]) -> int:
    """How many cells a function of these variables has. ModelError where they are too many."""
    cells = 1
    for size in sizes:
        cells *= size
        if cells > MOST_TABLE:
            shown = ", ".join(names[:4]) + (" .." if len(names) > 4 else "")
            raise ModelError(f"a cost function of {shown} has too many cells: the limit is {MOST_TABLE}")
    return cells


def cell_of(values: Sequence[int], sizes: Sequence[int]) -> int:
    """The number of the cell of these values, the last one running fastest."""
    cell = 0
    for value, size in zip(values, sizes):
        cell = cell * size + value
    return cell


def values_of(cell: int, sizes: Sequence[int]) -> List[int]:
    """The values of a cell."""
    values = [0] * len(sizes)
    for place in range(len(sizes) - 1, -1, -1):
        cell, values[place] = divmod(cell, sizes[place])
    return values


def scale_of(denominators: Iterable[int]) -> int:
    """The factor that makes fractions with these denominators whole: a power of ten where one does, else their least multiple."""
    scale = 1
    for denominator in set(denominators):
        scale = scale * denominator // math.gcd(scale, denominator)
    digits, rest = 0, scale
    while math.gcd(rest, 10) > 1:
        digits, rest = digits + 1, rest // math.gcd(rest, 10)
    return 10**digits if rest == 1 else scale


def whole_where_it_is(cost: Cost) -> Cost:
    return int(cost) if cost.denominator == 1 else cost


def said(cost: Cost) -> str:
    """A cost in words: as a decimal where it is one, else as a fraction."""
    denominator = cost.denominator
    digits = next((count for count in range(40) if 10**count % denominator == 0), None)
    if digits is None:
        return str(cost)
    number = f"{abs(cost.numerator) * (10**digits // denominator):0{digits + 1}d}"
    sign = "-" if cost < 0 else ""
    return sign + (number if digits == 0 else f"{number[:-digits]}.{number[-digits:]}")


def exact(amount: Any) -> Cost:
    """A cost as an exact number: a float is the decimal that Python prints for it. ModelError where it is none."""
    if isinstance(amount, bool):
        raise ModelError(f"{amount} is a truth value and no cost: write a number, or use `forbid`")
    if isinstance(amount, int):
        return amount
    if isinstance(amount, float) and math.isfinite(amount):
        return whole_where_it_is(Fraction(repr(amount)))
    if isinstance(amount, Fraction) or (isinstance(amount, Decimal) and amount.is_finite()):
        return whole_where_it_is(Fraction(amount))
    raise ModelError(f"{amount!r} is no cost: it has to be a finite number, or FORBIDDEN")


def word_of(name: str) -> str:
    """A network's name as one word, as the format asks for it."""
    return "_".join(name.split()) or "network"
