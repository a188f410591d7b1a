"""A planner's words as a network: variables with named values, rules and costs."""

from __future__ import annotations

import itertools
from typing import Any, Callable, Dict, Final, Hashable, Iterable, List, Mapping, Optional, Sequence, TextIO, Tuple

from .network import (
    FORBIDDEN,
    MOST_CELLS,
    MOST_FUNCTIONS,
    MOST_VARIABLES,
    Cost,
    ModelError,
    Network,
    Plan,
    Table,
    Variable,
    Whole,
    cells_of,
    check_values,
    exact,
)
from .report import Listing, listing_of, report_of

# What a cost may be given as: int, float, Decimal or Fraction, or FORBIDDEN.
Amount = Any


class Model:
    """A weighted constraint network: a plan gives each variable one of its values, and costs the sum of the functions."""

    def __init__(self, name: str) -> None:
        if not isinstance(name, str) or not name or name.split() != [name]:
            raise ModelError(f"{name!r} is no name of a model: it has to be one word, without a space")
        self.name: Final = name
        self._variables: Dict[str, Variable] = {}
        self._numbers: Dict[str, int] = {}
        self._tables: List[Table] = []
        self._cells = 0

    def variable(self, name: str, values: Iterable[Hashable]) -> str:
        """A choice: a plan takes exactly one of these values. Answers its name."""
        if isinstance(values, str):
            raise ModelError(f"the values of {name} are {values!r}, which is one word: they have to be a list")
        return self._add(Variable(name, tuple(values)))

    def _add(self, variable: Variable) -> str:
        name = variable.name
        if not isinstance(name, str) or not name.strip():
            raise ModelError(f"{name!r} is no name of a variable")
        if name in self._variables:
            raise ModelError(f"{name} is a variable already")
        check_values(name, variable.values)
        if not all(isinstance(value, Hashable) for value in variable.values):
            raise ModelError(f"{name} has a value that can change, such as a list: take a tuple")
        if len(set(variable.values)) < len(variable.values):
            raise ModelError(f"{name} has a value twice")
        if len(self._variables) == MOST_VARIABLES:
            raise ModelError(f"there are {MOST_VARIABLES} variables already, which is the limit")
        self._numbers[name] = len(self._variables)
        self._variables[name] = variable
        return name

    def _variable(self, name: str) -> Variable:
        if name not in self._variables:
            raise ModelError(f"{name!r} is no variable of {self.name}")
        return self._variables[name]

    def function(self, scope: Sequence[str], cost: Callable[..., Amount]) -> None:
        """A cost function: cost(value, ..) is what values of these variables cost together, or FORBIDDEN."""
        if isinstance(scope, str):
            raise ModelError(f"{scope!r} is one name: the scope is a list of names")
        domains = [self._variable(name).values for name in scope]
        if len(set(scope)) < len(scope):
            raise ModelError(f"a variable stands twice in {', '.join(scope)}")
        self._cells += cells_of(scope, [len(values) for values in domains])
        if self._cells > MOST_CELLS:
            raise ModelError(f"the cost functions have {self._cells} cells in all: the limit is {MOST_CELLS}")
        costs = [_amount(cost(*values)) for values in itertools.product(*domains)]
        if all(amount == 0 for amount in costs):  # a function that costs nothing is left out
            return
        if len(self._tables) == MOST_FUNCTIONS:
            raise ModelError(f"there are {MOST_FUNCTIONS} cost functions already, which is the limit")
        self._tables.append(Table.dense([self._numbers[name] for name in scope], costs))

    def forbid(self, scope: Sequence[str], is_broken: Callable[..., bool]) -> None:
        """A hard rule: no plan has values of these variables for which is_broken(value, ..) is true."""
        self.function(scope, lambda *values: FORBIDDEN if is_broken(*values) else 0)

    def cost(self, name: str, costs: Mapping[Any, Amount]) -> None:
        """What a variable's values cost; a value that is not listed costs nothing."""
        values = set(self._variable(name).values)
        for value in costs:
            if value not in values:
                raise ModelError(f"{value!r} is no value of {name}")
        self.function([name], lambda value: costs.get(value, 0))

    def total(self, name: str, parts: Sequence[str], amount: Callable[[str, Any], int], most: int) -> str:
        """A variable that is the sum of amount(part, value) over these variables, and is at most `most`. Answers its name.

        It is the last of a chain of variables, each of which adds one part to the one before it. No plan shows them.
        """
        sums = [0]
        before = self._add(Variable(f"{name}, 0 added", tuple(sums), is_told=False))
        for count, part in enumerate(parts, start=1):
            amounts = {value: _count(amount(part, value)) for value in self._variable(part).values}
            sums = sorted({old + added for old in sums for added in amounts.values() if old + added <= most})
            if not sums:
                raise ModelError(f"{name}: each sum with {part} is more than {most}")
            here = self._add(Variable(f"{name}, {count} added", tuple(sums), is_told=False))
            self.forbid([before, part, here], lambda old, value, new: new != old + amounts[value])
            before = here
        return before

    def network(self) -> Network:
        """The model as a network of numbered variables."""
        return Network(self.name, list(self._variables.values()), list(self._tables))

    def write(self, file: TextIO) -> None:
        """Puts the network in the wcsp format (docs/FORMAT.md)."""
        Whole(self.network()).write(file)

    def read(self, report: Iterable[str]) -> Tuple[Cost, Plan]:
        """The cost and the plan of a report of `solve`. ValueError where it has no plan."""
        network, read = self.network(), report_of("\n".join(report))
        if read.values is None or read.upper is None:
            raise ValueError("the report has no line of values")
        return Whole(network).units().told(read.upper), network.plan(read.values)

    def read_list(self, report: Iterable[str]) -> Listing:
        """The plans of a report of `kbest`. ValueError where the text is no such report."""
        network = self.network()
        return listing_of("\n".join(report), network, Whole(network).units())


def _amount(amount: Amount) -> Optional[Cost]:
    return FORBIDDEN if amount is FORBIDDEN else exact(amount)


def _count(amount: Any) -> int:
    """What a part adds to a sum: a whole number. A truth value counts as 0 or 1."""
    if not isinstance(amount, int):
        raise ModelError(f"{amount!r} is no whole number, and sums add whole ones")
    return int(amount)
