"""Weighted formulas (MaxSAT): wcnf of 2022, with `h` for hard clauses, and the classic one, with `p wcnf`."""

from __future__ import annotations

from dataclasses import dataclass, field
from typing import Dict, Final, List, Optional, Sequence, Tuple

from ..network import FORBIDDEN, MOST_VARIABLES, Cost, Network, Table, Variable, cell_of
from .text import FormatError, lines_with_numbers

# The most literals of a clause that becomes one cost function. A longer one is cut, with an added variable at each cut.
WIDEST: Final = 12

Clause = Tuple[Optional[int], List[int]]


@dataclass
class _Formula:
    """Clauses with their weights, None where one is hard; the number of variables, and a bound that a plan stays below."""

    count: int = 0
    bound: Optional[int] = None
    clauses: List[Clause] = field(default_factory=list)


def read(text: str, name: str) -> Network:
    """The network of a formula. Variable 1 of the file is named 1; its values are false and true. FormatError where it is none."""
    lines = ((number, words) for number, words in lines_with_numbers(text) if not words[0].startswith("c"))
    number, first = next(lines, (1, []))
    if first[:1] == ["p"]:
        formula = _classic(number, first, [word for _, words in lines for word in words])
    else:
        formula = _Formula()
        for place, words in [(number, first), *lines] if first else []:
            _add_line(formula, place, words)
    if formula.count == 0:
        raise FormatError("the formula has no variables")
    variables = [Variable(str(number), ("false", "true")) for number in range(1, formula.count + 1)]
    network = Network(name, variables, [], formula.bound)
    for weight, literals in formula.clauses:
        _add_clause(network, FORBIDDEN if weight is None else weight, literals)
    return network


def _add_line(formula: _Formula, place: int, words: Sequence[str]) -> None:
    """A line of the later format: `h` or a weight, literals, and 0."""
    if words[-1] != "0" or "0" in words[1:-1] or len(words) < 2:
        raise FormatError(f"line {place} of the wcnf file is no clause: a weight or h, literals, and 0 at its end")
    weight = None if words[0] == "h" else _number(words[0], f"weight in line {place}")
    literals = [_number(word, f"literal in line {place}") for word in words[1:-1]]
    if weight is not None and weight < 0:
        raise FormatError(f"the weight in line {place} is negative: write the negated literals with the weight's amount")
    formula.count = max([formula.count, *map(abs, literals)])
    if formula.count > MOST_VARIABLES:
        raise FormatError(f"a literal in line {place} is beyond the limit of {MOST_VARIABLES} variables")
    formula.clauses.append((weight, literals))


def _classic(place: int, header: Sequence[str], words: Sequence[str]) -> _Formula:
    """The classic format: `p wcnf N C TOP`, and clauses over any lines. Without TOP no clause is hard."""
    if len(header) not in (4, 5) or header[1] != "wcnf":
        raise FormatError(f"line {place} is {' '.join(header)!r}, but has to be 'p wcnf VARIABLES CLAUSES TOP'")
    numbers = [_number(word, "number of the header") for word in header[2:]]
    if not 1 <= numbers[0] <= MOST_VARIABLES or min(numbers) < 0:
        raise FormatError(f"the header {' '.join(header)!r} has a number out of range")
    formula = _Formula(numbers[0], numbers[2] if len(numbers) == 3 else None)
    rest = iter(words)
    for count in range(1, numbers[1] + 1):
        weight = _number(next(rest, "nothing"), f"weight of clause {count}")
        literals = []
        for word in rest:
            if word == "0":
                break
            literals.append(_number(word, f"literal of clause {count}"))
        else:
            raise FormatError(f"clause {count} of the wcnf file has no 0 at its end")
        if weight < 0 or any(abs(literal) > formula.count for literal in literals):
            raise FormatError(f"clause {count} has a negative weight or a literal beyond {formula.count}")
        formula.clauses.append((None if formula.bound is not None and weight >= formula.bound else weight, literals))
    return formula


def _number(word: str, meaning: str) -> int:
    try:
        return int(word)
    except ValueError:
        raise FormatError(f"a {meaning} is {word!r}, which is no whole number") from None


def _add_clause(network: Network, weight: Optional[Cost], literals: Sequence[int]) -> None:
    """Adds the functions of a clause: its weight is paid where no literal is true.

    A long clause is cut in two, with a variable that is free to make one of them true: so one of them is paid, where none
    of its literals is true, and else none. So on with the second one.
    """
    values: Dict[int, int] = {}
    for literal in literals:
        if values.setdefault(abs(literal) - 1, int(literal < 0)) != int(literal < 0):
            return  # a literal and its negation: one is always true
    rest = sorted(values.items())
    while len(rest) > WIDEST:
        added = len(network.variables)
        network.variables.append(Variable(f"cut {added}", ("false", "true"), is_told=False))
        _add_table(network, weight, [*rest[: WIDEST - 1], (added, 0)])
        rest = [*rest[WIDEST - 1 :], (added, 1)]
    _add_table(network, weight, rest)


def _add_table(network: Network, weight: Optional[Cost], broken: Sequence[Tuple[int, int]]) -> None:
    """A function that costs the weight where each of these variables has this value."""
    if weight == 0:
        return
    cell = cell_of([value for _, value in broken], [2] * len(broken))
    network.tables.append(Table.sparse([number for number, _ in broken], 2 ** len(broken), 0, {cell: weight}))
