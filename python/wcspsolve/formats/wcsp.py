"""toulbar2's wcsp format (docs/FORMAT.md), read as the program reads it."""

from __future__ import annotations

from typing import Dict, List, Tuple

from ..network import (
    COST_LIMIT,
    MOST_CELLS,
    MOST_FUNCTIONS,
    MOST_VALUES,
    MOST_VARIABLES,
    Network,
    Table,
    Variable,
    cell_of,
    cells_of,
)
from .text import FormatError, Words

Shared = List[Tuple[List[int], int, Dict[int, int]]]


def read(text: str) -> Network:
    """The network of a wcsp text, whose variables are named x0, x1 and so on. FormatError where it is none."""
    words = Words(text, "wcsp")
    name = words.word("name")
    count = words.number("number of variables", 1, MOST_VARIABLES)
    words.number("greatest domain size", 1, COST_LIMIT)
    functions = words.number("number of functions", 0, MOST_FUNCTIONS)
    bound = words.number("upper bound", 0, COST_LIMIT - 1)
    sizes = [words.number("domain size", 1, MOST_VALUES) for _ in range(count)]
    shared: Shared = []
    tables = [_function(words, sizes, shared) for _ in range(functions)]
    variables = [Variable(f"x{number}", tuple(range(size))) for number, size in enumerate(sizes)]
    return Network(name, variables, tables, bound)


def _function(words: Words, sizes: List[int], shared: Shared) -> Table:
    arity = words.number("arity", -MOST_VARIABLES, MOST_VARIABLES)
    scope = [words.number("variable", 0, len(sizes) - 1) for _ in range(abs(arity))]
    if len(set(scope)) < len(scope):
        raise FormatError(f"a function has a variable twice: {scope}")
    scope_sizes = [sizes[number] for number in scope]
    cells = cells_of([f"x{number}" for number in scope], scope_sizes)
    default = words.number("default cost", -1, COST_LIMIT - 1)
    if default == -1:
        raise FormatError(f"a function of {scope} is global ({words.word('keyword')}): list its costs, as docs/MODELLING.md shows")
    listings = words.number("number of listings", -MOST_FUNCTIONS, MOST_CELLS)
    if listings < 0:
        default, listed = _of_shared(shared, -listings, scope_sizes, arity)
        return Table.sparse(scope, cells, default, dict(listed))
    listed = {}
    for _ in range(listings):
        values = [words.number("value", 0, size - 1) for size in scope_sizes]
        listed[cell_of(values, scope_sizes)] = words.number("cost", 0, COST_LIMIT - 1)
    if arity < 0:
        shared.append((scope_sizes, default, dict(listed)))
    return Table.sparse(scope, cells, default, dict(listed))


def _of_shared(shared: Shared, number: int, sizes: List[int], arity: int) -> Tuple[int, Dict[int, int]]:
    """The table with this number, from 1 on."""
    if arity < 0 or number > len(shared) or shared[number - 1][0] != sizes:
        raise FormatError(f"a function with the sizes {sizes} can't have shared table {number}")
    return shared[number - 1][1], shared[number - 1][2]
