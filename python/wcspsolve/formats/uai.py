"""The uai format of probabilistic inference: factors whose product is to be the greatest.

A plan costs the sum of the negated natural logarithms of its factors. A factor of 0 forbids. Logarithms are no fractions:
each is rounded to a whole number of parts, `scale` of which are 1.
"""

from __future__ import annotations

import math
from decimal import ROUND_HALF_EVEN, Decimal, localcontext
from fractions import Fraction
from typing import Dict, Final, List, Optional, Tuple

from ..network import FORBIDDEN, MOST_FUNCTIONS, MOST_VALUES, MOST_VARIABLES, Network, Table, Variable, cells_of
from .text import FormatError, Words, is_decimal

# Digits of a logarithm that is near the middle between two parts.
_DIGITS: Final = 60
# A logarithm of the machine's numbers is off by less than this.
_OFF: Final = 1e-11


def read(text: str, name: str, scale: int) -> Network:
    """The network of a MARKOV or BAYES text, whose variables are named x0, x1 and so on. FormatError where it is none."""
    if isinstance(scale, bool) or not isinstance(scale, int) or scale < 1:
        raise FormatError(f"the scale is {scale!r}, and has to be a whole number from 1 on")
    words = Words(text, "uai")
    kind = words.word("kind")
    if kind not in ("MARKOV", "BAYES"):
        raise FormatError(f"the uai file is a {kind!r}: only MARKOV and BAYES are read")
    count = words.number("number of variables", 1, MOST_VARIABLES)
    sizes = [words.number("domain size", 1, MOST_VALUES) for _ in range(count)]
    functions = words.number("number of factors", 0, MOST_FUNCTIONS)
    scopes = [_scope(words, count) for _ in range(functions)]
    logarithms = _Logarithms(scale)
    factors = [_factor(words, scope, sizes, logarithms) for scope in scopes]
    if words.rest():
        raise FormatError(f"the uai file has {words.rest()} words behind its last factor")
    variables = [Variable(f"x{number}", tuple(range(size))) for number, size in enumerate(sizes)]
    rounding = Fraction(sum(is_rounded for _, is_rounded in factors), 2 * scale)
    return Network(name, variables, [table for table, _ in factors], unit=Fraction(1, scale), rounding=rounding)


def _scope(words: Words, count: int) -> List[int]:
    scope = [words.number("variable", 0, count - 1) for _ in range(words.number("arity", 0, count))]
    if len(set(scope)) < len(scope):
        raise FormatError(f"a factor has a variable twice: {scope}")
    return scope


def _factor(words: Words, scope: List[int], sizes: List[int], logarithms: "_Logarithms") -> Tuple[Table, bool]:
    """A factor's costs, and whether one of them is rounded."""
    cells = cells_of([f"x{number}" for number in scope], [sizes[number] for number in scope])
    words.number(f"number of entries of the factor of {scope}", cells, cells)
    entries = [logarithms.cost(words) for _ in range(cells)]
    return Table.dense(scope, [cost for cost, _ in entries]), any(is_rounded for _, is_rounded in entries)


class _Logarithms:
    """Entries as negated natural logarithms, in whole parts; and whether each is rounded, as all are but that of 1."""

    def __init__(self, scale: int) -> None:
        self._scale = scale
        self._known: Dict[str, Tuple[Optional[int], bool]] = {}

    def cost(self, words: Words) -> Tuple[Optional[int], bool]:
        """What the next word costs."""
        word = words.word("entry")
        if word not in self._known:
            if not is_decimal(word):
                raise words.error("entry", word, "no decimal number")
            entry = Decimal(word)
            if entry < 0:
                raise words.error("entry", word, "a factor is not negative")
            self._known[word] = (FORBIDDEN, False) if entry == 0 else (self._parts(entry), entry != 1)
        return self._known[word]

    def _parts(self, entry: Decimal) -> int:
        """The parts nearest to the negated logarithm of an entry above 0."""
        near = float(entry)
        if math.isfinite(near) and near > 1e-300:
            parts = -math.log(near) * self._scale
            if abs(parts) < 2**50 and abs(parts - math.floor(parts) - 0.5) > _OFF * self._scale + abs(parts) * 2**-50:
                return round(parts)
        with localcontext() as context:
            context.prec = _DIGITS
            return int((-entry.ln() * self._scale).to_integral_value(ROUND_HALF_EVEN))
