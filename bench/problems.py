"""What a kind of problem is for the measurements: numbers drawn from a seed, rules, and a problem as a network."""

from __future__ import annotations

import itertools
import math
import random
from abc import ABC, abstractmethod
from collections.abc import Iterator, Mapping, Sequence
from dataclasses import dataclass
from typing import ClassVar, Self, TypeVar

from networks import Function, Network, Values

Item = TypeVar("Item")
Edge = tuple[int, int]
Site = tuple[int, ...]
Shape = Mapping[str, int]


class Draws:
    """Numbers drawn from a seed. Of Python's generator only random() is used, which every version keeps as it is."""

    def __init__(self, seed: str) -> None:
        self._random = random.Random(seed).random

    def below(self, bound: int) -> int:
        return int(self._random() * bound)

    def between(self, least: int, most: int) -> int:
        return least + self.below(most - least + 1)

    def pick(self, items: Sequence[Item]) -> Item:
        return items[self.below(len(items))]

    def subset(self, items: Sequence[Item], count: int) -> list[Item]:
        """So many of the items, each at most once, in their order."""
        places = list(range(len(items)))
        for place in range(count):
            other = self.between(place, len(places) - 1)
            places[place], places[other] = places[other], places[place]
        return [items[place] for place in sorted(places[:count])]

    def order(self, items: Sequence[Item]) -> list[Item]:
        """All of the items, in any order."""
        left = list(items)
        return [left.pop(self.below(len(left))) for _ in items]

    def edges(self, vertices: int, count: int) -> list[Edge]:
        return self.subset(list(itertools.combinations(range(vertices), 2)), count)

    def site(self, *bounds: int) -> Site:
        return tuple(self.below(bound) for bound in bounds)

    def signs(self, count: int) -> Values:
        return tuple(self.below(2) for _ in range(count))


def distance(site: Site, other: Site) -> int:
    """The whole part of the distance in space, the same on every machine."""
    return math.isqrt(sum((a - b) ** 2 for a, b in zip(site, other)))


def nearest(sites: Sequence[Site], count: int) -> list[Edge]:
    """So many pairs of sites, the nearest ones."""
    pairs = itertools.combinations(range(len(sites)), 2)
    return sorted(sorted(pairs, key=lambda pair: distance(sites[pair[0]], sites[pair[1]]))[:count])


@dataclass(frozen=True)
class Rule:
    """Tuples of values of some variables that are forbidden."""

    scope: Values
    broken: Sequence[Values]

    def function(self, top: int) -> Function:
        return Function(self.scope, 0, dict.fromkeys(self.broken, top))


@dataclass(frozen=True)
class Relation:
    """Tuples of values of some variables that are allowed. All others are forbidden."""

    scope: Values
    kept: Sequence[Values]

    def function(self, top: int) -> Function:
        return Function(self.scope, top, dict.fromkeys(self.kept, 0))


class Problem(ABC):
    """One instance of a kind. A class without further abstract parts is a kind, and its docstring describes it."""

    name: ClassVar[str]
    shapes: ClassVar[Mapping[str, Shape]]

    @classmethod
    @abstractmethod
    def draw(cls, draws: Draws, shape: Shape) -> Self:
        """The instance of a shape that these draws give."""

    @abstractmethod
    def sizes(self) -> list[int]:
        """How many values each variable has."""

    @abstractmethod
    def functions(self) -> Iterator[Function]:
        """What is paid, where no rule is broken."""

    def rules(self) -> Iterator[Rule | Relation]:
        """What must hold."""
        return iter(())

    @abstractmethod
    def cost(self, values: Values) -> int | None:
        """What an assignment costs by the problem's own words, or None where it breaks a rule."""

    def network(self, name: str) -> Network:
        """The problem as a network. Its upper bound is one more than all that may be paid; a broken rule costs it."""
        functions = list(self.functions())
        top = 1 + sum(function.greatest() for function in functions)
        functions += (rule.function(top) for rule in self.rules())
        return Network(name, tuple(self.sizes()), functions, top)
