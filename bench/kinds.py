"""Instances for the measurements: kinds of problems that are drawn from seeds, in sizes from tiny to large.

Each kind is a problem in its own words, with what an assignment costs said from these directly; its cost functions and
rules are said beside that, and the self-test of solving.py compares the two on the tiny size. No instance is anyone's
data: the sources that are named say what a kind is after. problems.py has what all kinds share, more_kinds.py has kinds
that the list at the end includes.
"""

from __future__ import annotations

import itertools
import math
from collections.abc import Iterator
from dataclasses import dataclass
from typing import ClassVar, Self

from more_kinds import JobShops, Magic, Pedigrees, Photographs, Queens, Rosters, Threading
from networks import Function, Values, tabulate
from problems import Draws, Edge, Problem, Rule, Shape, distance, nearest

SIZES = ("tiny", "small", "medium", "large")


def instance(kind: type[Problem], size: str, seed: int) -> Problem:
    return kind.draw(Draws(f"{kind.name} {size} {seed}"), kind.shapes[size])


@dataclass(frozen=True)
class Frequency(Problem):
    """Frequency assignment with distances: the two directions of a radio link are 238 apart, and links that are near
    each other pay a weight where their frequencies are not more than a distance apart.

    After the Radio Link Frequency Assignment Problem of CELAR (Cabon, de Givry, Lobjois, Schiex and Warners, "Radio
    Link Frequency Assignment", Constraints 4, 1999): its frequencies, the 238, and the weights 1000, 100, 10 and 1.
    """

    name: ClassVar = "frequency"
    shapes: ClassVar = {
        "tiny": {"links": 3, "block": 1, "disturbances": 12},
        "small": {"links": 7, "block": 4, "disturbances": 60},
        "medium": {"links": 8, "block": 8, "disturbances": 90},
        "large": {"links": 10, "block": 11, "disturbances": 150},
    }

    frequencies: list[int]
    links: int
    disturbances: list[tuple[Edge, int, int]]

    @classmethod
    def draw(cls, draws: Draws, shape: Shape) -> Self:
        frequencies = [start + 14 * step for start in (16, 254, 414, 652) for step in range(shape["block"])]
        sites = [site for _ in range(shape["links"]) for site in [draws.site(1000, 1000)] * 2]
        partners = shape["links"]
        pairs = [pair for pair in nearest(sites, shape["disturbances"] + partners) if pair[0] // 2 != pair[1] // 2]
        disturbances = [
            (pair, draws.pick((29, 57, 85, 113, 169, 239)), draws.pick((1000, 100, 10, 1)))
            for pair in pairs[: shape["disturbances"]]
        ]
        return cls(frequencies, shape["links"], disturbances)

    def sizes(self) -> list[int]:
        return [len(self.frequencies)] * (2 * self.links)

    def _apart(self, value: int, other: int) -> int:
        return abs(self.frequencies[value] - self.frequencies[other])

    def functions(self) -> Iterator[Function]:
        for scope, least, weight in self.disturbances:
            yield tabulate(scope, self.sizes(), lambda a, b: weight if self._apart(a, b) <= least else 0)

    def rules(self) -> Iterator[Rule]:
        pairs = itertools.product(range(len(self.frequencies)), repeat=2)
        broken = [pair for pair in pairs if self._apart(*pair) != 238]
        return (Rule((2 * link, 2 * link + 1), broken) for link in range(self.links))

    def cost(self, values: Values) -> int | None:
        taken = [self.frequencies[value] for value in values]
        if any(abs(taken[2 * link] - taken[2 * link + 1]) != 238 for link in range(self.links)):
            return None
        return sum(weight for (a, b), least, weight in self.disturbances if abs(taken[a] - taken[b]) <= least)


@dataclass(frozen=True)
class Warehouse(Problem):
    """Warehouse location: each store is delivered from one warehouse, at a cost by distance and demand, and a warehouse
    that delivers must be open, which costs too. The variables are the stores, then whether each warehouse is open.

    The uncapacitated facility location problem of Kratica, Tosic, Filipovic and Ljubic, "Solving the simple plant
    location problem by genetic algorithm", RAIRO Operations Research 35, 2001, whose files toulbar2 is tried on.
    """

    name: ClassVar = "warehouse"
    shapes: ClassVar = {
        "tiny": {"warehouses": 3, "stores": 4},
        "small": {"warehouses": 14, "stores": 30},
        "medium": {"warehouses": 30, "stores": 60},
        "large": {"warehouses": 50, "stores": 100},
    }

    opening: list[int]
    delivery: list[list[int]]

    @classmethod
    def draw(cls, draws: Draws, shape: Shape) -> Self:
        places = [draws.site(1000, 1000) for _ in range(shape["warehouses"])]
        opening = [draws.between(1500, 3000) for _ in places]
        delivery = []
        for _ in range(shape["stores"]):
            site, demand = draws.site(1000, 1000), draws.between(1, 5)
            delivery.append([demand * distance(site, place) for place in places])
        return cls(opening, delivery)

    def sizes(self) -> list[int]:
        return [len(self.opening)] * len(self.delivery) + [2] * len(self.opening)

    def functions(self) -> Iterator[Function]:
        for store, costs in enumerate(self.delivery):
            yield tabulate((store,), self.sizes(), costs.__getitem__)
        for warehouse, cost in enumerate(self.opening):
            yield Function((len(self.delivery) + warehouse,), 0, {(1,): cost})

    def rules(self) -> Iterator[Rule]:
        stores = range(len(self.delivery))
        for store, warehouse in itertools.product(stores, range(len(self.opening))):
            yield Rule((store, len(self.delivery) + warehouse), [(warehouse, 0)])

    def cost(self, values: Values) -> int | None:
        chosen, is_open = values[: len(self.delivery)], values[len(self.delivery) :]
        if not all(is_open[warehouse] for warehouse in chosen):
            return None
        delivered = sum(costs[warehouse] for costs, warehouse in zip(self.delivery, chosen))
        return delivered + sum(cost for cost, value in zip(self.opening, is_open) if value)


class Warehouse150(Warehouse):
    """Warehouse location, large ones with 150 stores. The smaller sizes have the shapes of the kind above."""

    name: ClassVar = "warehouse-150"
    shapes: ClassVar = Warehouse.shapes | {"large": {"warehouses": 50, "stores": 150}}


class Warehouse270(Warehouse):
    """Warehouse location, large ones with 270 stores. The smaller sizes have the shapes of the kind above."""

    name: ClassVar = "warehouse-270"
    shapes: ClassVar = Warehouse.shapes | {"large": {"warehouses": 90, "stores": 270}}


@dataclass(frozen=True)
class MaxCsp(Problem):
    """Random binary constraints, each of which costs 1 where it is broken."""

    values: int
    variables: int
    constraints: list[tuple[Edge, frozenset[Values]]]

    @classmethod
    def draw(cls, draws: Draws, shape: Shape) -> Self:
        values, variables = shape["values"], shape["variables"]
        pairs = list(itertools.product(range(values), repeat=2))
        count = len(pairs) * shape["tightness"] // 100
        edges = draws.edges(variables, shape["constraints"])
        return cls(values, variables, [(edge, frozenset(draws.subset(pairs, count))) for edge in edges])

    def sizes(self) -> list[int]:
        return [self.values] * self.variables

    def functions(self) -> Iterator[Function]:
        for scope, broken in self.constraints:
            yield Function(scope, 0, dict.fromkeys(sorted(broken), 1))

    def cost(self, values: Values) -> int:
        return sum((values[a], values[b]) in broken for (a, b), broken in self.constraints)


class SparseTight(MaxCsp):
    """Max-CSP, sparse and tight: few constraints, each of which most pairs of values break.

    The random class of that name in Larrosa and Schiex, "In the quest of the best form of local consistency for
    Weighted CSP", IJCAI 2003.
    """

    name: ClassVar = "maxcsp-sparse-tight"
    shapes: ClassVar = {
        "tiny": {"variables": 6, "values": 3, "constraints": 8, "tightness": 70},
        "small": {"variables": 22, "values": 8, "constraints": 50, "tightness": 75},
        "medium": {"variables": 34, "values": 10, "constraints": 84, "tightness": 80},
        "large": {"variables": 42, "values": 10, "constraints": 108, "tightness": 80},
    }


class DenseLoose(MaxCsp):
    """Max-CSP, dense and loose: a constraint on nearly each pair of variables, each of which few pairs of values break.

    The random class of that name in Larrosa and Schiex, IJCAI 2003, as above.
    """

    name: ClassVar = "maxcsp-dense-loose"
    shapes: ClassVar = {
        "tiny": {"variables": 6, "values": 3, "constraints": 14, "tightness": 45},
        "small": {"variables": 16, "values": 5, "constraints": 110, "tightness": 30},
        "medium": {"variables": 20, "values": 6, "constraints": 170, "tightness": 25},
        "large": {"variables": 26, "values": 6, "constraints": 290, "tightness": 20},
    }


@dataclass(frozen=True)
class Weighted(Problem):
    """A random graph with weights, each of which is paid where its two vertices have the same value."""

    values: int
    vertices: int
    weights: dict[Edge, int]

    @classmethod
    def draw(cls, draws: Draws, shape: Shape) -> Self:
        edges = draws.edges(shape["vertices"], shape["edges"])
        return cls(shape["values"], shape["vertices"], {edge: draws.between(1, shape["weight"]) for edge in edges})

    def sizes(self) -> list[int]:
        return [self.values] * self.vertices

    def functions(self) -> Iterator[Function]:
        for scope, weight in self.weights.items():
            yield Function(scope, 0, {(value, value): weight for value in range(self.values)})

    def cost(self, values: Values) -> int:
        return sum(weight for (a, b), weight in self.weights.items() if values[a] == values[b])


class Colouring(Weighted):
    """Weighted graph colouring: an edge costs its weight where its ends have the same colour.

    Graphs as in the colouring part of the second DIMACS challenge (Johnson and Trick, "Cliques, Coloring, and
    Satisfiability", 1996), here with too few colours and a weight on each edge.
    """

    name: ClassVar = "colouring"
    shapes: ClassVar = {
        "tiny": {"vertices": 7, "values": 3, "edges": 16, "weight": 9},
        "small": {"vertices": 28, "values": 3, "edges": 100, "weight": 9},
        "medium": {"vertices": 38, "values": 4, "edges": 190, "weight": 9},
        "large": {"vertices": 48, "values": 4, "edges": 250, "weight": 9},
    }


class MaxCut(Weighted):
    """Max-cut: an edge costs its weight where its ends are on the same side.

    One of Karp's problems ("Reducibility among combinatorial problems", 1972); random graphs as in the max-cut
    families of the Max-SAT Evaluations.
    """

    name: ClassVar = "maxcut"
    shapes: ClassVar = {
        "tiny": {"vertices": 9, "values": 2, "edges": 20, "weight": 5},
        "small": {"vertices": 36, "values": 2, "edges": 150, "weight": 5},
        "medium": {"vertices": 54, "values": 2, "edges": 270, "weight": 5},
        "large": {"vertices": 66, "values": 2, "edges": 350, "weight": 5},
    }


@dataclass(frozen=True)
class MaxSat(Problem):
    """Random weighted clauses: one costs its weight where each of its literals is false."""

    variables: int
    clauses: list[tuple[Values, Values, int]]

    @classmethod
    def draw(cls, draws: Draws, shape: Shape) -> Self:
        variables, length = range(shape["variables"]), shape["length"]
        clauses = [
            (tuple(draws.subset(variables, length)), draws.signs(length), draws.between(1, 9))
            for _ in range(shape["clauses"])
        ]
        return cls(shape["variables"], clauses)

    def sizes(self) -> list[int]:
        return [2] * self.variables

    def functions(self) -> Iterator[Function]:
        for scope, signs, weight in self.clauses:
            yield Function(scope, 0, {tuple(1 - sign for sign in signs): weight})

    def cost(self, values: Values) -> int:
        return sum(
            weight
            for scope, signs, weight in self.clauses
            if not any(values[variable] == sign for variable, sign in zip(scope, signs))
        )


class Max2Sat(MaxSat):
    """Weighted Max-2-SAT: random clauses of two literals.

    As the random families of the weighted track of the Max-SAT Evaluations (Argelich, Li, Manya and Planes, "The First
    and Second Max-SAT Evaluations", JSAT 4, 2008).
    """

    name: ClassVar = "max2sat"
    shapes: ClassVar = {
        "tiny": {"variables": 9, "clauses": 30, "length": 2},
        "small": {"variables": 50, "clauses": 240, "length": 2},
        "medium": {"variables": 80, "clauses": 420, "length": 2},
        "large": {"variables": 100, "clauses": 560, "length": 2},
    }


class Max3Sat(MaxSat):
    """Weighted Max-3-SAT: random clauses of three literals, so functions of three variables.

    As Max-2-SAT, from the same families.
    """

    name: ClassVar = "max3sat"
    shapes: ClassVar = {
        "tiny": {"variables": 9, "clauses": 50, "length": 3},
        "small": {"variables": 30, "clauses": 220, "length": 3},
        "medium": {"variables": 46, "clauses": 380, "length": 3},
        "large": {"variables": 60, "clauses": 500, "length": 3},
    }


@dataclass(frozen=True)
class Latin(Problem):
    """Latin squares with wishes: each row and each column has each value once, and each cell pays for its value.

    The weighted Latin square of toulbar2's tutorials (https://toulbar2.github.io/toulbar2/), with rules on pairs.
    """

    name: ClassVar = "latin"
    shapes: ClassVar = {"tiny": {"side": 3}, "small": {"side": 5}, "medium": {"side": 6}, "large": {"side": 7}}

    side: int
    wishes: list[list[int]]

    @classmethod
    def draw(cls, draws: Draws, shape: Shape) -> Self:
        side = shape["side"]
        return cls(side, [[draws.between(0, 19) for _ in range(side)] for _ in range(side * side)])

    def sizes(self) -> list[int]:
        return [self.side] * len(self.wishes)

    def functions(self) -> Iterator[Function]:
        for cell, costs in enumerate(self.wishes):
            yield tabulate((cell,), self.sizes(), costs.__getitem__)

    def rules(self) -> Iterator[Rule]:
        same = [(value, value) for value in range(self.side)]
        for pair in itertools.combinations(range(len(self.wishes)), 2):
            (row, column), (other_row, other_column) = (divmod(cell, self.side) for cell in pair)
            if row == other_row or column == other_column:
                yield Rule(pair, same)

    def cost(self, values: Values) -> int | None:
        rows = [values[start : start + self.side] for start in range(0, len(values), self.side)]
        if any(len(set(line)) < self.side for line in itertools.chain(rows, zip(*rows))):
            return None
        return sum(costs[value] for costs, value in zip(self.wishes, values))


@dataclass(frozen=True)
class SideChains(Problem):
    """Side chains of a protein: each position takes one of 20 to 50 rotamers, each with an energy, and positions that
    are near each other pay by how near the tips of their side chains come. All tables of two variables are dense.

    Computational protein design as a cost function network (Allouche, Andre, Barbe, Davies, de Givry, Katsirelos,
    O'Sullivan, Prestwich, Schiex and Traore, Artificial Intelligence 212, 2014), with a made energy in whole numbers.
    """

    name: ClassVar = "sidechains"
    shapes: ClassVar = {
        "tiny": {"positions": 3, "least": 7, "most": 12, "contacts": 3},
        "small": {"positions": 10, "least": 20, "most": 50, "contacts": 26},
        "medium": {"positions": 18, "least": 20, "most": 50, "contacts": 70},
        "large": {"positions": 30, "least": 20, "most": 50, "contacts": 140},
    }

    energies: list[list[int]]
    pairs: dict[Edge, list[list[int]]]

    @classmethod
    def draw(cls, draws: Draws, shape: Shape) -> Self:
        side = 40 * math.isqrt(shape["positions"])
        backbone = [draws.site(side, side, 60) for _ in range(shape["positions"])]
        counts = [draws.between(shape["least"], shape["most"]) for _ in backbone]
        tips = [
            [tuple(x + draws.between(-45, 45) for x in site) for _ in range(count)]
            for site, count in zip(backbone, counts)
        ]
        energies = [[draws.between(0, 400) for _ in rotamers] for rotamers in tips]
        pairs = {
            (a, b): [[cls._energy(distance(tip, other), draws) for other in tips[b]] for tip in tips[a]]
            for a, b in nearest(backbone, shape["contacts"])
        }
        return cls(energies, pairs)

    @staticmethod
    def _energy(apart: int, draws: Draws) -> int:
        """Much where two tips clash, least where they just touch, and a little noise."""
        clash = max(0, 20 - apart) ** 2 * 20
        touch = min(120, 6 * max(0, apart - 20))
        return clash + touch + draws.below(30)

    def sizes(self) -> list[int]:
        return [len(costs) for costs in self.energies]

    def functions(self) -> Iterator[Function]:
        for position, costs in enumerate(self.energies):
            yield tabulate((position,), self.sizes(), costs.__getitem__)
        for scope, table in self.pairs.items():
            yield tabulate(scope, self.sizes(), lambda a, b: table[a][b])

    def cost(self, values: Values) -> int:
        own = sum(costs[value] for costs, value in zip(self.energies, values))
        return own + sum(table[values[a]][values[b]] for (a, b), table in self.pairs.items())


@dataclass(frozen=True)
class Chain(Problem):
    """A long chain: each variable has costs of its own and a table with the next one.

    The shortest path through a trellis of Viterbi, "Error bounds for convolutional codes", IEEE Transactions on
    Information Theory 13, 1967. Elimination of variables solves it in linear time, and so do supports along the chain.
    """

    name: ClassVar = "chain"
    shapes: ClassVar = {
        "tiny": {"variables": 7, "values": 3},
        "small": {"variables": 100, "values": 5},
        "medium": {"variables": 1000, "values": 5},
        "large": {"variables": 10_000, "values": 5},
    }

    values: int
    own: list[list[int]]
    next: list[list[list[int]]]

    @classmethod
    def draw(cls, draws: Draws, shape: Shape) -> Self:
        values = range(shape["values"])
        own = [[draws.below(50) for _ in values] for _ in range(shape["variables"])]
        return cls(len(values), own, [[[draws.below(50) for _ in values] for _ in values] for _ in own[1:]])

    def sizes(self) -> list[int]:
        return [self.values] * len(self.own)

    def functions(self) -> Iterator[Function]:
        sizes = self.sizes()
        for variable, costs in enumerate(self.own):
            yield tabulate((variable,), sizes, costs.__getitem__)
        for variable, table in enumerate(self.next):
            yield tabulate((variable, variable + 1), sizes, lambda a, b: table[a][b])

    def cost(self, values: Values) -> int:
        steps = sum(table[a][b] for table, a, b in zip(self.next, values, values[1:]))
        return steps + sum(costs[value] for costs, value in zip(self.own, values))


@dataclass(frozen=True)
class Picture(Problem):
    """Grid pictures: a pixel takes one of some shades; it pays for the difference to the shade that was seen, and each
    two neighbours for theirs, up to a bound. The noise is the share of pixels, in percent, that are seen at random.

    Restoring a picture as by Geman and Geman, "Stochastic relaxation, Gibbs distributions, and the Bayesian restoration
    of images", 1984; costs as in Szeliski and others, "A comparative study of energy minimization methods for Markov
    random fields", 2008.
    """

    name: ClassVar = "picture"
    shapes: ClassVar = {
        "tiny": {"rows": 3, "columns": 3, "shades": 3, "noise": 40},
        "small": {"rows": 12, "columns": 12, "shades": 4, "noise": 40},
        "medium": {"rows": 22, "columns": 25, "shades": 5, "noise": 40},
        "large": {"rows": 40, "columns": 50, "shades": 5, "noise": 15},
    }
    seen_weight: ClassVar = 4
    step_weight: ClassVar = 5
    most_steps: ClassVar = 2

    columns: int
    shades: int
    seen: list[int]

    @classmethod
    def draw(cls, draws: Draws, shape: Shape) -> Self:
        rows, columns, shades = shape["rows"], shape["columns"], shape["shades"]
        spots = [(draws.site(rows, columns), draws.below(shades)) for _ in range(2 + rows * columns // 50)]
        seen = []
        for pixel in itertools.product(range(rows), range(columns)):
            _, shade = min(spots, key=lambda spot: distance(spot[0], pixel))
            seen.append(draws.below(shades) if draws.below(100) < shape["noise"] else shade)
        return cls(columns, shades, seen)

    def sizes(self) -> list[int]:
        return [self.shades] * len(self.seen)

    def _neighbours(self) -> Iterator[Edge]:
        for pixel in range(len(self.seen)):
            if (pixel + 1) % self.columns:
                yield pixel, pixel + 1
            if pixel + self.columns < len(self.seen):
                yield pixel, pixel + self.columns

    def functions(self) -> Iterator[Function]:
        sizes = self.sizes()
        for pixel, shade in enumerate(self.seen):
            yield tabulate((pixel,), sizes, lambda value: self.seen_weight * abs(value - shade))
        for scope in self._neighbours():
            yield tabulate(scope, sizes, lambda a, b: self.step_weight * min(self.most_steps, abs(a - b)))

    def cost(self, values: Values) -> int:
        rows = [values[start : start + self.columns] for start in range(0, len(values), self.columns)]
        lines = itertools.chain(rows, zip(*rows))
        steps = [min(self.most_steps, abs(a - b)) for line in lines for a, b in itertools.pairwise(line)]
        changes = [abs(value - shade) for value, shade in zip(values, self.seen)]
        return self.step_weight * sum(steps) + self.seen_weight * sum(changes)


KINDS: dict[str, type[Problem]] = {
    kind.name: kind
    for kind in (
        Frequency,
        Warehouse,
        SparseTight,
        DenseLoose,
        Colouring,
        MaxCut,
        Max2Sat,
        Max3Sat,
        Latin,
        SideChains,
        Chain,
        Picture,
        Warehouse150,
        Warehouse270,
        Photographs,
        Pedigrees,
        Magic,
        JobShops,
        Queens,
        Rosters,
        Threading,
    )
}
