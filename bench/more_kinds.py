"""More kinds of problems for the measurements, most with hard rules and some with functions of three variables.

kinds.py has the other kinds and the list of all of them, and says what a kind is.
"""

from __future__ import annotations

import itertools
from collections.abc import Callable, Iterator
from dataclasses import dataclass
from typing import ClassVar, Self

from networks import Function, Values, tabulate
from problems import Draws, Edge, Problem, Relation, Rule, Shape


@dataclass(frozen=True)
class Photograph:
    """When it starts, the angle of the mirror, its weight, how much it records, and the ways to take it.

    A way is the cameras that take it together. Value 1 is the first way, value 2 the second.
    """

    start: int
    angle: int
    weight: int
    rate: int
    ways: tuple[Values, ...]


@dataclass(frozen=True)
class Photographs(Problem):
    """Daily photographs of a satellite: each is taken, or costs its weight. One in stereo needs the two outer cameras,
    any other one of the three. A camera needs time from one photograph to the next, more where the angle of its mirror
    changes more, and no three that overlap in time may record more than the capacity.

    The daily management of SPOT5 in Bensana, Lemaitre and Verfaillie, "Earth Observation Satellite Management",
    Constraints 4, 1999.
    """

    name: ClassVar = "photographs"
    shapes: ClassVar = {
        "tiny": {"photographs": 6, "seconds": 40},
        "small": {"photographs": 40, "seconds": 300},
        "medium": {"photographs": 72, "seconds": 460},
        "large": {"photographs": 92, "seconds": 580},
    }
    stereo: ClassVar = ((0, 2),)
    mono: ClassVar = ((0,), (1,), (2,))
    exposure: ClassVar = 12
    turn: ClassVar = 2
    capacity: ClassVar = 11

    photographs: list[Photograph]

    @classmethod
    def draw(cls, draws: Draws, shape: Shape) -> Self:
        starts = sorted(draws.below(shape["seconds"]) for _ in range(shape["photographs"]))
        return cls([cls._photograph(start, draws) for start in starts])

    @classmethod
    def _photograph(cls, start: int, draws: Draws) -> Photograph:
        ways = draws.pick((cls.mono, cls.mono, cls.stereo))
        return Photograph(start, draws.below(50), draws.between(1, 20), draws.between(2, 6), ways)

    def sizes(self) -> list[int]:
        return [1 + len(photograph.ways) for photograph in self.photographs]

    def functions(self) -> Iterator[Function]:
        for variable, photograph in enumerate(self.photographs):
            yield Function((variable,), 0, {(0,): photograph.weight})

    def _too_near(self, one: Photograph, other: Photograph) -> bool:
        return abs(one.start - other.start) < self.exposure + abs(one.angle - other.angle) // self.turn

    def _overlap(self, *photographs: Photograph) -> bool:
        starts = [photograph.start for photograph in photographs]
        return max(starts) - min(starts) < self.exposure

    def rules(self) -> Iterator[Rule]:
        photographs = self.photographs
        taken = [range(1, size) for size in self.sizes()]
        for a, b in itertools.combinations(range(len(photographs)), 2):
            one, other = photographs[a], photographs[b]
            if self._too_near(one, other):
                pairs = itertools.product(taken[a], taken[b])
                yield Rule((a, b), [(x, y) for x, y in pairs if set(one.ways[x - 1]) & set(other.ways[y - 1])])
        for scope in itertools.combinations(range(len(photographs)), 3):
            three = [photographs[variable] for variable in scope]
            if self._overlap(*three) and sum(photograph.rate for photograph in three) > self.capacity:
                yield Rule(scope, list(itertools.product(*(taken[variable] for variable in scope))))

    def cost(self, values: Values) -> int | None:
        taken = [(photograph, value) for photograph, value in zip(self.photographs, values) if value]
        for camera in range(3):
            of_camera = [photograph for photograph, value in taken if camera in photograph.ways[value - 1]]
            if any(self._too_near(*pair) for pair in itertools.combinations(of_camera, 2)):
                return None
        for three in itertools.combinations([photograph for photograph, _ in taken], 3):
            together = all(self._overlap(*pair) for pair in itertools.combinations(three, 2))
            if together and sum(photograph.rate for photograph in three) > self.capacity:
                return None
        return sum(photograph.weight for photograph, value in zip(self.photographs, values) if not value)


@dataclass(frozen=True)
class Pedigrees(Problem):
    """Genotypes of the members of families: a genotype is two alleles, and a child has one of each parent. Members were
    genotyped, some of them wrongly; a genotype that isn't the one that was read costs the weight of that reading. The
    first members are founders, whose parents are not known. Fathers have even numbers, mothers odd ones. How many were
    read, and wrongly, is said in percent.

    Sanchez, de Givry and Schiex, "Mendelian error detection in complex pedigrees using weighted constraint satisfaction
    techniques", Constraints 13, 2008.
    """

    name: ClassVar = "pedigrees"
    shapes: ClassVar = {
        "tiny": {"members": 7, "founders": 3, "alleles": 2, "read": 80, "wrong": 40},
        "small": {"members": 40, "founders": 8, "alleles": 3, "read": 50, "wrong": 40},
        "medium": {"members": 100, "founders": 10, "alleles": 5, "read": 50, "wrong": 40},
        "large": {"members": 160, "founders": 20, "alleles": 6, "read": 50, "wrong": 40},
    }

    alleles: int
    founders: int
    parents: list[Edge]
    readings: dict[int, tuple[Values, int]]

    @classmethod
    def draw(cls, draws: Draws, shape: Shape) -> Self:
        members, founders = range(shape["members"]), shape["founders"]
        parents = [(draws.pick(members[:child:2]), draws.pick(members[1:child:2])) for child in members[founders:]]
        genotypes = cls._genotypes(shape["alleles"])
        true = [draws.pick(genotypes) for _ in members[:founders]]
        for couple in parents:
            true.append(tuple(sorted(draws.pick(true[parent]) for parent in couple)))
        readings = {}
        for member in members:
            genotype = draws.pick(genotypes) if draws.below(100) < shape["wrong"] else true[member]
            if draws.below(100) < shape["read"]:
                readings[member] = (genotype, draws.between(1, 9))
        return cls(shape["alleles"], founders, parents, readings)

    @staticmethod
    def _genotypes(alleles: int) -> list[Values]:
        return list(itertools.combinations_with_replacement(range(alleles), 2))

    def sizes(self) -> list[int]:
        return [len(self._genotypes(self.alleles))] * (self.founders + len(self.parents))

    def functions(self) -> Iterator[Function]:
        genotypes = self._genotypes(self.alleles)
        for member, (genotype, weight) in self.readings.items():
            yield Function((member,), weight, {(genotypes.index(genotype),): 0})

    def rules(self) -> Iterator[Relation]:
        genotypes = self._genotypes(self.alleles)
        values = {genotype: value for value, genotype in enumerate(genotypes)}
        kept = [
            (values[father], values[mother], value)
            for father, mother in itertools.product(genotypes, repeat=2)
            for value in sorted({values[tuple(sorted(pair))] for pair in itertools.product(father, mother)})
        ]
        for child, couple in enumerate(self.parents, self.founders):
            yield Relation((*couple, child), kept)

    def cost(self, values: Values) -> int | None:
        genotypes = self._genotypes(self.alleles)
        taken = [genotypes[value] for value in values]
        for child, (father, mother) in enumerate(self.parents, self.founders):
            a, b = taken[child]
            in_order = a in taken[father] and b in taken[mother]
            if not in_order and not (b in taken[father] and a in taken[mother]):
                return None
        return sum(weight for member, (genotype, weight) in self.readings.items() if taken[member] != genotype)


@dataclass(frozen=True)
class Magic(Problem):
    """Semi-magic squares: the numbers from 1 on, each once, so that all rows and columns have the same sum. The first
    cells are free, the others are given. A free cell may have some of the numbers that are left, those of its column in
    a known square first, and pays for the one it has. Sums are said on three variables each, with running totals as
    variables: the total so far, the next number, the total with it.

    After problem 19 of CSPLib (https://www.csplib.org/Problems/prob019/), with preferences. The known squares are
    that of Durer, 1514, and one by de la Loubere's method, with rows and columns in another order.
    """

    name: ClassVar = "magic"
    shapes: ClassVar = {
        "tiny": {"side": 4, "free": 8, "choices": 2},
        "small": {"side": 4, "free": 13, "choices": 10},
        "medium": {"side": 4, "free": 14, "choices": 13},
        "large": {"side": 5, "free": 18, "choices": 14},
    }
    squares: ClassVar = {
        4: ((16, 3, 2, 13), (5, 10, 11, 8), (9, 6, 7, 12), (4, 15, 14, 1)),
        5: ((17, 24, 1, 8, 15), (23, 5, 7, 14, 16), (4, 6, 13, 20, 22), (10, 12, 19, 21, 3), (11, 18, 25, 2, 9)),
    }

    side: int
    choices: list[list[int]]
    wishes: list[list[int]]

    @classmethod
    def draw(cls, draws: Draws, shape: Shape) -> Self:
        side = shape["side"]
        rows, columns = draws.order(range(side)), draws.order(range(side))
        square = [cls.squares[side][row][column] for row in rows for column in columns]
        choices = [[number] for number in square]
        free = range(shape["free"])
        for cell in free:
            others = draws.order([other for other in free if other != cell])
            others.sort(key=lambda other: other % side != cell % side)
            choices[cell] = sorted(square[other] for other in [cell, *others[: shape["choices"] - 1]])
        return cls(side, choices, [[draws.below(20) for _ in numbers] for numbers in choices])

    def _lines(self) -> list[Values]:
        """The cells of each row, then of each column."""
        rows = [tuple(range(start, start + self.side)) for start in range(0, self.side**2, self.side)]
        return [*rows, *zip(*rows)]

    def _sum(self) -> int:
        return self.side * (self.side**2 + 1) // 2

    def _numbers(self) -> list[list[int]]:
        """What the values of each variable mean: of the cells, then of the running totals of each line.

        Only those totals are kept that the rest of the line can complete.
        """
        numbers = list(self.choices)
        for line in self._lines():
            for place in range(2, self.side - 1):
                rest = self._sums(line[place:])
                numbers.append(sorted(total for total in self._sums(line[:place]) if self._sum() - total in rest))
        return numbers

    def _sums(self, cells: Values) -> set[int]:
        sums = {0}
        for cell in cells:
            sums = {before + number for before in sums for number in self.choices[cell]}
        return sums

    def sizes(self) -> list[int]:
        return [len(numbers) for numbers in self._numbers()]

    def functions(self) -> Iterator[Function]:
        for cell, costs in enumerate(self.wishes):
            yield tabulate((cell,), self.sizes(), costs.__getitem__)

    def rules(self) -> Iterator[Rule | Relation]:
        for a, b in itertools.combinations(range(len(self.choices)), 2):
            pairs = itertools.product(enumerate(self.choices[a]), enumerate(self.choices[b]))
            same = [(x, y) for (x, number), (y, other) in pairs if number == other]
            if same:
                yield Rule((a, b), same)
        total = len(self.choices)
        for before, *middle, cell, last in self._lines():
            for following in middle:
                yield self._relation((before, following, total), lambda a, b, c: a + b == c)
                before, total = total, total + 1
            yield self._relation((before, cell, last), lambda a, b, c: a + b + c == self._sum())

    def _relation(self, scope: Values, holds: Callable[[int, int, int], bool]) -> Relation:
        numbers = self._numbers()
        triples = itertools.product(*(enumerate(numbers[variable]) for variable in scope))
        return Relation(scope, [(a, b, c) for (a, x), (b, y), (c, z) in triples if holds(x, y, z)])

    def cost(self, values: Values) -> int | None:
        taken = [numbers[value] for numbers, value in zip(self._numbers(), values)]
        cells, totals = taken[: len(self.choices)], iter(taken[len(self.choices) :])
        if len(set(cells)) < len(cells):
            return None
        for line in self._lines():
            *sums, _, whole = itertools.accumulate(cells[cell] for cell in line)
            if whole != self._sum() or any(total != next(totals) for total in sums[1:]):
                return None
        return sum(costs[value] for costs, value in zip(self.wishes, values))


@dataclass(frozen=True)
class JobShops(Problem):
    """Job shops: each job goes once to each machine, in an order of its own, and a machine does one job at a time. The
    variables are the starts of the operations, and each job pays for its end. The horizon is the end of a schedule that
    is found first, and some slack.

    The problem of Fisher and Thompson, "Probabilistic learning combinations of local job-shop scheduling rules", in
    Muth and Thompson, "Industrial Scheduling", 1963; here the sum of weighted ends in place of the last one.
    """

    name: ClassVar = "jobshops"
    shapes: ClassVar = {
        "tiny": {"jobs": 2, "machines": 2, "longest": 3, "slack": 1},
        "small": {"jobs": 4, "machines": 4, "longest": 6, "slack": 2},
        "medium": {"jobs": 6, "machines": 4, "longest": 6, "slack": 2},
        "large": {"jobs": 7, "machines": 5, "longest": 8, "slack": 2},
    }

    horizon: int
    weights: list[int]
    jobs: list[list[tuple[int, int]]]

    @classmethod
    def draw(cls, draws: Draws, shape: Shape) -> Self:
        weights = [draws.between(1, 5) for _ in range(shape["jobs"])]
        machines, longest = range(shape["machines"]), shape["longest"]
        jobs = [[(machine, draws.between(1, longest)) for machine in draws.order(machines)] for _ in weights]
        return cls(cls._end(jobs) + shape["slack"], weights, jobs)

    @staticmethod
    def _end(jobs: list[list[tuple[int, int]]]) -> int:
        """The end of a schedule that takes the first operation of each job, then the second of each, and so on."""
        of_job, of_machine = [0] * len(jobs), [0] * len(jobs[0])
        for step, job in itertools.product(range(len(jobs[0])), range(len(jobs))):
            machine, duration = jobs[job][step]
            of_job[job] = of_machine[machine] = max(of_job[job], of_machine[machine]) + duration
        return max(of_job)

    def _operations(self) -> list[tuple[int, int, int]]:
        """The job, the machine and the duration of each variable's operation."""
        return [(job, machine, duration) for job, steps in enumerate(self.jobs) for machine, duration in steps]

    def sizes(self) -> list[int]:
        return [self.horizon - duration + 1 for _, _, duration in self._operations()]

    def functions(self) -> Iterator[Function]:
        for job, weight in enumerate(self.weights):
            _, duration = self.jobs[job][-1]
            last = (job + 1) * len(self.jobs[job]) - 1
            yield tabulate((last,), self.sizes(), lambda start: weight * (start + duration))

    def rules(self) -> Iterator[Rule]:
        sizes = self.sizes()
        for (a, one), (b, other) in itertools.combinations(enumerate(self._operations()), 2):
            (job, machine, duration), (other_job, other_machine, other_duration) = one, other
            starts = itertools.product(range(sizes[a]), range(sizes[b]))
            if job == other_job and b == a + 1:
                yield Rule((a, b), [(x, y) for x, y in starts if y < x + duration])
            elif job != other_job and machine == other_machine:
                yield Rule((a, b), [(x, y) for x, y in starts if x < y + other_duration and y < x + duration])

    def cost(self, values: Values) -> int | None:
        of_job: list[list[tuple[int, int]]] = [[] for _ in self.weights]
        of_machine: list[list[tuple[int, int]]] = [[] for _ in self.jobs[0]]
        for start, (job, machine, duration) in zip(values, self._operations()):
            of_job[job].append((start, start + duration))
            of_machine[machine].append((start, start + duration))
        lines = itertools.chain(of_job, map(sorted, of_machine))
        if any(start < end for line in lines for (_, end), (start, _) in itertools.pairwise(line)):
            return None
        return sum(weight * spans[-1][1] for weight, spans in zip(self.weights, of_job))


@dataclass(frozen=True)
class Queens(Problem):
    """Queens on a chessboard: one in each column, no two of which attack each other, and each square has a cost.

    The weighted n-queens problem of toulbar2's tutorials (https://toulbar2.github.io/toulbar2/).
    """

    name: ClassVar = "queens"
    shapes: ClassVar = {"tiny": {"side": 5}, "small": {"side": 10}, "medium": {"side": 16}, "large": {"side": 20}}

    squares: list[list[int]]

    @classmethod
    def draw(cls, draws: Draws, shape: Shape) -> Self:
        rows = range(shape["side"])
        return cls([[draws.between(1, 100) for _ in rows] for _ in rows])

    def sizes(self) -> list[int]:
        return [len(self.squares)] * len(self.squares)

    def functions(self) -> Iterator[Function]:
        for column, costs in enumerate(self.squares):
            yield tabulate((column,), self.sizes(), costs.__getitem__)

    def rules(self) -> Iterator[Rule]:
        columns = range(len(self.squares))
        for a, b in itertools.combinations(columns, 2):
            rows = itertools.product(columns, repeat=2)
            yield Rule((a, b), [(row, other) for row, other in rows if abs(row - other) in (0, b - a)])

    def cost(self, values: Values) -> int | None:
        rows = set(values)
        rising = {row - column for column, row in enumerate(values)}
        falling = {row + column for column, row in enumerate(values)}
        if min(len(rows), len(rising), len(falling)) < len(values):
            return None
        return sum(costs[row] for costs, row in zip(self.squares, values))


@dataclass(frozen=True)
class Rosters(Problem):
    """Rosters of nurses: each day each nurse is off or has the early, late or night shift. No shift is followed by an
    earlier one on the next day, and nobody has three nights in a row. A nurse pays for shifts by wishes, and for a
    single day off, a single day of work and three days of work in a row. Each two nurses pay for the same shift on a
    day, so that all shifts are manned. The variables are the days of the first nurse, then of the second, and so on.

    Rules and wishes as in Burke, De Causmaecker, Vanden Berghe and Van Landeghem, "The state of the art of nurse
    rostering", Journal of Scheduling 7, 2004.
    """

    name: ClassVar = "rosters"
    shapes: ClassVar = {
        "tiny": {"nurses": 2, "days": 3},
        "small": {"nurses": 3, "days": 7},
        "medium": {"nurses": 4, "days": 10},
        "large": {"nurses": 4, "days": 14},
    }
    shifts: ClassVar = range(4)
    off: ClassVar = 0
    night: ClassVar = 3

    days: int
    wishes: list[list[int]]
    patterns: list[dict[Values, int]]
    crowds: list[list[int]]

    @classmethod
    def draw(cls, draws: Draws, shape: Shape) -> Self:
        nurses, days = range(shape["nurses"]), shape["days"]
        wishes = [[draws.below(10) for _ in cls.shifts] for _ in range(shape["nurses"] * days)]
        priced = ((1, 0, 1), (0, 1, 0), (1, 1, 1))
        patterns = [{pattern: draws.between(1, 9) for pattern in priced} for _ in nurses]
        return cls(days, wishes, patterns, [[draws.between(2, 12) for _ in cls.shifts] for _ in range(days)])

    def sizes(self) -> list[int]:
        return [len(self.shifts)] * len(self.wishes)

    def functions(self) -> Iterator[Function]:
        sizes = self.sizes()
        for variable, costs in enumerate(self.wishes):
            yield tabulate((variable,), sizes, costs.__getitem__)
        for scope in self._three_days():
            prices = self.patterns[scope[0] // self.days]
            yield tabulate(scope, sizes, lambda *three: prices.get(self._worked(three), 0))
        for a, b in itertools.combinations(range(len(sizes)), 2):
            if a % self.days == b % self.days:
                crowd = self.crowds[a % self.days]
                yield Function((a, b), 0, {(shift, shift): crowd[shift] for shift in self.shifts})

    def _three_days(self) -> Iterator[Values]:
        for first in range(len(self.wishes) - 2):
            if first % self.days < self.days - 2:
                yield first, first + 1, first + 2

    def _worked(self, three: Values) -> Values:
        return tuple(int(shift != self.off) for shift in three)

    def rules(self) -> Iterator[Rule]:
        broken = [three for three in itertools.product(self.shifts, repeat=3) if self._is_broken(three)]
        return (Rule(scope, broken) for scope in self._three_days())

    def _is_broken(self, three: Values) -> bool:
        earlier = any(self.off < next_day < day for day, next_day in itertools.pairwise(three))
        return earlier or set(three) == {self.night}

    def cost(self, values: Values) -> int | None:
        rows = [values[start : start + self.days] for start in range(0, len(values), self.days)]
        firsts = range(self.days - 2)
        windows = [(prices, row[day : day + 3]) for prices, row in zip(self.patterns, rows) for day in firsts]
        if any(self._is_broken(three) for _, three in windows):
            return None
        wishes = sum(costs[shift] for costs, shift in zip(self.wishes, values))
        patterns = sum(prices.get(self._worked(three), 0) for prices, three in windows)
        crowds = sum(
            crowd[shift] * (day.count(shift) * (day.count(shift) - 1) // 2)
            for crowd, day in zip(self.crowds, zip(*rows))
            for shift in self.shifts
        )
        return wishes + patterns + crowds


@dataclass(frozen=True)
class Threading(Problem):
    """Threading a protein: the segments of a known structure are laid on a sequence of residues, in their order and
    without overlap. A segment pays for residues that are hidden or exposed there and should not be, and two segments
    that touch in the structure for the residues that meet. A value is how many residues are left out before a segment.

    Lathrop and Smith, "Global optimum protein threading with gapped alignment and empirical pair score functions",
    Journal of Molecular Biology 255, 1996, with made energies in whole numbers.
    """

    name: ClassVar = "threading"
    shapes: ClassVar = {
        "tiny": {"segments": 4, "positions": 7, "contacts": 3},
        "small": {"segments": 8, "positions": 14, "contacts": 10},
        "medium": {"segments": 12, "positions": 30, "contacts": 24},
        "large": {"segments": 16, "positions": 60, "contacts": 38},
    }
    types: ClassVar = range(20)

    positions: int
    sequence: list[int]
    hidden: list[list[bool]]
    burials: list[int]
    energies: list[list[int]]
    contacts: dict[Edge, list[tuple[int, int]]]

    @classmethod
    def draw(cls, draws: Draws, shape: Shape) -> Self:
        hidden = [[draws.below(2) == 1 for _ in range(draws.between(4, 9))] for _ in range(shape["segments"])]
        length = sum(map(len, hidden)) + shape["positions"] - 1
        sequence = [draws.pick(cls.types) for _ in range(length)]
        burials = [draws.below(10) for _ in cls.types]
        energies = [[draws.below(20) for _ in cls.types] for _ in cls.types]
        distant = [(a, b) for a, b in itertools.combinations(range(len(hidden)), 2) if b > a + 1]
        contacts = {
            (a, b): [(draws.below(len(hidden[a])), draws.below(len(hidden[b]))) for _ in range(3)]
            for a, b in draws.subset(distant, shape["contacts"])
        }
        return cls(shape["positions"], sequence, hidden, burials, energies, contacts)

    def sizes(self) -> list[int]:
        return [self.positions] * len(self.hidden)

    def _starts(self) -> list[int]:
        """Where each segment starts if no residue is left out before it."""
        return list(itertools.accumulate(map(len, self.hidden), initial=0))[:-1]

    def _own(self, segment: int, start: int) -> int:
        residues = self.sequence[start : start + len(self.hidden[segment])]
        burials = [self.burials[residue] for residue in residues]
        return sum(cost if hidden else 9 - cost for hidden, cost in zip(self.hidden[segment], burials))

    def _meeting(self, pair: Edge, start: int, other: int) -> int:
        return sum(self.energies[self.sequence[start + x]][self.sequence[other + y]] for x, y in self.contacts[pair])

    def functions(self) -> Iterator[Function]:
        sizes, starts = self.sizes(), self._starts()
        for segment, start in enumerate(starts):
            yield tabulate((segment,), sizes, lambda value: self._own(segment, start + value))
        for a, b in self.contacts:
            yield tabulate((a, b), sizes, lambda x, y: self._meeting((a, b), starts[a] + x, starts[b] + y))

    def rules(self) -> Iterator[Rule]:
        broken = [(x, y) for x, y in itertools.product(range(self.positions), repeat=2) if y < x]
        return (Rule(pair, broken) for pair in itertools.pairwise(range(len(self.hidden))))

    def cost(self, values: Values) -> int | None:
        starts = [start + value for start, value in zip(self._starts(), values)]
        ends = [start + len(hidden) for start, hidden in zip(starts, self.hidden)]
        if any(start < end for start, end in zip(starts[1:], ends)):
            return None
        own = sum(self._own(segment, start) for segment, start in enumerate(starts))
        return own + sum(self._meeting((a, b), starts[a], starts[b]) for a, b in self.contacts)
