"""What the program says, read: reports of `solve`, `rebase` and `kbest`, lines of progress, and what `check` judges."""

from __future__ import annotations

import re
from dataclasses import dataclass
from typing import Dict, List, Optional, Tuple

from .network import Cost, Network, Plan, Sense, Units, said


@dataclass(frozen=True)
class Bounds:
    """How far a search is: after these seconds the least cost is at least `lower` and at most `upper`.

    Where none was found yet, `upper` is None (`lower`, where the greatest is asked for).
    """

    seconds: float
    lower: Optional[Cost]
    upper: Optional[Cost]
    nodes: int
    open: int


@dataclass(frozen=True)
class Listing:
    """The plans that `kbest` lists with their costs, the best first. No other plan costs less than `lower`.

    Where the list is complete, no other plan costs less than a listed one. Of gains read more for less.
    """

    plans: List[Tuple[Cost, Plan]]
    lower: Cost
    is_complete: bool
    word: str

    def __str__(self) -> str:
        lines = [f"{said(cost)}: {', '.join(f'{name} = {value}' for name, value in plan.items())}" for cost, plan in self.plans]
        end = "" if self.is_complete else f"\nthe search was cut ({self.word}): a better plan may be missing"
        return "\n".join(lines or ["no plan keeps all rules"]) + end


@dataclass(frozen=True)
class Report:
    """A report of `solve` or `rebase`, in the file's numbers."""

    lower: int
    upper: Optional[int]
    values: Optional[List[int]]
    nodes: int
    word: str


def number(word: str) -> int:
    """A number from 0 on, in a report's digits. ValueError where a word is none."""
    if not re.fullmatch("[0-9]+", word):
        raise ValueError(f"{word} is no number of a report")
    return int(word)


def number_or_none(word: str) -> Optional[int]:
    return None if word == "none" else number(word)


def report_of(text: str) -> Report:
    """The report with this text. ValueError where it is none."""
    lines: Dict[str, List[str]] = {}
    for words in map(str.split, text.splitlines()):
        if words:
            lines[words[0]] = words[1:]
    try:
        lower, upper = number(lines["lower"][0]), number_or_none(lines["upper"][0])
        nodes, word = number(lines["nodes"][0]), lines["result"][0]
        values = [number(value) for value in lines["values"]] if "values" in lines else None
    except (KeyError, IndexError):
        raise ValueError("this is no report of solve") from None
    if (values is None) != (upper is None):
        raise ValueError("a report has values exactly where it has an upper bound")
    return Report(lower, upper, values, nodes, word)


def interval(lower: Optional[int], upper: Optional[int], units: Units) -> Tuple[Optional[Cost], Optional[Cost]]:
    """The bounds of the file in the user's units. Where the greatest is asked for they change places."""
    low = None if lower is None else units.told(lower)
    high = None if upper is None else units.told(upper)
    return (low, high) if units.sense is Sense.LEAST else (high, low)


def bounds_of(line: str, units: Units) -> Optional[Bounds]:
    """The bounds of a line of progress; None where the line is none."""
    words = line.split()
    if words[:1] != ["progress"] or words[2::2] != ["lower", "upper", "nodes", "open"]:
        return None
    lower, upper = interval(number(words[3]), number_or_none(words[5]), units)
    return Bounds(float(words[1]), lower, upper, number(words[7]), number(words[9]))


def listing_of(text: str, network: Network, units: Units) -> Listing:
    """The plans of a report of `kbest`. ValueError where the text is no such report."""
    lines = [line.split() for line in text.splitlines() if line.strip()]
    if len(lines) < 3 or [line[:1] for line in (lines[0], lines[-2], lines[-1])] != [["count"], ["lower"], ["result"]]:
        raise ValueError("this is no report of kbest")
    if not all(len(line) == 2 for line in (lines[0], lines[-2], lines[-1])):
        raise ValueError("this is no report of kbest")
    plans = [_listed(words) for words in lines[1:-2]]
    if number(lines[0][1]) != len(plans):
        raise ValueError(f"the report counts {lines[0][1]} plans and lists {len(plans)}")
    if any(one >= other for one, other in zip(plans, plans[1:])):
        raise ValueError("the plans are not in the order of their costs, and then of their values")
    named = [(units.told(cost), network.plan(values)) for cost, values in plans]
    return Listing(named, units.told(number(lines[-2][1])), lines[-1][1] == "complete", lines[-1][1])


def _listed(words: List[str]) -> Tuple[int, List[int]]:
    """The cost and the numbers of the values that a line of a list has."""
    if len(words) < 4 or words[0] != "cost" or words[2] != "values":
        raise ValueError(f"'{' '.join(words)}' is no line of a list")
    return number(words[1]), [number(value) for value in words[3:]]


def verified_of(text: str) -> Tuple[int, Optional[int]]:
    """The lower bound and the cost of the best plan that `check` has verified. ValueError where the text says no such thing."""
    words = text.split()
    if len(words) != 5 or [words[0], words[1], words[3]] != ["verified", "lower", "best"]:
        raise ValueError(f"'{text.strip()}' is no verdict of check")
    return number(words[2]), number_or_none(words[4])
