"""The commands of timetable.py, warehouse.py and roster.py: a model's file, its plans, and their costs worked out again.

The model itself is the package's (python/README.md), which is taken from this repository where it is not installed.
"""

from __future__ import annotations

import sys
from pathlib import Path
from typing import Any, Callable, Iterable

sys.path.append(str(Path(__file__).resolve().parent.parent / "python"))

from wcspsolve import Listing, Model, Plan, ProgramError, kbest, said, solve  # noqa: E402

__all__ = ["Model", "Plan", "main"]

# What a plan costs by the data, without the model. ValueError where it breaks a rule.
Price = Callable[[Plan], Any]


def words(value: Any) -> str:
    return ", ".join(value) if isinstance(value, tuple) else str(value)


def compare(cost: Any, plan: Plan, price: Price) -> None:
    """ValueError where the data say that a plan has another cost than the report, or breaks a rule."""
    priced = price(plan)
    if priced != cost:
        raise ValueError(f"the report says {said(cost)}, but the data say {priced}")


def print_plan(cost: Any, plan: Plan, price: Price) -> None:
    for name, value in plan.items():
        print(f"{name}: {words(value)}")
    compare(cost, plan, price)
    print(f"cost {said(cost)}, by the report and by the data")


def print_alternatives(listing: Listing, price: Price) -> None:
    """The cheapest plan, and what is taken instead in each other one."""
    for place, (cost, plan) in enumerate(listing.plans, start=1):
        compare(cost, plan, price)
        print(f"plan {place} costs {said(cost)}")
        first = listing.plans[0][1]
        for name, value in plan.items():
            if place == 1:
                print(f"    {name}: {words(value)}")
            elif value != first[name]:
                print(f"    {name}: {words(value)} instead of {words(first[name])}")
    print(f"no other plan costs less than {said(listing.lower)}")
    if not listing.is_complete:
        print("the search was cut: another plan may cost less than a listed one")


def print_solved(model: Model, price: Price) -> None:
    result = solve(model)
    if result.cost is None or result.values is None:
        raise ValueError(result.verdict())
    print_plan(result.cost, result.values, price)
    result.check()
    print(result.verdict())


def run(command: str, given: Iterable[str], model: Model, price: Price) -> None:
    if command == "write":
        model.write(sys.stdout)
    elif command == "read":
        print_plan(*model.read(given), price)
    elif command == "alternatives":
        print_alternatives(model.read_list(given), price)
    elif command == "solve":
        print_solved(model, price)
    else:
        print_alternatives(kbest(model, int(command)), price)


def main(model: Model, price: Price) -> None:
    """`solve` prints the best plan, a number as many of the cheapest ones, each with its cost by the model and by the data.

    `write` prints the model's file; `read` the plan of a report of `solve` on standard input, and `alternatives` those of a
    report of `kbest`.
    """
    given = sys.argv[1:]
    if len(given) != 1 or not (given[0] in ("write", "read", "alternatives", "solve") or given[0].isdigit()):
        sys.exit("usage: solve, or a number of plans, or write, or read or alternatives with a report on standard input")
    try:
        run(given[0], sys.stdin, model, price)
    except (ValueError, ProgramError) as error:
        sys.exit(str(error))
