#!/usr/bin/env python3
"""A roster: who works each shift of a week.

`solve` prints the best plan, a number as many of the cheapest ones, and `write` the file roster.wcsp.
"""

from collections import Counter
from functools import partial

from model import Model, Plan, main

DAYS = ("Mon", "Tue", "Wed", "Thu", "Fri", "Sat", "Sun")
WISHES = {  # what each shift costs each person: 0 where it suits, up to 5 where it hardly does
    #      Mon   Tue   Wed   Thu   Fri   Sat   Sun, early and late
    "Ida": (3, 1, 4, 0, 0, 0, 3, 0, 1, 0, 0, 4, 4, 0),
    "Jan": (1, 0, 4, 0, 0, 1, 0, 4, 0, 1, 0, 1, 2, 4),
    "Kim": (1, 0, 2, 1, 0, 1, 3, 0, 0, 0, 1, 5, 4, 3),
    "Lou": (5, 5, 3, 2, 1, 1, 1, 0, 2, 5, 3, 5, 2, 0),
}
FEWEST, MOST = 3, 4  # shifts of a person in the week
CHANGE = 2  # a shift that another person has on Sunday than on Saturday

EARLY = [f"{day} early" for day in DAYS]
LATE = [f"{day} late" for day in DAYS]
SHIFTS = [shift for day in zip(EARLY, LATE) for shift in day]


def works(person: str, _: str, chosen: str) -> int:
    return int(chosen == person)


def is_same(*people: str) -> bool:
    return len(set(people)) == 1


def roster() -> Model:
    model = Model("roster")
    for place, shift in enumerate(SHIFTS):
        model.variable(shift, WISHES)
        model.cost(shift, {person: costs[place] for person, costs in WISHES.items()})
    for shift, later in zip(SHIFTS, SHIFTS[1:]):  # early and late of a day, late and early of the next
        model.forbid([shift, later], is_same)
    for lates in zip(LATE, LATE[1:], LATE[2:]):
        model.forbid(lates, is_same)
    for saturday, sunday in ((EARLY[5], EARLY[6]), (LATE[5], LATE[6])):
        model.function([saturday, sunday], lambda one, other: 0 if one == other else CHANGE)
    for person in WISHES:
        shifts = model.total(f"shifts of {person}", SHIFTS, partial(works, person), MOST)
        model.forbid([shifts], lambda count: count < FEWEST)
    return model


def price(plan: Plan) -> int:
    """What a plan costs by the tables above. ValueError where it breaks a rule."""
    people = [plan[shift] for shift in SHIFTS]
    lates = people[1::2]
    if any(one == other for one, other in zip(people, people[1:])):
        raise ValueError("a person works twice a day, or early behind a late shift")
    if any(lates[day] == lates[day + 1] == lates[day + 2] for day in range(5)):
        raise ValueError("a person has three late shifts in a row")
    if not all(FEWEST <= Counter(people)[person] <= MOST for person in WISHES):
        raise ValueError("a person has too few or too many shifts")
    changes = sum(plan[f"Sat {shift}"] != plan[f"Sun {shift}"] for shift in ("early", "late"))
    return sum(WISHES[person][place] for place, person in enumerate(people)) + CHANGE * changes


if __name__ == "__main__":
    main(roster(), price)
