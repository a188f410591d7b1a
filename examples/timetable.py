#!/usr/bin/env python3
"""A timetable: each lesson gets a period and a room. `solve` prints the best one, `write` the file timetable.wcsp."""

from functools import partial
from itertools import combinations, product
from typing import Tuple

from model import Model, Plan, main

Slot = Tuple[str, str]  # period and room

PERIODS = ("Mon 1", "Mon 2", "Tue 1", "Tue 2")
SEATS = {"hall": 30, "lab": 20}
PUPILS = {"7a": 28, "8b": 18, "9c": 15}
LESSONS = {  # class, teacher
    "7a maths 1": ("7a", "Ada"),
    "7a maths 2": ("7a", "Ada"),
    "7a English": ("7a", "Cem"),
    "8b physics": ("8b", "Ben"),
    "8b English": ("8b", "Cem"),
    "9c physics": ("9c", "Ben"),
    "9c maths": ("9c", "Ada"),
}
WISHES = {  # what a lesson in that period costs a teacher, a class or a room
    "Ada": {"Mon 1": 3, "Mon 2": 1},
    "Ben": {"Mon 1": 3, "Tue 1": 2},
    "Cem": {"Mon 1": 2, "Tue 1": 3},
    "8b": {"Mon 2": 1},
    "9c": {"Tue 2": 3},
    "lab": {"Tue 2": 3},
}
SAME_DAY = 4  # both maths lessons of 7a on one day


def fits(lesson: str, room: str) -> bool:
    return PUPILS[LESSONS[lesson][0]] <= SEATS[room] and ("physics" not in lesson or room == "lab")


def clash(lesson: str, other: str, slot: Slot, other_slot: Slot) -> bool:
    shared = set(LESSONS[lesson]) & set(LESSONS[other])  # a class or a teacher
    return slot == other_slot or (slot[0] == other_slot[0] and bool(shared))


def wish(lesson: str, period: str, room: str) -> int:
    return sum(WISHES.get(who, {}).get(period, 0) for who in (*LESSONS[lesson], room))


def timetable() -> Model:
    model = Model("timetable")
    for lesson in LESSONS:
        slots = [slot for slot in product(PERIODS, SEATS) if fits(lesson, slot[1])]
        model.variable(lesson, slots)
        model.cost(lesson, {slot: wish(lesson, *slot) for slot in slots})
    for lesson, other in combinations(LESSONS, 2):
        model.forbid([lesson, other], partial(clash, lesson, other))
    maths = ["7a maths 1", "7a maths 2"]
    model.function(maths, lambda first, second: SAME_DAY if first[0][:3] == second[0][:3] else 0)
    model.forbid(maths, lambda first, second: PERIODS.index(first[0]) > PERIODS.index(second[0]))
    return model


def price(plan: Plan) -> int:
    """What a plan costs by the tables above. ValueError where it breaks a rule."""
    taken = [(who, period) for lesson, (period, room) in plan.items() for who in (*LESSONS[lesson], room)]
    if len(set(taken)) < len(taken) or not all(fits(lesson, room) for lesson, (_, room) in plan.items()):
        raise ValueError("a class, a teacher or a room is needed twice, or a room does not fit")
    days = {plan["7a maths 1"][0][:3], plan["7a maths 2"][0][:3]}
    return sum(WISHES.get(who, {}).get(period, 0) for who, period in taken) + (SAME_DAY if len(days) == 1 else 0)


if __name__ == "__main__":
    main(timetable(), price)
