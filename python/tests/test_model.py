"""Models: what is refused at once, exact costs, and the files of the examples."""

from __future__ import annotations

import io
import subprocess
import sys
import unittest
from decimal import Decimal
from fractions import Fraction
from typing import Any

from drawn import TOP, best, draw, prices

from wcspsolve import FORBIDDEN, Model, ModelError, said
from wcspsolve.formats import wcsp
from wcspsolve.network import Sense, Units, Whole, exact, scale_of
from wcspsolve.report import interval


def vans() -> Model:
    model = Model("vans")
    model.variable("one", ["van", "truck"])
    model.variable("two", ["van", "truck", "none"])
    return model


# What is refused, and a part of what is said.
REFUSALS = [
    (lambda: Model("my roster"), "without a space"),
    (lambda: Model(""), "no name of a model"),
    (lambda: vans().variable("one", [1]), "one is a variable already"),
    (lambda: vans().variable("", [1]), "no name of a variable"),
    (lambda: vans().variable("three", []), "three has no values"),
    (lambda: vans().variable("three", [1, 2, 1]), "three has a value twice"),
    (lambda: vans().variable("three", [[1], [2]]), "take a tuple"),
    (lambda: vans().variable("three", "van"), "one word: they have to be a list"),
    (lambda: vans().variable("three", range(4097)), "the limit is 4096"),
    (lambda: vans().cost("won", {}), "'won' is no variable"),
    (lambda: vans().cost("one", {"car": 1}), "'car' is no value of one"),
    (lambda: vans().cost("one", {"van": True}), "True is a truth value and no cost"),
    (lambda: vans().cost("one", {"van": "3"}), "'3' is no cost"),
    (lambda: vans().cost("one", {"van": float("nan")}), "nan is no cost"),
    (lambda: vans().cost("one", {"van": float("inf")}), "inf is no cost"),
    (lambda: vans().cost("one", {"van": Decimal("NaN")}), "is no cost"),
    (lambda: vans().cost("one", {"van": 1j}), "is no cost"),
    (lambda: vans().function(["one", "two"], lambda one, two: one == two), "is a truth value"),
    (lambda: vans().function("one", lambda one: 0), "the scope is a list of names"),
    (lambda: vans().function(["one", "one"], lambda one, other: 0), "a variable stands twice"),
    (lambda: vans().forbid(["one", "too"], lambda one, other: True), "'too' is no variable"),
    (lambda: vans().total("load", ["won"], lambda part, value: 1, 5), "'won' is no variable"),
    (lambda: vans().total("load", ["one"], lambda part, value: 0.5, 5), "sums add whole ones"),
    (lambda: vans().total("load", ["one"], lambda part, value: 9, 5), "is more than 5"),
    (lambda: wide(), "too many cells: the limit is 4194304"),
    (lambda: written(Model("empty")), "there are no variables"),
    (lambda: written(costly(2**63)), "the limit is 2^63"),
    (lambda: written(costly(Fraction(1, 3**40))), "the limit is 2^63"),
]


def wide() -> None:
    model = Model("wide")
    names = [model.variable(f"x{number}", [0, 1]) for number in range(23)]
    model.function(names, lambda *values: 1)


def costly(cost: Any) -> Model:
    model = vans()
    model.cost("one", {"van": cost, "truck": 1})
    return model


def written(model: Model) -> str:
    text = io.StringIO()
    model.write(text)
    return text.getvalue()


class Refusals(unittest.TestCase):
    def test_each_is_refused_at_once_and_said(self) -> None:
        for action, part in REFUSALS:
            with self.subTest(part=part), self.assertRaises(ModelError) as refused:
                action()
            self.assertIn(part, str(refused.exception))
            self.assertNotIn("\n", str(refused.exception))


class ExactCosts(unittest.TestCase):
    def test_a_float_is_the_decimal_that_is_printed_for_it(self) -> None:
        self.assertEqual([exact(0.1), exact(2.0), exact(Decimal("-1.25"))], [Fraction(1, 10), 2, Fraction(-5, 4)])
        self.assertEqual(exact(1e-7), Fraction(1, 10**7))

    def test_decimals_are_scaled_by_a_power_of_ten(self) -> None:
        for denominators, scale in (([1], 1), ([2], 10), ([4, 5], 100), ([3], 3), ([3, 2], 6), ([10, 8], 1000), ([], 1)):
            self.assertEqual(scale_of(denominators), scale, denominators)

    def test_costs_are_said_as_decimals_or_fractions(self) -> None:
        costs = (0, -3, Fraction(5, 2), Fraction(-1, 8), Fraction(1, 3), Fraction(7, 100))
        self.assertEqual([said(cost) for cost in costs], ["0", "-3", "2.5", "-0.125", "1/3", "0.07"])

    def test_negative_and_decimal_costs_come_back(self) -> None:
        model = costly(-0.75)
        self.assertEqual(written(model), "vans 2 3 1 176\n2 3\n1 0 0 1\n1 175\n")
        report = "lower 0\nupper 175\nvalues 1 2\nnodes 1\nresult optimum\n".splitlines()
        self.assertEqual(model.read(report), (1, {"one": "truck", "two": "none"}))

    def test_a_forbidden_cost_is_the_upper_bound(self) -> None:
        model = costly(FORBIDDEN)
        self.assertEqual(written(model), "vans 2 3 1 2\n2 3\n1 0 2 1\n1 1\n")

    def test_drawn_networks_cost_the_same_as_files(self) -> None:
        for seed in range(200):
            digits, sense = seed % 4, (Sense.LEAST, Sense.GREATEST)[seed // 4 % 2]
            network = draw(seed, least=-20 if seed % 3 else 0, digits=digits, sense=sense)
            whole, text = Whole(network), io.StringIO()
            whole.write(text)
            for (places, price), (_, cost) in zip(prices(network), prices(wcsp.read(text.getvalue()))):
                told = None if cost is None else whole.units().told(cost)
                self.assertEqual(told, price, (seed, places))

    def test_bounds_change_places_where_the_greatest_is_asked_for(self) -> None:
        units = Units(Fraction(1, 2), Fraction(1), Sense.GREATEST)
        self.assertEqual(interval(2, 6, units), (-4, -2))
        self.assertEqual(interval(2, None, units), (None, -2))
        self.assertEqual(interval(2, None, Units()), (2, None))

    def test_a_plan_does_not_show_sums(self) -> None:
        model = vans()
        last = model.total("vans in use", ["one", "two"], lambda part, value: value == "van", 1)
        model.forbid([last], lambda count: count < 1)
        network = model.network()
        allowed = [network.plan(places) for places, price in prices(network) if price is not None]
        plans = [{"one": "van", "two": "truck"}, {"one": "van", "two": "none"}, {"one": "truck", "two": "van"}]
        self.assertEqual(allowed, plans)

    def test_drawn_networks_have_plans(self) -> None:
        self.assertGreater(sum(best(draw(seed)) is not None for seed in range(200)), 100)


class Examples(unittest.TestCase):
    def test_scripts_write_their_files(self) -> None:
        for name in ("roster", "timetable", "warehouse"):
            script = TOP / "examples" / f"{name}.py"
            ran = subprocess.run([sys.executable, "-B", str(script), "write"], stdout=subprocess.PIPE, check=True)
            self.assertEqual(ran.stdout, (TOP / "examples" / f"{name}.wcsp").read_bytes(), name)


if __name__ == "__main__":
    unittest.main()
