"""Files in the formats of others: what they are read as, what is refused, and networks that come back."""

from __future__ import annotations

import bz2
import gzip
import io
import itertools
import lzma
import math
import random
import tempfile
import unittest
from decimal import Decimal, localcontext
from fractions import Fraction
from pathlib import Path
from typing import Iterator, Sequence, Tuple

from drawn import TOP, best, draw, prices

from wcspsolve import Format, FormatError, ModelError, Sense, read, write
from wcspsolve.formats import cfn, is_plain_wcsp, uai, wcnf, wcsp
from wcspsolve.network import Network

CFN = """# a remark
{"problem": {"name": "demo", "mustbe": "<10.5"},
 "variables": {"a": ["x", "y"], "b": 3},
 "functions": {
  "f": {"scope": ["a", "b"], "costs": [1.25, -2.5, 3, 4, 5, 6]},
  "g": {"scope": ["b"], "defaultcost": 0.5, "costs": [0, 1.19, 2, -0.3]},
  "h": {"scope": [], "costs": [2]}}}
"""
RELAXED = """{ problem { name demo mustbe <10.5 }
 variables [[x y] 3]
 functions [ {scope [0 1] costs [1.25 -2.5 3 4 5 6]} {scope [x1] defaultcost .5 costs [0 1.19 2 -0.3]} {scope [] costs [2]} ] }
"""
GREATEST = '{problem: {name: g, mustbe: ">-3"}, variables: {a: [x, y]}, functions: {f: {scope: [a], costs: [-4, 7.5]}}}'
UAI = "MARKOV 2 2 2 2 1 0 2 0 1 2 0.25 0.75 4 1 0 2e0 1e-320"


def function(words: str) -> str:
    return "{problem {mustbe <9} variables {a [x y]} functions {f {scope [a] costs [1 2]} g {" + words + "}}}"


REFUSALS = [
    (cfn.read, function("scope [a] type salldiff params []"), "function g is a salldiff, a global or arithmetic function: list"),
    (cfn.read, function("scope [b] costs [1 2]"), "'b' is no variable of function g"),
    (cfn.read, function("scope [a a] costs [1 2 3 4]"), "a variable twice"),
    (cfn.read, function("scope [a] costs [1 2 3]"), "3 costs for 2 cells"),
    (cfn.read, function("scope [a] costs [1 two]"), "'two' is no decimal number"),
    (cfn.read, function("scope [a] costs h"), "shares its costs with h"),
    (cfn.read, function("scope [a] defaultcost 0 costs [z 1]"), "'z' is no value of a in function g"),
    (cfn.read, function("scope [a] defaultcost 0 costs [x]"), "no tuples of 1 values and a cost"),
    (cfn.read, function("scope [a]"), "function g has to have costs"),
    (cfn.read, "{problem {mustbe <9} variables {a -3} functions {}}", "variable a is an interval"),
    (cfn.read, "{problem {mustbe <9} variables {a []} functions {}}", "a has no values"),
    (cfn.read, "{problem {mustbe <9} variables {a [x x]} functions {}}", "a has a value twice"),
    (cfn.read, "{problem {mustbe <9} variables {a [1 0]} functions {}}", "value 1 of variable a is number 0"),
    (cfn.read, "{problem {name p} variables {a 2} functions {}}", "a mustbe"),
    (cfn.read, "{problem {mustbe <9} functions {}}", "no variables"),
    (cfn.read, '{\n"a', "line 2 of the cfn file has a quote"),
    (cfn.read, "{problem\n{mustbe <9]", "line 2 of the cfn file has ']'"),
    (cfn.read, "{problem {mustbe <9}", "ends before the bracket of line 1"),
    (uai.read, "FACTORS 1 2 0", "only MARKOV and BAYES"),
    (uai.read, "MARKOV 1 2 1 1 0 3 1 2 3", "'3': not from 2 to 2"),
    (uai.read, "MARKOV 1 2 1 1 0 2 1 -2", "not negative"),
    (uai.read, "MARKOV 1 2 1 1 0 2 1 nan", "no decimal number"),
    (uai.read, "MARKOV 1 2 1 1 0 2 1", "ends before its entry"),
    (uai.read, "MARKOV 1 2 1 1 0 2 1 2 3", "1 words behind its last factor"),
    (uai.read, "MARKOV 1 2 1 1 1 2 1 2", "not from 0 to 0"),
    (wcnf.read, "p cnf 2 1\n1 0", "has to be 'p wcnf"),
    (wcnf.read, "p wcnf 2 1 5\n1 3 0", "a literal beyond 2"),
    (wcnf.read, "p wcnf 2 1 5\n1 2", "has no 0 at its end"),
    (wcnf.read, "h 1 2", "line 1 of the wcnf file is no clause"),
    (wcnf.read, "h 1 2 0\n-3 1 0", "the weight in line 2 is negative"),
    (wcnf.read, "1.5 1 0", "no whole number"),
    (wcnf.read, "c nothing", "no variables"),
    (wcsp.read, "n 1 2 1 5\n2\n1 0 -1 salldiff 0", "is global (salldiff)"),
    (wcsp.read, "n 1 2 1 5\n2\n1 0 0 -1", "can't have shared table 1"),
    (wcsp.read, "n 1 2 1 5\n2\n1 1 0 0", "word 8 of the wcsp file, its variable, is '1'"),
]


def read_by(reader, text: str) -> Network:
    return reader(text, "n", 1000) if reader is uai.read else reader(text, "n") if reader is wcnf.read else reader(text)


def tuples(sizes: Sequence[int], scope: Sequence[int]) -> Iterator[Tuple[int, ...]]:
    return itertools.product(*(range(sizes[number]) for number in scope))


def text_of(network: Network, form: Format) -> str:
    text = io.StringIO()
    write(network, text, form)
    return text.getvalue()


class Reading(unittest.TestCase):
    def test_each_refusal_is_said(self) -> None:
        for reader, text, part in REFUSALS:
            with self.subTest(part=part), self.assertRaises(ModelError) as refused:
                read_by(reader, text)
            self.assertIn(part, str(refused.exception))

    def test_cfn_and_its_relaxed_form(self) -> None:
        network, relaxed = cfn.read(CFN), cfn.read(RELAXED)
        self.assertEqual([variable.name for variable in network.variables], ["a", "b"])
        self.assertEqual(network.plan([1, 2]), {"a": "y", "b": "2"})
        self.assertEqual(network.price([0, 0]), Fraction(444, 100))
        self.assertEqual(network.price([0, 1]), 0)
        self.assertEqual(prices(network), prices(relaxed))

    def test_the_bound_forbids_sums_alone(self) -> None:
        functions = "f {scope [a] costs [1 9]} g {scope [b] costs [-5 0]}"
        network = cfn.read("{problem {mustbe <1} variables {a 2 b 2} functions {" + functions + "}}")
        self.assertEqual([price for _, price in prices(network)], [-4, None, None, None])

    def test_the_greatest_is_asked_for(self) -> None:
        network = cfn.read(GREATEST)
        self.assertEqual((network.sense, best(network)), (Sense.GREATEST, Fraction(15, 2)))
        self.assertEqual([price for _, price in prices(network)], [None, Fraction(15, 2)])

    def test_what_is_infinite_is_forbidden(self) -> None:
        least = "{problem {mustbe <9} variables {a 2} functions {f {scope [a] costs [inf 7.5]}}}"
        for text in (GREATEST.replace("-4", "-inf"), least):
            self.assertEqual([price for _, price in prices(cfn.read(text))], [None, Fraction(15, 2)])

    def test_tables_are_shared_by_name(self) -> None:
        text = "{problem {mustbe <9} variables {a 2 b 2} functions {f {scope [a] costs [1 2]} g {scope [b] costs f}}}"
        self.assertEqual([price for _, price in prices(cfn.read(text))], [2, 3, 3, 4])

    def test_factors_of_0_and_1_are_exact(self) -> None:
        self.assertEqual(uai.read("MARKOV 1 3 1 1 0 3 0 1 1.0", "n", 10).rounding, 0)

    def test_a_default_that_no_cell_has_says_nothing(self) -> None:
        network = cfn.read("{problem {mustbe <9} variables {a 2} functions {f {scope [a] defaultcost 0.125 costs [0 1 1 2]}}}")
        self.assertEqual(text_of(network, Format.WCSP), "network 1 2 1 9\n2\n1 0 1 1\n1 2\n")

    def test_uai_is_rounded_logarithms(self) -> None:
        network = uai.read(UAI, "n", 10**6)
        self.assertEqual(network.rounding, Fraction(2, 2 * 10**6))
        factors = [Decimal("0.25"), Decimal(0), Decimal("1.5"), Decimal("0.75e-320")]
        for (_, price), factor in zip(prices(network), factors):
            if factor == 0:
                self.assertIsNone(price)
            else:
                self.assertLessEqual(abs(price + Fraction(factor.ln())), network.rounding, factor)

    def test_drawn_factors_cost_their_logarithms(self) -> None:
        for seed in range(60):
            draws = random.Random(seed)
            sizes = [draws.randint(1, 3) for _ in range(draws.randint(1, 5))]
            scopes = [draws.sample(range(len(sizes)), draws.randint(0, min(3, len(sizes)))) for _ in range(draws.randint(1, 6))]
            tables = [{values: draws.randint(0, 9999) for values in tuples(sizes, scope)} for scope in scopes]
            words = ["MARKOV", len(sizes), *sizes, len(scopes), *(word for scope in scopes for word in (len(scope), *scope))]
            words += [word for table in tables for word in (len(table), *(f"{entry}e-3" for entry in table.values()))]
            network = uai.read(" ".join(map(str, words)), "n", 1000)
            for places, price in prices(network):
                entries = [table[tuple(places[number] for number in scope)] for scope, table in zip(scopes, tables)]
                if price is None or 0 in entries:
                    self.assertEqual((price, min(entries)), (None, 0), seed)
                else:
                    product = Decimal(math.prod(entries)).scaleb(-3 * len(entries))
                    self.assertLessEqual(abs(price + Fraction(product.ln())), network.rounding + Fraction(1, 10**20), seed)

    def test_uai_entries_are_rounded_to_the_nearest_part(self) -> None:
        for number in range(1, 400):
            word, scale = f"{number * number}e-{number % 7}", 10 ** (number % 12)
            network = uai.read(f"BAYES 1 2 1 1 0 2 {word} 1", "n", scale)
            with localcontext() as context:
                context.prec = 80
                part = -Decimal(word).ln() * scale
                self.assertLessEqual(abs(Decimal(int(network.tables[0].cost(0))) - part), Decimal("0.5"), (word, scale))

    def test_wcnf_of_2022(self) -> None:
        network = wcnf.read("c remark\nh 1 2 0\n3 -1 0\n4 -2 0\n7 1 -1 0\n2 0\n", "n")
        self.assertEqual([price for _, price in prices(network)], [None, 6, 5, 9])
        self.assertEqual(network.plan([1, 0]), {"1": "true", "2": "false"})

    def test_the_classic_wcnf(self) -> None:
        network = wcnf.read("c remark\np wcnf 2 3 10\n10 1\n2 0 3 -1 0\n4 -2 0 left over", "n")
        self.assertEqual([price for _, price in prices(network)], [None, 4, 3, 7])

    def test_long_clauses_are_cut_and_cost_the_same(self) -> None:
        for count in (wcnf.WIDEST, wcnf.WIDEST + 1, 30):
            literals = [number if number % 3 else -number for number in range(1, count + 1)]
            network = wcnf.read("p wcnf {0} 1\n5 {1} 0".format(count, " ".join(map(str, literals))), "n")
            false = [int(literal < 0) for literal in literals]
            for flipped in range(-1, count):
                values = [value ^ (place == flipped) for place, value in enumerate(false)]
                added = len(network.variables) - count
                least = min(network.price([*values, *(choice >> bit & 1 for bit in range(added))]) for choice in range(2**added))
                self.assertEqual(least, 5 if flipped < 0 else 0, (count, flipped))
            self.assertEqual(len(network.plan([0] * len(network.variables))), count)

    def test_shared_tables_of_wcsp(self) -> None:
        network = wcsp.read("share 3 2 2 10\n2 2 2\n-2 0 1 0 1\n0 0 4\n2 1 2 0 -1\n")
        self.assertEqual(network.price([0, 0, 0]), 8)
        network = wcsp.read("share 3 2 2 10\n2 2 2\n-2 0 1 3 1\n0 0 4\n2 1 2 0 -1\n")
        self.assertEqual([network.price([0, 0, 0]), network.price([0, 1, 1])], [8, 6])

    def test_the_last_listing_counts(self) -> None:
        self.assertEqual(wcsp.read("twice 1 2 1 100\n2\n1 0 9 2\n0 5\n0 2\n").price([0]), 2)


class Files(unittest.TestCase):
    def test_compressed_files_and_pipes(self) -> None:
        for text, form in ((CFN, Format.CFN), (UAI, Format.UAI), ("h 1 0\n1 -1 0\n", Format.WCNF), ("n 1 2 0 5\n2\n", Format.WCSP)):
            plain = read(io.BytesIO(text.encode()))
            for pack in (gzip.compress, bz2.compress, lzma.compress):
                self.assertEqual(prices(read(io.BytesIO(pack(text.encode())))), prices(plain), form)

    def test_formats_by_name(self) -> None:
        with tempfile.TemporaryDirectory() as folder:
            path = Path(folder) / "a.uai.gz"
            path.write_bytes(gzip.compress(UAI.encode()))
            self.assertEqual(read(path).name, "a")
            self.assertFalse(is_plain_wcsp(path))
            self.assertTrue(is_plain_wcsp(TOP / "examples" / "tri.wcsp"))
            path.write_bytes(gzip.compress(UAI.encode())[:-9])
            with self.assertRaises(FormatError):
                read(path)

    def test_drawn_networks_come_back_from_cfn(self) -> None:
        for seed in range(200):
            sense = (Sense.LEAST, Sense.GREATEST)[seed // 4 % 2]
            network = draw(seed, least=-20 if seed % 3 else 0, digits=seed % 4, sense=sense)
            self.assertEqual(prices(cfn.read(text_of(network, Format.CFN))), prices(network), seed)

    def test_examples_come_back_from_cfn(self) -> None:
        for name in ("tri", "oncall", "timetable", "warehouse", "roster"):
            network = wcsp.read((TOP / "examples" / f"{name}.wcsp").read_text())
            back = cfn.read(text_of(network, Format.CFN))
            self.assertEqual(text_of(back, Format.WCSP), text_of(network, Format.WCSP), name)

    def test_names_that_cfn_does_not_have(self) -> None:
        network = draw(3)
        network.variables = [type(variable)(f"{place} a/b", variable.values) for place, variable in enumerate(network.variables)]
        back = cfn.read(text_of(network, Format.CFN))
        self.assertEqual([variable.name for variable in back.variables][:1], ["x0_a_b"])

    def test_costs_that_are_no_decimals(self) -> None:
        network = draw(5)
        network.bound = Fraction(1, 3)
        with self.assertRaises(FormatError):
            text_of(network, Format.CFN)


if __name__ == "__main__":
    unittest.main()
