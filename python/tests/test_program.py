"""The program run from Python: answers beside all plans tried, certificates, lists, interruptions, and the command line."""

from __future__ import annotations

import io
import os
import random
import signal
import subprocess
import sys
import tempfile
import time
import unittest
from contextlib import redirect_stdout
from fractions import Fraction
from pathlib import Path
from typing import List
from unittest import mock

from drawn import TOP, WithProgram, best, built_program, draw, prices

from wcspsolve import Bounds, ProgramError, Sense, Word, check, kbest, rebase, solve, write
from wcspsolve.network import Network, Table, Variable


if built_program() is None:
    print("python/tests: what runs the program is skipped, since none is built: set WCSPSOLVE", file=sys.stderr)


def hard(count: int = 40) -> Network:
    """A network that takes long: each two of many variables cost something."""
    draws = random.Random(count)
    variables = [Variable(f"x{number}", tuple(range(5))) for number in range(count)]
    tables = []
    for one in range(count):
        for other in range(one + 1, count):
            tables.append(Table.dense([one, other], [draws.randint(0, 99) for _ in range(25)]))
    return Network("hard", variables, tables)


class Answers(WithProgram):
    def test_drawn_networks(self) -> None:
        for seed in range(60):
            sense = (Sense.LEAST, Sense.GREATEST)[seed // 4 % 2]
            network = draw(seed, least=-20 if seed % 3 else 0, digits=seed % 4, sense=sense)
            result, least = solve(network), best(network)
            self.assertEqual((result.word, result.cost), (Word.OPTIMUM if least is not None else Word.NONE, least), seed)
            if least is not None:
                self.assertEqual((result.lower, result.upper), (least, least))
                places = [variable.values.index(result.values[variable.name]) for variable in network.variables]
                self.assertEqual(network.price(places), least)
            result.check()

    def test_lists(self) -> None:
        for seed in range(30):
            sense = (Sense.LEAST, Sense.GREATEST)[seed % 2]
            network = draw(seed, least=-20, digits=1, sense=sense)
            allowed = sorted(price * sense.value for _, price in prices(network) if price is not None)
            listing = kbest(network, 5)
            self.assertTrue(listing.is_complete)
            self.assertEqual([cost * sense.value for cost, _ in listing.plans], allowed[:5], seed)

    def test_bounds_are_told_and_a_cut_search_goes_on(self) -> None:
        told: List[Bounds] = []
        with tempfile.TemporaryDirectory() as folder:
            first = solve(hard(20), budget=200, on_bounds=told.append, certificate=Path(folder) / "a.cert")
            self.assertEqual(first.word, Word.BUDGET)
            self.assertIn("the plan may not be the cheapest (budget): none costs less than", str(first))
            self.assertLess(first.lower, first.upper)
            self.assertTrue(told and all(bounds.lower <= first.upper for bounds in told))
            self.assertEqual(sorted(os.listdir(folder)), ["a.cert", "a.cert.wcsp"])
            again = rebase(hard(20), first, budget=200, certificate=Path(folder) / "a.cert")
            self.assertGreaterEqual(again.lower, first.lower)
            self.assertEqual(again.check().lower, again.lower)

    def test_files_of_others(self) -> None:
        with tempfile.TemporaryDirectory() as folder:
            path = Path(folder) / "a.cfn"
            path.write_text("{problem {mustbe >-9.5} variables {a [x y] b 2} functions {f {scope [a b] costs [1 2.5 -3 0]}}}")
            result = solve(path)
            self.assertEqual((result.cost, result.values), (Fraction(5, 2), {"a": "x", "b": "1"}))
            self.assertEqual(str(result), "a: x\nb: 1\ncost 2.5, and no plan gives more")
            self.assertEqual(os.listdir(folder), ["a.cfn"])

    def test_a_wcsp_file_is_solved_where_it_stands(self) -> None:
        path = TOP / "examples" / "tri.wcsp"
        result = solve(str(path))
        self.assertEqual((result.cost, result.network, list(result.values)), (1, path, ["x0", "x1", "x2"]))
        self.assertEqual(check(path, result.certificate).lower, 1)

    def test_the_roster_of_the_first_page(self) -> None:
        text = (TOP / "README.md").read_text().partition("## From Python")[2]
        code = text.partition("```python\n")[2].partition("```")[0]
        self.assertTrue(code)
        with redirect_stdout(io.StringIO()) as said:
            exec(code, {})
        self.assertEqual(said.getvalue(), "Mon: Jan\nTue: Kim\nWed: Jan\ncost 1.5, and no plan costs less\n")


class Faults(WithProgram):
    def test_a_bad_certificate_is_refused(self) -> None:
        with tempfile.TemporaryDirectory() as folder:
            result = solve(hard(4), certificate=Path(folder) / "a.cert")
            text = result.certificate.read_text()
            result.certificate.write_text(text.replace(f"lower {result.lower}", f"lower {result.lower + 1}"))
            with self.assertRaises(ProgramError) as refused:
                result.check()
            self.assertEqual(refused.exception.status, 7)

    def test_a_certificate_of_other_bounds_is_refused(self) -> None:
        result = solve(hard(4))
        result.check()
        result.lower -= 1
        with self.assertRaises(ProgramError):
            result.check()

    def test_a_plan_that_costs_something_else_is_refused(self) -> None:
        with mock.patch.object(Network, "price", return_value=-1), self.assertRaises(ProgramError):
            solve(hard(4))

    def test_words_that_the_program_refuses(self) -> None:
        with self.assertRaises(ProgramError) as refused:
            solve(hard(3), workers=65)
        self.assertEqual(refused.exception.status, 3)
        with self.assertRaises(ValueError):
            solve(hard(3), seconds=1.5)

    def test_no_program(self) -> None:
        with mock.patch.dict(os.environ, {"WCSPSOLVE": "/nowhere/wcspsolve"}), self.assertRaises(ProgramError) as refused:
            solve(hard(3))
        self.assertIn("set WCSPSOLVE", str(refused.exception))
        self.assertNotIn("\n", str(refused.exception))

    def test_a_fault_of_the_callback_ends_the_program(self) -> None:
        def fail(bounds: Bounds) -> None:
            raise ZeroDivisionError

        with tempfile.TemporaryDirectory() as folder:
            with self.assertRaises(ZeroDivisionError):
                solve(hard(), on_bounds=fail, certificate=Path(folder) / "a.cert")
            self.assertEqual(os.listdir(folder), [])

    def test_an_interruption_leaves_the_best_bounds(self) -> None:
        def stop(bounds: Bounds) -> None:
            if bounds.upper is not None:
                raise KeyboardInterrupt

        with tempfile.TemporaryDirectory() as folder:
            kept = Path(folder) / "a.cert"
            kept.write_text("of an earlier search")
            result = solve(hard(), on_bounds=stop, certificate=kept)
            self.assertEqual((result.word, result.values, result.certificate), (Word.STOPPED, None, None))
            self.assertLess(result.lower, result.upper)
            self.assertEqual(kept.read_text(), "of an earlier search")
            self.assertEqual(os.listdir(folder), ["a.cert"])
            with self.assertRaises(ProgramError):
                result.check()


class CommandLine(WithProgram):
    def run_words(self, folder: str, *words: str, **more) -> "subprocess.CompletedProcess[str]":
        command = [sys.executable, "-B", "-m", "wcspsolve", *words]
        world = {**os.environ, "PYTHONPATH": str(TOP / "python")}
        return subprocess.run(command, cwd=folder, env=world, stdout=-1, stderr=-1, universal_newlines=True, **more)

    def test_a_file_is_solved_judged_and_converted(self) -> None:
        with tempfile.TemporaryDirectory() as folder:
            path = Path(folder, "a.cfn")
            path.write_text("{problem {mustbe <9.5} variables {a [x y]} functions {f {scope [a] costs [1.5 -0.5]}}}")
            ran = self.run_words(folder, "solve", "a.cfn")
            said = "a: y\ncost -0.5, and no plan costs less\ncertificate a.cfn.cert of a.cfn.cert.wcsp\n"
            self.assertEqual((ran.returncode, ran.stdout), (0, said))
            ran = self.run_words(folder, "check", "a.cfn", "a.cfn.cert")
            self.assertEqual((ran.returncode, ran.stdout), (0, "verified lower -0.5 upper -0.5\n"))
            ran = self.run_words(folder, "convert", "-", "-", input="h 1 0\n")
            self.assertEqual((ran.returncode, ran.stdout), (0, "standard_input 1 2 1 1\n2\n1 0 0 1\n0 1\n"))
            self.assertEqual(self.run_words(folder, "convert", "a.cfn", "b.uai").returncode, 4)
            self.assertEqual(self.run_words(folder, "solve", "none.cfn").returncode, 5)
            path.write_text("{problem {mustbe <-1} variables {a 1} functions {}}")
            self.assertEqual(self.run_words(folder, "solve", "a.cfn").returncode, 1)

    def test_an_interruption_at_the_terminal(self) -> None:
        with tempfile.TemporaryDirectory() as folder:
            with open(Path(folder) / "hard.wcsp", "w") as file:
                write(hard(), file)
            command = [sys.executable, "-B", "-m", "wcspsolve", "solve", "hard.wcsp"]
            world = {**os.environ, "PYTHONPATH": str(TOP / "python")}
            self.addCleanup(signal.signal, signal.SIGINT, signal.getsignal(signal.SIGINT))
            signal.signal(signal.SIGINT, signal.default_int_handler)  # what starts in the background inherits that it is ignored
            pipes = {"stdout": subprocess.PIPE, "stderr": subprocess.PIPE, "universal_newlines": True}
            child = subprocess.Popen(command, cwd=folder, env=world, start_new_session=True, **pipes)
            child.stderr.readline()
            time.sleep(0.2)
            os.killpg(child.pid, signal.SIGINT)  # as a terminal does it, to all that it has started
            said, _ = child.communicate(timeout=100)
            self.assertEqual(child.returncode, 130)
            self.assertIn("no plan was told before the search ended (stopped): none costs less than", said)
            self.assertEqual(os.listdir(folder), ["hard.wcsp"])


if __name__ == "__main__":
    unittest.main()
