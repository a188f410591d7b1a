#!/usr/bin/env python3
"""How `wcspsolve solve` does beside toulbar2, on instances that kinds.py draws from seeds.

Neither is trusted: every assignment is priced by networks.py from the file, all bounds must agree, and each certificate
is judged by `wcspsolve check`. Runs go one after another, each in a process group of its own with limits on processor
seconds, clock seconds and memory; the group is killed whole at a limit, at Ctrl-C, and at the end.

Exit status: 0 all answers agree, 1 one was wrong, 2 the words are no command, 130 it was stopped.
`--selftest` needs no solver. README.md beside this file says what the numbers are.
"""

from __future__ import annotations

import argparse
import datetime
import functools
import hashlib
import io
import itertools
import json
import math
import multiprocessing
import os
import platform
import re
import resource
import select
import shutil
import signal
import subprocess
import sys
import tempfile
import time
from collections.abc import Callable, Iterator, Sequence
from contextlib import contextmanager, suppress
from dataclasses import asdict, dataclass, field, replace
from pathlib import Path
from typing import Any, Protocol

import networks
from kinds import KINDS, SIZES, Draws, Problem, instance
from networks import Network, Values

TOP = Path(__file__).resolve().parent.parent
STOPS = {signal.SIGINT, signal.SIGTERM, signal.SIGHUP}
MIB = 2**20
# The rules of toulbar2 that are nearest to those of wcspsolve; README.md says what each word does.
NEAR = "-nopre -e: -dee: -k=4 -A=1 -b -c: -q: -d: -solr: -V:".split()
# Processor seconds beyond its limit in which toulbar2 may write what it has.
GRACE = 5
# Of the texts of all tiny and small instances of seed 1, in the order of KINDS.
DIGEST = "7117d58e5590cbadfbe09bebd97a2090b5f51191454be06bc509accab185df5f"


# Running a command


@dataclass(frozen=True)
class Limits:
    """What one run may take: processor seconds of all its threads, clock seconds, MiB of addresses and of one file."""

    seconds: int
    clock: float
    memory: int

    def restrict(self) -> None:
        """Puts the limits on this process, and lets it be stopped."""
        memory = self.memory * MIB
        for what, most in (
            (resource.RLIMIT_CPU, self.seconds),
            (resource.RLIMIT_AS, memory),
            (resource.RLIMIT_FSIZE, memory),
            (resource.RLIMIT_CORE, 0),
        ):
            resource.setrlimit(what, (most, most))
        signal.pthread_sigmask(signal.SIG_UNBLOCK, STOPS)


@dataclass(frozen=True)
class Spent:
    """What a run took. The status is the exit status, or the number of the signal that ended it, negative."""

    status: int
    seconds: float
    clock: float
    memory: float
    cut: bool


@contextmanager
def stops_held() -> Iterator[set[signal.Signals]]:
    """Holds Ctrl-C and its like back, so that no process is started and forgotten. Yields what was held before."""
    before = signal.pthread_sigmask(signal.SIG_BLOCK, STOPS)
    try:
        yield before
    finally:
        signal.pthread_sigmask(signal.SIG_SETMASK, before)


def ends_within(pid: int, seconds: float) -> bool:
    """Waits for the end of a child, which stays to be waited for."""
    descriptor = os.pidfd_open(pid)
    try:
        return bool(select.select([descriptor], [], [], seconds)[0])
    finally:
        os.close(descriptor)


def end_group(process: subprocess.Popen[bytes]) -> resource.struct_rusage:
    """Kills what is left of a process's group, the process too, and gives what the process used."""
    with suppress(ProcessLookupError):
        os.killpg(process.pid, signal.SIGKILL)
    _, status, usage = os.wait4(process.pid, 0)
    process.returncode = os.waitstatus_to_exitcode(status)
    return usage


def run(command: Sequence[str | Path], limits: Limits, output: Path) -> Spent:
    """Runs a command inside limits; what it says goes to the file."""
    with open(output, "wb") as said, stops_held() as before:
        start = time.monotonic()
        process = subprocess.Popen(
            command,
            stdin=subprocess.DEVNULL,
            stdout=said,
            stderr=subprocess.STDOUT,
            start_new_session=True,
            preexec_fn=limits.restrict,
        )
        try:
            signal.pthread_sigmask(signal.SIG_SETMASK, before)
            in_time = ends_within(process.pid, limits.clock)
        finally:
            signal.pthread_sigmask(signal.SIG_BLOCK, STOPS)
            clock = time.monotonic() - start
            usage = end_group(process)
    seconds = usage.ru_utime + usage.ru_stime
    killed = process.returncode == -signal.SIGKILL
    cut = killed and (not in_time or seconds > limits.seconds - 0.5)
    return Spent(process.returncode, seconds, clock, usage.ru_maxrss / 1024, cut)


def _answer(sender: Any, work: Callable[..., Any], arguments: Sequence[Any]) -> None:
    signal.signal(signal.SIGINT, signal.SIG_IGN)
    sender.send(work(*arguments))


def apart(work: Callable[..., Any], *arguments: Any) -> Any:
    """What a function answers, in a process of its own.

    So this process stays small: the kernel counts a parent's greatest memory as its child's until that is its program.
    """
    fork = multiprocessing.get_context("fork")
    receiver, sender = fork.Pipe(duplex=False)
    child = fork.Process(target=_answer, args=(sender, work, arguments), daemon=True)
    child.start()
    sender.close()
    try:
        return receiver.recv()
    finally:
        child.kill()
        child.join()


# Solvers and what they say


@dataclass(frozen=True)
class Answer:
    """What a solver said: how it ended, its bounds, its assignment and its nodes, where it said so.

    `ended` is optimum, none (nothing is below the upper bound), budget, memory, or how else the run ended: time (cut at
    a limit of seconds), file (cut at the limit of a file), or failed.
    """

    ended: str
    lower: int | None = None
    upper: int | None = None
    values: Values | None = None
    nodes: int | None = None

    def is_proof(self) -> bool:
        return self.ended in ("optimum", "none")


@dataclass(frozen=True)
class Instance:
    """An instance as a file, with its numbers."""

    name: str
    path: Path
    variables: int
    functions: int
    cells: int
    top: int


@dataclass
class Run:
    """One solver on one instance, with all that was measured. The certificate's size is in bytes."""

    of: Instance
    solver: str
    load: float
    answer: Answer
    spent: Spent
    certificate: int | None = None
    check: Spent | None = None
    faults: list[str] = field(default_factory=list)


class Solver(Protocol):
    name: str
    program: Path

    def solve(self, of: Instance, limits: Limits, scratch: Path) -> Run:
        """Runs the solver on an instance, in an empty folder. The faults are those that its own words show."""


def whole(word: str) -> int | None:
    return None if word == "none" else int(word)


def read_report(text: str, spent: Spent) -> Answer:
    """What `wcspsolve solve` reports (docs/FORMAT.md)."""
    if spent.cut:
        return Answer("time")
    if spent.status == -signal.SIGXFSZ:
        return Answer("file")
    said = {key: rest for key, _, rest in (line.partition(" ") for line in text.splitlines())}
    if {"lower", "upper", "nodes", "result"} - said.keys():
        return Answer("memory" if spent.status == 6 else "failed")
    values = tuple(map(int, said["values"].split())) if "values" in said else None
    return Answer(said["result"], int(said["lower"]), whole(said["upper"]), values, int(said["nodes"]))


@dataclass(frozen=True)
class Wcspsolve:
    """The program of this repository."""

    program: Path
    budget: int | None
    workers: int
    name: str = "wcspsolve"

    def solve(self, of: Instance, limits: Limits, scratch: Path) -> Run:
        load = os.getloadavg()[0]
        certificate, output = scratch / "certificate", scratch / "report"
        command = [self.program, "solve", of.path, certificate, "--workers", str(self.workers)]
        if self.budget is not None:
            command += ["--budget", str(self.budget)]
        spent = run(command, replace(limits, seconds=limits.seconds * self.workers), output)
        answer = read_report(output.read_text(errors="replace"), spent)
        done = Run(of, self.name, load, answer, spent, faults=list(self._faults(answer, spent, of.top)))
        if certificate.exists():
            done.certificate = certificate.stat().st_size
            done.check = run([self.program, "check", of.path, certificate], limits, output)
            verdict = output.read_text(errors="replace").strip()
            done.faults += check_faults(answer, done.check, verdict)
        return done

    @staticmethod
    def _faults(answer: Answer, spent: Spent, top: int) -> Iterator[str]:
        statuses = {"optimum": 0, "none": 1, "budget": 2, "memory": 6, "time": -signal.SIGKILL, "file": -signal.SIGXFSZ}
        if statuses.get(answer.ended) != spent.status:
            yield f"it ended with {answer.ended} and status {spent.status}"
        if answer.ended == "optimum" and answer.lower != answer.upper:
            yield f"an optimum with the bounds {answer.lower} and {answer.upper}"
        if answer.ended == "none" and (answer.lower, answer.upper) != (top, None):
            yield f"nothing below {top} with the bounds {answer.lower} and {answer.upper}"
        if (answer.upper is None) != (answer.values is None):
            yield "an upper bound without an assignment, or the other way"


def check_faults(answer: Answer, check: Spent, verdict: str) -> Iterator[str]:
    """What is wrong with how a certificate was judged. A judgement that was cut, or had no memory, says nothing."""
    best = "none" if answer.upper is None else answer.upper
    good = (check.status, verdict) == (0, f"verified lower {answer.lower} best {best}")
    if not good and not check.cut and check.status != 6:
        yield f"check ended with status {check.status}: {verdict[:80]}"


GAP = re.compile(r"^(?:Optimality gap|Initial lower and upper bounds): \[(\d+), \d+\]", re.MULTILINE)
FOUND = re.compile(r"^New solution: (\d+) ", re.MULTILINE)
OPTIMUM = re.compile(r"^Optimum: (\d+) in \d+ backtracks and (\d+) nodes", re.MULTILINE)
NOTHING = re.compile(r"^No solution (?:in \d+ backtracks and (\d+) nodes|found)", re.MULTILINE)


def read_toulbar2(text: str, solution: str, spent: Spent, of: Instance) -> Answer:
    """What toulbar2 1.1.1 says. The file of its last assignment is whole only where the run ended by itself."""
    values = tuple(map(int, solution.split())) if solution and spent.status == 0 else None
    if proof := OPTIMUM.search(text):
        cost, nodes = map(int, proof.groups())
        return Answer("optimum", cost, cost, values, nodes)
    if proof := NOTHING.search(text):
        return Answer("none", of.top, None, None, int(proof[1] or 0))
    lowers, uppers = GAP.findall(text), FOUND.findall(text)
    ended = "time" if spent.cut or "Time limit expired" in text else "failed"
    upper = int(uppers[-1]) if uppers and values else None
    return Answer(ended, int(lowers[-1]) if lowers else None, upper, values if uppers else None)


@dataclass(frozen=True)
class Toulbar2:
    """toulbar2 with some options. It watches the limit of seconds itself; where it fails to, it is cut later."""

    program: Path
    options: Sequence[str]
    name: str

    def solve(self, of: Instance, limits: Limits, scratch: Path) -> Run:
        load = os.getloadavg()[0]
        output, solution = scratch / "said", scratch / "solution"
        solution.write_text("")
        words = [f"-timer={limits.seconds}", f"-w={solution}", *self.options]
        spent = run([self.program, of.path, *words], replace(limits, seconds=limits.seconds + GRACE), output)
        answer = read_toulbar2(output.read_text(errors="replace"), solution.read_text(), spent, of)
        done = Run(of, self.name, load, answer, spent)
        if answer.ended == "optimum" and answer.values is None:
            done.faults.append("an optimum without an assignment")
        return done


# Judging


def prices(path: Path, assignments: Sequence[Values | None]) -> list[int | str | None]:
    """What each assignment costs by the file, or why it is none."""
    network = networks.read(path.read_text())

    def price(values: Values | None) -> int | str | None:
        try:
            return None if values is None else network.price(values)
        except ValueError as wrong:
            return str(wrong)

    return [price(values) for values in assignments]


def judge(runs: Sequence[Run], costs: Sequence[int | str | None], top: int) -> None:
    """Adds what the prices and the other solvers' bounds show to the faults of the runs."""
    for done, cost in zip(runs, costs):
        if cost is not None and cost != done.answer.upper:
            done.faults.append(f"its assignment has the price {cost!r}, and it says {done.answer.upper}")
        if isinstance(cost, int) and cost >= top:
            done.faults.append(f"its assignment costs {cost} and is forbidden")
    least = min([top, *(cost for cost in costs if isinstance(cost, int))])
    for done in runs:
        if done.answer.lower is not None and done.answer.lower > least:
            done.faults.append(f"its lower bound {done.answer.lower} is above {least}, the least cost that is known")
        if done.answer.ended == "optimum" and done.answer.upper is not None and done.answer.upper > least:
            done.faults.append(f"its optimum {done.answer.upper} is above {least}, the least cost that is known")


# Instances


def text_of(network: Network) -> str:
    text = io.StringIO()
    networks.write(network, text)
    return text.getvalue()


def make(kind: str, size: str, seed: int, folder: Path) -> Instance:
    name = f"{kind}-{size}-{seed}"
    network = instance(KINDS[kind], size, seed).network(name)
    path = folder / f"{name}.wcsp"
    path.write_text(text_of(network))
    return Instance(name, path, len(network.sizes), len(network.functions), network.cells(), network.top)


# The table


# The heading, the width and the side of each column.
COLUMNS = (
    ("Instance", 28, "<"),
    ("Solver", 13, "<"),
    ("Ended", 8, "<"),
    ("Seconds", 8, ">"),
    ("Nodes", 10, ">"),
    ("MiB", 6, ">"),
    ("Certificate MB", 14, ">"),
    ("Check s", 8, ">"),
    ("Bounds", 16, "<"),
)


def row(cells: Sequence[str]) -> str:
    return "| " + " | ".join(f"{cell:{side}{width}}" for cell, (_, width, side) in zip(cells, COLUMNS)) + " |"


def heading() -> str:
    lines = ("-" * (width + 1) + (":" if side == ">" else "-") for _, width, side in COLUMNS)
    return row([name for name, _, _ in COLUMNS]) + f"\n|{'|'.join(lines)}|"


def figure(number: float) -> str:
    return f"{number:.3f}" if number < 10 else f"{number:.1f}"


def bounds(answer: Answer) -> str:
    if answer.ended == "none":
        return "nothing below"
    if answer.lower is None and answer.upper is None:
        return "unknown"
    if answer.lower == answer.upper:
        return str(answer.lower)
    lower, upper = ("?" if bound is None else str(bound) for bound in (answer.lower, answer.upper))
    return f"{lower} to {upper}"


def describe(done: Run) -> str:
    answer, spent, check = done.answer, done.spent, done.check
    return row(
        [
            done.of.name,
            done.solver,
            f"failed {spent.status}" if answer.ended == "failed" else answer.ended,
            figure(spent.seconds),
            "-" if answer.nodes is None else str(answer.nodes),
            f"{spent.memory:.0f}",
            "-" if done.certificate is None else figure(done.certificate / 1e6),
            "-" if check is None else "cut" if check.cut else figure(check.seconds),
            bounds(answer),
        ]
    )


def mean(ratios: Sequence[float]) -> str:
    return f"{math.exp(sum(map(math.log, ratios)) / len(ratios)):.3g}"


def compare(runs: Sequence[Run], one: str, other: str) -> str:
    """The geometric means of what one solver took over what the other took, where both finish."""
    of_one, of_other = (
        {done.of.name: done for done in runs if done.solver == solver and done.answer.is_proof()}
        for solver in (one, other)
    )
    pairs = [(of_one[name], of_other[name]) for name in of_one if name in of_other]
    count = len({done.of.name for done in runs})
    said = f"{one} / {other}: both finish {len(pairs)} of {count} instances ({len(of_one)} and {len(of_other)})"
    if not pairs:
        return said
    measures: dict[str, Callable[[Run], float]] = {
        "seconds": lambda done: max(done.spent.seconds, 0.001),
        "nodes": lambda done: max(done.answer.nodes or 0, 1),
        "memory": lambda done: done.spent.memory,
    }
    means = [f"{name} {mean([measure(a) / measure(b) for a, b in pairs])}" for name, measure in measures.items()]
    checks = [max(a.check.seconds, 0.001) / measures["seconds"](b) for a, b in pairs if a.check and not a.check.cut]
    if checks:
        means.append(f"check s / seconds {mean(checks)}")
    return f"{said}; geometric means: {', '.join(means)}"


def processor() -> str:
    with suppress(OSError, StopIteration):
        lines = Path("/proc/cpuinfo").read_text().splitlines()
        return next(line.partition(":")[2].strip() for line in lines if line.startswith("model name"))
    return platform.machine()


def load() -> str:
    return " ".join(f"{number:.1f}" for number in os.getloadavg())


# The measurement


def measure(options: argparse.Namespace, solvers: Sequence[Solver], scratch: Path, runs: list[Run]) -> None:
    """Runs every solver on every instance, prints rows as they come, and adds to the runs."""
    limits = Limits(options.seconds, options.clock, options.memory)
    for kind, size, seed in itertools.product(options.kinds, options.sizes, options.seeds):
        of = apart(make, kind, size, seed, options.keep or scratch)
        if not solvers:
            print(f"{of.name}: {of.variables} variables, {of.functions} functions, {of.cells} cells, below {of.top}")
        here: list[Run] = []
        for solver in solvers:
            with tempfile.TemporaryDirectory(dir=scratch) as own:
                here.append(solver.solve(of, limits, Path(own)))
            print(describe(here[-1]), flush=True)
        judge(here, apart(prices, of.path, [done.answer.values for done in here]), of.top)
        runs += here
        for done in here:
            for fault in done.faults:
                print(f"WRONG: {done.solver} on {of.name}: {fault}", flush=True)
        if not options.keep:
            of.path.unlink()


def summarize(runs: Sequence[Run], solvers: Sequence[Solver]) -> None:
    for solver in solvers[1:]:
        print(compare(runs, solvers[0].name, solver.name))
    wrong = sum(bool(done.faults) for done in runs)
    print(f"{len(runs)} runs, {wrong} with a wrong answer; load at the end {load()}", flush=True)


def surroundings(options: argparse.Namespace, solvers: Sequence[Solver]) -> dict[str, Any]:
    """What the numbers depend on."""
    programs = {str(solver.program) for solver in solvers}
    idle = run([shutil.which("true") or sys.executable], Limits(5, 60, 1024), Path(os.devnull))
    return {
        "date": datetime.datetime.now(datetime.UTC).isoformat(timespec="seconds"),
        "processor": processor(),
        "processors": os.cpu_count(),
        "load": os.getloadavg(),
        "least_memory": idle.memory,
        "programs": {name: hashlib.sha256(Path(name).read_bytes()).hexdigest() for name in sorted(programs)},
        "limits": [options.seconds, options.clock, options.memory],
        "budget": options.budget,
        "workers": options.workers,
    }


def find_solvers(options: argparse.Namespace) -> list[Solver]:
    """The solvers that were asked for; of those that nobody named, the ones that are there."""
    solvers: list[Solver] = []
    if "wcspsolve" in options.solvers:
        if options.wcspsolve is None:
            subprocess.run([TOP / "wcspsolve", "prove"], stdout=subprocess.DEVNULL, check=False)
            options.wcspsolve = TOP / "crates" / "wcspsolve" / "out" / "wcspsolve"
        if not os.access(options.wcspsolve, os.X_OK):
            print(f"{options.wcspsolve} is no program", file=sys.stderr)
            raise SystemExit(2)
        solvers.append(Wcspsolve(options.wcspsolve.resolve(), options.budget, options.workers))
    program = shutil.which(options.toulbar2)
    if program is None and any(name.startswith("toulbar2") for name in options.solvers):
        print("toulbar2 is not installed (Debian: apt-get install toulbar2): left out", file=sys.stderr)
    else:
        ways = {"toulbar2": [], "toulbar2-near": NEAR}
        solvers += [Toulbar2(Path(program), words, name) for name, words in ways.items() if name in options.solvers]
    return solvers


# The self-test


def expect(actual: object, wanted: object, what: str) -> None:
    if actual != wanted:
        raise AssertionError(f"{what}: {actual!r} in place of {wanted!r}")


def test_tiny(kind: type[Problem], seed: int) -> int:
    """Compares the file of a tiny instance, read back, with the problem's own words on every assignment."""
    problem = instance(kind, "tiny", seed)
    network = problem.network("tiny")
    again = networks.read(text_of(network))
    expect(again, network, "what is read is what was written")
    least = network.top
    for values in itertools.product(*map(range, network.sizes)):
        cost, price = problem.cost(values), again.price(values)
        expect(price >= network.top if cost is None else price == cost < network.top, True, f"the price of {values}")
        least = least if cost is None else min(least, cost)
    expect(least < network.top, True, "something is allowed")
    return least


def test_size(kind: type[Problem], size: str) -> None:
    """The limits of a larger instance, and its file on some assignments."""
    problem = instance(kind, size, 1)
    network = problem.network(size)
    expect(list(network.excesses()), [], f"limits passed in size {size}")
    again = networks.read(text_of(network))
    draws = Draws("assignments")
    for _ in range(5):
        values = tuple(draws.below(count) for count in network.sizes)
        cost, price = problem.cost(values), again.price(values)
        expect(price >= network.top if cost is None else price == cost, True, f"a price in size {size}")


def test_kinds() -> None:
    digest = hashlib.sha256()
    for name, kind in KINDS.items():
        least = [test_tiny(kind, seed) for seed in (1, 2, 3)]
        for size in SIZES[1:]:
            test_size(kind, size)
        texts = [text_of(instance(kind, size, 1).network("digest")) for size in ("tiny", "small")]
        digest.update("".join(texts).encode())
        expect(texts[0] != text_of(instance(kind, "tiny", 2).network("digest")), True, "another seed, another instance")
        print(f"{name}: tiny optima {', '.join(map(str, least))}", flush=True)
    expect(digest.hexdigest(), DIGEST, "the same instances on every machine")


def test_reading() -> None:
    network = networks.read("t 2 3 4 9\n2 3\n0 2 0\n1 1 1 1 0 4\n2 1 0 0 2 2 1 3 2 1\t5\r\n0 1 1  7")
    expect((network.sizes, network.top, network.cells()), ((2, 3), 9, 1 + 3 + 6 + 1), "the numbers of a file")
    expect(network.price((0, 0)), 2 + 4 + 0 + 7, "constants, a listed value, a default")
    expect(network.price((1, 2)), 2 + 1 + 5 + 7, "the last listing, and the order of the scope")
    for wrong in ((0,), (0, 3), (-1, 0)):
        with suppress(ValueError):
            network.price(wrong)
            raise AssertionError(f"{wrong} has a price")


def test_reports() -> None:
    spent = Spent(0, 1.0, 1.0, 10.0, False)
    cut = replace(spent, status=-signal.SIGKILL, cut=True)
    of = Instance("i", Path("i"), 3, 3, 12, 10)
    report = "variables 3\nrow 0 none\nlower 1\nupper 1\nvalues 0 0 1\nnodes 15\nresult optimum\n"
    expect(read_report(report, spent), Answer("optimum", 1, 1, (0, 0, 1), 15), "a report")
    expect(read_report("lower 2\nupper none\nnodes 3\nresult none\n", spent), Answer("none", 2, nodes=3), "none")
    expect(read_report("", cut), Answer("time"), "a report that was cut")
    said = "Initial lower and upper bounds: [1, 9] 50%\nNew solution: 4 (0 backtracks, 0 nodes, depth 2)\n"
    optimum = said + "Optimum: 4 in 2 backtracks and 5 nodes ( 0 removals by DEE) and 0.1 seconds.\n"
    expect(read_toulbar2(optimum, "0 0 1\n", spent, of), Answer("optimum", 4, 4, (0, 0, 1), 5), "toulbar2's optimum")
    gap = said + "Optimality gap: [3, 4] 25 % (1 backtracks, 2 nodes)\n"
    expired = gap + "\nTime limit expired... Aborting...\n"
    expect(read_toulbar2(expired, "0 0 1\n", spent, of), Answer("time", 3, 4, (0, 0, 1)), "toulbar2's own limit")
    expect(read_toulbar2(gap, "0 0", cut, of), Answer("time", 3), "toulbar2 that was cut")
    expect(read_toulbar2(gap, "0 0 1\n", spent, of), Answer("failed", 3, 4, (0, 0, 1)), "toulbar2 without an end")
    none = "No solution found by initial propagation!\n"
    expect(read_toulbar2(none, "", spent, of), Answer("none", 10, nodes=0), "toulbar2's none")


def test_judging() -> None:
    spent = Spent(0, 1.0, 1.0, 10.0, False)
    of = Instance("i", Path("i"), 1, 1, 2, 10)

    def faults(answers: Sequence[Answer], costs: Sequence[int | str | None]) -> list[int]:
        runs = [Run(of, str(place), 0.0, answer, spent) for place, answer in enumerate(answers)]
        judge(runs, costs, 10)
        return [len(done.faults) for done in runs]

    right, worse = Answer("optimum", 4, 4, (0,)), Answer("optimum", 5, 5, (1,))
    expect(faults([right, right], [4, 4]), [0, 0], "two that agree")
    expect(faults([right, worse], [4, 5]), [0, 2], "two optima")
    expect(faults([right, Answer("none", 10)], [4, None]), [0, 1], "an optimum and none")
    expect(faults([right], [3]), [1 + 2], "a wrong price, below its bounds")
    expect(faults([right], ["no value"]), [1], "no assignment")
    expect(faults([Answer("optimum", 12, 12, (1,))], [12]), [1 + 2], "a forbidden assignment")
    expect(faults([Answer("time", 3, 6, (1,)), right], [6, 4]), [0, 0], "bounds of a run that was cut")
    expect(list(check_faults(right, spent, "verified lower 4 best 4")), [], "a good certificate")
    expect(len(list(check_faults(right, spent, "verified lower 3 best 4"))), 1, "another bound")
    expect(len(list(check_faults(right, replace(spent, status=7), "refused lift at 9"))), 1, "a refused certificate")


def is_gone(pid: int) -> bool:
    """Whether a process that was killed ends soon."""
    deadline = time.monotonic() + 10
    while time.monotonic() < deadline:
        try:
            if Path(f"/proc/{pid}/stat").read_text().rpartition(")")[2].split()[0] == "Z":
                return True
        except OSError:
            return True
        time.sleep(0.01)
    return False


def test_limits(scratch: Path) -> None:
    output = scratch / "output"
    spin = run([sys.executable, "-c", "while True: pass"], Limits(1, 60, 1024), output)
    expect((spin.status, spin.cut), (-signal.SIGKILL, True), "processor seconds")
    program = "import subprocess; p = subprocess.Popen(['sleep', '60']); print(p.pid, flush=True); p.wait()"
    idle = run([sys.executable, "-c", program], Limits(5, 2, 1024), output)
    expect((idle.cut, idle.seconds < 2), (True, True), "clock seconds")
    expect(is_gone(int(output.read_text())), True, "the whole group is ended")
    large = run([sys.executable, "-c", "bytearray(300 << 20)"], Limits(5, 60, 256), output)
    expect((large.status, "MemoryError" in output.read_text()), (1, True), "memory")


def selftest(scratch: Path) -> int:
    try:
        for test in (test_reading, test_reports, test_judging, functools.partial(test_limits, scratch), test_kinds):
            test()
    except AssertionError as wrong:
        print(f"WRONG: {wrong}")
        return 1
    print("the self-test is passed")
    return 0


# The command line


def several(names: Sequence[str]) -> Callable[[str], list[str]]:
    """Reads names that commas part."""

    def read(words: str) -> list[str]:
        chosen = [word for word in words.split(",") if word]
        for word in chosen:
            if word not in names:
                raise argparse.ArgumentTypeError(f"{word} is none of {', '.join(names)}")
        return chosen

    return read


def numbers(words: str) -> list[int]:
    return [int(word) for word in words.split(",")]


def positive(word: str) -> int:
    if int(word) < 1:
        raise argparse.ArgumentTypeError(f"{word} is below 1")
    return int(word)


def parse(words: Sequence[str] | None = None) -> argparse.Namespace:
    parser = argparse.ArgumentParser(description="Measures wcspsolve beside toulbar2. Lists are parted by commas.")
    names = ("wcspsolve", "toulbar2", "toulbar2-near")
    add = parser.add_argument
    add("--list", action="store_true", help="name the kinds and stop")
    add("--selftest", action="store_true", help="test the generators, the reader, the prices and the limits, and stop")
    add("--kinds", type=several(list(KINDS)), default=list(KINDS), help="which kinds (all)")
    add("--sizes", type=several(SIZES), default=["small"], help=f"which of {', '.join(SIZES)} (small)")
    add("--seeds", type=numbers, default=[1], help="which seeds (1)")
    add("--solvers", type=several(names), default=list(names), help=f"which of {', '.join(names)} (all)")
    add("--wcspsolve", type=Path, metavar="PATH", help="the program (built by the script at the top)")
    add("--toulbar2", default="toulbar2", metavar="PATH", help="the program (on the PATH)")
    add("--budget", type=positive, help="nodes that wcspsolve may expand (no limit)")
    add("--workers", type=positive, default=1, help="workers of wcspsolve (1); its seconds are as many times as long")
    add("--seconds", type=positive, default=60, help="processor seconds of a run (60)")
    add("--clock", type=positive, help="clock seconds of a run (ten times its processor seconds)")
    add("--memory", type=positive, default=4096, help="MiB of addresses of a run, and of each file it writes (4096)")
    add("--json", type=Path, metavar="FILE", help="write the raw numbers there")
    add("--keep", type=Path, metavar="FOLDER", help="keep the instances there")
    options = parser.parse_args(words)
    options.clock = options.clock or 10 * options.seconds
    return options


def list_kinds() -> None:
    for name, kind in KINDS.items():
        shapes = "; ".join(f"{size} {' '.join(map(str, shape.values()))}" for size, shape in kind.shapes.items())
        print(f"{name}: {(kind.__doc__ or '').split('.')[0]}.\n    {' '.join(kind.shapes['tiny'])}: {shapes}")


def main() -> int:
    options = parse()
    if options.list:
        list_kinds()
        return 0
    for stop in (signal.SIGTERM, signal.SIGHUP):
        signal.signal(stop, signal.default_int_handler)
    with tempfile.TemporaryDirectory(prefix="solving-") as scratch:
        if options.selftest:
            return selftest(Path(scratch))
        return measured(options, Path(scratch))


def measured(options: argparse.Namespace, scratch: Path) -> int:
    """Measures, sums up what was measured also where it was stopped, and gives the exit status."""
    solvers = find_solvers(options)
    if options.keep:
        options.keep.mkdir(parents=True, exist_ok=True)
    around = surroundings(options, solvers)
    print(f"{around['date']}, {around['processor']}, {around['processors']} processors, load {load()}")
    print(f"limits: {options.seconds} processor seconds, {options.clock} by the clock, {options.memory} MiB")
    print(f"a program that does nothing shows {around['least_memory']:.0f} MiB: peaks below that can't be seen\n")
    print(heading() if solvers else "no solver is run", flush=True)
    runs: list[Run] = []
    stopped = False
    try:
        measure(options, solvers, scratch, runs)
    except KeyboardInterrupt:
        stopped = True
    print()
    summarize(runs, solvers)
    if options.json:
        options.json.write_text(json.dumps(around | {"runs": [asdict(done) for done in runs]}, indent=1, default=str))
    wrong = any(done.faults for done in runs)
    return 130 if stopped else int(wrong)


if __name__ == "__main__":
    sys.exit(main())
