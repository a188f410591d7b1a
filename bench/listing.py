#!/usr/bin/env python3
"""Whether the lists of `kbest` are right, on drawn networks whose assignments are all priced; or, with --measure, what they cost
beside `solve`.

The networks have up to 6 variables with up to 4 values, functions of up to 3 variables with ties and hard tuples, small and large
costs and upper bounds; some are formulas in wcnf. Of each, 1 to 12 assignments are asked for, of some with a limit. A list has to
be in order, its costs have to be right, and what is not in it may cost no less than its lower bound; a complete one has to be the
cheapest. `checkbest` has to verify each certificate, which has to say what the report says. Then each certificate is spoilt: a
number is changed by one, a line is dropped, said twice or exchanged with another, a leaf is turned into another one, other
assignments are listed. What is verified all the same has to be true. It prints counts, and ends with 1 at the first fault.
"""

import argparse
import collections
import itertools
import math
import os
import re
import subprocess
import sys
import tempfile
from dataclasses import dataclass
from pathlib import Path

import networks
from kinds import KINDS, SIZES, Max2Sat
from networks import Function, Network
from problems import Draws
from solving import TOP, Limits, figure, load, make, mean, processor, run, several, text_of

GREATEST = 2**63 - 1
MOST_LISTED = 12
REPORT = re.compile(r"count (\d+)\n((?:cost \d+ values(?: \d+)+\n)*)lower (\d+)\nresult (complete|budget|time|memory)\n")
HEAD = re.compile(
    r"wcspbest 1\nnetwork (\d+) (\d+) (\d+)\ncount (\d+)\nlower (\d+)\nbest (\d+)\n((?:values \d+(?: \d+)+\n)*)tree\n"
)
REFUSED = re.compile(r"refused (\S+) at (\d+)\n")


class Fault(Exception):
    """What is wrong with an answer."""


# Drawing


@dataclass(frozen=True)
class Case:
    """A network with its text, and what is asked of it."""

    network: Network
    text: str
    is_formula: bool
    asked: int
    limit: list


def draw_cost(draws, costs):
    """One of a few costs, so that there are ties, or anything up to the greatest one."""
    return draws.pick(costs) if len(costs) > 1 else draws.between(0, costs[0])


def draw_function(draws, sizes, costs):
    scope = tuple(draws.order(range(len(sizes)))[: draws.pick((0, 1, 1, 2, 2, 2, 3, 3))])
    tuples = list(itertools.product(*(range(sizes[variable]) for variable in scope)))
    listed = draws.subset(tuples, draws.between(0, len(tuples)))
    default = draws.pick((0, 0, draw_cost(draws, costs)))
    return Function(scope, default, {values: draw_cost(draws, costs) for values in listed})


def draw_costs(draws):
    """Costs to draw from: a few, or the greatest one alone."""
    greatest = draws.pick((2, 9, 9, 1000, 2**40, 2**62))
    return draws.pick(([greatest], [greatest], [0, 1, greatest], [0, greatest // 2, greatest]))


def draw_top(draws, network):
    """An upper bound: above all sums, near the cost of an assignment, as large or as small as can be."""
    totals = sorted(network.price(values) for values in assignments(network))
    near = draws.pick(totals[: 1 + len(totals) // 2]) + draws.below(2)
    above = totals[-1] + 1
    return min(draws.pick((above, above, above, near, near, near, GREATEST, draws.between(0, 9))), GREATEST)


def harden(draws, function, top):
    """The function with some listed tuples forbidden."""
    return Function(
        function.scope,
        function.default,
        {values: draws.pick((top, cost, cost, cost, GREATEST)) for values, cost in function.costs.items()},
    )


def draw_network(draws):
    sizes = tuple(draws.pick((1, 2, 2, 3, 3, 4)) for _ in range(draws.pick((1, 2, 3, 4, 5, 5, 6, 6))))
    costs = draw_costs(draws)
    functions = [draw_function(draws, sizes, costs) for _ in range(draws.between(0, 2 * len(sizes)))]
    top = draw_top(draws, Network("drawn", sizes, functions, 0))
    functions = [harden(draws, function, top) if draws.below(3) == 0 else function for function in functions]
    return Network("drawn", sizes, functions, top)


def draw_formula(draws):
    """A formula as a network and as wcnf text."""
    count, costs = draws.between(1, 6), draw_costs(draws)
    lines, functions = [], []
    for _ in range(draws.between(0, 4 * count)):
        scope = draws.order(range(count))[: draws.between(1, 3)]
        signs, weight = draws.signs(len(scope)), draw_cost(draws, costs)
        literals = [variable + 1 if sign else -variable - 1 for variable, sign in zip(scope, signs)]
        lines.append(f"{weight} {' '.join(map(str, literals))} 0\n")
        functions.append(Function(tuple(scope), 0, {tuple(1 - sign for sign in signs): weight}))
    network = Network("wcnf", (2,) * count, functions, 0)
    top = draw_top(draws, network)
    return Network("wcnf", (2,) * count, functions, top), f"p wcnf {count} {len(lines)} {top}\n" + "".join(lines)


def draw_case(seed):
    draws = Draws(f"listing {seed}")
    is_formula = draws.below(6) == 0
    network, text = draw_formula(draws) if is_formula else ((drawn := draw_network(draws)), text_of(drawn))
    budget = ["--budget", str(draws.pick((0, 2, 3, 5, 6, 8, 10, 13, 17, 21, 30)))]
    limit = draws.pick((*[[]] * 7, *[budget] * 4, ["--seconds", "0"]))
    return Case(network, text, is_formula, draws.between(1, draws.pick((3, MOST_LISTED))), limit)


# Judging


def assignments(network):
    return itertools.product(*map(range, network.sizes))


def price_all(network):
    """All assignments below the upper bound with their costs, in the order of costs and then of values."""
    priced = sorted((network.price(values), values) for values in assignments(network))
    return [(cost, values) for cost, values in priced if cost < network.top]


@dataclass(frozen=True)
class Claims:
    """What a report or a certificate says: how many were asked for, the costs and assignments, and the lower bound."""

    asked: int
    listed: list
    lower: int

    def threshold(self, top):
        """The cost that an assignment that is not listed needs not be below."""
        return self.listed[-1][0] if len(self.listed) == self.asked else top

    def is_complete(self, top):
        return self.lower == self.threshold(top)


def read_listed(lines, cost_at, values_from):
    """The costs and assignments of lines, whose words stand at these places."""
    words = [line.split() for line in lines.splitlines()]
    return [(int(line[cost_at]), tuple(map(int, line[values_from:]))) for line in words]


def read_report(said, asked):
    """What a report claims, and how its search ended."""
    report = REPORT.fullmatch(said)
    if report is None:
        raise Fault(f"this is no report: {said[:200]!r}")
    claims = Claims(asked, read_listed(report[2], 1, 3), int(report[3]))
    if int(report[1]) != len(claims.listed):
        raise Fault("the report's count is not that of its lines")
    return claims, report[4]


def read_certificate(text, network):
    """What a certificate of the network claims, or none where it is no text of such a certificate."""
    head = HEAD.match(text)
    own = (len(network.sizes), len(network.functions), network.top)
    if head is None or tuple(map(int, head.groups()[:3])) != own:
        return None
    claims = Claims(int(head[4]), read_listed(head[7], 1, 2), int(head[5]))
    return claims if int(head[6]) == len(claims.listed) else None


def judge(claims, network, allowed):
    """Raises a fault where something that is claimed is not so. `allowed` is what price_all answers."""
    listed = claims.listed
    if claims.asked < 1 or len(listed) > claims.asked:
        raise Fault("none was asked for, or more is listed than was asked for")
    if any(one >= other for one, other in itertools.pairwise(listed)):
        raise Fault("the list is not in the order of costs, and then of values")
    if not set(listed) <= set(allowed):
        raise Fault("an assignment has not its cost, or is forbidden")
    if claims.lower > claims.threshold(network.top):
        raise Fault("the lower bound is above the threshold")
    missing = min((cost for cost, _ in set(allowed) - set(listed)), default=network.top)
    if claims.lower > missing:
        raise Fault(f"an assignment that is not listed costs {missing}, less than the lower bound")
    if claims.is_complete(network.top) and [cost for cost, _ in listed] != [cost for cost, _ in allowed[: claims.asked]]:
        raise Fault("the listed costs are not the least")


def judge_ending(ended, status, claims, case):
    """Raises a fault where a run did not end as it had to."""
    statuses = {"complete": 0 if claims.listed else 1, "budget": 2, "time": 2, "memory": 6}
    if status != statuses[ended]:
        raise Fault(f"the status is {status}, the result {ended}")
    if ended == "complete" and not claims.is_complete(case.network.top):
        raise Fault("the list is not complete, but the result says so")
    if ended not in ("complete", *(word.removeprefix("--").replace("seconds", "time") for word in case.limit[:1])):
        raise Fault(f"the result is {ended}, and there was no such limit")


# Spoiling certificates


def change_number(draws, line):
    """The line with one of its numbers changed by one, or none where it has no number."""
    places = list(re.finditer(r"\d+", line))
    if not places:
        return None
    place = draws.pick(places)
    return f"{line[: place.start()]}{int(place[0]) + draws.pick((1, -1))}{line[place.end() :]}"


def turn_leaf(draws, line):
    """The line of a leaf as that of another one, or none where it is no leaf's."""
    if line.split()[0] not in ("open", "closed", "listed"):
        return None
    return draws.pick(("open", "closed", f"listed {draws.below(MOST_LISTED)}"))


def exchange_list(draws, lines, allowed):
    """The lines with as many other assignments, in order and at their costs, or with the last one taken away: then its leaf is open."""
    listed = [place for place, line in enumerate(lines) if line.startswith("values")]
    if draws.below(2) == 0:
        others = draws.subset(allowed, len(listed))
        told = [f"values {cost} {' '.join(map(str, values))}" for cost, values in others]
        return [*lines[:5], *told, *lines[5 + len(listed) :]]
    if not listed:
        return lines
    last = len(listed) - 1
    fewer = [f"best {last}", *lines[5 : 5 + last], *lines[6 + last :]]
    return lines[:4] + ["open" if line == f"listed {last}" else line for line in fewer]


def spoil(draws, lines, allowed):
    """Other lines, and the first place at which they differ; or none."""
    head = lines.index("tree")
    place = draws.below(head if draws.below(3) == 0 else len(lines))
    other = draws.pick((min(place + 1, len(lines) - 1), draws.below(len(lines))))
    spoilt = list(lines)
    match draws.pick(("number", "number", "number", "number", "drop", "exchange", "twice", "leaf", "leaf", "list")):
        case "number":
            spoilt[place] = change_number(draws, lines[place]) or lines[place]
        case "leaf":
            spoilt[place] = turn_leaf(draws, lines[place]) or lines[place]
        case "drop":
            del spoilt[place]
        case "twice":
            spoilt.insert(place, lines[place])
        case "exchange":
            spoilt[place], spoilt[other] = lines[other], lines[place]
        case "list":
            spoilt = exchange_list(draws, lines, allowed)
    if spoilt == lines:
        return None
    pairs = itertools.zip_longest(lines, spoilt)
    return spoilt, next(number for number, (old, new) in enumerate(pairs, start=1) if old != new)


# Comparing


class Comparison:
    """Runs of the program over drawn networks, and counts of what came of them."""

    def __init__(self, program, scratch, spoilings):
        self.program, self.spoilings = program, spoilings
        self.file, self.certificate, self.spoilt = (scratch / name for name in ("network", "certificate", "spoilt"))
        self.counts = collections.Counter()

    def run(self, *words):
        done = subprocess.run([self.program, *map(str, words)], stdout=subprocess.PIPE, text=True, check=False, timeout=120)
        return done.returncode, done.stdout

    def compare(self, case, draws):
        """Judges the list that is found for a case, its certificate, and what is made of it."""
        allowed = price_all(case.network)
        form = ["--wcnf"] if case.is_formula else []
        self.file.write_text(case.text)
        self.certificate.unlink(missing_ok=True)
        status, said = self.run("kbest", self.file, case.asked, self.certificate, *case.limit, *form)
        claims, ended = read_report(said, case.asked)
        judge(claims, case.network, allowed)
        judge_ending(ended, status, claims, case)
        text = self.certificate.read_text()
        if read_certificate(text, case.network) != claims:
            raise Fault("the certificate does not say what the report says")
        if self.check(self.certificate, form) != (0, f"verified lower {claims.lower} count {len(claims.listed)}\n"):
            raise Fault("the certificate is not verified with the bounds of the report")
        self.count(case, claims, ended)
        for _ in range(self.spoilings):
            self.compare_spoilt(case, draws, allowed, text.splitlines())

    def check(self, certificate, form):
        return self.run("checkbest", self.file, certificate, *form)

    def count(self, case, claims, ended):
        shape = "full" if len(claims.listed) == case.asked else "shorter" if claims.listed else "empty"
        self.counts["result", ended] += 1
        self.counts["list", f"{shape} and {'complete' if ended == 'complete' else 'cut'}"] += 1
        self.counts["listed", "assignments"] += len(claims.listed)
        costs = [cost for cost, _ in claims.listed]
        self.counts["list", "with ties"] += len(set(costs)) < len(costs)
        self.counts["network", "formula" if case.is_formula else "of functions"] += 1

    def compare_spoilt(self, case, draws, allowed, lines):
        """Spoils a certificate, and judges what is verified all the same."""
        made = spoil(draws, lines, allowed)
        if made is None:
            return
        spoilt, place = made
        text = "".join(line + "\n" for line in spoilt)
        self.spoilt.write_text(text)
        status, said = self.check(self.spoilt, ["--wcnf"] if case.is_formula else [])
        if refused := REFUSED.fullmatch(said):
            if status != 7 or (int(refused[2]) < place and (refused[1], refused[2]) != ("lower", "4")):
                raise Fault(f"a certificate whose line {place} was spoilt: status {status}, {said.strip()}")
            self.counts["spoilt", f"refused {refused[1]}"] += 1
            return
        claims = read_certificate(text, case.network)
        if claims is None or (status, said) != (0, f"verified lower {claims.lower} count {len(claims.listed)}\n"):
            raise Fault(f"a certificate whose line {place} was spoilt: status {status}, {said.strip()}")
        judge(claims, case.network, allowed)
        self.counts["spoilt", "verified, and true"] += 1


def compare_all(program, scratch, options):
    """Whether all cases are right."""
    comparison = Comparison(program, scratch, options.spoilings)
    for seed in range(options.seed, options.seed + options.networks):
        case = draw_case(seed)
        try:
            comparison.compare(case, Draws(f"spoiling {seed}"))
        except (Fault, OSError, subprocess.TimeoutExpired) as wrong:
            print(f"WRONG, seed {seed}: {wrong}\nkbest for {case.asked} {' '.join(case.limit)}\n{case.text}")
            return False
    print(f"{options.networks} networks, and {options.spoilings} spoilings of each certificate: all is right")
    for (of, what), count in sorted(comparison.counts.items()):
        print(f"  {of} {what}: {count:,}")
    return True


# Measuring


class Measurement:
    """Runs of the program on instances that kinds.py draws."""

    def __init__(self, program, scratch, options):
        self.program, self.scratch, self.options = program, scratch, options
        self.limits = Limits(options.seconds, 10 * options.seconds, 4096)

    def timed(self, *words):
        """What a run said, and what it took; the one with the least processor seconds of some."""
        runs = []
        for _ in range(self.options.runs):
            output = self.scratch / "output"
            spent = run([self.program, *map(str, words)], self.limits, output)
            runs.append((spent, output.read_text(errors="replace")))
            if spent.cut:
                break
        return min(runs, key=lambda done: (done[0].seconds, done[1]))

    def listed(self, of, network, asked):
        """A list for an instance: its claims, what it took, and what its check took. No claims where it was cut."""
        certificate = self.scratch / "certificate"
        certificate.unlink(missing_ok=True)
        spent, said = self.timed("kbest", of, asked, certificate)
        if spent.cut:
            return None, spent, None
        claims, ended = read_report(said, asked)
        if ended != "complete" or any(network.price(values) != cost for cost, values in claims.listed):
            raise Fault(f"the result is {ended}, or an assignment has not its cost")
        check, verdict = self.timed("checkbest", of, certificate)
        if verdict != f"verified lower {claims.lower} count {len(claims.listed)}\n":
            raise Fault(f"checkbest said {verdict.strip()}")
        return claims, spent, check

    def row(self, name, of):
        """Prints what lists of an instance take beside `solve`, and answers their seconds over those of `solve`."""
        network = networks.read(of.read_text())
        solved, said = self.timed("solve", of, self.scratch / "certificate")
        if "result optimum\n" not in said:
            raise Fault(f"solve has no optimum within {self.options.seconds} seconds")
        optimum = int(re.search(r"^upper (\d+)$", said, re.MULTILINE)[1])
        cells, times, before = [figure(solved.seconds)], {}, [optimum]
        for asked in self.options.asked:
            claims, spent, check = self.listed(of, network, asked)
            times[asked] = max(spent.seconds, 0.001) / max(solved.seconds, 0.001)
            size = (self.scratch / "certificate").stat().st_size / 1e6 if claims else None
            if claims is None:
                cells.append(f"more than {figure(spent.seconds)}")
                continue
            costs = [cost for cost, _ in claims.listed]
            if costs[: len(before)] != before[: len(costs)]:
                raise Fault(f"the costs {costs} do not begin with {before}")
            before = costs
            cells.append(f"{figure(spent.seconds)}, {times[asked]:.2f}, {size:.2f}, {figure(check.seconds)}")
        print(f"|{name}|{'|'.join(cells)}|", flush=True)
        return times

    def instances(self):
        """Lists of instances beside `solve`, and the means."""
        print("|Instance|`solve`: s|" + "".join(f"{asked}: s, times, MB, check s|" for asked in self.options.asked))
        print("|---|---|" + "---|" * len(self.options.asked))
        rows = {}
        for kind, size in itertools.product(self.options.kinds, self.options.sizes):
            of = make(kind, size, 1, self.scratch)
            rows[kind, size] = self.row(of.name, of.path)
            of.path.unlink()
        for asked in self.options.asked:
            of_size = {size: [times[asked] for (_, own), times in rows.items() if own == size] for size in self.options.sizes}
            means = ", ".join(f"{size} {mean(ratios)}" for size, ratios in of_size.items())
            above = [f"{kind}-{size} {times[asked]:.1f}" for (kind, size), times in rows.items() if times[asked] > 4]
            of_all = mean([ratio for ratios in of_size.values() for ratio in ratios])
            print(f"{asked}: mean times {of_all}, {means}; above four: {', '.join(above) or 'none'}")

    def thousand(self):
        """The 1,000 cheapest assignments of 20 variables with two values, compared with all that cost no more."""
        problem = Max2Sat.draw(Draws("a thousand"), {"variables": 20, "clauses": 90, "length": 2})
        network, of = problem.network("thousand"), self.scratch / "thousand"
        of.write_text(text_of(network))
        claims, spent, check = self.listed(of, network, 1000)
        if claims is None:
            raise Fault("1,000 assignments were not found in time")
        costs = [cost for cost, _ in claims.listed]
        least = cheap(network, claims.lower)
        if costs != least[:1000] or len(costs) != 1000 or any(a >= b for a, b in itertools.pairwise(claims.listed)):
            raise Fault("these are not the 1,000 cheapest")
        certificate = self.scratch / "certificate"
        with open(certificate, "rb") as file:
            lines = sum(1 for _ in file)
        print(
            f"1,000 of {math.prod(network.sizes):,} assignments, costs {costs[0]} to {costs[-1]} ({len(least):,} cost no more): "
            f"{figure(spent.seconds)} processor seconds, {spent.memory:.0f} MiB, {lines:,} lines, "
            f"{certificate.stat().st_size / 1e6:.1f} MB, checked in {figure(check.seconds)}, {check.memory:.0f} MiB"
        )


def cheap(network, most):
    """The costs of all assignments that cost no more than this, in order."""
    fronts = [((), 0)]
    for variable, size in enumerate(network.sizes):
        ending = [function for function in network.functions if max(function.scope) == variable]
        longer = (((*values, value), cost) for values, cost in fronts for value in range(size))
        priced = ((values, cost + sum(function.cost(values) for function in ending)) for values, cost in longer)
        fronts = [(values, cost) for values, cost in priced if cost <= most]
    return sorted(cost for _, cost in fronts)


def measure_all(program, scratch, options):
    """Whether all lists are right."""
    print(f"{processor()}, {os.cpu_count()} processors, load {load()}; the least of {options.runs} runs")
    measurement = Measurement(program, scratch, options)
    try:
        measurement.instances()
        measurement.thousand()
    except Fault as wrong:
        print(f"WRONG: {wrong}")
        return False
    print(f"load at the end {load()}")
    return True


def main():
    parser = argparse.ArgumentParser(description="Compares lists of the cheapest assignments with all assignments of drawn networks.")
    add = parser.add_argument
    add("--wcspsolve", type=Path, metavar="PATH", help="the program (built by the script at the top)")
    add("--networks", type=int, default=400, help="how many networks (400)")
    add("--seed", type=int, default=1, help="the seed of the first one (1)")
    add("--spoilings", type=int, default=15, help="how often each certificate is spoilt (15)")
    add("--measure", action="store_true", help="measure lists beside solve on small and medium instances, and 1,000 of 20 variables")
    add("--kinds", type=several(list(KINDS)), default=list(KINDS), help="which kinds of instances are measured (all)")
    add("--sizes", type=several(SIZES), default=["small", "medium"], help="which sizes (small,medium)")
    add("--asked", type=lambda words: [int(word) for word in words.split(",")], default=[1, 2, 10], help="how many are listed, in order (1,2,10)")
    add("--seconds", type=int, default=60, help="processor seconds that a measured run may take (60)")
    add("--runs", type=int, default=1, help="of how many runs the least counts (1)")
    options = parser.parse_args()
    program = options.wcspsolve
    if program is None:
        subprocess.run([TOP / "wcspsolve", "prove"], stdout=subprocess.DEVNULL, check=False)
        program = TOP / "crates" / "wcspsolve" / "out" / "wcspsolve"
    answer = measure_all if options.measure else compare_all
    with tempfile.TemporaryDirectory(prefix="listing-") as scratch:
        return 0 if answer(program.resolve(), Path(scratch), options) else 1


if __name__ == "__main__":
    sys.exit(main())
