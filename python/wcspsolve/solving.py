"""Models and files solved: the program is run on a wcsp file, and its answer told in the names and units of what was given."""

from __future__ import annotations

import os
import shutil
import tempfile
import weakref
from contextlib import contextmanager
from dataclasses import dataclass, field
from enum import Enum
from pathlib import Path
from typing import Any, Callable, Final, Iterator, List, Optional, Sequence, Union

from . import formats, program
from .model import Model
from .network import Cost, Network, Plan, Sense, Units, Whole, said
from .report import Bounds, Listing, Report, bounds_of, interval, listing_of, report_of, verified_of

# A model, a network that was read, or the name of a file in one of the formats.
Problem = Union[Model, Network, str, "os.PathLike[str]"]
OnBounds = Callable[[Bounds], Any]


class Word(Enum):
    """How a search ended."""

    OPTIMUM = "optimum"
    NONE = "none"
    BUDGET = "budget"
    TIME = "time"
    MEMORY = "memory"
    STOPPED = "stopped"


@dataclass(frozen=True)
class Checked:
    """What a certificate shows by itself: the bounds, and that a plan has the cost that is the best one's."""

    lower: Optional[Cost]
    upper: Optional[Cost]


class _Folder:
    """A folder that is removed with the last that knows it."""

    def __init__(self) -> None:
        self.path: Final = Path(tempfile.mkdtemp(prefix="wcspsolve-"))
        weakref.finalize(self, shutil.rmtree, str(self.path), ignore_errors=True)


@dataclass
class _Files:
    """The wcsp file that is solved and the certificate, with what the file's numbers stand for.

    `network` is None for a wcsp file that is given as it is: its numbers are its names.
    """

    file: Path
    certificate: Path
    network: Optional[Network]
    units: Units
    is_written: bool
    folder: Optional["_Folder"]

    @property
    def rounding(self) -> Cost:
        return self.network.rounding if self.network is not None else 0

    def named(self, count: int) -> Network:
        """The network, or where a wcsp file is given as it is, one that names its variables and values by their numbers."""
        return self.network if self.network is not None else formats.numbered(self.file, count)


@dataclass
class Result:
    """What a search has found. The optimum lies between `lower` and `upper`; `values` is a plan that costs `cost`.

    The certificate is one of `network`, the wcsp file that was solved. Where no place was named for them, both stand in a
    folder that goes with this result. Each plan's cost is told to within `rounding` of what the file says.
    """

    word: Word
    lower: Optional[Cost]
    upper: Optional[Cost]
    cost: Optional[Cost]
    values: Optional[Plan]
    nodes: int
    sense: Sense
    rounding: Cost
    certificate: Optional[Path]
    network: Optional[Path]
    _files: Optional[_Files] = field(repr=False, default=None)

    @property
    def is_optimal(self) -> bool:
        """Whether no plan is better."""
        return self.word is Word.OPTIMUM

    def check(self) -> Checked:
        """Judges the certificate by itself, and compares it with this result. ProgramError where they don't agree."""
        if self._files is None or self.certificate is None:
            raise program.ProgramError("there is no certificate: the search was stopped")
        checked = check(self._files.file, self.certificate, units=self._files.units)
        if (checked.lower, checked.upper) != (self.lower, self.upper):
            raise program.ProgramError(f"the certificate shows other bounds: {checked}")
        return checked

    def verdict(self) -> str:
        """What the answer means, in one line."""
        better = "costs less" if self.sense is Sense.LEAST else "gives more"
        bound = self.lower if self.sense is Sense.LEAST else self.upper
        limit = "" if bound is None else f": none {better} than {said(bound)}"
        if self.word is Word.NONE:
            return "no plan keeps all rules and the bound"
        if self.cost is None:
            return f"no plan was told before the search ended ({self.word.value}){limit}"
        if self.is_optimal:
            return f"cost {said(self.cost)}, and no plan {better}"
        worst = "the plan may not be the " + ("cheapest" if self.sense is Sense.LEAST else "best")
        return f"cost {said(self.cost)}; {worst} ({self.word.value}){limit}"

    def __str__(self) -> str:
        plan = [f"{name}: {value}" for name, value in (self.values or {}).items()]
        rounded = [f"costs are negated natural logarithms, each told to within {said(self.rounding)}"] if self.rounding else []
        return "\n".join([*plan, self.verdict(), *rounded])


def solve(
    model_or_file: Problem,
    workers: int = 1,
    seconds: Optional[int] = None,
    budget: Optional[int] = None,
    on_bounds: Optional[OnBounds] = None,
    certificate: Union[str, "os.PathLike[str]", None] = None,
) -> Result:
    """Finds a plan of least cost. At most so many seconds are taken, or search nodes (`budget`).

    on_bounds(bounds) is called while the search goes on. The certificate is written to `certificate`, and the wcsp file that
    it is of to a file of that name with `.wcsp` behind it; or both to a folder that goes with the result.

    KeyboardInterrupt ends the program and removes what it has left. The result then has the best bounds that were told, and
    no values and no certificate: the program doesn't write them before it ends. With `seconds` it does.
    """
    return _search(["solve"], [], _place(model_or_file, certificate), _options(workers, seconds, budget), on_bounds)


def rebase(
    model_or_file: Problem,
    old: Union[Result, str, "os.PathLike[str]"],
    workers: int = 1,
    seconds: Optional[int] = None,
    budget: Optional[int] = None,
    on_bounds: Optional[OnBounds] = None,
    certificate: Union[str, "os.PathLike[str]", None] = None,
) -> Result:
    """As `solve`, from what still holds of an old certificate: of a search that was cut, or of the model before a change."""
    kept = old.certificate if isinstance(old, Result) else Path(old)
    if kept is None:
        raise program.ProgramError("the old result has no certificate: its search was stopped")
    place = _place(model_or_file, certificate)
    return _search(["rebase"], [str(kept)], place, _options(workers, seconds, budget), on_bounds)


def kbest(
    model_or_file: Problem,
    count: int,
    seconds: Optional[int] = None,
    budget: Optional[int] = None,
    certificate: Union[str, "os.PathLike[str]", None] = None,
) -> Listing:
    """Lists the `count` cheapest plans, at most 1,000. A list's certificate is written where a place is named."""
    files = _place(model_or_file, certificate)
    with _draft(files) as draft:
        words = ["kbest", str(files.file), str(count), str(draft), *_options(None, seconds, budget)]
        text = program.run(words).need(0, 1, 2, 6)
        first = next((line.split() for line in text.splitlines() if line.startswith("cost ")), [])
        return listing_of(text, files.named(max(0, len(first) - 3)), files.units)


def check(
    file: Union[str, "os.PathLike[str]"], certificate: Union[str, "os.PathLike[str]"], units: Units = Units()
) -> Checked:
    """Judges the certificate of a wcsp file. ProgramError where it is refused."""
    text = program.run(["check", os.fspath(file), os.fspath(certificate)]).need(0)
    return Checked(*interval(*verified_of(text), units))


def _options(workers: Optional[int], seconds: Optional[int], budget: Optional[int]) -> List[str]:
    """The options of a search. ValueError where one is no whole number."""
    words: List[str] = []
    for option, amount in (("--workers", workers), ("--seconds", seconds), ("--budget", budget)):
        if amount is None:
            continue
        if isinstance(amount, bool) or not isinstance(amount, int) or amount < 0:
            raise ValueError(f"{option[2:]} has to be a whole number, not {amount!r}")
        words += [option, str(amount)]
    return words


def _place(problem: Problem, certificate: Union[str, "os.PathLike[str]", None]) -> _Files:
    """Writes the problem's wcsp file beside its certificate. A wcsp file that stands as it is is left where it is."""
    folder = _Folder() if certificate is None else None
    path = folder.path / "plan.cert" if folder is not None else Path(certificate or "")
    if isinstance(problem, (str, os.PathLike)):
        if formats.is_plain_wcsp(problem):
            return _Files(Path(problem), path, None, Units(), False, folder)
        problem = formats.read(problem)
    network = problem.network() if isinstance(problem, Model) else problem
    whole = Whole(network)
    file = path.with_name(path.name + ".wcsp")
    with open(file, "w", encoding="utf-8") as text:
        whole.write(text)
    return _Files(file, path, network, whole.units(), True, folder)


def _search(
    command: Sequence[str], old: Sequence[str], files: _Files, options: Sequence[str], on_bounds: Optional[OnBounds]
) -> Result:
    last: List[Bounds] = []

    def note(line: str) -> bool:
        bounds = bounds_of(line, files.units)
        if bounds is not None:
            last[:] = [bounds]
            if on_bounds is not None:
                on_bounds(bounds)
        return bounds is not None

    try:
        with _draft(files) as draft:
            words = [*command, str(files.file), *old, str(draft), *options, "--progress"]
            return _result(report_of(program.run(words, note).need(0, 1, 2, 6)), files)
    except KeyboardInterrupt:
        return _stopped(last, files)


@contextmanager
def _draft(files: _Files) -> Iterator[Path]:
    """Where the program writes its certificate, which takes its place where nothing fails. Else what was written is removed."""
    try:
        with tempfile.TemporaryDirectory(prefix=".wcspsolve-", dir=files.certificate.parent) as folder:
            draft = Path(folder) / "draft.cert"
            yield draft
            os.replace(draft, files.certificate)
    except BaseException:
        if files.is_written:
            files.file.unlink()
        raise


def _result(report: Report, files: _Files) -> Result:
    """The report in names and units. The plan's cost is worked out again, from the tables that were given."""
    lower, upper = interval(report.lower, report.upper, files.units)
    values, cost = None, None
    if report.values is not None and report.upper is not None:
        network = files.named(len(report.values))
        values, cost = network.plan(report.values), files.units.told(report.upper)
        if files.network is not None and files.network.price(report.values) != cost:
            raise program.ProgramError(f"the plan does not cost {said(cost)}, by the tables of {files.network.name}")
    word, sense = Word(report.word), files.units.sense
    return Result(word, lower, upper, cost, values, report.nodes, sense, files.rounding, files.certificate, files.file, files)


def _stopped(last: Sequence[Bounds], files: _Files) -> Result:
    bounds = last[0] if last else Bounds(0.0, None, None, 0, 0)
    lower, upper, sense = bounds.lower, bounds.upper, files.units.sense
    return Result(Word.STOPPED, lower, upper, None, None, bounds.nodes, sense, files.rounding, None, None)

