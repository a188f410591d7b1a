"""Files of any format solved, judged and converted: `python -m wcspsolve solve FILE`."""

from __future__ import annotations

import argparse
import os
import signal
import sys
import tempfile
from typing import Final, List, NoReturn, Optional

from . import formats
from .formats import Format
from .network import ModelError, Network, Whole, said
from .program import ProgramError
from .report import Bounds
from .solving import Word, check, solve

# The statuses, those of the program where it has one (README.md).
_STATUSES: Final = {Word.OPTIMUM: 0, Word.NONE: 1, Word.BUDGET: 2, Word.TIME: 2, Word.MEMORY: 6, Word.STOPPED: 130}
_USAGE, _REFUSED, _FAILED, _NO_PROGRAM = 3, 4, 5, 70


class _Parser(argparse.ArgumentParser):
    """A parser that ends with the program's status where the words are no command."""

    def error(self, message: str) -> NoReturn:
        self.print_usage(sys.stderr)
        self.exit(_USAGE, f"{self.prog}: {message}\n")


def main(words: Optional[List[str]] = None) -> int:
    """Does what the words ask for, and answers the status."""
    given = _parser().parse_args(words)
    signal.signal(signal.SIGTERM, signal.default_int_handler)
    try:
        return given.command(given)
    except ValueError as error:
        return _fail(str(error), _REFUSED)
    except ProgramError as error:
        return _fail(str(error), _NO_PROGRAM if error.status is None else error.status)
    except OSError as error:
        return _fail(f"{error.filename}: {error.strerror}" if error.filename else str(error), _FAILED)


def _fail(message: str, status: int) -> int:
    print(f"wcspsolve: {message}", file=sys.stderr)
    return status


def _parser() -> argparse.ArgumentParser:
    parser = _Parser("python -m wcspsolve", description=__doc__)
    commands = parser.add_subparsers(required=True, metavar="COMMAND")
    solving = _command(commands, "solve", "finds the best plan of FILE (wcsp, cfn, uai, wcnf, also .gz, .xz, .bz2; - is a pipe)")
    solving.set_defaults(command=_solve)
    solving.add_argument("certificate", metavar="CERT", nargs="?", help="by default FILE's name with .cert, in this folder")
    solving.add_argument("--workers", type=int, default=1, metavar="W", help="1 to 64")
    solving.add_argument("--seconds", type=int, metavar="S", help="the most seconds")
    solving.add_argument("--budget", type=int, metavar="B", help="the most search nodes")
    solving.add_argument("--quiet", action="store_true", help="no bounds on standard error meanwhile")
    checking = _command(commands, "check", "judges CERT, a certificate of the wcsp text that FILE is written as")
    checking.set_defaults(command=_check)
    checking.add_argument("certificate", metavar="CERT")
    converting = _command(commands, "convert", "writes FILE as wcsp or as cfn")
    converting.set_defaults(command=_convert)
    converting.add_argument("out", metavar="OUT", help="ends in .wcsp or .cfn; - is a pipe, as wcsp")
    return parser


def _command(commands: "argparse._SubParsersAction[_Parser]", name: str, about: str) -> argparse.ArgumentParser:
    command = commands.add_parser(name, help=about, description=about)
    command.add_argument("file", metavar="FILE")
    command.add_argument("--from", dest="form", choices=[form.value for form in Format], help="FILE's format, if not by its name")
    command.add_argument("--scale", type=int, default=formats.SCALE, metavar="N", help="of uai: logarithms are rounded to 1/N")
    return command


def _network(given: argparse.Namespace) -> Network:
    return formats.read(given.file, Format(given.form) if given.form else None, given.scale)


def _solve(given: argparse.Namespace) -> int:
    is_plain = given.form in (None, Format.WCSP.value) and formats.is_plain_wcsp(given.file)
    problem = given.file if is_plain else _network(given)
    name = "stdin" if given.file == "-" else os.path.basename(given.file)
    certificate = given.certificate or f"{name}.cert"
    on_bounds = None if given.quiet else _Teller().tell
    result = solve(problem, given.workers, given.seconds, given.budget, on_bounds, certificate)
    print(result)
    if result.certificate is not None:
        print(f"certificate {result.certificate} of {result.network}")
    return _STATUSES[result.word]


class _Teller:
    """Tells bounds on standard error, where they have changed."""

    def __init__(self) -> None:
        self._last = (None, None)

    def tell(self, bounds: Bounds) -> None:
        now = (bounds.lower, bounds.upper)
        if now != self._last:
            low, high = ("?" if bound is None else said(bound) for bound in now)
            print(f"after {bounds.seconds} s: between {low} and {high}", file=sys.stderr, flush=True)
            self._last = now


def _check(given: argparse.Namespace) -> int:
    if given.form in (None, Format.WCSP.value) and formats.is_plain_wcsp(given.file):
        checked = check(given.file, given.certificate)
    else:
        whole = Whole(_network(given))
        with tempfile.TemporaryDirectory(prefix="wcspsolve-") as folder:
            path = os.path.join(folder, "network.wcsp")
            with open(path, "w", encoding="utf-8") as file:
                whole.write(file)
            checked = check(path, given.certificate, whole.units())
    low, high = ("none" if bound is None else said(bound) for bound in (checked.lower, checked.upper))
    print(f"verified lower {low} upper {high}")
    return 0


def _convert(given: argparse.Namespace) -> int:
    network = _network(given)
    if given.out == "-":
        formats.write(network, sys.stdout)
        return 0
    form = next((form for form in (Format.WCSP, Format.CFN) if given.out.endswith("." + form.value)), None)
    if form is None:
        raise ModelError(f"{given.out} has to end in .wcsp or .cfn")
    with open(given.out, "w", encoding="utf-8") as file:
        formats.write(network, file, form)
    return 0


if __name__ == "__main__":
    sys.exit(main())
