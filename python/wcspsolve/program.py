"""The program `wcspsolve`: found, run with live bounds, and ended cleanly."""

from __future__ import annotations

import os
import shlex
import shutil
import signal
import subprocess
import sys
import tempfile
from dataclasses import dataclass
from pathlib import Path
from typing import Callable, Final, List, Optional, Sequence

_ADVICE: Final = "set WCSPSOLVE to the script `wcspsolve` of a clone of its repository, or put that folder on the PATH"

# How long the program may take to end before it is killed, in seconds.
_GRACE: Final = 5

# What the statuses of a run without a report say (README.md).
_MEANINGS: Final = {
    3: "the program does not know these words",
    4: "the file or the values are refused",
    5: "a read or a write failed",
    6: "memory was refused",
    7: "the certificate is refused",
    70: "the program can't be built",
}


class ProgramError(RuntimeError):
    """There is no program, or it refused what was asked; `status` is the one that it ended with (README.md)."""

    def __init__(self, message: str, status: Optional[int] = None) -> None:
        super().__init__(message)
        self.status = status


@dataclass(frozen=True)
class Ran:
    """How a run ended, and what it said on standard output."""

    status: int
    text: str

    def need(self, *statuses: int) -> str:
        """What was said, where the run ended with one of these statuses. Else ProgramError."""
        if self.status in statuses:
            return self.text
        meaning = _MEANINGS.get(self.status, f"the program ended with status {self.status}")
        first = self.text.splitlines()[0] if self.text else "nothing was said"
        raise ProgramError(f"{meaning} ({first})", self.status)


def find() -> List[str]:
    """The words that start the program: of WCSPSOLVE, else the script of this repository, else `wcspsolve` on the PATH."""
    named = os.environ.get("WCSPSOLVE")
    if named:
        words = [named] if os.path.exists(named) else shlex.split(named)
        if not words or shutil.which(words[0]) is None:
            raise ProgramError(f"WCSPSOLVE is {named!r}, which is no program: {_ADVICE}")
        return words
    top = Path(__file__).resolve().parents[2]
    if (top / "crates.txt").exists() and os.access(top / "wcspsolve", os.X_OK):
        return [str(top / "wcspsolve")]
    on_path = shutil.which("wcspsolve")
    if on_path is None:
        raise ProgramError(f"there is no program wcspsolve: {_ADVICE}")
    return [on_path]


def run(words: Sequence[str], on_line: Callable[[str], bool] = lambda line: False) -> Ran:
    """Runs the program with these words. on_line(line) gets each line of standard error and says whether it was one of its own.

    Other lines go on to standard error. Where this is interrupted, or on_line fails, the program is ended first. Ctrl-C at a
    terminal ends it by itself, as it reaches both.
    """
    command = [*find(), *words]
    with tempfile.TemporaryFile() as output:
        try:
            child = subprocess.Popen(command, stdin=subprocess.DEVNULL, stdout=output, stderr=subprocess.PIPE)
        except OSError as error:
            raise ProgramError(f"{command[0]} can't be run ({error.strerror}): {_ADVICE}") from None
        try:
            assert child.stderr is not None
            for line in child.stderr:
                text = line.decode("utf-8", "replace")
                if not on_line(text):
                    sys.stderr.write(text)
            status = child.wait()
        except BaseException:
            _end(child)
            raise
        finally:
            if child.stderr is not None:
                child.stderr.close()
        if status == -signal.SIGINT:
            raise KeyboardInterrupt
        output.seek(0)
        return Ran(status, output.read().decode("utf-8", "replace"))


def _end(child: "subprocess.Popen[bytes]") -> None:
    """Ends the program."""
    child.terminate()
    try:
        child.wait(_GRACE)
    except subprocess.TimeoutExpired:
        child.kill()
        child.wait()
