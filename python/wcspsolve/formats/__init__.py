"""Files in the formats of others, read as networks, from a name or a pipe, also compressed; and networks written."""

from __future__ import annotations

import bz2
import gzip
import lzma
import os
import re
import sys
from enum import Enum
from pathlib import Path
from typing import BinaryIO, Callable, Dict, Final, Optional, TextIO, Union

from ..network import Network, Variable, Whole
from . import cfn, uai, wcnf, wcsp
from .text import FormatError

PathLike = Union[str, "os.PathLike[str]"]


class Format(Enum):
    """The formats that are read; their names are the endings of files."""

    WCSP = "wcsp"
    CFN = "cfn"
    UAI = "uai"
    WCNF = "wcnf"


# How compressed files begin.
_PACKED: Final[Dict[bytes, Callable[[bytes], bytes]]] = {
    b"\x1f\x8b": gzip.decompress,
    b"\xfd7zXZ\x00": lzma.decompress,
    b"BZh": bz2.decompress,
}

# The parts that a cost of 1 is cut into where costs are no fractions: logarithms are rounded to such a part.
SCALE: Final = 10**6


def read(source: Union[PathLike, BinaryIO], form: Optional[Format] = None, scale: int = SCALE) -> Network:
    """The network of a file or of a pipe, `-` being standard input. FormatError where it is none.

    Without `form` the format is that of the name's ending, or where it has none of these, what the text looks like. The
    logarithms of a uai file are rounded to whole parts of 1 / scale.
    """
    name, packed = _bytes_of(source)
    try:
        text = _unpacked(packed).decode("utf-8")
    except (UnicodeDecodeError, OSError, EOFError, lzma.LZMAError) as error:
        raise FormatError(f"{name} can't be read: {error}") from None
    form = form or _format_by_name(name) or _format_by_text(text)
    title = re.sub(r"(\.(wcsp|cfn|json|uai|wcnf|gz|xz|bz2))+$", "", os.path.basename(name)) or "network"
    if form is Format.CFN:
        return cfn.read(text)
    if form is Format.UAI:
        return uai.read(text, title, scale)
    return wcnf.read(text, title) if form is Format.WCNF else wcsp.read(text)


def write(network: Network, file: TextIO, form: Format = Format.WCSP) -> None:
    """Writes a network as wcsp, in whole costs from 0 on, or as cfn, with its names and decimal costs."""
    if form is Format.WCSP:
        Whole(network).write(file)
    elif form is Format.CFN:
        cfn.write(network, file)
    else:
        raise FormatError(f"{form.value} is read, but not written: write wcsp or cfn")


def is_plain_wcsp(path: PathLike) -> bool:
    """Whether the program can read this file as it is."""
    if os.fspath(path) == "-" or _format_by_name(os.fspath(path)) not in (None, Format.WCSP):
        return False
    with open(path, "rb") as file:
        head = file.read(4096)
    if any(head.startswith(magic) for magic in _PACKED):
        return False
    return _format_by_name(os.fspath(path)) is Format.WCSP or _format_by_text(head.decode("utf-8", "replace")) is Format.WCSP


def numbered(path: PathLike, count: int) -> Network:
    """The names of a wcsp file's variables and values, which are their numbers. Its functions are left out."""
    with open(path, "rb") as file:
        words = file.read(2**16 + 8 * count).split()
        if len(words) < count + 6:
            file.seek(0)
            words = file.read().split()
    sizes = [int(word) for word in words[5 : 5 + count]]
    return Network(Path(path).stem, [Variable(f"x{number}", tuple(range(size))) for number, size in enumerate(sizes)], [])


def _bytes_of(source: Union[PathLike, BinaryIO]) -> "tuple[str, bytes]":
    if isinstance(source, (str, os.PathLike)):
        name = os.fspath(source)
        if name == "-":
            return "standard input", sys.stdin.buffer.read()
        with open(name, "rb") as file:
            return name, file.read()
    return str(getattr(source, "name", "pipe")), source.read()


def _unpacked(text: bytes) -> bytes:
    for magic, unpack in _PACKED.items():
        if text.startswith(magic):
            return unpack(text)
    return text


def _format_by_name(name: str) -> Optional[Format]:
    ending = re.sub(r"\.(gz|xz|bz2)$", "", name).rpartition(".")[2]
    return next((form for form in Format if form.value == ending), None)


def _format_by_text(text: str) -> Format:
    """The format that a text looks like, by its first line that is no comment."""
    lines = (line.strip() for line in text.splitlines())
    first = next((line for line in lines if line and not line.startswith("#") and line.split()[0] != "c"), "")
    if first.startswith("{"):
        return Format.CFN
    if first.split()[:1] in (["MARKOV"], ["BAYES"]):
        return Format.UAI
    if re.match(r"p\s+w?cnf\b|h(\s+-?\d+)*\s+0$|\d+(\s+-?\d+)*\s+0$", first):
        return Format.WCNF
    return Format.WCSP
