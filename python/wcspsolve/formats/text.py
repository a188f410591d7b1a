"""What the readers share: words with their lines, and what is wrong with them."""

from __future__ import annotations

import re
from fractions import Fraction
from typing import Iterator, List, Tuple

from ..network import Cost, ModelError, whole_where_it_is

_DECIMAL = re.compile(r"[-+]?(\d+\.?\d*|\.\d+)([eE][-+]?\d{1,4})?$")


class FormatError(ModelError):
    """A file that is not of its format, or has something that can't be read yet; with what to do."""


class Words:
    """The words of a text, one after the other."""

    def __init__(self, text: str, form: str) -> None:
        self._words: List[str] = text.split()
        self._next = 0
        self._form = form

    def word(self, meaning: str) -> str:
        """The next word, which is to be this. FormatError where there is none."""
        if self._next == len(self._words):
            raise FormatError(f"the {self._form} file ends before its {meaning}")
        self._next += 1
        return self._words[self._next - 1]

    def number(self, meaning: str, least: int, most: int) -> int:
        """The next word as a whole number of this range."""
        word = self.word(meaning)
        try:
            number = int(word)
        except ValueError:
            raise self.error(meaning, word, "no whole number") from None
        if not least <= number <= most:
            raise self.error(meaning, word, f"not from {least} to {most}")
        return number

    def error(self, meaning: str, word: str, what: str) -> FormatError:
        return FormatError(f"word {self._next} of the {self._form} file, its {meaning}, is {word!r}: {what}")

    def rest(self) -> int:
        """How many words are left."""
        return len(self._words) - self._next


def is_decimal(word: str) -> bool:
    return _DECIMAL.match(word) is not None


def decimal(word: str) -> Cost:
    """A decimal as an exact number. ValueError where it is none."""
    if not is_decimal(word):
        raise ValueError(f"{word!r} is no decimal number")
    return whole_where_it_is(Fraction(word))


def lines_with_numbers(text: str) -> Iterator[Tuple[int, List[str]]]:
    """The words of each line that has some, with its number from 1 on."""
    for number, line in enumerate(text.splitlines(), start=1):
        words = line.split()
        if words:
            yield number, words
