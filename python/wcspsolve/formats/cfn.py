"""toulbar2's cfn format: JSON in which quotes, commas and colons may be left out, with names and decimal costs."""

from __future__ import annotations

import re
from dataclasses import dataclass
from fractions import Fraction
from typing import Dict, Final, Iterator, List, Optional, Sequence, TextIO, Tuple, Union

from ..network import (
    FORBIDDEN,
    Cost,
    Network,
    Sense,
    Table,
    Variable,
    Whole,
    cell_of,
    cells_of,
    check_values,
    scale_of,
    values_of,
    word_of,
)
from .text import FormatError, decimal

# A string, a bracket, or a word without quotes.
_TOKEN: Final = re.compile(r'"([^"\n]*)"|([{}\[\]])|([^\s{}\[\]:,"]+)')
_BETWEEN: Final = re.compile(r"[\s,:]*")
_COMMENT: Final = re.compile(r"^[ \t]*#[^\n]*", re.MULTILINE)
_OPEN: Final = {"{": "}", "[": "]"}


@dataclass
class Object:
    """Names with their contents."""

    fields: List[Tuple[str, "Content"]]

    def get(self, name: str) -> Optional["Content"]:
        return next((content for key, content in self.fields if key == name), None)


Content = Union[str, Object, List]


def parse(text: str) -> Content:
    """The content of a cfn text. FormatError with the line where it is none."""
    text = _COMMENT.sub("", text)
    stack: List[Tuple[str, List[Content], int]] = [("", [], 0)]
    for token, is_bracket, place in _tokens(text):
        if not is_bracket:
            stack[-1][1].append(token)
        elif token in _OPEN:
            stack.append((_OPEN[token], [], place))
        elif stack[-1][0] != token:
            raise FormatError(f"line {_line(text, place)} of the cfn file has {token!r} where nothing, or another bracket, is open")
        else:
            bracket, contents, begin = stack.pop()
            stack[-1][1].append(contents if bracket == "]" else _object(contents, _line(text, begin)))
    if len(stack) > 1:
        raise FormatError(f"the cfn file ends before the bracket of line {_line(text, stack[-1][2])} is closed")
    if len(stack[0][1]) != 1:
        raise FormatError("the cfn file has to be one object in braces")
    return stack[0][1][0]


def _tokens(text: str) -> Iterator[Tuple[str, bool, int]]:
    """Each token, whether it is a bracket, and its place."""
    place = _BETWEEN.match(text).end()  # type: ignore[union-attr]
    while place < len(text):
        found = _TOKEN.match(text, place)
        if found is None:
            raise FormatError(f"line {_line(text, place)} of the cfn file has a quote that is not closed")
        yield found[found.lastindex or 0], found.lastindex == 2, place
        place = _BETWEEN.match(text, found.end()).end()  # type: ignore[union-attr]


def _line(text: str, place: int) -> int:
    return text.count("\n", 0, place) + 1


def _object(contents: Sequence[Content], line: int) -> Object:
    names, fields = contents[::2], contents[1::2]
    if len(names) != len(fields) or not all(isinstance(name, str) for name in names):
        raise FormatError(f"the braces of line {line} of the cfn file have to have names, each with its content")
    return Object(list(zip(map(str, names), fields)))


def read(text: str) -> Network:
    """The network of a cfn text. FormatError where it is none, or has a function that is no table."""
    parsed = parse(text)
    sections = [parsed.get(name) if isinstance(parsed, Object) else None for name in ("problem", "variables", "functions")]
    for name, section in zip(("problem", "variables", "functions"), sections):
        if section is None or (name == "problem" and not isinstance(section, Object)) or isinstance(section, str):
            raise FormatError(f"the cfn file has no {name}")
    problem, variables, functions = sections
    assert isinstance(problem, Object) and not isinstance(variables, (str, type(None)))
    sense, bound = _goal(problem.get("mustbe"))
    name = problem.get("name")
    reader = _Reader([_variable(name, domain) for name, domain in _named(variables, "x")], sense)
    tables = [reader.table(name, content) for name, content in _named(functions, "function ")]  # type: ignore[arg-type]
    return Network(name if isinstance(name, str) else "network", reader.variables, tables, bound, sense)


def _named(section: Union[Object, List], prefix: str) -> List[Tuple[str, Content]]:
    """Contents with their names, which are numbers behind a prefix where the section has none."""
    if isinstance(section, Object):
        return section.fields
    return [(f"{prefix}{number}", content) for number, content in enumerate(section)]


def _goal(mustbe: Optional[Content]) -> Tuple[Sense, Optional[Cost]]:
    """What is asked for, and the bound of the costs, negated where the greatest is asked for."""
    if not isinstance(mustbe, str) or mustbe[:1] not in ("<", ">"):
        raise FormatError(f'the cfn problem has to have a mustbe as "<10.5" or ">-3", not {mustbe!r}')
    sense = Sense.LEAST if mustbe[0] == "<" else Sense.GREATEST
    return sense, _decimal(mustbe[1:].strip(), "mustbe") * sense.value


def _variable(name: str, domain: Content) -> Variable:
    if isinstance(domain, list) and all(isinstance(value, str) for value in domain):
        values = tuple(domain)
    elif isinstance(domain, str) and re.match(r"-?\d+$", domain):
        if int(domain) < 0:
            raise FormatError(f"variable {name} is an interval ({domain}): give it a list of values, or their number")
        values = tuple(map(str, range(int(domain))))
    else:
        raise FormatError(f"variable {name} has to have a list of values, or their number")
    check_values(name, values)
    if len(set(values)) < len(values):
        raise FormatError(f"variable {name} has a value twice")
    for place, value in enumerate(values):
        if value.isdigit() and value != str(place):
            raise FormatError(f"value {value} of variable {name} is number {place}: a name with a letter says which is meant")
    return Variable(name, values)


def _decimal(word: Content, meaning: str) -> Cost:
    try:
        return decimal(word) if isinstance(word, str) else decimal("")
    except ValueError:
        raise FormatError(f"{word!r} is no decimal number ({meaning})") from None


class _Reader:
    """Functions of these variables, whose costs are negated where the greatest is asked for."""

    def __init__(self, variables: List[Variable], sense: Sense) -> None:
        self.variables, self._sense = variables, sense
        self._numbers = {variable.name: number for number, variable in enumerate(variables)}
        if len(self._numbers) < len(variables):
            raise FormatError("two variables of the cfn file have one name")
        self._places = [{value: place for place, value in enumerate(variable.values)} for variable in variables]
        self._costs: Dict[str, Cost] = {}
        self._tables: Dict[str, Table] = {}

    def table(self, name: str, content: Content) -> Table:
        if not isinstance(content, Object):
            raise FormatError(f"function {name} has to be an object with scope and costs")
        kind = content.get("type")
        if kind is not None:
            raise FormatError(
                f"function {name} is a {kind}, a global or arithmetic function: list its costs, as docs/MODELLING.md shows"
            )
        scope = self._scope(name, content.get("scope"))
        cells = cells_of([self.variables[number].name for number in scope], [len(self._places[number]) for number in scope])
        costs, default = content.get("costs"), content.get("defaultcost")
        if isinstance(costs, str):
            table = self._shared(name, costs, scope)
        elif not isinstance(costs, list) or not all(isinstance(word, str) for word in costs):
            raise FormatError(f"function {name} has to have costs: a list, or the name of a function with the same table")
        elif default is None:
            table = self._dense(name, scope, cells, costs)
        else:
            table = Table.sparse(scope, cells, self._cost(default, name), self._listed(name, scope, costs))
        self._tables[name] = table
        return table

    def _scope(self, name: str, words: Optional[Content]) -> List[int]:
        if not isinstance(words, list):
            raise FormatError(f"function {name} has no scope")
        scope = [self._place(self._numbers, word, f"variable of function {name}") for word in words]
        if len(set(scope)) < len(scope):
            raise FormatError(f"function {name} has a variable twice")
        return scope

    @staticmethod
    def _place(places: Dict[str, int], word: Content, meaning: str) -> int:
        """The number of a name, or a number as it is."""
        if isinstance(word, str):
            if word in places:
                return places[word]
            if word.isdigit() and int(word) < len(places):
                return int(word)
        raise FormatError(f"{word!r} is no {meaning}")

    def _cost(self, word: Content, name: str) -> Optional[Cost]:
        """A cost as it is asked for to be least. Words that come again are not read again."""
        if word == ("inf" if self._sense is Sense.LEAST else "-inf"):
            return FORBIDDEN
        if not isinstance(word, str) or word not in self._costs:
            cost = _decimal(word, f"a cost of function {name}") * self._sense.value
            self._costs[str(word)] = cost
        return self._costs[str(word)]

    def _dense(self, name: str, scope: List[int], cells: int, costs: List[Content]) -> Table:
        if len(costs) != cells:
            raise FormatError(f"function {name} has {len(costs)} costs for {cells} cells: give a defaultcost, or all of them")
        return Table.dense(scope, [self._cost(word, name) for word in costs])

    def _listed(self, name: str, scope: List[int], words: List[Content]) -> Dict[int, Optional[Cost]]:
        places, sizes = [self._places[number] for number in scope], [len(self._places[number]) for number in scope]
        meanings = [f"value of {self.variables[number].name} in function {name}" for number in scope]
        width = len(scope) + 1
        if len(words) % width != 0:
            raise FormatError(f"function {name} has {len(words)} words, which are no tuples of {len(scope)} values and a cost")
        listed: Dict[int, Optional[Cost]] = {}
        for start in range(0, len(words), width):
            pairs = zip(places, words[start : start + width - 1], meanings)
            values = [self._place(known, word, meaning) for known, word, meaning in pairs]
            listed[cell_of(values, sizes)] = self._cost(words[start + width - 1], name)
        return listed

    def _shared(self, name: str, other: str, scope: List[int]) -> Table:
        table = self._tables.get(other)
        if table is None:
            raise FormatError(f"function {name} shares its costs with {other}, which no function before it is")
        if [len(self._places[number]) for number in scope] != [len(self._places[number]) for number in table.scope]:
            raise FormatError(f"function {name} can't share the costs of {other}: its variables have other sizes")
        return Table(tuple(scope), table.cells, table.default, table.listed)


def write(network: Network, file: TextIO) -> None:
    """Puts a network in the cfn format, with its costs as decimals. FormatError where they are none."""
    whole = Whole(network)
    least = sum(whole.shifts)
    bound = network.bound
    if bound is None:  # at least 1 in the user's units, since toulbar2 1.1.1 reads a mustbe of -0.5 as 0.5
        bound = max(Fraction(whole.top, whole.scale) + least, 1 / network.unit)
    digits = _digits(network.unit / whole.scale, network.unit * bound)

    def cost(amount: Optional[Cost]) -> str:
        """A forbidden cost is so great that with the least of all others it comes to the bound."""
        return _fixed(network.sense.value * network.unit * (bound - least if amount is FORBIDDEN else amount), digits)

    names = _names([variable.name for variable in network.variables], "x")
    sign = "<" if network.sense is Sense.LEAST else ">"
    print(f'{{"problem":{{"name":"{word_of(network.name)}","mustbe":"{sign}{cost(bound)}"}},\n"variables":{{', file=file)
    domains = [_names([str(value) for value in variable.values], "v") for variable in network.variables]
    print(",\n".join(f'"{name}":{_list(values)}' for name, values in zip(names, domains)), "},", sep="\n", file=file)
    print('"functions":{', file=file)
    for place, table in enumerate(network.tables):
        scope = _list([names[number] for number in table.scope])
        sizes = [len(network.variables[number].values) for number in table.scope]
        listed = sorted(table.listed.items())
        lines = [",".join(map(str, [*values_of(cell, sizes), cost(amount)])) for cell, amount in listed]
        default = f'"defaultcost":{cost(table.default)},'
        if not table.scope:  # a constant
            default, lines = "", [cost(table.cost(0))]
        print(f'"f{place}":{{"scope":{scope},{default}"costs":[', file=file)
        print(",\n".join(lines), "]}" + ("," if place + 1 < len(network.tables) else ""), sep="\n", file=file)
    print("}}", file=file)


def _digits(step: Fraction, bound: Cost) -> int:
    """The digits behind the point that costs of whole steps and the bound need."""
    scale = str(scale_of([step.denominator, Fraction(bound).denominator]))
    if scale.strip("0") != "1":
        raise FormatError("some costs are no decimals: write wcsp")
    return len(scale) - 1


def _fixed(cost: Cost, digits: int) -> str:
    number = f"{abs(int(cost * 10**digits)):0{digits + 1}d}"
    sign = "-" if cost < 0 else ""
    return sign + (number if digits == 0 else f"{number[:-digits]}.{number[-digits:]}")


def _names(names: Sequence[str], prefix: str) -> List[str]:
    """Names as the format has them: other signs become _, and a first digit gets a prefix. Where two become one, numbers."""
    made = [re.sub(r'[\s/#\[\]{}:,"]', "_", name) for name in names]
    made = [name if name and name[0] not in "0123456789-.+" else prefix + name for name in made]
    return made if len(set(made)) == len(made) else [f"{prefix}{place}" for place in range(len(made))]


def _list(words: Sequence[str]) -> str:
    return "[" + ",".join(f'"{word}"' for word in words) + "]"
