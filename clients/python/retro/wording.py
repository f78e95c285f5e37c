"""Rows, times and answers in words: with the names and the dates that they stand for, where these are given."""

from typing import List, Mapping, Optional, Protocol, Union

from .answers import Value
from .dates import date_of
from .rows import Row

COUNTS = frozenset(("size", "count", "sum", "get"))  # questions whose answers are never names


class Named(Protocol):
    """Names by number, such as `Names`."""

    @property
    def names(self) -> Mapping[int, str]:
        """A name for each number that has one."""


GivenNames = Union[None, Mapping[int, str], Named]


class Wording:
    """How what a timeline of a kind holds is said.

    `names`: a name for the values of a queue, stack or deque, the keys of a dict, the keys of a priority queue. `calendar`: whether a time is a
    date, `YYYYMMDDhhmm` or `YYYYMMDDhhmmss`.
    """

    def __init__(self, kind: str, names: GivenNames = None, calendar: bool = False) -> None:
        self.kind, self.calendar = kind, calendar
        self.names: Mapping[int, str] = {} if names is None else names if isinstance(names, Mapping) else names.names

    def time(self, time: int) -> str:
        """A time, as a date where it is one."""
        if self.calendar:
            try:
                return date_of(time)
            except ValueError:
                pass  # said as the number that it is
        return str(time)

    def item(self, number: int) -> str:
        """A value or a key, by its name where it has one."""
        return self.names.get(number, str(number))

    def operation(self, operation: str) -> str:
        """An operation, with the name of what it puts in."""
        word, *numbers = operation.split(" ")
        return " ".join([word] + [self.item(int(number)) for number in numbers[:1]] + numbers[1:])

    def row(self, row: Row) -> str:
        """A row with all that it is."""
        return "Row %d, %s at %s" % (row.number, self.operation(row.operation), self.time(row.time))

    def put(self, row: Row) -> str:
        """What a row puts in, and the row."""
        values = [self.item(number) for number in row.numbers[:1]] + [str(number) for number in row.numbers[1:]]
        return "%s of row %d" % (" ".join(values), row.number)

    def answer(self, question: str, value: Value) -> str:
        """The answer to a question; nothing is said as `nothing`."""
        asked = _word(question)
        if value is None or value == []:
            return "nothing"
        if isinstance(value, list):
            return ", ".join(self._one(asked, one) for one in value)
        return self._one(asked, value)

    def _one(self, asked: str, value: object) -> str:
        if isinstance(value, tuple):
            return "%s: %d" % (self.item(value[0]), value[1])
        return self.item(value) if isinstance(value, int) and asked not in COUNTS else str(value)


def _word(question: str) -> str:
    """The first word of a question, behind the moment where one is named."""
    said: List[str] = question.split()
    return said[2] if len(said) > 2 and said[0] in ("at", "before", "after") else said[0]


def stretch(start: str, end: Optional[str]) -> str:
    """A stretch of time: up to its end, which is no part of it, or on and on."""
    return "from %s on" % start if end is None else "from %s until %s" % (start, end)
