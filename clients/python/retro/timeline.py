"""A timeline of a process, by calls in place of lines."""

from operator import index
from typing import TYPE_CHECKING, Dict, List, Optional, Tuple

from .answers import Edit, Taken, Value
from .conversation import spoken
from .rows import LAST_TIME, Lifetime, Row, Saved, entries, lifetimes

if TYPE_CHECKING:
    from .process import Retro


def moment(at: Optional[int] = None, before: Optional[int] = None, after: Optional[int] = None) -> str:
    """The words of a moment, with a space behind them, or nothing. Errors: ValueError where two are named; TypeError where one is no number."""
    named = [("at %d ", at), ("before #%d ", before), ("after #%d ", after)]
    moments = [form % index(value) for form, value in named if value is not None]
    if len(moments) > 1:
        raise ValueError("a row or a question is of one moment")
    return "".join(moments)


def moment_of_a_row(at: Optional[int], before: Optional[int], after: Optional[int]) -> str:
    """The words of the moment at which a row is put in. Errors: those of `moment`; ValueError where none is named."""
    words = moment(at, before, after)
    if not words:
        raise ValueError("a row stands at a time, or before or after another row")
    return words


def over_times(start: int, rows: List[Row]) -> List[int]:
    """A time, and each later one at which rows stand."""
    return [index(start)] + sorted({row.time for row in rows} - {start})


class Timeline:
    """A timeline of a `Retro`. Every call may raise `Refused` or `Ended`.

    The calls that name rows (`row`, `rows`, `entries`, `takes`) go by a table of the rows: the first of them costs a `save`.
    """

    def __init__(self, retro: "Retro", name: str, kind: str) -> None:
        self.retro, self.name, self.kind = retro, name, kind

    def _edit(self, text: str) -> Edit:
        return spoken(self.retro.call("%s %s" % (self.name, text)), Edit)

    def __repr__(self) -> str:
        return "<%s: %s %s>" % (type(self).__name__, self.kind, self.name)

    def at(self, time: int, operation: str) -> Edit:
        """Puts a row in at a time, behind all rows of that time."""
        return self._edit("at %d %s" % (index(time), operation))

    def before(self, number: int, operation: str) -> Edit:
        """Puts a row in just before another one."""
        return self._edit("before #%d %s" % (index(number), operation))

    def after(self, number: int, operation: str) -> Edit:
        """Puts a row in just behind another one."""
        return self._edit("after #%d %s" % (index(number), operation))

    def delete(self, number: int) -> Edit:
        """Takes a row out."""
        return self._edit("delete #%d" % index(number))

    def move(self, number: int, time: int) -> Edit:
        """Gives a row another time; it has a new number then."""
        return self._edit("move #%d at %d" % (index(number), index(time)))

    def change(self, number: int, operation: str) -> Edit:
        """Gives a row another operation, at its place; it has a new number then."""
        return self._edit("change #%d %s" % (index(number), operation))

    def undo(self) -> Edit:
        """Takes the newest step back."""
        return self._edit("undo")

    def redo(self) -> Edit:
        """Makes the step that was undone last once more."""
        return self._edit("redo")

    def ask(self, question: str, at: Optional[int] = None, before: Optional[int] = None, after: Optional[int] = None) -> Value:
        """Asks about now, about a time, or about the moment before or after a row. Errors: ValueError where two moments are named."""
        return self.retro.call("%s ask %s%s" % (self.name, moment(at, before, after), question))

    def fate(self, number: int) -> Optional[Taken]:
        """The row that takes out what this one puts in, or None where it stays. Cost: a walk over all rows, within the program."""
        taken = self.retro.call("%s fate #%d" % (self.name, index(number)))
        return None if taken is None else spoken(taken, Taken)

    def save(self) -> Saved:
        """The timeline as it stands. Cost: its rows."""
        return self.retro.save(self.name)

    def row(self, number: int) -> Row:
        """The row of this number. Errors: KeyError where there is none."""
        return self.retro.look(self.name, lambda table: table.row(number))

    def rows(self, start: int = 0, end: int = LAST_TIME) -> List[Row]:
        """The rows from `start` to `end`, both included, in their order."""
        return self.retro.look(self.name, lambda table: table.between(start, end))

    def entries(self, at: Optional[int] = None) -> List[Row]:
        """The rows whose items are there, in the order of `ask all`, now or at a time. Cost: the rows are performed here, once."""
        return entries(self.kind, self.rows(0, LAST_TIME if at is None else at))

    def lifetimes(self) -> List[Lifetime]:
        """What becomes of what each row puts in: the fates of all rows, for the cost of performing them here once."""
        return lifetimes(self.kind, self.rows())

    def takes(self) -> Dict[int, int]:
        """The reverse of `fate`: of each row that takes something out, the row that had put it in."""
        return {life.taken.number: life.put.number for life in self.lifetimes() if life.taken}

    def over(self, question: str, start: int, end: int) -> List[Tuple[int, Value]]:
        """The question at `start` and at each later time up to `end` at which rows stand; an answer that is the one before is left out."""
        times = over_times(start, self.rows(start, end))
        told: List[Tuple[int, Value]] = []
        asked = list(self.retro.stream(["%s ask at %d %s" % (self.name, time, question) for time in times]))
        for time, reply in zip(times, asked):
            value = reply.value
            if not told or told[-1][1] != value:
                told.append((time, value))
        return told
