"""A timeline of an `AsyncRetro`, by calls in place of lines."""

from operator import index
from typing import TYPE_CHECKING, Dict, List, Optional, Tuple

from .answers import Edit, Taken, Value
from .conversation import spoken
from .rows import LAST_TIME, Lifetime, Row, Saved, entries, lifetimes
from .timeline import moment, over_times

if TYPE_CHECKING:
    from .asynchronous import AsyncRetro


class AsyncTimeline:
    """A timeline of an `AsyncRetro`: the calls of `Timeline`, each to be awaited. Every call may raise `Refused` or `Ended`."""

    def __init__(self, retro: "AsyncRetro", name: str, kind: str) -> None:
        self.retro, self.name, self.kind = retro, name, kind

    def __repr__(self) -> str:
        return "<%s: %s %s>" % (type(self).__name__, self.kind, self.name)

    async def _edit(self, text: str) -> Edit:
        return spoken(await self.retro.call("%s %s" % (self.name, text)), Edit)

    async def at(self, time: int, operation: str) -> Edit:
        """Puts a row in at a time, behind all rows of that time."""
        return await self._edit("at %d %s" % (index(time), operation))

    async def before(self, number: int, operation: str) -> Edit:
        """Puts a row in just before another one."""
        return await self._edit("before #%d %s" % (index(number), operation))

    async def after(self, number: int, operation: str) -> Edit:
        """Puts a row in just behind another one."""
        return await self._edit("after #%d %s" % (index(number), operation))

    async def delete(self, number: int) -> Edit:
        """Takes a row out."""
        return await self._edit("delete #%d" % index(number))

    async def move(self, number: int, time: int) -> Edit:
        """Gives a row another time; it has a new number then."""
        return await self._edit("move #%d at %d" % (index(number), index(time)))

    async def change(self, number: int, operation: str) -> Edit:
        """Gives a row another operation, at its place; it has a new number then."""
        return await self._edit("change #%d %s" % (index(number), operation))

    async def undo(self) -> Edit:
        """Takes the newest step back."""
        return await self._edit("undo")

    async def redo(self) -> Edit:
        """Makes the step that was undone last once more."""
        return await self._edit("redo")

    async def ask(self, question: str, at: Optional[int] = None, before: Optional[int] = None, after: Optional[int] = None) -> Value:
        """Asks about now, about a time, or about the moment before or after a row."""
        return await self.retro.call("%s ask %s%s" % (self.name, moment(at, before, after), question))

    async def fate(self, number: int) -> Optional[Taken]:
        """The row that takes out what this one puts in, or None where it stays."""
        taken = await self.retro.call("%s fate #%d" % (self.name, index(number)))
        return None if taken is None else spoken(taken, Taken)

    async def save(self) -> Saved:
        """The timeline as it stands. Cost: its rows."""
        return await self.retro.save(self.name)

    async def row(self, number: int) -> Row:
        """The row of this number. Errors: KeyError where there is none."""
        return await self.retro.look(self.name, lambda table: table.row(number))

    async def rows(self, start: int = 0, end: int = LAST_TIME) -> List[Row]:
        """The rows from `start` to `end`, both included, in their order."""
        return await self.retro.look(self.name, lambda table: table.between(start, end))

    async def entries(self, at: Optional[int] = None) -> List[Row]:
        """The rows whose items are there, in the order of `ask all`, now or at a time."""
        return entries(self.kind, await self.rows(0, LAST_TIME if at is None else at))

    async def lifetimes(self) -> List[Lifetime]:
        """What becomes of what each row puts in."""
        return lifetimes(self.kind, await self.rows())

    async def takes(self) -> Dict[int, int]:
        """Of each row that takes something out, the row that had put it in."""
        return {life.taken.number: life.put.number for life in await self.lifetimes() if life.taken}

    async def over(self, question: str, start: int, end: int) -> List[Tuple[int, Value]]:
        """The question at `start` and at each later time up to `end` at which rows stand; an answer that is the one before is left out."""
        told: List[Tuple[int, Value]] = []
        times = over_times(start, await self.rows(start, end))
        values = [reply.value async for reply in self.retro.stream(["%s ask at %d %s" % (self.name, time, question) for time in times])]
        for time, value in zip(times, values):
            if not told or told[-1][1] != value:
                told.append((time, value))
        return told
