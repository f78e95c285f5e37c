"""Timelines of an `AsyncRetro` with the calls of their kind, each to be awaited: what they do and say is told in `kinds.py`."""

from operator import index
from typing import Dict, List, Optional, Tuple, Type, TypeVar

from .answers import Edit
from .asynchronous_timeline import AsyncTimeline
from .conversation import spoken
from .kinds import pair_of
from .timeline import moment_of_a_row

Kind = TypeVar("Kind", bound="_Kind")
Pair = Tuple[int, int]


class _Kind(AsyncTimeline):
    """What all kinds share."""

    KIND = ""

    @classmethod
    def of(cls: Type[Kind], timeline: AsyncTimeline) -> Kind:
        """A timeline as one of its kind, such as `AsyncQueue.of(await retro.load(saved))`. Errors: TypeError where it is of another kind."""
        if timeline.kind != cls.KIND:
            raise TypeError("the %s %s is no %s" % (timeline.kind, timeline.name, cls.KIND))
        return cls(timeline.retro, timeline.name, timeline.kind)

    async def _row(self, operation: str, at: Optional[int], before: Optional[int], after: Optional[int]) -> Edit:
        return await self._edit(moment_of_a_row(at, before, after) + operation)

    async def _number(self, question: str, at: Optional[int], before: Optional[int], after: Optional[int]) -> Optional[int]:
        answer = await self.ask(question, at, before, after)
        return None if answer is None else spoken(answer, int)

    async def _count(self, question: str, at: Optional[int], before: Optional[int], after: Optional[int]) -> int:
        return spoken(await self.ask(question, at, before, after), int)

    async def size(self, at: Optional[int] = None, before: Optional[int] = None, after: Optional[int] = None) -> int:
        """How many items there are, or how many keys."""
        return await self._count("size", at, before, after)


class _Line(_Kind):
    """What all kinds share whose content is a line of numbers."""

    async def all(self, at: Optional[int] = None, before: Optional[int] = None, after: Optional[int] = None) -> List[int]:
        """The whole content: from the front, the top or the left, or rising."""
        return [spoken(one, int) for one in spoken(await self.ask("all", at, before, after), list)]

    async def nth(self, place: int, at: Optional[int] = None, before: Optional[int] = None, after: Optional[int] = None) -> Optional[int]:
        """What stands at a place, the first being number 0."""
        return await self._number("nth %d" % index(place), at, before, after)


class AsyncQueue(_Line):
    """A queue: what came first is taken first."""

    KIND = "queue"

    async def enq(self, value: int, *, at: Optional[int] = None, before: Optional[int] = None, after: Optional[int] = None) -> Edit:
        """A row that puts a value at the back."""
        return await self._row("enq %d" % index(value), at, before, after)

    async def deq(self, *, at: Optional[int] = None, before: Optional[int] = None, after: Optional[int] = None) -> Edit:
        """A row that takes the front."""
        return await self._row("deq", at, before, after)

    async def front(self, at: Optional[int] = None, before: Optional[int] = None, after: Optional[int] = None) -> Optional[int]:
        """What is taken next."""
        return await self._number("front", at, before, after)

    async def back(self, at: Optional[int] = None, before: Optional[int] = None, after: Optional[int] = None) -> Optional[int]:
        """What came last."""
        return await self._number("back", at, before, after)


class AsyncStack(_Line):
    """A stack: what came last is taken first."""

    KIND = "stack"

    async def push(self, value: int, *, at: Optional[int] = None, before: Optional[int] = None, after: Optional[int] = None) -> Edit:
        """A row that puts a value on top."""
        return await self._row("push %d" % index(value), at, before, after)

    async def pop(self, *, at: Optional[int] = None, before: Optional[int] = None, after: Optional[int] = None) -> Edit:
        """A row that takes the top."""
        return await self._row("pop", at, before, after)

    async def top(self, at: Optional[int] = None, before: Optional[int] = None, after: Optional[int] = None) -> Optional[int]:
        """What is taken next."""
        return await self._number("top", at, before, after)


class AsyncDeque(_Line):
    """A deque: values come and go at both ends."""

    KIND = "deque"

    async def pushl(self, value: int, *, at: Optional[int] = None, before: Optional[int] = None, after: Optional[int] = None) -> Edit:
        """A row that puts a value at the left end."""
        return await self._row("pushl %d" % index(value), at, before, after)

    async def pushr(self, value: int, *, at: Optional[int] = None, before: Optional[int] = None, after: Optional[int] = None) -> Edit:
        """A row that puts a value at the right end."""
        return await self._row("pushr %d" % index(value), at, before, after)

    async def popl(self, *, at: Optional[int] = None, before: Optional[int] = None, after: Optional[int] = None) -> Edit:
        """A row that takes the left end."""
        return await self._row("popl", at, before, after)

    async def popr(self, *, at: Optional[int] = None, before: Optional[int] = None, after: Optional[int] = None) -> Edit:
        """A row that takes the right end."""
        return await self._row("popr", at, before, after)

    async def left(self, at: Optional[int] = None, before: Optional[int] = None, after: Optional[int] = None) -> Optional[int]:
        """What stands at the left end."""
        return await self._number("left", at, before, after)

    async def right(self, at: Optional[int] = None, before: Optional[int] = None, after: Optional[int] = None) -> Optional[int]:
        """What stands at the right end."""
        return await self._number("right", at, before, after)


class AsyncDict(_Kind):
    """A dictionary: a value for each key."""

    KIND = "dict"

    async def put(self, key: int, value: int, *, at: Optional[int] = None, before: Optional[int] = None, after: Optional[int] = None) -> Edit:
        """A row that gives a key a value, whatever it had before."""
        return await self._row("put %d %d" % (index(key), index(value)), at, before, after)

    async def remove(self, key: int, *, at: Optional[int] = None, before: Optional[int] = None, after: Optional[int] = None) -> Edit:
        """A row that takes a key out, which is the operation `del`."""
        return await self._row("del %d" % index(key), at, before, after)

    async def all(self, at: Optional[int] = None, before: Optional[int] = None, after: Optional[int] = None) -> List[Pair]:
        """All keys with their values, rising."""
        return [pair_of(one) for one in spoken(await self.ask("all", at, before, after), list)]

    async def get(self, key: int, at: Optional[int] = None, before: Optional[int] = None, after: Optional[int] = None) -> Optional[int]:
        """The value of a key."""
        return await self._number("get %d" % index(key), at, before, after)

    async def succ(self, key: int, at: Optional[int] = None, before: Optional[int] = None, after: Optional[int] = None) -> Optional[Pair]:
        """The least key from this one on, with its value."""
        return await self._pair("succ %d" % index(key), at, before, after)

    async def pred(self, key: int, at: Optional[int] = None, before: Optional[int] = None, after: Optional[int] = None) -> Optional[Pair]:
        """The greatest key up to this one, with its value."""
        return await self._pair("pred %d" % index(key), at, before, after)

    async def count(self, low: int, high: int, at: Optional[int] = None, before: Optional[int] = None, after: Optional[int] = None) -> int:
        """How many keys there are from one to another, both included."""
        return await self._count("count %d %d" % (index(low), index(high)), at, before, after)

    async def sum(self, low: int, high: int, at: Optional[int] = None, before: Optional[int] = None, after: Optional[int] = None) -> int:
        """The values of the keys from one to another, both included, added up."""
        return await self._count("sum %d %d" % (index(low), index(high)), at, before, after)

    async def _pair(self, question: str, at: Optional[int], before: Optional[int], after: Optional[int]) -> Optional[Pair]:
        answer = await self.ask(question, at, before, after)
        return None if answer is None else pair_of(answer)


class AsyncPriorityQueue(_Line):
    """A priority queue, held as a `pq` or a `pqf`: the least key is taken first, and of equal keys the one of the lesser row number."""

    KIND = "pq"

    async def ins(self, key: int, *, at: Optional[int] = None, before: Optional[int] = None, after: Optional[int] = None) -> Edit:
        """A row that adds an entry."""
        return await self._row("ins %d" % index(key), at, before, after)

    async def delmin(self, *, at: Optional[int] = None, before: Optional[int] = None, after: Optional[int] = None) -> Edit:
        """A row that takes the least entry."""
        return await self._row("delmin", at, before, after)

    async def min(self, at: Optional[int] = None, before: Optional[int] = None, after: Optional[int] = None) -> Optional[int]:
        """The key of the least entry."""
        return await self._number("min", at, before, after)


KINDS: Dict[str, Type[AsyncTimeline]] = {kind.KIND: kind for kind in (AsyncQueue, AsyncStack, AsyncDeque, AsyncDict, AsyncPriorityQueue)}
