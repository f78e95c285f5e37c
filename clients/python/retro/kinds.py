"""The five kinds of timelines, with the operations and the questions of each as calls.

An operation names the moment of its row by one of `at=` (a time), `before=` and `after=` (numbers of rows); a question may name one, and is about
now where it names none. What a question finds nowhere is None.
"""

from operator import index
from typing import Dict as Dictionary
from typing import List, Optional, Tuple, Type, TypeVar

from .answers import Edit
from .conversation import spoken
from .errors import OutOfStep
from .timeline import Timeline, moment_of_a_row

Kind = TypeVar("Kind", bound="_Kind")
Pair = Tuple[int, int]


class _Kind(Timeline):
    """What all kinds share."""

    KIND = ""

    @classmethod
    def of(cls: Type[Kind], timeline: Timeline) -> Kind:
        """A timeline as one of its kind, such as `Queue.of(retro.load(saved))`. Errors: TypeError where it is of another kind."""
        if timeline.kind != cls.KIND:
            raise TypeError("the %s %s is no %s" % (timeline.kind, timeline.name, cls.KIND))
        return cls(timeline.retro, timeline.name, timeline.kind)

    def _row(self, operation: str, at: Optional[int], before: Optional[int], after: Optional[int]) -> Edit:
        return self._edit(moment_of_a_row(at, before, after) + operation)

    def _number(self, question: str, at: Optional[int], before: Optional[int], after: Optional[int]) -> Optional[int]:
        answer = self.ask(question, at, before, after)
        return None if answer is None else spoken(answer, int)

    def _count(self, question: str, at: Optional[int], before: Optional[int], after: Optional[int]) -> int:
        return spoken(self.ask(question, at, before, after), int)

    def size(self, at: Optional[int] = None, before: Optional[int] = None, after: Optional[int] = None) -> int:
        """How many items there are, or how many keys."""
        return self._count("size", at, before, after)


class _Line(_Kind):
    """What all kinds share whose content is a line of numbers."""

    def all(self, at: Optional[int] = None, before: Optional[int] = None, after: Optional[int] = None) -> List[int]:
        """The whole content: from the front, the top or the left, or rising."""
        return [spoken(one, int) for one in spoken(self.ask("all", at, before, after), list)]

    def nth(self, place: int, at: Optional[int] = None, before: Optional[int] = None, after: Optional[int] = None) -> Optional[int]:
        """What stands at a place, the first being number 0."""
        return self._number("nth %d" % index(place), at, before, after)


class Queue(_Line):
    """A queue: what came first is taken first."""

    KIND = "queue"

    def enq(self, value: int, *, at: Optional[int] = None, before: Optional[int] = None, after: Optional[int] = None) -> Edit:
        """A row that puts a value at the back."""
        return self._row("enq %d" % index(value), at, before, after)

    def deq(self, *, at: Optional[int] = None, before: Optional[int] = None, after: Optional[int] = None) -> Edit:
        """A row that takes the front."""
        return self._row("deq", at, before, after)

    def front(self, at: Optional[int] = None, before: Optional[int] = None, after: Optional[int] = None) -> Optional[int]:
        """What is taken next."""
        return self._number("front", at, before, after)

    def back(self, at: Optional[int] = None, before: Optional[int] = None, after: Optional[int] = None) -> Optional[int]:
        """What came last."""
        return self._number("back", at, before, after)


class Stack(_Line):
    """A stack: what came last is taken first."""

    KIND = "stack"

    def push(self, value: int, *, at: Optional[int] = None, before: Optional[int] = None, after: Optional[int] = None) -> Edit:
        """A row that puts a value on top."""
        return self._row("push %d" % index(value), at, before, after)

    def pop(self, *, at: Optional[int] = None, before: Optional[int] = None, after: Optional[int] = None) -> Edit:
        """A row that takes the top."""
        return self._row("pop", at, before, after)

    def top(self, at: Optional[int] = None, before: Optional[int] = None, after: Optional[int] = None) -> Optional[int]:
        """What is taken next."""
        return self._number("top", at, before, after)


class Deque(_Line):
    """A deque: values come and go at both ends."""

    KIND = "deque"

    def pushl(self, value: int, *, at: Optional[int] = None, before: Optional[int] = None, after: Optional[int] = None) -> Edit:
        """A row that puts a value at the left end."""
        return self._row("pushl %d" % index(value), at, before, after)

    def pushr(self, value: int, *, at: Optional[int] = None, before: Optional[int] = None, after: Optional[int] = None) -> Edit:
        """A row that puts a value at the right end."""
        return self._row("pushr %d" % index(value), at, before, after)

    def popl(self, *, at: Optional[int] = None, before: Optional[int] = None, after: Optional[int] = None) -> Edit:
        """A row that takes the left end."""
        return self._row("popl", at, before, after)

    def popr(self, *, at: Optional[int] = None, before: Optional[int] = None, after: Optional[int] = None) -> Edit:
        """A row that takes the right end."""
        return self._row("popr", at, before, after)

    def left(self, at: Optional[int] = None, before: Optional[int] = None, after: Optional[int] = None) -> Optional[int]:
        """What stands at the left end."""
        return self._number("left", at, before, after)

    def right(self, at: Optional[int] = None, before: Optional[int] = None, after: Optional[int] = None) -> Optional[int]:
        """What stands at the right end."""
        return self._number("right", at, before, after)


class Dict(_Kind):
    """A dictionary: a value for each key."""

    KIND = "dict"

    def put(self, key: int, value: int, *, at: Optional[int] = None, before: Optional[int] = None, after: Optional[int] = None) -> Edit:
        """A row that gives a key a value, whatever it had before."""
        return self._row("put %d %d" % (index(key), index(value)), at, before, after)

    def remove(self, key: int, *, at: Optional[int] = None, before: Optional[int] = None, after: Optional[int] = None) -> Edit:
        """A row that takes a key out, which is the operation `del`."""
        return self._row("del %d" % index(key), at, before, after)

    def all(self, at: Optional[int] = None, before: Optional[int] = None, after: Optional[int] = None) -> List[Pair]:
        """All keys with their values, rising."""
        return [pair_of(one) for one in spoken(self.ask("all", at, before, after), list)]

    def get(self, key: int, at: Optional[int] = None, before: Optional[int] = None, after: Optional[int] = None) -> Optional[int]:
        """The value of a key."""
        return self._number("get %d" % index(key), at, before, after)

    def succ(self, key: int, at: Optional[int] = None, before: Optional[int] = None, after: Optional[int] = None) -> Optional[Pair]:
        """The least key from this one on, with its value."""
        return self._pair("succ %d" % index(key), at, before, after)

    def pred(self, key: int, at: Optional[int] = None, before: Optional[int] = None, after: Optional[int] = None) -> Optional[Pair]:
        """The greatest key up to this one, with its value."""
        return self._pair("pred %d" % index(key), at, before, after)

    def count(self, low: int, high: int, at: Optional[int] = None, before: Optional[int] = None, after: Optional[int] = None) -> int:
        """How many keys there are from one to another, both included."""
        return self._count("count %d %d" % (index(low), index(high)), at, before, after)

    def sum(self, low: int, high: int, at: Optional[int] = None, before: Optional[int] = None, after: Optional[int] = None) -> int:
        """The values of the keys from one to another, both included, added up."""
        return self._count("sum %d %d" % (index(low), index(high)), at, before, after)

    def _pair(self, question: str, at: Optional[int], before: Optional[int], after: Optional[int]) -> Optional[Pair]:
        answer = self.ask(question, at, before, after)
        return None if answer is None else pair_of(answer)


def pair_of(answer: object) -> Pair:
    """A key with its value. Errors: OutOfStep where the answer is none."""
    if isinstance(answer, tuple) and len(answer) == 2 and isinstance(answer[0], int) and isinstance(answer[1], int):
        return answer[0], answer[1]
    raise OutOfStep("%r is no key with its value" % (answer,))


class PriorityQueue(_Line):
    """A priority queue, held as a `pq` or a `pqf`: the least key is taken first, and of equal keys the one of the lesser row number."""

    KIND = "pq"

    def ins(self, key: int, *, at: Optional[int] = None, before: Optional[int] = None, after: Optional[int] = None) -> Edit:
        """A row that adds an entry."""
        return self._row("ins %d" % index(key), at, before, after)

    def delmin(self, *, at: Optional[int] = None, before: Optional[int] = None, after: Optional[int] = None) -> Edit:
        """A row that takes the least entry."""
        return self._row("delmin", at, before, after)

    def min(self, at: Optional[int] = None, before: Optional[int] = None, after: Optional[int] = None) -> Optional[int]:
        """The key of the least entry."""
        return self._number("min", at, before, after)


KINDS: Dictionary[str, Type[Timeline]] = {kind.KIND: kind for kind in (Queue, Stack, Deque, Dict, PriorityQueue)}
