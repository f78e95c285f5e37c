"""Tables of events of any number of timelines: rows in, rows out, with keys of any text."""

import collections
import csv
import io
import itertools
import operator
import zlib
from typing import Any, Callable, Dict, Hashable, Iterable, Iterator, List, Mapping, NamedTuple, Optional, Sequence, Set, Tuple, Union

from .answers import Value
from .channel import Program
from .errors import Ended, RetroError
from .grammar import NAMES
from .rows import WORDS
from .whole import answer

Column = Union[int, str, Callable[[Any], Any]]
KIND_OF = {word: kind for kind, words in WORDS.items() for word in words}


class Event(NamedTuple):
    """A row of a table: the timeline's key, the time and the operation as the script language has them, and the row's own name."""

    key: Hashable
    time: object
    operation: str
    id: object


class RefusedEvent(NamedTuple):
    """An event that was refused, by the table's own name for it, with the program's answer."""

    id: object
    answer: str


class Told(NamedTuple):
    """What a timeline answers: the values of the questions, in their order, and its events that were refused."""

    key: Hashable
    answers: Tuple[Value, ...]
    refused: Tuple[RefusedEvent, ...]


class KeyAgain(RetroError, ValueError):
    """A key that comes again behind another one, in rows that were said to arrive by key."""


def events_of(rows: Iterable[object], key: Column, time: Column, operation: Column, id: Optional[Column] = None) -> Iterator[Event]:
    """The events of a table.

    `rows`: tuples, mappings, a cursor of a database, or an open CSV file with a heading. A column is named by its place, by its name, or by a
    function of the row. Without `id` a row's name is its number, from 1 on. Errors: ValueError where a column is not there.
    """
    source = csv.DictReader(rows, strict=True) if isinstance(rows, io.TextIOBase) else rows
    columns = (key, time, operation) if id is None else (key, time, operation, id)
    take: List[Callable[[Any], Any]] = []
    for number, row in enumerate(source, 1):
        take = take or [_column(column, rows, row) for column in columns]
        try:
            found = [one(row) for one in take]
        except (KeyError, IndexError) as missing:
            raise ValueError("row %d has no column %s" % (number, missing)) from None
        yield Event(found[0], found[1], str(found[2]), number if id is None else found[3])


def _column(column: Column, rows: object, row: object) -> Callable[[Any], Any]:
    """A function of a row that gives the column. The names of a cursor's columns are known once it has given a row."""
    if callable(column):
        return column
    described = getattr(rows, "description", None)
    if isinstance(column, str) and described and not isinstance(row, Mapping):
        names = [one[0] for one in described]
        if column not in names:
            raise ValueError("the table has no column %r" % column)
        return operator.itemgetter(names.index(column))
    return operator.itemgetter(column)


def by_key(events: Iterable[Event]) -> Iterator[Tuple[Hashable, List[Event]]]:
    """The events of each key, which arrive by key. Memory: one key's events, and the keys that were seen. Errors: `KeyAgain`."""
    seen: Set[Hashable] = set()
    for key, group in itertools.groupby(events, operator.attrgetter("key")):
        if key in seen:
            raise KeyAgain("%r comes again: order the rows by key, or leave in_order out" % (key,))
        seen.add(key)
        yield key, list(group)


def _gathered(events: Iterable[Event]) -> Iterator[Tuple[Hashable, List[Event]]]:
    """The same of events in any order; all are held."""
    groups: Dict[Hashable, List[Event]] = collections.defaultdict(list)
    for event in events:
        groups[event.key].append(event)
    yield from groups.items()


def answer_table(
    rows: Iterable[object],
    key: Column = 0,
    time: Column = 1,
    operation: Column = 2,
    ask: Sequence[str] = (),
    id: Optional[Column] = None,
    kind: Optional[str] = None,
    in_order: bool = False,
    program: Optional[Program] = None,
) -> Iterator[Told]:
    """Answers the questions of each key's timeline, a row for each key; an event that the others contradict is refused beside it.

    `rows` and the columns are those of `events_of`; keys may be of any kind, and are no names of the language. A timeline's events are put in by
    their times, those of one time as they come. `kind`: of all timelines; that of the first operation where none is given. With `in_order` the
    rows arrive by key, and memory is that of the events of eight keys, and of the keys; else all events are held. Questions are those of the
    language, also `at 930 front`. Cost: some microseconds an event, and a process for each eight keys. Errors: ValueError; `KeyAgain`; `Refused`
    where a question is not one of the kind; `Ended`.
    """
    return answer_events(events_of(rows, key, time, operation, id), ask, kind, in_order, program)


def answer_events(
    events: Iterable[Event], ask: Sequence[str] = (), kind: Optional[str] = None, in_order: bool = False, program: Optional[Program] = None
) -> Iterator[Told]:
    """`answer_table` over events."""
    source = iter(events)
    first: List[Event] = []
    while kind is None:
        event = next(source, None)
        if event is None:
            kind = "queue"
        else:
            first.append(event)
            kind = KIND_OF.get(event.operation.split(" ")[0])
    groups = (by_key if in_order else _gathered)(itertools.chain(first, source))
    while True:
        of_a_process = list(itertools.islice(groups, NAMES))
        if not of_a_process:
            return
        yield from _answered(of_a_process, ask, kind, program)


def _answered(groups: Sequence[Tuple[Hashable, List[Event]]], ask: Sequence[str], kind: str, program: Optional[Program]) -> Iterator[Told]:
    """One process with the timelines of up to eight keys."""
    ordered = [sorted(events, key=_order) for _, events in groups]
    lines: List[str] = []
    for place, events in enumerate(ordered):
        lines.append("new t%d %s" % (place, kind))
        lines += ["t%d at %s %s" % (place, _word(event.time), event.operation.replace("\n", "\t")) for event in events]
        lines += ["t%d ask %s" % (place, question) for question in ask]
    answered = answer(lines, program)
    if len(answered.replies) < len(lines):
        raise Ended(answered.status)
    replies = iter(answered.replies)
    for (key, _), events in zip(groups, ordered):
        next(replies)
        told = [RefusedEvent(event.id, reply.answers[0]) for event, reply in zip(events, itertools.islice(replies, len(events))) if reply.refused]
        yield Told(key, tuple(reply.value for reply in itertools.islice(replies, len(ask))), tuple(told))


def _word(time: object) -> str:
    """A time as the one word of a line that it has to be; what is none is refused by the program."""
    text = str(time)
    return text if text.isdigit() and text.isascii() else "?"


def _order(event: Event) -> Tuple[bool, int]:
    word = _word(event.time)
    return (False, int(word)) if word != "?" else (True, 0)


def part_of(key: Hashable, parts: int) -> int:
    """Which of so many parts a key falls into: the same on every machine and in every run."""
    return zlib.crc32(str(key).encode("utf-8", "surrogatepass")) % parts


def partition(rows: Iterable[object], parts: int, key: Column = 0) -> List[List[object]]:
    """The rows in so many parts, in their order, those of one key in one part: what a timeline answers does not depend on the others."""
    take: Optional[Callable[[Any], Any]] = None
    divided: List[List[object]] = [[] for _ in range(parts)]
    for row in rows:
        take = take or _column(key, rows, row)
        divided[part_of(take(row), parts)].append(row)
    return divided
