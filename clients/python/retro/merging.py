"""Two saves of one timeline in one, and a saved `pq` as a `pqf`: both with a map from old numbers of rows to new ones."""

import bisect
from typing import Dict, List, NamedTuple, Optional, Sequence, Tuple

from .grammar import ROWS
from .kinds import PriorityQueue
from .process import Retro
from .rows import Row, Saved, Table, lifetimes


class Merged(NamedTuple):
    """One timeline made of two; `numbers` has of each row of the second that has another number now the old and the new one."""

    saved: Saved
    numbers: Dict[int, int]


def merge(ours: Saved, theirs: Saved, base: Optional[Saved] = None) -> Merged:
    """The rows of two saves that began as the same timeline.

    Rows of `ours` keep their numbers and their order. A row of `theirs` that is also one of `ours` (the same number, time and operation) is
    kept once; any other stands behind all rows of its time, with a new number. Where `base` is what both began with, a row of it that one of
    them has no more is left out; without it, what one has deleted comes back from the other. What one has moved or changed is a deleted row and
    a new one; where both have, both new ones stand.

    Errors: ValueError where the kinds differ, where the rows are too many; `Unperformed` where the rows of both contradict one another.
    """
    if ours.kind != theirs.kind:
        raise ValueError("a %s and a %s are not one timeline" % (ours.kind, theirs.kind))
    began = set(base.rows) if base else set()
    here, there = set(ours.rows), set(theirs.rows)
    table = Table(ours._replace(rows=tuple(row for row in ours.rows if row not in began or row in there)))
    drawn = max(ours.next, theirs.next)
    numbers: Dict[int, int] = {}
    for row in theirs.rows:
        if row not in here and row not in began:
            numbers[row.number] = drawn
            table.put_at(row._replace(number=drawn))
            drawn += 1
    if len(table.rows) > ROWS:
        raise ValueError("both have %d rows, and a timeline has %d" % (len(table.rows), ROWS))
    lifetimes(ours.kind, table.rows)
    return Merged(ours._replace(next=drawn, rows=tuple(table.rows)), numbers)


def _orders(rows: Sequence[Row]) -> List[Row]:
    """The rows of a priority queue so that each can be put in after those before: what adds by its number, then what takes by its time."""
    return sorted((row for row in rows if row.puts), key=lambda row: row.number) + [row for row in rows if not row.puts]


def lines_anew(saved: Saved) -> Tuple[List[str], Dict[int, int]]:
    """Lines that put the rows of a priority queue into an empty timeline, and the number that each row will have.

    Equal keys are taken by number, so what adds is put in by its old number: each tie goes as it went. Every line is accepted, since a queue
    of which nobody has taken yet lacks nothing.
    """
    lines: List[str] = []
    numbers: Dict[int, int] = {}
    places = {row.number: place for place, row in enumerate(saved.rows)}
    there: Dict[int, List[int]] = {}
    for row in _orders(saved.rows):
        numbers[row.number] = len(lines) + 1
        group = there.setdefault(row.time, [])
        at = bisect.bisect_left(group, places[row.number])
        if at:
            where = "after #%d" % numbers[saved.rows[group[at - 1]].number]
        elif group:
            where = "before #%d" % numbers[saved.rows[group[0]].number]
        else:
            where = "at %d" % row.time
        group.insert(at, places[row.number])
        lines.append("%s %s %s" % (saved.name, where, row.operation))
    return lines, numbers


def load_as_pqf(retro: Retro, saved: Saved, name: Optional[str] = None) -> Tuple[PriorityQueue, Dict[int, int]]:
    """Starts a `pqf` with the rows of a saved priority queue, and gives it with the map from old numbers to new ones.

    Every answer is the one that the saved timeline gives, but for the numbers. Cost: an edit a row. Errors: ValueError where it is no priority
    queue; `Refused`; `Ended`.
    """
    if saved.kind != "pq":
        raise ValueError("a %s is no priority queue" % saved.kind)
    saved = saved.renamed(name) if name else saved
    timeline = retro.new(saved.name, "pqf")
    lines, numbers = lines_anew(saved)
    for reply in list(retro.stream(lines)):
        reply.value  # a refusal is raised
    return timeline, numbers
