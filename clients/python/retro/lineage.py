"""Who a row is: the same one through a `move` or a `change`, which give it another number, and in two saves that began as one."""

import collections
from typing import Callable, Dict, Hashable, Iterable, List, Mapping, NamedTuple, Optional, Tuple

from .answers import Edit, Reply
from .conversation import spoken
from .grammar import words
from .rows import Row, Saved


class Edited(NamedTuple):
    """A row that is not as it was: None stands where it was not there, or is there no more."""

    was: Optional[Row]
    now: Optional[Row]


class Lineage:
    """Which number each row of a timeline had before, as the accepted lines of a script tell it.

    Numbers are never drawn again, so an undo takes nothing back here. `whole` is False where a step was undone or redone: that may be one of
    before, which nobody has told.
    """

    def __init__(self, name: str) -> None:
        self.name = name.encode("ascii")
        self.before: Dict[int, int] = {}
        self.whole = True

    def hear(self, reply: Reply) -> None:
        """Takes the next line of the script with its answers."""
        said = words(reply.line)
        if len(said) < 2 or said[0] != self.name or reply.refused or not reply.answers:
            return
        if said[1] in (b"undo", b"redo"):
            self.whole = False
        elif said[1] in (b"move", b"change"):
            self.before[spoken(spoken(reply.value, Edit).number, int)] = int(said[2][1:])

    def first(self, number: int) -> int:
        """The number that a row had at the beginning."""
        while number in self.before:
            number = self.before[number]
        return number


def reordered(was: Saved, now: Saved) -> List[Row]:
    """The rows of `now` at the times at which the same operations stand in another order."""
    here, there = _operations(was.rows), _operations(now.rows)
    times = {time for time, said in there.items() if said != here.get(time) and sorted(said) == sorted(here.get(time, ()))}
    return [row for row in now.rows if row.time in times]


def _operations(rows: Iterable[Row]) -> Dict[int, List[str]]:
    """The operations at each time, in their order."""
    found: Dict[int, List[str]] = collections.defaultdict(list)
    for row in rows:
        found[row.time].append(row.operation)
    return dict(found)


def same_rows(was: Saved, now: Saved, lineage: Optional[Lineage] = None) -> Dict[int, int]:
    """The number in `was` of each row of `now` that stands there too.

    Where `lineage` is whole, it decides. Else rows of one number are the same where no number stands for two rows; of the others those of one
    time and operation are, in their order; then those that are alone with one operation (it was moved), and alone with one time (changed).
    """
    here, there = {row.number: row for row in was.rows}, {row.number: row for row in now.rows}
    found: Dict[int, int] = {}
    if lineage is not None:
        found = {number: lineage.first(number) for number in there if lineage.first(number) in here}
        if lineage.whole:
            return found
    elif all(here[number] == there[number] for number in here.keys() & there.keys()):
        found = {number: number for number in here.keys() & there.keys()}
    _pair(found, was.rows, now.rows, lambda row: (row.time, row.operation), False)
    _pair(found, was.rows, now.rows, lambda row: row.operation, True)
    _pair(found, was.rows, now.rows, lambda row: (row.time, row.operation.split(" ")[0]), True)
    return found


def _pair(found: Dict[int, int], was: Iterable[Row], now: Iterable[Row], key: Callable[[Row], Hashable], alone: bool) -> None:
    """Adds the rows that share a key and are in no pair yet; those that are as many here as there, or with `alone` one here and one there."""
    taken = set(found.values())
    groups: Dict[Hashable, Tuple[List[int], List[int]]] = collections.defaultdict(lambda: ([], []))
    for row in was:
        if row.number not in taken:
            groups[key(row)][0].append(row.number)
    for row in now:
        if row.number not in found:
            groups[key(row)][1].append(row.number)
    for here, there in groups.values():
        if len(here) == len(there) and (len(here) == 1 or not alone):
            found.update(zip(there, here))


def edited(was: Saved, now: Saved, same: Mapping[int, int]) -> List[Edited]:
    """The rows that are not as they were: what is gone, what has another time or operation, what is new; by their times."""
    here = {row.number: row for row in was.rows}
    gone = here.keys() - same.values()
    told = [Edited(here[number], None) for number in gone]
    for row in now.rows:
        before = here.get(same[row.number]) if row.number in same else None
        if before is None or (before.time, before.operation) != (row.time, row.operation):
            told.append(Edited(before, row))
    return sorted(told, key=lambda one: (min(row.time for row in one if row), [row.number for row in one if row]))
