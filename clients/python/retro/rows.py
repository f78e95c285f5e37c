"""The rows of a timeline, and what performing them comes to."""

import bisect
import collections
import heapq
import re
from typing import Deque, Dict, Iterable, List, NamedTuple, Optional, Sequence, Tuple

from .errors import OutOfStep, RetroError
from .grammar import NUMBERS, is_header, is_name, words

WORDS = {
    "queue": {"enq": 1, "deq": 0},
    "stack": {"push": 1, "pop": 0},
    "deque": {"pushl": 1, "pushr": 1, "popl": 0, "popr": 0},
    "dict": {"put": 2, "del": 1},
    "pq": {"ins": 1, "delmin": 0},
}
PUTS = frozenset(("enq", "push", "pushl", "pushr", "put", "ins"))
LAST_TIME = 2**64 - 1
A_ROW = re.compile(r"#0*([0-9]{1,8}) 0*([0-9]{1,20}) (([a-z]+)((?: -?[0-9]+)*))\Z")


class Row(NamedTuple):
    """A row of a timeline: its number, its time, and its operation as it stands in a script."""

    number: int
    time: int
    operation: str

    @property
    def puts(self) -> bool:
        """Whether the row puts something in."""
        return self.operation.split(" ")[0] in PUTS

    @property
    def numbers(self) -> Tuple[int, ...]:
        """The values and keys of the operation."""
        return tuple(int(word) for word in self.operation.split(" ")[1:])


class Unperformed(RetroError, ValueError):
    """Rows that cannot all be performed: `row` is the first that cannot."""

    def __init__(self, row: Row) -> None:
        super().__init__("row #%d at %d cannot be performed" % (row.number, row.time))
        self.row = row


def row_of(kind: str, line: str) -> Row:
    """The row of a row line of a block. Errors: ValueError where the line is none of a timeline of this kind."""
    found = A_ROW.match(line)
    if found is None or WORDS[kind].get(found[4]) != found[5].count(" "):
        raise ValueError("no row of a %s: %r" % (kind, line))
    row = Row(int(found[1]), int(found[2]), spelled(found[3].split(" ")) if " 0" in found[3] or " -0" in found[3] else found[3])
    if not 1 <= row.number < NUMBERS or row.time > LAST_TIME or any(not -(2**63) <= number < 2**63 for number in row.numbers):
        raise ValueError("a number out of its range: %r" % line)
    return row


class Saved(NamedTuple):
    """A whole timeline, as `save` writes it: its name, its kind, the number that it draws next, and its rows in their order."""

    name: str
    kind: str
    next: int
    rows: Tuple[Row, ...]

    @property
    def text(self) -> str:
        """The block, which a script loads again."""
        lines = ["timeline %s %s next %d rows %d" % (self.name, self.kind, self.next, len(self.rows))]
        lines += ["#%d %d %s" % row for row in self.rows]
        return "\n".join(lines + ["end", ""])

    @classmethod
    def read(cls, text: str) -> "Saved":
        """The timeline of a block, whole, as a script has it: with comments and lines without words, which are left out, and with CR LF.

        Errors: ValueError where it is not that, or not all of it.
        """
        if not text.endswith("\n"):
            raise ValueError("the block is not whole: its last line is %r" % text[text.rfind("\n") + 1 :])
        lines = [plain for plain in map(unadorned, text.split("\n")) if plain]
        name, kind, next_number, count = header_of(lines[0] if lines else "")
        if lines[-1] != "end" or (count is not None and len(lines) - 2 != count):
            raise ValueError("the block is not whole: %d lines, of which %s are to be rows" % (len(lines), count))
        return cls(name, kind, next_number, tuple(row_of(kind, line) for line in lines[1:-1]))

    def renamed(self, name: str) -> "Saved":
        """The same timeline under another name. Errors: ValueError where that can be no name."""
        if not is_name(name.encode("utf-8")):
            raise ValueError("no name of a timeline: %r" % name)
        return self._replace(name=name)


def unadorned(line: str) -> str:
    """A line of a block as `save` writes it: without the blanks around and between its words that it may have, and nothing of a comment."""
    if line[-1:] == "\r":
        line = line[:-1]
    if line[:1] in ("", " ", ";") or line[-1] == " " or "  " in line:
        line = " ".join(word for word in line.split(" ") if word)
    return "" if line.startswith(";") else line


def header_of(line: str) -> Tuple[str, str, int, Optional[int]]:
    """Name, kind, next number and number of rows of the first line of a block. Errors: ValueError where it is none."""
    found = words(line.encode("utf-8", "surrogateescape"))
    if not is_header(found):
        raise ValueError("no header of a block: %r" % line)
    return found[1].decode(), found[2].decode(), int(found[4]), int(found[6]) if len(found) == 7 else None


class Table:
    """The rows of a timeline, which follow its edits as docs/SCRIPT.md says where a row stands.

    A row is found by its number in the time of a dictionary, and put in or taken out in the time of a list.
    """

    def __init__(self, saved: Saved) -> None:
        self.name, self.kind = saved.name, saved.kind
        self.rows: List[Row] = list(saved.rows)
        self._times = [row.time for row in self.rows]
        self._of = {row.number: row for row in self.rows}

    def row(self, number: int) -> Row:
        """The row of this number. Errors: KeyError where there is none."""
        return self._of[number]

    def between(self, start: int = 0, end: int = LAST_TIME) -> List[Row]:
        """The rows from `start` to `end`, both included, in their order."""
        return self.rows[bisect.bisect_left(self._times, start) : bisect.bisect_right(self._times, end)]

    def place(self, number: int) -> int:
        """How many rows stand before the row of this number. Errors: KeyError where there is none."""
        row = self._of[number]
        at = bisect.bisect_left(self._times, row.time)
        while self.rows[at].number != number:
            at += 1
        return at

    def put(self, place: int, row: Row) -> None:
        """Puts a row in behind so many others."""
        self.rows.insert(place, row)
        self._times.insert(place, row.time)
        self._of[row.number] = row

    def put_at(self, row: Row) -> None:
        """Puts a row in behind all others of its time."""
        self.put(bisect.bisect_right(self._times, row.time), row)

    def cut(self, number: int) -> int:
        """Takes a row out, and gives its place. Errors: KeyError where there is none."""
        place = self.place(number)
        del self.rows[place], self._times[place], self._of[number]
        return place

    def follow(self, verb: str, said: Sequence[str], made: Optional[int]) -> None:
        """Makes the edit that an accepted line of a script with this verb made, whose row has the number `made`."""
        if verb == "delete":
            self.cut(int(said[2][1:]))
            return
        if made is None:
            raise OutOfStep("an edit that makes a row says no number: %s" % " ".join(said))
        if verb == "at":
            self.put_at(Row(made, int(said[2]), spelled(said[3:])))
            return
        old = self._of[int(said[2][1:])]
        if verb == "move":
            self.cut(old.number)
            self.put_at(Row(made, int(said[4]), old.operation))
        else:
            place = self.cut(old.number) if verb == "change" else self.place(old.number) + (verb == "after")
            self.put(place, Row(made, old.time, spelled(said[3:])))


def spelled(operation: Sequence[str]) -> str:
    """The words of an operation as `save` spells it: numbers without zeros in front."""
    return " ".join([operation[0], *(str(int(number)) for number in operation[1:])])


class Lifetime(NamedTuple):
    """What one row puts in, and the row that takes it out; None where it stays."""

    put: Row
    taken: Optional[Row]


class Performed:
    """What is there while rows are performed one after another: the rows that put it in."""

    def __init__(self, kind: str) -> None:
        self.kind = kind
        self.line: Deque[Row] = collections.deque()
        self.keys: Dict[int, Row] = {}
        self.heap: List[Tuple[int, int, Row]] = []

    def perform(self, row: Row) -> Optional[Row]:
        """Performs a row, and gives the row whose item that takes out. Errors: IndexError, KeyError where it cannot be performed."""
        word = row.operation.split(" ")[0]
        if word == "put":
            old, self.keys[row.numbers[0]] = self.keys.get(row.numbers[0]), row
            return old
        if word == "del":
            return self.keys.pop(row.numbers[0])
        if word == "ins":
            heapq.heappush(self.heap, (row.numbers[0], row.number, row))
            return None
        if word == "delmin":
            return heapq.heappop(self.heap)[2]
        if row.puts:
            (self.line.appendleft if word in ("pushl", "push") else self.line.append)(row)
            return None
        return self.line.pop() if word == "popr" else self.line.popleft()

    def all(self) -> List[Row]:
        """The rows whose items are there, in the order of `ask all`."""
        if self.kind == "dict":
            return [row for _, row in sorted(self.keys.items())]
        return [row for _, _, row in sorted(self.heap)] if self.kind == "pq" else list(self.line)


def lifetimes(kind: str, rows: Iterable[Row]) -> List[Lifetime]:
    """What becomes of what each row puts in, in the order of the rows; the whole is one performance. Errors: `Unperformed`."""
    there = Performed(kind)
    rows = list(rows)
    taken: Dict[int, Row] = {}
    for row in rows:
        old = _perform(there, row)
        if old is not None:
            taken[old.number] = row
    return [Lifetime(row, taken.get(row.number)) for row in rows if row.puts]


def entries(kind: str, rows: Iterable[Row]) -> List[Row]:
    """The rows whose items are there after all of them, in the order of `ask all`. Errors: `Unperformed`."""
    there = Performed(kind)
    for row in rows:
        _perform(there, row)
    return there.all()


def _perform(there: Performed, row: Row) -> Optional[Row]:
    try:
        return there.perform(row)
    except (IndexError, KeyError):
        raise Unperformed(row) from None
