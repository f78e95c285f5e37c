"""A table of events with dates as a script, and a saved timeline as such a table.

A table is CSV with a heading, divided by `,` or `;` or tabs. `time` is a date of a form that `dates.py` reads. `event` is an operation of the
script language, or a word that stands for one. The further columns are those of the kind:

| Kind | Columns |
|---|---|
| queue, stack, deque | `item`: any name |
| dict | `key`: any name; `value`: a whole number |
| pq | `priority`: a whole number from 0 to 92,000 (920 where times have seconds), the least first; `item`: any name |

Its rows may stand in any order; those of one time are performed as they stand. A name is a number in the script, by a map that is kept beside the
table. The key of a priority queue is composed of the priority, the date of arrival, and two digits for those of one priority and one date; so an
entry that comes in late stands where it would have stood.
"""

import csv
import io
import re
from typing import Dict, Iterable, Iterator, List, Mapping, NamedTuple, Sequence, Set, Tuple, Union

from .answers import Edit, Value
from .dates import MINUTES, date_of, moment_of
from .errors import RetroError
from .grammar import is_name
from .rows import LAST_TIME, WORDS, Saved
from .timeline import Timeline

COLUMNS = {"queue": ("item",), "stack": ("item",), "deque": ("item",), "dict": ("key", "value"), "pq": ("priority", "item")}
KIND_OF = {word: kind for kind, words in WORDS.items() for word in words}
Named = Union[None, str, Tuple[str, int]]
OF_A_DATE = 100  # entries of one priority and one date
MOST_URGENT, LEAST_URGENT = 0, 92000  # where dates have seconds, up to a hundredth of that


class Unreadable(RetroError, ValueError):
    """A table that says no history; `line` is the line of the table, its heading being line 1."""

    def __init__(self, line: int, reason: str) -> None:
        super().__init__("line %d: %s" % (line, reason))
        self.line = line


class Names:
    """Names by number, as they are kept beside a table: a number is given once, and stays."""

    def __init__(self, names: Mapping[int, str] = {}) -> None:
        self.names: Dict[int, str] = dict(names)
        self._numbers = {name: number for number, name in self.names.items()}
        self._last = max(self.names, default=0)

    @classmethod
    def read(cls, text: str) -> "Names":
        """The names of a file that `text` wrote. Errors: ValueError where it is none."""
        lines = list(csv.reader(io.StringIO(text[1:] if text.startswith("\ufeff") else text)))
        if lines and lines[0] != ["number", "name"]:
            raise ValueError("no file of names: its heading is %r" % (lines[0],))
        return cls({int(number): name for number, name in lines[1:]})

    @property
    def text(self) -> str:
        """The names as CSV, to be read again."""
        return _csv([("number", "name"), *sorted(self.names.items())])

    def number(self, name: str) -> int:
        """The number of a name, which is a new one where the name is new."""
        if name not in self._numbers:
            self._last += 1
            self._numbers[name] = self._last
            self.names[self._last] = name
        return self._numbers[name]

    def name(self, number: int) -> str:
        """The name of a number or of a key. Errors: ValueError where it has none."""
        if number not in self.names:
            raise ValueError("no name has the number %d" % number)
        return self.names[number]

    def named(self, answer: Value) -> Union[Named, List[Named]]:
        """An answer to a question with names in it: an item, a key, a key with its value, or a list of them. Errors: ValueError."""
        return [self._named(one) for one in answer] if isinstance(answer, list) else self._named(answer)

    def _named(self, answer: object) -> Named:
        if answer is None:
            return None
        if isinstance(answer, int):
            return self.name(answer)
        if isinstance(answer, tuple) and len(answer) == 2 and isinstance(answer[1], int):
            return self.name(answer[0]), answer[1]
        raise ValueError("no answer with names in it: %r" % (answer,))

    def key(self, priority: int, time: int, name: str, given: Set[int]) -> int:
        """The composite key of an entry: priority, then arrival, then a place behind those of that date which `given` has; it is put into it.

        Errors: ValueError where a priority or a date has no room.
        """
        most = LEAST_URGENT if time < MINUTES else LEAST_URGENT // 100
        if not MOST_URGENT <= priority <= most:
            raise ValueError("a priority is from %d to %d: %d" % (MOST_URGENT, most, priority))
        first = priority * of_a_priority(time) + time * OF_A_DATE
        last = max((key for key in range(first, first + OF_A_DATE) if key in given), default=first - 1)
        for key in range(last + 1, first + OF_A_DATE):
            if self.names.get(key, name) == name:
                given.add(key)
                self.names[key] = name
                return key
        raise ValueError("over %d entries of priority %d on one date" % (OF_A_DATE, priority))


def of_a_priority(time: int) -> int:
    """How many composite keys a priority has, where dates are of the length of this one."""
    return OF_A_DATE * (MINUTES if time < MINUTES else MINUTES * 100)


class Script(NamedTuple):
    """A script that a table became: the kind of its timeline and its lines. `doubled` has the lines of the table that say the same twice."""

    kind: str
    lines: List[str]
    doubled: Sequence[Tuple[int, int]] = ()


class _Event(NamedTuple):
    """A row of a table: its line, its date with or without seconds, its operation, and what its columns say."""

    line: int
    moment: Tuple[int, bool]
    word: str
    said: Mapping[str, str]


def _csv(rows: Iterable[Tuple[object, ...]]) -> str:
    text = io.StringIO()
    csv.writer(text, lineterminator="\n").writerows(rows)
    return text.getvalue()


def name_within(text: str) -> str:
    """A name of a timeline that a text comes next to: the name of a file may have spaces, and begin with a digit."""
    name = re.sub(r"[^A-Za-z0-9_-]+", "_", text).strip("_") or "table"
    name = (name if name[0].isalpha() else "t" + name)[:32]
    return name if is_name(name.encode()) else name[:31] + "_"


def words_of(pairs: Iterable[str]) -> Dict[str, str]:
    """The words of a table for operations, of texts `WORD=OPERATION`. Errors: ValueError, a sentence."""
    words: Dict[str, str] = {}
    for pair in pairs:
        word, _, operation = pair.rpartition("=")
        if not word or operation not in KIND_OF:
            raise ValueError("no word for an operation: %r; write WORD=OPERATION, with an operation of %s" % (pair, ", ".join(KIND_OF)))
        words[word] = operation
    return words


def _events(table: str, words: Mapping[str, str]) -> Iterator[_Event]:
    """The events of a table, in its order. Errors: `Unreadable`."""
    table = table[1:] if table.startswith("\ufeff") else table
    heading = table.split("\n", 1)[0]
    reader = csv.reader(io.StringIO(table), delimiter=max(",;\t", key=heading.count), strict=True)
    columns: List[str] = []
    kind = ""
    try:
        for cells in reader:
            if not columns:
                columns = [cell.strip().lower() for cell in cells]
            elif any(cell.strip() for cell in cells):
                if any(cell.strip() for cell in cells[len(columns) :]):
                    raise ValueError("there are more cells than columns: put a text with %r in it between quotation marks" % reader.dialect.delimiter)
                said = dict(zip(columns, (cell.strip() for cell in cells)))
                word = words.get(_cell(said, columns, "event"), said["event"])
                if word not in KIND_OF or (kind and KIND_OF[word] != kind):
                    raise ValueError("%r is no operation of a %s" % (word, kind or "timeline"))
                kind = KIND_OF[word]
                for column in COLUMNS[kind][: 2 if word == "put" or word == "ins" else 1 if WORDS[kind][word] else 0]:
                    _cell(said, columns, column)
                yield _Event(reader.line_num, moment_of(_cell(said, columns, "time")), word, said)
    except (ValueError, csv.Error) as reason:
        raise Unreadable(reader.line_num, str(reason)) from None
    if not kind:
        raise Unreadable(1, "the table has no event")


def _cell(said: Mapping[str, str], columns: Sequence[str], column: str) -> str:
    if column not in columns:
        raise ValueError("there is no column %r" % column)
    if not said.get(column):
        raise ValueError("there is no %s" % column)
    return said[column]


def script_of(table: str, name: str, names: Names, words: Mapping[str, str] = {}) -> Script:
    """The script of a table, in order of time; `names` gains the new names. `words` has words of the table for operations.

    Where one date has seconds, all times have. Errors: `Unreadable`, at the first line that says no event; ValueError where `name` is no name.
    """
    if not is_name(name.encode()):
        raise ValueError("no name of a timeline: %r" % name)
    events = list(_events(table, words))
    with_seconds = any(event.moment[1] for event in events)
    doubled: List[Tuple[int, int]] = []
    first: Dict[Tuple[object, ...], int] = {}
    for event in events:
        same = (event.moment[0], event.word, *(event.said.get(column) for column in COLUMNS[KIND_OF[event.word]]))
        if first.setdefault(same, event.line) != event.line:
            doubled.append((first[same], event.line))
    lines: List[str] = []
    given: Set[int] = set()
    for event in sorted(events, key=lambda event: event.moment[0]):
        time = event.moment[0] if with_seconds else event.moment[0] // 100
        try:
            lines.append("%s at %d %s" % (name, time, _operation(event.word, time, event.said, names, given)))
        except ValueError as reason:
            raise Unreadable(event.line, str(reason)) from None
    kind = KIND_OF[events[0].word]
    return Script(kind, ["new %s %s" % (name, kind), *lines], doubled)


def _operation(word: str, time: int, said: Mapping[str, str], names: Names, given: Set[int]) -> str:
    if word == "put":
        return "put %d %d" % (names.number(said["key"]), int(said["value"]))
    if word == "del":
        return "del %d" % names.number(said["key"])
    if word == "ins":
        return "ins %d" % names.key(int(said["priority"]), time, said["item"], given)
    return "%s %d" % (word, names.number(said["item"])) if WORDS[KIND_OF[word]][word] else word


def table_of(saved: Saved, names: Names, words: Mapping[str, str] = {}) -> str:
    """The table of a saved timeline. Errors: ValueError where a time is no date or a number has no name."""
    said = {operation: word for word, operation in words.items()}
    rows = [("time", "event", *COLUMNS[saved.kind])]
    for row in saved.rows:
        word = row.operation.split(" ")[0]
        rows.append((date_of(row.time), said.get(word, word), *_columns(saved.kind, word, row.time, row.numbers, names)))
    return _csv(rows)


def _columns(kind: str, word: str, time: int, numbers: Tuple[int, ...], names: Names) -> Iterator[str]:
    if word == "ins":
        yield str(numbers[0] // of_a_priority(time))
    if numbers:
        yield names.name(numbers[0])
    yield from (str(number) for number in numbers[1:])
    yield from ("" for _ in range(len(COLUMNS[kind]) - (2 if word == "ins" else len(numbers))))


def arrive(timeline: Timeline, number: int, time: int, names: Names) -> Edit:
    """Moves an entry of a priority queue to the time at which it came, and gives it the key of that arrival, so that its ties go by arrival.

    A `move` alone leaves the old arrival in the key. The edit has the row's new number. Cost: two steps, and at first a `save`. Errors: those of
    `move` and `change`, where the row has moved and kept its key; ValueError where a date has no room.
    """
    row = timeline.row(number)
    (old,) = row.numbers
    given = {other.numbers[0] for other in timeline.rows(0, LAST_TIME) if other.puts and other.number != number}
    key = names.key(old // of_a_priority(row.time), time, names.name(old), given)
    return timeline.change(timeline.move(number, time).row, "ins %d" % key)
