"""The versions of a timeline that a script goes through: which rows stand after each of its steps."""

import collections
from typing import Deque, Dict, Iterable, List, NamedTuple, Optional, Sequence, Tuple

from .answers import Edit, Reply, evidence_of
from .conversation import spoken
from .grammar import STEPS, is_header, words
from .rows import Row, Saved, Table
from .whole import shown

EDITS = frozenset((b"at", b"before", b"after", b"delete", b"move", b"change", b"undo", b"redo"))


class Step(NamedTuple):
    """A line of the script that edited the timeline, or was to: its number, its text, the refusal where it was one, and in short its evidence."""

    line: int
    text: str
    refused: str
    evidence: Tuple[str, ...]


class History:
    """A timeline over the steps of a script.

    `universe`: the rows that ever stood, in their order; after each step some of them stand. `lives`: of each row's number the steps from which
    on and before which it stands, None where it stands to the last. Steps count from 1 on.
    """

    def __init__(self, name: str, kind: str) -> None:
        self.name, self.kind = name, kind
        self.steps: List[Step] = []
        self.lives: Dict[int, List[Tuple[int, Optional[int]]]] = {}
        self._table = Table(Saved(name, kind, 1, ()))
        self._done: Deque[Tuple[List[int], List[int]]] = collections.deque(maxlen=STEPS)
        self._undone: List[Tuple[List[int], List[int]]] = []

    @property
    def universe(self) -> Sequence[Row]:
        """The rows that ever stood."""
        return self._table.rows

    def standing(self, step: int) -> List[Row]:
        """The rows that stand after a step."""
        return [row for row in self.universe if any(born <= step and (died is None or step < died) for born, died in self.lives[row.number])]

    def counts(self) -> List[int]:
        """How many rows stand after each step."""
        changes = [0] * (len(self.steps) + 2)
        for lives in self.lives.values():
            for born, died in lives:
                changes[born] += 1
                changes[len(self.steps) + 1 if died is None else died] -= 1
        told, count = [], 0
        for change in changes[1:-1]:
            count += change
            told.append(count)
        return told

    def load(self, reply: Reply, rows: Iterable[Row]) -> None:
        """The step of a block; it cannot be undone."""
        self.steps.append(Step(reply.number, "the block of %s" % self.name, "", ()))
        for row in rows:
            self._table.put(len(self._table.rows), row)
            self._come(row.number)

    def take(self, reply: Reply, said: Sequence[str]) -> None:
        """The step of a line, which may have been refused."""
        refused = reply.answers[0] if reply.refused else ""
        evidence = tuple(_short(text) for text in reply.answers if text.startswith("edit "))
        self.steps.append(Step(reply.about, shown(reply.line), refused, evidence))
        if refused:
            return
        verb = said[1]
        if verb in ("undo", "redo"):
            source, target = (self._done, self._undone) if verb == "undo" else (self._undone, self._done)
            gone, come = source.pop()
            target.append((gone, come))
            self._make(*((come, gone) if verb == "undo" else (gone, come)))
            return
        edit = spoken(reply.value, Edit)
        gone, come = ([int(said[2][1:])] if verb in ("delete", "move", "change") else []), ([] if edit.number is None else [edit.number])
        if edit.number is not None:
            self._put(verb, said, edit.number)
        self._done.append((gone, come))
        self._undone.clear()
        self._make(gone, come)

    def _put(self, verb: str, said: Sequence[str], number: int) -> None:
        """Gives a new row its place among the rows that ever stood; a changed one stands just before the one that it was."""
        if verb == "at":
            self._table.put_at(Row(number, int(said[2]), _spelled(said[3:])))
            return
        old = self._table.row(int(said[2][1:]))
        if verb == "move":
            self._table.put_at(Row(number, int(said[4]), old.operation))
        else:
            self._table.put(self._table.place(old.number) + (verb == "after"), Row(number, old.time, _spelled(said[3:])))

    def _make(self, gone: Iterable[int], come: Iterable[int]) -> None:
        for number in gone:
            born, _ = self.lives[number][-1]
            self.lives[number][-1] = (born, len(self.steps))
        for number in come:
            self._come(number)

    def _come(self, number: int) -> None:
        self.lives.setdefault(number, []).append((len(self.steps), None))


def _spelled(operation: Sequence[str]) -> str:
    """An operation as `save` spells it."""
    return " ".join([operation[0]] + [str(int(number)) for number in operation[1:]])


def _short(text: str) -> str:
    """Of a line of evidence its edit, how far behind its bridge that is, and the row whose entry is gained or lost; the place is that of the row."""
    said = evidence_of(text)
    bridge = "n" if said.bridge is None else str(said.place - said.bridge)
    return "%s%s%s%d" % (said.edit[0], bridge, said.change[0], said.entry)


def histories_of(replies: Iterable[Reply]) -> List[History]:
    """The histories of the timelines of a script, in the order in which they were begun."""
    histories: Dict[bytes, History] = {}
    block: List[bytes] = []
    for reply in replies:
        said = words(reply.line)
        if block:
            block += [reply.line] if said and not said[0].startswith(b";") else []
            if said == [b"end"]:
                if not reply.refused:
                    _loaded(histories, reply, block)
                block = []
        elif not reply.answers and is_header(said):
            block = [reply.line]
        elif said[:1] == [b"new"] and not reply.refused:
            histories[said[1]] = History(said[1].decode("ascii"), "pq" if said[2] == b"pqf" else said[2].decode("ascii"))
        elif len(said) > 1 and said[0] in histories and said[1] in EDITS:
            histories[said[0]].take(reply, [word.decode("ascii", "replace") for word in said])
    return list(histories.values())


def _loaded(histories: Dict[bytes, History], reply: Reply, block: Sequence[bytes]) -> None:
    header = words(block[0])
    histories[header[1]] = history = History(header[1].decode("ascii"), header[2].decode("ascii"))
    rows = [[word.decode("ascii") for word in words(line)] for line in block[1:-1]]
    history.load(reply, (Row(int(said[0][1:]), int(said[1]), _spelled(said[2:])) for said in rows))
