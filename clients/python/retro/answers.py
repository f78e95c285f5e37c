"""What a line is answered, as values."""

import re
from typing import List, NamedTuple, Optional, Sequence, Tuple, Union

from .errors import OutOfStep, Refused
from .grammar import words
from .rows import Saved

Pair = Tuple[int, int]


class Evidence(NamedTuple):
    """One edit of the rows of a priority queue, and the one entry that its present has gained or lost by it.

    `edit`: `add` or `cut`, at `place`, the row `number` with `operation`. `bridge`: a place, or None. `change`: `gain` or `lose`, of the
    entry that row `entry` put in, with `key`. `text` is the line of evidence, for `retro check`.
    """

    name: str
    edit: str
    place: int
    number: int
    operation: str
    bridge: Optional[int]
    change: str
    entry: int
    key: int
    text: str


class Edit(NamedTuple):
    """An accepted edit: the `number` of the row that it made, where it made one, and of a priority queue its evidence."""

    number: Optional[int]
    evidence: Tuple[Evidence, ...] = ()

    @property
    def row(self) -> int:
        """The number of the row that it made. Errors: ValueError where it made none."""
        if self.number is None:
            raise ValueError("this edit has made no row")
        return self.number


class Taken(NamedTuple):
    """The row that takes out what another one puts in, and its time."""

    number: int
    time: int


Value = Union[None, int, Pair, List[int], List[Pair], Edit, Taken, Saved, str]

_EVIDENCE = re.compile(r"edit (\S+) (add|cut) (\d+) #(\d+) (ins -?\d+|delmin) bridge (\d+|none) (gain|lose) #(\d+) (-?\d+)\Z")


def evidence_of(text: str) -> Evidence:
    """A line of evidence. Errors: ValueError where it is none."""
    found = _EVIDENCE.match(text)
    if found is None:
        raise ValueError("no line of evidence: %r" % text)
    name, edit, place, number, operation, bridge, change, entry, key = found.groups()
    at = None if bridge == "none" else int(bridge)
    return Evidence(name, edit, int(place), int(number), operation, at, change, int(entry), int(key), text)


def _pair(word: str) -> Pair:
    key, value = word.split(":")
    return int(key), int(value)


def _question(found: Sequence[bytes]) -> bytes:
    """The first word of the question of an `ask`."""
    return found[4] if found[2] in (b"at", b"before", b"after") else found[2]


def _told(found: Sequence[bytes], text: str) -> Value:
    """The value of an answer that begins with `= `."""
    if found[1] == b"fate":
        said = text.split(" ")
        return None if text == "stays" else Taken(int(said[1][1:]), int(said[2]))
    if _question(found) == b"all":
        parts = [] if text == "empty" else text.split(" ")
        if parts and ":" in parts[0]:
            return [_pair(part) for part in parts]
        return [int(part) for part in parts]
    if text == "none":
        return None
    return _pair(text) if ":" in text else int(text)


def value_of(line: bytes, answers: Sequence[str], number: int = 0) -> Value:
    """The answers to a line as a value; `number` is that of the line.

    An edit gives an `Edit`, `ask` a number, a list, a pair, a list of pairs or None, `fate` a `Taken` or None where the item stays, `save` a
    `Saved`, `mute` the text of its report, a line without an answer None. Errors: `Refused`; `OutOfStep` where no such line is answered so.
    """
    if not answers:
        return None
    if answers[0].startswith("refused "):
        raise Refused(answers[0], number, line.decode("utf-8", "surrogateescape"))
    try:
        return _value(line, answers[0], answers)
    except (ValueError, IndexError):
        raise OutOfStep("the line %r is answered by %r" % (line, answers[0])) from None


def _value(line: bytes, first: str, answers: Sequence[str]) -> Value:
    if first.startswith("= "):
        return _told(words(line), first[2:])
    if first.startswith("edit "):
        evidence = tuple(evidence_of(text) for text in answers)
        verb = words(line)[1]
        made = [one.number for one in evidence if one.edit == "add"] if verb not in (b"delete", b"undo", b"redo") else []
        return Edit(made[0] if made else None, evidence)
    if first.startswith("timeline "):
        return Saved.read("\n".join(answers) + "\n")
    if first == "ok":
        return Edit(None, tuple(evidence_of(text) for text in answers[1:]))
    if first.startswith("ok #"):
        return Edit(int(first[4:]))
    if first.startswith("report "):
        return first
    raise ValueError(first)


class Reply(NamedTuple):
    """A line of a script with its answers; `number` is that of the line, `about` that of the line which the answer speaks of."""

    number: int
    about: int
    line: bytes
    answers: Tuple[str, ...]

    @property
    def refused(self) -> bool:
        """Whether the line was refused."""
        return bool(self.answers) and self.answers[0].startswith("refused")

    @property
    def value(self) -> Value:
        """The answers as a value, as `value_of` gives it. Errors: `Refused`."""
        return value_of(self.line, self.answers, self.about)

