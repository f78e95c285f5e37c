"""The judgement of evidence, line by line; and of the line that is refused, what would have been true.

`retro check` judges. What would have been true is worked out here, over the rows that the accepted lines have reported, by the table of
docs/EVIDENCE.md.
"""

import subprocess
from typing import Dict, Iterable, List, Mapping, NamedTuple, Optional, Tuple, Union

from .answers import Edit, Evidence, Reply, evidence_of
from .channel import Program, command
from .conversation import Line, bytes_of, spoken
from .errors import Ended
from .grammar import words
from .process import lines_within
from .rows import Row, Unperformed, entries

Rows = List[Row]


class Verdict(NamedTuple):
    """What `retro check` says of a line of evidence.

    `line`: its number among all lines. `accepted`: True, False, or None for the lines behind the one that is refused, which are not judged.
    `cause`: why it is refused. `true`: of causes `bridge` and `entry` the line that would have been true. `time`: that of its row, where the times
    are known. `reason`: the refusal in a sentence.
    """

    line: int
    text: str
    accepted: Optional[bool]
    cause: Optional[str] = None
    true: Optional[Evidence] = None
    time: Optional[int] = None
    reason: str = ""

    @property
    def sentence(self) -> str:
        """The verdict in a line."""
        at = "" if self.time is None else " (its row stands at %d)" % self.time
        if self.accepted is None:
            return "%6d  not judged" % self.line
        return "%6d  %s%s" % (self.line, "accepted" if self.accepted else "refused, %s: %s" % (self.cause, self.reason), at)


def check(lines: Union[Line, Iterable[Line]], times: Optional[Mapping[str, Mapping[int, int]]] = None, program: Optional[Program] = None) -> List[Verdict]:
    """The verdict of each line that begins with `edit `; the others are passed over.

    `times` has the time of each row by the name of its timeline and its number (`times_of`); evidence has none. Cost: `retro check` over all
    lines, and of the refused line the rows before it. Errors: `Ended` where the program did not read to its end.
    """
    sent = [bytes_of(line) for line in lines_within(lines)]
    judged = _judged(sent, program)
    told: List[Verdict] = []
    rows: Dict[str, Rows] = {}
    for number, line in enumerate(sent, 1):
        if not line.startswith(b"edit "):
            continue
        text = line.decode("utf-8", "backslashreplace").rstrip("\r")
        if judged is not None and number > judged[0]:
            told.append(Verdict(number, text, None))
        elif judged is not None and number == judged[0]:
            told.append(_refused(number, text, judged[1], rows, times or {}))
        else:
            said = evidence_of(text)
            _make(rows.setdefault(said.name, []), said)
            told.append(Verdict(number, text, True, time=(times or {}).get(said.name, {}).get(said.number)))
    return told


def _judged(lines: List[bytes], program: Optional[Program]) -> Optional[Tuple[int, str]]:
    """The line that the program refuses, with the cause."""
    done = subprocess.run([*command(program), "check"], input=b"".join(line + b"\n" for line in lines), stdout=subprocess.PIPE, check=False)
    said = done.stdout.decode("ascii").split()
    if done.returncode > 1 or not said:
        raise Ended(done.returncode)
    return (int(said[2]), said[3]) if said[0] == "refused" else None


def _make(rows: Rows, said: Evidence) -> None:
    """Makes the edit that a line reports. A row of evidence has no time: its place stands for it."""
    if said.edit == "add":
        rows.insert(said.place, Row(said.number, 0, said.operation))
    else:
        del rows[said.place]


def _refused(number: int, text: str, cause: str, rows: Mapping[str, Rows], times: Mapping[str, Mapping[int, int]]) -> Verdict:
    if cause == "syntax":
        return Verdict(number, text, False, cause, reason="it is no line of evidence")
    said = evidence_of(text)
    before = rows.get(said.name, [])
    time = times.get(said.name, {}).get(said.number)
    if cause in ("bridge", "entry"):
        true = truth(before, said)
        return Verdict(number, text, False, cause, true, time, "true would have been %s" % _told(true))
    return Verdict(number, text, False, cause, None, time, _reason(cause, before, said))


def _told(said: Evidence) -> str:
    bridge = "none" if said.bridge is None else said.bridge
    return "bridge %s, and that the present has %s the entry of row %d, key %d" % (
        bridge, "gained" if said.change == "gain" else "lost", said.entry, said.key
    )


def _reason(cause: str, rows: Rows, said: Evidence) -> str:
    """Why a line whose edit cannot be is refused."""
    if cause == "place":
        return "%d rows stand before it" % len(rows)
    if cause == "number" and said.edit == "add":
        return "row %d stands there already" % said.number
    if cause in ("number", "row"):
        return "at place %d stands row %d, %s" % (said.place, rows[said.place].number, rows[said.place].operation)
    if cause == "replay":
        after = list(rows)
        _make(after, said)
        try:
            entries("pq", after)
        except Unperformed as contradicted:
            return "row %d, %s, would find nothing" % (contradicted.row.number, contradicted.row.operation)
    return {"full": "131072 rows stand before it", "timelines": "eight timelines stand before it"}.get(cause, "")


def truth(rows: Rows, said: Evidence) -> Evidence:
    """The line that would be true of the edit which `said` reports, over the rows before it. The edit has to be one that can be performed."""
    alive = {row.number for row in entries("pq", rows)}
    sums = [0]
    for row in rows:
        sums.append(sums[-1] + (-1 if not row.puts else int(row.number not in alive)))
    bridges = [place for place, total in enumerate(sums) if total == 0]
    own = Row(said.number, 0, said.operation)
    if said.edit == "cut" and own.number in alive:
        return _line(said, None, "lose", own)
    if (said.edit == "add") == own.puts:
        bridge = max(place for place in bridges if place <= said.place)
        dead = [row for row in rows[bridge:] if row.puts and row.number not in alive]
        return _line(said, bridge, "gain", max(dead + ([own] if said.edit == "add" else []), key=_entry))
    bridge = min(place for place in bridges if place >= said.place + (said.edit == "cut"))
    return _line(said, bridge, "lose", min((row for row in rows[:bridge] if row.number in alive), key=_entry))


def _entry(row: Row) -> Tuple[int, int]:
    return row.numbers[0], row.number


def _line(said: Evidence, bridge: Optional[int], change: str, entry: Row) -> Evidence:
    key, number = _entry(entry)
    told = (said.name, said.edit, said.place, said.number, said.operation, "none" if bridge is None else bridge, change, number, key)
    return evidence_of("edit %s %s %d #%d %s bridge %s %s #%d %d" % told)


def times_of(replies: Iterable[Reply]) -> Dict[str, Dict[int, int]]:
    """The time of each row that a script ever made, by the name of its timeline and its number."""
    times: Dict[str, Dict[int, int]] = {}
    block: List[bytes] = []
    for reply in replies:
        said = words(reply.line)
        if not said or said[0].startswith(b";") or reply.refused:
            block = [] if reply.refused else block
        elif said[0] == b"timeline" or block:
            block.append(reply.line)
            if said == [b"end"]:
                _block_times(times, block)
                block = []
        elif len(said) > 1 and said[1] in (b"at", b"before", b"after", b"move", b"change"):
            rows = times.setdefault(said[0].decode(), {})
            rows[spoken(spoken(reply.value, Edit).number, int)] = int(said[4 if said[1] == b"move" else 2]) if said[1] in (b"at", b"move") else rows[int(said[2][1:])]
    return times


def _block_times(times: Dict[str, Dict[int, int]], block: List[bytes]) -> None:
    header = words(block[0])
    rows = times.setdefault(header[1].decode(), {})
    for line in block[1:-1]:
        said = words(line)
        rows[int(said[0][1:])] = int(said[1])
