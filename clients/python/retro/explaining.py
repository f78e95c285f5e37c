"""What a correction has changed, or where two reports part: of the answers at all moments, and of who took what."""

import itertools
from types import TracebackType
from typing import Callable, Dict, Iterable, Iterator, List, NamedTuple, Optional, Sequence, Set, Tuple, Type, TypeVar

from .answers import Value
from .channel import Program
from .errors import Ended
from .lineage import Edited, Lineage, edited, reordered, same_rows
from .process import Retro
from .rows import Row, Saved, lifetimes
from .timeline import Timeline
from .wording import GivenNames, Wording, stretch

Found = TypeVar("Found")
QUESTIONS = {"queue": ("front", "size"), "stack": ("top", "size"), "deque": ("left", "right", "size"), "dict": ("size",), "pq": ("min", "size")}
SINGLE = frozenset(("front", "back", "top", "left", "right", "min", "size"))  # questions that are named after what they ask for
MOST = 20  # sentences on one question, and on who took what
MOST_KEYS = 8  # keys of a dict that are asked where no question is named


class Changed(NamedTuple):
    """An answer that is another one: at each time from `start` on and before `end`, or on and on where that is None."""

    question: str
    start: int
    end: Optional[int]
    was: Value
    now: Value


class Take(NamedTuple):
    """A row that takes something else than it took: the rows that had put it in and that put it in now; None where it took nothing."""

    row: Row
    before: Optional[Row]
    now: Optional[Row]


class Report:
    """Two states of a timeline beside each other.

    `rows`: what is not as it was, `Edited`. `changes`: the answers that differ, `Changed`, by question and time. `takes`: who takes something
    else, `Take`. A row keeps who it is through a `move` or a `change`; a `Take` has it as it is now, or as it was where it is gone.
    """

    def __init__(self, was: Saved, now: Saved, wording: Wording, reports: bool = False) -> None:
        self.was, self.now, self.wording, self.reports = was, now, wording, reports
        self.questions: List[str] = []
        self.rows: List[Edited] = []
        self.changes: List[Changed] = []
        self.takes: List[Take] = []
        self._numbers: Set[int] = set()

    def compare(self, retro: Retro, questions: Sequence[str], lineage: Optional[Lineage] = None) -> None:
        """Fills the report; the process has both states, under the names `was` and `now`."""
        same = same_rows(self.was, self.now, lineage)
        self.questions = list(questions)
        self.rows = edited(self.was, self.now, same)
        self.takes = list(_takes(self.was, self.now, same))
        self.changes = sorted(_changes(retro, self.was, self.now, questions), key=lambda one: (self.questions.index(one.question), one.start))

    def text(self) -> str:
        """All of it in sentences; of each question, and of who took what, the first 20."""
        return "\n".join(self._lines()) + "\n"

    def _lines(self) -> Iterator[str]:
        self._numbers = {row.number for row in self.now.rows}
        if not (self.rows or self.changes or self.takes):
            yield "Nothing is different: neither a row of %s nor %s." % (self.now.name, _listed(self.questions))
            return
        yield ("Where two reports of %s part." if self.reports else "What has changed in %s.") % self.now.name
        yield from _few("Rows", self.rows, self._row, "rows")
        for question in self.questions:
            changes = [one for one in self.changes if one.question == question]
            yield from _few(_of(question), changes, self._changed, "stretches of time") or [_of(question), "  The same at every moment."]
        yield from _few("Who takes what", self.takes, self._take, "rows") or ["Who takes what", "  Every row takes what it took."]

    def _row(self, one: Edited) -> str:
        say = self.wording
        if one.was is None or one.now is None:
            alone = ("first" if one.now is None else "second") + " report alone"
            said = "stands in the " + alone if self.reports else "was taken out" if one.now is None else "was put in"
            return "".join("%s, %s." % (say.row(row), said) for row in one if row)
        done = []
        if one.was.time != one.now.time:
            done.append(("stands at %s" if self.reports else "was moved to %s") % say.time(one.now.time))
        if one.was.operation != one.now.operation:
            done.append(("is %s" if self.reports else "was changed to %s") % say.operation(one.now.operation))
        number = ", and is row %d %s" % (one.now.number, "there" if self.reports else "now") if one.was.number != one.now.number else ""
        return "%s, %s%s%s." % (say.row(one.was), "in the second report " if self.reports else "", " and ".join(done), number)

    def _changed(self, one: Changed) -> str:
        say = self.wording
        when = stretch(say.time(one.start), None if one.end is None else say.time(one.end))
        was, now = say.answer(one.question, one.was), say.answer(one.question, one.now)
        if self.reports:
            return "%s differs %s: %s against %s." % (one.question, when, was, now)
        return "%s it was %s, and is %s now." % (when[0].upper() + when[1:], was, now)

    def _take(self, one: Take) -> str:
        say = self.wording
        was = say.put(one.before) if one.before else "nothing"
        now = say.put(one.now) if one.now else "nothing"
        took, takes = ("replaced", "replaces") if one.row.puts else ("took", "takes")
        if self.reports:
            return "%s, %s %s in the first report and %s in the second." % (say.row(one.row), takes, was, now)
        if one.row.number not in self._numbers:
            return "%s, %s %s, and is gone." % (say.row(one.row), took, was)
        return "%s, %s%s %s now." % (say.row(one.row), "%s %s, and " % (took, was) if one.before else "", takes, now)


def _of(question: str) -> str:
    """A question as the heading of what it was answered."""
    return "The " + question if question in SINGLE else "The answer to " + question


def _listed(questions: Sequence[str]) -> str:
    return "an answer to " + ", ".join(questions) if questions else "an answer"


def _few(heading: str, found: Sequence[Found], say: Callable[[Found], str], what: str) -> List[str]:
    """Sentences on the first of what was found, below a heading, and how many more there are."""
    more = ["  And %d more %s." % (len(found) - MOST, what)] if len(found) > MOST else []
    return [heading, *("  " + say(one) for one in found[:MOST]), *more] if found else []


def _takes(was: Saved, now: Saved, same: Dict[int, int]) -> Iterator[Take]:
    """Who takes something else, by the times of the takers."""
    before = {life.taken.number: (life.taken, life.put) for life in lifetimes(was.kind, was.rows) if life.taken}
    after = {life.taken.number: (life.taken, life.put) for life in lifetimes(now.kind, now.rows) if life.taken}
    here, there = {row.number: row for row in was.rows}, {row.number: row for row in now.rows}
    told: List[Take] = []
    for number, row in there.items():
        old = before.get(same[number]) if number in same else None
        new = after.get(number)
        if (old and old[1].number) != (new and same.get(new[1].number, -new[1].number)):
            told.append(Take(row, old and old[1], new and new[1]))
    for number in here.keys() - same.values():
        if number in before:
            told.append(Take(here[number], before[number][1], None))
    return iter(sorted(told, key=lambda one: (one.row.time, one.row.number)))


def _moments(was: Saved, now: Saved) -> List[int]:
    """The times at which an answer may differ: those of rows, from the first row on that is not the same in both."""
    same = sum(1 for _ in itertools.takewhile(lambda pair: pair[0] == pair[1], zip(was.rows, now.rows)))
    later = was.rows[same:] + now.rows[same:]
    return sorted({row.time for row in later})


def _changes(retro: Retro, was: Saved, now: Saved, questions: Sequence[str]) -> Iterator[Changed]:
    """Where the answers part, as the program tells them; one stretch after another."""
    moments = _moments(was, now)
    forms = [(question, "%s ask at %d " + question) for question in questions]
    lines = (form % (name, time) for time in moments for _, form in forms for name in ("was", "now"))
    replies = retro.stream(lines)
    running: Dict[str, Changed] = {}
    for time in moments:
        for question, _ in forms:
            old, new = next(replies).value, next(replies).value
            open_one = running.get(question)
            if open_one is not None and (open_one.was, open_one.now) != (old, new):
                yield running.pop(question)._replace(end=time)
            if old != new and question not in running:
                running[question] = Changed(question, time, None, old, new)
    next(replies, None)
    yield from running.values()


def questions_of(kind: str, rows: Iterable[Row]) -> List[str]:
    """What is asked where nobody says: what stands first and how much there is; of a dict also the first keys of these rows."""
    keys = sorted({row.numbers[0] for row in rows}) if kind == "dict" else []
    return ["get %d" % key for key in keys[:MOST_KEYS]] + list(QUESTIONS[kind])


def _load(retro: Retro, saved: Saved, name: str) -> Timeline:
    return retro.load(saved.renamed(name))


class explain:
    """What happens to a timeline within a `with`; the report is filled at its end, also where an edit was refused on the way.

    `questions`: those of the script language without their moment; where none are named, what stands first and how much there is. A question
    that does not suit the kind is refused at the beginning. Cost: two saves, and beside it, in a process of its own, each question twice at each
    time of a row behind the first one that differs.
    """

    def __init__(self, timeline: Timeline, questions: Optional[Sequence[str]] = None, names: GivenNames = None, calendar: bool = False) -> None:
        self.timeline, self.questions = timeline, questions
        self.wording = Wording(timeline.kind, names, calendar)
        self.lineage = Lineage(timeline.name)

    def __enter__(self) -> Report:
        was = self.timeline.save()
        self.report = Report(was, was, self.wording)
        self.retro = Retro(self.timeline.retro.program)
        try:
            _load(self.retro, was, "was")
            for question in self.questions or []:
                self.retro.line("was ask " + question)
        except BaseException:
            self.retro.end()
            raise
        self.timeline.retro.listeners.append(self.lineage.hear)
        return self.report

    def __exit__(self, kind: Optional[Type[BaseException]], error: Optional[BaseException], trace: Optional[TracebackType]) -> None:
        self.timeline.retro.listeners.remove(self.lineage.hear)
        with self.retro:
            if isinstance(error, Ended):
                return
            self.report.now = self.timeline.save()
            _load(self.retro, self.report.now, "now")
            questions = self.questions
            if questions is None:
                same = same_rows(self.report.was, self.report.now, self.lineage)
                differing = [row for one in edited(self.report.was, self.report.now, same) for row in one if row]
                questions = questions_of(self.timeline.kind, differing)
            self.report.compare(self.retro, questions, self.lineage)


def compared(
    was: Saved,
    now: Saved,
    questions: Optional[Sequence[str]] = None,
    names: GivenNames = None,
    calendar: bool = False,
    program: Optional[Program] = None,
    lineage: Optional[Lineage] = None,
) -> Report:
    """Where two saves part; a row of one is the same as a row of the other as `same_rows` says. With a `lineage` it is told as a correction.

    Errors: ValueError where the kinds differ; `Refused` where a question does not suit the kind; `Ended`.
    """
    if was.kind != now.kind:
        raise ValueError("a %s and a %s are not one timeline" % (was.kind, now.kind))
    report = Report(was, now, Wording(was.kind, names, calendar), lineage is None)
    with Retro(program) as retro:
        _load(retro, was, "was")
        _load(retro, now, "now")
        if questions is None:
            differing = [row for one in edited(was, now, same_rows(was, now, lineage)) for row in one if row]
            questions = questions_of(was.kind, differing + reordered(was, now))
        for question in questions:
            retro.line("was ask " + question)
        report.compare(retro, questions, lineage)
    return report
