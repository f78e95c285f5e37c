"""A script as a page to look at: what was believed about each moment after each step. One file, which fetches nothing.

The page holds the rows that ever stood, with the steps at which they came and went, and performs them. What it would show is compared with the
answers of the program when it is made: at the key frames, each 512 rows of the last step, and at the moments of further steps, all of them where
they are few. A difference stops it.
"""

import itertools
import json
from importlib.resources import files
from typing import Dict, Iterable, Iterator, List, NamedTuple, Optional, Sequence, Tuple, Union

from .channel import Program
from .conversation import Line, bytes_of
from .errors import RetroError
from .process import Retro, lines_within
from .rows import WORDS, Performed, Row
from .versions import History, histories_of
from .wording import GivenNames, Wording

FRAME = 512  # rows from one key frame to the next
WORK = 20_000_000  # items that are compared at the most
TEXTS = 4096  # steps up to which a page has the lines of the script
PARTS = ("page.css", "page_model.js", "page_view.js", "page.html")


class PageDiffers(RetroError):
    """The page would show something else than the program answers: after this `line` of the script, to this `question`."""

    def __init__(self, line: int, question: str, shown: str, told: str) -> None:
        super().__init__(line, question, shown, told)
        self.line, self.question, self.shown, self.told = line, question, shown, told

    def __str__(self) -> str:
        return "after line %d, %r: the page would show %r, and the program answers %r" % (self.line, self.question, self.shown, self.told)


class _Check(NamedTuple):
    """The rows after a step, and behind which of them the program is asked what is there."""

    history: History
    step: int
    rows: List[Row]
    marks: List[int]


def page(
    script: Union[Line, Iterable[Line]],
    names: GivenNames = None,
    calendar: bool = False,
    title: str = "A history",
    program: Optional[Program] = None,
) -> str:
    """The page of a script. `names` and `calendar` are those of `explain`.

    Cost: two runs of the script, and the answers that are compared; of a full timeline some ten seconds and less than 5 MB. Errors: `PageDiffers`;
    `Ended`; ValueError where the script begins no timeline.
    """
    lines = [bytes_of(line) for line in lines_within(script)]
    with Retro(program) as retro:
        histories = histories_of(retro.stream(lines))
    if not histories:
        raise ValueError("the script begins no timeline")
    checks = [check for history in histories for check in _checks(history)]
    frames: Dict[str, List[str]] = {history.name: [] for history in histories}
    with Retro(program) as retro:
        _compare(retro, lines, checks, frames)
    wording = Wording("queue", names)
    data = {
        "title": title,
        "calendar": calendar,
        "names": {str(number): name for number, name in wording.names.items()},
        "words": {kind: list(words) for kind, words in WORDS.items()},
        "timelines": [_told(history, frames[history.name]) for history in histories],
    }
    text = {name: files(__package__).joinpath(name).read_text("utf-8") for name in PARTS}
    safe = json.dumps(data, separators=(",", ":")).replace("<", "\\u003c")
    parts = {"STYLE": text["page.css"], "MODEL": text["page_model.js"], "VIEW": text["page_view.js"], "DATA": safe}
    return "".join(parts.get(piece, piece) for piece in text["page.html"].split("@@"))


def _cost(rows: int) -> int:
    """How many items are compared of a step after which so many rows stand."""
    return rows + len(_marks(rows)) * rows // 2


def _marks(rows: int) -> List[int]:
    """Behind how many of the rows the program is asked."""
    return list(range(FRAME, rows, FRAME)) + [rows] if rows > FRAME else list(range(1, rows + 1))


def _checks(history: History) -> Iterator[_Check]:
    """The steps whose states are compared: all, or each so many, and always the last."""
    counts = history.counts()
    every = 1 + sum(map(_cost, counts)) // WORK
    for step in range(1, len(history.steps) + 1):
        if step == len(history.steps) or step % every == 0:
            rows = history.standing(step)
            yield _Check(history, step, rows, _marks(len(rows)))


def _compare(retro: Retro, lines: Sequence[bytes], checks: Iterable[_Check], frames: Dict[str, List[str]]) -> None:
    """Runs the script with questions at the steps that are compared. Errors: `PageDiffers`."""
    by_line: Dict[int, List[_Check]] = {}
    for check in checks:
        by_line.setdefault(check.history.steps[check.step - 1].line, []).append(check)

    def asked() -> Iterator[bytes]:
        for number, line in enumerate(lines, 1):
            yield line
            for check in by_line.get(number, ()):
                for mark in check.marks:
                    yield b"%s ask after #%d all" % (check.history.name.encode("ascii"), check.rows[mark - 1].number)

    replies = retro.stream(asked())
    for number, _ in enumerate(lines, 1):
        next(replies)
        for check in by_line.get(number, ()):
            _compare_one(check, (next(replies).answers[0] for _ in check.marks), frames[check.history.name])
    next(replies, None)


def _compare_one(check: _Check, told: Iterable[str], frames: List[str]) -> None:
    """Performs the rows after a step and compares; of the last step the key frames are kept, as what comes and goes from each to the next."""
    history = check.history
    there = Performed(history.kind)
    last = check.step == len(history.steps)
    place: Dict[int, int] = {row.number: at for at, row in enumerate(history.universe)} if last else {}
    before: List[int] = []
    done = 0
    for mark, answer in zip(check.marks, told):
        for row in check.rows[done:mark]:
            there.perform(row)
        done = mark
        rows = there.all()
        shown = "= " + (" ".join(_item(history.kind, row) for row in rows) or "empty")
        if shown != answer:
            question = "%s ask after #%d all" % (history.name, check.rows[mark - 1].number)
            raise PageDiffers(history.steps[check.step - 1].line, question, shown, answer)
        if last and mark % FRAME == 0:
            now = [place[row.number] for row in rows]
            frames.append("%d %s" % (place[check.rows[mark - 1].number], _difference(before, now)))
            before = now


def _item(kind: str, row: Row) -> str:
    return "%d:%d" % row.numbers if kind == "dict" else str(row.numbers[0])


def _difference(before: Sequence[int], now: Sequence[int]) -> str:
    """What leads from one content to the next: what stays in the middle, and what is new on its left and on its right.

    Of a line of items those that stay are one stretch: `0`, where it begins there, how many they are, where it begins now, and the new ones. Of
    keys and entries they are not: `1`, how many are gone, these, and those that have come.
    """
    here = set(before) & set(now)
    began = next((at for at, item in enumerate(before) if item in here), 0)
    begins = next((at for at, item in enumerate(now) if item in here), len(now))
    if before[began : began + len(here)] == now[begins : begins + len(here)]:
        return "0 %d %d %d %s" % (began, len(here), begins, _deltas([*now[:begins], *now[begins + len(here) :]]))
    gone, come = sorted(set(before) - here), sorted(set(now) - here)
    return "1 %d %s" % (len(gone), _deltas([*gone, *come]))


def _deltas(numbers: Iterable[int]) -> str:
    """Numbers as their differences, which are short."""
    told: List[str] = []
    before = 0
    for number in numbers:
        told.append(str(number - before))
        before = number
    return " ".join(told)


def _told(history: History, frames: List[str]) -> Dict[str, object]:
    """A history as the page reads it: columns over the rows that ever stood, in their order, and over the steps."""
    rows, steps = history.universe, history.steps
    times = sorted({row.time for row in rows})
    index = {time: at for at, time in enumerate(times)}
    words = list(WORDS[history.kind])
    told: Dict[str, object] = {
        "name": history.name,
        "kind": history.kind,
        "times": _deltas(times),
        "time": _deltas(index[row.time] for row in rows),
        "number": _deltas(row.number for row in rows),
        "word": "".join(str(words.index(row.operation.split(" ")[0])) for row in rows),
        "values": " ".join(":".join(map(str, row.numbers)) or "." for row in rows),
        "born": _deltas(history.lives[row.number][0][0] - row.number for row in rows),
        "lives": [[at, *itertools.chain(*_lives(history, row))] for at, row in enumerate(rows) if _several(history, row)],
        "line": _deltas(step.line for step in steps),
        "refused": {str(at): step.refused for at, step in enumerate(steps, 1) if step.refused},
        "evidence": " ".join("+".join(step.evidence) or "." for step in steps) if history.kind == "pq" else "",
        "frames": frames,
    }
    if len(steps) <= TEXTS:
        told["texts"] = [step.text for step in steps]
    return told


def _several(history: History, row: Row) -> bool:
    lives = history.lives[row.number]
    return len(lives) > 1 or lives[0][1] is not None


def _lives(history: History, row: Row) -> Iterator[Tuple[int, int]]:
    """From which step on, and up to which, a row stands; -1 where to the last."""
    for born, died in history.lives[row.number]:
        yield born, -1 if died is None else died
