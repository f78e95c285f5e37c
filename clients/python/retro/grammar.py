"""How many lines answer a line of a script.

What is counted here is said in docs/SCRIPT.md, "How many lines answer a line", and is read off bytes: a space is byte 32 and nothing
else, a line may have 4,096 bytes. So no line has to be closed by another one whose answer is known, and the status at the end stays that
of the script. What a line cannot say by itself (whether an edit was accepted, how many rows a timeline has) its first answer says.
"""

import re
from typing import Callable, Dict, Iterator, List, NamedTuple, Optional, Sequence, Tuple

LONGEST = 4096  # bytes of a line, without its line feed and one carriage return
STEPS = 1024  # steps of a timeline that can be undone
NAMES = 8  # timelines of a process
KINDS = ("queue", "stack", "deque", "dict", "pq")
NO_NAMES = frozenset((b"new", b"save", b"timeline", b"end", b"edit", b"mute"))
A_NAME = re.compile(rb"[A-Za-z][A-Za-z0-9_-]{0,31}\Z")
NUMBERS, ROWS = 16777216, 131072


def words(line: bytes) -> List[bytes]:
    """The words of a line that has no line feed: spaces divide them, and one carriage return at its end is no part of it."""
    if line.endswith(b"\r"):
        line = line[:-1]
    return [word for word in line.split(b" ") if word]


def is_long(line: bytes) -> bool:
    """Whether a line has more bytes than one may have."""
    return len(line) > LONGEST and len(line) - line.endswith(b"\r") > LONGEST


def is_name(word: bytes) -> bool:
    """Whether a word can be the name of a timeline."""
    return A_NAME.match(word) is not None and word not in NO_NAMES


def _within(word: bytes, least: int, most: int) -> bool:
    digits = word.lstrip(b"0")
    return word.isdigit() and len(digits) <= 20 and least <= int(digits or b"0") <= most


def is_header(found: Sequence[bytes]) -> bool:
    """Whether these words begin a block. Any other line that begins with `timeline` is refused, and begins none."""
    return (
        len(found) in (5, 7)
        and found[0] == b"timeline"
        and is_name(found[1])
        and found[2].decode("latin-1") in KINDS
        and found[3] == b"next"
        and _within(found[4], 1, NUMBERS)
        and (len(found) == 5 or (found[5] == b"rows" and _within(found[6], 0, ROWS)))
    )


def owner(found: Sequence[bytes]) -> Optional[bytes]:
    """The name of the timeline that a line of these words speaks of, or None where it speaks of none."""
    if not found:
        return None
    word = found[1] if found[0] in (b"new", b"save", b"timeline") and len(found) > 1 else found[0]
    return word if is_name(word) else None


class Open(NamedTuple):
    """A block whose `end` has not come: the line of its header, its kind, and how many lines it has, rows and others.

    `others` has the numbers of its comments and of its lines without words. It only grows, and the first `passed` of it count, so an earlier
    state of the same block still holds.
    """

    header: int
    kind: bytes
    rows: int
    others: List[int]
    passed: int

    def line_of(self, row: int) -> int:
        """The script line of a row line, which are numbered from 1 on."""
        line = self.header + row
        for other in self.others[: self.passed]:
            line += other <= line
        return line

    def passing(self, line: int) -> "Open":
        """The block with one more line that is no row."""
        del self.others[self.passed :]
        self.others.append(line)
        return self._replace(passed=self.passed + 1)


class State(NamedTuple):
    """What is known of a script after its first lines; it is never changed, so whoever is interrupted begins again from the last one.

    `line` is how many there were, `block` the block that is open. `steps` has of each priority queue the lines of evidence of its steps,
    those that can be undone and those that can be redone, a byte each. `queues` is whether there may be one.
    """

    line: int = 0
    block: Optional[Open] = None
    steps: Dict[bytes, Tuple[bytes, bytes]] = {}
    queues: bool = False

    def passes(self, line: bytes) -> Optional["State"]:
        """The state after a line that has no answer, or None where it has one."""
        found = [b"long"] if is_long(line) else words(line)
        blank = not found or found[0].startswith(b";")
        if self.block is not None:
            if found == [b"end"]:
                return None
            block = self.block.passing(self.line + 1) if blank else self.block._replace(rows=self.block.rows + 1)
            return State(self.line + 1, block, self.steps, self.queues)
        if blank:
            return State(self.line + 1, None, self.steps, self.queues)
        if found[0] == b"timeline" and is_header(found):
            return State(self.line + 1, Open(self.line + 1, found[2], 0, [], 0), self.steps, self.queues or found[2] == b"pq")
        return None

    def further(self, line: bytes, first: str) -> int:
        """How many lines come behind the first answer of a line that has one. Of a `save` that is -1: they go on to `end`."""
        if self.block is not None:
            return self.block.rows if first == "ok" and self.block.kind == b"pq" else 0
        if first.startswith("edit "):
            return self._lines_of_step(words(line)) - 1
        return -1 if first.startswith("timeline ") else 0

    def _lines_of_step(self, found: Sequence[bytes]) -> int:
        name, verb = found[0], found[-1] if len(found) < 3 else found[1]
        done, undone = self.steps.get(name, (b"", b""))
        if verb in (b"undo", b"redo"):
            steps = done if verb == b"undo" else undone
            return steps[-1] if steps else 1
        return 2 if verb in (b"move", b"change") else 1

    def after(self, line: bytes, first: str) -> "State":
        """The state after a line that has this first answer."""
        if self.block is not None:
            return State(self.line + 1, None, self.steps, self.queues)
        queues = self.queues
        if first == "ok" and not queues:
            found = words(line)
            queues = found[0] == b"new" and found[-1] in (b"pq", b"pqf")
        if not first.startswith("edit "):
            return State(self.line + 1, None, self.steps, queues)
        found = words(line)
        name, verb = found[0], found[-1] if len(found) < 3 else found[1]
        done, undone = self.steps.get(name, (b"", b""))
        if verb == b"undo":
            done, undone = done[:-1], undone + done[-1:]
        elif verb == b"redo":
            done, undone = done + undone[-1:], undone[:-1]
        else:
            done, undone = (done + bytes((self._lines_of_step(found),)))[-STEPS:], b""
        return State(self.line + 1, None, {**self.steps, name: (done, undone)}, True)

    def about(self, first: str) -> int:
        """The number of the line that the first answer of the next line speaks of: of a block that is refused for a row the row's."""
        if self.block is not None and first.startswith("refused row "):
            return self.block.line_of(int(first.split(" ")[2]))
        return self.line + 1


def opens(within: bool, lines: Sequence[bytes]) -> bool:
    """Whether a block is open behind these lines, where `within` is whether one was open before them."""
    for line in lines:
        found = [] if is_long(line) else words(line)
        within = found != [b"end"] if within else is_header(found)
    return within


RARE = (b";", b"timeline", b"save", b"mute", b"\r", b"\n\n", b"\n ")
TWO_LINES = (b"undo", b"redo", b" move ", b" change ")


def plain(state: State, lines: Sequence[bytes], data: bytes) -> bool:
    """Whether each of these lines has exactly one answer, as one search over all of them shows; else they may, and are counted one by one.

    `data` is the lines, each with its line feed.
    """
    return (
        state.block is None
        and not data.startswith((b"\n", b" "))
        and not any(word in data for word in RARE)
        and not ((state.queues or b" pq" in data) and any(word in data for word in TWO_LINES))
        and (_has_no_long(data) or max(map(len, lines)) <= LONGEST)
    )


def _has_no_long(data: bytes) -> bool:
    """Whether a line feed stands in each half of what a line may have, so that none is long; the reverse need not hold."""
    half = LONGEST // 2
    return all(data.find(b"\n", start, start + half) >= 0 for start in range(0, len(data), half))


def after_plain(state: State, data: bytes, answers: Sequence[str], evidence: bool) -> State:
    """The state after plain lines with one answer each, of which some are `evidence`."""
    steps = state.steps
    if evidence:
        counts: Dict[str, int] = {}
        for answer in answers:
            if answer.startswith("edit "):
                name = answer.split(" ", 2)[1]
                counts[name] = counts.get(name, 0) + 1
        steps = dict(steps)
        for name, count in counts.items():
            done = steps.get(name.encode(), (b"", b""))[0]
            steps[name.encode()] = (done + b"\x01" * count)[-STEPS:], b""
    return State(state.line + len(answers), None, steps, state.queues or b" pq" in data)


class Reader:
    """Gives each line of a script its answers; it is told all lines, in their order.

    `line` is the number of the line that was given last, from 1 on. `about` is the line that its answer speaks of: the row line of a block
    that was refused for it, and else the same.
    """

    def __init__(self) -> None:
        self.state = State()
        self.about = 0

    @property
    def line(self) -> int:
        """The number of the line that was given last."""
        return self.state.line

    @property
    def block(self) -> Optional[Open]:
        """The block that is open."""
        return self.state.block

    def answers(self, line: bytes, read: Callable[[], str]) -> List[str]:
        """The answers to the next line, which has no line feed; each call of `read` gives one more line of what the program writes."""
        passed = self.state.passes(line)
        if passed is not None:
            self.state, self.about = passed, passed.line
            return []
        answers = [read()]
        further = self.state.further(line, answers[0])
        while further > 0 or (further < 0 and answers[-1] != "end"):
            answers.append(read())
            further -= 1
        self.about = self.state.about(answers[0])
        self.state = self.state.after(line, answers[0])
        return answers

    def end(self, read: Callable[[], str]) -> List[str]:
        """The answer at the end of the input, which is one where a block is still open."""
        return [] if self.state.block is None else self.answers(b"end", read)


def lines_of(script: bytes) -> List[bytes]:
    """The lines of a script; what stands behind the last line feed is a line where it is not empty."""
    lines = script.split(b"\n")
    if not lines[-1]:
        lines.pop()
    return lines


def reader_of(answers: bytes) -> Callable[[], str]:
    """A call that gives one line after another of what a program wrote. Errors: EOFError behind the last whole one."""
    rest: Iterator[bytes] = iter(answers.split(b"\n")[:-1])

    def read() -> str:
        try:
            return next(rest).decode("ascii")
        except StopIteration:
            raise EOFError("the program has written fewer lines than the script has answers") from None

    return read
