"""Which answers belong to which lines, without a process: bytes come in, replies go out.

What is sent is noted before it is written, and what was read is noted by the one step that also says how far it was read. So a conversation
may be interrupted anywhere (a signal, a timeout, a callback that raises), and goes on from there: each answer still belongs to its line.
"""

import collections
import contextlib
import functools
import itertools
import operator
from typing import Callable, Deque, Dict, Iterable, Iterator, List, NamedTuple, Optional, Sequence, Tuple, Type, TypeVar, Union

from .answers import Edit, Reply, value_of
from .errors import OutOfStep, RetroError
from .grammar import LONGEST, State, after_plain, opens, plain, words
from .rows import Saved, Table

Line = Union[str, bytes]
Spoken = TypeVar("Spoken")
_ANSWERS, _IS_EVIDENCE = operator.attrgetter("answers"), operator.methodcaller("startswith", "edit ")
_POP: Callable[[Deque[str]], str] = collections.deque.popleft
_reply: Callable[..., Reply] = functools.partial(tuple.__new__, Reply)  # type: ignore[assignment]


def bytes_of(line: Line) -> bytes:
    """The bytes of a line: text is UTF-8. Errors: TypeError; ValueError where the line has a line feed, which would make two lines of it."""
    if isinstance(line, str):
        sent = line.encode("utf-8", "surrogateescape")
    elif isinstance(line, (bytes, bytearray, memoryview)):
        sent = bytes(line)
    else:
        raise TypeError("a line is a text or bytes, not %s" % type(line).__name__)
    if b"\n" in sent:
        raise ValueError("a line with a line feed is two lines: %r" % (line,))
    return sent


def joined(lines: Sequence[Line]) -> bytes:
    """The bytes of lines, each with its line feed. Errors: those of `bytes_of`."""
    try:
        data = ("\n".join(lines) + "\n").encode("utf-8", "surrogateescape")  # type: ignore[arg-type]
    except TypeError:
        data = b"\n".join(line if type(line) is bytes else bytes_of(line) for line in lines) + b"\n"
    if data.count(b"\n") != len(lines):
        for line in lines:
            bytes_of(line)
    return data


def replies_of(first: int, lines: Sequence[bytes], answers: Iterable[Tuple[str, ...]]) -> Iterator[Reply]:
    """Lines from the number `first` on with their answers, each of which speaks of its own line."""
    numbers = list(range(first, first + len(lines)))
    return map(_reply, zip(numbers, numbers, lines, answers))


class Sent:
    """Lines that were sent at once, with what has come back of it.

    `counts` has how many bytes each write has taken. `plain` has the answers where each line has one, and the number of the first line: replies
    are made of them only where somebody looks. Else `made` has the replies, as they come. `leaves_open` is whether a block is open behind them.
    Where they are the `save` of a timeline whose rows are to be kept, `keeps` is its name.
    """

    __slots__ = ("lines", "data", "leaves_open", "keeps", "counts", "plain", "made", "told", "is_done")

    def __init__(self, lines: List[bytes], data: bytes, leaves_open: bool = False, keeps: Optional[str] = None) -> None:
        self.lines, self.data, self.leaves_open, self.keeps = lines, data, leaves_open, keeps
        self.counts: List[int] = []
        self.plain: Optional[Tuple[int, List[str]]] = None
        self.made: List[Reply] = []
        self.told = iter(self.made)
        self.is_done = False

    @property
    def rest(self) -> bytes:
        """What is still to be written."""
        return self.data[sum(self.counts) :] if self.counts else self.data

    def replies(self) -> Iterator[Reply]:
        """The lines with their answers, as far as they have come."""
        if self.plain is None:
            return iter(self.made)
        first, answers = self.plain
        return replies_of(first, self.lines, zip(answers))

    def last(self) -> Reply:
        """The last line with its answers."""
        if self.plain is None:
            return self.made[-1]
        first, answers = self.plain
        number = first + len(answers) - 1
        return Reply(number, number, self.lines[-1], (answers[-1],))


class _Input(NamedTuple):
    """What has come from the program, from the byte `start` of all on. `chunks` only grows, by a single step of the interpreter.

    `counts` has the line feeds of the first chunks, as far as they were counted.
    """

    start: int
    chunks: List[bytes]
    counts: List[int]


class _Standing(NamedTuple):
    """How far the answers were given to their lines: the first `place` lines of `sent`, by the first `taken` bytes of all."""

    state: State
    taken: int
    sent: Optional[Sent]
    place: int
    needed: int  # lines that have to be there before it is worth looking
    is_plain: bool  # whether the lines have an answer each


class Answered(NamedTuple):
    """The lines of a script with their answers, what stands behind the last one, and the status of the program.

    Where `status` is over 1 the program ended before its input did, and the last lines of `replies` are missing.
    """

    replies: List[Reply]
    rest: List[str]
    status: int


class Conversation:
    """The lines that were sent to a program, and what it has answered.

    `owed` has what was sent and is not answered yet, the oldest first. `evidence` is called with each line of evidence, by `hand_on`; `untold` has
    those that wait for it. `listeners` are called with every line and its answers, from `unheard`. `tables` has the rows of timelines; one that an
    interruption may have left behind is dropped, and read again.
    """

    def __init__(self, evidence: Optional[Callable[[str], object]] = None) -> None:
        self.owed: Deque[Sent] = collections.deque()
        self.tables: Dict[str, Table] = {}
        self._evidence = evidence
        self.untold: Deque[str] = collections.deque()
        self.listeners: List[Callable[[Reply], object]] = []
        self.unheard: Deque[Reply] = collections.deque()
        self._handed: Deque[object] = collections.deque(maxlen=0)
        self._input = _Input(0, [], [])
        self._standing = _Standing(State(), 0, None, 0, 0, False)

    @property
    def chunks(self) -> List[bytes]:
        """Where what comes from the program is put, piece by piece."""
        return self._input.chunks

    @property
    def line(self) -> int:
        """How many lines were answered."""
        return self._standing.state.line

    @property
    def is_within_a_block(self) -> bool:
        """Whether a block is open behind all that was sent."""
        return self.owed[-1].leaves_open if self.owed else self._standing.state.block is not None

    def note(self, lines: List[bytes], data: bytes, keeps: Optional[str] = None) -> Sent:
        """Notes lines that are about to be written; `data` is their bytes."""
        within = self.is_within_a_block
        if within or b"timeline" in data:
            within = opens(within, lines)
        sent = Sent(lines, data, within, keeps)
        self.owed.append(sent)
        return sent

    def forget_unwritten(self) -> None:
        """Drops what was noted and never written, since whoever was to write it was interrupted before."""
        while self.owed and not self.owed[-1].counts:
            self.owed.pop()

    def settle(self, is_all: bool = False) -> None:
        """Gives the oldest lines their answers, as far as they have come; `is_all` says that no more will come."""
        while self.owed:
            sent = self.owed[0]
            whole = self._is_answered(sent) or self._answer(sent, is_all)
            if whole or is_all:
                self._tell(sent)
            if not whole:
                return
            sent.is_done = True
            if self.owed and self.owed[0] is sent:
                self.owed.popleft()

    def note_one(self, line: bytes) -> Optional[Sent]:
        """Notes one line, where it surely has an answer, no other is owed one, and none is kept for tables; else it does nothing."""
        if self.owed or self.tables or self.listeners or self._standing.state.block is not None or self._data():
            return None
        if not line or len(line) > LONGEST or line.startswith((b" ", b";", b"\r", b"timeline")):
            return None
        self._input = _Input(self._standing.taken, [], [])
        sent = Sent([line], line + b"\n")
        self.owed.append(sent)
        return sent

    def settle_one(self, sent: Sent) -> Optional[Reply]:
        """Gives that line its answer, where that is the one line which has come; else `settle` has to look."""
        data = self._input.chunks[0]
        size = len(data)
        if data.find(b"\n") + 1 != size or not data.startswith((b"=", b"ok", b"refused")):
            return None
        standing, first, line = self._standing, data[:-1].decode("latin-1"), sent.lines[0]
        reply = Reply(standing.state.line + 1, standing.state.line + 1, line, (first,))
        sent.made = [reply]
        self._standing = _Standing(standing.state.after(line, first), standing.taken + size, sent, 1, 0, False)
        self._input = _Input(standing.taken + size, [], [])
        sent.is_done = True
        self.owed.popleft()
        return reply

    def rest(self) -> List[str]:
        """What has come behind all answers, where no more will come."""
        self.settle(True)
        answers = self._data().decode("latin-1").split("\n")
        return answers if answers.pop() else answers

    def _is_answered(self, sent: Sent) -> bool:
        return self._standing.sent is sent and self._standing.place == len(sent.lines)

    def _data(self) -> bytes:
        """What has come and belongs to no line yet; it is one piece then."""
        start, chunks, _ = self._input
        passed = self._standing.taken - start
        if len(chunks) > 1 or passed:
            rest = b"".join(chunks)[passed:]
            self._input = _Input(self._standing.taken, [rest] if rest else [], [])
        return self._input.chunks[0] if self._input.chunks else b""

    def _count(self) -> int:
        """How many whole lines have come that belong to no line yet."""
        if self._standing.taken != self._input.start:
            self._data()
        _, chunks, counts = self._input
        while len(counts) < len(chunks):
            counts.append(chunks[len(counts)].count(b"\n"))
        return sum(counts)

    def _answer(self, sent: Sent, is_all: bool) -> bool:
        """Gives lines their answers, as far as they have come, and says whether all have theirs."""
        standing = self._standing
        if standing.sent is not sent:
            is_plain = len(sent.lines) > 1 and plain(standing.state, sent.lines, sent.data)
            needed = len(sent.lines) if is_plain else 0
            standing = self._standing = _Standing(standing.state, standing.taken, sent, 0, needed, is_plain)
        count = self._count()
        if count < standing.needed and not is_all:
            return False
        if standing.is_plain and count >= standing.needed:
            self._answer_plain(sent, self._data())
            return True
        return self._answer_by_line(sent, standing.place, self._data())

    def _answer_plain(self, sent: Sent, data: bytes) -> None:
        """Gives each of many lines one answer."""
        standing, count = self._standing, len(sent.lines)
        *answers, rest = data.decode("latin-1").split("\n", count)
        sent.plain = standing.state.line + 1, answers
        state = after_plain(standing.state, sent.data, answers, b"edit " in data)
        self._standing = _Standing(state, standing.taken + len(data) - len(rest), sent, count, 0, True)

    def _answer_by_line(self, sent: Sent, index: int, data: bytes) -> bool:
        """Gives lines their answers one by one, and notes how far it came."""
        standing = self._standing
        state, at, taken, needed = standing.state, 0, standing.taken, 0
        answers = data.decode("latin-1").split("\n")
        there = len(answers) - 1
        del sent.made[index:]
        for line in itertools.islice(sent.lines, index, None):
            passed = state.passes(line)
            if passed is not None:
                state = passed
                sent.made.append(Reply(state.line, state.line, line, ()))
                continue
            needed = at + 1
            if needed > there:
                break
            first = answers[at]
            further = state.further(line, first)
            needed += further if further >= 0 else _to_the_end(answers, at, there)
            if needed > there:
                break
            sent.made.append(Reply(state.line + 1, state.about(first), line, tuple(answers[at:needed])))
            state = state.after(line, first)
            taken += sum(map(len, answers[at:needed])) + needed - at
            at = needed
        index = len(sent.made)
        self._standing = _Standing(state, taken, sent, index, needed - at, False)
        return index == len(sent.lines)

    def _tell(self, sent: Sent) -> None:
        """Lets the tables follow what was answered, and puts the evidence by; a line is told by the one step that puts its evidence by."""
        if self.tables or self.listeners or self._evidence is not None:
            if sent.plain is not None and not sent.made:
                sent.made[:] = sent.replies()
            while operator.length_hint(sent.told):
                self._tell_one(sent, sent.made[-operator.length_hint(sent.told)])
        if sent.keeps is not None and sent.made:
            with contextlib.suppress(RetroError):
                self.tables[sent.keeps] = Table(spoken(sent.made[-1].value, Saved))

    def _tell_one(self, sent: Sent, reply: Reply) -> None:
        if self.listeners:
            self.unheard.append(reply)
        if not reply.answers or reply.answers[0].startswith(("=", "refused")):
            next(sent.told)
            return
        table = self.tables.pop(reply.line.lstrip(b" ").split(b" ", 1)[0].decode("latin-1"), None)
        told = itertools.islice(sent.told, 1)
        if self._evidence is not None:
            self.untold.extend(filter(_IS_EVIDENCE, itertools.chain.from_iterable(map(_ANSWERS, told))))
        else:
            next(told)
        if table is not None:
            with contextlib.suppress(RetroError, LookupError, ValueError):  # an answer that no edit has, which whoever asks for it is told
                if _follows(table, reply):
                    self.tables[table.name] = table

    def hand_on(self) -> None:
        """Calls `evidence` with each line that it was not called with yet. Errors: what it raises; the next call goes on behind that line."""
        while self.untold and self._evidence is not None:
            self._handed.extend(map(self._evidence, map(_POP, (self.untold,))))
        while self.unheard:
            reply = self.unheard.popleft()
            for listener in self.listeners:
                listener(reply)


def pair(sent: Sequence[bytes], written: bytes, status: int) -> Answered:
    """Gives each line of a script its answers among all that was written."""
    talk = Conversation()
    lines = Sent(list(sent), b"\n".join(sent) + b"\n")
    if sent:
        talk.owed.append(lines)
    talk.chunks.append(written)
    rest = talk.rest()
    return Answered(list(lines.replies()), [] if talk.owed else rest, status)


def _to_the_end(answers: Sequence[str], at: int, there: int) -> int:
    """How many lines of a saved timeline come behind its first one, or more than there are where its end has not come."""
    found = words(answers[at].encode("latin-1"))
    least = int(found[6]) if len(found) == 7 and found[6].isdigit() else 0
    try:
        return answers.index("end", at + least + 1, there) - at
    except ValueError:
        return max(least + 1, there - at + 1)


def _follows(table: Table, reply: Reply) -> bool:
    """Lets a table follow an accepted line, and says whether it can: what an undo does to the rows no answer says."""
    said = [word.decode("latin-1") for word in words(reply.line)]
    if len(said) < 2 or said[1] in ("undo", "redo"):
        return False
    table.follow(said[1], said, spoken(value_of(reply.line, reply.answers), Edit).number)
    return True


def spoken(value: object, kind: Type[Spoken]) -> Spoken:
    """A value that has to be of a kind. Errors: OutOfStep where it is not."""
    if not isinstance(value, kind):
        raise OutOfStep("%r is no answer to this line" % (value,))
    return value
