"""A conversation with `retro run`, which nobody gets out of step: one line at a time, or many."""

import collections
import itertools
import threading
from types import TracebackType
from typing import Callable, Generator, Iterable, Iterator, List, Literal, Optional, Sequence, Type, TypeVar, Union, cast, overload

from .answers import Reply, Value
from .channel import Channel
from .conversation import Line, Sent, bytes_of, joined, spoken
from .errors import Ended, OutOfStep, Refused, TimedOut
from .grammar import lines_of
from .kinds import KINDS, Deque, Dict, PriorityQueue, Queue, Stack
from .rows import Saved, Table
from .timeline import Timeline

Looked = TypeVar("Looked")
BATCH = 1000  # lines of a stream that are sent at once
AHEAD = 4  # batches whose answers may be outstanding


def lines_within(lines: Union[Line, Iterable[Line]]) -> Iterator[Line]:
    """The lines of a text, of an open file, or of any other iterable, which gives each without its line feed."""
    if isinstance(lines, str):
        lines = lines.encode("utf-8", "surrogateescape")
    if isinstance(lines, (bytes, bytearray, memoryview)):
        return iter(lines_of(bytes(lines)))
    if hasattr(lines, "readline"):
        return (line[:-1] if line[-1:] in ("\n", b"\n") else line for line in cast(Iterable[Line], lines))
    return iter(lines)


def check_block(lines: Sequence[bytes], last: Reply) -> None:
    """Errors: `Refused`, where the last line of a block was; it has the line and the text of the row that is bad."""
    if last.refused:
        refused = Refused(last.answers[0], last.about)
        refused.text = lines[refused.row or 0].decode("utf-8", "surrogateescape")
        raise refused


class Retro(Channel):
    """A process of `retro run` with its timelines.

    `program` is one word or a list of them (`["ssh", "host", "retro"]`), else `$RETRO` or `retro`. With `follow` the process is `retro follow`,
    and with a name in it `retro follow NAME`. `evidence` is called with each line of evidence, as `retro check` reads it; `listeners`
    are called with every line and its answers. `timeout` is how many seconds a call waits while the program stands still, before it raises
    `TimedOut`. A process holds eight timelines, and reads 2^30 bytes. Used in a `with`, it is ended there; one that is dropped is ended then.

    Threads may share it: each line and each batch of a stream has its own answers. What an interruption has left unread is read before the next
    line. After `Ended` nothing more can be asked: what was sent without an answer may have been done or not. `status` is that of the program
    once it has ended.
    """

    def __enter__(self) -> "Retro":
        return self

    def __exit__(self, kind: Optional[Type[BaseException]], error: Optional[BaseException], trace: Optional[TracebackType]) -> None:
        try:
            self.end()
        except TimedOut:
            if error is None:
                raise

    def __repr__(self) -> str:
        said = "process %d" % self._process.pid if self.status is None else "ended with status %d" % self.status
        return "<Retro: %s, %d lines answered>" % (said, self._talk.line)

    def __reduce__(self) -> str:
        raise TypeError("a conversation with a process cannot be pickled")

    def send(self, line: Line) -> Reply:
        """Sends one line and gives its answers, however many they are: none to a comment, and none to a line within a block.

        Cost: a way to the program and back. Errors: ValueError where the line has a line feed; `OutOfTurn` where a stream is still read; `Ended`;
        `TimedOut`.
        """
        return self._send(line, False)

    def _send(self, line: Line, is_whole: bool) -> Reply:
        sent = bytes_of(line)
        self._enter()
        with self._lock:
            reply = self._exchange_one(sent) or self._exchange([sent], sent + b"\n", is_whole).last()
        self._hand_on()
        return reply

    def line(self, line: Line) -> Value:
        """Sends one line and gives its answers as a value, as `value_of` says. Errors: those of `send`, and `Refused`."""
        return self._send(line, False).value

    def call(self, line: Line) -> Value:
        """Sends one line that has an answer, as all calls of timelines do. Errors: those of `line`; `OutOfTurn` where a block is open."""
        return self._send(line, True).value

    def stream(self, lines: Union[Line, Iterable[Line]]) -> Generator[Reply, None, None]:
        """Sends many lines without waiting, and gives each with its answers, in their order; a refused one is a `Reply` as any other.

        `lines` is a text, an open file, or any other iterable of lines. It is a generator: where nobody iterates over it nothing is sent, so take
        `list(retro.stream(lines))` where the answers do not matter. Lines are taken some thousands ahead of the answers, so none may depend on
        an answer of the same stream. Where the caller leaves before the end, or the lines themselves end with an error, the answers to what was
        sent are read before the next line, and not given. Errors: those of `send`; of a line that can be none, before its thousand is sent.
        """
        source, me = lines_within(lines), threading.get_ident()
        self._enter()
        with self._lock:
            self._ready(False)
        outstanding: "collections.deque[Sent]" = collections.deque()
        try:
            self._streams.add(me)
            batch: List[Line] = [b""]
            while batch:
                batch = list(itertools.islice(source, BATCH))
                if batch:
                    outstanding.append(self._send_ahead(joined(batch)))
                while outstanding and (len(outstanding) > AHEAD or not batch):
                    oldest = outstanding.popleft()
                    ended = self._await(oldest)
                    yield from oldest.replies()
                    if ended is not None:
                        raise ended
        finally:
            self._streams.discard(me)

    def confirm(self, name: str = "no-such-timeline") -> None:
        """Asks a timeline that does not exist, and compares the one answer that there can be: whether all is in step.

        It is for tests and for the doubtful: a refused line makes the status at the end 1. Errors: `OutOfStep`; those of `send`.
        """
        reply = self._send("%s ask size" % name, True)
        if reply.answers != ("refused no timeline " + name,):
            raise OutOfStep("%r is answered by %r" % (reply.line, reply.answers))

    @overload
    def new(self, name: str, kind: Literal["queue"]) -> Queue: ...

    @overload
    def new(self, name: str, kind: Literal["stack"]) -> Stack: ...

    @overload
    def new(self, name: str, kind: Literal["deque"]) -> Deque: ...

    @overload
    def new(self, name: str, kind: Literal["dict"]) -> Dict: ...

    @overload
    def new(self, name: str, kind: Literal["pq", "pqf"]) -> PriorityQueue: ...

    @overload
    def new(self, name: str, kind: str) -> Timeline: ...

    def new(self, name: str, kind: str) -> Timeline:
        """A timeline without rows, of the type of its kind; `pqf` is a priority queue held in the other way. Errors: `Refused`, `Ended`."""
        self.call("new %s %s" % (name, kind))
        return self._timeline(name, "pq" if kind == "pqf" else kind)

    def _timeline(self, name: str, kind: str) -> Timeline:
        return KINDS.get(kind, Timeline)(self, name, kind)

    def load(self, saved: Union[Saved, str], name: Optional[str] = None) -> Timeline:
        """Loads a saved timeline, or the text of one, which may have comments, under its name or another one.

        Errors: ValueError where the text is not a whole block, before anything is sent; `Refused`; `Ended`.
        """
        saved = Saved.read(saved) if isinstance(saved, str) else saved
        saved = saved.renamed(name) if name else saved
        data = saved.text.encode("utf-8", "surrogateescape")
        lines = data.split(b"\n")[:-1]
        self._enter()
        with self._lock:
            last = self._exchange(lines, data, True).last()
        self._hand_on()
        check_block(lines, last)
        return self._timeline(saved.name, saved.kind)

    def timeline(self, name: str) -> Timeline:
        """A timeline that is there already. Errors: `Refused`, `Ended`."""
        return self._timeline(name, self.save(name).kind)

    def save(self, name: str) -> Saved:
        """A timeline as it stands. Cost: its rows. Errors: `Refused`, `Ended`."""
        return spoken(self.call("save %s" % name), Saved)

    def table(self, name: str) -> Table:
        """The rows of a timeline: read by one `save`, and from then on kept by what its edits answer.

        An undo or a redo makes the next call read it again. Errors: `Refused`, `Ended`.
        """
        return self.look(name, lambda table: table)

    def look(self, name: str, how: Callable[[Table], Looked]) -> Looked:
        """What a function, which makes no call itself, sees in the rows of a timeline while no thread can edit them. Errors: `Refused`, `Ended`."""
        self._enter()
        with self._lock:
            self._catch_up()
            if name not in self._talk.tables:
                line = b"save " + bytes_of(name)
                spoken(self._exchange([line], line + b"\n", True, name).last().value, Saved)
            return how(self._talk.tables[name])

    def end(self) -> int:
        """Ends the input and gives the status of the program; `reports` has what it wrote behind its last answer. A second call does no more.

        Errors: `TimedOut`, where the program stands still; it is killed then.
        """
        self._enter()
        with self._lock:
            try:
                self._end()
            except Ended:
                pass
            except TimedOut:
                self._kill()
                raise
        self._hand_on()
        return cast(int, self.status)

    def kill(self) -> None:
        """Ends the program at once, and gives up what it has not answered: whoever waits for that, also in another thread, has `Ended`.

        A second call does no more.
        """
        self._check_process()
        self._stop()
        if not self._lock._is_owned():
            with self._lock:
                self._kill()
