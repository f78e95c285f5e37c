"""A conversation that outlives its process: each accepted line stands in a file before its call returns.

The same script always gives the same answers, so the accepted lines are the state: a journal is a script, which `retro run` reads as it is.
Behind each line stand its answers, as comments. Whoever opens a journal performs it again, and compares.
"""

import collections
import contextlib
import itertools
import logging
import os
import threading
from typing import IO, Callable, Deque, Dict, Generator, Iterable, Iterator, List, NamedTuple, Optional, Sequence, Tuple, TypeVar, Union

from .answers import Reply
from .channel import Program
from .conversation import Line, Sent, bytes_of, joined
from .errors import Ended, OutOfTurn
from .grammar import STEPS, is_header, lines_of, words
from .journal_file import HEADING, Differs, Entry, Full, JournalFile, Unwritten, entries_of, kept
from .process import Retro, lines_within
from .rows import Saved, Table
from .timeline import Timeline
from .whole import answer

INPUT = 2**30  # bytes that a process reads, and that a journal has at the most
OF_AN_ANSWER = 160  # bytes of the longest answer to an edit, as a comment
GROUP = 1000  # lines of a stream that are written at once
ACCEPTED = ("ok", "edit ")  # how the answers to what changes a timeline begin
Looked = TypeVar("Looked")
LOG = logging.getLogger("retro")


class Compacted(NamedTuple):
    """What a compaction did and lost.

    `before`, `after`: bytes of the journal. `steps`: of each timeline how many steps can no longer be undone or redone. `as_pq`: the timelines that
    were a `pqf`, and are held as a `pq` now, with the same answers.
    """

    before: int
    after: int
    steps: Dict[str, int]
    as_pq: Tuple[str, ...]

    @property
    def text(self) -> str:
        """The same in a sentence."""
        lost = ", ".join("%d of %s" % (count, name) for name, count in self.steps.items() if count)
        held = "; held as pq: %s" % ", ".join(self.as_pq) if self.as_pq else ""
        return "%d bytes became %d; steps that can no longer be undone or redone: %s%s" % (self.before, self.after, lost or "none", held)


class _Steps:
    """The timelines of a journal, and how many steps of each can be undone and redone."""

    def __init__(self) -> None:
        self.kinds: Dict[str, str] = {}
        self.done: Dict[str, int] = {}
        self.undone: Dict[str, int] = {}

    def take(self, line: bytes) -> None:
        """Takes an accepted line, or the header of an accepted block."""
        said = [word.decode("ascii") for word in words(line)]
        if said[0] in ("new", "timeline"):
            self.kinds[said[1]], self.done[said[1]], self.undone[said[1]] = said[2], 0, 0
            return
        name, verb = said[0], said[1]
        self.undone[name] = self.undone[name] + 1 if verb == "undo" else self.undone[name] - 1 if verb == "redo" else 0
        self.done[name] = self.done[name] - 1 if verb == "undo" else min(self.done[name] + 1, STEPS)


class Journal(Retro):
    """A `Retro` whose accepted lines stand in a file, and which goes on from there: all calls of `Retro`, and `compact`.

    An edit's call returns when its line is on the disk (`fsync`); with `fsync=False` it is handed to the system alone, and then a program that is
    killed loses nothing, a power cut may. A stream writes a thousand lines at once, and gives their answers when they are on the disk; `group()`
    does so for calls. Opening performs the journal again. A last entry that is not whole was never answered: it is cut off, and stands in
    `cut`. Undone steps, rows' numbers and `pqf` are as they were. Where a process has read too much, or has ended, the next call begins a new
    one and performs the journal in it; a line that was answered by `Ended` was not done.

    `names`: the timelines with their kinds. Errors: `Busy`, `NoJournal`, `Differs`, `Unwritten`, `Full`, those of `Retro`, and OSError where the
    file cannot be opened. Cost: opening performs all lines; a call takes what `fsync` takes.
    """

    def __init__(
        self,
        path: Union[str, "os.PathLike[str]"],
        program: Optional[Program] = None,
        fsync: bool = True,
        most: int = INPUT,
        timeout: Optional[float] = None,
    ) -> None:
        self.path, self.fsync, self.most = os.path.abspath(os.fspath(path)), fsync, most
        self.cut = b""
        self._command, self._patience = program, timeout
        self._writing = threading.RLock()
        self._grouped = 0
        self._failed: Optional[Unwritten] = None
        self._behind: Optional[List[bytes]] = None
        self._file = JournalFile(self.path)
        try:
            self._begin([])
        except BaseException:
            self._file.close()
            raise

    def __enter__(self) -> "Journal":
        return self

    @property
    def names(self) -> Dict[str, str]:
        """The timelines, with the kinds that they were begun with."""
        return dict(self._steps.kinds)

    def _begin(self, held: List[bytes]) -> None:
        """Starts a process, performs the journal in it, and begins the block that was open. What is torn is cut off first.

        `_behind` has the lines of that block, and not None, as long as the process is behind what was answered: then the next call begins anew.
        """
        listeners = self.listeners if hasattr(self, "_talk") else []
        self._behind = held
        self._file.settle()
        torn = self._started()
        if torn is not None:
            super().kill()
            self._cut_off(torn)
            self._started()
        for line in held:
            with self._lock:
                self._keep(super()._exchange([line], line + b"\n", False).replies())
        self.listeners[:] = listeners
        self._behind = None

    def _started(self) -> Optional[int]:
        """Starts a process and performs the journal in it. Gives the byte from which on it is torn, and then the process is of no use."""
        super().__init__(self._command, timeout=self._patience)
        self._steps, self._sent, self._length = _Steps(), 0, len(HEADING)
        self._held: List[bytes] = []
        try:
            torn = self._perform_all()
        except BaseException:
            super().kill()
            raise
        self._on_disk = self._length
        return torn

    def _perform_all(self) -> Optional[int]:
        """Performs what the file has; gives the byte from which on it is torn. Errors: `Differs`."""
        waiting: Deque[Entry] = collections.deque()
        torn: Optional[int] = None

        def sent(file: IO[bytes]) -> Iterator[bytes]:
            for entry in entries_of(file):
                waiting.append(entry)
                yield from () if entry.torn else entry.lines

        with self._file.read() as file, contextlib.closing(super().stream(sent(file))) as replies:
            for reply in replies:
                self._sent += len(reply.line) + 1
                if reply.answers:
                    torn = self._compare(waiting.popleft(), reply)
        return waiting[0].start if waiting else torn

    def _compare(self, entry: Entry, reply: Reply) -> Optional[int]:
        """Takes an entry that was performed. Gives its first byte where its answers were cut off. Errors: `Differs`."""
        if reply.answers != entry.answers:
            if entry.last and entry.answers == reply.answers[: len(entry.answers)]:
                return entry.start
            raise Differs(self.path, entry.line, entry.lines[0].decode("utf-8", "backslashreplace"), entry.answers, reply.answers)
        self._length = entry.end
        if reply.answers[0].startswith(ACCEPTED):
            self._steps.take(entry.lines[0])
        return None

    def _cut_off(self, start: int) -> None:
        """Takes the torn end off the file."""
        with self._file.read(start) as file:
            self.cut = file.read()
        LOG.warning("%s: a last entry that was not whole was cut off: %r", self.path, self.cut)
        self._file.cut(start)

    def _room(self, lines: Sequence[bytes]) -> None:
        """Sees that these lines can be sent and kept. Begins a new process where this one has read too much, has ended, or was interrupted."""
        if self._failed is not None:
            raise self._failed
        edits = [line for line in lines if not _asks(words(line))]
        count = sum(map(len, lines)) + len(lines)
        if edits and self._length + sum(len(line) + OF_AN_ANSWER for line in edits + self._held) > self.most:
            raise Full(self.path, self.most)
        if self._file.is_open and (self._behind is not None or self.status is not None or self._sent + count > self.most):
            super().kill()
            self._begin(self._held if self._behind is None else self._behind)
            if self._sent + count > self.most:
                raise Full(self.path, self.most)

    def _exchange(self, lines: List[bytes], data: bytes, is_whole: bool, keeps: Optional[str] = None) -> Sent:
        """Sends lines, and writes what was accepted of them. Where that does not come to its end, none of them counts."""
        self._behind = self._held
        try:
            sent = super()._exchange(lines, data, is_whole, keeps)
        except OutOfTurn:
            self._behind = None  # nothing was sent
            raise
        self._keep(sent.replies())
        self._behind = None
        return sent

    def _exchange_one(self, line: bytes) -> Optional[Reply]:
        """Nothing: every line goes by `_exchange`, which keeps it."""
        return None

    def _send(self, line: Line, is_whole: bool) -> Reply:
        with self._writing:
            self._room([bytes_of(line)])
            return super()._send(line, is_whole)

    def load(self, saved: Union[Saved, str], name: Optional[str] = None) -> Timeline:
        """Loads a saved timeline, as `Retro.load` does."""
        saved = Saved.read(saved) if isinstance(saved, str) else saved
        with self._writing:
            self._room(lines_of(saved.text.encode("utf-8", "surrogateescape")))
            return super().load(saved, name)

    def look(self, name: str, how: Callable[[Table], Looked]) -> Looked:
        """What a function sees in the rows of a timeline, as `Retro.look` does."""
        with self._writing:
            self._room([])
            return super().look(name, how)

    def stream(self, lines: Union[Line, Iterable[Line]]) -> Generator[Reply, None, None]:
        """Sends many lines, a thousand at once: their answers are given when what was accepted of them is on the disk.

        Errors: those of the class, at the first line that has one; `Ended` says that none of a thousand lines was done.
        """
        source = lines_within(lines)
        while True:
            group = [bytes_of(line) for line in itertools.islice(source, GROUP)]
            if not group:
                return
            with self._writing:
                self._room(group)
                self._enter()
                with self._lock:
                    sent = self._exchange(group, joined(group), False)
                self._hand_on()
            yield from sent.replies()

    @contextlib.contextmanager
    def group(self) -> Iterator[None]:
        """Lines that are sent within are on the disk at its end, all of them by one `fsync`. Errors: `Unwritten`, and then none of them counts."""
        with self._writing:
            self._grouped += 1
            try:
                yield
            finally:
                self._grouped -= 1
                if self._file.is_open:
                    self._append(b"", not self._grouped)

    def _take(self, reply: Reply) -> List[bytes]:
        """What is written of a line with its answers: nothing, or the line, or at the end of a block all of it."""
        self._sent += len(reply.line) + 1
        said = words(reply.line)
        if self._held or (not reply.answers and is_header(said)):
            if said and not said[0].startswith(b";"):
                self._held.append(reply.line)
            if not reply.answers:
                return []
            entry, self._held = self._held, []
        else:
            entry = [reply.line]
        if not reply.answers or not reply.answers[0].startswith(ACCEPTED):
            return []
        self._steps.take(entry[0])
        return entry + [b"; " + answer.encode("ascii") for answer in reply.answers]

    def _keep(self, replies: Iterable[Reply]) -> None:
        """Writes what was accepted."""
        written = [line + b"\n" for reply in replies for line in self._take(reply)]
        if written:
            self._append(b"".join(written), not self._grouped)

    def _append(self, data: bytes, is_synced: bool) -> None:
        """Writes at the end, and waits for the disk, or not yet. Errors: `Unwritten`, and then the file has what was on the disk before."""
        try:
            self._file.append(data, is_synced and self.fsync)
        except OSError as reason:
            self._failed = Unwritten(self.path, str(reason))
            with contextlib.suppress(OSError):
                self._file.cut(self._on_disk)
            self._kill()
            self._file.close()
            raise self._failed from reason
        self._length += len(data)
        if is_synced:
            self._on_disk = self._length

    def compact(self) -> Compacted:
        """Writes the journal anew, as the timelines that stand now: rows keep their numbers, and no step of before can be undone.

        The new file takes the place of the old one when it is whole. Cost: all rows. Errors: those of the class; ValueError within a block;
        OSError where it cannot be written, and then the journal is as it was.
        """
        with self._writing:
            if self._held:
                raise ValueError("a block is open")
            self._room([])
            before, old = self._length, self._steps
            saves = [self.save(name).text for name in old.kinds]
            answered = answer(lines_of("".join(saves).encode("ascii")), self._command)
            if answered.status != 0:
                raise Ended(answered.status)
            self._behind = []  # whatever stops this, the next call begins with the file that stands at the path then
            try:
                self._file.replace(HEADING + b"".join(map(kept, answered.replies)))
            finally:
                self._file.settle()
            super().kill()
            self._begin([])
            steps = {name: old.done[name] + old.undone[name] for name in old.kinds}
            return Compacted(before, self._length, steps, tuple(name for name, kind in old.kinds.items() if kind == "pqf"))

    def end(self) -> int:
        """Ends the process and closes the journal, for another writer to open. A second call does no more. Errors: those of `Retro.end`."""
        with self._writing:
            try:
                if self._file.is_open and self._on_disk < self._length:
                    self._append(b"", True)
                return super().end()
            finally:
                self._file.close()


def _asks(said: List[bytes]) -> bool:
    """Whether a line outside a block changes nothing, whatever it is answered."""
    return not said or said[0].startswith(b";") or said[0] == b"save" or said[1:2] in ([b"ask"], [b"fate"])
