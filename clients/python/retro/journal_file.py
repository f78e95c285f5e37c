"""The file of a journal: its entries, its heading, its lock, and what can be wrong with it."""

import collections
import contextlib
import itertools
import os
import time
import weakref
from typing import IO, Iterable, Iterator, List, NamedTuple, Tuple

from .answers import Reply
from .errors import RetroError
from .files import sync_folder
from .grammar import is_header, words

try:
    import fcntl
except ImportError:  # a system without such locks
    fcntl = None  # type: ignore[assignment]

PATIENCE = 2.0  # seconds for which another writer may hold a journal before it counts as one
HEADING = b"; a journal of retro: accepted lines, each with its answers behind it\n"


class JournalError(RetroError):
    """What a journal cannot do."""


class Busy(JournalError):
    """Another writer has the journal open."""

    def __init__(self, path: str) -> None:
        super().__init__(path)
        self.path = path

    def __str__(self) -> str:
        return "%s: another writer has it open" % self.path


class Differs(JournalError):
    """A journal whose answers are not those that its lines give: `line` of the file, `kept` that stand there, `told` by the program."""

    def __init__(self, path: str, line: int, text: str, kept: Tuple[str, ...], told: Tuple[str, ...]) -> None:
        super().__init__(path, line, text, kept, told)
        self.path, self.line, self.text, self.kept, self.told = path, line, text, kept, told

    def __str__(self) -> str:
        kept, told = " / ".join(self.kept) or "nothing", " / ".join(self.told) or "nothing"
        return "%s, line %d: %r was answered %s and is answered %s" % (self.path, self.line, self.text, kept, told)


class NoJournal(JournalError):
    """A file that is none, and stays as it is."""

    def __init__(self, path: str) -> None:
        super().__init__(path)
        self.path = path

    def __str__(self) -> str:
        return "%s is no journal: it does not begin with %r" % (self.path, HEADING.decode("ascii"))


class Unwritten(JournalError):
    """A line was accepted and could not be written, so it does not count. The journal is closed: open it anew when the `reason` is gone."""

    def __init__(self, path: str, reason: str) -> None:
        super().__init__(path, reason)
        self.path, self.reason = path, reason

    def __str__(self) -> str:
        return "%s cannot be written: %s" % (self.path, self.reason)


class Full(JournalError):
    """The lines would be more than a process reads; nothing was sent. `compact()` makes room."""

    def __init__(self, path: str, most: int) -> None:
        super().__init__(path, most)
        self.path, self.most = path, most

    def __str__(self) -> str:
        return "%s would have over %d bytes: compact() makes room" % (self.path, self.most)


class Entry(NamedTuple):
    """A line of a journal, or a block of lines, with its answers.

    `line`: the number of its first line. `start`, `end`: the bytes of the file that it is. `last`: whether nothing stands behind it. `torn`:
    whether its last line, or the end of its block, was cut off.
    """

    line: int
    lines: Tuple[bytes, ...]
    answers: Tuple[str, ...]
    start: int
    end: int
    last: bool
    torn: bool


def entries_of(file: Iterable[bytes]) -> Iterator[Entry]:
    """The entries of a journal, whose lines `file` gives with their line feeds."""
    lines: List[bytes] = []
    answers: List[str] = []
    number = first = start = end = 0
    within = torn = False
    for raw in file:
        number += 1
        line, torn = raw.rstrip(b"\n"), not raw.endswith(b"\n")
        said = words(line)
        if within:
            lines.append(line)
            within = said != [b"end"]
        elif said and not said[0].startswith(b";"):
            if lines:
                yield Entry(first, tuple(lines), tuple(answers), start, end, False, False)
            lines, answers, first, start = [line], [], number, end
            within = is_header(said)
        elif lines and said:
            answers.append(line[line.index(b";") + 1 :].strip().decode("ascii", "backslashreplace"))
        elif torn:
            start = end
        end += len(raw)
    if lines or torn:
        yield Entry(first, tuple(lines), tuple(answers), start, end, True, torn or within)


def kept(reply: Reply) -> bytes:
    """A line with its answers, as they stand in a journal."""
    return b"".join(line + b"\n" for line in (reply.line, *(b"; " + answer.encode("ascii") for answer in reply.answers)))


class JournalFile:
    """The file of a journal, open and locked for its one writer; it is let go where this is dropped, and in a process that is forked off.

    While it is written anew there are two. Whatever stops that, `settle` keeps the one that stands at the path. A file is open in `_files` or not
    at all, wherever a call is interrupted: one that nobody knows of would stay locked as long as the process lives.
    """

    def __init__(self, path: str) -> None:
        self.path = path
        self._files: List[int] = []
        weakref.finalize(self, _close, self._files)
        _open.add(self)
        _locked(path, self._files)

    @property
    def is_open(self) -> bool:
        """Whether it can be written to."""
        return bool(self._files)

    def read(self, start: int = 0) -> IO[bytes]:
        """What stands in it from a byte on, until it is closed or read anew."""
        file = open(self._files[0], "rb", closefd=False)
        file.seek(start)
        return file

    def append(self, data: bytes, is_synced: bool) -> None:
        """Writes at the end, and waits for the disk where that is asked for. Errors: OSError."""
        write(self._files[0], data)
        if is_synced:
            os.fsync(self._files[0])

    def cut(self, length: int) -> None:
        """Takes away what stands behind so many bytes. Errors: OSError."""
        os.ftruncate(self._files[0], length)
        os.fsync(self._files[0])

    def replace(self, data: bytes) -> None:
        """Writes another file beside this one, and puts it in its place when it is whole. Errors: OSError; behind it stands `settle`."""
        beside = self.path + ".new"
        with contextlib.suppress(FileNotFoundError):
            os.unlink(beside)  # one that was left when its writer was killed
        flags = os.O_RDWR | os.O_CREAT | os.O_EXCL | os.O_APPEND
        self._files.extend(map(os.open, (beside,), (flags,), (os.stat(self.path).st_mode & 0o777,)))
        _lock(self._files[1], beside)
        write(self._files[1], data)
        os.fsync(self._files[1])
        os.replace(beside, self.path)
        sync_folder(self.path)

    def settle(self) -> None:
        """Keeps of two files the one that stands at the path."""
        if len(self._files) > 1:
            if os.path.samestat(os.fstat(self._files[1]), os.stat(self.path)):
                self._files.reverse()
            else:
                with contextlib.suppress(FileNotFoundError):
                    os.unlink(self.path + ".new")
            _close(self._files, 1)

    def close(self) -> None:
        """Lets it go, for another writer to open. A second call does no more."""
        _close(self._files)


_open: "weakref.WeakSet[JournalFile]" = weakref.WeakSet()


def _close(files: List[int], kept: int = 0) -> None:
    """Closes all but the first few, each in one step of the interpreter with its leaving the list."""
    collections.deque(map(os.close, map(files.pop, itertools.repeat(-1, len(files) - kept))), 0)


def _leave() -> None:
    """In a process that was forked off: lets the files go, which would stay locked as long as that process lives."""
    for file in list(_open):
        file.close()


if hasattr(os, "register_at_fork"):
    os.register_at_fork(after_in_child=_leave)


def write(file: int, data: bytes) -> None:
    """Writes all of it. Errors: OSError."""
    at = 0
    while at < len(data):
        at += os.write(file, data[at:])


def _locked(path: str, files: List[int]) -> None:
    """Opens a journal for the one who may write; where there is none it is made. Errors: `Busy`; `NoJournal`; OSError."""
    while True:
        files.extend(map(os.open, (path,), (os.O_RDWR | os.O_CREAT | os.O_APPEND,), (0o666,)))
        try:
            _lock(files[0], path)
            if os.path.samestat(os.fstat(files[0]), os.stat(path)):
                _see_heading(files[0], path)
                return
        except FileNotFoundError:
            pass  # it was renamed away between the two looks at it
        except BaseException:
            _close(files)
            raise
        _close(files)


def _lock(file: int, path: str) -> None:
    """Waits a moment, since what a killed writer had just started may hold its files until it has begun. Errors: `Busy`."""
    until = time.monotonic() + PATIENCE
    while fcntl is not None:
        try:
            fcntl.flock(file, fcntl.LOCK_EX | fcntl.LOCK_NB)
            return
        except BlockingIOError:
            if time.monotonic() > until:
                raise Busy(path) from None
            time.sleep(PATIENCE / 100)


def _see_heading(file: int, path: str) -> None:
    """Writes the heading of a new journal, also where one was begun and not finished. Errors: `NoJournal`; OSError."""
    began = os.pread(file, len(HEADING), 0)
    if began == HEADING:
        return
    if not HEADING.startswith(began):
        raise NoJournal(path)
    os.ftruncate(file, 0)
    write(file, HEADING)
    os.fsync(file)
    sync_folder(path)
