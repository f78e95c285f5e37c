"""A log of any number of timelines, divided among worker processes by the names of the timelines."""

import contextlib
import gc
import itertools
import marshal
import mmap
import os
import re
import signal
import subprocess
import sys
import tempfile
from types import TracebackType
from typing import IO, Any, Iterable, Iterator, List, NamedTuple, Optional, Sequence, Tuple, Type, Union, cast

from .answers import Reply
from .channel import Program, command
from .conversation import Answered, Line, joined, replies_of
from .errors import Ended
from .grammar import lines_of, opens
from .part import Span, read
from .process import lines_within

WORKER = os.path.join(os.path.dirname(os.path.abspath(__file__)), "worker.py")
LEAST = 1 << 16  # bytes of a log for which one more worker is worth its start
PIECE = 1 << 16  # bytes that are looked through at once
MARKS = re.compile(rb"\n( *timeline [^\n]*| *end[ \r]*)(?=\n|\Z)")  # all lines that may begin a block or end one


class Joined(NamedTuple):
    """The answers to a log: where those to each of its ranges stand, what stands behind all of them, and the greatest status."""

    spans: List[Span]
    rest: List[str]
    status: int


def answer_divided(
    lines: Union[Line, Iterable[Line]], program: Optional[Program] = None, processes: Optional[int] = None
) -> Answered:
    """Runs a script of any number of timelines: divided by their names, eight to a process, as many at once as there are processors.

    The answers stand in the order of the script, and are those that one process would give that held them all: what a timeline answers does
    not depend on the others. `status` is the greatest of all; one that a signal has ended counts as 128 and that signal. Where it
    is over 1, no line of `replies` is missing, but some have no answer. Cost: all lines are held in memory, and in temporary files. Errors:
    those of `answer`; OSError where these files have no room; `Ended` where a worker has ended.
    """
    given = list(lines_within(lines))
    data = joined(given) if given else b""
    sent = lines_of(data)
    replies: List[Reply] = []
    with tempfile.TemporaryFile() as log:
        log.write(data)
        log.flush()
        with answers_to(log, False, program, processes) as told, _collecting_later():
            for span in told.spans:
                answers, about = marshal.loads(read(span))
                first = len(replies)
                replies += replies_of(first + 1, sent[first : first + len(answers)], answers)
                for place, other in about.items():
                    replies[first + place] = replies[first + place]._replace(about=first + other + 1)
            return Answered(replies, told.rest, told.status)


@contextlib.contextmanager
def _collecting_later() -> Iterator[None]:
    """Holds back Python's search for objects in circles, which would take longer than making so many that stand in none."""
    was = gc.isenabled()
    gc.disable()
    try:
        yield
    finally:
        if was:
            gc.enable()


@contextlib.contextmanager
def answers_to(log: IO[bytes], as_text: bool, program: Optional[Program] = None, processes: Optional[int] = None) -> Iterator[Joined]:
    """The answers to a log, a file that is read at many places at once: as text, or as `Part.join` says.

    Errors: OSError where there is no such program, or no room for temporary files; `Ended` where a worker has ended.
    """
    ranges = ranges_of(log, processes or os.cpu_count() or 1)
    with contextlib.ExitStack() as opened:
        files = [[opened.enter_context(tempfile.TemporaryFile()).fileno() for _ in ("kept", "script", "written")] for _ in ranges]
        shared = [log.fileno(), *(kept for kept, _, _ in files)]
        workers = [opened.enter_context(Worker([*own, *shared])) for own in files]
        divided = told_by(workers, "divide", [(span, len(ranges)) for span in ranges])
        shares = zip(*(own for _, own in divided))
        answered = told_by(workers, "answer", [(share, [*map(os.fsdecode, command(program)), "run"]) for share in shares])
        answers = zip(*(own for own, _, _ in answered))
        spans = told_by(workers, "join", [(count, own, as_text) for (count, _), own in zip(divided, answers)])
        rest = list(itertools.chain.from_iterable(rest for _, rest, _ in answered))
        yield Joined(spans, rest, max((status for _, _, status in answered), default=0))


class Worker:
    """A process that makes calls of `Part`, with these files. It is ended, with what it runs, where the `with` ends."""

    def __init__(self, files: Sequence[int]) -> None:
        words = [sys.executable, "-I", "-S", *(["-B"] if sys.dont_write_bytecode else []), WORKER, *map(str, files)]
        self._process = subprocess.Popen(words, stdin=subprocess.PIPE, stdout=subprocess.PIPE, start_new_session=True, pass_fds=files)
        self._calls, self._told = cast(IO[bytes], self._process.stdin), cast(IO[bytes], self._process.stdout)

    def __enter__(self) -> "Worker":
        return self

    def __exit__(self, kind: Optional[Type[BaseException]], error: Optional[BaseException], trace: Optional[TracebackType]) -> None:
        self._kill()
        for pipe in (self._calls, self._told):
            with contextlib.suppress(BrokenPipeError):
                pipe.close()
        self._process.wait()

    def call(self, name: str, arguments: Tuple[Any, ...]) -> None:
        """Asks for a call."""
        with contextlib.suppress(BrokenPipeError):  # the worker has ended, as `told` says
            marshal.dump((name, arguments), self._calls)
            self._calls.flush()

    def told(self) -> Any:
        """What the call has given. Errors: OSError, where it had one; `Ended`."""
        try:
            is_given, told = marshal.load(self._told)
        except EOFError:
            self._kill()  # what it ran may go on without it
            raise Ended(self._process.wait()) from None
        if not is_given:
            raise OSError(*told)
        return told

    def _kill(self) -> None:
        if self._process.returncode is None:
            with contextlib.suppress(OSError):  # of processes that have all ended, where a system says so
                os.killpg(self._process.pid, signal.SIGKILL)


def told_by(workers: Sequence[Worker], name: str, arguments: Iterable[Tuple[Any, ...]]) -> List[Any]:
    """What each worker gives where it is called with the arguments beside it, all at once. Errors: those of `Worker.told`."""
    for worker, own in zip(workers, arguments):
        worker.call(name, own)
    return [worker.told() for worker in workers]


def ranges_of(log: IO[bytes], count: int) -> List[Span]:
    """So many ranges of a log, or fewer where it is short."""
    size = os.fstat(log.fileno()).st_size
    if not size:
        return []
    with mmap.mmap(log.fileno(), size, access=mmap.ACCESS_READ) as lines:
        places = cut(lines, max(1, min(count, 1 + size // LEAST)))
    return [(log.fileno(), start, end) for start, end in zip(places, places[1:])]


def cut(lines: Union[bytes, mmap.mmap], count: int) -> List[int]:
    """Where lines are cut into so many ranges of about one size, or fewer: from 0 to the end, no place within a line or a block."""
    places = [0]
    for part in range(1, count + 1):
        place = lines.find(b"\n", max(len(lines) * part // count - 1, places[-1])) + 1 or len(lines)
        if _is_within(lines, places[-1], place):
            place = _behind(lines, place)
        if place > places[-1]:
            places.append(place)
    return places


def _is_within(lines: Union[bytes, mmap.mmap], start: int, place: int) -> bool:
    """Whether a block is open at a line's beginning, where none is at `start`: the last header or `end` between them says so."""
    while place > start:
        piece = max(lines.rfind(b"\n", start, max(place - PIECE, start)) + 1, start)
        for mark in reversed(MARKS.findall(b"\n" + lines[piece:place])):
            if opens(True, [mark]) == opens(False, [mark]):  # it says so whatever stood before it
                return opens(True, [mark])
        place = piece
    return False


def _behind(lines: Union[bytes, mmap.mmap], place: int) -> int:
    """Where the block ends that is open at a line's beginning."""
    for mark in MARKS.finditer(lines, place - 1):
        if not opens(True, [mark[1]]):
            return min(mark.end() + 1, len(lines))
    return len(lines)
