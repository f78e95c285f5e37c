"""A process of the program with its pipes: lines go out, answers come in, and each finds the line that it belongs to."""

import contextlib
import logging
import os
import select
import signal
import subprocess
import threading
import weakref
from typing import Any, Callable, List, Optional, Sequence, Set, Union, cast

from .answers import Reply
from .conversation import Conversation, Sent
from .errors import Ended, OutOfTurn, TimedOut

Program = Union[str, "os.PathLike[str]", Sequence[str]]
SIZE = 1 << 16  # bytes of a read
FEW = 1 << 12  # bytes of a read where one line is awaited
PATIENCE = 1.0  # seconds that a program which was dropped has to end by itself

log = logging.getLogger("retro")


def command(program: Optional[Program]) -> List[str]:
    """The words of the program: those that are given, one or a list, or what the environment says in `RETRO`, or `retro` on the path."""
    if program is None:
        program = os.environ.get("RETRO", "retro")
    return [os.fspath(program)] if isinstance(program, (str, os.PathLike)) else list(program)


def _kill(process: "subprocess.Popen[bytes]") -> None:
    """Kills a program with all that it has started: it has a process group of its own."""
    if process.poll() is None:
        with contextlib.suppress(ProcessLookupError):
            os.killpg(process.pid, signal.SIGKILL)


def _finish(process: "subprocess.Popen[bytes]", owner: int) -> None:
    """Ends a program that nobody has ended; in a process that was forked off it does nothing."""
    if os.getpid() != owner or process.returncode is not None:
        return
    for pipe in (process.stdin, process.stdout):
        if pipe is not None:
            pipe.close()
    try:
        process.wait(PATIENCE)
    except subprocess.TimeoutExpired:
        _kill(process)
        process.wait()
    log.info("process %d was dropped, and ended with status %d", process.pid, process.returncode)


class Channel:
    """A program that runs, and what was said. `Retro` says what its arguments mean.

    Every public call of `Retro` is made under the lock, and leaves it in order wherever it is interrupted.
    """

    def __init__(
        self,
        program: Optional[Program] = None,
        follow: Union[bool, str] = False,
        evidence: Optional[Callable[[str], object]] = None,
        timeout: Optional[float] = None,
    ) -> None:
        said = command(program) + ["follow" if follow else "run"] + ([follow] if isinstance(follow, str) else [])
        self.program, self.timeout = program, timeout
        self.status: Optional[int] = None
        self.reports: List[str] = []
        self._talk = Conversation(evidence)
        self._lock: Any = threading.RLock()
        self._telling = threading.RLock()
        self._streams: Set[int] = set()
        self._speaker = 0
        self._owner = os.getpid()
        self._process = subprocess.Popen(said, bufsize=0, stdin=subprocess.PIPE, stdout=subprocess.PIPE, start_new_session=True)
        self._finalizer = weakref.finalize(self, _finish, self._process, self._owner)
        self._to, self._from = cast(Any, self._process.stdin).fileno(), cast(Any, self._process.stdout).fileno()
        os.set_blocking(self._to, False)
        _living.add(self)
        log.info("process %d: %s", self._process.pid, " ".join(said))

    @property
    def listeners(self) -> List[Callable[[Reply], object]]:
        """What is called with every line and its answers, to be added to and taken from."""
        return self._talk.listeners

    def _enter(self) -> None:
        """Errors: OutOfTurn where this process or this thread is in no place for a call."""
        self._check_process()
        if self._lock._is_owned():  # as `threading.Condition` asks it: taking the lock and owning it are one step
            raise OutOfTurn("another call of this thread is within a line")

    def _check_process(self) -> None:
        if os.getpid() != self._owner:
            raise OutOfTurn("the conversation belongs to the process %d, from which this one was forked" % self._owner)

    def _check_end(self) -> None:
        """Errors: Ended; an end that was interrupted is made first."""
        if self._to < 0 and self.status is None:
            self._end()
        if self.status is not None:
            raise Ended(self.status)

    def _ready(self, is_whole: bool) -> None:
        """Whether a line can be sent now, of a call that may stand within a block or not. Errors: Ended; OutOfTurn."""
        me = threading.get_ident()
        self._check_end()
        if me in self._streams:
            raise OutOfTurn("the answers of a stream are not read yet")
        self._talk.forget_unwritten()
        if self._talk.is_within_a_block and (is_whole or me != self._speaker):
            raise OutOfTurn("a block is open: this call would be a line of it")
        self._speaker = me

    def _wait(self, is_writing: bool) -> bool:
        """Waits until something can be read or written, and says whether something can be read. Errors: TimedOut."""
        waiting = select.poll()
        waiting.register(self._from, select.POLLIN)
        if is_writing:
            waiting.register(self._to, select.POLLOUT)
        found = waiting.poll(None if self.timeout is None else self.timeout * 1000)
        if not found and self.timeout is not None:
            raise TimedOut(self.timeout)
        return any(place == self._from for place, _ in found)

    def _is_written(self) -> bool:
        """Writes what the program takes now, and says whether that is all."""
        for sent in self._talk.owed:
            rest = sent.rest
            while rest:
                try:
                    sent.counts.extend(map(os.write, (self._to,), (rest,)))
                except BlockingIOError:
                    return False
                except BrokenPipeError:
                    return True  # the program has ended: whoever reads sees that no answer comes
                rest = sent.rest
        return True

    def _read(self) -> None:
        """Reads once, and gives what has come to its lines. Errors: Ended, where nothing more will come."""
        chunks = self._talk.chunks
        chunks.extend(map(os.read, (self._from,), (SIZE,)))
        if not chunks[-1]:
            self._settle_status()
        self._talk.settle()

    def _settle_status(self) -> None:
        self._talk.settle(True)
        self._close_input()
        try:
            status = self._process.wait(self.timeout)
        except subprocess.TimeoutExpired as late:
            raise TimedOut(late.timeout) from None
        if not self._talk.owed:
            self.reports = self._talk.rest()
        self.status = status
        self._from = -1
        cast(Any, self._process.stdout).close()
        log.info("process %d ended with status %d", self._process.pid, status)
        raise Ended(status)

    def _close_input(self) -> None:
        self._to = -1
        cast(Any, self._process.stdin).close()

    def _push(self, lines: List[bytes], data: bytes, keeps: Optional[str] = None) -> Sent:
        """Notes lines and writes them; what the program answers meanwhile is read."""
        sent = self._talk.note(lines, data, keeps)
        self._flush()
        return sent

    def _flush(self) -> None:
        while not self._is_written():
            if self._wait(True):
                self._read()

    def _pull(self, sent: Sent) -> None:
        """Reads until these lines are answered."""
        self._talk.settle()
        while not sent.is_done:
            if self.timeout is not None:
                self._wait(False)
            self._read()

    def _exchange_one(self, line: bytes) -> Optional[Reply]:
        """Sends a line and reads its answer by one write and one read, where that is all; the general way goes on behind it. The lock is held."""
        if self.timeout is not None or self._to < 0 or self._streams:
            return None
        sent = self._talk.note_one(line)
        if sent is None:
            return None
        if self._is_written():
            self._talk.chunks.extend(map(os.read, (self._from,), (FEW,)))
            if self._talk.chunks[0]:
                reply = self._talk.settle_one(sent)
                if reply is not None:
                    return reply
        self._flush()
        self._pull(sent)
        return sent.last()

    def _exchange(self, lines: List[bytes], data: bytes, is_whole: bool, keeps: Optional[str] = None) -> Sent:
        """Sends lines and reads their answers. The lock is held."""
        self._ready(is_whole)
        sent = self._push(lines, data, keeps)
        self._pull(sent)
        return sent

    def _catch_up(self) -> None:
        """Reads all that is owed, so that the tables have every edit. The lock is held."""
        self._talk.forget_unwritten()
        if self._talk.owed and self.status is None:
            self._flush()
            self._pull(self._talk.owed[-1])

    def _hand_on(self) -> None:
        if self._talk.untold or self._talk.unheard:
            with self._telling:
                self._talk.hand_on()

    def _send_ahead(self, data: bytes) -> Sent:
        """Writes a batch of a stream, and leaves its answers for later."""
        self._enter()
        with self._lock:
            self._check_end()
            return self._push(data.split(b"\n")[:-1], data)

    def _await(self, sent: Sent) -> Optional[Ended]:
        """Reads until a batch is answered, or says that the program has ended before."""
        self._enter()
        try:
            with self._lock:
                if self.status is not None and not sent.is_done:
                    return Ended(self.status)
                self._pull(sent)
        except Ended as ended:
            return ended
        finally:
            self._hand_on()
        return None

    def _end(self) -> None:
        if self.status is not None:
            return
        if self._to >= 0:
            self._talk.forget_unwritten()
            self._flush()
            self._close_input()
        while True:
            if self.timeout is not None:
                self._wait(False)
            self._read()

    def _stop(self) -> None:
        """Kills the program, and leaves the rest to whoever holds the lock."""
        if self.status is None:
            _kill(self._process)

    def _kill(self) -> None:
        if self.status is None:
            self._stop()
            self._close_input()
            self.status = self._process.wait()
            self._from = -1
            cast(Any, self._process.stdout).close()
            log.info("process %d was killed", self._process.pid)


_living: "weakref.WeakSet[Channel]" = weakref.WeakSet()


def _leave() -> None:
    """In a process that was forked off: closes its copies of the pipes, so that a program still sees the end of its input."""
    for channel in list(_living):
        cast(Any, channel._process.stdin).close()
        cast(Any, channel._process.stdout).close()


if hasattr(os, "register_at_fork"):
    os.register_at_fork(after_in_child=_leave)
