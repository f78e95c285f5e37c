"""The same conversation over `asyncio`: each call is awaited, and any number of tasks may share a program."""

import asyncio
import collections
import itertools
import os
import signal
from types import TracebackType
from typing import (
    Any, AsyncGenerator, AsyncIterable, AsyncIterator, Callable, Deque, Iterable, Iterator, List, Literal, Optional, Tuple, Type, TypeVar, Union, cast,
    overload,
)

from .answers import Reply, Value
from .asynchronous_kinds import KINDS, AsyncDeque, AsyncDict, AsyncPriorityQueue, AsyncQueue, AsyncStack
from .asynchronous_timeline import AsyncTimeline
from .channel import SIZE, Program, command, log
from .conversation import Conversation, Line, Sent, bytes_of, joined, spoken
from .errors import Ended, OutOfStep, OutOfTurn, TimedOut
from .process import AHEAD, BATCH, check_block, lines_within
from .rows import Saved, Table

Looked = TypeVar("Looked")


class AsyncRetro:
    """A process of `retro run` with its timelines, over `asyncio`.

    Its arguments and its calls are those of `Retro`. `async with AsyncRetro() as retro` starts the program and ends it; without, `start` and `end`
    do. A task that is cancelled within a call leaves its line done or not; its answers are read, and every other line has its own. The calls of
    one task in a row are sent in their order.
    """

    def __init__(
        self,
        program: Optional[Program] = None,
        follow: Union[bool, str] = False,
        evidence: Optional[Callable[[str], object]] = None,
        timeout: Optional[float] = None,
    ) -> None:
        self._words = command(program) + ["follow" if follow else "run"] + ([follow] if isinstance(follow, str) else [])
        self.timeout = timeout
        self.status: Optional[int] = None
        self.reports: List[str] = []
        self._talk = Conversation(evidence)
        self._waiting: Deque[Tuple[Sent, "asyncio.Future[None]"]] = collections.deque()
        self._faults: List[BaseException] = []
        self._heard = 0
        self._speaker: Optional[object] = None
        self._process: Optional[asyncio.subprocess.Process] = None
        self._reading: Optional["asyncio.Task[None]"] = None

    async def start(self) -> "AsyncRetro":
        """Starts the program. Errors: OSError where there is none."""
        pipe = asyncio.subprocess.PIPE
        self._process = await asyncio.create_subprocess_exec(*self._words, stdin=pipe, stdout=pipe, start_new_session=True)
        log.info("process %d: %s", self._process.pid, " ".join(self._words))
        self._reading = asyncio.ensure_future(self._read(self._process))
        return self

    async def __aenter__(self) -> "AsyncRetro":
        return await self.start()

    async def __aexit__(self, kind: Optional[Type[BaseException]], error: Optional[BaseException], trace: Optional[TracebackType]) -> None:
        try:
            await self.end()
        except TimedOut:
            if error is None:
                raise

    def __repr__(self) -> str:
        said = "not started" if self._process is None else "process %d" % self._process.pid
        return "<AsyncRetro: %s, %d lines answered>" % (said if self.status is None else "ended with status %d" % self.status, self._talk.line)

    async def _read(self, process: asyncio.subprocess.Process) -> None:
        """Reads whatever comes, and gives it to its lines, until nothing more will come."""
        source = cast(asyncio.StreamReader, process.stdout)
        piece = b"-"
        while piece:
            piece = await source.read(SIZE)
            self._heard += len(piece)
            self._talk.chunks.append(piece)
            self._talk.settle(not piece)
            self._hand_on()
            self._release_answered()
        cast(asyncio.StreamWriter, process.stdin).close()
        status = await process.wait()
        self.reports = [] if self._talk.owed else self._talk.rest()
        self.status = status
        log.info("process %d ended with status %d", process.pid, status)
        while self._waiting:
            self._release(Ended(status))

    @property
    def listeners(self) -> List[Callable[[Reply], object]]:
        """What is called with every line and its answers, to be added to and taken from."""
        return self._talk.listeners

    def _hand_on(self) -> None:
        """Calls the callback with new evidence, and the listeners; what they raise is raised again where somebody waits."""
        while self._talk.untold or self._talk.unheard:
            try:
                self._talk.hand_on()
            except Exception as fault:
                self._faults.append(fault)

    def _release_answered(self) -> None:
        while self._waiting and self._waiting[0][0].is_done:
            self._release(None)

    def _release(self, error: Optional[BaseException]) -> None:
        waiter = self._waiting.popleft()[1]
        if self._faults:
            waiter.set_exception(self._faults.pop(0))
        elif error is not None:
            waiter.set_exception(error)
        else:
            waiter.set_result(None)

    def _note(self, lines: List[bytes], data: bytes, is_whole: bool, keeps: Optional[str] = None) -> Tuple[Sent, "asyncio.Future[None]"]:
        """Notes lines and writes them, in one step of the loop. Errors: Ended; OutOfTurn."""
        if self.status is not None:
            raise Ended(self.status)
        if self._process is None or self._reading is None:
            raise OutOfTurn("the program is not started: await start(), or use `async with`")
        task = asyncio.current_task()
        if self._talk.is_within_a_block and (is_whole or task is not self._speaker):
            raise OutOfTurn("a block is open: this call would be a line of it")
        self._speaker = task
        sent = self._talk.note(lines, data, keeps)
        sent.counts.append(len(data))
        waiter = asyncio.get_running_loop().create_future()
        waiter.add_done_callback(_seen)
        self._waiting.append((sent, waiter))
        cast(asyncio.StreamWriter, self._process.stdin).write(data)
        self._talk.settle()
        self._release_answered()
        return sent, waiter

    async def _wait(self, waiter: "asyncio.Future[Any]") -> None:
        """Waits; whoever is cancelled meanwhile does not cancel what is waited for.

        Errors: TimedOut, where nothing comes for so long; what the waiter has.
        """
        while not waiter.done():
            heard = self._heard
            await asyncio.wait((waiter,), timeout=self.timeout)
            if not waiter.done() and heard == self._heard and self.timeout is not None:
                raise TimedOut(self.timeout)
        waiter.result()

    async def _exchange(self, lines: List[bytes], data: bytes, is_whole: bool, keeps: Optional[str] = None) -> Reply:
        sent, waiter = self._note(lines, data, is_whole, keeps)
        await self._wait(waiter)
        return sent.last()

    async def send(self, line: Line) -> Reply:
        """Sends one line and gives its answers. Errors: those of `Retro.send`."""
        sent = bytes_of(line)
        return await self._exchange([sent], sent + b"\n", False)

    async def line(self, line: Line) -> Value:
        """Sends one line and gives its answers as a value. Errors: those of `send`, and `Refused`."""
        return (await self.send(line)).value

    async def call(self, line: Line) -> Value:
        """Sends one line that has an answer. Errors: those of `line`; `OutOfTurn` where a block is open."""
        sent = bytes_of(line)
        return (await self._exchange([sent], sent + b"\n", True)).value

    async def stream(self, lines: Union[Line, Iterable[Line], AsyncIterable[Line]]) -> AsyncGenerator[Reply, None]:
        """Sends many lines without waiting, and gives each with its answers; other tasks may send between two batches.

        It is a generator: where nobody iterates over it nothing is sent. Errors: those of `Retro.stream`.
        """
        outstanding: Deque[Tuple[Sent, "asyncio.Future[None]"]] = collections.deque()
        source: Union[_Ready, AsyncIterator[Line]]
        source = lines.__aiter__() if isinstance(lines, AsyncIterable) else _Ready(lines_within(lines))
        batch: List[Line] = [b""]
        while batch:
            batch = await _batch(source)
            if batch:
                data = joined(batch)
                outstanding.append(self._note(data.split(b"\n")[:-1], data, False))
                await self._drain()
            while outstanding and (len(outstanding) > AHEAD or not batch):
                sent, waiter = outstanding.popleft()
                ended: Optional[Ended] = None
                try:
                    await self._wait(waiter)
                except Ended as error:
                    ended = error
                for reply in sent.replies():
                    yield reply
                if ended is not None:
                    raise ended

    async def _drain(self) -> None:
        try:
            await cast(asyncio.StreamWriter, cast(asyncio.subprocess.Process, self._process).stdin).drain()
        except (BrokenPipeError, ConnectionResetError):
            pass  # the program has ended: whoever reads sees that no answer comes

    async def confirm(self, name: str = "no-such-timeline") -> None:
        """Asks a timeline that does not exist, and compares the one answer that there can be. Errors: `OutOfStep`; those of `send`."""
        line = bytes_of("%s ask size" % name)
        reply = await self._exchange([line], line + b"\n", True)
        if reply.answers != ("refused no timeline " + name,):
            raise OutOfStep("%r is answered by %r" % (reply.line, reply.answers))

    @overload
    async def new(self, name: str, kind: Literal["queue"]) -> AsyncQueue: ...

    @overload
    async def new(self, name: str, kind: Literal["stack"]) -> AsyncStack: ...

    @overload
    async def new(self, name: str, kind: Literal["deque"]) -> AsyncDeque: ...

    @overload
    async def new(self, name: str, kind: Literal["dict"]) -> AsyncDict: ...

    @overload
    async def new(self, name: str, kind: Literal["pq", "pqf"]) -> AsyncPriorityQueue: ...

    @overload
    async def new(self, name: str, kind: str) -> AsyncTimeline: ...

    async def new(self, name: str, kind: str) -> AsyncTimeline:
        """A timeline without rows, of the type of its kind. Errors: `Refused`, `Ended`."""
        await self.call("new %s %s" % (name, kind))
        return self._timeline(name, "pq" if kind == "pqf" else kind)

    def _timeline(self, name: str, kind: str) -> AsyncTimeline:
        return KINDS.get(kind, AsyncTimeline)(self, name, kind)

    async def load(self, saved: Union[Saved, str], name: Optional[str] = None) -> AsyncTimeline:
        """Loads a saved timeline, or the text of one. Errors: those of `Retro.load`."""
        saved = Saved.read(saved) if isinstance(saved, str) else saved
        saved = saved.renamed(name) if name else saved
        data = saved.text.encode("utf-8", "surrogateescape")
        lines = data.split(b"\n")[:-1]
        check_block(lines, await self._exchange(lines, data, True))
        return self._timeline(saved.name, saved.kind)

    async def timeline(self, name: str) -> AsyncTimeline:
        """A timeline that is there already. Errors: `Refused`, `Ended`."""
        return self._timeline(name, (await self.save(name)).kind)

    async def save(self, name: str) -> Saved:
        """A timeline as it stands. Cost: its rows. Errors: `Refused`, `Ended`."""
        return spoken(await self.call("save %s" % name), Saved)

    async def table(self, name: str) -> Table:
        """The rows of a timeline, kept by what its edits answer. Errors: `Refused`, `Ended`."""
        return await self.look(name, lambda table: table)

    async def look(self, name: str, how: Callable[[Table], Looked]) -> Looked:
        """What a function sees in the rows of a timeline. Errors: `Refused`, `Ended`."""
        line = bytes_of("save " + name)
        while name not in self._talk.tables:
            spoken((await self._exchange([line], line + b"\n", True, name)).value, Saved)
        return how(self._talk.tables[name])

    async def end(self) -> int:
        """Ends the input and gives the status of the program. Errors: `TimedOut`, where the program stands still; it is killed then."""
        if self.status is None and self._process is not None and self._reading is not None:
            cast(asyncio.StreamWriter, self._process.stdin).close()
            try:
                await self._wait(self._reading)
            except TimedOut:
                await self.kill()
                raise
        return cast(int, self.status)

    async def kill(self) -> None:
        """Ends the program at once, and gives up what it has not answered."""
        if self.status is None and self._process is not None and self._reading is not None:
            try:
                os.killpg(self._process.pid, signal.SIGKILL)
            except ProcessLookupError:
                pass  # it has ended by itself
            await asyncio.wait((self._reading,))


def _seen(waiter: "asyncio.Future[None]") -> None:
    """Looks at what a line has come to, since whoever waited for it may be gone."""
    if not waiter.cancelled():
        waiter.exception()


class _Ready:
    """An iterator whose lines are there already."""

    def __init__(self, lines: Iterator[Line]) -> None:
        self.lines = lines


async def _batch(lines: Union[_Ready, AsyncIterator[Line]]) -> List[Line]:
    """The next lines of a source."""
    if isinstance(lines, _Ready):
        return list(itertools.islice(lines.lines, BATCH))
    batch: List[Line] = []
    async for line in lines:
        batch.append(line)
        if len(batch) == BATCH:
            break
    return batch
