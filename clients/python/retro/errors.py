"""What can go wrong, under one base; every error is pickled whole, so it passes from one process to another."""

import signal
from typing import Any, Dict, Optional, Tuple, Type


def _restored(kind: Type["RetroError"], arguments: Tuple[Any, ...], kept: Dict[str, Any]) -> "RetroError":
    error = kind.__new__(kind, *arguments)
    error.args = arguments
    error.__dict__.update(kept)
    return error


class RetroError(Exception):
    """The base of all errors of this library."""

    def __reduce__(self) -> Tuple[Any, ...]:
        return _restored, (type(self), self.args, self.__dict__)


class Refused(RetroError):
    """A line that was refused, and has changed nothing.

    `answer`: the whole answer. `cause`: its words without names and numbers, such as `at`, `syntax`, `no timeline`, `row`.
    `number`, `time`: those of the row that could not be performed, or the number of the row that is not there.
    `line`: the number of the script line that was refused, of a block the number of the row line that is bad.
    `text`: the line, as it was sent. `row`, `why`: of a block the number of its bad row line, and that row line's own cause.
    """

    def __init__(self, answer: str, line: int = 0, text: str = "") -> None:
        super().__init__("line %d: %s" % (line, answer) if line else answer)
        self.answer, self.line, self.text = answer, line, text
        self.number: Optional[int] = None
        self.time: Optional[int] = None
        self.row: Optional[int] = None
        self.why: Optional[str] = None
        said = answer.split(" ")[1:]
        if said[0] == "row":
            self.cause, self.row, self.why = "row", int(said[1]), said[2]
        elif said[0] == "at":
            self.cause, self.number, self.time = "at", int(said[1][1:]), int(said[2])
        elif said[0] == "timelines":
            self.cause = "timelines"
        elif said[0] == "no":
            self.cause = "no " + said[1]
            self.number = int(said[2][1:]) if said[2].startswith("#") else None
        else:
            self.cause = " ".join(said)


class Ended(RetroError):
    """The program has ended before the answer came, with this `status`: 4 a write failed, 5 no memory, 6 over 2^30 bytes of input.

    Below 0 it is the signal that has ended the program.
    """

    def __init__(self, status: int) -> None:
        super().__init__("the program ended with status %d" % status if status >= 0 else "the program was ended by %s" % _signal(-status))
        self.status = status


def _signal(number: int) -> str:
    try:
        return signal.Signals(number).name
    except ValueError:
        return "signal %d" % number


class TimedOut(RetroError, TimeoutError):
    """The program neither took a byte nor gave one for so many `seconds`. Its answers are still owed, and are read before the next line."""

    def __init__(self, seconds: float) -> None:
        super().__init__("the program stood still for %g seconds" % seconds)
        self.seconds = seconds


class OutOfTurn(RetroError, ValueError):
    """A call that cannot be made now, and sends nothing: within an open block, within a stream, within another call, or in another process."""


class OutOfStep(RetroError):
    """An answer that no such line has: what answers is not the program, or another version of it."""
