"""A whole script with its answers."""

import subprocess
from typing import Iterable, Iterator, Optional, Sequence, Union

from .channel import Program, command
from .conversation import Answered, Line, bytes_of, pair
from .process import lines_within


def answer(lines: Union[Line, Iterable[Line]], program: Optional[Program] = None, words_of_program: Sequence[str] = ("run",)) -> Answered:
    """Runs a script as a whole: a text, an open file, or any other iterable of lines.

    Errors: ValueError where a line has a line feed; OSError where there is no such program.
    """
    sent = [bytes_of(line) for line in lines_within(lines)]
    script = b"\n".join(sent) + b"\n" if sent else b""
    done = subprocess.run([*command(program), *words_of_program], input=script, stdout=subprocess.PIPE, check=False)
    return pair(sent, done.stdout, done.returncode)


def shown(line: bytes) -> str:
    """A line as it can be looked at: what cannot be printed, a tab among it, stands as an escape."""
    text = line.decode("utf-8", "backslashreplace")
    text = text[:-1] if text.endswith("\r") else text
    return "".join(sign if sign.isprintable() else sign.encode("unicode_escape").decode() for sign in text)


def annotated(answered: Answered, only_refused: bool = False) -> Iterator[str]:
    """Each line with its number beside its answers; further answers stand below the first."""
    texts = [shown(reply.line) for reply in answered.replies]
    width = min(max(map(len, texts), default=0), 48)
    for reply, text in zip(answered.replies, texts):
        if only_refused and not reply.refused:
            continue
        answers = list(reply.answers) or [""]
        if reply.about != reply.number:
            answers[0] += "    (line %d)" % reply.about
        yield ("%6d  %-*s  %s" % (reply.number, width, text, answers[0])).rstrip()
        for further in answers[1:]:
            yield "%6s  %*s  %s" % ("", width, "", further)
    for further in answered.rest:
        yield "%6s  %*s  %s" % ("end", width, "", further)
