"""What a worker does with a log that is divided by the names of its timelines.

The log is cut into ranges, one for each worker, and the timelines are divided into as many shares. A worker divides its range into shares, answers
its share of all ranges, and joins the answers to its range. Each hands on what it has made in a file of its own, which the others read; a `Span`
is where it stands there.
"""

import errno
import itertools
import marshal
import operator
import os
import sys
import zlib
from typing import Dict, List, Optional, Sequence, Tuple

from .answers import Reply
from .conversation import Answered, pair
from .grammar import LONGEST, NAMES, is_header, is_long, is_name, lines_of, owner, words

Span = Tuple[int, int, int]  # an open file, and the places in it where something begins and ends
Parts = Dict[Optional[bytes], List[int]]  # the places of the lines of each timeline, by its name
Share = Tuple[Parts, Dict[int, bytes]]  # these of some timelines, and their lines by their places in the range
Told = Tuple[Dict[int, Tuple[str, ...]], Dict[int, int]]  # answers by place; the places that they speak of, where these are others
NO_REFERENCES = 2  # the version of marshal that does not look for what stands twice, which takes longer than the rest
_ANSWERS = operator.attrgetter("answers")


def divide(lines: Sequence[bytes]) -> Dict[Optional[bytes], List[int]]:
    """The places of the lines of each timeline, by its name; under None those that speak of none, and are refused in any company.

    A block belongs to its timeline from its header to its `end`. Lines without an answer outside a block stand nowhere.
    """
    parts: Dict[Optional[bytes], List[int]] = {}
    block: Optional[bytes] = None
    for place, line in enumerate(lines):
        if block is None and len(line) <= LONGEST:
            word = line.partition(b" ")[0]
            own = parts.get(word)
            if own is not None:  # most lines begin with a name that was seen before
                own.append(place)
                continue
            if is_name(word):
                parts[word] = [place]
                continue
        found = [] if is_long(line) else words(line)
        if block is not None:
            parts[block].append(place)
            block = None if found == [b"end"] else block
        elif is_long(line):
            parts.setdefault(None, []).append(place)
        elif found and not found[0].startswith(b";"):
            name = owner(found)
            parts.setdefault(name, []).append(place)
            block = name if is_header(found) else None
    return parts


def read(span: Span) -> bytes:
    """What stands in a span, whoever else reads that file. Errors: OSError where the file has become shorter."""
    file, start, end = span
    pieces = []
    while start < end:
        pieces.append(os.pread(file, end - start, start))
        if not pieces[-1]:
            raise OSError(errno.EIO, "a file has become shorter while it was read")
        start += len(pieces[-1])
    return b"".join(pieces)


class Part:
    """The calls of a worker. What it hands on stands in the file `kept`; the program runs from the file `script` into the file `written`."""

    def __init__(self, kept: int, script: int, written: int) -> None:
        self._kept, self._script, self._written = open(kept, "wb"), script, written
        self._parent, self._environment = os.getppid(), dict(os.environ)

    def divide(self, span: Span, count: int) -> Tuple[int, List[Span]]:
        """Divides a range of the log into so many shares, by the names of the timelines; gives the number of its lines, and the shares.

        A share has the places of lines by their names, and these lines by their places. Lines that speak of no timeline may stand in any.
        """
        lines = lines_of(read(span))
        shares: List[Parts] = [{} for _ in range(count)]
        for name, places in divide(lines).items():
            shares[zlib.crc32(name or b"%d" % span[1]) % count][name] = places
        own = ({place: lines[place] for places in parts.values() for place in places} for parts in shares)
        return len(lines), [self._keep(marshal.dumps(share, NO_REFERENCES)) for share in zip(shares, own)]

    def answer(self, share: Sequence[Span], program: List[str]) -> Tuple[List[Span], List[str], int]:
        """Answers a share of the timelines, of which each range has a piece: by eight in a run of the program.

        Gives the answers to the lines of each range, what stands behind all answers, and the greatest status.
        """
        ranges: List[Share] = [marshal.loads(read(span)) for span in share]
        told: List[Told] = [({}, {}) for _ in ranges]
        rest: List[str] = []
        status = 0
        names = list(dict.fromkeys(itertools.chain.from_iterable(parts for parts, _ in ranges)))
        for at in range(0, len(names), NAMES):
            places = [sorted(itertools.chain.from_iterable(parts.get(name, ()) for name in names[at : at + NAMES])) for parts, _ in ranges]
            answered = self._run([lines[place] for own, (_, lines) in zip(places, ranges) for place in own], program)
            replies = iter(answered.replies)
            for own, of_range in zip(places, told):
                _tell(own, list(itertools.islice(replies, len(own))), *of_range)
            rest += answered.rest
            status = max(status, answered.status if answered.status >= 0 else 128 - answered.status)
        return [self._keep(marshal.dumps(of_range)) for of_range in told], rest, status

    def join(self, count: int, told: Sequence[Span], as_text: bool) -> Span:
        """Joins the answers to a range of so many lines: as one text, or as those of each line and the lines that they speak of."""
        joined: List[Tuple[str, ...]] = [()] * count
        about: Dict[int, int] = {}
        for span in told:
            answers, others = marshal.loads(read(span))
            for place, own in answers.items():
                joined[place] = own
            about.update(others)
        if as_text:
            return self._keep("\n".join([*itertools.chain.from_iterable(joined), ""]).encode("latin-1"))
        return self._keep(marshal.dumps((joined, about)))

    def _keep(self, data: bytes) -> Span:
        start = self._kept.tell()
        self._kept.write(data)
        self._kept.flush()
        return self._kept.fileno(), start, start + len(data)

    def _run(self, lines: List[bytes], program: List[str]) -> Answered:
        """Runs the program for some lines. Where whoever asked for it has ended, so does the worker."""
        if os.getppid() != self._parent:
            sys.exit(1)
        _fill(self._written, b"")
        _fill(self._script, b"\n".join(lines) + b"\n")
        streams = [(os.POSIX_SPAWN_DUP2, self._script, 0), (os.POSIX_SPAWN_DUP2, self._written, 1)]
        ended = os.waitpid(os.posix_spawnp(program[0], program, self._environment, file_actions=streams), 0)[1]
        written = read((self._written, 0, os.fstat(self._written).st_size))
        return pair(lines, written, os.WEXITSTATUS(ended) if os.WIFEXITED(ended) else -os.WTERMSIG(ended))


def _fill(file: int, data: bytes) -> None:
    """Gives a file these bytes alone, and stands at its beginning. Errors: OSError, also where there was room for some of them."""
    os.ftruncate(file, 0)
    at = 0
    while at < len(data):
        at += os.pwrite(file, data[at:], at)
    os.lseek(file, 0, os.SEEK_SET)


def _tell(places: Sequence[int], replies: Sequence[Reply], answers: Dict[int, Tuple[str, ...]], about: Dict[int, int]) -> None:
    """Notes the answers to lines of a range, by their places in it, and the places that they speak of where these are others."""
    answers.update(zip(places, map(_ANSWERS, replies)))
    shift = replies[0].number if replies else 0
    about.update((place, places[reply.about - shift]) for place, reply in zip(places, replies) if reply.about != reply.number)
