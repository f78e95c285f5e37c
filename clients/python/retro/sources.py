"""What a file says of timelines: a save, or a script that is run first."""

from typing import Dict, Iterable, List, NamedTuple, Optional, Tuple

from .answers import Reply
from .channel import Program
from .grammar import lines_of, words
from .lineage import Lineage
from .process import Retro
from .rows import Saved


class Source(NamedTuple):
    """The timelines that a file leaves, by their names, and of a script its lines with their answers."""

    saves: Dict[str, Saved]
    replies: List[Reply]


class Begun(NamedTuple):
    """The timelines that a script has begun, in their order, and whether it ends within a block."""

    names: List[str]
    within: bool


def begun(replies: Iterable[Reply]) -> Begun:
    """What the lines of a script with their answers have begun."""
    names: List[str] = []
    header: Optional[bytes] = None
    for reply in replies:
        said = words(reply.line)
        if header is not None:
            if said == [b"end"]:
                names += [header.decode("ascii")] if reply.answers[:1] == ("ok",) else []
                header = None
        elif said[:1] == [b"timeline"] and not reply.answers:
            header = said[1]
        elif said[:1] == [b"new"] and reply.answers[:1] == ("ok",):
            names.append(said[1].decode("ascii"))
    return Begun(names, header is not None)


def read_source(data: bytes, program: Optional[Program] = None) -> Source:
    """The timelines of a save or of a script; a block that is refused, or whose end is missing, makes none. Errors: `Ended`."""
    return _run(lines_of(data), program)


def _run(lines: List[bytes], program: Optional[Program]) -> Source:
    with Retro(program) as retro:
        replies = list(retro.stream(lines))
        names, within = begun(replies)
        if within:
            retro.send("end")
        return Source({name: retro.save(name) for name in names}, replies)


def around(data: bytes, line: int, program: Optional[Program] = None) -> Tuple[Source, Source, Dict[str, Lineage]]:
    """The timelines of a script before a line and behind it, and who their rows are. Errors: ValueError where there is no such line; `Ended`."""
    lines = lines_of(data)
    if not 1 <= line <= len(lines):
        raise ValueError("there is no line %d: the script has %d" % (line, len(lines)))
    was, now = _run(lines[: line - 1], program), _run(lines[:line], program)
    lineages = {name: Lineage(name) for name in now.saves}
    for lineage in lineages.values():
        for reply in now.replies[line - 1 :]:
            lineage.hear(reply)
    return was, now, lineages
