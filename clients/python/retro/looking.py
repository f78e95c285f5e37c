"""The commands that say what a script or its evidence comes to: `explain`, `check` and `page`."""

import argparse
import os
import sys
from typing import Mapping, Optional, Tuple

from .checking import check, times_of
from .events import Names
from .explaining import compared
from .grammar import lines_of
from .history_page import page
from .lineage import Lineage
from .sources import Source, around, read_source


def bytes_at(path: str) -> bytes:
    """A file, or standard input where it is `-`."""
    if path == "-":
        return sys.stdin.buffer.read()
    with open(path, "rb") as file:
        return file.read()


def _names(given: argparse.Namespace) -> Optional[Names]:
    return Names.read(bytes_at(given.names).decode("utf-8")) if given.names else None


def _sources(given: argparse.Namespace) -> Tuple[Source, Source, Mapping[str, Lineage]]:
    """Two files, or a script before and behind one of its lines."""
    if given.after.isdigit() and not os.path.exists(given.after):
        return around(bytes_at(given.before), int(given.after), given.program)
    return read_source(bytes_at(given.before), given.program), read_source(bytes_at(given.after), given.program), {}


def explained(given: argparse.Namespace) -> int:
    was, now, lineages = _sources(given)
    names = [given.timeline] if given.timeline else [name for name in was.saves if name in now.saves]
    for name in names:
        if name not in was.saves or name not in now.saves:
            raise ValueError("no timeline %s in both" % name)
        report = compared(was.saves[name], now.saves[name], given.ask, _names(given), given.calendar, given.program, lineages.get(name))
        sys.stdout.write(report.text())
    for name in sorted(was.saves.keys() ^ now.saves.keys()):
        print("%s stands in the %s alone." % (name, "first" if name in was.saves else "second"))
    return 0


def checked(given: argparse.Namespace) -> int:
    times = {}
    if given.rows:
        source = read_source(bytes_at(given.rows), given.program)
        times = times_of(source.replies)
    status = 0
    for verdict in check(lines_of(bytes_at(given.evidence)), times, given.program):
        print(verdict.sentence)
        status = 1 if verdict.accepted is False else status
    return status


def paged(given: argparse.Namespace) -> int:
    title = given.title or ("A history" if given.script == "-" else os.path.basename(given.script))
    sys.stdout.write(page(bytes_at(given.script), _names(given), given.calendar, title, given.program))
    return 0


def _worded(command: argparse.ArgumentParser) -> None:
    """What gives numbers their names and dates."""
    command.add_argument("--names", metavar="FILE", help="CSV with the names of numbers, as `events` keeps it")
    command.add_argument("--calendar", action="store_true", help="times are dates, YYYYMMDDhhmm or YYYYMMDDhhmmss")


def add_to(commands: "argparse._SubParsersAction[argparse.ArgumentParser]") -> None:
    """Adds these commands to a command line."""
    one = commands.add_parser("explain", help="where two saves or two scripts part, or what a line of a script has changed")
    one.add_argument("before", help="a saved timeline or a script")
    one.add_argument("after", help="another one, or the number of a line of the first")
    one.add_argument("--ask", action="append", metavar="QUESTION", help="a question without its moment; the usual ones where none is named")
    one.add_argument("--timeline", metavar="NAME", help="of this timeline alone")
    _worded(one)
    one.set_defaults(do=explained)
    one = commands.add_parser("check", help="the verdict of each line of evidence, and what would have been true")
    one.add_argument("evidence", help="a file, or - for standard input")
    one.add_argument("--rows", metavar="FILE", help="a save or a script that has the times of the rows")
    one.set_defaults(do=checked)
    one = commands.add_parser("page", help="a script as a page to look at: what was believed about each moment after each step")
    one.add_argument("script", help="a script or a save, or - for standard input")
    one.add_argument("--title")
    _worded(one)
    one.set_defaults(do=paged)
