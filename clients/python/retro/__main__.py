"""What the client does from a shell."""

import argparse
import contextlib
import io
import os
import shutil
import stat
import sys
import tempfile
from typing import IO, Iterator, List, Optional, Sequence

from . import looking
from .errors import RetroError
from .events import Names, name_within, script_of, table_of
from .events import words_of as operations_of
from .files import load_file, recover, write_whole
from .grammar import lines_of
from .looking import bytes_at
from .part import read
from .picture import svg
from .pool import answers_to
from .rows import LAST_TIME
from .whole import annotated, answer


def _text(path: str) -> str:
    return bytes_at(path).decode("utf-8")


def _told(status: int) -> int:
    if status > 1:
        print("the program ended with status %d: its last answers are missing" % status, file=sys.stderr)
    return status


def annotate(given: argparse.Namespace) -> int:
    answered = answer(lines_of(bytes_at(given.script)), given.program)
    for line in annotated(answered, given.refused):
        print(line)
    return _told(answered.status)


def draw(given: argparse.Namespace) -> int:
    names = Names.read(_text(given.names)) if given.names else None
    sys.stdout.write(svg(load_file(given.saved), given.start, given.end, names))
    return 0


def events(given: argparse.Namespace) -> int:
    place = given.names or given.table + ".names"
    names = Names.read(_text(place)) if os.path.exists(place) else Names()
    words = operations_of(given.word)
    if given.back:
        sys.stdout.write(table_of(load_file(given.back), names, words))
        return 0
    name = given.name or name_within(os.path.splitext(os.path.basename(given.table))[0])
    script = script_of(_text(given.table), name, names, words)
    for first, second in script.doubled:
        print("events: line %d says what line %d says" % (second, first), file=sys.stderr)
    write_whole(place, names.text)
    print("\n".join(script.lines))
    return 0


@contextlib.contextmanager
def _file_at(path: str) -> Iterator[IO[bytes]]:
    """A file that can be read at any place: standard input where the path is `-`, and what is no regular file, are copied."""
    with contextlib.ExitStack() as opened:
        given: IO[bytes] = sys.stdin.buffer if path == "-" else opened.enter_context(open(path, "rb"))
        if path == "-" or not stat.S_ISREG(os.fstat(given.fileno()).st_mode):
            copy = opened.enter_context(tempfile.TemporaryFile())
            shutil.copyfileobj(given, copy)
            copy.flush()
            given = copy
        yield given


def pool(given: argparse.Namespace) -> int:
    with _file_at(given.log) as log, answers_to(log, True, given.program, given.processes) as joined:
        for span in joined.spans:
            sys.stdout.write(read(span).decode("latin-1"))
        for text in joined.rest:
            print(text)
        return _told(joined.status)


def recovered(given: argparse.Namespace) -> int:
    found = recover(bytes_at(given.saved).decode("utf-8", "surrogateescape"))
    sys.stdout.write(found.saved.text)
    if found.whole:
        return 0
    missing = "unknown" if found.missing is None else found.missing
    print("rows kept: %d; missing: %s; cut off: %r" % (len(found.saved.rows), missing, found.cut), file=sys.stderr)
    return 1


def words_of(arguments: Sequence[str]) -> argparse.Namespace:
    """The words of the command line."""
    parser = argparse.ArgumentParser(prog="python3 -m retro", description="Corrects the past of histories, by the program retro.")
    parser.add_argument("--program", help="the program, in place of $RETRO or `retro`")
    commands = parser.add_subparsers(dest="command", required=True)
    one = commands.add_parser("annotate", help="each line of a script with its number, beside its answers")
    one.add_argument("script", help="a file, or - for standard input")
    one.add_argument("--refused", action="store_true", help="the refused lines alone")
    one.set_defaults(do=annotate)
    one = commands.add_parser("draw", help="the lifetimes of a saved timeline as SVG")
    one.add_argument("saved")
    one.add_argument("--from", dest="start", type=int, default=0, metavar="TIME")
    one.add_argument("--to", dest="end", type=int, default=LAST_TIME, metavar="TIME")
    one.add_argument("--names", help="the file of the names of a table")
    one.set_defaults(do=draw)
    one = commands.add_parser("events", help="a table of events with dates as a script, or a saved timeline as such a table")
    one.add_argument("table", help="CSV; the names stand in a file of this name with .names behind it")
    one.add_argument("--name", help="of the timeline; the file's where none is given")
    one.add_argument("--names", help="the file of the names")
    one.add_argument("--word", action="append", default=[], metavar="WORD=OPERATION", help="a word of the table for an operation")
    one.add_argument("--back", metavar="SAVED", help="writes this saved timeline as a table")
    one.set_defaults(do=events)
    one = commands.add_parser("pool", help="answers a log of any number of timelines, divided by their names")
    one.add_argument("log", help="a file, or - for standard input")
    one.add_argument("--processes", type=int, help="how many at once; as many as there are processors where none is given")
    one.set_defaults(do=pool)
    one = commands.add_parser("recover", help="the rows of a half-written save that are surely whole, as a block that loads")
    one.add_argument("saved")
    one.set_defaults(do=recovered)
    looking.add_to(commands)
    return parser.parse_args(arguments)


def main(arguments: Optional[List[str]] = None) -> int:
    """Runs a command and gives its status: that of the program, or 2 where a file cannot be read as what it is to be."""
    given = words_of(sys.argv[1:] if arguments is None else arguments)
    if isinstance(sys.stdout, io.TextIOWrapper):
        sys.stdout.reconfigure(errors="backslashreplace")
    try:
        return int(given.do(given))
    except BrokenPipeError:
        sys.stdout = open(os.devnull, "w")
        return 0
    except (OSError, RetroError, ValueError) as error:
        print("%s: %s" % (given.command, error), file=sys.stderr)
        return 2


if __name__ == "__main__":
    sys.exit(main())
