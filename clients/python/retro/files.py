"""Files that are whole or not at all, and what can be had from one that is not."""

import contextlib
import os
import tempfile
from typing import List, NamedTuple, Optional, Union

from .rows import Row, Saved, header_of, row_of, unadorned


def write_whole(path: Union[str, "os.PathLike[str]"], text: str) -> None:
    """Writes a file beside the place and then renames it: whoever reads `path` finds what was there before or all of `text`.

    Errors: OSError, and then `path` is as it was.
    """
    place = os.path.abspath(os.fspath(path))
    handle, beside = tempfile.mkstemp(prefix=os.path.basename(place) + ".", dir=os.path.dirname(place))
    try:
        with open(handle, "w", encoding="utf-8", newline="\n") as file:
            file.write(text)
            file.flush()
            os.fsync(file.fileno())
        os.chmod(beside, _mode(place))
        os.replace(beside, place)
    except BaseException:
        with contextlib.suppress(FileNotFoundError):
            os.unlink(beside)
        raise
    sync_folder(place)


def sync_folder(place: str) -> None:
    """Sees that the name of a file is on the disk, where the system can. Errors: OSError."""
    if hasattr(os, "O_DIRECTORY"):
        folder = os.open(os.path.dirname(place), os.O_RDONLY | os.O_DIRECTORY)
        try:
            os.fsync(folder)
        finally:
            os.close(folder)


def _mode(place: str) -> int:
    """The rights of the file that is replaced, or those that a new file has."""
    try:
        return os.stat(place).st_mode & 0o777
    except FileNotFoundError:
        mask = os.umask(0)
        os.umask(mask)
        return 0o666 & ~mask


def save_file(path: Union[str, "os.PathLike[str]"], saved: Saved) -> None:
    """Writes a saved timeline as a file that is whole or not at all. Errors: OSError."""
    write_whole(path, saved.text)


def load_file(path: Union[str, "os.PathLike[str]"]) -> Saved:
    """Reads a saved timeline; comments, and carriage returns at the ends of lines, are no part of it.

    Errors: OSError; ValueError where the file is not one whole block (`recover` has what is left of it).
    """
    with open(path, encoding="utf-8", errors="surrogateescape", newline="\n") as file:
        return Saved.read(file.read())


class Recovered(NamedTuple):
    """What was recovered of a block that is not whole.

    `saved`: its rows up to the first that is not surely whole. `missing`: how many rows the header says more, None where it says nothing.
    `cut`: the text behind the last row that was kept. `whole`: whether nothing is missing.
    """

    saved: Saved
    missing: Optional[int]
    cut: str

    @property
    def whole(self) -> bool:
        """Whether all rows are there, and the block has its end."""
        behind = (unadorned(line) for line in self.cut.split("\n"))
        return next(filter(None, behind), "") == "end" and not self.missing


def recover(text: str) -> Recovered:
    """The rows of a half-written save that are surely whole: those that end with a line feed, up to the first that is no row.

    Comments, and carriage returns at the ends of lines, are no part of it. A last line without a line feed may be the beginning of another row,
    so it is cut off. Any first rows of a timeline can be performed, so what was recovered loads. Errors: ValueError where the header is not
    whole.
    """
    lines = text.split("\n")
    first = next((at for at, line in enumerate(lines[:-1]) if unadorned(line)), len(lines) - 1)
    if first == len(lines) - 1:
        raise ValueError("the header was cut off: %r" % lines[-1])
    name, kind, next_number, count = header_of(unadorned(lines[first]))
    rows: List[Row] = []
    numbers = set()
    passed = first + 1
    for at, line in enumerate(lines[first + 1 : -1], first + 1):
        plain = unadorned(line)
        if plain:
            try:
                row = row_of(kind, plain)
            except ValueError:
                break
            if row.number in numbers or row.number >= next_number or (rows and row.time < rows[-1].time):
                break
            rows.append(row)
            numbers.add(row.number)
            passed = at + 1
    cut = "\n".join(lines[passed:])
    return Recovered(Saved(name, kind, next_number, tuple(rows)), None if count is None else count - len(rows), cut)
