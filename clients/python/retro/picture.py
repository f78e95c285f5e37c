"""The lifetimes of the entries of a timeline as bars over time, as SVG that is legible on light and on dark paper."""

from typing import Iterator, List, Optional, Tuple
from xml.sax.saxutils import escape

from .axis import WIDTH, Axis, axis_of
from .events import Names
from .rows import LAST_TIME, Lifetime, Row, Saved, lifetimes

MOST = 60  # bars of a picture
LEFT, RIGHT, LANE, TOP = 170, 150, 20, 62

STYLE = """<style>
  .paper { fill: #fff } text { font: 12px sans-serif; fill: #222 } .title { font-weight: bold; font-size: 14px }
  .bar { fill: #1f5fa8 } .stays { fill: #1a7f4b } .line { stroke: #ddd } .put { text-anchor: end } .tick { text-anchor: middle; fill: #555 }
  @media (prefers-color-scheme: dark) {
    .paper { fill: #1b1b1b } text { fill: #ddd } .bar { fill: #7db4f0 } .stays { fill: #6fd19e } .line { stroke: #444 } .tick { fill: #aaa }
  }
</style>"""


def stretch(lives: List[Lifetime], start: int, end: int) -> Tuple[List[Lifetime], int]:
    """The first lifetimes that reach into a stretch of time, as many as a picture has bars, and how many it leaves out."""
    within = [life for life in lives if life.put.time <= end and (life.taken is None or life.taken.time >= start)]
    return within[:MOST], len(within) - len(within[:MOST])


def short(text: str, most: int) -> str:
    """A text that fits beside a bar; the whole of it stands in the title of the bar."""
    return _text(text if len(text) <= most else text[: most - 1] + "\u2026")


def _text(text: str) -> str:
    """A text as SVG can have it: signs that no XML may have are left out."""
    return escape("".join(sign for sign in text if sign.isprintable() or sign == " "))


def svg(saved: Saved, start: int = 0, end: int = LAST_TIME, names: Optional[Names] = None, calendar: Optional[bool] = None) -> str:
    """A bar for each entry that is there at some time from `start` to `end`, with the rows that put it in and take it out.

    `names` has names for values and keys. Where `calendar` is true, times are dates as `time_of` makes them, and a minute is as wide on any day;
    where it is None, they are if all can be. A picture has 60 bars: of more the first are drawn, and the title says how many are not.
    Errors: `Unperformed`; ValueError where a time is to be a date and is none.
    """
    lives, left_out = stretch(lifetimes(saved.kind, saved.rows), start, end)
    times = [row.time for life in lives for row in life if row is not None and start <= row.time <= end]
    first = start if start else min(times, default=0)
    last = end if end < LAST_TIME else max(times, default=first)
    axis = axis_of(first, last, [row.time for life in lives for row in life if row is not None], calendar)
    return "\n".join(_Picture(axis, names).lines(saved, lives, left_out)) + "\n"


class _Picture:
    """The lines of a picture over an axis."""

    def __init__(self, axis: Axis, names: Optional[Names]) -> None:
        self.axis, self.names = axis, names

    def lines(self, saved: Saved, lives: List[Lifetime], left_out: int) -> Iterator[str]:
        axis, height = self.axis, TOP + LANE * len(lives) + 44
        title = "%s %s, from %s to %s" % (saved.kind, saved.name, axis.said(axis.first), axis.said(axis.last))
        title += "; %d more are not drawn" % left_out if left_out else ""
        size = (LEFT + WIDTH + RIGHT, height)
        yield '<svg xmlns="http://www.w3.org/2000/svg" width="%d" height="%d" viewBox="0 0 %d %d">' % (size * 2)
        yield STYLE
        yield "<title>%s</title>" % _text(title)
        yield '<rect class="paper" width="%d" height="%d"/>' % size
        yield '<text class="title" x="16" y="26">%s</text>' % _text(title)
        yield '<text class="tick" x="%d" y="%d">%s</text>' % (LEFT + WIDTH / 2, height - 8, axis.unit)
        for place, label in axis.ticks():
            yield '<line class="line" x1="%.1f" y1="%d" x2="%.1f" y2="%d"/>' % (LEFT + place, TOP - 8, LEFT + place, height - 40)
            yield '<text class="tick" x="%.1f" y="%d">%s</text>' % (LEFT + place, height - 24, label)
        for lane, life in enumerate(lives):
            yield from self._bar(life, TOP + LANE * lane)
        yield "</svg>"

    def _said(self, row: Row) -> str:
        """An operation with a name in place of its value or key, where that has one."""
        word, *numbers = row.operation.split(" ")
        if numbers and self.names is not None and int(numbers[0]) in self.names.names:
            numbers[0] = self.names.names[int(numbers[0])]
        return " ".join([word, *numbers])

    def _bar(self, life: Lifetime, top: int) -> Iterator[str]:
        left = LEFT + self.axis.place(life.put.time)
        right = LEFT + (self.axis.place(life.taken.time) if life.taken else WIDTH)
        put = "#%d at %s: %s" % (life.put.number, self.axis.said(life.put.time), self._said(life.put))
        taken = "#%d at %s: %s" % (life.taken.number, self.axis.said(life.taken.time), self._said(life.taken)) if life.taken else "stays"
        label = "#%d %s" % (life.put.number, self._said(life.put))
        yield '<text class="put" x="%d" y="%d">%s</text>' % (LEFT - 10, top + 12, short(label, 24))
        kind = "bar" if life.taken else "stays"
        yield '<rect class="%s" x="%.1f" y="%d" width="%.1f" height="%d" rx="2">' % (kind, left, top, max(right - left, 3), LANE - 6)
        yield "<title>%s</title></rect>" % _text("%s, %s" % (put, taken))
        behind = short("#%d %s" % (life.taken.number, self._said(life.taken)), 20) if life.taken else "stays"
        yield '<text x="%.1f" y="%d">%s</text>' % (max(right, left + 3) + 6, top + 12, behind)
