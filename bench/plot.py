"""Plots of cost over the number of rows as SVG: a panel for each kind, a line for each program, both axes logarithmic."""

import math

ORDER = ["replay", "sqlite", "best", "same", "retro"]  # what is drawn later lies above
WIDTH, HEIGHT, LEFT, TOP, GAP = 210, 190, 56, 46, 46
COLUMNS = 3
APART = 3  # pixels between the points of two programs at the same number of rows

STYLE = """<style>
  .paper { fill: #fff } text { fill: #202124 } .frame { fill: none; stroke: #9aa0a6 } .grid { stroke: #dadce0 } .missing { fill: #5f6368 }
  path.line { fill: none; stroke-width: 1.5 } path.retro { stroke-width: 2.5 }
  .retro { stroke: #b3261e } .replay { stroke: #5f6368 } .same { stroke: #1a73e8 } .best { stroke: #188038 } .sqlite { stroke: #b06000 }
  path.replay { stroke-dasharray: 2 3 } path.same { stroke-dasharray: 7 3 } path.best { stroke-dasharray: 10 3 2 3 }
  path.sqlite { stroke-dasharray: 4 4 } circle { fill: #fff; stroke-width: 1.5 }
  @media (prefers-color-scheme: dark) {
    .paper, circle { fill: #1b1b1b } text { fill: #ddd } .frame { stroke: #777 } .grid { stroke: #3a3a3a } .missing { fill: #aaa }
    .retro { stroke: #f28b82 } .replay { stroke: #bdc1c6 } .same { stroke: #8ab4f8 } .best { stroke: #81c995 } .sqlite { stroke: #fcad70 }
  }
</style>"""


def shown(value):
    """A cost in microseconds, in its unit."""
    return "%g µs" % value if value < 1e3 else "%g ms" % (value / 1e3) if value < 1e6 else "%g s" % (value / 1e6)


class Panel:
    """A panel at a place; all panels of a plot have the same costs from `low` to `high`, as powers of ten."""

    def __init__(self, left, top, rows, low, high):
        self.left, self.top = left, top
        self.first, self.last = math.log10(rows[0]) - 0.1, math.log10(rows[-1]) + 0.1
        self.low, self.high = low, high

    def x(self, rows):
        return self.left + WIDTH * (math.log10(rows) - self.first) / (self.last - self.first)

    def y(self, cost):
        return self.top + HEIGHT * (self.high - math.log10(cost)) / (self.high - self.low)

    def frame(self, title, rows, missing):
        yield '<rect class="frame" x="%d" y="%d" width="%d" height="%d"/>' % (self.left, self.top, WIDTH, HEIGHT)
        yield '<text x="%d" y="%d" font-weight="bold">%s</text>' % (self.left, self.top - 20, title)
        if missing:
            yield '<text class="missing" x="%d" y="%d" font-size="9">not measured: %s</text>' % (self.left, self.top - 7, ", ".join(missing))
        for power in range(self.low, self.high + 1):
            y = self.y(10**power)
            yield '<path class="grid" d="M%d %.1fh%d"/>' % (self.left, y, WIDTH)
            yield '<text x="%d" y="%.1f" text-anchor="end">%s</text>' % (self.left - 5, y + 4, shown(10.0**power))
        for count in rows:
            yield '<text x="%.1f" y="%d" text-anchor="middle">%dk</text>' % (self.x(count), self.top + HEIGHT + 14, count // 1024)
        yield '<text x="%d" y="%d" text-anchor="middle">rows of the timeline</text>' % (self.left + WIDTH / 2, self.top + HEIGHT + 28)

    def line(self, peer, points):
        """A line, beside those of the other programs by some pixels, so that none hides another."""
        aside = APART * (ORDER.index(peer) - len(ORDER) // 2)
        places = [(self.x(rows) + aside, self.y(cost)) for rows, cost in points]
        yield '<path class="line %s" d="M%s"/>' % (peer, "L".join("%.1f %.1f" % place for place in places))
        for place in places:
            yield '<circle class="%s" cx="%.1f" cy="%.1f" r="2.5"/>' % ((peer,) + place)


def svg(title, kinds, rows, cost, names):
    """The text of a plot; `cost` gives the cost of a kind, a number of rows and a program, or None."""
    kinds = [kind for kind in kinds if any(cost(kind, count, peer) for count in rows for peer in names)]
    points = {(kind, peer): [(count, cost(kind, count, peer)) for count in rows if cost(kind, count, peer)] for kind in kinds for peer in names}
    costs = [value for line in points.values() for _, value in line]
    low = math.floor(math.log10(min(costs)))
    high = max(math.ceil(math.log10(max(costs))), low + 1)
    lines_of_panels = (len(kinds) + COLUMNS - 1) // COLUMNS
    width = COLUMNS * (LEFT + WIDTH) + 20
    height = 30 + lines_of_panels * (TOP + HEIGHT + GAP) + 30
    yield '<svg xmlns="http://www.w3.org/2000/svg" viewBox="0 0 %d %d" font-family="sans-serif" font-size="11">' % (width, height)
    yield STYLE
    yield '<rect class="paper" width="%d" height="%d"/>' % (width, height)
    yield '<text x="%d" y="20" font-size="14" font-weight="bold">%s</text>' % (LEFT, title)
    for index, kind in enumerate(kinds):
        left = LEFT + index % COLUMNS * (LEFT + WIDTH)
        top = 30 + TOP + index // COLUMNS * (TOP + HEIGHT + GAP)
        panel = Panel(left, top, rows, low, high)
        yield from panel.frame(kind, rows, [name for peer, name in names.items() if not points[kind, peer]])
        for peer in ORDER:
            if points.get((kind, peer)):
                yield from panel.line(peer, points[kind, peer])
    at = LEFT
    for peer, name in names.items():
        yield '<path class="line %s" d="M%d %dh34"/>' % (peer, at, height - 16)
        yield '<text x="%d" y="%d">%s</text>' % (at + 40, height - 12, name)
        at += 60 + 7 * len(name)
    yield "</svg>"
