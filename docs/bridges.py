"""Draws docs/bridges.svg: a history of a priority queue as the staircase of its weights, before and after one edit.

    python3 docs/bridges.py > docs/bridges.svg

A row that adds a dead entry weighs 1, one that adds a survivor weighs 0, and one that takes weighs -1. The line is the
sum of the weights up to each place, which is the number of dead entries that are held there; where it touches the ground the
place is a bridge. The bridge that the evidence of the edit states has a ring, and the entry that the edit gains a colour, once it lives.
"""

STEP, LEVEL, LEFT, GROUND, PANEL = 92, 34, 84, 132, 232

BEFORE = [("#1", 4), ("#2", 2), ("#3", None), ("#4", None), ("#5", 3)]
AFTER = BEFORE[:1] + [("#6", 1)] + BEFORE[1:]
# The rows, the place of the new row, the bridge that the evidence states, the row whose entry is gained, and a title.
PANELS = [
    (BEFORE, None, 0, "#1", "before: the present is 3"),
    (AFTER, 1, None, "#1", "after add 1 #6 ins 1 bridge 0 gain #1 4: the present is 3 and 4"),
]
LEGEND = [("place", 4, "a place"), ("bridge", 6, "a bridge: no dead entry is held"), ("ring", 10, "the bridge that the evidence states")]
WORDS = [("new", "the row that is put in"), ("gained", "the entry that is gained"), ("dead", "dead: taken by the end")]

STYLE = """
  text { font: 14px sans-serif; fill: #222 }
  .title { font-weight: bold }
  .small { font-size: 12px }
  .ground { stroke: #888; stroke-width: 1 }
  .stairs { fill: none; stroke: #1f5fa8; stroke-width: 3 }
  .bridge { fill: #b3541e }
  .place { fill: #1f5fa8 }
  .ring { fill: none; stroke: #b3541e; stroke-width: 2 }
  .new { fill: #7a2f9e; font-weight: bold }
  .gained { fill: #1a7f4b; font-weight: bold }
  .dead { fill: #777 }
  .paper { fill: #fff }
  @media (prefers-color-scheme: dark) {
    text { fill: #ddd } .dead { fill: #999 } .paper { fill: #1b1b1b }
    .stairs { stroke: #7db4f0 } .place { fill: #7db4f0 } .bridge { fill: #f0a070 }
    .new { fill: #d3a4f0 } .ring { stroke: #f0a070 } .gained { fill: #6fd19e }
  }
"""


def survivors(rows):
    """The numbers of the rows whose entries are left when all rows are performed."""
    held = []
    for number, key in rows:
        if key is None:
            held.remove(min(held))
        else:
            held.append((key, int(number[1:])))
    return {f"#{number}" for _, number in held}


def weight(row, alive):
    number, key = row
    if key is None:
        return -1
    return 0 if number in alive else 1


def panel(top, rows, new, stated, gained, title):
    alive = survivors(rows)
    sums = [0]
    for row in rows:
        sums.append(sums[-1] + weight(row, alive))
    ground = top + GROUND

    def x(place):
        return LEFT + STEP * place

    def y(total):
        return ground - LEVEL * total

    yield f'<text class="title" x="{LEFT - 10}" y="{top + 24}">{title}</text>'
    yield f'<line class="ground" x1="{LEFT - 20}" y1="{ground}" x2="{x(len(rows)) + 20}" y2="{ground}"/>'
    for total in range(max(sums) + 1):
        yield f'<text class="small" text-anchor="end" x="{LEFT - 26}" y="{y(total) + 4}">{total}</text>'
    middle = y(max(sums) / 2)
    yield f'<text class="small" text-anchor="middle" transform="rotate(-90 22 {middle})" x="22" y="{middle}">dead entries held</text>'
    path = f"M {x(0)} {y(0)}"
    for place in range(len(rows)):
        middle = x(place) + STEP // 2
        path += f" H {middle} V {y(sums[place + 1])}"
    yield f'<path class="stairs" d="{path} H {x(len(rows))}"/>'
    for place, total in enumerate(sums):
        kind, radius = ("bridge", 6) if total == 0 else ("place", 4)
        yield f'<circle class="{kind}" cx="{x(place)}" cy="{y(total)}" r="{radius}"/>'
        if place == stated:
            yield f'<circle class="ring" cx="{x(place)}" cy="{y(total)}" r="10"/>'
        yield f'<text class="small" x="{x(place) - 4}" y="{ground + 22}">{place}</text>'
    for place, row in enumerate(rows):
        number, key = row
        what = "delmin" if key is None else f"ins {key}"
        style = "new" if place == new else "gained" if number == gained and number in alive else "dead" if weight(row, alive) == 1 else ""
        middle = x(place) + STEP // 2
        yield f'<text class="{style}" text-anchor="middle" x="{middle}" y="{ground + 44}">{what}</text>'
        yield f'<text class="small" text-anchor="middle" x="{middle}" y="{ground + 62}">{number}, weight {weight(row, alive)}</text>'


def picture():
    width = LEFT + STEP * len(AFTER) + 60
    foot = PANEL * len(PANELS) + 28
    height = foot + 42
    yield f'<svg xmlns="http://www.w3.org/2000/svg" width="{width}" height="{height}" viewBox="0 0 {width} {height}">'
    yield f"<style>{STYLE}</style>"
    yield f'<rect class="paper" width="{width}" height="{height}"/>'
    for index, what in enumerate(PANELS):
        yield from panel(PANEL * index, *what)
    at = LEFT - 10
    for kind, radius, text in LEGEND:
        yield f'<circle class="{kind}" cx="{at}" cy="{foot - 4}" r="{radius}"/>'
        yield f'<text class="small" x="{at + 16}" y="{foot}">{text}</text>'
        at += 30 + 7 * len(text)
    at = LEFT - 16
    for kind, text in WORDS:
        yield f'<text class="{kind}" x="{at}" y="{foot + 24}">ins</text>'
        yield f'<text class="small" x="{at + 28}" y="{foot + 24}">{text}</text>'
        at += 44 + 7 * len(text)
    yield "</svg>"


if __name__ == "__main__":
    print("\n".join(picture()))
