"""Pictures: what a reader of SVG finds in them."""

import os
import unittest
import xml.etree.ElementTree

from retro import Names, Row, Saved, svg
from retro.axis import Calendar, ticks

ROOT = os.path.dirname(os.path.dirname(os.path.dirname(os.path.dirname(os.path.abspath(__file__)))))
SPACE = "{http://www.w3.org/2000/svg}"


class Drawn:
    """A picture as a reader of SVG sees it."""

    def __init__(self, text):
        self.root = xml.etree.ElementTree.fromstring(text)
        self.texts = ["".join(one.itertext()) for one in self.root.iter(SPACE + "text")]
        self.bars = [bar for bar in self.root.iter(SPACE + "rect") if bar.get("class") in ("bar", "stays")]
        self.said = [bar.find(SPACE + "title").text for bar in self.bars]
        self.spans = [(float(bar.get("x")) - 170, float(bar.get("width"))) for bar in self.bars]
        self.ticks = [one.text for one in self.root.iter(SPACE + "text") if one.get("class") == "tick"][1:]
        self.places = [float(one.get("x1")) - 170 for one in self.root.iter(SPACE + "line")]


def saved(kind, *rows):
    return Saved("q", kind, 100, tuple(Row(*row) for row in rows))


class Pictures(unittest.TestCase):
    DAY = saved("queue", (1, 10, "enq 5"), (2, 20, "enq 6"), (3, 30, "deq"), (4, 90, "deq"))

    def test_a_bar_for_each_entry(self):
        drawn = Drawn(svg(self.DAY))
        self.assertEqual(drawn.said, ["#1 at 10: enq 5, #3 at 30: deq", "#2 at 20: enq 6, #4 at 90: deq"])
        self.assertEqual(drawn.spans, [(0, 140), (70, 490)])
        self.assertEqual(drawn.texts[0], "queue q, from 10 to 90")
        self.assertEqual(drawn.ticks, ["20", "40", "60", "80"])
        self.assertIn("prefers-color-scheme: dark", svg(self.DAY))

    def test_a_stretch(self):
        self.assertEqual(len(Drawn(svg(self.DAY, 40, 60)).bars), 1)
        self.assertEqual(len(Drawn(svg(self.DAY, 91)).bars), 0)
        self.assertEqual([len(Drawn(svg(self.DAY, *span)).bars) for span in ((0, 19), (0, 20), (30, 60), (31, 60), (90,))], [1, 2, 2, 1, 1])
        self.assertEqual(len(Drawn(svg(saved("queue"))).bars), 0)

    def test_many_entries(self):
        drawn = Drawn(svg(Saved("q", "queue", 101, tuple(Row(n, n, "enq 1") for n in range(1, 101)))))
        self.assertEqual(len(drawn.bars), 60)
        self.assertIn("40 more are not drawn", drawn.texts[0])

    def test_names(self):
        names = Names({5: "<b>&\n\"\x00 a letter", 6: "a name that is longer than there is room for"})
        drawn = Drawn(svg(self.DAY, names=names))
        self.assertEqual(drawn.said[0], "#1 at 10: enq <b>&\" a letter, #3 at 30: deq")
        self.assertIn("#2 enq a name that is l\u2026", drawn.texts)
        water = saved("dict", (1, 1, "put 7 310"), (2, 5, "del 7"))
        self.assertEqual(Drawn(svg(water, names=Names({7: "meter"}))).said, ["#1 at 1: put meter 310, #2 at 5: del meter"])

    def test_a_minute_is_as_wide_on_any_day(self):
        month = saved("queue", (1, 202601312350, "enq 1"), (2, 202602010001, "enq 2"), (3, 202602010010, "deq"), (4, 202602010010, "deq"))
        drawn = Drawn(svg(month))
        self.assertEqual(drawn.spans, [(0, 560), (308, 252)])
        self.assertEqual(drawn.ticks, ["23:50", "23:55", "01.02. 00:00", "00:05", "00:10"])
        self.assertEqual(drawn.places, [0, 140, 280, 420, 560])
        self.assertEqual(drawn.said[1], "#2 at 2026-02-01 00:01: enq 2, #4 at 2026-02-01 00:10: deq")
        self.assertEqual(drawn.texts[0], "queue q, from 2026-01-31 23:50 to 2026-02-01 00:10")
        self.assertNotEqual(Drawn(svg(month, calendar=False)).spans, drawn.spans)
        self.assertRaises(ValueError, svg, self.DAY, calendar=True)

    def test_ticks_of_a_calendar(self):
        for first, last, labels in (
            (20260301080000, 20260301080012, ["08:00:00", "08:00:02", "08:00:04", "08:00:06", "08:00:08", "08:00:10", "08:00:12"]),
            (202603010800, 202603011000, ["08:00", "08:30", "09:00", "09:30", "10:00"]),
            (202602271200, 202603021200, ["12:00", "28.02. 00:00", "12:00", "01.03. 00:00", "12:00", "02.03. 00:00", "12:00"]),
            (202402270500, 202403021000, ["2024-02-28", "2024-02-29", "2024-03-01", "2024-03-02"]),
            (202601150000, 202605150000, ["2026-02", "2026-03", "2026-04", "2026-05"]),
            (201601150000, 202605150000, ["2018-01", "2020-01", "2022-01", "2024-01", "2026-01"]),
            (202603010800, 202603010800, ["08:00:00", "08:00:10", "08:00:20", "08:00:30", "08:00:40", "08:00:50", "08:01:00"]),
        ):
            told = [label for _, label in Calendar(first, last).ticks()]
            self.assertEqual(told, labels)

    def test_ticks_of_numbers(self):
        self.assertEqual((ticks(0, 9), ticks(7, 8), ticks(1, 100)), ([0, 2, 4, 6, 8], [7, 8], [20, 40, 60, 80, 100]))
        self.assertLess(len(ticks(0, 2**64 - 1)), 5)


class OfTheDocs(unittest.TestCase):
    def test_each_is_a_picture(self):
        for name in sorted(os.listdir(os.path.join(ROOT, "docs"))):
            if name.endswith(".svg"):
                with open(os.path.join(ROOT, "docs", name), encoding="utf-8") as file:
                    self.assertEqual(Drawn(file.read()).root.tag, SPACE + "svg", name)
