"""The page of a history: what it holds, what it refuses, and in a browser what it shows beside the program's answers."""

import bisect
import json
import os
import random
import re
import unittest
from unittest import mock

import browser
import second_bench
from retro import PageDiffers, Reply, Row, Saved, compared, evidence_of, page, read_source
from retro.history_page import FRAME, _told
from retro.rows import Performed
from retro.versions import histories_of
from retro.whole import answer

PROGRAM = os.environ["RETRO"]
HERE = os.path.dirname(os.path.abspath(__file__))
INTEGRATIONS = os.environ.get("INTEGRATIONS") == "1"
OPERATIONS = {
    "queue": ("enq %d", "enq %d", "deq"),
    "stack": ("push %d", "push %d", "pop"),
    "deque": ("pushl %d", "pushr %d", "popl", "popr"),
    "dict": ("put %d 7", "put %d 9", "del %d"),
    "pq": ("ins %d", "ins %d", "delmin"),
}
NAMES = {1: "<b>&\n\"", 2: "</script><script>document.title='no'</script>", 3: "Ann 'O' \u00dc", 4: "\u2028", 5: "__proto__"}
HARD = [-(2**63), 2**63 - 1, 2**53 + 1, 2**53, -1, 0]
ROWS = "[...document.querySelectorAll(%s)].map((row) => [...row.children].map((one) => one.textContent))"
TEXTS = "[...document.querySelectorAll(%s)].map((one) => one.textContent)"


def script(draws, kind, count):
    """A drawn script of a timeline, with a block, refusals and steps that are undone."""
    lines = ["; a day", "timeline t %s next 4" % kind, "#2 3 %s" % operation(draws, OPERATIONS[kind][0]), "end"]
    for _ in range(count):
        number, time, draw = draws.randint(1, count // 2), draws.choice([draws.randint(0, 12), 202603010805, 2**64 - 1]), draws.random()
        done = operation(draws, draws.choice(OPERATIONS[kind]))
        if draw < 0.5:
            lines.append("t at %d %s" % (time, done))
        elif draw < 0.65:
            lines.append("t %s #%d %s" % (draws.choice(["before", "after", "change"]), number, done))
        elif draw < 0.85:
            lines.append("t %s #%d%s" % draws.choice([("delete", number, ""), ("move", number, " at %d" % time)]))
        else:
            lines.append("t %s" % draws.choice(["undo", "undo", "redo"]))
    return lines


def operation(draws, form):
    return form % draws.choice([draws.randint(0, 6)] * 3 + HARD) if "%d" in form else form


def data_of(text):
    return json.loads(re.search(r'<script type="application/json" id="data">(.*?)</script>', text, re.S)[1])


class Made(unittest.TestCase):
    def test_the_versions_of_a_timeline_beside_a_second_reading(self):
        for start, kind in enumerate(OPERATIONS):
            for more in range(6):
                lines = script(random.Random(10 * start + more), kind, 50)
                (history,) = histories_of(answer(lines, PROGRAM).replies)
                bench, step = second_bench.Bench(), 0
                for number, line in enumerate(lines, 1):
                    told = bench.line(line.encode())
                    if step < len(history.steps) and history.steps[step].line == number:
                        step += 1
                        rows = [Row(row[0], row[1], second_bench.op_text(row[2])) for row in bench.timelines["t"].rows]
                        self.assertEqual(history.standing(step), rows)
                        self.assertEqual(history.steps[step - 1].refused, told[0] if told[0].startswith("refused") else "")
                self.assertEqual(history.counts(), [len(history.standing(one)) for one in range(1, step + 1)])

    def test_the_place_of_an_edit_is_that_of_its_row(self):
        """The page has no places of evidence: it finds them by the rows that stand before the edit."""
        edits = 0
        for start in range(20):
            lines = script(random.Random(start), "pq", 60)
            replies = answer(lines, PROGRAM).replies
            (history,) = histories_of(replies)
            order = [row.number for row in history.universe]
            for step, line in enumerate((one.line for one in history.steps), 1):
                standing = [row.number for row in history.standing(step - 1)]
                for one in [evidence_of(text) for text in replies[line - 1].answers if text.startswith("edit ") and step > 1]:
                    before = set(order[: order.index(one.number)])
                    self.assertEqual(one.place, sum(number in before for number in standing), (start, line))
                    standing = [*standing, one.number] if one.edit == "add" else [number for number in standing if number != one.number]
                    edits += 1
        self.assertGreater(edits, 400)

    def test_nothing_is_fetched_and_names_stay_text(self):
        text = page(["new t queue", "t at 5 enq 1", "t at 6 enq 2"], NAMES, title="<i>", program=PROGRAM)
        self.assertEqual(re.findall(r"https?://[^\"' ]*", text), ["http://www.w3.org/2000/svg"])
        self.assertEqual(len(re.findall(r"</?script", text)), 4)
        self.assertNotIn("innerHTML", text)
        data = data_of(text)
        self.assertEqual((data["names"]["1"], data["names"]["2"], data["title"]), (NAMES[1], NAMES[2], "<i>"))

    def test_a_difference_stops_it(self):
        lines = ["new t stack", "t at 5 push 1", "t at 6 push 2", "t at 7 push 3", "t at 8 pop"]
        page(lines, program=PROGRAM)

        def all_turned(self):
            return list(self.line)[::-1]

        with mock.patch.object(Performed, "all", all_turned), self.assertRaises(PageDiffers) as caught:
            page(lines, program=PROGRAM)
        differs = caught.exception
        self.assertEqual((differs.line, differs.question, differs.shown, differs.told), (3, "t ask after #2 all", "= 1 2", "= 2 1"))
        block = ["timeline t stack next 3", "#1 5 push 1", "#2 6 push 2", "end"]
        with mock.patch.object(Performed, "all", all_turned), self.assertRaises(PageDiffers):
            page(block, program=PROGRAM)
        self.assertIn("after line 3, 't ask after #2 all': the page would show '= 1 2', and the program answers '= 2 1'", str(differs))

    def test_a_script_without_a_timeline(self):
        self.assertRaises(ValueError, page, ["; nothing"], program=PROGRAM)

    def test_key_frames(self):
        count = 4 * FRAME
        rows = tuple(Row(number, number, "enq %d" % number if number % 3 else "deq") for number in range(1, count + 1))
        text = page(Saved("t", "queue", count + 1, rows).text, program=PROGRAM)
        frames = data_of(text)["timelines"][0]["frames"]
        self.assertEqual([frame.split()[0] for frame in frames], [str(FRAME * index - 1) for index in (1, 2, 3, 4)])
        self.assertEqual(frames[0].split()[1:5], ["0", "0", "0", "172"])

    def test_a_full_timeline_whose_rows_are_steps_stays_below_five_megabytes(self):
        """Each row of a priority queue comes by a line of its own, with evidence; the answers are made up here, as long as they can be.
        Key frames take some half a megabyte more."""
        count, draws, times = 131_072 if INTEGRATIONS else 8_192, random.Random(1), []
        replies = [Reply(1, 1, b"new t pq", ("ok",))]
        for number in range(1, count + 1):
            time, key = 1764320400 + draws.randrange(8_000_000), draws.randrange(10**6)
            place = bisect.bisect_right(times, time)
            times.insert(place, time)
            said = (place, number, key, max(0, place - draws.randrange(50)), draws.randint(1, number), key)
            told = "edit t add %d #%d ins %d bridge %d gain #%d %d" % said
            replies.append(Reply(number + 1, number + 1, b"t at %d ins %d" % (time, key), (told,)))
        (history,) = histories_of(replies)
        size = len(json.dumps(_told(history, []), separators=(",", ":")))
        print("page: %d steps of a pq take %.1f MB without key frames" % (count, size / 1e6))
        self.assertLess(size, 4_400_000 * count / 131_072)

    def test_a_full_timeline_stays_below_five_megabytes(self):
        count = 131_072 if INTEGRATIONS else 8_192
        draws = random.Random(1)
        for kind, put, take in (("queue", "enq %d", "deq"), ("pq", "ins %d", "delmin")):
            rows, held, time = [], 0, 1764320400
            for number in draws.sample(range(1, count + 1), count):
                time += draws.randint(0, 120)
                puts = held == 0 or draws.random() < 0.6
                held += 1 if puts else -1
                rows.append(Row(number, time, put % draws.randint(0, 10**6) if puts else take))
            size = len(page(Saved("t", kind, count + 1, tuple(rows)).text, program=PROGRAM))
            print("page: %d rows of a %s take %.1f MB" % (count, kind, size / 1e6))
            self.assertLess(size, 5_000_000 * count / 131_072 + 40_000)


class Shown(unittest.TestCase):
    @classmethod
    def setUpClass(cls):
        if browser.found() is None:
            print("page_tests: what a browser shows was left out, since there is no chromium on the path")
            raise unittest.SkipTest("no browser")
        cls.browser = browser.Browser()

    @classmethod
    def tearDownClass(cls):
        cls.browser.end()

    def opened(self, text):
        """Opens a page; nothing may be written on the console."""
        path = os.path.join(self.browser.folder.name, "history.html")
        with open(path, "w", encoding="utf-8") as file:
            file.write(text)
        self.browser.open(path)
        self.quiet()

    def quiet(self):
        self.assertEqual(self.browser.told, [])

    def slide(self, name, value):
        code = "{ const one = document.getElementById(%r); one.value = %d; one.dispatchEvent(new Event('input')) }"
        self.browser.value(code % (name, value))

    def texts(self, where):
        return self.browser.value(TEXTS % json.dumps(where))

    def held(self):
        return self.browser.value("[...document.querySelectorAll('#holds li')].map((one) => one.firstChild.textContent)")

    def where(self):
        return [self.browser.value("Number(document.getElementById(%r).value)" % name) for name in ("step", "moment")]

    def test_every_control_at_drawn_moments(self):
        for start, kind in enumerate(OPERATIONS):
            draws = random.Random(start)
            lines = script(draws, kind, 60 if INTEGRATIONS else 30)
            self.opened(page(lines, NAMES, program=PROGRAM))
            (history,) = histories_of(answer(lines, PROGRAM).replies)
            times = sorted({row.time for row in history.universe})
            self.assertEqual(self.where(), [len(history.steps), len(times)])
            for _ in range(30 if INTEGRATIONS else 6):
                self.slide("step", draws.randint(0, len(history.steps)))
                self.slide("moment", draws.randint(0, len(times)))
                for key in draws.sample(["ArrowLeft", "ArrowRight", "ArrowUp", "ArrowDown", "PageUp", "PageDown", "Home", "End"], 3):
                    step, moment = self.where()
                    self.browser.key(key)
                    moved = {"ArrowLeft": (0, -1), "ArrowRight": (0, 1), "ArrowUp": (-1, 0), "ArrowDown": (1, 0), "PageUp": (-10, 0),
                             "PageDown": (10, 0), "Home": (0, -moment), "End": (0, len(times))}[key]
                    step, moment = step + moved[0], moment + moved[1]
                    self.assertEqual(self.where(), [min(max(step, 0), len(history.steps)), min(max(moment, 0), len(times))])
                self.shows(lines, history, times, *self.where())
            self.quiet()

    def shows(self, lines, history, times, step, moment):
        """What is shown of a step and a moment is what the program answers."""
        so_far = lines[: history.steps[step - 1].line] if step else lines[:1]
        time = times[moment - 1] if moment else None
        questions = ["t ask at %d all" % time] if moment and step else []
        puts = [row for row in history.standing(step) if row.puts]
        replies = answer([*so_far, *questions, *("t fate #%d" % row.number for row in puts)], PROGRAM).replies[len(so_far) :]
        told = replies[0].answers[0] if questions else "= empty"
        wanted = ["nothing"] if told == "= empty" else [self.named(item) for item in told[2:].split(" ")]
        self.assertEqual(self.held(), wanted)
        fates = [reply.value for reply in replies[len(questions) :]]
        took = sorted((fate.time, "row %d," % fate.number, "row %d," % row.number) for row, fate in zip(puts, fates) if fate)
        rows = self.browser.value(ROWS % "'#takes tr'")
        self.assertEqual(sorted((int(when), taker.split(",")[0] + ",", put.split(",")[0] + ",") for when, taker, put in rows), took)
        if step and not history.steps[step - 1].refused:
            self.changed(lines, history, step)

    def changed(self, lines, history, step):
        """What a step changed is where two saves part, of the script before it and behind it."""
        rows = self.browser.value(ROWS % "'#changes tr'")
        line = history.steps[step - 1].line
        now = read_source("\n".join(lines[:line]).encode(), PROGRAM).saves["t"]
        was = read_source("\n".join(lines[: line - 1]).encode(), PROGRAM).saves.get("t", now._replace(rows=()))
        ends = {"queue": ["front"], "stack": ["top"], "deque": ["left", "right"], "pq": ["min"]}
        questions = [*ends[history.kind], "size"] if history.kind in ends else None
        report = compared(was, now, questions, program=PROGRAM)
        told = [[str(one.start), "on and on" if one.end is None else str(one.end), *self.said(one)] for one in report.changes]
        self.assertEqual(sorted(rows), sorted(told))

    def named(self, item):
        key, *value = item.split(":")
        return ": ".join([NAMES.get(int(key), key), *value])

    def said(self, one):
        asked = one.question.split(" ")
        plain = asked[0] in ("size", "get")
        values = ["nothing" if value is None else str(value) if plain else self.named(str(value)) for value in (one.was, one.now)]
        return [" ".join([asked[0]] + [self.named(key) for key in asked[1:]]), *values]

    def test_names_stay_text(self):
        lines = ["new t queue"] + ["t at %d enq %d" % (number, number) for number in NAMES]
        self.opened(page(lines, NAMES, title="A <i>day</i>", program=PROGRAM))
        self.assertEqual(self.held(), list(NAMES.values()))
        self.assertEqual((self.texts("h1"), self.browser.value("document.title")), (["A <i>day</i>"], "A <i>day</i>"))
        self.assertEqual(self.browser.value("document.querySelectorAll('#holds b, i, #holds script').length"), 0)
        self.quiet()

    def test_calendar(self):
        lines = ["new t queue", "t at 202601312350 enq 1", "t at 202602010001 enq 2", "t at 202602010012 deq"]
        self.opened(page(lines, calendar=True, program=PROGRAM))
        self.slide("moment", 1)
        self.assertEqual(self.texts("#moment-text"), ["after all rows of 2026-01-31 23:50"])
        begins = self.browser.value("[...document.querySelectorAll('#bars rect')].map((one) => one.x.baseVal.value)")
        marks = self.browser.value("[...document.querySelectorAll('#bars line')].map((one) => one.x1.baseVal.value)")
        self.assertEqual((begins, marks), ([220, 500], [220]))

    def test_calendar_with_seconds(self):
        times = (20260131235930, 20260201000000, 20260201000030, 20260230000000)  # of which the last is no date
        self.opened(page(["new t queue"] + ["t at %d enq %d" % (time, time) for time in times], calendar=True, program=PROGRAM))
        said = []
        for moment in range(1, 5):
            self.slide("moment", moment)
            said += self.texts("#moment-text")
        told = ("2026-01-31 23:59:30", "2026-02-01 00:00:00", "2026-02-01 00:00:30", "20260230000000")
        self.assertEqual(said, ["after all rows of " + one for one in told])
        self.opened(page(["new t queue"] + ["t at %d enq 1" % time for time in times[:3]], calendar=True, program=PROGRAM))
        begins = self.browser.value("[...document.querySelectorAll('#bars rect')].map((one) => one.x.baseVal.value)")
        self.assertEqual(begins, [220, 500, 780])

    def test_more_timelines_than_one(self):
        lines = ["new a queue", "new b stack", "a at 5 enq 1", "b at 5 push 7", "b at 6 push 8", "b at 7 pop x", "b delete #9"]
        self.opened(page(lines, program=PROGRAM))
        self.assertEqual((self.held(), self.browser.value("document.getElementById('timeline-part').hidden")), (["1"], False))
        self.browser.value("{ const one = document.getElementById('timeline'); one.value = 1; one.dispatchEvent(new Event('change')) }")
        self.assertEqual((self.held(), self.where()), (["8", "7"], [4, 2]))
        self.assertIn("line 7: b delete #9 \u2014 refused no row #9", self.texts("#step-text")[0])
        self.assertEqual(self.texts("#changes-count"), ["refused: it has changed nothing"])

    def test_stairs_and_their_bridge(self):
        """The history of docs/EVIDENCE.md: its sums, its bridges, and the bridge that the edit states."""
        lines = ["new p pq", "p at 1 ins 4", "p at 2 ins 2", "p at 3 delmin", "p at 4 delmin", "p at 5 ins 3", "p after #1 ins 1"]
        self.opened(page(lines, program=PROGRAM))
        self.assertEqual(self.texts("#stairs p"), ["Put in at place 1: row 6; the bridge is place 0; the present has gained 4 of row 1."])
        kinds = "[...one.querySelectorAll('circle')].map((dot) => dot.getAttribute('class'))"
        dots = self.browser.value("[...document.querySelectorAll('#stairs svg')].map((one) => %s)" % kinds)
        before = ["bridge", "ring", "place", "place", "place", "bridge", "bridge"]
        self.assertEqual(dots, [before, ["bridge", "bridge", "place", "place", "place", "bridge", "bridge"]])
        heights = self.browser.value("[...document.querySelectorAll('#stairs svg:first-of-type circle')].map((dot) => Number(dot.getAttribute('cy')))")
        self.assertEqual([(84 - height) / 22 for height in heights[:7]], [0, 0, 1, 2, 1, 0, 0])
        self.assertEqual(self.texts("#stairs .entry"), ["+ 4", "+ 4"])

    def test_each_step_shows_the_evidence_that_the_program_gave(self):
        lines = script(random.Random(7), "pq", 60)
        replies = answer(lines, PROGRAM).replies
        (history,) = histories_of(replies)
        self.opened(page(lines, program=PROGRAM))
        edits = 0
        for step, line in enumerate((one.line for one in history.steps), 1):
            told = [evidence_of(text) for text in replies[line - 1].answers if text.startswith("edit ") and step > 1]
            self.slide("step", step)
            wanted = [
                "%s at place %d: row %d; %s; the present has %s %d of row %d." % (
                    "Put in" if one.edit == "add" else "Cut", one.place, one.number,
                    "no bridge decides" if one.bridge is None else "the bridge is place %d" % one.bridge,
                    "gained" if one.change == "gain" else "lost", one.key, one.entry,
                ) for one in told
            ]
            self.assertEqual(self.texts("#stairs p"), wanted or ["This step has no evidence of one edit."])
            edits += len(wanted)
        self.assertGreater(edits, 30)
        self.quiet()

    def test_a_timeline_that_is_long(self):
        count = (20 if INTEGRATIONS else 4) * FRAME
        for kind, put, take in (("queue", "enq %d", "deq"), ("dict", "put %d 5", "del %d"), ("pq", "ins %d", "delmin"), ("stack", "push %d", "pop")):
            keys, rows, draws = [], [], random.Random(3)
            for number in range(1, count + 1):
                if keys and draws.random() < 0.45:
                    key = keys.pop(draws.randrange(len(keys)))
                    rows.append(Row(number, number, take % key if "%d" in take else take))
                else:
                    keys.append(number)
                    rows.append(Row(number, number, put % number))
            lines = [*Saved("t", kind, count + 1, tuple(rows)).text.splitlines(), "t at %d %s" % (count // 2, put % 0)]
            self.opened(page(lines, program=PROGRAM))
            for step, moment in ((1, count), (2, count), (2, count // 2 - 1), (1, 3 * FRAME), (2, 3 * FRAME + 1), (1, count // 2 + 7)):
                self.slide("step", step)
                self.slide("moment", moment)
                (reply,) = answer([*lines[: len(lines) - 2 + step], "t ask at %d all" % moment], PROGRAM).replies[-1:]
                wanted = [self.named(item) for item in reply.answers[0][2:].split(" ")]
                self.assertEqual(self.held()[:200], wanted[:200])
                self.assertEqual(self.texts("#holds-count"), ["%d items" % len(wanted)])
            self.quiet()

    def test_light_dark_and_print(self):
        """The two pictures lie beside the test when it was asked to make them."""
        with open(os.path.join(HERE, "page.script"), encoding="utf-8") as file:
            self.opened(page(file.read(), {4: "a letter", 2: "a <b>book</b>", 7: "a lamp", 1: "a kite"}, title="Orders of a day", program=PROGRAM))
        self.slide("step", 7)
        self.slide("moment", 3)
        shots = {scheme: self.browser.shot(scheme) for scheme in ("light", "dark")}
        paper = {scheme: self.paper(scheme) for scheme in shots}
        self.assertEqual(paper, {"light": "rgb(255, 255, 255)", "dark": "rgb(27, 27, 27)"})
        if os.environ.get("PICTURES") == "1":
            for scheme, shot in shots.items():
                with open(os.path.join(HERE, "page-%s.png" % scheme), "wb") as file:
                    file.write(shot)
        self.assertEqual([shot[1:4] for shot in shots.values()], [b"PNG"] * 2)
        self.assertEqual(self.browser.printed()[:5], b"%PDF-")
        self.browser.call("Emulation.setEmulatedMedia", media="print", features=[])
        self.assertEqual(self.browser.value("getComputedStyle(document.getElementById('step')).display"), "none")
        self.browser.call("Emulation.setEmulatedMedia", media="", features=[])

    def paper(self, scheme):
        self.browser.call("Emulation.setEmulatedMedia", features=[{"name": "prefers-color-scheme", "value": scheme}])
        return self.browser.value("getComputedStyle(document.body).backgroundColor")
