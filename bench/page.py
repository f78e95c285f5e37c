"""Writes docs/MEASURED.md and its plots from what was measured."""

import collections
import os
import textwrap

import plot
from phases import KINDS, MANY_KEYS, MANY_PHASES, PHASES, Case

Made = collections.namedtuple("Made", "times used sizes skipped compared sqlite quick minutes machine system date")

NAMES = {"retro": "retro", "replay": "replay by hand", "same": "same design, plain Rust", "best": "best without proofs", "sqlite": "SQLite"}

# What a phase measures, and what its number means for a user.
MEANT = {
    "end": ("a row at the end", "a history that is written down as it happens: each row comes after all others"),
    "edit": ("an edit at a random time", "rows are put in all over the past, and taken out again"),
    "now": ("a question about the present", "what is next, now"),
    "first": ("the first past question", "the checkpoints of a priority queue, or its moments, are made by it"),
    "past": ("a past question at a random time", "what was next at some moment"),
    "forward": ("past questions in order of time", "a report that goes through a day from its beginning, four rows at a step"),
    "mixed": ("edits and past questions in turn", "someone corrects the past and looks at once what it was like"),
    "later": ("an edit once the past was asked", "the same edits of a priority queue, behind the questions about its past"),
    "move": ("a `move` to a random time", "a row was written down at a wrong time"),
    "undo": ("an `undo` of a move", "a step is taken back"),
    "redo": ("a `redo` of a move", "it is made once more"),
    "fate": ("a `fate`", "who took what this row put in"),
    "burst": ("a burst at one place", "a batch that comes in late, all its rows at one time in the middle"),
    "save": ("`save`, for each row", "the timeline is written to a file"),
    "load": ("a block, for each row", "and read from it"),
    "check": ("`check`, for each line of evidence", "somebody else judges the evidence of all these edits"),
}
WIDE = "a past question about half of the keys"

PLOTS = [("end", "measured-end.svg"), ("edit", "measured-edit.svg"), ("past", "measured-past.svg"), ("mixed", "measured-mixed.svg")]

REASONS = {
    "trees": "A timeline keeps its rows in one tree and their runs in others, and the structure keeps the rows again: an edit goes down "
             "each of these trees, once to be tested and once to be made, and looks through a leaf of up to 32 items where it ends. The program of the last "
             "column keeps one tree, with 64 rows to a leaf. One tree for both, and one way down it, would change it.",
    "trie": "A dictionary keeps each lifetime in up to a dozen spans of a trie over labels, each with a tree of its own: an edit puts one lifetime "
            "in or takes one out, and moves the end of another, in each span that changes. The program of the last column keeps a list of rows for each key, which has no bound for `succ`, "
            "`count` and `sum` where few of many keys are there. Spans that share their trees, or a wider trie, would "
            "change it.",
    "checkpoints": "A question about the past of a priority queue reads the rows after the nearest checkpoint, up to a width of them. An edit "
                   "goes to every checkpoint after its place, and the first question makes them all. One product of pieces would change it, "
                   "as crates/pq_fusion has it. The program of the last column keeps one moment for each 256 rows, which edits go to when "
                   "the past is next asked: then each passes one entry from moment to moment.",
    "walk": "A fate is found by one walk over all rows of the timeline, from tree to slice. A search from the row on, as in "
            "the structures themselves, would change it.",
    "pieces": "An edit changes the piece of every node on its path at once, in both of its lists. The program of the last column lets edits wait "
              "until the past is asked, and keeps one moment for each 256 rows, from which to which an edit then passes one entry: as many steps as there "
              "are later moments, so that it grows with the history. Edits that wait would change it.",
    "tests": "The program reads a line for every form of the script, tests it in the order of the refusals, and has a limit for all that grows; each call "
             "that takes memory may find none, and then all is as before. The program beside it does without. Fewer ways down a tree for one edit, whose "
             "test and whose making each go their own, would change it.",
}


def reason(kind, phase):
    """Why a row is slower than the best program."""
    if phase == "fate":
        return "walk"
    if phase in ("end", "load") and kind in ("queue", "stack", "deque"):
        return "tests"
    if phase in ("save", "load", "now"):
        return "trees"
    if kind == "dict":
        return "trie"
    if kind == "pqf":
        return "pieces"
    if kind == "pq" and phase in ("first", "past", "forward", "mixed", "later", "move", "undo", "redo", "burst"):
        return "checkpoints"
    return "trees"


def number(value):
    """Microseconds with two or three digits that count."""
    if value is None:
        return ""
    if value >= 1000:
        return "{:,.0f}".format(value)
    return "%.0f" % value if value >= 100 else "%.1f" % value if value >= 10 else "%.2f" % value


def ratio(value, other):
    return "" if not value or not other else number(value / other)


def lesser(plain, fused):
    """Which form of a priority queue takes less, or both where they differ by less than a tenth."""
    if not plain or not fused:
        return ""
    return "both" if max(plain, fused) < 1.1 * min(plain, fused) else "`pq`" if plain < fused else "`pqf`"


def wrapped(*sentences, indent=""):
    """A paragraph, or the item of a list whose further lines are indented: at most 120 columns wide."""
    text = " ".join(sentences)
    return textwrap.wrap(text, 120, subsequent_indent=indent, break_long_words=False, break_on_hyphens=False)


def prose(*sentences):
    """A paragraph and the empty line behind it."""
    yield from wrapped(*sentences)
    yield ""


def table(head, rows):
    yield "| " + " | ".join(head) + " |"
    yield "|" + "---|" * len(head)
    for row in rows:
        yield "| " + " | ".join(row) + " |"
    yield ""


class Page:
    def __init__(self, made):
        self.made = made
        self.peers = [peer for peer in NAMES if any(spot[1] == peer for spot in made.times)]
        self.kinds = [kind for kind in KINDS if any(spot[0].kind == kind for spot in made.times if isinstance(spot[0], Case))]
        self.main = 65_536 if 65_536 in made.sizes else made.sizes[-1]

    def cost(self, kind, rows, phase, peer):
        return self.made.times.get((Case(kind, rows, phase), peer))

    def head(self):
        made = self.made
        yield "# Measured"
        yield ""
        yield from prose(
            "Every number on this page, and every plot, was made by `make bench` in one run: on %s, %s, %s, in %.0f minutes." % (
                made.date, made.machine, made.system, made.minutes),
            "Another machine moves them all; the ratios move less.", *["Left out were:"] if made.skipped else [])
        for line in made.skipped:
            yield from wrapped("- " + line, indent="  ")
        if made.skipped:
            yield ""

    def programs(self):
        yield "## What is measured"
        yield ""
        yield from prose(
            "A number is processor time of the process in microseconds for one line of a script, reading, answering and system calls",
            "included, the least of up to three runs: one microsecond a line is a million lines a second. All programs get the same",
            "lines over a pipe; {:,} of their answers were compared first, and are the same.".format(self.made.compared))
        yield from table(["Program", "What it is"], [row for row in [
            ("retro", "the program as it is built and proved"),
            ("replay by hand", "what one writes in an hour: a vector of rows, performed again from the first one on (`bench/peers/replay.rs`)"),
            ("same design, plain Rust", "the same trees, with leaves of up to 32 items, labels, spans, bridges, checkpoints and pieces without proofs (`bench/peers/same_*.rs`); "
             "it has no limits and few refusals, knows one order of tests, and keeps a row in 40 bytes, not in 32"),
            ("best without proofs", "the fastest program, of any design, that was written for this page: 64 rows to a leaf, and of a priority queue one moment for each 256 rows, "
             "which edits go to when the past is next asked (`bench/peers/best_*.rs`)"),
            ("SQLite", "a table of rows with an index on time in SQLite %s, and queries that replay (`bench/sqlite_peer.py`); the script is read by Python" % self.made.sqlite),
        ] if row[0] in [NAMES[peer] for peer in self.peers]])
        yield from table(["Line", "What a user does"], [(name[0].upper() + name[1:] if name[0] != "`" else name, meaning) for name, meaning in MEANT.values()])
        yield from prose(
            "A timeline is filled at its end first. Three rows in eight take something out, but for the first sixteenth. A dictionary",
            "has 1,000 keys. The sizes are 1,024, 8,192, 65,536 and 131,072 rows, which is a full timeline; the phases leave room for",
            "the rows that they put in. What a phase has put in is taken out again. Of a priority queue edits are measured before its",
            "past was asked, and once more behind that: what follows in the tables from `the first past question` on goes with",
            "checkpoints. A phase that took over four times as long as with more rows was measured again. A phase ends after some",
            "tenths of a second of processor time. Left out, since they take over twenty seconds: SQLite at 131,072 rows, and a block",
            "of a full dictionary beside another full one.")

    def marks(self):
        """The ratios at one size, kind by kind."""
        yield "## Beside other programs, at {:,} rows".format(self.main)
        yield ""
        others = [peer for peer in self.peers if peer != "retro"]
        numbered = {}
        for kind in self.kinds:
            yield "### " + kind
            yield ""
            rows = []
            for phase in list(dict(PHASES)) + ["check"]:
                own = self.cost(kind, self.main, phase, "retro")
                if own is None:
                    continue
                theirs = {peer: self.cost(kind, self.main, phase, peer) for peer in others}
                reasons = ["tests"] if theirs.get("same") and own > 1.1 * theirs["same"] else []
                reasons += [reason(kind, phase)] if theirs.get("best") and own > 3 * theirs["best"] else []
                note = ", ".join(str(numbered.setdefault(name, len(numbered) + 1)) for name in dict.fromkeys(reasons))
                row = [MEANT[phase][0], number(own)] + [number(theirs[peer]) for peer in others]
                rows.append(row + [ratio(own, theirs.get("same")), ratio(own, theirs.get("best")), note])
            yield from table(["µs a line"] + [NAMES[peer] for peer in ["retro"] + others] + ["to the same design", "to the best", "why"], rows)
        if numbered:
            yield from prose("Where the program takes over 1.1 times as long as the same design, or over 3 times as long as the best program,",
                             "the last column names the reason:")
            for name, index in sorted(numbered.items(), key=lambda pair: pair[1]):
                yield from wrapped("%d. %s" % (index, REASONS[name]), indent="   ")
            yield ""

    def growth(self):
        yield "## Over the number of rows"
        yield ""
        yield from prose("Microseconds a line of retro; in parentheses the multiples of the same design and of the best program.")
        for kind in self.kinds:
            rows = []
            for phase in list(dict(PHASES)) + ["check"]:
                cells = [self.cell(kind, rows_of, phase) for rows_of in self.made.sizes]
                if any(cells):
                    rows.append([MEANT[phase][0]] + cells)
            yield from table([kind] + ["{:,}".format(size) for size in self.made.sizes], rows)
        for phase, name in PLOTS:
            yield "![%s, over the number of rows, both axes logarithmic](%s)" % (MEANT[phase][0].capitalize(), name)
            yield ""

    def cell(self, kind, rows, phase):
        own = self.cost(kind, rows, phase, "retro")
        multiples = [ratio(own, self.cost(kind, rows, phase, peer)) for peer in ("same", "best")]
        return number(own) + (" (%s)" % ", ".join(m or "-" for m in multiples) if own and any(multiples) else "")

    def memory(self):
        yield "## Memory"
        yield ""
        yield from prose(
            "Bytes by which the resident memory of the process grew for each row that was put in at the end, and, in megabytes, the",
            "most that retro had until the end of the past questions: with the checkpoints of a priority queue, therefore. A machine",
            "that runs eight full timelines needs eight times the last column.")
        peers = [peer for peer in self.peers if peer != "sqlite"]
        rows = []
        for kind in self.kinds:
            for size in self.made.sizes:
                used = [self.made.used.get((kind, size, "row", peer)) for peer in peers]
                most = self.made.used.get((kind, size, "most", "retro"))
                rows.append([kind, "{:,}".format(size)] + ["%.0f" % value if value else "" for value in used] + ["%.1f" % (most / 1e6) if most else ""])
        yield from table(["Kind", "Rows"] + [NAMES[peer] + ", bytes a row" for peer in peers] + ["retro at most, MB"], rows)

    def fused(self):
        """The two forms of a priority queue side by side."""
        if "pq" not in self.kinds or "pqf" not in self.kinds:
            return
        yield "## `pq` or `pqf`"
        yield ""
        yield from prose(
            "Both answer alike. `pq` makes up to 31 checkpoints at the first question about its past, none at one about the present, and",
            "from then on every edit goes to each of them; `pqf` keeps pieces of the whole history from the first row on. Each cell has `pq` first, then `pqf`; the",
            "last column names the one that takes less at {:,} rows, or both where they differ by less than a tenth.".format(self.main),
            "Look for the lines that your script has most of: before its past was asked the first two, and the others from the first",
            "such question on.")
        sizes = [size for size in self.made.sizes if size > 1_024]
        phases = [phase for phase in ("end", "edit", "first", "later", "mixed", "past", "forward", "burst") if self.cost("pqf", self.main, phase, "retro")]
        rows = [["%s, µs" % MEANT[phase][0]] + [self.both(size, phase) for size in sizes] + [lesser(*self.costs(self.main, phase))] for phase in phases]
        for what, name, unit in (("row", "bytes a row, before the past is asked", 1), ("most", "MB at most, after it was asked", 1e6)):
            pairs = [[self.made.used.get((kind, size, what, "retro")) for kind in ("pq", "pqf")] for size in sizes]
            main = [self.made.used.get((kind, self.main, what, "retro")) for kind in ("pq", "pqf")]
            rows.append([name] + [" / ".join("%.0f" % (used / unit) if used else "-" for used in pair) for pair in pairs] + [lesser(*main)])
        yield from table([""] + ["{:,} rows".format(size) for size in sizes] + ["less"], rows)

    def costs(self, rows, phase):
        return [self.cost(kind, rows, phase, "retro") for kind in ("pq", "pqf")]

    def both(self, rows, phase):
        return " / ".join(number(cost) or "-" for cost in self.costs(rows, phase))

    def many_keys(self):
        """A dictionary with many keys, of which a question goes over half."""
        times = self.made.times
        yield "## A dictionary of {:,} keys".format(MANY_KEYS)
        yield ""
        yield from prose(
            "The same lines of a dictionary with so many keys, of which most come few times, and the questions `count` and `sum` of",
            "half of its keys at a random time. Microseconds a line; at the end bytes a row. In parentheses the multiples of the same design and of the best",
            "program.")
        names = {phase: WIDE if phase == "wide" else MEANT[phase][0] for phase, _ in MANY_PHASES}
        sizes, rows = self.made.sizes[-2:], []
        for phase, name in {**names, "row": "bytes a row"}.items():
            costs = [{peer: times.get(("many keys", size, phase, peer)) for peer in self.peers} for size in sizes]
            rows.append([name] + ["%s (%s)" % (number(cost["retro"]), ", ".join(ratio(cost["retro"], cost.get(peer)) or "-" for peer in ("same", "best"))) for cost in costs])
        yield from table([""] + ["{:,} rows".format(size) for size in sizes], rows)

    def judging(self):
        times, used = self.made.times, self.made.used
        yield "## Judging evidence"
        yield ""
        yield from prose(
            "`check` over the evidence of rows that came in each after all others, and of rows that came in at random times, by the",
            "number of rows that were drawn. In parentheses the bytes of memory that a line has cost, with what is read ahead.")
        names = {"end": "rows at the end, µs a line", "anywhere": "rows at random times, µs a line"}
        rows = [[name] + ["%s (%.0f)" % (number(times[size, place, "judged"]), used[size, place, "judged"]) for size in self.made.sizes] for place, name in names.items()]
        yield from table([""] + ["{:,} rows".format(size) for size in self.made.sizes], rows)

    def texts(self):
        times, used = self.made.times, self.made.used
        yield "## Texts and streams"
        yield ""
        yield from prose("A saved timeline has this many bytes a row; its blocks are read and written at the costs above.")
        yield from table(["Kind"] + ["{:,} rows".format(size) for size in self.made.sizes],
                         [[kind] + ["%.1f" % used.get((kind, size, "saved", "retro"), 0) for size in self.made.sizes] for kind in self.kinds])
        if ("asked", "retro") in times:
            yield from prose("A question about a queue of two rows, from a file to a file, is reading and answering alone: the least that a",
                             "line costs.")
            names = {"retro": "retro", "replay": "replay by hand", "wc": "`wc -l`, which only counts lines"}
            yield from table(["Program", "µs a line"], [[name, "%.3f" % times["asked", peer]] for peer, name in names.items() if ("asked", peer) in times])

    def text(self):
        for part in (self.head, self.programs, self.marks, self.growth, self.memory, self.many_keys, self.fused, self.judging, self.texts):
            yield from part()


def write(made, folder):
    page = Page(made)
    with open(os.path.join(folder, "MEASURED.md"), "w") as file:
        file.write("\n".join(page.text()).rstrip() + "\n")
    for phase, name in PLOTS:
        lines = plot.svg("%s: processor time over the rows" % MEANT[phase][0].capitalize(), page.kinds, made.sizes,
                         lambda kind, rows, peer, phase=phase: page.cost(kind, rows, phase, peer), {peer: NAMES[peer] for peer in page.peers})
        with open(os.path.join(folder, name), "w") as file:
            file.write("\n".join(lines) + "\n")
