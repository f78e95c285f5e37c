"""A second reading of the script language, by replay: plain Python that shares no code with the program. It is slow, and says
what the program should have written; `tests/hostile/random_scripts.py` compares the two byte by byte."""

import bisect
import re

KINDS = ("queue", "stack", "deque", "dict", "pq")
OPS = {"enq": ("queue", 1), "deq": ("queue", 0), "push": ("stack", 1), "pop": ("stack", 0), "pushl": ("deque", 1), "pushr": ("deque", 1),
       "popl": ("deque", 0), "popr": ("deque", 0), "put": ("dict", 2), "del": ("dict", 1), "ins": ("pq", 1), "delmin": ("pq", 0)}
ADDING = ("enq", "push", "pushl", "pushr", "put", "ins")
QUESTIONS = {"size": (KINDS, 0), "all": (KINDS, 0), "front": (("queue",), 0), "back": (("queue",), 0), "top": (("stack",), 0),
             "left": (("deque",), 0), "right": (("deque",), 0), "get": (("dict",), 1), "succ": (("dict",), 1), "pred": (("dict",), 1),
             "count": (("dict",), 2), "sum": (("dict",), 2), "min": (("pq",), 0), "nth": (("queue", "stack", "deque", "pq"), 1)}
NO_NAMES = {b"new", b"save", b"timeline", b"end", b"edit", b"mute"}
MOST_ROWS, NEXT_LIMIT, KEPT = 131_072, 16_777_216, 1_024


class Refused(Exception):
    pass


class NotInGrammar(Exception):
    pass


def natural(word, low, high):
    if not re.fullmatch(rb"[0-9]+", word) or not low <= int(word) <= high:
        raise NotInGrammar
    return int(word)


def number(word):
    if not re.fullmatch(rb"-?[0-9]+", word) or not -(2**63) <= int(word) < 2**63:
        raise NotInGrammar
    return int(word)


def name_of(word):
    if not re.fullmatch(rb"[A-Za-z][A-Za-z0-9_-]{0,31}", word) or word in NO_NAMES:
        raise NotInGrammar
    return word.decode()


def row_number(word):
    if not word.startswith(b"#"):
        raise NotInGrammar
    return natural(word[1:], 1, NEXT_LIMIT - 1)


def kind_of(word):
    if word.decode("latin-1") not in KINDS:
        raise NotInGrammar
    return word.decode()


def op_of(words):
    word = words[0].decode("latin-1") if words else ""
    if word not in OPS or len(words) != 1 + OPS[word][1]:
        raise NotInGrammar
    return (word,) + tuple(number(w) for w in words[1:])


def question_of(words):
    word = words[0].decode("latin-1") if words else ""
    if word not in QUESTIONS or len(words) != 1 + QUESTIONS[word][1]:
        raise NotInGrammar
    read = (lambda w: natural(w, 0, 2**64 - 1)) if word == "nth" else number
    return (word,) + tuple(read(w) for w in words[1:])


def moment_of(words):
    """Where a row is put in, or of when a question asks."""
    if words[0] == b"at":
        return ("at", natural(words[1], 0, 2**64 - 1))
    return (words[0].decode(), row_number(words[1]))


def op_text(op):
    return " ".join([op[0]] + [str(x) for x in op[1:]])


def perform(state, row):
    """The state after a row, or None where it cannot be performed. Entries and keys are kept in order."""
    op = row[2]
    word = op[0]
    if word in ("enq", "pushr"):
        return state + [op[1]]
    if word in ("push", "pushl"):
        return [op[1]] + state
    if word in ("deq", "pop", "popl", "delmin"):
        return state[1:] if state else None
    if word == "popr":
        return state[:-1] if state else None
    if word == "ins":
        after = list(state)
        bisect.insort(after, (op[1], row[0]))
        return after
    keys = [key for key, _ in state]
    at = bisect.bisect_left(keys, op[1])
    there = at < len(keys) and keys[at] == op[1]
    if word == "put":
        return state[:at] + [(op[1], op[2])] + state[at + there:]
    return state[:at] + state[at + 1:] if there else None


def replay(rows):
    state = []
    for index, row in enumerate(rows):
        state = perform(state, row)
        if state is None:
            return None, index
    return state, None


def numbered(row):
    """The row with its number in place of its value; an entry has its number beside its key."""
    word, values = row[2][0], row[2][1:]
    if word == "put":
        return row[:2] + ((word, values[0], row[0]),)
    return row[:2] + ((word, row[0]),) if word in ADDING and word != "ins" else row


def edited(rows, edits):
    """The rows after some list edits, one after another."""
    for added, place, row in edits:
        rows = rows[:place] + [row] + rows[place:] if added else rows[:place] + rows[place + 1:]
    return rows


def place_at(rows, time):
    return bisect.bisect_right([row[1] for row in rows], time)


def answer(kind, state, question):
    word = question[0]
    if word == "all":
        shown = ["%d:%d" % pair if kind == "dict" else str(pair[0]) if kind == "pq" else str(pair) for pair in state]
        return "= " + (" ".join(shown) if shown else "empty")
    if word == "size":
        return "= %d" % len(state)
    if word in ("count", "sum"):
        within = [value for key, value in state if question[1] <= key <= question[2]]
        return "= %d" % (len(within) if word == "count" else sum(within))
    if word == "get":
        found = [value for key, value in state if key == question[1]]
        return "= %d" % found[0] if found else "= none"
    if word in ("succ", "pred"):
        found = [pair for pair in state if (pair[0] >= question[1] if word == "succ" else pair[0] <= question[1])]
        return "= %d:%d" % (found[0] if word == "succ" else found[-1]) if found else "= none"
    index = {"front": 0, "top": 0, "left": 0, "min": 0, "back": len(state) - 1, "right": len(state) - 1}.get(word)
    index = question[1] if index is None else index
    if not 0 <= index < len(state):
        return "= none"
    return "= %d" % (state[index][0] if kind == "pq" else state[index])


def evidence(name, rows, edit):
    """The line of an accepted edit of a priority queue, by two replays and every place."""
    added, place, row = edit
    before, then = replay(rows)[0], replay(edited(rows, [edit]))[0]
    gained, lost = [e for e in then if e not in before], [e for e in before if e not in then]
    survives = set(before)
    bridges, state = [0], []
    for index, one in enumerate(rows):
        state = perform(state, one)
        if all(entry in survives for entry in state):
            bridges.append(index + 1)
    adds = row[2][0] == "ins"
    if added == adds:
        bridge = max(b for b in bridges if b <= place)
    elif added:
        bridge = min(b for b in bridges if b >= place)
    elif (row[2][1], row[0]) in survives:
        bridge = "none"
    else:
        bridge = min(b for b in bridges if b >= place + 1)
    word, (key, own) = ("gain", gained[0]) if gained else ("lose", lost[0])
    return "edit %s %s %d #%d %s bridge %s %s #%d %d" % (name, "add" if added else "cut", place, row[0], op_text(row[2]), bridge, word, own, key)


class Timeline:
    def __init__(self, name, kind, rows, following):
        self.name, self.kind, self.rows, self.next = name, kind, rows, following
        self.done, self.undone = [], []

    def place(self, moment):
        if moment[0] == "at":
            return place_at(self.rows, moment[1]), moment[1]
        for index, row in enumerate(self.rows):
            if row[0] == moment[1]:
                return index + (moment[0] == "after"), row[1]
        raise Refused("refused no row #%d" % moment[1])

    def make(self, edits):
        """Makes list edits, and gives the evidence of each over the rows before it."""
        told = []
        for edit in edits:
            if self.kind == "pq":
                told.append(evidence(self.name, self.rows, edit))
            self.rows = edited(self.rows, [edit])
        return told

    def step(self, edits, plain):
        """A step of one list edit or two. Where a row is put in, it draws a number."""
        after = edited(self.rows, edits)
        fails = replay(after)[1]
        if fails is not None:
            raise Refused("refused at #%d %d" % after[fails][:2])
        told = self.make(edits)
        self.done = (self.done + [edits])[-KEPT:]
        self.undone = []
        self.next += any(added for added, _, _ in edits)
        return told or [plain]

    def room(self):
        if len(self.rows) >= MOST_ROWS:
            raise Refused("refused full")
        if self.next >= NEXT_LIMIT:
            raise Refused("refused numbers")

    def correct(self, place, time, op, target):
        """Puts a new row in place of the one at a place; `target` says where, in the rows that stand when it is put in."""
        old, row = self.rows[place], (self.next, time, op)
        if op[0] in ADDING:
            at = target(self.rows)
            edits = [(True, at, row), (False, place + (at <= place), old)]
        else:
            edits = [(False, place, old), (True, target(edited(self.rows, [(False, place, old)])), row)]
        return self.step(edits, "ok #%d" % self.next)

    def back(self, undo):
        source, target = (self.done, self.undone) if undo else (self.undone, self.done)
        if not source:
            raise Refused("refused nothing to %s" % ("undo" if undo else "redo"))
        edits = source.pop()
        target.append(edits)
        return self.make([(not added, place, row) for added, place, row in reversed(edits)] if undo else edits) or ["ok"]

    def fate(self, place):
        own = self.rows[place]
        if own[2][0] not in ADDING:
            raise Refused("refused no item #%d" % own[0])
        state = []
        for index, row in enumerate(self.rows):
            state = perform(state, numbered(row))
            if index > place and own[0] not in [held[1] if isinstance(held, tuple) else held for held in state]:
                return "= taken #%d %d" % row[:2]
        return "= stays"


class Bench:
    def __init__(self):
        self.timelines, self.block = {}, None

    def line(self, line):
        """The answer lines of a line of the script, without line feeds."""
        long = len(line) > 4_096
        words = [word for word in line.split(b" ") if word]
        if self.block is not None:
            if not long and words == [b"end"]:
                return self.close(True)
            if long or (words and not words[0].startswith(b";")):
                self.block[4].append(None if long else words)
            return []
        if long:
            return ["refused long"]
        if not words or words[0].startswith(b";"):
            return []
        try:
            return self.command(words)
        except NotInGrammar:
            return ["refused syntax"]
        except IndexError:
            return ["refused syntax"]
        except Refused as refusal:
            return [str(refusal)]

    def named(self, name):
        if name not in self.timelines:
            raise Refused("refused no timeline %s" % name)
        return self.timelines[name]

    def free(self, name):
        if name in self.timelines:
            raise Refused("refused name taken")
        if len(self.timelines) >= 8:
            raise Refused("refused timelines 8")

    def command(self, words):
        first = words[0]
        if first == b"new" and len(words) == 3:
            name, kind = name_of(words[1]), "pq" if words[2] == b"pqf" else kind_of(words[2])
            self.free(name)
            self.timelines[name] = Timeline(name, kind, [], 1)
            return ["ok"]
        if first == b"mute" and len(words) == 2:
            raise Refused("refused no follower %d" % natural(words[1], 0, 2**32 - 1))
        if first == b"save" and len(words) == 2:
            return self.saved(self.named(name_of(words[1])))
        if first == b"timeline" and words[3] == b"next" and (len(words) == 5 or (len(words) == 7 and words[5] == b"rows")):
            count = natural(words[6], 0, MOST_ROWS) if len(words) == 7 else None
            self.block = (name_of(words[1]), kind_of(words[2]), natural(words[4], 1, NEXT_LIMIT), count, [])
            return []
        name, verb = name_of(first), words[1]
        if verb in (b"undo", b"redo") and len(words) == 2:
            return self.named(name).back(verb == b"undo")
        if verb == b"delete" and len(words) == 3:
            wanted = row_number(words[2])
            timeline = self.named(name)
            place, _ = timeline.place(("before", wanted))
            return timeline.step([(False, place, timeline.rows[place])], "ok")
        if verb == b"move" and len(words) == 5 and words[3] == b"at":
            wanted, time = row_number(words[2]), natural(words[4], 0, 2**64 - 1)
            timeline = self.named(name)
            place, _ = timeline.place(("before", wanted))
            timeline.room()
            return timeline.correct(place, time, timeline.rows[place][2], lambda rows: place_at(rows, time))
        if verb == b"change":
            wanted, op = row_number(words[2]), op_of(words[3:])
            timeline = self.named(name)
            if OPS[op[0]][0] != timeline.kind:
                raise Refused("refused kind")
            place, time = timeline.place(("before", wanted))
            timeline.room()
            return timeline.correct(place, time, op, lambda rows: place)
        if verb == b"fate" and len(words) == 3:
            wanted = row_number(words[2])
            timeline = self.named(name)
            return [timeline.fate(timeline.place(("before", wanted))[0])]
        if verb in (b"at", b"before", b"after"):
            moment, op = moment_of(words[1:3]), op_of(words[3:])
            timeline = self.named(name)
            if OPS[op[0]][0] != timeline.kind:
                raise Refused("refused kind")
            place, time = timeline.place(moment)
            timeline.room()
            return timeline.step([(True, place, (timeline.next, time, op))], "ok #%d" % timeline.next)
        if verb == b"ask":
            moment = None
            asked = words[2:]
            if asked and asked[0] in (b"at", b"before", b"after"):
                moment, asked = moment_of(asked[:2]), asked[2:]
            question = question_of(asked)
            timeline = self.named(name)
            if timeline.kind not in QUESTIONS[question[0]][0]:
                raise Refused("refused kind")
            place = len(timeline.rows) if moment is None else timeline.place(moment)[0]
            return [answer(timeline.kind, replay(timeline.rows[:place])[0], question)]
        raise NotInGrammar

    def saved(self, timeline):
        head = "timeline %s %s next %d rows %d" % (timeline.name, timeline.kind, timeline.next, len(timeline.rows))
        return [head] + ["#%d %d %s" % (row[0], row[1], op_text(row[2])) for row in timeline.rows] + ["end"]

    def close(self, ended):
        """The answers of a block at its close, or at the end of the input."""
        if self.block is None:
            return []
        name, kind, following, count, lines = self.block
        self.block = None
        try:
            self.free(name)
            rows, seen, state = [], set(), []
            for index, words in enumerate(lines, 1):
                if index > MOST_ROWS:
                    raise Refused("refused full")
                try:
                    if words is None or len(words) < 3:
                        raise NotInGrammar
                    row = (row_number(words[0]), natural(words[1], 0, 2**64 - 1), op_of(words[2:]))
                except NotInGrammar:
                    raise Refused("refused row %d syntax" % index) from None
                if OPS[row[2][0]][0] != kind:
                    raise Refused("refused row %d kind" % index)
                if row[0] in seen:
                    raise Refused("refused row %d number" % index)
                if rows and row[1] < rows[-1][1]:
                    raise Refused("refused row %d time" % index)
                state = perform(state, row)
                if state is None:
                    raise Refused("refused row %d replay" % index)
                rows.append(row)
                seen.add(row[0])
            if not ended:
                raise Refused("refused unfinished")
            if any(n >= following for n in seen):
                raise Refused("refused next")
            if count is not None and count != len(rows):
                raise Refused("refused rows")
        except Refused as refusal:
            return [str(refusal)]
        self.timelines[name] = Timeline(name, kind, rows, following)
        told = [evidence(name, rows[:i], (True, i, row)) for i, row in enumerate(rows)] if kind == "pq" else []
        return ["ok"] + told


class Followers:
    """Who follows a script: a tally of the changes, and where a name is followed what its priority queue holds, which is found by replay."""

    def __init__(self, words):
        self.left = [word is not None for word in words]
        self.name = words[1] if len(words) > 1 else None
        self.gains = self.losses = self.sum = 0

    def hear(self, texts):
        """Takes the changes among answers."""
        for text in texts:
            if text.startswith("edit "):
                what, _, key = text.split()[-3:]
                self.gains += what == "gain"
                self.losses += what == "lose"
                self.sum += int(key) if what == "gain" else -int(key)

    def report(self, index, bench):
        if index == 0:
            return "report 0 gains %d losses %d sum %d" % (self.gains, self.losses, self.sum)
        timeline = bench.timelines.get(self.name)
        state = replay(timeline.rows)[0] if timeline and timeline.kind == "pq" else []
        return "report %d mirror %s %s" % (index, self.name, " ".join(str(key) for key, _ in state) or "empty")

    def muted(self, bench, line):
        """The report that a line asks for, if it mutes one who is left."""
        words = [word for word in line.split(b" ") if word]
        if bench.block is not None or len(line) > 4_096 or len(words) != 2 or words[0] != b"mute":
            return None
        try:
            index = natural(words[1], 0, 2**32 - 1)
        except NotInGrammar:
            return None
        if index >= len(self.left) or not self.left[index]:
            return None
        self.left[index] = False
        return self.report(index, bench)


def output(script, words=("run",)):
    """The answers of a whole script, as a list with one text a line of the script and one for the end of the input, and whether one is a refusal."""
    bench, texts, refused = Bench(), [], False
    followers = Followers(words if words[0] == "follow" else [])
    pieces = script.split(b"\n")
    if pieces[-1] == b"":
        pieces.pop()
    for piece in pieces:
        line = piece[:-1] if piece.endswith(b"\r") else piece
        muted = followers.muted(bench, line)
        given = bench.line(line) if muted is None else [muted]
        followers.hear(given)
        refused |= any(text.startswith("refused") for text in given)
        texts.append("".join(text + "\n" for text in given).encode())
    given = bench.close(False)
    refused |= bool(given)
    given += [followers.report(index, bench) for index, left in enumerate(followers.left) if left]
    texts.append("".join(text + "\n" for text in given).encode())
    return texts, refused
