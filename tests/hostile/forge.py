#!/usr/bin/env python3
"""Forges evidence, and has each forgery judged by `retro check` and by a second judge that shares no code with it.

    python3 tests/hostile/forge.py [PROGRAM [FORGERIES [SEED]]]

PROGRAM is build/retro where none is named, FORGERIES 100000, SEED 1. Honest evidence is written here too, by replay, in
eight shapes. Each forgery changes a byte, a word or what a line says, or drops, doubles, moves or swaps lines, or takes lines
of another history. One in fifty has one line too many for a timeline that is full of rows which all add; there the second judge
does not replay, since all entries survive and every place is a bridge. Both judges have to give the same line and the same cause,
or the same count; else the forgery is kept in a file and named, and the status is 1. The last lines say how many were judged, by
cause.
"""

import collections
import multiprocessing
import os
import random
import re
import subprocess
import sys

ROOT = os.path.dirname(os.path.dirname(os.path.dirname(os.path.abspath(__file__))))

# ---------------------------------------------------------------- the second judge: it replays, and knows no weights

RESERVED = {b"new", b"save", b"timeline", b"end", b"edit", b"mute"}
WHOLE, SIGNED = rb"(0|[1-9][0-9]*)", rb"(0|-?[1-9][0-9]*)"
FORM = re.compile(
    rb"edit ([A-Za-z][A-Za-z0-9_-]{0,31}) (add|cut) " + WHOLE + rb" #" + WHOLE + rb" (?:(delmin)|ins " + SIGNED
    + rb") bridge (?:(none)|" + WHOLE + rb") (gain|lose) #" + WHOLE + rb" " + SIGNED)


def read(line):
    """What a line says: name, edit, place, number, key or None, bridge or None, word, entry; or None where it is no spelling."""
    form = FORM.fullmatch(line)
    if len(line) > 4096 or form is None:
        return None
    name, edit, place, number, _, key, none, bridge, word, other, changed = form.groups()
    place, number, other, changed = int(place), int(number), int(other), int(changed)
    key, bridge = (value if value is None else int(value) for value in (key, bridge))
    keys = [changed] if key is None else [changed, key]
    fits = (name not in RESERVED and max(place, bridge or 0) < 2**32 and all(0 < n < 2**24 for n in (number, other))
            and all(-(2**63) <= k < 2**63 for k in keys) and not (none and word == b"gain"))
    return (name, edit, place, number, key, bridge, word, (changed, other)) if fits else None


def replay(rows):
    """What is held at each place, or None where a row finds nothing to take."""
    held, states = [], [()]
    for number, key in rows:
        if key is not None:
            held.append((key, number))
        elif held:
            held.remove(min(held))
        else:
            return None
        states.append(tuple(held))
    return states


def change(rows, edit, place, number, key):
    """The rows after an edit with its bridge, its word and its entry; or None where they do not replay."""
    states = replay(rows)
    present = set(states[-1])
    after = rows[:place] + [(number, key)] + rows[place:] if edit == b"add" else rows[:place] + rows[place + 1:]
    edited = replay(after)
    if edited is None:
        return None
    gained, lost = set(edited[-1]) - present, present - set(edited[-1])
    is_bridge = [present.issuperset(state) for state in states]
    if (edit == b"add") == (key is not None):
        bridge = max(p for p in range(place + 1) if is_bridge[p])
    elif edit == b"cut" and (key, number) in present:
        bridge = None
    else:
        start = place if edit == b"add" else place + 1
        bridge = min(p for p in range(start, len(rows) + 1) if is_bridge[p])
    (entry,) = gained or lost
    return after, bridge, b"gain" if gained else b"lose", entry


def cause(told, line):
    """The first cause against a line of evidence, or None; what it tells is noted where there is none."""
    said = read(line)
    if said is None:
        return "syntax"
    name, edit, place, number, key, bridge, word, entry = said
    if name not in told and len(told) == 8:
        return "timelines"
    rows = told.get(name, [])
    if place > len(rows) or (edit == b"cut" and place == len(rows)):
        return "place"
    if edit == b"add" and any(number == other for other, _ in rows) or edit == b"cut" and rows[place][0] != number:
        return "number"
    if edit == b"cut" and rows[place][1] != key:
        return "row"
    made = change(rows, edit, place, number, key)
    if made is None:
        return "replay"
    if made[1] != bridge:
        return "bridge"
    if made[2:] != (word, entry):
        return "entry"
    told[name] = made[0]
    return None


def judge(text):
    """The line of a judgement."""
    told, accepted = {}, 0
    lines = text.split(b"\n")
    for at, line in enumerate(lines if lines[-1] else lines[:-1]):
        line = line[:-1] if line.endswith(b"\r") else line
        if line.startswith(b"edit "):
            why = cause(told, line)
            if why:
                return "refused line %d %s" % (at + 1, why)
            accepted += 1
    return "accepted %d" % accepted


# ---------------------------------------------------------------- honest evidence, of each shape

SHAPES = ["growing", "anywhere", "equal keys", "great keys", "eight timelines", "taken back", "many taken", "numbers in no order"]
KEYS = {"equal keys": (0, 2), "great keys": (-(2**63), 2**63 - 1)}


def spelled(name, edit, place, number, key, made):
    op = b"delmin" if key is None else b"ins %d" % key
    bridge = b"none" if made[1] is None else b"%d" % made[1]
    return b"edit %s %s %d #%d %s bridge %s %s #%d %d" % (name, edit, place, number, op, bridge, made[2], made[3][1], made[3][0])


def honest(draw, shape):
    """The lines of an honest history, with some answers that are none between them."""
    names = [b"p", b"q", b"orders", b"a-1", b"B_2", b"c", b"d", b"e"][:8 if shape == "eight timelines" else draw.choice([1, 1, 2])]
    histories, lines, last = {name: [] for name in names}, [], {}
    for step in range(draw.randrange(4, 26) + 2 * len(names)):
        name = draw.choice(names)
        rows = histories[name]
        if rows and shape != "growing" and draw.random() < (0.5 if shape == "taken back" else 0.25):
            at = draw.randrange(len(rows)) if shape != "taken back" else last[name]
            at = min(at, len(rows) - 1)
            edit, place, (number, key) = b"cut", at, rows[at]
        else:
            edit, place = b"add", len(rows) if shape == "growing" else draw.randrange(len(rows) + 1)
            number = step + 1 if shape != "numbers in no order" else draw.choice([n for n in range(1, 90) if n not in dict(rows)])
            taken = draw.random() < (0.55 if shape == "many taken" else 0.35)
            key = None if taken else draw.randint(*KEYS.get(shape, (-20, 60)))
        made = change(rows, edit, place, number, key)
        if made is None:
            continue
        lines.append(spelled(name, edit, place, number, key, made))
        histories[name], last[name] = made[0], place
        if draw.random() < 0.1:
            lines.append(draw.choice([b"ok", b"= 5", b"refused syntax", b"", b" edit p add"]))
    return lines


# ---------------------------------------------------------------- forgeries

BYTES = bytes(range(256)) + 12 * b"0123456789" + 6 * b" #-\r\n"
WORDS = [b"add", b"cut", b"ins", b"delmin", b"gain", b"lose", b"none", b"bridge", b"edit", b"p", b"q", b"", b"0", b"1", b"#1", b"#2",
         b"-1", b"-0", b"01", b"4294967295", b"4294967296", b"#16777215", b"#16777216", b"9223372036854775807",
         b"9223372036854775808", b"-9223372036854775808", b"-9223372036854775809", b"mute", b"z" * 32, b"z" * 33, b"z" * 4097]


def nearby(draw, word):
    """A word like this one: a number one more or less, or another word."""
    form = re.fullmatch(rb"(#?)(-?[0-9]+)", word)
    if form and draw.random() < 0.7:
        return form.group(1) + b"%d" % (int(form.group(2)) + draw.choice([-2, -1, 1, 2]))
    return draw.choice(WORDS)


def otherwise(draw, way, line):
    """Evidence that says the other edit, the other word, or another operation or name."""
    if way == "another name":
        return re.sub(rb"^edit \S+", b"edit " + draw.choice([b"p", b"q", b"r", b"s", b"c", b"z"]), line)
    if way == "another operation":
        if b" delmin " in line:
            return line.replace(b" delmin ", b" ins %d " % draw.randrange(-20, 60))
        return re.sub(rb" ins \S+ ", b" delmin ", line)
    for one, other in ((b" add ", b" cut "), (b" gain ", b" lose ")):
        if draw.random() < 0.6:
            line = line.replace(other, one) if other in line else line.replace(one, other)
    return line


WAYS = ["byte", "word", "word", "word", "two words", "another edit", "another name", "another operation", "another operation",
        "dropped", "dropped", "doubled", "swapped", "moved", "mixed"]


def forge(draw, lines, others):
    """The text of a forgery, and how it was made."""
    lines = list(lines) or [b""]
    way = draw.choice(WAYS)
    at = draw.randrange(len(lines))
    if way == "byte":
        text = bytearray(b"\n".join(lines) + b"\n")
        at, byte = draw.randrange(len(text)), draw.choice(BYTES)
        text[at:at + draw.choice([0, 1, 1, 1])] = bytes([byte])[:draw.choice([0, 1, 1, 1])]
        return bytes(text), way
    if way in ("word", "two words"):
        words = lines[at].split(b" ")
        for _ in range(1 if way == "word" else 2):
            spot = draw.randrange(len(words))
            words[spot] = nearby(draw, words[spot])
        lines[at] = b" ".join(words)
    elif way.startswith("another"):
        lines[at] = otherwise(draw, way, lines[at])
    elif way == "dropped":
        del lines[at]
    elif way == "doubled":
        lines.insert(draw.randrange(at, len(lines)) + 1, lines[at])
    elif way == "swapped":
        other = draw.randrange(len(lines))
        lines[at], lines[other] = lines[other], lines[at]
    elif way == "moved":
        lines.insert(draw.randrange(len(lines)), lines.pop(at))
    else:
        cut = draw.randrange(len(others) + 1)
        lines = lines[:at] + others[cut:] if draw.random() < 0.5 else lines[:at] + others[cut:cut + 2] + lines[at:]
    return b"\n".join(lines) + draw.choice([b"\n", b"\n", b""]), way


# ---------------------------------------------------------------- a full timeline

MOST = 131_072


def filled():
    """Evidence that fills a timeline, each row after all others and none of which takes: the keys of its rows by number, and its text."""
    draw = random.Random(MOST)
    keys = [None] + [draw.randrange(-1000, 1000) for _ in range(MOST)]
    text = b"".join(b"edit p add %d #%d ins %d bridge %d gain #%d %d\n" % (n - 1, n, keys[n], n - 1, n, keys[n]) for n in range(1, MOST + 1))
    return keys, text


def beyond(draw, keys):
    """Lines after those of a full timeline, of which the last one is refused, and its cause."""
    keys, rows, lines = list(keys), list(range(1, MOST + 1)), []
    for _ in range(draw.randrange(3)):
        place = draw.randrange(MOST)
        number = rows.pop(place)
        lines.append(b"edit p cut %d #%d ins %d bridge none lose #%d %d" % (place, number, keys[number], number, keys[number]))
        place, number, key = draw.randrange(MOST), len(keys), draw.randrange(-1000, 1000)
        rows.insert(place, number)
        keys.append(key)
        lines.append(b"edit p add %d #%d ins %d bridge %d gain #%d %d" % (place, number, key, place, number, key))
    place = draw.randrange(MOST)
    way = draw.choice(["full", "full", "full", "full", "row", "number"])
    if way == "full":
        op = draw.choice([b"delmin", b"ins %d" % draw.randrange(-1000, 1000)])
        at, number = draw.choice([place, MOST, MOST + 1]), draw.choice([len(keys), rows[place]])
        lines.append(b"edit p add %d #%d %s bridge %d gain #%d 5" % (at, number, op, place, number))
    else:
        number, op = (rows[place], b"delmin") if way == "row" else (len(keys), b"ins %d" % keys[rows[place]])
        lines.append(b"edit p cut %d #%d %s bridge none lose #%d 5" % (place, number, op, number))
    return b"".join(line + b"\n" for line in lines), "refused line %d %s" % (MOST + len(lines), way)


def compared_beyond(work):
    """The same as `compared` of forgeries that are judged after a full timeline."""
    program, seed, count = work
    draw = random.Random(seed)
    keys, text = filled()
    counts, differ = collections.Counter(), []
    for _ in range(count):
        tail, said = beyond(draw, keys)
        run = subprocess.run([program, "check"], input=text + tail, stdout=subprocess.PIPE)
        counts.update([("way", "after a full timeline"), ("cause", said.split()[-1])])
        if run.stdout != said.encode() + b"\n":
            differ.append((text + tail, "%s, and the program says %r" % (said, run.stdout)))
    return counts, differ


def judged(work):
    """One share, of either form."""
    way, work = work
    return way(work)


def compared(work):
    """Judges the forgeries of one share, nine of each honest history: counts by shape, way and cause, and where the judges differ."""
    program, seed, count = work
    draw = random.Random(seed)
    counts, differ = collections.Counter(), []
    for done in range(count):
        if done % 9 == 0:
            shape = draw.choice(SHAPES)
            lines, others = honest(draw, shape), honest(draw, draw.choice(SHAPES))
            tried = [(b"".join(line + b"\n" for line in lines), "honest"), forge(draw, lines, others)]
        else:
            tried = [forge(draw, lines, others)]
        for text, way in tried:
            said = judge(text)
            run = subprocess.run([program, "check"], input=text, stdout=subprocess.PIPE)
            counts.update([("shape", shape), ("way", way), ("cause", said.split()[-1] if said.startswith("refused") else "accepted")])
            if way == "honest" and not said.startswith("accepted"):
                differ.append((text, "honest evidence is refused: " + said))
            if run.stdout != said.encode() + b"\n":
                differ.append((text, "%s, and the program says %r" % (said, run.stdout)))
    return counts, differ


def main():
    program = os.path.abspath(sys.argv[1] if len(sys.argv) > 1 else os.path.join(ROOT, "build", "retro"))
    count = int(sys.argv[2]) if len(sys.argv) > 2 else 100_000
    seed = int(sys.argv[3]) if len(sys.argv) > 3 else 1
    size = 500
    shares = [(program, seed * 1_000_003 + share, min(size, count - share * size)) for share in range((count + size - 1) // size)]
    after, few = count // 50, 25
    works = [(compared, share) for share in shares]
    works += [(compared_beyond, (program, seed * 1_000_003 - 1 - share, min(few, after - share * few))) for share in range((after + few - 1) // few)]
    counts, differ = collections.Counter(), []
    with multiprocessing.Pool() as pool:
        for some, wrong in pool.imap_unordered(judged, works):
            counts += some
            differ += wrong
    for kind in ("shape", "way", "cause"):
        print("by %s:" % kind, ", ".join("%s %d" % (name, n) for (of, name), n in counts.most_common() if of == kind))
    for at, (text, why) in enumerate(differ[:10]):
        with open("forgery-%d.evidence" % at, "wb") as kept:
            kept.write(text)
        print("forgery-%d.evidence: %s" % (at, why))
    same = counts["way", "honest"]
    print("%d honest histories and %d forgeries judged, %s" % (same, count + after, "%d otherwise" % len(differ) if differ else "all agreed"))
    sys.exit(1 if differ else 0)


if __name__ == "__main__":
    main()
