#!/usr/bin/env python3
"""Lists the lemmas that say the same under two names, or twice under one, and why each such group stands.

    python3 tests/twins.py [--list]

Two lemmas say the same where their statements differ in nothing but the names of what they bind. What a file defines for itself
is told apart by the file. There are two reasons for such a group: all of it but one lemma stands inside other lemmas or in the
proofs of single functions, from where nothing else can cite it; or the lemmas stand in crates of which neither can cite the other,
since a crate cites the `specs/` of those below it alone, and a page for two crates would cost more than a lemma of a few lines.
Without `--list` it prints one line with the number of each. It fails where a group has no reason.
"""

import collections
import glob
import os
import re
import sys

ROOT = os.path.dirname(os.path.dirname(os.path.abspath(__file__)))
NAMED = re.compile(r"^( *)(?:pub )?([^\s:(){}]+) : (.+)$")
BOUND = re.compile(r"[({]([^\s(){}:,]+(?: [^\s(){}:,]+)*) : |λ ([^.()]+)\. ")
WORD = re.compile(r"[^\s(){},;]+")
INSIDE, APART = "inside another proof", "in crates apart"


def statements(path):
    """The name, the line and the statement of each lemma of a file: a name with a type, and below it what the name is."""
    lines = open(path, encoding="utf-8").read().split("\n")
    for number, line in enumerate(lines):
        found = NAMED.match(line)
        if not found or line.lstrip().startswith("--"):
            continue
        indent, name, statement = found.groups()
        after = number + 1
        while after < len(lines) and lines[after].startswith(indent + "    ") and " = " not in lines[after]:
            statement += " " + lines[after].strip()
            after += 1
        defined = after < len(lines) and re.match(re.escape(indent + name) + r"[ (]", lines[after])
        if defined and not re.match(r"\s*abbrev ", line) and re.search("[≡≤<≢⊎]| Is[A-Z]", statement):
            yield name, number + 1, statement


def normal(statement, own):
    """The statement with what it binds renamed in the order of binding, and with what the file defines marked as its own."""
    names = {}
    for group in BOUND.findall(statement):
        for word in (group[0] or group[1]).split():
            names.setdefault(word, "x%d" % len(names))

    def renamed(found):
        word, dot, rest = found.group().partition(".")
        head = names.get(word) or own.get(word, word)
        return head + dot + rest

    return WORD.sub(renamed, statement)


def groups():
    """The places of the lemmas with one statement, for each statement that has more than one."""
    said = collections.defaultdict(list)
    for path in sorted(glob.glob(os.path.join(ROOT, "crates", "*", "*", "**", "*.antt"), recursive=True)):
        where = os.path.relpath(path, ROOT)
        if "/out/" in path:
            continue
        found = list(statements(path))
        text = open(path, encoding="utf-8").read()
        defined = re.findall(r"^ *abbrev (?:pub )?([^\s:(){}]+) :", text, re.M)
        own = {word: "%s.%s" % (where, word) for word in defined}
        for name, line, statement in found:
            said[normal(statement, own)].append("%s:%d %s" % (where, line, name))
    return [places for places in said.values() if len(places) > 1]


def below():
    """For each crate those that it stands on."""
    with open(os.path.join(ROOT, "crates.txt")) as lines:
        return {crate: set(on.split()) for crate, on in (line.split(":") for line in lines if ":" in line)}


def is_inside(place):
    """Whether a lemma stands inside another one, or in the proof of a function."""
    path, number = place.split(" ")[0].split(":")
    with open(os.path.join(ROOT, path), encoding="utf-8") as lines:
        return path.endswith("/Answers.antt") or lines.read().split("\n")[int(number) - 1].startswith(" ")


def cites(one, other, stand):
    """Whether the file of one lemma could cite the other lemma."""
    (_, crate, *_), (_, home, folder, *_) = one.split("/"), other.split("/")
    return crate == home or home in stand[crate] and folder == "specs"


def reason(places, stand):
    """Why a group of lemmas with one statement stands, or None."""
    outer = [place for place in places if not is_inside(place)]
    if len(outer) < 2:
        return INSIDE
    if not any(cites(one, other, stand) for one in outer for other in outer if one != other):
        return APART
    return None


def main():
    twins, stand = groups(), below()
    reasons = [reason(places, stand) for places in twins]
    for places, why in sorted(zip(twins, reasons), key=lambda pair: len(pair[0]), reverse=True):
        if "--list" in sys.argv[1:] or why is None:
            print("\n".join(places + ["  " + (why or "no reason: one of them could cite the other")]), end="\n\n")
    print("%d statements stand more than once, with %d lemmas too many: %d inside another proof, %d in crates apart, %d without a reason" % (
        len(twins), sum(map(len, twins)) - len(twins), reasons.count(INSIDE), reasons.count(APART), reasons.count(None)))
    return 1 if None in reasons else 0


sys.exit(main())
