#!/usr/bin/env python3
"""Measures the slowest single line of a history: each line is handed over alone, and its processor time is what Linux counts for it.

    python3 bench/slowest.py PROGRAM KIND ROWS

It prints, in milliseconds, the greatest time of a row at the end while a history grows from nothing to so many rows, and of 20,000
edits at random times after that, each with the number of rows that the history then had.
"""

import sys

import measure
from phases import History

EDITS = 20_000


def slowest(peer, lines, rows):
    """The greatest milliseconds of one of these lines, and how many rows there were before it."""
    worst = (0.0, rows)
    for line in lines:
        before = peer.seconds()
        answer = peer.answers([line])
        took = (peer.seconds() - before) * 1e3
        if answer.startswith(b"refused"):
            raise measure.Answered(answer)
        worst = max(worst, (took, rows))
        rows += -1 if " delete " in line else 1
    return worst


def main():
    program, kind, rows = sys.argv[1], sys.argv[2], int(sys.argv[3])
    history = History(kind, rows)
    peer = measure.Peer([program, "run"])
    peer.answers(["new g %s" % kind])
    for name, lines, start in (("at the end", history.history, 0), ("an edit", lambda: history.lines("edit", EDITS), rows)):
        took, at = slowest(peer, lines(), start)
        print("%s, %s: %.2f ms, at %d rows" % (kind, name, took, at))
    peer.end()


if __name__ == "__main__":
    main()
