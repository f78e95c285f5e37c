#!/usr/bin/env python3
"""Sees that each crate's front page names every file beside it, and that each file says in its first line what it holds.

    python3 tests/maps.py

It prints each module that the front page of its crate does not name in backquotes, and each file without a first line `//!`; the last
line says how many modules there are.
"""

import glob
import os
import re
import sys

ROOT = os.path.dirname(os.path.dirname(os.path.abspath(__file__)))
MODULE = re.compile(r"^(?:pub )?mod (\w+);", re.M)


def main():
    bad, count = [], 0
    for page in sorted(glob.glob(os.path.join(ROOT, "crates/*/src/lib.rt"))):
        text = open(page, encoding="utf-8").read()
        front = "\n".join(line for line in text.split("\n") if line.startswith("//!"))
        modules = MODULE.findall(text)
        count += len(modules)
        bad += ["%s does not name `%s`" % (page, module) for module in modules if "`%s`" % module not in front]
    for path in sorted(glob.glob(os.path.join(ROOT, "crates/*/src/**/*.rt"), recursive=True)):
        if not open(path, encoding="utf-8").readline().startswith("//! "):
            bad.append("%s does not say what it holds" % path)
    for line in bad:
        print(line.replace(ROOT + "/", ""))
    print("%d modules, each named on the front page of its crate" % count if not bad else "%d to mend" % len(bad))
    return 1 if bad else 0


if __name__ == "__main__":
    sys.exit(main())
