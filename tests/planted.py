#!/usr/bin/env python3
"""python3 tests/planted.py [CRATE..]: wrong bodies that the prover refuses, tried crate by crate on a copy of the tree.

A file of tests/planted/CRATE/ is one wrong body in the form of a must-fail edit. They stand outside the gate, where each crate with one such edit
would be proved once more. The copy stands below build/ while this runs, over what was proved before, as `make libraries` leaves it; the edits of
a crate are tried by the tool itself. Ends with how many were refused, how many passed, and how many could not be applied.
"""

import os
import re
import shutil
import subprocess
import sys
from typing import Dict, List

EDITS = "tests/planted"
COPY = "build/planted"
VERDICTS = {"refused": "refused, as it must be", "passed": "NOT REFUSED", "not applied": "BAD EDIT"}


def link(file: str, to: str) -> None:
    """Gives a file a second name, where the file system has links: the tool replaces such a file, and never writes into it."""
    try:
        os.link(file, to)
    except OSError:
        shutil.copy2(file, to)


def copy_tree() -> None:
    """Copies the sources, and what was built and proved of each crate, without any edit of the gate."""
    shutil.rmtree(COPY, ignore_errors=True)
    os.makedirs(COPY)
    for name in ("crates.txt", "HANDLES"):
        shutil.copy(name, COPY)
    for crate in os.listdir("crates"):
        for part in ("src", "specs", "proofs"):
            if os.path.isdir(f"crates/{crate}/{part}"):
                shutil.copytree(f"crates/{crate}/{part}", f"{COPY}/crates/{crate}/{part}")
        for part in ("out/rlib", "out/incremental"):
            if os.path.isdir(f"crates/{crate}/{part}"):
                shutil.copytree(f"crates/{crate}/{part}", f"{COPY}/crates/{crate}/{part}", copy_function=link)


def try_edits(crate: str) -> Dict[str, List[str]]:
    """Tries the edits of one crate; gives the names of those with each verdict."""
    edits = sorted(os.listdir(f"{EDITS}/{crate}"))
    shutil.copytree(f"{EDITS}/{crate}", f"{COPY}/crates/{crate}/must-fail")
    ran = subprocess.run(["rt", "must-fail", crate], cwd=COPY, stdin=subprocess.DEVNULL, capture_output=True, text=True, errors="replace", check=False)
    shutil.rmtree(f"{COPY}/crates/{crate}/must-fail")
    found: Dict[str, List[str]] = {verdict: [] for verdict in VERDICTS}
    for edit in edits:
        said = re.search(rf"^.*must-fail {crate}/{re.escape(edit)}: (.*)$", ran.stdout + ran.stderr, re.MULTILINE)
        text = said[1] if said else "BAD EDIT: the tool said nothing of it:\n" + (ran.stdout + ran.stderr)[-1000:]
        verdict = next((verdict for verdict, words in VERDICTS.items() if text.startswith(words)), "not applied")
        found[verdict].append(edit)
        if verdict != "refused":
            print(f"{crate}/{edit}: {text}")
    print(f"{crate}: " + ", ".join(f"{len(names)} {verdict}" for verdict, names in found.items()), flush=True)
    return found


def main(crates: List[str]) -> int:
    here = sorted(os.listdir(EDITS))
    unknown = [crate for crate in crates if crate not in here]
    if unknown:
        print(f"{EDITS} has no edits of {', '.join(unknown)}")
        return 2
    counts = dict.fromkeys(VERDICTS, 0)
    try:
        copy_tree()
        for crate in crates or here:
            for verdict, names in try_edits(crate).items():
                counts[verdict] += len(names)
    finally:
        shutil.rmtree(COPY, ignore_errors=True)
    print(", ".join(f"{count} {verdict}" for verdict, count in counts.items()))
    return 0 if counts["refused"] == sum(counts.values()) else 1


if __name__ == "__main__":
    sys.exit(main(sys.argv[1:]))
