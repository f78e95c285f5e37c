#!/usr/bin/env python3
"""Runs every recipe of docs/RECIPES.md as it stands there, and compares what each command prints with the page.

    python3 tests/recipes.py [PROGRAM [TOOL]]

PROGRAM is build/retro where none is named. With a TOOL only the sections with a remark `integration: TOOL` are run, which the others leave to
`make integrations`. Each section is run in a folder of its own, by one shell. A block whose heading has a
second word is the file of that name; in a block `console` a line after `$ ` is typed, one after `> ` goes on with it, and what stands
below is printed. A section with a remark `needs: COMMAND` is left out where that command ends with status 2.
"""

import os
import re
import shlex
import subprocess
import sys
import tempfile

ROOT = os.path.dirname(os.path.dirname(os.path.abspath(__file__)))
PAGE = os.path.join(ROOT, "docs", "RECIPES.md")
CLIENT = os.path.join(ROOT, "clients", "python")
LIMIT = 60  # seconds that a section may take, and with a tool fifteen times as long
MARK = "-- end of a command --"


def sections():
    """The sections of the page with their titles."""
    with open(PAGE) as page:
        parts = re.split(r"^## (.*)\n", page.read(), flags=re.M)
    return list(zip(parts[1::2], parts[2::2]))


def blocks(text):
    """The blocks of a section: their words and their text."""
    return [(words.split(), body) for words, body in re.findall(r"^```(.+)\n((?:.*\n)*?)```$", text, flags=re.M)]


def commands(body):
    """What is typed in a console block, and what is printed then."""
    pairs = []
    for line in body.splitlines():
        if line.startswith("$ "):
            pairs.append([line[2:], ""])
        elif line.startswith("> ") and not pairs[-1][1]:
            pairs[-1][0] += "\n" + line[2:]
        else:
            pairs[-1][1] += line + "\n"
    return pairs


def run(text, places, limit):
    """The commands of a section with what the page and what the shell says, in a new folder."""
    typed = []
    with tempfile.TemporaryDirectory() as folder:
        script = ""
        for words, body in blocks(text):
            if len(words) == 2:
                with open(os.path.join(folder, words[1]), "w") as file:
                    file.write(body)
            elif words == ["console"]:
                typed += commands(body)
        for command, _ in typed:
            script += "%s\nstatus=$?; printf '%%s\\n' %s; (exit $status)\n" % (command, shlex.quote(MARK))
        done = subprocess.run(["sh"], input=script, stdout=subprocess.PIPE, stderr=subprocess.STDOUT, text=True, cwd=folder, timeout=limit,
                              env=dict(os.environ, PATH=places + os.pathsep + os.environ["PATH"], PYTHONPATH=CLIENT, PYTHONDONTWRITEBYTECODE="1", LC_ALL="C"))
    printed = done.stdout.split(MARK + "\n")
    return [(command, wanted, printed[at] if at < len(printed) - 1 else "no end") for at, (command, wanted) in enumerate(typed)]


def main():
    program = os.path.abspath(sys.argv[1] if len(sys.argv) > 1 else os.path.join(ROOT, "build", "retro"))
    tool = sys.argv[2] if len(sys.argv) > 2 else None
    ran = wrong = 0
    with tempfile.TemporaryDirectory() as places:
        os.symlink(program, os.path.join(places, "retro"))
        for title, text in sections():
            wanted_tool = re.search(r"^<!-- integration: (.*) -->$", text, flags=re.M)
            if (wanted_tool and wanted_tool.group(1)) != tool:
                if tool is None:
                    print("left to `make integrations`: %s" % title)
                continue
            needed = re.search(r"^<!-- needs: retro (.*) -->$", text, flags=re.M)
            if needed and subprocess.run([program] + needed.group(1).split(), stdin=subprocess.DEVNULL, stdout=subprocess.DEVNULL).returncode == 2:
                print("left out, since this program has no `retro %s`: %s" % (needed.group(1), title))
                continue
            for command, wanted, printed in run(text, places, LIMIT if tool is None else 15 * LIMIT):
                ran += 1
                if printed != wanted:
                    wrong += 1
                    print("%s:\n$ %s\nprints\n%sin place of\n%s" % (title, command, printed, wanted))
    print("recipes: %d commands, %d print something else" % (ran, wrong))
    sys.exit(1 if wrong or not ran else 0)


if __name__ == "__main__":
    main()
