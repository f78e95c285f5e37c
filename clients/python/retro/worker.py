"""A worker of `answer_divided`: makes one call of `Part` after another, in a process beside the one that asks for them.

    python3 -I -S worker.py KEPT SCRIPT WRITTEN OTHERS.. < CALLS > TOLD

The words are the numbers of open files: the worker's own, and those that it reads. Of the package it takes the modules that it needs alone, so
that it starts in some hundredths of a second.
"""

import gc
import importlib
import marshal
import os
import signal
import sys
import types


def main() -> None:
    """Makes the calls of standard input, and ends where that ends. An error of the system is told; with any other the worker ends."""
    package = types.ModuleType("retro")
    package.__path__ = [os.path.dirname(os.path.abspath(__file__))]
    sys.modules["retro"] = package
    files = [int(word) for word in sys.argv[1:]]
    for file in files:
        os.set_inheritable(file, False)
    gc.disable()  # nothing that is made here stands in a circle
    signal.signal(signal.SIGPIPE, signal.SIG_DFL)
    signal.signal(signal.SIGCHLD, signal.SIG_DFL)  # else what has ended could not be waited for
    part = importlib.import_module("retro.part").Part(*files[:3])
    while True:
        try:
            call, arguments = marshal.load(sys.stdin.buffer)
        except EOFError:
            return
        try:
            told = True, getattr(part, call)(*arguments)
        except OSError as error:
            told = False, (error.errno, error.strerror, error.filename)
        marshal.dump(told, sys.stdout.buffer)
        sys.stdout.buffer.flush()


if __name__ == "__main__":
    main()
