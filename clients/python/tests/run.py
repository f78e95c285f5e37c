#!/usr/bin/env python3
"""Runs the tests of the client on the built program.

    python3 clients/python/tests/run.py [PROGRAM [LINES]]

PROGRAM is build/retro where none is named. LINES is how many drawn lines `drawn.py` sends (1,000,000). The last line says how many tests have
passed and how many failed.
"""

import faulthandler
import os
import sys
import unittest

HERE = os.path.dirname(os.path.abspath(__file__))
ROOT = os.path.dirname(os.path.dirname(os.path.dirname(HERE)))
LIMIT = 600  # seconds that a test may take; then the run ends, and says where that test stood
MODULES = (
    "grammar_tests", "batches_tests", "conversation_tests", "rows_tests", "events_tests", "picture_tests", "command_tests", "typing_tests",
    "interruption_tests", "asynchronous_tests", "drawn", "example_tests", "explain_tests", "checking_tests", "looking_tests", "journal_tests",
    "table_tests", "page_tests", "cluster_tests", "pool_tests",
)


class Watched(unittest.TextTestResult):
    """What has become of the tests. Each has its own time."""

    def startTest(self, test: unittest.TestCase) -> None:
        faulthandler.dump_traceback_later(LIMIT, exit=True)
        super().startTest(test)


def main() -> None:
    os.environ["RETRO"] = os.path.abspath(sys.argv[1] if len(sys.argv) > 1 else os.path.join(ROOT, "build", "retro"))
    os.environ["DRAWN_LINES"] = sys.argv[2] if len(sys.argv) > 2 else "1000000"
    os.environ["PYTHONPATH"] = os.path.dirname(HERE)
    os.environ["PYTHONDONTWRITEBYTECODE"] = "1"
    sys.dont_write_bytecode = True
    sys.path[:0] = [HERE, os.path.dirname(HERE), os.path.join(ROOT, "tests", "hostile")]
    tests = unittest.TestLoader().loadTestsFromNames(MODULES)
    done = unittest.TextTestRunner(stream=sys.stdout, verbosity=0, resultclass=Watched).run(tests)
    failed = len(done.failures) + len(done.errors)
    print("%d passed, %d failed" % (done.testsRun - failed, failed))
    sys.exit(1 if failed or not done.testsRun else 0)


if __name__ == "__main__":
    main()
