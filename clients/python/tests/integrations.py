#!/usr/bin/env python3
"""Runs what needs tools that the gate does not ask for: a browser, dask, PostgreSQL; and what takes longer.

    python3 clients/python/tests/integrations.py [PROGRAM]

PROGRAM is build/retro where none is named. First it lists what it found. What is not there is left out, with a line; the last line says how many
of the rest have passed and how many failed.
"""

import contextlib
import glob
import os
import pwd
import shutil
import subprocess
import sys
import tempfile

import browser

HERE = os.path.dirname(os.path.abspath(__file__))
ROOT = os.path.dirname(os.path.dirname(os.path.dirname(HERE)))
KILLS = "1000"
PYTHONS = (sys.executable, "python3", "/usr/bin/python3")


def python_with(module):
    """A Python of this machine that has a module, with the module's version; or None."""
    for name in PYTHONS:
        place = shutil.which(name)
        if place:
            code = "import %s; print(%s.__version__)" % (module, module)
            done = subprocess.run([place, "-c", code], stdout=subprocess.PIPE, stderr=subprocess.DEVNULL, text=True)
            if done.returncode == 0:
                return place, done.stdout.split()[0]
    return None


def postgresql():
    """The folder of the programs of the newest PostgreSQL, or None."""
    named = shutil.which("initdb")
    found = [os.path.dirname(named)] if named else sorted(glob.glob("/usr/lib/postgresql/*/bin"), key=lambda place: int(place.split("/")[4]))
    return found[-1] if found else None


def as_user(words):
    """The words of a command that PostgreSQL refuses to run as the system's owner."""
    if os.getuid() != 0:
        return words
    return ["setpriv", "--reuid=postgres", "--regid=postgres", "--init-groups", "--reset-env", *words]


@contextlib.contextmanager
def database(programs):
    """A database of its own, whose place is in the environment, for as long as the block runs."""
    with tempfile.TemporaryDirectory(ignore_cleanup_errors=True) as folder:
        place = os.path.join(folder, "base")
        os.mkdir(place, 0o700)
        if os.getuid() == 0:
            user = pwd.getpwnam("postgres")
            os.chown(folder, user.pw_uid, user.pw_gid)
            os.chown(place, user.pw_uid, user.pw_gid)
        control = [os.path.join(programs, "pg_ctl"), "-D", place, "-s", "-w", "-l", os.path.join(folder, "log")]
        subprocess.run(as_user([os.path.join(programs, "initdb"), "-D", place, "-A", "trust", "-U", "retro"]), stdout=subprocess.DEVNULL, cwd=folder, check=True)
        options = "-c listen_addresses='' -c unix_socket_directories=%s" % folder
        subprocess.run(as_user([*control, "-o", options, "start"]), cwd=folder, check=True)
        try:
            yield {"PGHOST": folder, "PGUSER": "retro", "PGDATABASE": "postgres"}
        finally:
            subprocess.run(as_user([*control, "-m", "immediate", "stop"]), cwd=folder, check=False)


def environment(**more):
    paths = [os.path.dirname(HERE), HERE, os.path.join(ROOT, "tests", "hostile")]
    return dict(os.environ, PYTHONPATH=os.pathsep.join(paths), PYTHONDONTWRITEBYTECODE="1", INTEGRATIONS="1", **more)


def tests(python, module, **more):
    """Whether the tests of a module pass."""
    return subprocess.run([python, "-W", "ignore", "-m", "unittest", module], env=environment(**more)).returncode == 0


def recipe(python, tool, program, **more):
    """Whether the recipes that need a tool print what stands on their page."""
    with tempfile.TemporaryDirectory() as places:
        os.symlink(python, os.path.join(places, "python3"))
        path = places + os.pathsep + os.environ["PATH"]
        words = [sys.executable, os.path.join(ROOT, "tests", "recipes.py"), program, tool]
        return subprocess.run(words, env=environment(PATH=path, **more)).returncode == 0


def main():
    program = os.path.abspath(sys.argv[1] if len(sys.argv) > 1 else os.path.join(ROOT, "build", "retro"))
    os.environ["RETRO"] = program
    dask, driver, base = python_with("distributed"), python_with("psycopg2"), postgresql()
    print("chromium: %s" % (browser.found() or "none"))
    print("dask.distributed: %s" % ("%s of %s" % dask[::-1] if dask else "none"))
    print("PostgreSQL: %s" % (base or "none"))
    print("psycopg2: %s" % ("%s of %s" % driver[::-1] if driver else "none"), flush=True)
    passed = [tests(sys.executable, "journal_tests", KILLS=KILLS)]
    if browser.found():
        passed.append(tests(sys.executable, "page_tests"))
    if dask:
        passed += [tests(dask[0], "cluster_tests"), recipe(dask[0], "dask", program)]
    if base and driver:
        with database(base) as place:
            passed.append(recipe(driver[0], "postgresql", program, **place))
    print("integrations: %d passed, %d failed, %d left out" % (sum(passed), len(passed) - sum(passed), 5 - len(passed)))
    sys.exit(0 if all(passed) else 1)


if __name__ == "__main__":
    main()
