"""The commands of `python3 -m retro`, and the installation."""

import base64
import hashlib
import importlib.util
import os
import shutil
import subprocess
import sys
import tempfile
import time
import unittest
import zipfile

HERE = os.path.dirname(os.path.abspath(__file__))


class Commands(unittest.TestCase):
    def setUp(self):
        folder = tempfile.TemporaryDirectory()
        self.addCleanup(folder.cleanup)
        self.folder = folder.name

    def file(self, name, text):
        with open(os.path.join(self.folder, name), "w", encoding="utf-8", newline="") as file:
            file.write(text)

    def retro(self, *words, status=0):
        command, pipe = [sys.executable, "-m", "retro", *words], subprocess.PIPE
        done = subprocess.run(command, cwd=self.folder, stdout=pipe, stderr=pipe, encoding="utf-8", check=False)
        self.told = done.stderr
        self.assertEqual(done.returncode, status, done.stderr)
        return done.stdout

    def test_annotate(self):
        block = "timeline q queue next 3\n#1 5 enq 1\n#2 4 deq\nend\n"
        self.file("a.script", "; a day\nnew p pq\np at 10 ins 4\np move #1 at 5\np at 1 delmin\n" + block + "\n")
        lines = [
            "     1  ; a day",
            "     2  new p pq                 ok",
            "     3  p at 10 ins 4            edit p add 0 #1 ins 4 bridge 0 gain #1 4",
            "     4  p move #1 at 5           edit p add 0 #2 ins 4 bridge 0 gain #2 4",
            "                                 edit p cut 1 #1 ins 4 bridge none lose #1 4",
            "     5  p at 1 delmin            refused at #3 1",
            "     6  timeline q queue next 3",
            "     7  #1 5 enq 1",
            "     8  #2 4 deq",
            "     9  end                      refused row 2 time    (line 8)",
            "    10",
        ]
        self.assertEqual(self.retro("annotate", "a.script", status=1).splitlines(), lines)
        self.assertEqual(self.retro("annotate", "--refused", "a.script", status=1).splitlines(), [lines[5], lines[9]])

    def test_annotate_what_cannot_be_seen(self):
        self.file("a.script", "new q queue\r\n\t\nq\u00a0ask size\n; gr\u00fc\u00df\n")
        lines = [
            "     1  new q queue    ok",
            "     2  \\t             refused syntax",
            "     3  q\\xa0ask size  refused syntax",
            "     4  ; gr\u00fc\u00df",
        ]
        self.assertEqual(self.retro("annotate", "a.script", status=1).splitlines(), lines)

    def test_annotate_an_open_block(self):
        self.file("a.script", "timeline q queue next 3")
        self.assertEqual(self.retro("annotate", "a.script", status=1).splitlines()[1].split(), ["end", "refused", "unfinished"])

    def test_draw(self):
        self.file("q.block", "timeline q queue next 2 rows 1\n#1 10 enq 5\nend\n")
        self.assertIn("<svg", self.retro("draw", "q.block"))
        self.file("torn.block", "timeline q queue next 2 rows 1\n#1 1")
        self.retro("draw", "torn.block", status=2)
        self.retro("draw", "none.block", status=2)

    def test_events(self):
        self.file("jobs.csv", "time,event,item\n2026-03-01 08:05,came,Anna\n2026-03-01 09:00,taken,\n")
        words = ("--word", "came=enq", "--word", "taken=deq")
        script = "new jobs queue\njobs at 202603010805 enq 1\njobs at 202603010900 deq\n"
        self.assertEqual(self.retro("events", "jobs.csv", *words), script)
        with open(os.path.join(self.folder, "jobs.csv.names"), encoding="utf-8") as file:
            self.assertEqual(file.read(), "number,name\n1,Anna\n")
        self.file("jobs.block", "timeline jobs queue next 4 rows 1\n#3 202603010805 enq 1\nend\n")
        self.assertEqual(self.retro("events", "jobs.csv", *words, "--back", "jobs.block"), "time,event,item\n2026-03-01 08:05,came,Anna\n")

    def test_events_of_a_file_with_a_space(self):
        self.file("my jobs.csv", "\ufefftime;event;item\n01.03.2026 08:05;enq;Anna\n01.03.2026 08:05;enq;Anna\n")
        self.assertEqual(self.retro("events", "my jobs.csv"), "new my_jobs queue\n" + "my_jobs at 202603010805 enq 1\n" * 2)
        self.assertEqual(self.told, "events: line 3 says what line 2 says\n")
        self.retro("events", "my jobs.csv", "--word", "came", status=2)
        self.assertEqual(self.told.count("\n"), 1)
        self.assertIn("WORD=OPERATION", self.told)
        self.retro("events", "my jobs.csv", "--name", "my jobs", status=2)

    def test_pool(self):
        log = "".join("new t%d queue\n; one\n" % n for n in range(20)) + "".join("t%d at 5 enq %d\nt%d ask all\n" % (n, n, n) for n in range(20)) + "what\nsave t3\n"
        self.file("log", log)
        block = "timeline t3 queue next 2 rows 1\n#1 5 enq 3\nend\n"
        wanted = "ok\n" * 20 + "".join("ok #1\n= %d\n" % n for n in range(20)) + "refused syntax\n" + block
        self.assertEqual(self.retro("pool", "log", status=1), wanted)

    def test_recover(self):
        self.file("q.block", "timeline q queue next 3 rows 2\n#1 10 enq 5\n#2 2")
        self.assertEqual(self.retro("recover", "q.block", status=1), "timeline q queue next 3 rows 1\n#1 10 enq 5\nend\n")

    def test_no_words(self):
        self.retro(status=2)


class Installation(unittest.TestCase):
    FOLDER = os.path.dirname(HERE)

    def setUp(self):
        folder = tempfile.TemporaryDirectory()
        self.addCleanup(folder.cleanup)
        self.made = folder.name

    def built(self, what, folder):
        """Where the build backend leaves what `pip` asks it for."""
        place = os.path.join(self.made, folder)
        os.makedirs(place, exist_ok=True)
        build = "import building, sys; print(getattr(building, sys.argv[1])(sys.argv[2]))"
        return os.path.join(place, self.said(self.FOLDER, "-c", build, what, place))

    def said(self, folder, *words):
        environment = dict(os.environ, PIP_ROOT_USER_ACTION="ignore")
        done = subprocess.run([sys.executable, *words], cwd=folder, env=environment, stdout=subprocess.PIPE, encoding="utf-8", check=True)
        return done.stdout.strip()

    def test_the_wheel_has_the_package(self):
        wheel = self.built("build_wheel", "wheel")
        load = "import sys; sys.path.insert(0, sys.argv[1]); import retro; print(retro.__file__, retro.__version__)"
        place, version = self.said(self.made, "-I", "-c", load, wheel).split()
        self.assertTrue(place.startswith(wheel))
        self.assertIn("-%s-" % version, os.path.basename(wheel))
        with zipfile.ZipFile(wheel) as archive:
            names = archive.namelist()
            self.assertIn("retro/py.typed", names)
            self.assertEqual({name for name in names if name.startswith("retro/")}, {"retro/" + name for name in os.listdir(os.path.join(self.FOLDER, "retro")) if "." in name})
            info = os.path.dirname(next(name for name in names if name.endswith("/RECORD")))
            self.assertIn("retro-client = retro.__main__:main", archive.read(info + "/entry_points.txt").decode())
            record = [line.split(",") for line in archive.read(info + "/RECORD").decode().splitlines()]
            self.assertEqual([name for name, _, _ in record], names)
            for name, digest, size in record[:-1]:
                body = archive.read(name)
                told = base64.urlsafe_b64encode(hashlib.sha256(body).digest()).rstrip(b"=").decode()
                self.assertEqual((digest, size), ("sha256=" + told, str(len(body))))

    def test_the_same_sources_make_the_same_bytes(self):
        made = {}
        for what in ("build_wheel", "build_sdist", "build_editable"):
            for folder in ("a", "b"):
                with open(self.built(what, folder + what), "rb") as file:
                    made.setdefault(what, set()).add(file.read())
                time.sleep(1.1)
        self.assertEqual({what: len(bodies) for what, bodies in made.items()}, dict.fromkeys(made, 1))

    def test_an_editable_one_leads_here(self):
        with zipfile.ZipFile(self.built("build_editable", "editable")) as archive:
            self.assertEqual(archive.read("retro_client.pth").decode(), self.FOLDER + "\n")

    @unittest.skipUnless(importlib.util.find_spec("pip") and importlib.util.find_spec("ensurepip"), "no pip here: an installation is not tried")
    def test_an_editable_installation_without_a_network(self):
        copy, place = os.path.join(self.made, "copy"), os.path.join(self.made, "place")
        shutil.copytree(self.FOLDER, copy, ignore=shutil.ignore_patterns("__pycache__"))
        self.said(self.made, "-m", "venv", "--without-pip", place)
        python = os.path.join(place, "bin", "python")
        self.said(self.made, "-m", "pip", "--python", python, "install", "--no-index", "--quiet", "--disable-pip-version-check", "-e", copy)
        environment = {name: value for name, value in os.environ.items() if name != "PYTHONPATH"}
        words = [python, "-c", "import retro; print(retro.__file__)"]
        done = subprocess.run(words, cwd=self.made, env=environment, stdout=subprocess.PIPE, encoding="utf-8", check=True)
        self.assertEqual(done.stdout, os.path.join(copy, "retro", "__init__.py") + "\n")

    @unittest.skipUnless(importlib.util.find_spec("pip"), "no pip here: an installation is not tried")
    def test_an_installation_without_a_network(self):
        copy = os.path.join(self.made, "copy")
        shutil.copytree(self.FOLDER, copy, ignore=shutil.ignore_patterns("__pycache__"))
        place = os.path.join(self.made, "place")
        self.said(self.made, "-m", "pip", "install", "--no-index", "--quiet", "--disable-pip-version-check", "--target", place, copy)
        environment = dict(os.environ, PYTHONPATH=place)
        script = os.path.join(place, "bin", "retro-client")
        done = subprocess.run([sys.executable, script, "recover", "none"], env=environment, stderr=subprocess.PIPE, encoding="utf-8", check=False)
        self.assertEqual((done.returncode, done.stderr.split(":")[0]), (2, "recover"))
