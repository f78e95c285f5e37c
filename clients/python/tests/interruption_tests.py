"""What an interruption, a timeout, a thread or a fork does to a conversation: each answer still belongs to its line."""

import contextlib
import gc
import os
import random
import signal
import subprocess
import sys
import tempfile
import threading
import time
import unittest

from retro import Ended, OutOfTurn, Retro, Row, TimedOut

PROGRAM = os.environ["RETRO"]
SLOW = [sys.executable, "-c", "import sys, time\nfor line in sys.stdin.buffer:\n    time.sleep(0.05); print('refused no timeline', line.split()[0].decode(), flush=True)"]
PIECES = ["sh", "-c", "read line; for piece in refused ' ' no ' ' timeline ' a\n'; do sleep 0.25; printf \"$piece\"; done; cat"]
STILL = ["sh", "-c", "exec sleep 60"]


class Alarm(Exception):
    pass


@contextlib.contextmanager
def alarm(seconds):
    """An exception that comes from outside, after so many seconds, wherever the interpreter is then."""

    def ring(number, frame):
        raise Alarm

    before = signal.signal(signal.SIGALRM, ring)
    try:
        signal.setitimer(signal.ITIMER_REAL, seconds)
        yield
    finally:
        signal.setitimer(signal.ITIMER_REAL, 0)
        signal.signal(signal.SIGALRM, before)


def answers_to(line, answers):
    """Whether these are answers that such a line can have."""
    if line.startswith(("p at", "p undo")):
        return len(answers) == 1 and answers[0].startswith("edit p " + ("add" if "at" in line else "cut"))
    if line.startswith("z"):
        return answers == ("refused no timeline " + line.split(" ")[0],)
    if line == "save p":
        return answers[0].startswith("timeline p pq next ") and answers[-1] == "end"
    return answers == (("refused row 1 replay",) if line == "end" else ())


def ends(pid, within=5.0):
    """Whether a process is gone before long."""
    last = time.monotonic() + within
    while time.monotonic() < last:
        try:
            os.kill(pid, 0)
        except ProcessLookupError:
            return True
        time.sleep(0.01)
    return False


class Interrupted(unittest.TestCase):
    def right(self, retro, name):
        self.assertEqual(retro.send("%s ask size" % name).answers, ("refused no timeline " + name,))

    def test_a_fate_of_many_rows(self):
        with Retro(PROGRAM) as retro:
            rows = "\n".join("#%d %d enq 1" % (number, number) for number in range(1, 120_001))
            jobs = retro.load("timeline jobs queue next 120001 rows 120000\n%s\nend\n" % rows)
            rung = 0
            for seconds in (0.0002, 0.0005, 0.001, 0.002):
                try:
                    with alarm(seconds):
                        for _ in range(1000):
                            self.assertIsNone(jobs.fate(120_000))
                except Alarm:
                    rung += 1
                self.assertEqual((jobs.ask("size"), jobs.ask("front")), (120_000, 1))
            self.assertEqual(rung, 4)

    def test_a_line_at_any_moment(self):
        draws, rung, asked = random.Random(1), 0, 0
        with Retro(PROGRAM) as retro:
            for _ in range(400):
                try:
                    with alarm(draws.random() * 0.0008):
                        for _ in range(200):
                            asked += 1
                            self.right(retro, "z%d" % asked)
                except Alarm:
                    rung += 1
                asked += 1
                self.right(retro, "z%d" % asked)
            self.assertGreater(rung, 350)
            self.assertEqual(retro.end(), 1)

    def test_a_stream_at_any_moment(self):
        draws, rung = random.Random(2), 0
        with Retro(PROGRAM) as retro:
            for start in range(60):
                try:
                    with alarm(draws.random() * 0.02):
                        for reply in retro.stream("z%dx%d ask size" % (start, at) for at in range(40_000)):
                            name = reply.line.split(b" ")[0].decode()
                            self.assertEqual(reply.answers, ("refused no timeline " + name,))
                except Alarm:
                    rung += 1
                self.right(retro, "after%d" % start)
            self.assertGreater(rung, 40)

    def test_a_stream_of_many_forms_at_any_moment(self):
        """Comments, blocks and evidence of one and of two lines, which are counted line by line."""
        draws, rung = random.Random(5), 0
        with Retro(PROGRAM) as retro:
            retro.new("p", "pq")
            for start in range(60):
                forms = ["; a", "z%dx%%d ask size" % start, "p at 5 ins 3", "p undo", "timeline b queue next 2", "#1 5 deq", "end", "save p"]
                lines = [form % at if "%d" in form else form for at in range(2_000) for form in forms]
                try:
                    with alarm(draws.random() * 0.03):
                        for reply, line in zip(retro.stream(lines), lines):
                            self.assertEqual(reply.line, line.encode())
                            self.assertTrue(answers_to(line, reply.answers), reply)
                except Alarm:
                    rung += 1
                self.right(retro, "after%d" % start)
        self.assertGreater(rung, 30)

    def test_edits_and_their_rows(self):
        draws, rung = random.Random(3), 0
        with Retro(PROGRAM) as retro:
            orders = retro.new("orders", "pq")
            for _ in range(200):
                try:
                    with alarm(draws.random() * 0.001):
                        while True:
                            number = orders.at(draws.randrange(100), "ins 4").number
                            orders.move(number, 5), orders.undo(), orders.redo(), orders.undo(), orders.delete(number)
                            orders.rows()
                except Alarm:
                    rung += 1
                self.assertEqual(tuple(orders.rows()), orders.save().rows)
            self.assertEqual(rung, 200)

    def test_an_answer_that_comes_after_the_interruption(self):
        retro = Retro(SLOW)
        with self.assertRaises(Alarm), alarm(0.02):
            retro.send("a ask size")
        self.right(retro, "b")
        retro.kill()

    def test_a_batch_that_was_written_in_part(self):
        """What a pipe has taken of a line cannot be taken back, so the rest follows: half a line would be another one.

        A line of which it has taken nothing is never sent.
        """
        with tempfile.TemporaryDirectory() as folder:
            for goes_on in (True, False):
                place = os.path.join(folder, "taken %s" % goes_on)
                retro = Retro(["sh", "-c", 'while [ ! -e "$0.go" ]; do sleep 0.05; done; exec tee "$0"', place])
                batch = ["z%d %s" % (at, "x" * 100) for at in range(5000)]
                with self.assertRaises(Alarm), alarm(0.1):
                    list(retro.stream(batch))
                with self.assertRaises(Alarm), alarm(0.05):
                    retro.send("never")
                with open(place + ".go", "w", encoding="ascii"):
                    pass
                if goes_on:
                    self.assertEqual(retro.send("q ask size").answers, ("q ask size",))
                retro.end()
                with open(place, encoding="ascii") as file:
                    taken = file.read().split("\n")
                self.assertEqual((taken[:1000], taken[1000:]), (batch[:1000], ["q ask size", ""] if goes_on else [""]))

    def test_an_interrupted_end_goes_on(self):
        retro = Retro(SLOW)
        stream = retro.stream("z%d ask size" % at for at in range(40))
        with self.assertRaises(Alarm), alarm(0.1):
            list(stream)
        with self.assertRaises(Alarm), alarm(0.1):
            retro.end()
        self.assertRaises(Ended, retro.send, "a ask size")
        self.assertRaises(Ended, list, retro.stream(["a ask size"]))
        self.assertEqual(retro.end(), 0)

    def test_a_callback_that_raises(self):
        def fails(text):
            told.append(text)
            if len(told) % 3 == 1:
                raise KeyError(text)

        told = []
        with Retro(PROGRAM, evidence=fails) as retro:
            orders = retro.new("orders", "pq")
            orders.rows()
            self.assertRaises(KeyError, orders.at, 10, "ins 4")
            self.assertEqual(orders.rows(), [Row(1, 10, "ins 4")])
            self.assertRaises(KeyError, list, retro.stream("orders at %d ins 5" % time for time in range(3000)))
            while True:
                with contextlib.suppress(KeyError):
                    self.assertEqual(orders.ask("size"), 3001)
                    break
            self.assertEqual((len(told), len(set(told))), (3001, 3001))
            self.assertEqual(tuple(orders.rows()), orders.save().rows)

    def test_a_callback_that_asks(self):
        sizes = []
        with Retro(PROGRAM, evidence=lambda text: sizes.append(retro.line("p ask size"))) as retro:
            retro.new("p", "pq").at(1, "ins 4")
            retro.line("p at 2 ins 5")
        self.assertEqual(sizes, [1, 2])

    def test_a_call_from_within_a_signal(self):
        refused = []

        def ring(number, frame):
            try:
                retro.send("b ask size")
            except OutOfTurn as error:
                refused.append(error)

        with Retro(SLOW) as retro:
            before = signal.signal(signal.SIGALRM, ring)
            self.addCleanup(signal.signal, signal.SIGALRM, before)
            signal.setitimer(signal.ITIMER_REAL, 0.02)
            self.right(retro, "a")
            self.assertEqual(len(refused), 1)
            self.right(retro, "c")

    def test_calls_from_within_signals_at_any_moment(self):
        """Each is answered, or refused where it would stand within another one; none waits for the one that waits for it."""
        draws, refused, answered = random.Random(6), [], []

        def ring(number, frame):
            if time.monotonic() < until:
                signal.setitimer(signal.ITIMER_REAL, 0.00002 + draws.random() * 0.0002)
            try:
                self.right(retro, "r%d" % len(answered))
                answered.append(number)
            except OutOfTurn as error:
                refused.append(error)

        with Retro(PROGRAM) as retro:
            before = signal.signal(signal.SIGALRM, ring)
            self.addCleanup(signal.signal, signal.SIGALRM, before)
            until = time.monotonic() + 1
            signal.setitimer(signal.ITIMER_REAL, 0.001)
            while time.monotonic() < until + 0.1:
                self.right(retro, "z%d" % len(refused))
        self.assertGreater(len(refused), 100)


class Threads(unittest.TestCase):
    def test_each_answer_goes_to_its_own_line(self):
        wrong, retro = [], Retro(PROGRAM)

        def ask(thread):
            for at in range(1500):
                name = "t%dn%d" % (thread, at)
                if retro.send(name + " ask size").answers != ("refused no timeline " + name,):
                    wrong.append(name)

        def flow(thread):
            for reply in retro.stream("s%dn%d ask size" % (thread, at) for at in range(8000)):
                if reply.answers != ("refused no timeline " + reply.line.split(b" ")[0].decode(),):
                    wrong.append(reply)

        threads = [threading.Thread(target=what, args=(at,)) for at, what in enumerate((ask, flow, ask, flow, ask))]
        for thread in threads:
            thread.start()
        for thread in threads:
            thread.join()
        self.assertEqual((wrong, retro.end()), ([], 1))

    def test_rows_that_two_threads_edit(self):
        with Retro(PROGRAM) as retro:
            jobs, wrong = retro.new("jobs", "queue"), []

            def fill(start):
                for at in range(150):
                    jobs.at(start + at % 7, "enq %d" % at)
                    rows = jobs.rows()
                    if rows != sorted(rows, key=lambda row: row.time) or len({row.number for row in rows}) != len(rows):
                        wrong.append(rows)

            threads = [threading.Thread(target=fill, args=(start,)) for start in (0, 3)]
            for thread in threads:
                thread.start()
            for thread in threads:
                thread.join()
            self.assertEqual(tuple(jobs.rows()), jobs.save().rows)
            self.assertEqual((jobs.ask("size"), wrong), (300, []))

    def test_a_call_within_a_look_is_refused(self):
        caught = []

        def call():
            with self.assertRaises(OutOfTurn) as error:
                retro.look("q", lambda table: retro.line("q ask size"))
            caught.append(error.exception)

        with Retro(PROGRAM) as retro:
            retro.new("q", "queue")
            thread = threading.Thread(target=call, daemon=True)
            thread.start()
            thread.join(10)
            self.assertEqual(len(caught), 1)
            self.assertEqual(retro.line("q ask size"), 0)

    def test_a_kill_while_another_thread_waits(self):
        caught = []

        def wait():
            with self.assertRaises(Ended) as error:
                retro.send("new q queue")
            caught.append(error.exception.status)

        retro = Retro(STILL)
        waiting = threading.Thread(target=wait, daemon=True)
        waiting.start()
        time.sleep(0.1)
        killing = threading.Thread(target=retro.kill, daemon=True)
        killing.start()
        killing.join(10)
        waiting.join(10)
        self.assertEqual((caught, retro.status), ([-9], -9))

    def test_a_block_belongs_to_the_thread_that_opened_it(self):
        with Retro(PROGRAM) as retro:
            retro.line("timeline q queue next 3")
            caught = []

            def other():
                try:
                    retro.send("#2 9 deq")
                except OutOfTurn as error:
                    caught.append(error)

            thread = threading.Thread(target=other)
            thread.start()
            thread.join()
            self.assertEqual(len(caught), 1)
            retro.line("end")
            self.assertEqual(retro.line("q ask size"), 0)


class Processes(unittest.TestCase):
    def test_a_group_of_its_own(self):
        with Retro(PROGRAM) as retro:
            retro.confirm()
            self.assertNotEqual(os.getpgid(retro._process.pid), os.getpgid(0))

    def test_the_interrupt_of_a_terminal(self):
        """A terminal sends the signal to all processes of its group: the client is interrupted, and the timelines live on."""
        # The client takes the signal as a script in the foreground does, also where these tests run in the background.
        script = (
            "from retro import Retro\nimport signal, time\nsignal.signal(signal.SIGINT, signal.default_int_handler)\n"
            "with Retro() as retro:\n    jobs = retro.new('jobs', 'queue')\n    jobs.enq(5, at=1)\n"
            "    try:\n        print('ready', flush=True)\n        time.sleep(20)\n    except KeyboardInterrupt:\n        print(jobs.all(), flush=True)\n"
        )
        client = subprocess.Popen([sys.executable, "-c", script], stdout=subprocess.PIPE, encoding="ascii", start_new_session=True)
        with client:
            self.assertEqual(client.stdout.readline(), "ready\n")
            os.killpg(client.pid, signal.SIGINT)
            self.assertEqual(client.stdout.read(), "[5]\n")
        self.assertEqual(client.returncode, 0)

    def test_one_that_is_dropped(self):
        threads = threading.active_count()
        retro = Retro(PROGRAM)
        list(retro.stream(["new q queue"] * 3000))
        pid = retro._process.pid
        del retro
        gc.collect()
        self.assertTrue(ends(pid))
        self.assertEqual(threading.active_count(), threads)

    def test_one_that_the_client_leaves_behind(self):
        """A client that ends without `end`, by itself or by a signal, leaves no program, and waits for none."""
        for last in ("pass", "os.kill(os.getpid(), 9)"):
            script = "import os\nfrom retro import Retro\nretro = Retro()\nretro.new('q', 'queue')\nprint(retro._process.pid, flush=True)\n" + last
            began = time.monotonic()
            client = subprocess.run([sys.executable, "-c", script], stdout=subprocess.PIPE, encoding="ascii", check=False)
            self.assertTrue(ends(int(client.stdout)))
            self.assertLess(time.monotonic() - began, 10)

    def test_a_program_that_stands_still(self):
        retro = Retro(STILL, timeout=0.1)
        pid = retro._process.pid
        self.assertRaises(TimedOut, retro.send, "new q queue")
        self.assertRaises(TimeoutError, list, retro.stream(["new q queue"] * 20_000))
        self.assertRaises(TimedOut, retro.end)
        self.assertTrue(ends(pid))
        self.assertEqual(retro.end(), -9)
        self.assertRaises(Ended, retro.send, "new q queue")
        with self.assertRaises(TimedOut) as caught:
            with Retro(STILL, timeout=0.05) as retro:
                retro.send("new q queue")
        self.assertEqual((caught.exception.seconds, retro.status), (0.05, -9))

    def test_a_program_that_gives_an_answer_piece_by_piece(self):
        """The time counts from the last byte that it gave."""
        with Retro(PIECES, timeout=1) as retro:
            self.assertEqual(retro.send("a ask size").answers, ("refused no timeline a",))

    def test_what_timed_out_is_read_first(self):
        with Retro(SLOW, timeout=0.02) as retro:
            self.assertRaises(TimedOut, retro.send, "a ask size")
            retro.timeout = 5
            self.assertEqual(retro.send("b ask size").answers, ("refused no timeline b",))

    def test_a_program_of_many_words(self):
        with Retro(["env", "A=1", PROGRAM]) as retro:
            retro.confirm()
        self.assertRaises(FileNotFoundError, Retro, PROGRAM + " run")

    def test_a_fork(self):
        with Retro(PROGRAM) as retro:
            retro.confirm()
            child = os.fork()
            if child == 0:
                try:
                    retro.send("a ask size")
                    os._exit(1)
                except OutOfTurn:
                    os._exit(0)
            self.assertEqual(os.waitpid(child, 0)[1], 0)
            retro.confirm()
            sleeper = os.fork()
            if sleeper == 0:
                time.sleep(20)
                os._exit(0)
            self.addCleanup(os.waitpid, sleeper, 0)
            self.addCleanup(os.kill, sleeper, signal.SIGKILL)
            began = time.monotonic()
            self.assertEqual(retro.end(), 1)
            self.assertLess(time.monotonic() - began, 10)

    def test_a_kill(self):
        retro = Retro(PROGRAM)
        retro.kill()
        retro.kill()
        self.assertEqual((retro.end(), retro.status), (-9, -9))
        self.assertRaises(Ended, retro.send, "a")
        killed = Retro(PROGRAM)
        killed._process.kill()
        with self.assertRaises(Ended) as caught:
            killed.send("a")
        self.assertEqual(str(caught.exception), "the program was ended by SIGKILL")
