"""Tables by the workers of a dask cluster, of which one is killed in the middle; where there is no dask, this is left out."""

import importlib.util
import logging
import os
import signal
import threading
import time
import unittest

from retro import RefusedEvent, Told, answer_table

PROGRAM = os.environ["RETRO"]
KEYS = 50_000 if os.environ.get("INTEGRATIONS") == "1" else 2_000
OF_A_KEY = 20  # events: twelve jobs come, eight are taken, so four wait
WORKERS = 4


def events():
    """Events of many keys, in an order that no key has; what waits at the end is known."""
    for place in range(OF_A_KEY):
        for key in range(KEYS):
            yield "hall %d, shelf %d" % divmod(key, 100), place, "enq %d" % place if place % 5 < 3 else "deq", (key, place)


class Cluster(unittest.TestCase):
    @classmethod
    def setUpClass(cls):
        if importlib.util.find_spec("distributed") is None:
            print("cluster_tests: left out, since this Python has no dask.distributed")
            raise unittest.SkipTest("no dask")
        import distributed

        cls.cluster = distributed.LocalCluster(
            n_workers=WORKERS, threads_per_worker=1, processes=True, dashboard_address=None, silence_logs=logging.CRITICAL
        )
        cls.client = distributed.Client(cls.cluster)

    @classmethod
    def tearDownClass(cls):
        cls.client.close()
        cls.cluster.close()

    def told(self, rows, **more):
        from retro.dask import answer_table as answer_by_workers

        return list(answer_by_workers(self.client, rows, program=PROGRAM, **more))

    def test_the_same_rows_as_on_one_machine(self):
        rows = [("a", 5, "enq 1", 11), ("b", 6, "deq", 12), ("b", 7, "enq 9", 13), ("a", 4, "enq 2", 14)]
        wanted = [Told("a", ([2, 1],), ()), Told("b", ([9],), (RefusedEvent(12, "refused at #1 6"),))]
        self.assertEqual(sorted(self.told(rows, ask=["all"], id=3)), wanted)
        self.assertEqual(sorted(answer_table(rows, ask=["all"], id=3, program=PROGRAM)), wanted)

    def test_a_worker_that_is_killed_in_the_middle(self):
        workers = self.client.run(os.getpid)
        killed = []

        def kill():
            while not killed:
                if any(self.client.processing().values()):
                    time.sleep(0.2)
                    killed.append(next(iter(workers.values())))
                    os.kill(killed[0], signal.SIGKILL)

        threading.Thread(target=kill, daemon=True).start()
        began = time.monotonic()
        told = self.told(events(), ask=["size"], id=3)
        print("cluster: %d events by %d workers, one of them killed, %.0f seconds" % (KEYS * OF_A_KEY, WORKERS, time.monotonic() - began))
        self.assertEqual((len(killed), len(told), len({one.key for one in told})), (1, KEYS, KEYS))
        self.assertEqual((sum(one.answers[0] for one in told), sum(len(one.refused) for one in told)), (4 * KEYS, 0))
