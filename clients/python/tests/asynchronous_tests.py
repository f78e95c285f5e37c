"""The conversation over `asyncio`: the same values, and tasks that share a program and are cancelled."""

import asyncio
import contextlib
import inspect
import os
import random
import unittest

from interruption_tests import PIECES, SLOW, STILL
from retro import (
    AsyncDeque, AsyncDict, AsyncPriorityQueue, AsyncQueue, AsyncRetro, AsyncStack, Deque, Dict, Ended, OutOfTurn, PriorityQueue, Queue, Refused, Retro,
    RetroError, Row, Saved, Stack, Taken, TimedOut, Timeline,
)
from retro.asynchronous_timeline import AsyncTimeline

PROGRAM = os.environ["RETRO"]


def public(kind):
    return {name for name in dir(kind) if not name.startswith("_")}


def signatures(kind):
    """The arguments of each call of a kind of timelines, without their types."""
    calls = {name: getattr(kind, name) for name in public(kind) if callable(getattr(kind, name))}
    return {name: [(one.name, one.default, one.kind) for one in inspect.signature(call).parameters.values()] for name, call in calls.items()}


def called(kind, calls):
    """What these calls of a timeline without `asyncio` give."""
    with Retro(PROGRAM) as retro:
        timeline = retro.new(kind, kind)
        return [getattr(timeline, call)(*values, **moment) for call, values, moment in calls]


class Asynchronous(unittest.IsolatedAsyncioTestCase):
    async def right(self, retro, name):
        self.assertEqual((await retro.send(name + " ask size")).answers, ("refused no timeline " + name,))

    async def test_the_same_calls(self):
        self.assertEqual(public(Retro) - public(AsyncRetro), set())
        self.assertEqual(public(Timeline) - public(AsyncTimeline), set())
        async with AsyncRetro(PROGRAM) as retro:
            jobs = await retro.new("jobs", "queue")
            made = [await jobs.at(10, "enq 5"), await jobs.after(1, "enq 6"), await jobs.before(1, "enq 4"), await jobs.at(30, "deq")]
            self.assertEqual([edit.number for edit in made], [1, 2, 3, 4])
            self.assertEqual(await jobs.rows(), [Row(3, 10, "enq 4"), Row(1, 10, "enq 5"), Row(2, 10, "enq 6"), Row(4, 30, "deq")])
            await jobs.move(4, 40), await jobs.change(1, "enq 9"), await jobs.delete(2), await jobs.undo(), await jobs.redo()
            self.assertEqual((await jobs.ask("all"), await jobs.ask("front", at=10), await jobs.fate(3), await jobs.fate(6)), ([9], 4, Taken(5, 40), None))
            self.assertEqual((await jobs.row(5), await jobs.takes(), await jobs.over("size", 0, 99)), (Row(5, 40, "deq"), {5: 3}, [(0, 0), (10, 2), (40, 1)]))
            self.assertEqual((await jobs.entries(), len(await jobs.lifetimes())), ([Row(6, 10, "enq 9")], 2))
            saved = await jobs.save()
            self.assertEqual((await (await retro.load(saved, "copy")).save(), (await retro.timeline("copy")).kind), (saved.renamed("copy"), "queue"))
            self.assertIsInstance(await retro.line("save jobs"), Saved)
            with self.assertRaises(Refused) as caught:
                await retro.load("timeline b queue next 4 rows 3\n#1 10 enq 5\n#2 9 deq\n#3 9 deq\nend\n")
            self.assertEqual((caught.exception.why, caught.exception.text), ("time", "#2 9 deq"))
            await retro.confirm()
            self.assertEqual([reply.value async for reply in retro.stream("; a\njobs ask size\n")], [None, 1])
        self.assertEqual((retro.status, await retro.end()), (1, 1))

    async def test_the_same_calls_of_each_kind(self):
        """The operations and the questions of each kind have the same arguments, and the same answers one after another."""
        kinds = (
            ("queue", Queue, AsyncQueue, (("enq", 5, 10), ("enq", 7, 20), ("deq", 15)), (("front",), ("back",), ("nth", 0), ("nth", 1))),
            ("stack", Stack, AsyncStack, (("push", 5, 10), ("push", 7, 20), ("pop", 15)), (("top",), ("nth", 0), ("nth", 1))),
            ("deque", Deque, AsyncDeque, (("pushl", 5, 10), ("pushr", 7, 10), ("pushl", 8, 20), ("popr", 15), ("popl", 25)), (("left",), ("right",), ("nth", 1))),
            ("dict", Dict, AsyncDict, (("put", 5, 50, 10), ("put", 7, -1, 20), ("remove", 5, 15)),
             (("get", 5), ("succ", 6), ("pred", 6), ("pred", 0), ("count", 0, 9), ("sum", 0, 9))),
            ("pq", PriorityQueue, AsyncPriorityQueue, (("ins", 5, 10), ("ins", 3, 20), ("delmin", 15)), (("min",), ("nth", 0))),
        )
        async with AsyncRetro(PROGRAM) as retro:
            for name, kind, asynchronous, operations, questions in kinds:
                self.assertEqual(signatures(kind), signatures(asynchronous))
                there = await retro.new(name, name)
                self.assertIs(type(there), asynchronous)
                self.assertIs(type(asynchronous.of(await retro.timeline(name))), asynchronous)
                calls = [(call, values, {"at": time}) for call, *values, time in operations]
                moments = ({}, {"at": 10}, {"at": 12}, {"before": 2}, {"after": 2})
                calls += [(call, values, moment) for call, *values in (*questions, ("size",), ("all",)) for moment in moments]
                told = [await getattr(there, call)(*values, **moment) for call, values, moment in calls]
                self.assertEqual(told, await asyncio.to_thread(called, name, calls))
            with self.assertRaises(ValueError):
                await there.ins(5)
            with self.assertRaises(TypeError):
                await there.ins(5.0, at=1)
            self.assertRaises(TypeError, AsyncStack.of, there)

    async def test_listeners_hear_every_line(self):
        heard = []
        async with AsyncRetro(PROGRAM) as retro:
            retro.listeners.append(heard.append)
            await retro.send("new q queue"), await retro.send("q ask size"), await retro.send("q frob")
        self.assertEqual([(reply.line, reply.answers) for reply in heard], [(b"new q queue", ("ok",)), (b"q ask size", ("= 0",)), (b"q frob", ("refused syntax",))])

    async def test_each_task_has_its_own_answers(self):
        async with AsyncRetro(PROGRAM) as retro:

            async def ask(task):
                for at in range(150):
                    await self.right(retro, "t%dn%d" % (task, at))

            async def flow(task):
                async for reply in retro.stream("s%dn%d ask size" % (task, at) for at in range(4000)):
                    self.assertEqual(reply.answers, ("refused no timeline " + reply.line.split(b" ")[0].decode(),))

            await asyncio.gather(*map(ask, range(20)), flow(1), flow(2))

    async def test_tasks_that_are_cancelled(self):
        draws, cancelled = random.Random(4), 0
        async with AsyncRetro(PROGRAM) as retro:
            orders = await retro.new("orders", "pq")
            await orders.rows()

            async def work():
                while True:
                    number = (await orders.at(draws.randrange(50), "ins 4")).number
                    await orders.move(number, 5), await orders.undo(), await orders.delete(number)
                    async for _ in retro.stream(["orders at 7 ins 5", "orders undo"] * 300):
                        pass

            for start in range(40):
                task = asyncio.ensure_future(work())
                await asyncio.sleep(draws.random() * 0.01)
                task.cancel()
                with contextlib.suppress(asyncio.CancelledError, Refused):
                    await task
                cancelled += task.cancelled()
                await self.right(retro, "z%d" % start)
                self.assertEqual(tuple(await orders.rows()), (await orders.save()).rows)
        self.assertGreater(cancelled, 30)

    async def test_a_program_that_stands_still(self):
        with self.assertRaises(TimedOut):
            async with AsyncRetro(STILL, timeout=0.05) as retro:
                await retro.send("new q queue")
        self.assertEqual(retro.status, -9)
        async with AsyncRetro(SLOW, timeout=0.02) as retro:
            with self.assertRaises(TimedOut):
                await retro.send("a ask size")
            retro.timeout = 5
            await self.right(retro, "b")

    async def test_a_program_that_gives_an_answer_piece_by_piece(self):
        async with AsyncRetro(PIECES, timeout=1) as retro:
            await self.right(retro, "a")

    async def test_a_program_that_ends(self):
        retro = await AsyncRetro("false").start()
        for _ in range(2):
            with self.assertRaises(Ended) as caught:
                await retro.send("new q queue")
            self.assertEqual(caught.exception.status, 1)
        with self.assertRaises(Ended):
            [reply async for reply in retro.stream(["new q queue"] * 5000)]
        with self.assertRaises(RetroError):
            await AsyncRetro(PROGRAM).send("new q queue")
        retro = await AsyncRetro(PROGRAM).start()
        await retro.kill()
        self.assertEqual(await retro.end(), -9)

    async def test_an_open_block(self):
        async with AsyncRetro(PROGRAM) as retro:
            self.assertIsNone(await retro.line("timeline q queue next 3"))
            with self.assertRaises(OutOfTurn):
                await retro.new("r", "queue")
            with self.assertRaises(OutOfTurn):
                await asyncio.ensure_future(retro.send("; another task"))
        self.assertEqual((retro.status, retro.reports), (1, ["refused unfinished"]))

    async def test_a_callback_that_raises(self):
        def fails(text):
            told.append(text)
            if len(told) == 2:
                raise KeyError(text)

        told = []
        async with AsyncRetro(PROGRAM, evidence=fails) as retro:
            orders = await retro.new("orders", "pq")
            await orders.rows()
            await orders.at(1, "ins 1")
            with self.assertRaises(KeyError):
                await orders.at(2, "ins 2")
            await orders.at(3, "ins 3")
            self.assertEqual((len(await orders.rows()), len(told)), (3, 3))

    async def test_lines_of_an_asynchronous_source(self):
        async def lines():
            yield "new q queue"
            for time in range(2500):
                await asyncio.sleep(0)
                yield "q at %d enq 1" % time

        async with AsyncRetro(PROGRAM) as retro:
            self.assertEqual([reply.number async for reply in retro.stream(lines())], list(range(1, 2502)))
            self.assertEqual(await retro.line("q ask size"), 2500)
