#!/usr/bin/env python3
"""Answers a script of one timeline by SQLite: a table of rows with an index on time, and queries that replay.

    python3 bench/sqlite_peer.py < SCRIPT

The sum of signs over the rows says whether an edit leaves a row with nothing to take. A queue and a dictionary are asked by a
query; for the others the rows up to the time are fetched in order and performed.
"""

import heapq
import sqlite3
import sys

TAKES = {"deq", "pop", "popl", "popr", "delmin", "del"}


class Refused(Exception):
    """An edit that leaves a row which cannot be performed, or a line that is not known here."""


class Table:
    def __init__(self, kind):
        self.kind = kind
        self.base = sqlite3.connect(":memory:", isolation_level=None)
        self.run("create table rows (id integer primary key, t integer, op text, k integer, v integer, sign integer)")
        self.run("create index by_time on rows (t, id)")
        self.run("create index by_key on rows (k, t, id)")
        self.run("begin")
        self.next, self.last = 1, -1

    def run(self, query, *values):
        return self.base.execute(query, values)

    def check(self, key, time):
        """Refuses where a row finds nothing to take."""
        if self.kind == "dict":
            there = False
            for (sign,) in self.run("select sign from rows where k = ? order by t, id", key):
                if sign < 0 and not there:
                    raise Refused
                there = sign > 0
        elif time <= self.last:
            sums = "select sum(sign) over (order by t, id rows unbounded preceding) as held from rows"
            if self.run("select 1 from (%s) where held < 0 limit 1" % sums).fetchone():
                raise Refused

    def edit(self, edit, time, key):
        self.run("savepoint edit")
        edit()
        try:
            self.check(key, time)
        except Refused:
            self.run("rollback to edit")
            raise
        finally:
            self.run("release edit")

    def add(self, time, op, *values):
        key, value = (values + (None, None))[:2] if self.kind == "dict" else (None, (values + (None,))[0])
        row = (self.next, time, op, key, value, -1 if op in TAKES else 1)
        self.edit(lambda: self.run("insert into rows values (?, ?, ?, ?, ?, ?)", *row), time, key)
        self.next += 1
        self.last = max(self.last, time)
        return "ok #%d" % (self.next - 1)

    def delete(self, number):
        time, key = self.run("select t, k from rows where id = ?", number).fetchone()
        self.edit(lambda: self.run("delete from rows where id = ?", number), time, key)
        return "ok"

    def move(self, number, time):
        key = self.run("select k from rows where id = ?", number).fetchone()[0]
        self.edit(lambda: self.run("update rows set id = ?, t = ? where id = ?", self.next, time, number), 0, key)
        self.next += 1
        return "ok #%d" % (self.next - 1)

    def ask(self, time, word, *values):
        if self.kind == "dict":
            return self.ask_key(time, word, *values)
        if word == "size":
            return self.run("select coalesce(sum(sign), 0) from rows where t <= ?", time).fetchone()[0]
        if self.kind == "queue":
            adds, takes = self.run("select count(*) filter (where sign > 0), count(*) filter (where sign < 0) from rows where t <= ?", time).fetchone()
            index = takes + (values[0] if values else 0) if word != "back" else adds - 1
            if not takes <= index < adds:
                return None
            return self.run("select v from rows where t <= ? and sign > 0 order by t, id limit 1 offset ?", time, index).fetchone()[0]
        held = []
        for op, value in self.run("select op, v from rows where t <= ? order by t, id", time):
            if op == "ins":
                heapq.heappush(held, value)
            elif op == "delmin":
                heapq.heappop(held)
            elif op == "pushl":
                held.insert(0, value)
            elif op in ("push", "pushr"):
                held.append(value)
            else:
                held.pop(0 if op == "popl" else -1)
        index = {"top": len(held) - 1, "right": len(held) - 1}.get(word, values[0] if values else 0)
        index = len(held) - 1 - index if self.kind == "stack" and word == "nth" else index
        return held[index] if 0 <= index < len(held) else None

    def value(self, key, time):
        row = self.run("select sign, v from rows where k = ? and t <= ? order by t desc, id desc limit 1", key, time).fetchone()
        return row[1] if row and row[0] > 0 else None

    def ask_key(self, time, word, key):
        if word == "get":
            return self.value(key, time)
        query = "select min(k) from rows where k >= ?" if word == "succ" else "select max(k) from rows where k <= ?"
        while True:
            key = self.run(query, key).fetchone()[0]
            if key is None:
                return None
            value = self.value(key, time)
            if value is not None:
                return "%d:%d" % (key, value)
            key += 1 if word == "succ" else -1


def read(word):
    return int(word.lstrip("#")) if word.lstrip("#-").isdigit() else word


def answer(tables, words):
    if words[0] == "new":
        tables[words[1]] = Table("pq" if words[2] == "pqf" else words[2])
        return "ok"
    table, verb = tables[words[0]], words[1]
    if verb == "at":
        return table.add(*words[2:])
    if verb == "delete":
        return table.delete(words[2])
    if verb == "move":
        return table.move(words[2], words[4])
    if verb == "ask":
        time, asked = (words[3], words[4:]) if words[2] == "at" else (2**62, words[2:])
        found = table.ask(time, *asked)
        return "= none" if found is None else "= %s" % found
    raise Refused


def main():
    tables = {}
    while True:
        line = sys.stdin.readline()
        if not line:
            return
        try:
            print(answer(tables, [read(word) for word in line.split()]), flush=True)
        except (Refused, KeyError, IndexError):
            print("refused syntax", flush=True)


if __name__ == "__main__":
    main()
