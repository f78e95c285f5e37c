#!/usr/bin/env python3
"""Hands `retro` inputs that are too long to be written down: what happens at each limit, and past it.

    python3 tests/limits.py [PROGRAM]

PROGRAM is build/retro where none is named. Each input is made here line by line, with the answer of each line beside it. The last
line says how many have passed and failed.
"""

import itertools
import os
import resource
import subprocess
import sys

LIMIT = 120  # seconds that one input may take
ROOT = os.path.dirname(os.path.dirname(os.path.abspath(__file__)))
LEAST = -(2**63)

STEPS = 1_024  # that a timeline keeps
LINE = 4_096  # bytes of a line
ROWS = 131_072  # of a timeline
PRESENT_MEMORY = 24 << 20  # bytes that a full priority queue and a listing of it take with room; its past takes 159 megabytes


def more_steps_than_are_kept():
    """The last of them are undone, until none is left to undo."""
    yield "new q queue", "ok"
    for number in range(1, STEPS + 2):
        yield "q at 1 enq 0", "ok #%d" % number
    for _ in range(STEPS):
        yield "q undo", "ok"
    yield "q undo", "refused nothing to undo"
    yield "q ask size", "= 1"


def lines_that_are_too_long():
    """The line feed and one carriage return are no part of a line."""
    yield "new q queue", "ok"
    question = "q ask size"
    yield question.ljust(LINE), "= 0"
    yield question.ljust(LINE + 1), "refused long"
    yield question.ljust(LINE) + "\r", "= 0"
    yield question + "\r", "= 0"
    yield question, "= 0"


def a_script_of_a_megabyte():
    yield "new q queue", "ok"
    for _ in range(32_768):
        yield "; a line that is passed over...", None
    yield "q ask size", "= 0"


def a_long_content():
    yield "new q queue", "ok"
    for number in range(1, 1_001):
        yield "q at 1 enq %d" % LEAST, "ok #%d" % number
    yield "q ask all", "=" + 1_000 * (" %d" % LEAST)


def block(rows, answer):
    """A block of a queue with so many row lines."""
    yield "timeline q queue next %d" % (rows + 1), None
    for number in range(1, rows + 1):
        yield "#%d 1 enq 0" % number, None
    yield "end", answer


def a_block_as_long_as_a_timeline():
    yield from block(ROWS, "ok")
    yield "q at 1 enq 0", "refused full"
    yield "q move #1 at 1", "refused full"
    yield "q change #1 enq 1", "refused full"


def a_block_that_is_too_long():
    yield from block(ROWS + 1, "refused full")
    yield "q ask size", "refused no timeline q"


def a_row_line_that_is_too_long():
    yield "timeline q queue next 9", None
    yield "#1 5 enq 1", None
    yield (LINE + 1) * " ", None
    yield "end", "refused row 2 syntax"
    yield "timeline q queue next 2", None
    yield ";" + LINE * " ", None
    yield "end", "refused row 1 syntax"


def a_timeline_of_many_rows():
    """All at one time: the numbers from 1 on are put in."""
    rows = 3_000
    yield "new q queue", "ok"
    for number in range(1, rows + 1):
        yield "q at 5 enq %d" % number, "ok #%d" % number
    yield "q ask all", "=" + "".join(" %d" % number for number in range(1, rows + 1))
    yield "q ask size", "= 3000"
    yield "q ask nth 2999", "= 3000"
    yield "q ask before #2001 size", "= 2000"
    yield "q after #1 deq", "ok #3001"
    yield "q ask front", "= 2"
    yield "q delete #1", "refused at #3001 5"
    yield "q delete #3000", "ok"
    yield "q ask size", "= 2998"
    yield "q ask at 4 size", "= 0"


def labels_of_runs_that_are_used_up():
    """A full run of rows is divided where one more comes in: here at the 33rd row, the 34th, and each 16th after that. Forty divisions in
    the same gap use up the 40 bits of a label: so the runs are given new labels at row 642."""
    rows = 1_000
    yield "new q queue", "ok"
    yield "q at 5 enq 1", "ok #1"
    for number in range(1, rows):
        yield "q before #%d enq 7" % number, "ok #%d" % (number + 1)
    for number in range(1, rows + 1):
        yield "q ask after #%d size" % number, "= %d" % (rows + 1 - number)


def labels_of_a_dictionary_that_are_used_up():
    """Rows of two keys in turn, which come in each between the last two: the 23rd of them uses the labels up, and all get new ones. The
    row at each index puts 140 less the index."""
    rows = []
    yield "new d dict", "ok"
    for step in range(41):
        half = step // 2
        place, index = (half, half) if step % 2 == 0 else (half + 1, 40 - half)
        where = "before #%d" % rows[place] if place < len(rows) else "at 0"
        yield "d %s put %d %d" % (where, index % 2, 140 - index), "ok #%d" % (step + 1)
        rows.insert(place, step + 1)
    for place, number in enumerate(rows):
        size, total = [(0, 0), (1, 140)][place] if place < 2 else (2, 283 - 2 * place)
        yield "d ask before #%d size" % number, "= %d" % size
        yield "d ask before #%d sum 0 9" % number, "= %d" % total
    yield "d ask before #%d all" % rows[40], "= 0:102 1:101"
    yield "d ask all", "= 0:100 1:101"
    # They are edited: key 1 is deleted after the row that puts it the third time, which it had not been.
    yield "d after #%d del 1" % rows[4], "ok #42"
    yield "d after #%d del 1" % rows[4], "refused at #42 0"
    yield "d ask before #42 get 1", "= 137"
    yield "d ask after #42 get 1", "= none"
    yield "d ask after #42 size", "= 1"
    yield "d ask after #%d get 1" % rows[5], "= 135"
    yield "d delete #42", "ok"
    yield "d ask after #%d get 1" % rows[4], "= 137"
    yield "d ask after #%d get 1" % rows[5], "= 135"
    yield "d delete #%d" % rows[3], "ok"
    yield "d ask after #%d get 1" % rows[4], "= 139"
    yield "d ask after #%d get 1" % rows[5], "= 135"


def rows_of_a_dictionary_before_all_others():
    """Forty-one rows of key 1, each of which comes in before all others, and after eight of key 2 at the end, so that none came in lately
    beside it. Each halves the gap before the first label, from 2^39 down to 1: so the 41st finds none, and all rows get new ones. The
    row that comes in so as number 9 n + 1 puts n."""
    last = 9 * 40 + 1
    yield "new d dict", "ok"
    for number in range(1, last + 1):
        step, others = divmod(number - 1, 9)
        where = "at 0 put 2 %d" % others if others else "before #%d put 1 %d" % (number - 9, step) if step else "at 0 put 1 0"
        yield "d " + where, "ok #%d" % number
    for step in range(41):
        yield "d ask before #%d all" % (9 * step + 1), "= empty" if step == 40 else "= 1:%d" % (step + 1)
        yield "d ask after #%d get 1" % (9 * step + 1), "= %d" % step
    for number in range(2, 10):
        yield "d ask after #%d all" % number, "= 1:0 2:%d" % (number - 1)
    yield "d ask all", "= 1:0 2:8"
    # They are edited: key 1 is deleted before all its rows, and after the first of them.
    yield "d before #%d del 1" % last, "refused at #%d 0" % (last + 1)
    yield "d after #%d del 1" % last, "ok #%d" % (last + 1)
    yield "d after #%d del 1" % last, "refused at #%d 0" % (last + 1)
    yield "d ask after #%d size" % (last + 1), "= 0"
    yield "d ask after #%d get 1" % (last - 9), "= 39"
    yield "d delete #%d" % (last - 9), "ok"
    yield "d ask after #%d get 1" % (last + 1), "= none"
    yield "d ask after #%d get 1" % (last - 18), "= 38"


def many_rows_of_a_dictionary_at_one_place():
    """Three hundred rows of key 1, and three thousand of key 2 that come in one after another in the middle of them: so many find a label
    without any other being changed."""
    yield "new d dict", "ok"
    for place in range(300):
        yield "d at 0 put 1 %d" % place, "ok #%d" % (place + 1)
    for later in range(3_000):
        yield "d before #151 put 2 %d" % later, "ok #%d" % (301 + later)
    yield "d ask before #301 get 1", "= 149"
    yield "d ask before #301 get 2", "= none"
    yield "d ask after #301 get 2", "= 0"
    yield "d ask after #1300 get 2", "= 999"
    yield "d ask after #3300 get 2", "= 2999"
    yield "d ask after #3300 get 1", "= 149"
    yield "d ask after #151 get 1", "= 150"
    yield "d ask get 1", "= 299"


def entry(number):
    """A row at the end of a priority queue whose keys rise: all its entries stay, so each place is a bridge."""
    line = "p at %d ins %d" % (number, number)
    return line, "edit p add %d #%d ins %d bridge %d gain #%d %d" % (number - 1, number, number, number - 1, number, number)


def entries(count, kind="pq"):
    yield "new p %s" % kind, "ok"
    for number in range(1, count + 1):
        yield entry(number)


def sizes(*places):
    """Asked after so many of the rows that `entries` puts in, all of which stay."""
    for place in places:
        yield "p ask at %d size" % place, "= %d" % place


def a_gap_between_checkpoints_that_is_split():
    """Of 3,000 rows; 1,100 more come in after the five hundredth, each before those that came there before."""
    yield from entries(3_000)
    yield from sizes(0, 750, 1_500, 3_000)
    for number in range(3_001, 4_101):
        yield "p after #500 ins 0", "edit p add 500 #%d ins 0 bridge 500 gain #%d 0" % (number, number)
    for place in range(0, 501, 100):
        yield "p ask before #%d size" % (place + 1 if place < 500 else 4_100), "= %d" % place
    for place in (*range(600, 1_601, 100), 1_025):
        yield "p ask after #%d size" % (4_601 - place), "= %d" % place
    for place in (*range(1_700, 4_101, 100), 2_050):
        yield "p ask after #%d size" % (place - 1_100), "= %d" % place


def checkpoints_that_go_where_rows_go():
    """Of 40,000 rows the first 39,000 are taken out, one after another."""
    yield from entries(40_000)
    yield from sizes(0, 10_000, 20_000, 40_000)
    yield "p ask at 39999 nth 0", "= 1"
    for number in range(1, 39_001):
        yield "p delete #%d" % number, "edit p cut 0 #%d ins %d bridge none lose #%d %d" % (number, number, number, number)
    yield "p ask size", "= 1000"
    for place in (0, 250, 500, 1_000):
        yield "p ask at %d size" % (39_000 + place), "= %d" % place
    yield "p ask at 39500 min", "= 39001"


def questions_in_order_of_time():
    """Of 3,000 rows, at each place in turn; then one more comes in before the last ones."""
    yield from entries(3_000)
    yield from sizes(*range(3_001))
    yield "p after #2500 ins 0", "edit p add 2500 #3001 ins 0 bridge 2500 gain #3001 0"
    yield "p ask before #2990 size", "= 2990"


def a_checkpoint_that_is_made_and_dropped_by_turns():
    """Of 2,100 rows; one more comes in after the five hundredth, and goes again."""
    yield from entries(2_100)
    yield from sizes(0, 525, 1_050, 2_100)
    for number in range(2_101, 2_121):
        yield "p after #500 ins 0", "edit p add 500 #%d ins 0 bridge 500 gain #%d 0" % (number, number)
        yield from sizes(0)
        for place in (525, 1_050):
            yield "p ask before #%d size" % place, "= %d" % place
        yield "p ask at 2100 size", "= 2101"
        yield "p delete #%d" % number, "edit p cut 500 #%d ins 0 bridge none lose #%d 0" % (number, number)
    yield from sizes(0, 525, 1_050, 2_100)
    yield "p ask at 600 nth 550", "= 551"


def a_checkpoint_too_many():
    """It doubles the width between them."""
    yield from entries(32_700)
    yield from sizes(1_500)
    for number in range(32_701, 32_901):
        yield entry(number)
    yield from sizes(*range(0, 32_901, 100))


def a_full_priority_queue():
    """Of as many rows as a timeline may have, all of which stay: a question about its past makes its checkpoints, at the greatest width."""
    yield from entries(ROWS)
    yield "p at 1 ins 0", "refused full"
    for place in (0, 1, 4_095, 4_096, 4_097, 65_536, 100_000, 131_071, ROWS):
        yield "p ask at %d size" % place, "= %d" % place
        yield "p ask at %d nth %d" % (place, place), "= none"
        yield "p ask at %d min" % place, "= 1" if place > 0 else "= none"
    yield "p delete #1", "edit p cut 0 #1 ins 1 bridge none lose #1 1"
    yield "p ask at 65536 size", "= 65535"
    yield "p ask at 65536 min", "= 2"
    last = ROWS + 1
    yield "p at 0 ins 5", "edit p add 0 #%d ins 5 bridge 0 gain #%d 5" % (last, last)
    yield "p ask at 65536 size", "= 65536"
    yield "p at 1 ins 0", "refused full"


def a_present_that_is_asked(past=()):
    """Of as many rows as a timeline may have: whoever asks behind the last row makes no checkpoint, in whatever words."""
    yield from entries(ROWS)
    yield "p ask at %d all" % ROWS, "=" + "".join(" %d" % key for key in range(1, ROWS + 1))
    yield "p ask all", "=" + "".join(" %d" % key for key in range(1, ROWS + 1))
    yield "p ask after #%d min" % ROWS, "= 1"
    yield "p ask at %d nth 131071" % ROWS, "= 131072"
    yield from past


def a_full_fused_queue():
    """Of as many rows as a timeline may have, all of which stay: questions about its past, edits of its middle, and no further row."""
    yield from entries(ROWS, "pqf")
    yield "p at 1 ins 0", "refused full"
    for place in (0, 1, 4_096, 65_536, 100_000, 131_071, ROWS):
        yield "p ask at %d size" % place, "= %d" % place
        yield "p ask at %d nth %d" % (place, place), "= none"
        yield "p ask at %d min" % place, "= 1" if place > 0 else "= none"
    yield "p delete #1", "edit p cut 0 #1 ins 1 bridge none lose #1 1"
    yield "p ask at 65536 size", "= 65535"
    yield "p ask at 65536 min", "= 2"
    # Behind the 65,535 rows up to that time, all of which stay, the least that is held there is lost.
    last = ROWS + 1
    yield "p at 1 delmin", "refused at #%d 1" % last
    yield "p at 65536 delmin", "edit p add 65535 #%d delmin bridge 65535 lose #2 2" % last
    yield "p ask at 65536 min", "= 3"
    yield "p ask at 65535 min", "= 2"
    yield "p ask size", "= %d" % (ROWS - 2)
    yield "p at 1 ins 0", "refused full"


def a_full_dictionary():
    """Of as many rows as a timeline may have: a row at each time puts that time at one of a thousand keys."""
    yield "timeline d dict next %d" % (ROWS + 1), None
    for time in range(1, ROWS + 1):
        yield "#%d %d put %d %d" % (time, time, time % 1_000, time), None
    yield "end", "ok"
    yield "d at 5 put 1 1", "refused full"
    for time in (999, 65_535, 65_536, 65_537, 131_071, ROWS):
        yield "d ask at %d get %d" % (time, time % 1_000), "= %d" % time
        yield "d ask at %d size" % time, "= %d" % min(time, 1_000)
        yield "d ask at %d sum 0 999" % time, "= %d" % (sum(range(max(1, time - 999), time + 1)))
    # A row in the middle goes, and another comes at a key that no row has.
    yield "d delete #70000", "ok"
    yield "d ask at 70500 get 0", "= 69000"
    yield "d ask at 70500 size", "= 1000"
    yield "d at 70000 put 5000 3", "ok #%d" % (ROWS + 1)
    yield "d ask at 70000 succ 1000", "= 5000:3"
    yield "d ask at 69999 succ 1000", "= none"
    yield "d ask size", "= 1001"
    yield "d at 70000 put 5000 3", "refused full"


def a_timeline_that_is_filled_and_emptied():
    """Seventy thousand times, with a run of rows that is made and dropped each time."""
    yield "new q queue", "ok"
    for number in range(1, 70_001):
        yield "q at 1 enq %d" % number, "ok #%d" % number
        yield "q delete #%d" % number, "ok"
    yield "q at 1 enq 7", "ok #70001"
    yield "q ask front", "= 7"
    yield "q ask at 0 size", "= 0"


def many_lifetimes_at_one_moment():
    """A hundred keys, each put by a row of its own and none deleted, so that all their lifetimes last to the end."""
    yield "new d dict", "ok"
    for key in range(100):
        yield "d at %d put %d %d" % (key, key, key * key), "ok #%d" % (key + 1)
    for time in range(100):
        yield "d ask at %d size" % time, "= %d" % (time + 1)
        yield "d ask at %d get %d" % (time, time), "= %d" % (time * time)
        yield "d ask at %d succ %d" % (time, time + 1), "= none"
        yield "d ask at %d sum 0 99" % time, "= %d" % sum(key * key for key in range(time + 1))


def lifetimes_that_become_many():
    """Keys that are there for fifty moments each: 255 of them, which are few, and one more; then 400, of which most go and one stays
    longer."""
    lives, rows, numbers = {}, {}, itertools.count(1)

    def added(first, last):
        for key in range(first, last):
            lives[key], rows[key] = (key, key + 50), (next(numbers), next(numbers))
            yield "d at %d put %d 1" % (key, key), "ok #%d" % rows[key][0]
            yield "d at %d del %d" % (key + 50, key), "ok #%d" % rows[key][1]

    def taken(first, last):
        for key in range(first, last):
            del lives[key]
            for number in reversed(rows[key]):
                yield "d delete #%d" % number, "ok"

    def told(*moments):
        for moment in moments:
            count = sum(begin <= moment < end for begin, end in lives.values())
            yield "d ask at %d size" % moment, "= %d" % count
            yield "d ask at %d sum 0 999" % moment, "= %d" % count

    yield "new d dict", "ok"
    yield from added(0, 255)
    yield from told(0, 49, 254, 255, 304)
    yield from added(255, 256)
    yield from told(0, 49, 254, 255, 304)
    yield from taken(255, 256)
    yield from told(254, 255, 304)
    yield from added(255, 400)
    yield from told(0, 10, 49, 60, 399, 448, 449)
    lives[10] = (10, 140)
    yield "d move #%d at 140" % rows[10][1], "ok #%d" % next(numbers)
    yield from taken(20, 390)
    yield from told(0, 19, 65, 69, 139, 140, 395, 440)


SCRIPTS = [
    more_steps_than_are_kept,
    lines_that_are_too_long,
    a_script_of_a_megabyte,
    a_long_content,
    a_block_as_long_as_a_timeline,
    a_block_that_is_too_long,
    a_row_line_that_is_too_long,
    a_timeline_of_many_rows,
    labels_of_runs_that_are_used_up,
    labels_of_a_dictionary_that_are_used_up,
    rows_of_a_dictionary_before_all_others,
    many_rows_of_a_dictionary_at_one_place,
    a_gap_between_checkpoints_that_is_split,
    checkpoints_that_go_where_rows_go,
    questions_in_order_of_time,
    a_checkpoint_that_is_made_and_dropped_by_turns,
    a_checkpoint_too_many,
    a_full_priority_queue,
    a_full_fused_queue,
    a_full_dictionary,
    a_timeline_that_is_filled_and_emptied,
    many_lifetimes_at_one_moment,
    lifetimes_that_become_many,
]

# Evidence with a line of more than 4,096 bytes: a line of evidence is none then, and another one is passed over, however long it is.
# Behind it stands true evidence of three edits.
LONG_EVIDENCE = [
    (b"edit ", "refused line 1 syntax", 1),
    (b"edits", "accepted 3", 0),
]
EVIDENCE = b"""ok
edit p add 0 #1 ins 4 bridge 0 gain #1 4
edit p add 1 #2 delmin bridge 1 lose #1 4
edit p add 0 #3 ins 2 bridge 0 gain #1 4
= 4
= 2
"""


def answers_of(program, words, given, memory=None):
    """What the program writes, line by line, and its status, where it may take no more bytes of memory than these."""
    limited = memory and (lambda: resource.setrlimit(resource.RLIMIT_AS, (memory, memory)))
    done = subprocess.run([program] + words, input=given, stdout=subprocess.PIPE, timeout=LIMIT, preexec_fn=limited)
    return done.stdout.decode().splitlines(), done.returncode


def passes(name, found, wanted):
    """Whether the answers and the status are those that are wanted; the first difference is shown."""
    if found == wanted:
        return True
    (answers, status), (right, ends) = found, wanted
    print("%s: status %d, wanted %d" % (name, status, ends))
    for index in range(max(len(answers), len(right))):
        met, due = answers[index : index + 1], right[index : index + 1]
        if met != due:
            print("    answer %d: %.200r, wanted %.200r" % (index + 1, met, due))
            break
    return False


def results(program):
    """Whether each input is answered as it has to be."""
    for script in SCRIPTS:
        lines = list(script())
        wanted = [answer for _, answer in lines if answer is not None]
        status = 1 if any(answer.startswith("refused") for answer in wanted) else 0
        given = "\n".join(line for line, _ in lines).encode()
        yield passes(script.__name__, answers_of(program, ["run"], given), (wanted, status))
    for begin, judgement, status in LONG_EVIDENCE:
        found = answers_of(program, ["check"], begin + 4_096 * b" " + b"\n" + EVIDENCE)
        yield passes("a long line of evidence", found, ([judgement], status))
    for name, past, status in (("a present in little memory", (), 0), ("a past that needs more", ("p ask at 1 min",), 5)):
        lines = list(a_present_that_is_asked((question, None) for question in past))
        given = "\n".join(line for line, _ in lines).encode()
        wanted = [answer for _, answer in lines if answer is not None]
        yield passes(name, answers_of(program, ["run"], given, PRESENT_MEMORY), (wanted, status))
    first, second = (answers_of(program, ["gen", "pq", "20000", "7"], b"") for _ in range(2))
    yield passes("a long generated script", second, first)
    yield passes("its lines", (first[0][0].split()[:2], first[1]), (["lines", "20001"], 0))


def main():
    program = os.path.abspath(sys.argv[1] if len(sys.argv) > 1 else os.path.join(ROOT, "build", "retro"))
    passings = list(results(program))
    print("%d passed, %d failed" % (sum(passings), len(passings) - sum(passings)))
    sys.exit(not all(passings))


if __name__ == "__main__":
    main()
