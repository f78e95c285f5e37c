"""A simulation whose events are corrected, and whose past is asked after each correction: a `pqf`, in a stream."""

from typing import List

from retro import Retro, load_as_pqf

STEPS = 2000

with Retro() as retro:
    events = retro.new("events", "pqf")
    filled = retro.stream("events at %d ins %d" % (step, step) for step in range(1, STEPS + 1))
    print("rows:", sum(not reply.refused for reply in filled))
    lines: List[str] = []
    for step in range(100, STEPS, 100):  # an event that had been missed, and the steps on both sides of it
        lines += ["events at %d ins %d" % (step, -step), *("events ask at %d min" % near for near in (step - 1, step + 1))]
    told = [reply.value for reply in retro.stream(lines)]
    print("before:", told[1], told[4], told[-2], "behind:", told[2], told[5], told[-1])
    saved = events.save()

with Retro() as retro:
    anew, numbers = load_as_pqf(retro, saved)
    print("the next day:", anew.min(), "row", numbers[STEPS + 1], "was", STEPS + 1, "and the last is", max(numbers.values()))
