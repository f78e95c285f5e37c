"""Meter readings, kept in a journal: one came late, one was entered twice, one had two digits swapped."""

from retro import Dict, Journal, explain

with Journal("water.journal") as retro:
    water = retro.new("water", "dict")
    water.put(12, 310, at=1)
    swapped, twice = water.put(12, 325, at=8), water.put(12, 310, at=9)
    with explain(water, names={12: "the cellar", 17: "the roof"}) as report:
        water.delete(twice.row)
        water.put(17, 40, at=5)  # a reading of day 5 comes in late
        water.change(swapped.row, "put 12 352")
    print(report.text(), end="")

with Journal("water.journal") as retro:
    water = Dict.of(retro.timeline("water"))
    print("the next day:", water.all(at=7), "and by day:", water.over("sum 0 99", 0, 10), "next number", water.save().next)
