"""A shunting yard: wagons come and go at both ends of a siding, and a move of the morning was written down on the wrong side."""

from retro import Refused, Retro, explain

with Retro() as retro:
    siding = retro.new("siding", "deque")
    siding.pushl(11, at=600)
    wrong = siding.pushl(12, at=610)
    siding.pushr(13, at=620)
    out = siding.popl(at=700)
    with explain(siding, ["left"]) as report:
        siding.change(wrong.row, "pushr 12")  # wagon 12 had come in on the right
    print(report.text(), end="")
    try:
        siding.move(out.row, 500)
    except Refused as refused:
        print("refused: row", refused.number, "at", refused.time)
    siding.pushl(10, before=out.row)
    print("standing:", siding.all(), "and over the day:", siding.over("all", 620, 700))
