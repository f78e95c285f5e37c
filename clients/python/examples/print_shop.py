"""A print shop: a job that nobody had written down, and what it changed."""

from retro import Refused, Retro, explain

with Retro() as retro:
    jobs = retro.new("jobs", "queue")
    for time, order in ((900, 31), (915, 32), (930, 33)):
        jobs.enq(order, at=time)
    jobs.deq(at=1000), jobs.deq(at=1030)
    with explain(jobs, ["front"]) as report:
        jobs.enq(30, at=850)  # an order that lay under the door
    print(report.text(), end="")
    print("waiting:", jobs.all(), "and over the day:", jobs.over("size", 850, 1030))
    try:
        jobs.delete(1), jobs.delete(2), jobs.delete(3)
    except Refused as refused:
        print("refused, since row", refused.number, "at", refused.time, "would find nothing")
