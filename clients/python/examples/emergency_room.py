"""An emergency room: the most urgent patient first, then who came first; an auditor judges the evidence of every edit."""

from typing import List

from retro import Retro, check

MINUTES = 10_000  # a key is the urgency, and behind it the minute of arrival: ties go by arrival, however late an entry is made


def arrival(urgency: int, minute: int) -> int:
    return urgency * MINUTES + minute


evidence: List[str] = []
with Retro(evidence=evidence.append) as retro:
    room = retro.new("room", "pq")
    room.ins(arrival(2, 545), at=545)
    room.delmin(at=600)
    cyd = room.ins(arrival(3, 610), at=610)
    abe = room.ins(arrival(2, 530), at=530)  # had come first, and was entered last
    print("seen at 600: the patient of row", room.takes()[2])
    print("the edit has changed:", abe.evidence[0].change, "row", abe.evidence[0].entry)
    room.change(cyd.row, "ins %d" % arrival(1, 610))  # graver than it had seemed
    print("waiting:", [divmod(key, MINUTES) for key in room.all()], "next:", room.row(room.entries()[0].number).time)
print("the auditor accepts", sum(verdict.accepted is True for verdict in check(evidence)), "of", len(evidence))
