"""A client of the program `retro`, which corrects the past of histories and answers as if it had always been so.

`Retro` is a conversation with a process; `Timeline` a timeline of it; `Saved` a whole timeline as `save` writes it. README.md has the first
steps.
"""

from .answers import Edit, Evidence, Reply, Taken, evidence_of, value_of
from .asynchronous import AsyncRetro
from .asynchronous_kinds import AsyncDeque, AsyncDict, AsyncPriorityQueue, AsyncQueue, AsyncStack
from .asynchronous_timeline import AsyncTimeline
from .checking import Verdict, check, times_of
from .conversation import Answered
from .dates import date_of, time_of
from .errors import Ended, OutOfStep, OutOfTurn, Refused, RetroError, TimedOut
from .events import Names, Script, Unreadable, arrive, script_of, table_of
from .explaining import Changed, Report, Take, compared, explain
from .files import Recovered, load_file, recover, save_file, write_whole
from .history_page import PageDiffers, page
from .journal import Compacted, Journal
from .journal_file import Busy, Differs, Full, JournalError, NoJournal, Unwritten
from .kinds import Deque, Dict, PriorityQueue, Queue, Stack
from .lineage import Edited, Lineage, same_rows
from .merging import Merged, lines_anew, load_as_pqf, merge
from .part import divide
from .picture import svg
from .pool import answer_divided
from .process import Retro
from .rows import Lifetime, Row, Saved, Table, Unperformed, entries, lifetimes
from .sources import Source, read_source
from .tables import Event, KeyAgain, RefusedEvent, Told, answer_events, answer_table, events_of, part_of, partition
from .timeline import Timeline
from .whole import annotated, answer

__version__ = "0.2"

__all__ = [
    "Answered", "AsyncDeque", "AsyncDict", "AsyncPriorityQueue", "AsyncQueue", "AsyncRetro", "AsyncStack", "AsyncTimeline", "Busy",
    "Changed", "Compacted", "Deque", "Dict", "Differs", "Edit", "Edited", "Ended", "Event", "Evidence", "Full", "Journal", "JournalError",
    "KeyAgain", "Lifetime", "Lineage", "Merged", "Names", "NoJournal", "OutOfStep", "OutOfTurn", "PageDiffers", "PriorityQueue", "Queue",
    "Recovered", "Refused", "RefusedEvent", "Reply", "Report", "Retro", "RetroError", "Row", "Saved", "Script", "Source", "Stack", "Table",
    "Take", "Taken", "TimedOut", "Timeline", "Told", "Unperformed", "Unreadable", "Unwritten", "Verdict", "annotated", "answer",
    "answer_divided", "answer_events", "answer_table", "arrive", "check", "compared", "date_of", "divide", "entries", "events_of",
    "evidence_of", "explain", "lifetimes", "lines_anew", "load_as_pqf", "load_file", "merge", "page", "part_of", "partition", "read_source",
    "recover", "same_rows", "save_file", "script_of", "svg", "table_of", "time_of", "times_of", "value_of", "write_whole",
]
