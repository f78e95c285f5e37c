"""Tables of events on more machines than one: dask.distributed hands parts of the keys to workers, and makes anew what a lost one had.

It needs `dask.distributed` (Debian's `python3-distributed`), and the program on each worker.
"""

import importlib
from typing import Any, Iterable, Iterator, List, Optional, Sequence

from .channel import Program
from .tables import Column, Event, Told, answer_events, events_of, partition

distributed = importlib.import_module("dask.distributed")
OF_A_WORKER = 4  # parts for each processor of a worker, so that a lost part is a small one
RETRIES = 5  # workers that may be lost under one part


def _part(events: List[Event], ask: Sequence[str], kind: Optional[str], program: Optional[Program]) -> List[Told]:
    return list(answer_events(events, ask, kind, False, program))


def answer_table(
    client: Any,
    rows: Iterable[object],
    key: Column = 0,
    time: Column = 1,
    operation: Column = 2,
    ask: Sequence[str] = (),
    id: Optional[Column] = None,
    kind: Optional[str] = None,
    program: Optional[Program] = None,
) -> Iterator[Told]:
    """`retro.answer_table` by the workers of a cluster: the same rows, part by part as they are done.

    All events are held here until they are handed over. What a worker had that is lost is done anew by another one. Errors: those of
    `retro.answer_table`; `KilledWorker` where a part has lost too many workers.
    """
    parts = partition(events_of(rows, key, time, operation, id), OF_A_WORKER * max(1, sum(client.nthreads().values())))
    futures = [client.submit(_part, part, ask, kind, program, pure=False, retries=RETRIES) for part in parts if part]
    for done in distributed.as_completed(futures):
        yield from done.result()
