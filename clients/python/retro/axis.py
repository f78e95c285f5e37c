"""Where times stand in a picture: plain numbers, or dates by the calendar."""

import datetime
from typing import Iterator, List, Optional, Sequence, Tuple

from .dates import MINUTES, clock_of, date_of

WIDTH = 560  # of an axis, in units of a picture
MOST_TICKS = 7
SECOND, MINUTE, HOUR, DAY = 1, 60, 3600, 86400
ROUND = ((SECOND, (1, 2, 5, 10, 15, 30)), (MINUTE, (1, 2, 5, 10, 15, 30)), (HOUR, (1, 2, 3, 6, 12)))
STEPS = [count * unit for unit, counts in ROUND for count in counts]
BEGAN = datetime.datetime(1, 1, 1)


class Axis:
    """Times as plain numbers, from `first` to `last`."""

    unit = "time"

    def __init__(self, first: int, last: int) -> None:
        self.first, self.last = first, max(last, first + 1)

    def place(self, time: int) -> float:
        """Where a time stands, from 0 to `WIDTH`; what is outside stands at the end."""
        return WIDTH * (min(max(time, self.first), self.last) - self.first) / (self.last - self.first)

    def said(self, time: int) -> str:
        """A time as it is shown."""
        return str(time)

    def ticks(self) -> Iterator[Tuple[float, str]]:
        """Places with their labels, as many as stand side by side."""
        for time in ticks(self.first, self.last):
            yield self.place(time), str(time)


class Calendar(Axis):
    """Times as dates: a minute is as wide on any day, also where a month ends. Errors: ValueError where one is no date."""

    unit = "date"

    def __init__(self, first: int, last: int) -> None:
        super().__init__(first, last)
        self.last = max(last, first)
        self._first = _seconds(self.first)
        self._last = _seconds(self.last) if last > first else self._first + MINUTE

    def place(self, time: int) -> float:
        return WIDTH * (min(max(_seconds(time), self._first), self._last) - self._first) / (self._last - self._first)

    def said(self, time: int) -> str:
        return date_of(time)

    def ticks(self) -> Iterator[Tuple[float, str]]:
        for moment, label in _dates(BEGAN + datetime.timedelta(seconds=self._first), BEGAN + datetime.timedelta(seconds=self._last)):
            seconds = (moment - BEGAN) // datetime.timedelta(seconds=1)
            yield WIDTH * (seconds - self._first) / (self._last - self._first), label


def _seconds(time: int) -> int:
    return (clock_of(time) - BEGAN) // datetime.timedelta(seconds=1)


def axis_of(first: int, last: int, times: Sequence[int], calendar: Optional[bool]) -> Axis:
    """The axis of a picture; a calendar where that is asked for, or, where nothing is asked, where every time is a date since the year 1000."""
    if calendar is None:
        calendar = bool(times) and all(map(_is_date, (first, last, *times)))
    return Calendar(first, last) if calendar else Axis(first, last)


def _is_date(time: int) -> bool:
    try:
        return clock_of(time).year >= 1000 and time < MINUTES * 100
    except ValueError:
        return False


def ticks(first: int, last: int) -> List[int]:
    """Round numbers from `first` to `last`, as many as stand side by side."""
    most = min(WIDTH // (7 * len(str(last)) + 14), MOST_TICKS)
    step = 1
    while (last - first) // step > most - 1:
        step = step * 5 // 2 if str(step).startswith("2") else step * 2
    return [time for time in range(-(-first // step) * step, last + 1, step)] or [first]


def _dates(first: datetime.datetime, last: datetime.datetime) -> Iterator[Tuple[datetime.datetime, str]]:
    """Round dates with their labels: times of a day, with the date where a day begins; or days, or months, or years."""
    span = (last - first) // datetime.timedelta(seconds=1)
    for step in STEPS:
        if span // step < MOST_TICKS:
            start = (first - BEGAN) // datetime.timedelta(seconds=1)
            for seconds in range(-(-start // step) * step, start + span + 1, step):
                moment = BEGAN + datetime.timedelta(seconds=seconds)
                clock = moment.strftime("%H:%M:%S" if step < MINUTE else "%H:%M")
                yield moment, moment.strftime("%d.%m. ") + clock if seconds % DAY == 0 else clock
            return
    days = next((days for days in (1, 2, 7, 14) if span // (days * DAY) < MOST_TICKS), 0)
    if days:
        midnight = datetime.datetime(first.year, first.month, first.day)
        midnight += datetime.timedelta(days=int(midnight < first))
        while midnight <= last:
            yield midnight, midnight.strftime("%Y-%m-%d")
            midnight += datetime.timedelta(days=days)
        return
    months = next(months for months in (1, 2, 3, 6, 12, 24, 60, 120, 240, 600, 1200, 6000, 12000) if span // (months * 30 * DAY) < MOST_TICKS)
    for month in range(-(-(first.year * 12) // months) * months, last.year * 12 + 12, months):
        moment = datetime.datetime(month // 12, month % 12 + 1, 1)
        if first <= moment <= last:
            yield moment, moment.strftime("%Y-%m")
