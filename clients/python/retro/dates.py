"""Dates as numbers that sort as the dates do: `YYYYMMDDhhmm`, or `YYYYMMDDhhmmss` where seconds matter."""

import datetime
import re
from typing import Tuple

MINUTES = 10**12  # a number below it is a date without seconds
_DAY = r"(?:(\d{4})-(\d\d)-(\d\d)|(\d\d?)\.(\d\d?)\.(\d{4}))"
_CLOCK = r"(?:[ T](\d\d):(\d\d)(?::(\d\d))?(Z|[+-]\d\d:\d\d)?)?"
A_DATE = re.compile(_DAY + _CLOCK + r"\Z", re.ASCII)


def moment_of(date: str) -> Tuple[int, bool]:
    """A date as a number with seconds, and whether it says them. Errors: ValueError where it is none of the calendar.

    The forms are `YYYY-MM-DD` and `DD.MM.YYYY`, alone (midnight) or with `hh:mm` or `hh:mm:ss` behind a space or a `T`. What has `Z` or a
    difference like `+01:00` behind it is a date of UTC.
    """
    found = A_DATE.match(date)
    if found is None:
        raise ValueError("no date of the form YYYY-MM-DD hh:mm or DD.MM.YYYY hh:mm: %r" % date)
    year, month, day, its_day, its_month, its_year, hour, minute, second, zone = found.groups()
    numbers = map(int, (year or its_year, month or its_month, day or its_day, hour or 0, minute or 0, second or 0))
    moment = datetime.datetime(*numbers)  # type: ignore[arg-type]
    if zone and zone != "Z":
        apart = datetime.timedelta(hours=int(zone[1:3]), minutes=int(zone[4:]))
        moment = moment - apart if zone[0] == "+" else moment + apart
    if moment.year < 1000:
        raise ValueError("a year has four digits: %r" % date)
    return int(moment.strftime("%Y%m%d%H%M%S")), second is not None


def time_of(date: str, with_seconds: bool = False) -> int:
    """A date as a number that sorts, with seconds where it says them or where all are to have them. Errors: those of `moment_of`."""
    moment, says_seconds = moment_of(date)
    return moment if with_seconds or says_seconds else moment // 100


def clock_of(time: int) -> datetime.datetime:
    """The moment of such a number. Errors: ValueError where it is none of the calendar."""
    digits = "%014d" % (time if time >= MINUTES else time * 100)
    parts = (digits[:4], digits[4:6], digits[6:8], digits[8:10], digits[10:12], digits[12:])
    return datetime.datetime(*map(int, parts))  # type: ignore[arg-type]


def date_of(time: int) -> str:
    """The date of such a number, `YYYY-MM-DD hh:mm` or `YYYY-MM-DD hh:mm:ss`. Errors: ValueError where it is none of the calendar."""
    moment = clock_of(time)
    return moment.isoformat(" ", "minutes" if time < MINUTES else "seconds")
