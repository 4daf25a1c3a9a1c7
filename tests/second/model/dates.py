"""Date stamps of fourteen bits, both ways, and the end of a ticket."""

import datetime

from .refusal import Refused

DAY_ZERO = datetime.date(1997, 1, 1)
DAY_OF_STAMP_ZERO = 16384


def day_of(stamp):
    """The day a stamp means, counted from 1 January 1997; 0 means day 16,384."""
    return stamp if stamp != 0 else DAY_OF_STAMP_ZERO


def date_of(stamp):
    """Year, month and day; 30 above 16,383."""
    if stamp > 16383:
        raise Refused(30)
    date = DAY_ZERO + datetime.timedelta(days=day_of(stamp))
    return [date.year, date.month, date.day]


def stamp_of(year, month, day):
    """The stamp of a calendar date; 29 if there is none."""
    try:
        date = datetime.date(year, month, day)
    except (ValueError, OverflowError):
        raise Refused(29)
    days = (date - DAY_ZERO).days
    if not 1 <= days <= DAY_OF_STAMP_ZERO:
        raise Refused(29)
    return days if days != DAY_OF_STAMP_ZERO else 0


def end_of_ticket(exp, expiry_time):
    """The entry's day in minutes, and the minutes of ExpiryTime, also those of the day after."""
    return day_of(exp) * 1440 + expiry_time
