"""The Reserve Banks' holidays by name, worked out by rule for every year of the calendar. One on a Saturday is not moved: the Friday before it
is open. One on a Sunday is kept on the Monday after it."""
import datetime

from . import dates

NAME = "Federal Reserve"
MONDAY, THURSDAY = 0, 3
JUNETEENTH_SINCE = 2022


def nth(year, month, weekday, count):
    """The day that is the countth such weekday of a month."""
    first = datetime.date(year, month, 1)
    return first + datetime.timedelta((weekday - first.weekday()) % 7 + 7 * (count - 1))


def last_monday_of_may(year):
    day = datetime.date(year, 5, 31)
    return day - datetime.timedelta(day.weekday())


def kept(day):
    """The day on which a holiday with a fixed date is kept."""
    return day + dates.ONE_DAY if day.weekday() == 6 else day


def of_year(year):
    """The holidays of a year, as they are kept."""
    fixed = [(1, 1), (7, 4), (11, 11), (12, 25)] + [(6, 19)] * (year >= JUNETEENTH_SINCE)
    days = [kept(datetime.date(year, month, day)) for month, day in fixed]
    days += [nth(year, 1, MONDAY, 3), nth(year, 2, MONDAY, 3), last_monday_of_may(year), nth(year, 9, MONDAY, 1),
             nth(year, 10, MONDAY, 2), nth(year, 11, THURSDAY, 4)]
    return sorted(days)


def all_of_them():
    """The holidays of all years of the calendar."""
    return {day for year in range(dates.FIRST.year, dates.LAST.year + 1) for day in of_year(year)}
