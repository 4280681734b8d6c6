"""Dates: the number yyyymmdd, 20000101 to 20391231, and their forms in text."""
import datetime
import re

FIRST = datetime.date(2000, 1, 1)
LAST = datetime.date(2039, 12, 31)
MEMO_DAY = datetime.date(2023, 1, 30)       # days before it have the rules of the older memo
ALLOWED = "a date from 2000-01-01 to 2039-12-31, written 2023-04-01 or \"20230401\""
WEEKDAYS = ("Monday", "Tuesday", "Wednesday", "Thursday", "Friday", "Saturday", "Sunday")
ONE_DAY = datetime.timedelta(days=1)
FORM = re.compile(r"([0-9]{4})-([0-9]{2})-([0-9]{2})|([0-9]{4})([0-9]{2})([0-9]{2})")
OTHER_FORM = re.compile(r"([0-9]{4})[/.-]([0-9]{1,2})[/.-]([0-9]{1,2})|([0-9]{1,2})[/.-]([0-9]{1,2})[/.-]([0-9]{4})")


def number(day):
    """The number yyyymmdd of a date."""
    return day.year * 10000 + day.month * 100 + day.day


def of_number(value):
    """The date with this number, or None."""
    try:
        day = datetime.date(value // 10000, value // 100 % 100, value % 100)
    except (ValueError, OverflowError):
        return None
    return day if FIRST <= day <= LAST else None


def read(value):
    """The date that a value of a source stands for, or None."""
    if isinstance(value, datetime.datetime):
        return None
    if isinstance(value, datetime.date):
        return value if FIRST <= value <= LAST else None
    if isinstance(value, str):
        match = FORM.fullmatch(value.strip())
        return of_number(int("".join(part for part in match.groups() if part))) if match else None
    if isinstance(value, int) and not isinstance(value, bool):
        return of_number(value)
    return None


def meant(value):
    """A hint for a date in another form: 05/10/2024 may mean two days."""
    match = OTHER_FORM.fullmatch(value.strip()) if isinstance(value, str) else None
    if not match:
        return ""
    if match[1]:
        found = [of_parts(match[1], match[2], match[3])]
    else:
        found = [of_parts(match[6], match[4], match[5]), of_parts(match[6], match[5], match[4])]
    days = [str(day) for day in dict.fromkeys(found) if day is not None]
    return " (meant: %s?)" % " or ".join(days) if days else ""


def of_parts(year, month, day):
    """The date with these digits, or None."""
    return of_number(int(year) * 10000 + int(month) * 100 + int(day))


DAYS = [datetime.date.fromordinal(place) for place in range(FIRST.toordinal(), LAST.toordinal() + 1)]


def every_day(first=FIRST, last=LAST):
    """The days from first to last."""
    return DAYS[first.toordinal() - FIRST.toordinal():last.toordinal() - FIRST.toordinal() + 1]


def show_number(value):
    """A date's number as 2023-04-01; any other number as it is."""
    day = of_number(value)
    return str(value) if day is None else day.isoformat()
