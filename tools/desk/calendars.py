"""The calendar: 480 words, one a month, from weekdays, limits and listed days, and back."""
from . import dates, holidays, layout
from .sources import sample

ALL_WEEKDAYS = {name: place for place, name in enumerate(dates.WEEKDAYS)}
DEFAULT = ("Monday", "Tuesday", "Wednesday", "Thursday", "Friday")


def month_of(day):
    """The place of a day's word."""
    return (day.year - dates.FIRST.year) * 12 + day.month - 1


def is_open(words, day):
    return bool(words[month_of(day)] >> (day.day - 1) & 1)


def open_days(words):
    """The open days in order."""
    return [day for day in dates.every_day() if is_open(words, day)]


def open_after(words, day):
    """The next open day, or None."""
    while day < dates.LAST:
        day += dates.ONE_DAY
        if is_open(words, day):
            return day
    return None


def last_open(words):
    """The last open day, or None."""
    for month in range(layout.MONTHS - 1, -1, -1):
        if words[month]:
            number = (dates.FIRST.year + month // 12) * 10000 + (month % 12 + 1) * 100
            days = (dates.of_number(number + day) for day in range(31, 0, -1) if words[month] >> (day - 1) & 1)
            found = next((day for day in days if day is not None), None)
            if found is not None:
                return found
    return None


def of_days(days):
    """The words in which just these days are open."""
    words = [0] * layout.MONTHS
    for day in days:
        words[month_of(day)] |= 1 << (day.day - 1)
    return words


def by_rule(weekdays, first, last):
    """The days of these weekdays from first to last."""
    return [day for day in dates.every_day(first, last) if day.weekday() in weekdays]


def make(fields, found):
    """The words of a [calendar] table, or None where it has mistakes."""
    before = found.count
    fields.known(found, "weekdays", "first", "last", "holidays", "closed", "open")
    weekdays = make_weekdays(fields, found)
    first, last = found.take(fields.date, "first", dates.FIRST), found.take(fields.date, "last", dates.LAST)
    if first and last and last < first:
        found.add(fields.fault("last", "%s is before first, %s" % (last, first), "a date on or after first"))
    named = make_named(fields, found)
    closed = (set() if named else fields.date_set("holidays", found)) | fields.date_set("closed", found)
    extra = fields.date_set("open", found)
    for day in sorted(closed & extra):
        found.add(fields.fault("open", "%s is listed as open and as closed" % day, "a day in one of the lists"))
    if found.count > before:
        return None
    return of_days((set(by_rule(weekdays, first, last)) - closed - named) | extra)


def make_named(fields, found):
    """The days of the holidays that are given by a name."""
    name = fields.values.get("holidays")
    if not isinstance(name, str):
        return set()
    if name.strip() == holidays.NAME:
        return holidays.all_of_them()
    found.add(fields.fault("holidays", "%s is no list of days" % sample(name), 'dates in a list, or "%s"' % holidays.NAME))
    return holidays.all_of_them()


def make_weekdays(fields, found):
    """The open days of the week, by their numbers."""
    allowed = ", ".join(dates.WEEKDAYS)
    weekdays = set()
    for name in found.take(fields.items, "weekdays", allowed) or () if fields.has("weekdays") else DEFAULT:
        if isinstance(name, str) and name in ALL_WEEKDAYS:
            weekdays.add(ALL_WEEKDAYS[name])
        else:
            found.add(fields.fault("weekdays", "%s is no weekday" % sample(name), allowed))
    return weekdays


def usual_weekdays(days):
    """The weekdays that are open more often than not from the first to the last open day."""
    if not days:
        return set()
    opened, all_of = [0] * 7, [0] * 7
    for day in dates.every_day(days[0], days[-1]):
        all_of[day.weekday()] += 1
    for day in days:
        opened[day.weekday()] += 1
    return {weekday for weekday in range(7) if 2 * opened[weekday] > all_of[weekday]}


def date_lines(key, days):
    """A list of dates as TOML, several to a line."""
    if not days:
        return []
    if len(days) <= 4:
        return ["%s = [%s]" % (key, ", ".join(str(day) for day in days))]
    lines = ["    " + " ".join("%s," % day for day in days[at:at + 8]) for at in range(0, len(days), 8)]
    return ["%s = [" % key] + lines + ["]"]


def show(words):
    """The lines of a [calendar] table for these words, and the words that it stands for."""
    days = open_days(words)
    weekdays = usual_weekdays(days)
    first, last = dates.FIRST, dates.LAST
    lines = ["[calendar]", "weekdays = [%s]" % ", ".join('"%s"' % dates.WEEKDAYS[day] for day in sorted(weekdays))]
    if days and days[0] > first and by_rule(weekdays, first, days[0] - dates.ONE_DAY):
        first = days[0]
        lines.append("first = %s" % first)
    if days and days[-1] < last and by_rule(weekdays, days[-1] + dates.ONE_DAY, last):
        last = days[-1]
        lines.append("last = %s" % last)
    rule, opened = set(by_rule(weekdays, first, last)) if weekdays else set(), set(days)
    lines += date_lines("closed", sorted(rule - opened)) + date_lines("open", sorted(opened - rule))
    return lines, of_days(days)
