"""The drawn time line: one line for each day, downwards, closed days hatched, dates marked by shapes and words."""
import datetime
from collections import Counter, namedtuple
from html import escape
from itertools import groupby

from . import calendars, dates

Event = namedtuple("Event", "day shape words")

WIDTH = 400
DATE_END = 98
CELL = 106
CELL_WIDTH = 20
SHAPE = 144
WORDS = 160
LINE = 20
BASE = 14.5             # from the top of a line to where its letters stand
MARGIN = 8
DAYS_AROUND = 2
WHOLE_RANGE = 45        # up to so many days every day has a line of its own
GAP_DAY, GAP_LEAST, GAP_HEIGHT = 4.0, 0.25, 90.0
SHORT_WEEKDAYS = [name[:3] for name in dates.WEEKDAYS]
MONTH_NAMES = ("Jan", "Feb", "Mar", "Apr", "May", "Jun", "Jul", "Aug", "Sep", "Oct", "Nov", "Dec")

SHAPES = {
    "contract": '<circle cx="{x}" cy="{y}" r="6" class="hollow"/>',
    "settlement": '<rect x="{left}" y="{top}" width="12" height="12" class="solid"/>',
    "record": '<path d="M{x} {top} L{right} {bottom} L{left} {bottom} Z" class="hollow"/>',
    "beneficiary": '<path d="M{x} {high} L{far} {y} L{x} {low} L{near} {y} Z" class="solid"/>',
    "release": '<path d="M{left} {top} L{right} {y} L{left} {bottom} Z" class="solid"/>',
    "payment": '<circle cx="{x}" cy="{y}" r="6.5" class="hollow"/><circle cx="{x}" cy="{y}" r="2.5" class="solid"/>',
}


def short_words(day):
    """A day such as Wed 31 May."""
    return "%s %d %s" % (SHORT_WEEKDAYS[day.weekday()], day.day, MONTH_NAMES[day.month - 1])


def day_words(day):
    """A day such as Wed 31 May 2023."""
    return "%s %d" % (short_words(day), day.year)


def shape(name, y):
    """A mark centred on the line at y."""
    x = SHAPE
    return SHAPES[name].format(x=x, y=y, left=x - 6, right=x + 6, top=y - 6, bottom=y + 6, high=y - 7.5, low=y + 7.5,
                               near=x - 7.5, far=x + 7.5)


class Scale:
    """The days that both time lines draw, and the lines of each; the same for both, so that the days stand side by side."""

    def __init__(self, event_lists, calendar):
        days = [event.day for events in event_lists for event in events]
        around = datetime.timedelta(days=DAYS_AROUND)
        self.days = dates.every_day(max(dates.FIRST, min(days) - around), min(dates.LAST, max(days) + around))
        self.calendar = calendar
        self.lines = {}
        for events in event_lists:
            for day, count in Counter(event.day for event in events).items():
                count += not calendars.is_open(calendar, day)
                self.lines[day] = max(count, self.lines.get(day, 1))
        self.full = set(self.days) if len(self.days) <= WHOLE_RANGE else self.near()

    def near(self):
        """The days with a mark and their neighbours."""
        return {day for place, day in enumerate(self.days)
                if any(near in self.lines for near in self.days[max(place - 1, 0):place + 2])}

    def runs(self):
        """Runs of days of one year, in order: whether the days have lines of their own, and the days. Whole years without a mark that
        follow each other are one run."""
        found = []
        for (year, full), days in groupby(self.days, lambda day: (day.year, day in self.full)):
            days = list(days)
            if found and is_empty_years(full, days) and is_empty_years(*found[-1]):
                found[-1][1].extend(days)
            else:
                found.append((full, days))
        return found

    def height(self, day):
        return LINE * self.lines.get(day, 1)


def is_empty_years(full, days):
    """Whether a run is one or more whole years without a mark."""
    first, last = days[0], days[-1]
    return not full and (first.month, first.day, last.month, last.day) == (1, 1, 12, 31)


def gap_height(days):
    """The height of one day in a run of days without marks."""
    return max(GAP_LEAST, min(GAP_DAY, GAP_HEIGHT / len(days)))


def draw(number, title, events, scale):
    """The time line as inline SVG."""
    parts, y, year = [], MARGIN, None
    for full, days in scale.runs():
        if is_empty_years(full, days):
            parts += draw_years(days, y)
            y += LINE * 1.5
            year = days[-1].year
            continue
        if days[0].year != year:
            year = days[0].year
            parts.append(date_text(year, y, "marked"))
            y += LINE
        for day in days if full else ():
            parts += draw_day(number, day, [event for event in events if event.day == day], y, scale)
            y += scale.height(day)
        if not full:
            parts += draw_gap(number, days, y, scale.calendar)
            y += gap_height(days) * len(days)
    told = "; ".join("%s: %s" % (day_words(event.day), event.words) for event in sorted(events, key=lambda e: e.day))
    head = ('<svg viewBox="0 0 %d %g" role="img" aria-labelledby="line-title-%d line-words-%d">'
            '<title id="line-title-%d">%s</title><desc id="line-words-%d">%s</desc>' % (
                WIDTH, y + MARGIN, number, number, number, escape("Time line: " + title), number, escape(told)))
    hatch = ('<defs><pattern id="hatch-%d" width="5" height="5" patternUnits="userSpaceOnUse" '
             'patternTransform="rotate(45)"><path d="M0 0 V5" class="hatch"/></pattern></defs>\n' % number)
    return head + hatch + "\n".join(parts) + "</svg>"


def date_text(words, y, name=""):
    """Words in the column of dates."""
    return '<text x="%d" y="%g" text-anchor="end" class="%s">%s</text>' % (DATE_END, y + BASE, name, words)


def cell(number, y, height, is_open):
    """A day's cell, hatched where the day is closed."""
    fill = "" if is_open else ' style="fill:url(#hatch-%d)"' % number
    return '<rect x="%d" y="%g" width="%d" height="%g" class="day"%s/>' % (CELL, y, CELL_WIDTH, height, fill)


def draw_day(number, day, events, y, scale):
    """A day with its date, its cell and its marks, one below the other."""
    is_open = calendars.is_open(scale.calendar, day)
    parts = [date_text(short_words(day), y, "marked" if events else "plain"),
             cell(number, y, scale.height(day), is_open)]
    for event in events:
        parts += [shape(event.shape, y + LINE / 2),
                  '<text x="%d" y="%g" class="marked">%s</text>' % (WORDS, y + BASE, escape(event.words))]
        y += LINE
    if not is_open:
        parts.append('<text x="%d" y="%g" class="closed">closed</text>' % (WORDS if events else SHAPE - 7, y + BASE))
    return parts


def draw_gap(number, days, y, calendar):
    """A run of days without marks, drawn small; runs of open and of closed days are one cell each."""
    each, at, parts = gap_height(days), y, []
    for is_open, run in groupby(days, lambda day: calendars.is_open(calendar, day)):
        height = each * len(list(run))
        parts.append(cell(number, at, height, is_open))
        at += height
    if at - y >= LINE:
        parts.append(date_text("days between", (y + at - LINE) / 2, "closed"))
    return parts


def draw_years(days, y):
    """Whole years without a mark, as one break."""
    count = days[-1].year - days[0].year + 1
    middle = CELL + CELL_WIDTH / 2
    return ['<path d="M%g %g V%g" class="break"/>' % (middle, y, y + LINE * 1.5),
            date_text("%d year%s" % (count, "" if count == 1 else "s"), y + LINE / 4, "closed")]
