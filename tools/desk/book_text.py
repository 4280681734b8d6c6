"""The source that stands for a book: text that make turns into the same bytes."""
from . import calendars, dates, factors, layout
from .book import row_problems


def show(book):
    """The text for a book. Words that the ordinary keys cannot say stand in a last table [words]."""
    calendar_lines, calendar = calendars.show(book.calendar)
    tables = [0] * layout.TABLE_WORDS
    last_open = calendars.last_open(calendar)
    security_lines = []
    for number in range(layout.SECURITIES):
        security_lines += show_security(book, number, tables, last_open)
    lines, day = [], dates.of_number(book.opening_day)
    sound = day is not None and calendars.is_open(calendar, day) and day != last_open
    if sound:
        lines += ["opening_day = %s" % day, ""]
    lines += calendar_lines + security_lines
    lines += show_words(book, calendar, tables, None if sound else book.opening_day)
    return "\n".join(lines) + "\n"


def show_security(book, number, tables, last_open):
    """The lines of one security; what they stand for is written into the tables."""
    start = layout.SECURITY_WORDS * number
    kind, frequency = book.tables[start:start + 2]
    if kind not in layout.TYPES.values() or frequency not in layout.FREQUENCIES.values():
        return []
    tables[start:start + 2] = kind, frequency
    lines = ["", "[[security]]", "number = %d" % number, 'type = "%s"' % layout.name_of(layout.TYPES, kind),
             'frequency = "%s"' % layout.name_of(layout.FREQUENCIES, frequency)]
    before = None
    for row_number in range(layout.ROWS):
        row = sayable(layout.row_at(book.tables, number, row_number))
        if row is None or row_problems(row, before, last_open):
            break
        place = layout.row_place(number, row_number)
        tables[place:place + layout.ROW_WORDS] = row
        lines += [""] + show_row(row)
        before = row
    return lines


def sayable(row):
    """The row as the ordinary keys can say it, or None where its dates are none."""
    if None in map(dates.of_number, row[:3]):
        return None
    return row._replace(interest=row.interest if row.interest <= layout.FACTOR_MAX else 0,
                        principal=row.principal if row.principal <= layout.FACTOR_MAX else 0,
                        final=row.final if row.final <= 1 else 0, restricted=row.restricted % (1 << layout.ACCOUNTS))


def show_row(row):
    """The lines of one payment."""
    accounts = [str(account) for account in range(layout.ACCOUNTS) if row.restricted >> account & 1]
    return ["[[security.payment]]", "record = %s" % dates.of_number(row.record),
            "beneficiary = %s" % dates.of_number(row.beneficiary), "payment = %s" % dates.of_number(row.payment),
            'interest = "%s"' % factors.show(row.interest), 'principal = "%s"' % factors.show(row.principal),
            "final = %s" % ("true" if row.final else "false"), "restricted = [%s]" % ", ".join(accounts)]


def show_words(book, calendar, tables, opening_day):
    """The [words] table with the words that differ; no lines where none does."""
    lines = []
    if opening_day is not None:
        lines += ["opening_day = %d" % opening_day]
    for name, meaning, told, made in (("calendar", month_name, book.calendar, calendar),
                                      ("tables", table_word_name, book.tables, tables)):
        places = [place for place in range(len(told)) if told[place] != made[place]]
        if places:
            lines += ["", "[words.%s]" % name]
            lines += ["%d = %d  # %s" % (place, told[place], meaning(place)) for place in places]
    if not lines:
        return []
    return ["", "# Words that the keys above cannot say, by their place; they are written as they are.", "[words]"] + lines


def month_name(place):
    return "%d-%02d" % (dates.FIRST.year + place // 12, place % 12 + 1)


def table_word_name(place):
    security, word = divmod(place, layout.SECURITY_WORDS)
    if word < 2:
        return "security %d, %s" % (security, ("type", "frequency")[word])
    row, word = divmod(word - 2, layout.ROW_WORDS)
    return "security %d, row %d, %s" % (security, row, layout.ROW_WORD_NAMES[word])
