"""The book: book.dat from a TOML source, with the table rules of document 01, and the source for any book.dat."""
import os

from . import calendars, dates, factors, files, layout, names
from .errors import Fault, Mistakes
from .sources import Source

KEYS = ("opening_day", "calendar", "accounts", "security", "words")
OTHER_KEYS = ("title", "question", "book", "messages", "message", "transfer")


class Book:
    """The words of a book, the names given in its source, and the files it was made from."""

    def __init__(self, calendar, tables, opening_day, its_names=None, paths=()):
        self.calendar, self.tables, self.opening_day = calendar, tables, opening_day
        self.names = its_names or names.Names()
        self.paths = list(paths)

    def bytes(self):
        return layout.book_bytes(self.calendar, self.tables, self.opening_day)

    def rows(self, security):
        """The filled rows of a security, in order, with their numbers."""
        found = []
        for number in range(layout.ROWS):
            row = layout.row_at(self.tables, security, number)
            if not any(row):
                break
            found.append((number, row))
        return found


def source_of_book(source, found):
    """The source that holds the book: this one, or the file that it names."""
    top = source.top
    top.known(found, *KEYS, *OTHER_KEYS)
    if not top.has("book"):
        return source
    for key in filter(top.has, KEYS):
        found.add(top.fault(key, "stands beside book = \"%s\"" % top.text("book"), "one of the two"))
    found.end()
    path = os.path.join(os.path.dirname(source.path), top.text("book"))
    named = Source(path)
    named.top.known(found, *KEYS, *OTHER_KEYS)
    if named.top.has("book"):
        raise named.top.fault("book", "a book that names another book", "a source with the book in it")
    return named


def make(source, found, needs_day=True):
    """The book of a source; what it holds means nothing where mistakes are found. Without needs_day the opening day may be absent and
    is then 0."""
    source_given, source = source, source_of_book(source, found)
    top = source.top
    fields = found.take(top.table, "calendar")
    calendar = None if fields is None else calendars.make(fields, found)
    its_names = names.Names()
    fields = found.take(top.table, "accounts")
    its_names.accounts = {} if fields is None else names.read_accounts(fields, found)
    tables = [0] * layout.TABLE_WORDS
    last_open = dates.LAST if calendar is None else calendars.last_open(calendar)
    numbers = set()
    for fields in found.take(top.tables, "security") or ():
        place_security(fields, tables, numbers, its_names, last_open, found)
    day = make_words(top, calendar, tables, needs_day, found)
    return Book(calendar, tables, day, its_names, {source_given.path, source.path})


def make_words(top, calendar, tables, needs_day, found):
    """The opening day, and the words of a [words] table over all others."""
    words = found.take(top.table, "words")
    if words is None:
        return 0
    words.known(found, "opening_day", "calendar", "tables")
    day = None
    if top.has("opening_day") or (needs_day and not words.has("opening_day")):
        day = found.take(opening_day, top, "opening_day", calendar)
    for key, its_words in (("calendar", calendar or [0] * layout.MONTHS), ("tables", tables)):
        fields = found.take(words.table, key)
        if fields is not None:
            overlay(fields, its_words, found)
    return found.take(words.integer, "opening_day", 0, layout.WORD_MAX, 0 if day is None else dates.number(day))


def opening_day(fields, key, calendar):
    """A day that is open and has an open day after it. Where there is no calendar, any day."""
    allowed = "an open day of the calendar that is not its last"
    if not fields.has(key):
        raise fields.missing(key, allowed)
    day = fields.date(key)
    if calendar is None:
        return day
    if not calendars.is_open(calendar, day):
        raise fields.fault(key, "%s, a %s, is closed" % (day, dates.WEEKDAYS[day.weekday()]), allowed)
    if day == calendars.last_open(calendar):
        raise fields.fault(key, "no open day follows %s" % day, allowed)
    return day


def place_security(fields, tables, numbers, its_names, last_open, found):
    """Writes one [[security]] into the tables."""
    fields.known(found, "number", "name", "type", "frequency", "piece", "payment")
    number = found.take(number_of, fields, numbers)
    name = found.take(names.checked, fields, "name", its_names.securities) if fields.has("name") else None
    kind, frequency = found.take(fields.choice, "type", layout.TYPES), found.take(fields.choice, "frequency", layout.FREQUENCIES)
    piece = found.take(fields.integer, "piece", 1, layout.PIECE_MAX, 1)
    rows = rows_of(fields, its_names, last_open, found)
    if number is None:
        return
    if name is not None:
        its_names.securities[number] = name
    if piece is not None:
        its_names.pieces[number] = piece
    words = [kind, frequency] + [word for row in rows for word in row]
    start = layout.SECURITY_WORDS * number
    tables[start:start + len(words)] = words


def number_of(fields, numbers):
    """The number of a security, which no other has."""
    number = fields.integer("number", 0, layout.SECURITIES - 1)
    if number in numbers:
        raise fields.fault("number", "security %d is given twice" % number, "each number once")
    numbers.add(number)
    return number


def rows_of(fields, its_names, last_open, found):
    """The rows of a security's payments."""
    payments = found.take(fields.tables, "payment") or []
    for payment in payments[layout.ROWS:]:
        found.add(payment.fault(None, "one payment too many", "at most %d for a security" % layout.ROWS))
    rows, before = [], None
    for payment in payments[:layout.ROWS]:
        row = row_of(payment, its_names, found)
        if row is None:
            continue
        for problem in row_problems(row, before, last_open):
            found.add(payment.fault(*problem))
        rows.append(row)
        before = row
    warn_of_rows_behind(payments, found)
    return rows


def warn_of_rows_behind(payments, found):
    """A payment that redeems the security should be its last."""
    for number, payment in enumerate(payments[:-1], 1):
        if found.take(payment.flag, "final", False):
            found.warn(payment.fault("final", "redeems the security, and payments stand behind it (%d of %d)" % (number, len(payments)),
                                     "final in the last payment"))


def row_of(fields, its_names, found):
    """The words of one payment, or None where it has mistakes."""
    before = found.count
    fields.known(found, "record", "beneficiary", "payment", "interest", "principal", "final", "restricted")
    days = [found.take(fields.date, key) for key in ("record", "beneficiary", "payment")]
    accounts = restricted(fields, its_names, found)
    if not fields.has("interest") and not fields.has("principal"):
        found.take(fields.value, "interest", "interest, principal or both; 0 may be written")
    factors_of_par = [found.take(factors.make, fields, key) for key in ("interest", "principal")]
    final = found.take(fields.flag, "final", False)
    if found.count > before:
        return None
    return layout.Row(*map(dates.number, days), *factors_of_par, int(final), sum(1 << account for account in accounts))


def restricted(fields, its_names, found):
    """The accounts whose payment went to a non-interest-bearing account."""
    values = found.take(fields.items, "restricted", "accounts, 0 to 15 or names from [accounts]") or ()
    return {found.take(names.find, fields, "restricted", value, its_names.accounts, layout.ACCOUNTS) for value in values}


def row_problems(row, before, last_open):
    """The date rules that a row breaks, each as key, what is wrong and what is allowed."""
    shown = layout.Row(*(dates.show_number(word) for word in row[:3]), *row[3:])
    found = []
    for key, name in (("record", "Record"), ("beneficiary", "Beneficiary")):
        if before is not None and getattr(row, key) <= getattr(before, key):
            earlier = dates.show_number(getattr(before, key))
            found.append((key, "%s is not after the %s Date before it, %s" % (getattr(shown, key), name, earlier),
                          "%s Dates that rise from payment to payment" % name))
        if getattr(row, key) > row.payment:
            found.append((key, "%s is after its Payment Date, %s" % (getattr(shown, key), shown.payment),
                          "a date on or before the Payment Date"))
    if last_open is None:
        found.append(("payment", "no day of the calendar is open", "a date up to the calendar's last open day"))
    elif row.payment > dates.number(last_open):
        found.append(("payment", "%s is after the last open day" % shown.payment, "a date up to %s" % last_open))
    return found


def overlay(fields, words, found):
    """Writes the words of a [words] table over the others."""
    for key in fields.values:
        if not (key.isascii() and key.isdecimal() and int(key) < len(words)):
            found.add(fields.fault(key, "is no place of a word", "0 to %s" % format(len(words) - 1, ",")))
        elif (word := found.take(fields.integer, key, 0, layout.WORD_MAX)) is not None:
            words[int(key)] = word


def read(path):
    """The book of a file: a source where the name ends in .toml, else a book.dat."""
    if path.lower().endswith(".toml"):
        found = Mistakes()
        made = make(Source(path), found, needs_day=False)
        found.end()
        return made
    return read_bytes(path, ", or a source whose name ends in .toml")


def read_bytes(path, others=""):
    """The book of a book.dat."""
    data = files.read_bytes(path)
    if len(data) != layout.BOOK.size:
        raise Fault(path, "has %s bytes" % format(len(data), ","),
                    "a book.dat of %s bytes%s" % (format(layout.BOOK.size, ","), others))
    return Book(*layout.book_words(data), paths=[path])
