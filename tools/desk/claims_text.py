"""Claims for people and for other programs: a table, CSV, JSON."""
import csv
import io
import json
import textwrap

from . import calendars, claims, dates, layout
from .names import Names

HEADINGS = ("msg", "for", "payer", "payee", "security", "coupon", "interest", "principal", "release", "time")
RIGHT = ("msg", "interest", "principal")
NAMED = tuple(HEADINGS.index(name) for name in ("payer", "payee", "security"))
NARROWEST = 6
FIELDS = ("message", "record", "type", "outcome", "reason", "payer", "payer_name", "payee", "payee_name", "security",
          "security_name", "row", "beneficiary_date", "transfer", "interest", "principal", "release_date", "slot", "time",
          "answer", "meaning", "call", "code", "sender", "sender_name", "receiver", "receiver_name", "market", "par",
          "contract_date", "text1", "text2", "day")
FORMATS = ("text", "csv", "json")
ONLY = ("claims", "notices", "refused")
RUN_BY_SPREADSHEETS = ("=", "+", "-", "@", "\t", "\r")
REFUSED_COLOUR, NOTICE_COLOUR, PLAIN = "\033[31m", "\033[33m", "\033[0m"


class View:
    """How the records are shown, and what was met on the way: how many messages were answered, and how many refused."""

    def __init__(self, width=None, colour=False, only=None):
        self.width, self.colour, self.only = width, colour, only
        self.messages = self.refused = 0

    def counted(self, entries):
        """The entries that are shown; all answers are counted."""
        self.messages = self.refused = 0
        for entry in entries:
            kind = kind_of(entry.record)
            if isinstance(entry.record, layout.Answer):
                self.count(entry.record)
            if self.only in (None, kind + "s" * (kind != "refused")):
                yield entry

    def count(self, answer):
        """One more answer."""
        self.messages += 1
        self.refused += kind_of(answer) == "refused"

    def words(self):
        """What is told of refusals, or nothing."""
        if not self.refused:
            return None
        return "%s of %s message%s refused" % (format(self.refused, ","), format(self.messages, ","), "" if self.messages == 1 else "s")


class Entry:
    """A record with the number of its message, the message and, for an accepted close, the day that it leads to."""

    def __init__(self, number, call, record, day):
        self.number, self.call, self.record, self.day = number, call, record, day


def kind_of(record):
    """The kind of a record: claim, notice, answer, refused."""
    if isinstance(record, layout.Answer):
        return "refused" if record.number else "answer"
    return "notice" if record.outcome else "claim"


def entries(numbered, book):
    """The numbered records as entries. The day of the book is followed through the accepted closes, by the book's calendar."""
    day = dates.of_number(book.opening_day) if book is not None else None
    for number, call, record in numbered:
        moves = isinstance(call, layout.Close) and isinstance(record, layout.Answer) and not record.number
        if moves and day is not None:
            day = calendars.open_after(book.calendar, day)
        yield Entry(number, call, record, day if moves else None)


# ---- the table

def claim_cells(entry, book, names):
    """A claim as the cells of the table."""
    claim = entry.record
    coupon = "row %d" % claim.row if book is None else claims.beneficiary_date(book, claim)
    kind = claims.type_of(claim)
    about = "%s %d" % (kind, claim.transfer) if kind in claims.TRANSFER_TYPES else claims.SHORT_TYPES.get(kind, kind)
    return (str(entry.number), about,
            names.account_label(claim.payer), names.account_label(claim.payee), names.security_label(claim.security), coupon,
            claims.money(claim.interest), claims.money(claim.principal), claims.release_date(claim) or "notice",
            claims.SHORT_NOTICES[claim.outcome] if claim.outcome else claims.SHORT_TIMES.get(claim.slot, "slot %d" % claim.slot))


def answer_text(entry, names):
    """An answer in words."""
    number = entry.record.number
    told = "REFUSED %d, %s" % (number, claims.MEANINGS[number]) if number else "accepted"
    if entry.number is None:
        return told + ": the book"
    if entry.call is None:
        return told
    return told + ": " + claims.call_words(entry.call, names) + (", to %s" % entry.day if entry.day else "")


def fitted(widths, width):
    """The widths of the columns and the space between them, for a line of some width: where it is short of room the names are cut."""
    widths = list(widths)
    if width is None or sum(widths) + 2 * (len(widths) - 1) <= width:
        return widths, "  "
    excess = sum(widths) + len(widths) - 1 - width
    while excess > 0:
        widest = max(NAMED, key=lambda place: widths[place])
        if widths[widest] <= NARROWEST:
            break
        widths[widest] -= 1
        excess -= 1
    return widths, " "


def text(start, book, names, view):
    """The records as an aligned table, in pieces. start() gives the entries from the first."""
    widths = [len(name) for name in HEADINGS]
    for entry in start():
        if isinstance(entry.record, layout.Claim):
            widths = [max(width, len(cell)) for width, cell in zip(widths, claim_cells(entry, book, names))]
        elif entry.number is not None:
            widths[0] = max(widths[0], len(str(entry.number)))
    widths, between = fitted(widths, view.width)

    def line(cells):
        cells = (cell if len(cell) <= width else cell[:width - 1] + "…" for cell, width in zip(cells, widths))
        return between.join(cell.rjust(width) if name in RIGHT else cell.ljust(width)
                            for cell, width, name in zip(cells, widths, HEADINGS)).rstrip()

    def answer(entry):
        begun = ("-" if entry.number is None else str(entry.number)).rjust(widths[0]) + between
        words = answer_text(entry, names)
        if view.width is None or len(begun) + len(words) <= view.width:
            return begun + words
        return textwrap.fill(begun + words, view.width, subsequent_indent=" " * (len(begun) + 2), break_long_words=False)

    yield line(HEADINGS) + "\n"
    for entry in start():
        shown = line(claim_cells(entry, book, names)) if isinstance(entry.record, layout.Claim) else answer(entry)
        colour = {"refused": REFUSED_COLOUR, "notice": NOTICE_COLOUR}.get(kind_of(entry.record)) if view.colour else None
        yield (colour + shown + PLAIN if colour else shown) + "\n"


# ---- for other programs

def values(entry, book, names):
    """A record as keys and values; amounts are text so that they stay exact."""
    record = entry.record
    if isinstance(record, layout.Answer):
        found = {"message": entry.number, "record": "answer", "answer": record.number, "meaning": claims.MEANINGS[record.number]}
        return found | (call_values(entry, names) if entry.call is not None else {})
    found = {"message": entry.number, "record": kind_of(record), "type": claims.type_of(record), "outcome": record.outcome}
    if record.outcome:
        found["reason"] = claims.NOTICES[record.outcome]
    found |= named("payer", record.payer, names.accounts) | named("payee", record.payee, names.accounts)
    found |= named("security", record.security, names.securities) | {"row": record.row}
    if book is not None:
        found["beneficiary_date"] = claims.beneficiary_date(book, record)
    if record.transfer:
        found["transfer"] = record.transfer
    found |= {"interest": claims.plain_money(record.interest), "principal": claims.plain_money(record.principal)}
    if record.release:
        found["release_date"] = claims.release_date(record)
    found["slot"] = record.slot
    if record.slot:
        found["time"] = claims.TIMES[record.slot]
    return found


def named(key, number, names):
    """A number, and its name where it has one."""
    return {key: number} | ({key + "_name": names[number]} if number in names else {})


def call_values(entry, names):
    """The fields of the message that an answer is about."""
    call = entry.call
    if isinstance(call, layout.Close):
        return {"call": "close"} | ({"day": str(entry.day)} if entry.day else {})
    if isinstance(call, layout.Rest):
        return {"call": "no whole message"}
    lines = (call.line1.rstrip(b" "), call.line2.rstrip(b" "))
    contract, texts = claims.free_text(lines)
    found = {"call": "transfer", "code": claims.CODES.get(call.code, str(call.code))}
    found |= named("sender", call.sender, names.accounts) | named("receiver", call.receiver, names.accounts)
    found |= named("security", call.security, names.securities)
    found |= {"market": claims.MARKET_NAMES.get(call.market, str(call.market)), "par": call.par}
    if contract is not None:
        found["contract_date"] = str(contract)
    return found | {"text%d" % place: shown for place, shown in enumerate(texts, 1) if shown}


def safe(cell):
    """A cell that no spreadsheet takes for a formula."""
    return "'" + cell if isinstance(cell, str) and cell.startswith(RUN_BY_SPREADSHEETS) else cell


def as_csv(start, book, names, view):
    """The records as CSV, in pieces."""
    buffer = io.StringIO()
    writer = csv.DictWriter(buffer, FIELDS, restval="", lineterminator="\n")
    writer.writeheader()
    for entry in start():
        writer.writerow({key: safe(cell) for key, cell in values(entry, book, names).items()})
        yield buffer.getvalue()
        buffer.seek(0)
        buffer.truncate()
    yield buffer.getvalue()


def as_json(start, book, names, view):
    """The records as a JSON array, one to a line, in pieces."""
    before = "[\n"
    for entry in start():
        yield before + json.dumps(values(entry, book, names), ensure_ascii=False)
        before = ",\n"
    yield "[]\n" if before == "[\n" else "\n]\n"


def show(form, output, name, book=None, calls=None, tick=lambda count: None, view=None):
    """claimrun's output (a file that can be read twice) in one of the three forms, in pieces of bytes. All of it is
    read before the first piece is given, so that nothing is shown of output that is none. calls() starts the messages
    from the first; tick is told how many records are shown."""
    names, view = book.names if book is not None else Names(), view or View()

    def start():
        output.seek(0)
        numbered = claims.numbered(claims.records(output, name), calls() if calls is not None else None)
        return view.counted(entries(numbered, book))

    output.seek(0)
    for place, record in claims.placed(output, name):
        if book is not None and isinstance(record, layout.Claim):
            claims.judge_row(book, record, "%s: byte %d" % (name, place))
    pieces = {"text": text, "csv": as_csv, "json": as_json}[form](start, book, names, view)
    for count, piece in enumerate(pieces):
        tick(count)
        yield piece.encode("utf-8")
