"""Claims: claimrun's output records, and what their numbers mean. Nothing is computed from them."""
from . import dates, layout, message_text, messages
from .errors import Fault

CLAIM_TYPES = {1: "fail", 2: "interim", 3: "lending", 4: "repo"}
TRANSFER_TYPES = ("fail", "interim")
NOTICES = {1: "both amounts are zero",
           2: "the payment redeems the security",
           3: "the payer's payment went to a non-interest-bearing account"}
TIMES = {1: "8:05", 2: "8:45", 3: "during the day"}
SHORT_TYPES = {"lending": "loan"}
SHORT_NOTICES = {1: "both zero", 2: "redeemed", 3: "restricted"}
SHORT_TIMES = {1: "8:05", 2: "8:45", 3: "day"}
MARKET_NAMES = {number: name for name, number in layout.MARKETS.items()}
CODES = {number: name for name, number in layout.CODES.items()}
CODE_NAMES = {number: "transfer" if name == "none" else name for name, number in layout.CODES.items()}
BOOK_ANSWERS = (1, 2, 3, 4)
LAST_ANSWER = 5
PIECE = 1 << 18
MEANINGS = {
    0: "accepted",
    1: "book.dat is missing or its size is wrong",
    2: "the calendar has a bit for a day that the month lacks",
    3: "a table breaks a rule",
    4: "the opening day is not open or no open day follows it",
    5: "the record is cut short, or its length or kind is wrong; claimrun stops here",
    6: "account, security (or an unused one), class, code or par out of range, or sender and receiver the same",
    7: "the decrease is above the balance",
    8: "the increase goes past 9,000,000,000",
    9: "a close with no open day after the next",
    10: "the claims do not fit the claim buffer",
    11: "the transfer count is already 4,294,967,295",
    12: "the date limits have a wrong length or break a rule",
    13: "the pieces have a wrong length or a number outside 1 to 1,000,000",
    14: "the par is no multiple of the security's piece and does not clear the whole balance",
    15: "a tracking code of lending on a day before 30 January 2023",
    16: "the mark is not 1 to 4, or the store has a wrong length",
    17: "the mark is unset, or its count, its day or a balance of it is wrong",
    18: "the account or the date of a forecast is wrong, or a claim record of its run is cut or bad",
    19: "the cents to pay or to receive go past 9,007,199,254,740,992",
    132: "more than one Contract Date tag opens",
    133: "a Contract Date tag without } in its line",
    135: "the Contract Date tag holds no date",
    138: "the Contract Date is after the day",
    139: "not a secondary market transfer, and the Contract Date is not the day",
}


FORMS = {layout.CLAIM_HEADER: (layout.CLAIM, layout.Claim), layout.ANSWER_HEADER: (layout.ANSWER, layout.Answer)}
FIELD_RANGES = (("type", CLAIM_TYPES), ("outcome", range(4)), ("payer", range(layout.ACCOUNTS)),
                ("payee", range(layout.ACCOUNTS)), ("security", range(layout.SECURITIES)), ("row", range(layout.ROWS)),
                ("slot", range(4)))


def records(file, name):
    """The claims and answers in a file of claimrun's output, in order."""
    return (record for _, record in placed(file, name))


def placed(file, name):
    """The same with the place of each record's first byte."""
    place = 0
    for data, at, form, kind in cut(file, name):
        record = kind(*form.unpack_from(data, at)[2:])
        fault = problem(record)
        if fault:
            raise Fault("%s: byte %d" % (name, place), *fault)
        yield place, record
        place += form.size


def cut(file, name):
    """The whole records of a file, each as a piece of the file, its place there, its form and its kind."""
    data, at, place = b"", 0, 0
    while True:
        if len(data) - at < layout.CLAIM.size:
            data, at = data[at:] + file.read(PIECE), 0
            if not data:
                return
        header = layout.HEADER.unpack_from(data, at) if len(data) - at >= layout.HEADER.size else None
        form, kind = FORMS.get(header, (None, None))
        if form is None and header is not None:
            raise Fault("%s: byte %d" % (name, place), "no claim or answer begins here (bytes %s)" % data[at:at + 4].hex(" "),
                        "claimrun's output: claims (21 00 03 00) and answers (04 00 04 00)")
        if form is None or len(data) - at < form.size:
            raise Fault("%s: byte %d" % (name, place), "the record that begins here is cut short",
                        "whole records: a claim has %d bytes, an answer %d" % (layout.CLAIM.size, layout.ANSWER.size))
        yield data, at, form, kind
        at += form.size
        place += form.size


def problem(record):
    """What has no meaning in a record, and what is allowed; None if all of it has."""
    if isinstance(record, layout.Answer):
        if record.number in MEANINGS:
            return None
        return "the answer %d has no meaning" % record.number, ", ".join(map(str, MEANINGS))
    for value, (field, allowed) in zip(record[:6] + record[10:], FIELD_RANGES):
        if value not in allowed:
            return "a claim with %s %d" % (field, value), ", ".join(map(str, allowed))
    return None


def judge_row(book, claim, where):
    """Refuses a claim on a row that the book does not have."""
    if not any(layout.row_at(book.tables, claim.security, claim.row)):
        raise Fault(where, "a claim on security %d, row %d, which the book does not have: it is not this book" % (
            claim.security, claim.row), "the book with which claimrun was run")


def money(cents):
    """Cents as dollars and cents."""
    dollars, rest = divmod(abs(cents), 100)
    return "%s%s.%02d" % ("-" if cents < 0 else "", format(dollars, ","), rest)


def plain_money(cents):
    """Cents as dollars and cents for other programs: no commas."""
    return money(cents).replace(",", "")


def release_date(claim):
    """The release date; none for a notice, whose record has 0."""
    return dates.show_number(claim.release) if claim.release else ""


def type_of(claim):
    """The type of a claim in a word."""
    return CLAIM_TYPES[claim.type]


def beneficiary_date(book, claim):
    """The Beneficiary Date of the claim's row in the book, as text; empty without a book."""
    if book is None:
        return ""
    return dates.show_number(layout.row_at(book.tables, claim.security, claim.row).beneficiary)


def when_or_why(claim):
    """The time of a claim, or the reason of a notice."""
    return NOTICES[claim.outcome] if claim.outcome else TIMES.get(claim.slot, "slot %d" % claim.slot)


def call_words(message, names):
    """A message in words."""
    if isinstance(message, layout.Close):
        return "close"
    if isinstance(message, layout.Rest):
        return "%s bytes that are no whole message" % format(len(message.data), ",")
    code = CODE_NAMES.get(message.code, "code %d" % message.code)
    words = ["%s %s to %s" % (code, names.account_name(message.sender), names.account_name(message.receiver)),
             names.security_name(message.security), "par %s" % format(message.par, ",")]
    if message.market:
        words.append("other market" if message.market == layout.MARKETS["other"] else "class %d" % message.market)
    return ", ".join(words + line_words(message.line1.rstrip(b" "), message.line2.rstrip(b" ")))


def free_text(lines):
    """The Contract Date, as a source says it, where there is one plain tag, else None, and what else stands in each line."""
    contract, tag = message_text.plain_tag(lines)
    rests = lines if contract is None else [line.replace(tag, b"") for line in lines]
    return contract, ["".join(chr(byte) if 32 <= byte < 127 else "." for byte in rest) for rest in rests]


def line_words(*lines):
    """The free text in words."""
    contract, rests = free_text(lines)
    words = "empty Contract Date tag" if contract == messages.EMPTY else "Contract Date %s" % contract
    return [words] * (contract is not None) + [rest for rest in rests if rest]


def numbered(stream, calls=None):
    """The records with the number of the message that they answer and, where the messages are given, the message.
    An answer about the book has no message."""
    number, call, fresh = 0, None, True
    for record in stream:
        about_book = isinstance(record, layout.Answer) and record.number in BOOK_ANSWERS
        if fresh and not about_book:
            number, call, fresh = number + 1, next(calls, None) if calls is not None else None, False
        yield (None, None, record) if about_book else (number, call, record)
        fresh = isinstance(record, layout.Answer)
