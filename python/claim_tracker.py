"""The claim tracker in Python: the calls, records and numbers of claim_tracker.h, by the shared library.

Calendar, tables, limits and pieces are array('I'), balances and stores of marks array('Q'), buffers that a call writes to bytearray, and
messages bytes; other objects that give such memory will do. A transfer that is given no pieces lends sixteen ones. A refused call answers
its number. A wrong type, a value that its field cannot hold, a buffer that cannot be written to or buffers that overlap raise TypeError or
ValueError, and nothing is called. FORMATS.md says what the words and bytes mean.

The library is the file that the environment variable CLAIM_TRACKER_LIBRARY names, else libclaim_tracker.so.2 beside this module.
"""
import ctypes
import operator
import os
from array import array
from dataclasses import dataclass
from enum import IntEnum
from typing import NamedTuple

__version__ = "2.3.0"

ACCOUNTS = 16
SECURITIES = 16
ROWS = 16
ROW_WORDS = 7
SECURITY_WORDS = 114
CALENDAR_WORDS = 480
TABLE_WORDS = 1824
LIMIT_WORDS = 5
PIECE_WORDS = 16
LENDING_WORDS = 4096
BALANCE_WORDS = 8192
MARKS = 4
MARK_WORDS = 8195
STORE_WORDS = 32780
TRANSFER_BYTES = 141
CLOSE_BYTES = 4
CLAIM_BYTES = 35
ANSWER_BYTES = 6
LINE_BYTES = 64
BOOK_FILE_BYTES = 9220
RECORD_ROOM = 65542
MOST_TRANSFER_CLAIMS = 16
MOST_CLOSE_CLAIMS = 122880
MOST_FORECAST_CENTS = 9007199254740992


# ---- enumerations

class Number(IntEnum):
    """The number of a call, in the order in which reasons are looked for."""
    ACCEPTED = 0
    WRONG_LENGTH = 1
    BAD_CALENDAR = 2
    BAD_TABLES = 3
    BAD_LIMITS = 12
    BAD_PIECES = 13
    BAD_BOOK = 4
    NO_SUCH_MARK = 16
    BAD_MARK = 17
    BAD_RECORD = 5
    BAD_FIELD = 6
    SEVERAL_TAGS = 132
    UNENDED_TAG = 133
    TAG_WITHOUT_DATE = 135
    CONTRACT_DATE_AFTER_DAY = 138
    CONTRACT_DATE_NOT_DAY = 139
    COUNT_FULL = 11
    OFF_PIECE = 14
    LENDING_TOO_EARLY = 15
    ABOVE_BALANCE = 7
    PAST_LIMIT = 8
    LAST_DAY = 9
    NO_ROOM = 10
    BAD_FORECAST = 18
    SUM_TOO_LARGE = 19


class Kind(IntEnum):
    """The kind of a record."""
    TRANSFER = 1
    CLOSE = 2
    CLAIM = 3
    ANSWER = 4


class Class(IntEnum):
    """The class of a transfer."""
    SECONDARY_MARKET = 0
    OTHER = 1


class Code(IntEnum):
    """The tracking code of a transfer. Those of lending, 1 to 6, are taken from 20230130 on."""
    NONE = 0
    SLST = 1
    SLRV = 2
    CLSL = 3
    CLSR = 4
    ADSL = 5
    ADSR = 6
    RPST = 7
    RPRV = 8
    CLRP = 9
    CLRV = 10
    ADRP = 11
    ADRV = 12


class ClaimType(IntEnum):
    """The type of a claim."""
    FAIL = 1
    INTERIM = 2
    LENDING = 3
    REPO = 4


class Outcome(IntEnum):
    """What becomes of a claim: it settles, or why it is a notice."""
    SETTLES = 0
    ZERO = 1
    FINAL = 2
    RESTRICTED = 3


class Slot(IntEnum):
    """When on its release date a claim settles."""
    NONE = 0
    AT_0805 = 1
    AT_0845 = 2
    DURING_DAY = 3


class SecurityType(IntEnum):
    """The type of a security, word 0 of its tables."""
    UNUSED = 0
    TREASURY = 1
    NON_TREASURY_DEBT = 2
    AGENCY_MBS = 3
    US_GUARANTEED_MBS = 4


class Frequency(IntEnum):
    """How often a security pays, word 1 of its tables."""
    MONTHLY = 1
    QUARTERLY = 2
    SEMIANNUAL = 3
    ANNUAL = 4


_TEXTS = {
    Number.ACCEPTED: "accepted",
    Number.WRONG_LENGTH: "the calendar, the tables or the balances have a wrong length",
    Number.BAD_CALENDAR: "the calendar has a bit for a day that the month lacks",
    Number.BAD_TABLES: "the tables break a rule",
    Number.BAD_BOOK: "the day is not open or no open day follows it, or a balance is wrong",
    Number.BAD_RECORD: "the record is cut short, or its length or kind is wrong",
    Number.BAD_FIELD: "account, security (or an unused one), class, code or par out of range, or sender and receiver the same",
    Number.ABOVE_BALANCE: "the decrease is above the balance",
    Number.PAST_LIMIT: "the increase goes past 9,000,000,000",
    Number.LAST_DAY: "a close with no open day after the next",
    Number.NO_ROOM: "the buffer is too short for the claims or the record",
    Number.COUNT_FULL: "the transfer count is already 4,294,967,295",
    Number.BAD_LIMITS: "the date limits have a wrong length or break a rule",
    Number.BAD_PIECES: "the pieces have a wrong length or a number outside 1 to 1,000,000",
    Number.OFF_PIECE: "the par is no multiple of the security's piece and does not clear the whole balance",
    Number.LENDING_TOO_EARLY: "a tracking code of lending on a day before 20230130",
    Number.NO_SUCH_MARK: "the mark is not 1 to 4, or the store has a wrong length",
    Number.BAD_MARK: "the mark is unset, or its count, its day or a balance of it is wrong",
    Number.BAD_FORECAST: "the account or the date of a forecast is wrong, or a claim record of its run is cut or bad",
    Number.SUM_TOO_LARGE: "the cents to pay or to receive go past 9,007,199,254,740,992",
    Number.SEVERAL_TAGS: "more than one Contract Date tag opens",
    Number.UNENDED_TAG: "a Contract Date tag without } in its line",
    Number.TAG_WITHOUT_DATE: "the Contract Date tag holds no date",
    Number.CONTRACT_DATE_AFTER_DAY: "the Contract Date is after the day",
    Number.CONTRACT_DATE_NOT_DAY: "not a secondary market transfer, and the Contract Date is not the day",
}


def text(number):
    """A number in words."""
    return _TEXTS.get(number, "unknown number")


# ---- values

@dataclass
class Book:
    """A book's day, yyyymmdd, and the number of its accepted transfers."""
    day: int
    count: int = 0


class Done(NamedTuple):
    """What a call answers: its number, the book after it, and how many claims stand from the claim buffer's start."""
    number: Number
    book: Book
    claims: int


class Reply(NamedTuple):
    """What a call on the caller's own book replies."""
    number: Number
    claims: int


class Served(NamedTuple):
    """What a run of a stream answers: the number 1 to 4 or 0, the book after it, how many bytes of the input were worked, how many of the
    output were written, whether a 5 has ended the stream, and whether the output has no room for another record behind them."""
    number: Number
    book: Book
    consumed: int
    written: int
    over: bool
    full: bool


class Cash(NamedTuple):
    """Cents to pay, cents to receive, and receive less pay: floats that are whole numbers."""
    pay: float
    receive: float
    difference: float


class CashForecast(NamedTuple):
    """What a forecast answers: its number, and three zeros where that is not 0."""
    number: Number
    cash: Cash


class Transfer(NamedTuple):
    """The fields of a transfer; its two lines of free text are apart."""
    sender: int
    receiver: int
    security: int
    class_: int
    code: int
    par: int


class Claim(NamedTuple):
    """The fields of a claim. Interest and principal are in cents."""
    claim_type: int
    outcome: int
    payer: int
    payee: int
    security: int
    row: int
    transfer: int
    interest: int
    principal: int
    release: int
    slot: int


class Answer(NamedTuple):
    """The field of an answer."""
    number: int


class TransferReading(NamedTuple):
    """Number 0 and a transfer with its lines, or number 5 and zeros."""
    number: Number
    transfer: Transfer
    first_line: bytes
    second_line: bytes


class ClaimReading(NamedTuple):
    """Number 0 and a claim, or number 5 and zeros."""
    number: Number
    claim: Claim


class AnswerReading(NamedTuple):
    """Number 0 and an answer, or number 5 and zero."""
    number: Number
    answer: Answer


# ---- the library

_U8, _U16, _U32, _U64, _SIZE, _BOOL = (ctypes.c_uint8, ctypes.c_uint16, ctypes.c_uint32, ctypes.c_uint64, ctypes.c_size_t, ctypes.c_bool)
_LINE = _U8 * LINE_BYTES


def _struct(form, *kinds):
    """The C struct with the fields of one of the classes above."""
    names = form.__dataclass_fields__ if form is Book else form._fields
    return type(form.__name__, (ctypes.Structure,), {"_fields_": list(zip(names, kinds, strict=True))})


_BOOK = _struct(Book, _U32, _U32)
_DONE = _struct(Done, _U16, _BOOK, _SIZE)
_REPLY = _struct(Reply, _U16, _SIZE)
_SERVED = _struct(Served, _U16, _BOOK, _SIZE, _SIZE, _BOOL, _BOOL)
_CASH = _struct(Cash, ctypes.c_double, ctypes.c_double, ctypes.c_double)
_CASH_FORECAST = _struct(CashForecast, _U16, _CASH)
_TRANSFER = _struct(Transfer, _U8, _U8, _U8, _U8, _U8, _U32)
_CLAIM = _struct(Claim, _U8, _U8, _U8, _U8, _U8, _U8, _U32, _U64, _U64, _U32, _U8)
_ANSWER = _struct(Answer, _U16)
_TRANSFER_READING = _struct(TransferReading, _U16, _TRANSFER, _LINE, _LINE)
_CLAIM_READING = _struct(ClaimReading, _U16, _CLAIM)
_ANSWER_READING = _struct(AnswerReading, _U16, _ANSWER)

_LENT = (ctypes.c_void_p, _SIZE)
_FUNCTIONS = {
    "open": (_DONE, *_LENT, *_LENT, *_LENT, _U32),
    "carry_over": (_DONE, *_LENT, _BOOK, *_LENT, *_LENT),
    "set_mark": (_U16, *_LENT, _BOOK, *_LENT, *_LENT, _U32),
    "return_to_mark": (_DONE, *_LENT, _BOOK, *_LENT, *_LENT, _U32),
    "transfer": (_DONE, *_LENT, *_LENT, *_LENT, _BOOK, *_LENT, *_LENT, *_LENT),
    "transfer_with_limits": (_DONE, *_LENT, *_LENT, *_LENT, *_LENT, _BOOK, *_LENT, *_LENT, *_LENT),
    "close": (_DONE, *_LENT, *_LENT, _BOOK, *_LENT, *_LENT, *_LENT),
    "transfer_in": (_REPLY, *_LENT, *_LENT, *_LENT, ctypes.POINTER(_BOOK), *_LENT, *_LENT, *_LENT),
    "close_in": (_REPLY, *_LENT, *_LENT, ctypes.POINTER(_BOOK), *_LENT, *_LENT, *_LENT),
    "serve": (_SERVED, *_LENT, *_LENT, _BOOK, *_LENT, *_LENT, _BOOL, *_LENT),
    "forecast": (_CASH_FORECAST, *_LENT, _U32, _U32),
    "read_transfer": (_TRANSFER_READING, *_LENT),
    "read_close": (_U16, *_LENT),
    "read_claim": (_CLAIM_READING, *_LENT),
    "read_answer": (_ANSWER_READING, *_LENT),
    "write_transfer": (_U16, *_LENT, _TRANSFER, ctypes.c_void_p, ctypes.c_void_p),
    "write_close": (_U16, *_LENT),
    "write_claim": (_U16, *_LENT, _CLAIM),
    "write_answer": (_U16, *_LENT, _ANSWER),
}


def _load():
    """The functions of the library by their names."""
    path = os.environ.get("CLAIM_TRACKER_LIBRARY")
    if not path:
        path = os.path.join(os.path.dirname(os.path.realpath(__file__)), "libclaim_tracker.so.2")
    if not os.path.isfile(path):
        raise ImportError("there is no library %s: CLAIM_TRACKER_LIBRARY names it, or it stands beside the module" % path)
    try:
        library = ctypes.CDLL(os.path.abspath(path))
        found = {}
        for name, (returned, *arguments) in _FUNCTIONS.items():
            found[name] = library["claim_tracker_" + name]
            found[name].restype, found[name].argtypes = returned, arguments
    except (OSError, AttributeError) as error:
        raise ImportError("%s is not the claim tracker's library: %s" % (path, error)) from None
    return found


_CALLS = _load()


# ---- arguments

_ITEMS = {_U8: (1, "Bbc", "bytes"), _U32: (4, "IL", "32-bit words, as array('I')"), _U64: (8, "QL", "64-bit words, as array('Q')")}


class _Lent:
    """Memory that is lent to a call: a C array on it, which a call is handed as its address, and the number of its items. No address is
    null."""

    def __init__(self, name, given, kind, written=False):
        size, formats, words = _ITEMS[kind]
        self.name, self.written = name, written
        try:
            view = memoryview(given)
        except TypeError:
            raise TypeError("%s: of type %s; allowed: %s" % (name, type(given).__name__, words)) from None
        if view.itemsize != size or view.format.lstrip("@=<") not in set(formats) or view.ndim != 1 or not view.c_contiguous:
            raise TypeError("%s: items of another kind, or not in a row; allowed: %s" % (name, words))
        if written and view.readonly:
            raise TypeError("%s: cannot be written to; allowed: a bytearray or an array" % name)
        self.count = len(view)
        held = kind * max(self.count, 1)
        if self.count == 0:
            self.held = held()
        elif view.readonly:
            self.held = held.from_buffer_copy(view)
        else:
            self.held = held.from_buffer(view)
        self.address = ctypes.addressof(self.held)
        if self.address % size:
            raise ValueError("%s: does not begin at a multiple of %d bytes" % (name, size))
        self.end = self.address + size * self.count


def _apart(*lent):
    """Refuses memory that is written to and overlaps other memory of the call; gives the arrays and their counts."""
    for one in lent:
        for other in lent:
            if one.written and one is not other and one.address < other.end and other.address < one.end:
                raise ValueError("%s and %s overlap" % tuple(sorted((one.name, other.name))))
    return [word for one in lent for word in (one.held, one.count)]


def _whole(name, value, kind):
    """A whole number that a field can hold."""
    most = 2 ** (8 * ctypes.sizeof(kind)) - 1
    try:
        value = operator.index(value)
    except TypeError:
        raise TypeError("%s: of type %s; allowed: a whole number" % (name, type(value).__name__)) from None
    if not 0 <= value <= most:
        raise ValueError("%s: %d; allowed: 0 to %d" % (name, value, most))
    return value


def _fields(name, form, struct, value):
    """A value of one of the classes above as a C struct."""
    if not isinstance(value, form):
        raise TypeError("%s: of type %s; allowed: %s" % (name, type(value).__name__, form.__name__))
    return struct(*(_whole("%s.%s" % (name, field), getattr(value, field), kind) for field, kind in struct._fields_))


def _line(name, given):
    """A line of free text."""
    lent = _Lent(name, given, _U8)
    if lent.count != LINE_BYTES:
        raise ValueError("%s: %d bytes; allowed: %d" % (name, lent.count, LINE_BYTES))
    return lent


def _value(form, struct):
    """A C struct as a value of one of the classes above."""
    return form(*(getattr(struct, field) for field, _ in struct._fields_))


def _done(answer):
    return Done(Number(answer.number), _value(Book, answer.book), answer.claims)


# ---- what a caller needs beside the calls

def claim_room(claims):
    """The bytes for this many claims."""
    return CLAIM_BYTES * _whole("claims", claims, _SIZE)


def new_balances():
    """8,192 balances of 0."""
    return array("Q", bytes(8 * BALANCE_WORDS))


def new_store():
    """A store of 32,780 words of 0: four marks that are not set."""
    return array("Q", bytes(8 * STORE_WORDS))


def new_pieces():
    """16 pieces of 1, for a caller that changes some of them."""
    return array("I", [1]) * PIECE_WORDS


def line(words):
    """A line of free text: these characters, and spaces behind them."""
    if not isinstance(words, str) or not words.isascii():
        raise ValueError("line: %r; allowed: ASCII characters" % (words,))
    if len(words) > LINE_BYTES:
        raise ValueError("line: %d characters; allowed: at most %d" % (len(words), LINE_BYTES))
    return words.ljust(LINE_BYTES).encode("ascii")


def read_book_file(data):
    """Calendar, tables and opening day of the bytes of a book.dat."""
    if len(data) != BOOK_FILE_BYTES:
        raise ValueError("a book.dat of %d bytes; allowed: %d" % (len(data), BOOK_FILE_BYTES))
    words = array("I", bytes(data))
    return words[:CALENDAR_WORDS], words[CALENDAR_WORDS:-1], words[-1]


# ---- the calls

_ONES = new_pieces()


def open(calendar, tables, balances, day):
    """Opens a book on a day: all balances become zero. Refused, with 1 to 4: day 20000101 and count 0."""
    given = _apart(_Lent("calendar", calendar, _U32), _Lent("tables", tables, _U32), _Lent("balances", balances, _U64, True))
    return _done(_CALLS["open"](*given, _whole("day", day, _U32)))


def carry_over(calendar, book, saved, balances):
    """Carries a book over that was saved with the 4,096 balances on loan: the balances become these and, on repo, zeros. The book comes back
    as given. Refused, with 1, 2 or 4: the balances stay. The saved ones are only read."""
    lent = _apart(_Lent("calendar", calendar, _U32), _Lent("saved", saved, _U64), _Lent("balances", balances, _U64, True))
    return _done(_CALLS["carry_over"](*lent[:2], _fields("book", Book, _BOOK, book), *lent[2:]))


def set_mark(calendar, book, balances, store, mark):
    """Sets a mark of the store, 1 to 4: its words become 1, day, count and the balances. The number alone; refused, with 1, 2, 4 or 16, the
    store stays. The balances are only read."""
    lent = _apart(_Lent("calendar", calendar, _U32), _Lent("balances", balances, _U64), _Lent("store", store, _U64, True))
    return Number(_CALLS["set_mark"](*lent[:2], _fields("book", Book, _BOOK, book), *lent[2:], _whole("mark", mark, _U32)))


def return_to_mark(calendar, book, balances, store, mark):
    """Returns to a mark of the store: the book is the mark's, and the balances become the mark's. Refused, with 1, 2, 4, 16 or 17: the book
    given, and the balances stay. The store is only read."""
    lent = _apart(_Lent("calendar", calendar, _U32), _Lent("balances", balances, _U64, True), _Lent("store", store, _U64))
    return _done(_CALLS["return_to_mark"](*lent[:2], _fields("book", Book, _BOOK, book), *lent[2:], _whole("mark", mark, _U32)))


def _arguments(words, book, balances, message, claims):
    """The arguments of a transfer or a close before the book, the book, and those behind it. Words are those of 32 bits by their names."""
    lent = _apart(*(_Lent(name, given, _U32) for name, given in words.items()), _Lent("balances", balances, _U64, True),
                  _Lent("message", message, _U8), _Lent("claims", claims, _U8, True))
    return lent[:2 * len(words)], _fields("book", Book, _BOOK, book), lent[2 * len(words):]


def _by_value(name, words, *arguments):
    before, book, behind = _arguments(words, *arguments)
    return _done(_CALLS[name](*before, book, *behind))


def _on_own_book(name, words, book, *arguments):
    before, own, behind = _arguments(words, book, *arguments)
    answer = _CALLS[name](*before, ctypes.byref(own), *behind)
    book.day, book.count = own.day, own.count
    return Reply(Number(answer.number), answer.claims)


def transfer(calendar, tables, book, balances, message, claims, *, pieces=_ONES):
    """Works a transfer: posts its par and writes its fail and interim claims from the start of claims. The book given is not changed. The
    pieces are those of the 16 securities, and ones where none are given. A book's day before 20230130 has older rules."""
    return _by_value("transfer", {"calendar": calendar, "tables": tables, "pieces": pieces}, book, balances, message, claims)


def transfer_with_limits(calendar, tables, limits, book, balances, message, claims, *, pieces=_ONES):
    """Works a transfer with other maximum numbers of Beneficiary Dates than the published 7, 6, 3, 2, 1: those of MBS, then of monthly,
    quarterly, semiannual and annual securities. On a book's day before 20230130 they are judged and not used. Without pieces, ones."""
    words = {"calendar": calendar, "tables": tables, "limits": limits, "pieces": pieces}
    return _by_value("transfer_with_limits", words, book, balances, message, claims)


def close(calendar, tables, book, balances, message, claims):
    """Works a close: the day moves to the next open day, and its lending and repo claims are written from the start of claims."""
    return _by_value("close", {"calendar": calendar, "tables": tables}, book, balances, message, claims)


def transfer_in(calendar, tables, book, balances, message, claims, *, pieces=_ONES):
    """Works a transfer on the caller's own book, which is updated. Without pieces, ones."""
    return _on_own_book("transfer_in", {"calendar": calendar, "tables": tables, "pieces": pieces}, book, balances, message, claims)


def close_in(calendar, tables, book, balances, message, claims):
    """Works a close on the caller's own book, which is updated."""
    return _on_own_book("close_in", {"calendar": calendar, "tables": tables}, book, balances, message, claims)


def serve(calendar, tables, book, balances, input, ended, output):
    """Serves a run of input: works its records, each with its claims and then its answer, into the output. Its pieces are ones."""
    lent = _apart(_Lent("calendar", calendar, _U32), _Lent("tables", tables, _U32), _Lent("balances", balances, _U64, True),
                  _Lent("input", input, _U8), _Lent("output", output, _U8, True))
    if not isinstance(ended, bool):
        raise TypeError("ended: of type %s; allowed: True or False" % type(ended).__name__)
    served = _CALLS["serve"](*lent[:4], _fields("book", Book, _BOOK, book), *lent[4:8], ended, *lent[8:])
    return _value(Served, served)._replace(number=Number(served.number), book=_value(Book, served.book))


def forecast(claims, account, date):
    """Forecasts an account's cash on a release date from a run of claim records, one behind the other and nothing else: the cents of the
    claims that settle on it, interest and principal together, each sum exact. Refused, with 18 or 19: three zeros."""
    lent = _apart(_Lent("claims", claims, _U8))
    found = _CALLS["forecast"](*lent, _whole("account", account, _U32), _whole("date", date, _U32))
    return CashForecast(Number(found.number), _value(Cash, found.cash))


# ---- records

def read_transfer(message):
    """Reads a transfer from the message's start."""
    found = _CALLS["read_transfer"](*_apart(_Lent("message", message, _U8)))
    return TransferReading(Number(found.number), _value(Transfer, found.transfer), bytes(found.first_line), bytes(found.second_line))


def read_close(message):
    """0 where the message begins with a close, else 5."""
    return Number(_CALLS["read_close"](*_apart(_Lent("message", message, _U8))))


def read_claim(message):
    """Reads a claim from the message's start."""
    found = _CALLS["read_claim"](*_apart(_Lent("message", message, _U8)))
    return ClaimReading(Number(found.number), _value(Claim, found.claim))


def read_answer(message):
    """Reads an answer from the message's start."""
    found = _CALLS["read_answer"](*_apart(_Lent("message", message, _U8)))
    return AnswerReading(Number(found.number), _value(Answer, found.answer))


def write_transfer(buffer, transfer, first_line, second_line):
    """Writes a transfer with its two lines to the buffer's start: 0, or 10 for too short a buffer, which is not touched."""
    lent = _apart(_Lent("buffer", buffer, _U8, True), _line("first_line", first_line), _line("second_line", second_line))
    return Number(_CALLS["write_transfer"](*lent[:2], _fields("transfer", Transfer, _TRANSFER, transfer), lent[2], lent[4]))


def write_close(buffer):
    """Writes a close, likewise."""
    return Number(_CALLS["write_close"](*_apart(_Lent("buffer", buffer, _U8, True))))


def write_claim(buffer, claim):
    """Writes a claim, likewise."""
    return Number(_CALLS["write_claim"](*_apart(_Lent("buffer", buffer, _U8, True)), _fields("claim", Claim, _CLAIM, claim)))


def write_answer(buffer, answer):
    """Writes an answer, likewise."""
    return Number(_CALLS["write_answer"](*_apart(_Lent("buffer", buffer, _U8, True)), _fields("answer", Answer, _ANSWER, answer)))
