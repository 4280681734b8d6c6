"""Words and records: book.dat and the four kinds of message record as bytes, and the names of their numbers."""
import struct
from collections import namedtuple

MONTHS = 480
SECURITIES = 16
ACCOUNTS = 16
ROWS = 16
ROW_WORDS = 7
SECURITY_WORDS = 2 + ROWS * ROW_WORDS
TABLE_WORDS = SECURITIES * SECURITY_WORDS
BOOK = struct.Struct("<%dI" % (MONTHS + TABLE_WORDS + 1))
WORD_MAX = 2 ** 32 - 1
FACTOR_ONE = 1_000_000_000
FACTOR_MAX = 2_000_000_000
PAR_MAX = 100_000_000
PIECE_MAX = 1_000_000
LINE = 64

TYPES = {"Treasury": 1, "non-Treasury debt": 2, "agency MBS": 3, "US-guaranteed MBS": 4}
FREQUENCIES = {"monthly": 1, "quarterly": 2, "semiannual": 3, "annual": 4}
MARKETS = {"secondary": 0, "other": 1}
CODES = {"none": 0, "SLST": 1, "SLRV": 2, "CLSL": 3, "CLSR": 4, "ADSL": 5, "ADSR": 6,
         "RPST": 7, "RPRV": 8, "CLRP": 9, "CLRV": 10, "ADRP": 11, "ADRV": 12}
CODE_WORDS = {"none": "none", "SLST": "loan start", "SLRV": "loan start reversal", "CLSL": "loan return",
              "CLSR": "loan return reversal", "ADSL": "loan balance increase", "ADSR": "loan balance decrease",
              "RPST": "repo start", "RPRV": "repo start reversal", "CLRP": "repo close",
              "CLRV": "repo close reversal", "ADRP": "repo balance increase", "ADRV": "repo balance decrease"}
ROW_WORD_NAMES = ("Record Date", "Beneficiary Date", "Payment Date", "interest", "principal", "final", "restricted")

HEADER = struct.Struct("<HH")
TRANSFER = struct.Struct("<HHBBBBBI64s64s")
CLAIM = struct.Struct("<HHBBBBBBIQQIB")
ANSWER = struct.Struct("<HHH")
TRANSFER_HEADER = (139, 1)
CLOSE_HEADER = (2, 2)
CLAIM_HEADER = (33, 3)
ANSWER_HEADER = (4, 4)
CLOSE_BYTES = HEADER.pack(*CLOSE_HEADER)

Row = namedtuple("Row", "record beneficiary payment interest principal final restricted")
Transfer = namedtuple("Transfer", "sender receiver security market code par line1 line2")
Close = namedtuple("Close", "")
Rest = namedtuple("Rest", "data")
Claim = namedtuple("Claim", "type outcome payer payee security row transfer interest principal release slot")
Answer = namedtuple("Answer", "number")


def name_of(names, value):
    """The name of a number in one of the tables above."""
    return next(name for name, number in names.items() if number == value)


def book_bytes(calendar, tables, opening_day):
    """The 9,220 bytes of book.dat."""
    return BOOK.pack(*calendar, *tables, opening_day)


def book_words(data):
    """Calendar, tables and opening day of book.dat."""
    words = BOOK.unpack(data)
    return list(words[:MONTHS]), list(words[MONTHS:-1]), words[-1]


def row_place(security, row):
    """The place in the tables of a row's first word."""
    return SECURITY_WORDS * security + 2 + ROW_WORDS * row


def row_at(tables, security, row):
    """A row of the tables."""
    place = row_place(security, row)
    return Row(*tables[place:place + ROW_WORDS])


def transfer_bytes(transfer):
    """A kind 1 record."""
    return TRANSFER.pack(*TRANSFER_HEADER, *transfer)


def read_transfer(data):
    """The fields of a kind 1 record of 141 bytes."""
    return Transfer(*TRANSFER.unpack(data)[2:])


def messages(file):
    """The messages in a file of records, one by one: Transfer, Close, and last, where the bytes are no whole
    transfer or close, Rest with all of them."""
    while True:
        data = file.read(HEADER.size)
        if not data:
            return
        header = HEADER.unpack(data) if len(data) == HEADER.size else None
        if header == CLOSE_HEADER:
            yield Close()
            continue
        if header == TRANSFER_HEADER:
            data += file.read(TRANSFER.size - HEADER.size)
            if len(data) == TRANSFER.size:
                yield read_transfer(data)
                continue
        yield Rest(data + file.read())
        return
