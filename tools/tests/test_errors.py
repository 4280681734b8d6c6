"""Every error: a line with file, line and key, what is wrong and what is allowed; status 1, and no output changed."""
import os
import pty
import subprocess
import sys
import unittest

import common
from common import BOOK, CASE_BOOK, MESSAGES, PAIR

WHOLE = BOOK + MESSAGES
DATES = "a date from 2000-01-01 to 2039-12-31"

# What is replaced in WHOLE, by what, and the words that the error must have.
BOOK_ERRORS = (
    ("opening_day = 2023-04-04\n", "", ("opening_day: is missing", "an open day")),
    ("2023-04-04", "2023-04-01", (":1: opening_day: 2023-04-01, a Saturday, is closed", "an open day")),
    ("2023-04-04", "2039-12-30", ("no open day follows 2039-12-30", "not its last")),
    ("2023-04-04", '"4 April"', (':1: opening_day: "4 April" is no date', DATES)),
    ("2023-04-04", "2040-01-02", ("2040-01-02 is no date here", DATES)),
    ("2023-04-04", "2023-04-04T10:00:00", ("is no date here", DATES)),
    ("2023-04-04", "04/05/2023", (":1: 04/05/2023 is no date here (meant: 2023-04-05 or 2023-05-04?)", "allowed: TOML")),
    ("2023-04-04", '"4.28.2023"', (':1: opening_day: "4.28.2023" is no date here (meant: 2023-04-28?)', DATES)),
    ("2023-04-04", "2023/4/4", (":1: 2023/4/4 is no date here (meant: 2023-04-04?)", "allowed: TOML")),
    ("2023-04-04", '"13/13/2023"', (':1: opening_day: "13/13/2023" is no date here; allowed', DATES)),
    ("2023-04-04", "9" * 5000, (":1: cannot be read as TOML: a number that is too long", "allowed: TOML")),
    ("2023-04-04", "[" * 5000, (":1: cannot be read as TOML: lists within lists", "allowed: TOML")),
    ("2023-04-04", '"\n"', (":1: column 16: Illegal character U+000A", "allowed: TOML")),
    ("2023-04-04", "true", ("true is no date here", DATES)),
    ("2023-04-04", "20230431", ("20230431 is no date here", DATES)),
    ("opening_day", "opening_date", (":1: opening_date: unknown key (meant: opening_day?)", "opening_day, calendar")),
    ("[accounts]", "[calendar]\nweekday = []\n[accounts]", (":4: calendar, weekday: unknown key (meant: weekdays?)",)),
    ("[accounts]", '[calendar]\nweekdays = ["Mon"]\n[accounts]', (':4: calendar, weekdays: "Mon" is no weekday', "Sunday")),
    ("[accounts]", "[calendar]\nweekdays = [1]\n[accounts]", ("1 is no weekday", "Monday")),
    ("[accounts]", '[calendar]\nweekdays = "Monday"\n[accounts]', ('"Monday" is no list', "a list in [ ]")),
    ("[accounts]", "[calendar]\nfirst = 2030-01-02\nlast = 2030-01-01\n[accounts]",
     (":5: calendar, last: 2030-01-01 is before first",)),
    ("[accounts]", "[calendar]\nholidays = [2023-02-29]\n[accounts]", (":4: ", "Invalid")),
    ("[accounts]", "[calendar]\nholidays = [2023-04-07, 12/25/2023]\n[accounts]",
     (":4: 12/25/2023 is no date here (meant: 2023-12-25?)",)),
    ("[accounts]", "[calendar]\nholidays = [1]\n[accounts]", (":4: calendar, holidays: 1 is no date here", DATES)),
    ("[accounts]", "[calendar]\nclosed = [2023-04-07]\nopen = [2023-04-07]\n[accounts]",
     (":5: calendar, open: 2023-04-07 is listed as open and as closed",)),
    ("[accounts]", "calendar = 3\n[accounts]", (":3: calendar: is no table", "[calendar]")),
    ("1 = \"First Bank\"", "16 = \"First Bank\"", (":4: accounts, 16: is no account", "0 to 15")),
    ("\"First Bank\"\n2", "\"Second Bank\"\n2", (":5: accounts, 2: the name \"Second Bank\" is given twice",)),
    ("\"First Bank\"\n2", "\"7\"\n2", (":4: accounts, 1: \"7\" is no name", "not a number alone")),
    ("\"First Bank\"\n2", "\" \"\n2", ("is no name",)),
    ("\"First Bank\"\n2", "5\n2", ("5 is no text", "text in quotes")),
    ("number = 0", "number = 16", (":8: [[security]] 1, number: 16 is out of range", "0 to 15")),
    ("number = 0", "number = -1", ("-1 is out of range", "0 to 15")),
    ("number = 0", "number = \"0\"", ("\"0\" is no whole number", "0 to 15")),
    ("number = 0", "number = true", ("true is no whole number",)),
    ("number = 0\n", "", (":7: [[security]] 1, number: is missing", "0 to 15")),
    ("[[message]]", "[[security]]\nnumber = 0\n[[message]]", ("[[security]] 2, number: security 0 is given twice",)),
    ("[[message]]", "[[security]]\nnumber = 1\nname = \"Pool\"\n[[message]]",
     ("[[security]] 2, name: the name \"Pool\" is given twice",)),
    ("\"agency MBS\"", "\"MBS\"",
     (":10: [[security]] 1, type: \"MBS\" is not known", "Treasury, non-Treasury debt, agency MBS, US-guaranteed MBS")),
    ("\"agency MBS\"", "3", ("3 is not known", "Treasury")),
    ("\"monthly\"", "\"weekly\"",
     (":11: [[security]] 1, frequency: \"weekly\" is not known", "monthly, quarterly, semiannual, annual")),
    ("frequency = \"monthly\"\n", "", (":7: [[security]] 1, frequency: is missing", "monthly")),
    ("frequency = ", "piece = 0\nfrequency = ",
     (":11: [[security]] 1, piece: 0 is out of range", "a whole number from 1 to 1,000,000")),
    ("frequency = ", "piece = 1_000_001\nfrequency = ", (":11: [[security]] 1, piece: 1,000,001 is out of range", "1 to 1,000,000")),
    ("frequency = ", 'piece = "1,000"\nfrequency = ', ('piece: "1,000" is no whole number (meant: 1000?)', "1 to 1,000,000")),
    ("frequency = ", "piece = 0.5\nfrequency = ", ("piece: 0.5 is no whole number", "1 to 1,000,000")),
    ("frequency = ", "peice = 1\nfrequency = ", (":11: [[security]] 1, peice: unknown key (meant: piece?)", "frequency, piece, payment")),
    ("interest = ", "intrest = ",
     (":17: [[security]] 1, payment 1, intrest: unknown key (meant: interest?)", "record, beneficiary")),
    ("record = 2023-04-01\n", "", (":13: [[security]] 1, payment 1, record: is missing", DATES)),
    ("record = 2023-05-01", "record = 2023-04-01",
     (":20: [[security]] 1, payment 2, record: 2023-04-01 is not after the Record Date before it", "rise")),
    ("beneficiary = 2023-05-01", "beneficiary = 2023-04-01",
     (":21: ", "2023-04-01 is not after the Beneficiary Date before it")),
    ("record = 2023-04-01", "record = 2023-04-16", (":14: ", "2023-04-16 is after its Payment Date, 2023-04-15")),
    ("beneficiary = 2023-04-01", "beneficiary = 2023-04-16", (":15: ", "2023-04-16 is after its Payment Date")),
    ("payment = 2023-04-15", "payment = 2039-12-31", (":16: ", "2039-12-31 is after the last open day", "2039-12-30")),
    ("[accounts]", "[calendar]\nweekdays = []\n[accounts]", ("no day of the calendar is open",)),
    ('interest = "0.005"', 'interest = "0,005"',
     (':17: [[security]] 1, payment 1, interest: "0,005" is no decimal number', "at most 9 decimals")),
    ('interest = "0.005"', 'interest = "-1"', ("is no decimal number", "from 0 to 2")),
    ('interest = "0.005"', "interest = -1", ("-1 has more than 9 decimals or is out of range",)),
    ('interest = "0.005"', "interest = 2.000000001", ("2.000000001 has more than 9 decimals or is out of range",)),
    ('interest = "0.005"', 'interest = "0.0000000001"', ("has more than 9 decimals",)),
    ('interest = "0.005"', "interest = 1e-400000000", ("has more than 9 decimals",)),
    ('interest = "0.005"', "interest = 1e400000000", ("out of range",)),
    ('interest = "0.005"', "interest = nan", ("is no decimal number",)),
    ('interest = "0.005"', "interest = []", ("a list is no decimal number",)),
    ('interest = "0.005"\n', "", (":13: [[security]] 1, payment 1, interest: is missing", "interest, principal or both; 0 may be written")),
    ('interest = "0.005"', "interest = 0\nfinal = 1", ("1 is neither true nor false", "true, false")),
    ('interest = "0.005"', "restricted = [16]", ("restricted: 16 is out of range", "First Bank, Second Bank")),
    ('interest = "0.005"', 'restricted = ["No Bank"]', ('restricted: "No Bank" is not known', "0 to 15 or a name")),
    ('interest = "0.005"', "restricted = 3", ("restricted: 3 is no list",)),
    ("[[message]]", "[words]\nbook = 1\n[[message]]", ("words, book: unknown key", "opening_day, calendar, tables")),
    ("[[message]]", "[words.tables]\n1824 = 1\n[[message]]", ("words, tables, 1824: is no place of a word", "0 to 1,823")),
    ("[[message]]", "[words.calendar]\n480 = 1\n[[message]]", ("words, calendar, 480: is no place of a word", "0 to 479")),
    ("[[message]]", "[words.calendar]\nx = 1\n[[message]]", ("words, calendar, x: is no place of a word",)),
    ("[[message]]", "[words.calendar]\n0 = 4294967296\n[[message]]", ("4,294,967,296 is out of range", "4,294,967,295")),
    ("[[message]]", "[words]\nopening_day = -1\n[[message]]", ("words, opening_day: -1 is out of range",)),
    ("opening_day = ", 'book = "b.toml"\nopening_day = ',
     (':2: opening_day: stands beside book = "b.toml"', "one of the two")),
    ("opening_day = 2023-04-04", "opening_day = ", ("source.toml:1: column 15: Invalid value", "allowed: TOML")),
    ("opening_day = 2023-04-04", "opening_day = 2023-04-04\nopening_day = 2023-04-04", (":2: ", "overwrite")),
)

MESSAGE_ERRORS = (
    ('sender = "First Bank"', 'sender = "Third Bank"',
     (':26: [[message]] 1, sender: "Third Bank" is not known', "0 to 15 or a name: First Bank, Second Bank")),
    ('sender = "First Bank"', "sender = 16", ("16 is out of range", "0 to 15")),
    ('sender = "First Bank"\n', "", (":25: [[message]] 1, sender: is missing", "an account")),
    ('sender = "First Bank"', "sender = 2", (":27: [[message]] 1, receiver: account 2 is the sender too", "another account")),
    ("receiver = 2", "receiver = -1", ("-1 is out of range",)),
    ("receiver = 2", "receiver = 1.0", ("1.0 is not known",)),
    ('security = "Pool"', 'security = "pool"',
     (':28: [[message]] 1, security: "pool" is not known', "0 to 15 or a name: Pool")),
    ('security = "Pool"', "security = 16", ("16 is out of range",)),
    ('security = "Pool"\n', "", ("security: is missing", "a security")),
    ("par = 200_000", "par = 0", (":29: [[message]] 1, par: 0 is out of range", "1 to 100,000,000")),
    ("par = 200_000", "par = 100_000_001", ("100,000,001 is out of range",)),
    ("par = 200_000", "par = 40,000", (":29: 40,000 is no whole number (meant: 40000?)", "allowed: TOML")),
    ("par = 200_000", 'par = "1,200,000"',
     (':29: [[message]] 1, par: "1,200,000" is no whole number (meant: 1200000?)', "1 to 100,000,000")),
    ("par = 200_000", 'par = "500"', ('"500" is no whole number (meant: 500?)',)),
    ("par = 200_000", 'par = "4,00"', ('"4,00" is no whole number; allowed',)),
    ("par = 200_000", "par = 1.5", ("1.5 is no whole number",)),
    ("par = 200_000", "", (":25: [[message]] 1, par: is missing",)),
    ("par = 200_000", "pra = 200_000", (":29: [[message]] 1, pra: unknown key (meant: par?)", "close, sender")),
    ("par = 200_000", 'par = 1\ncode = "SLTS"',
     (':30: [[message]] 1, code: "SLTS" is not known', "none, SLST, SLRV, CLSL, CLSR, ADSL, ADSR, RPST, RPRV, CLRP, CLRV, ADRP, ADRV")),
    ("par = 200_000", "par = 1\ncode = 1", ("1 is not known", "SLST")),
    ("par = 200_000", 'par = 1\nmarket = "primary"', ('"primary" is not known', "secondary, other")),
    ("contract_date = 2023-03-15", 'contract_date = "15 March"',
     (":30: [[message]] 1, contract_date: \"15 March\" is no date", DATES)),
    ("contract_date = 2023-03-15", "contract_date = 1999-12-31", ("1999-12-31 is no date here",)),
    ("contract_date = 2023-03-15", 'contract_date = ""',
     (':30: [[message]] 1, contract_date: "" is no date here', DATES, 'or "empty" for a tag without a date')),
    ("contract_date = 2023-03-15", 'contract_date = "none"', ('contract_date: "none" is no date here', 'or "empty"')),
    ("contract_date = 2023-03-15", 'contract_date = "empty"\ntext1 = "%s"' % ("x" * 54),
     ("text1: the line has 65 characters", "(19, or 11 where it is empty)")),
    ("contract_date = 2023-03-15", 'text1 = "%s"' % ("x" * 65), ("text1: the line has 65 characters", "at most 64")),
    ("contract_date = 2023-03-15", 'contract_date = 2023-03-15\ntext1 = "%s"' % ("x" * 46),
     ("the line has 65 characters", "(19, or 11 where it is empty)")),
    ("contract_date = 2023-03-15", 'text1 = "é"', ("text1: has the character é", "printable ASCII")),
    ("contract_date = 2023-03-15", 'text2 = "a\\nb"', ("text2: has the character U+000A",)),
    ("contract_date = 2023-03-15", "text2 = 5", ("5 is no text", "text in quotes")),
    ("contract_date = 2023-03-15", 'contract_date = 2023-03-15\ntext1 = "{contract_date}"\ntext2 = "{contract_date}"',
     ("stands there more than once",)),
    ("contract_date = 2023-03-15", 'line1_hex = "00"', ("line1_hex: has 1 bytes", "64 of them")),
    ("contract_date = 2023-03-15", 'line1_hex = "0g"', ('line1_hex: "0g" is no hex', "pairs of hex digits")),
    ("contract_date = 2023-03-15", 'text1 = "a"\nline1_hex = "00"', ("line1_hex: stands beside text1", "one of the two")),
    ("contract_date = 2023-03-15", 'contract_date = 2023-03-15\nline1_hex = "00"',
     ("stands where the tag of contract_date goes",)),
    ("contract_date = 2023-03-15", "close = 1", (":26: [[message]] 1, sender: stands beside close", "close alone")),
    ("contract_date = 2023-03-15", 'hex = ""', (":26: [[message]] 1, sender: stands beside hex", "hex alone")),
    ("close = 2", "close = 0", (":33: [[message]] 2, close: 0 is out of range", "1 to 100,000")),
    ("close = 2", "close = false", ("false is no whole number",)),
    ("close = 2", 'hex = "x"', ('[[message]] 2, hex: "x" is no hex',)),
    ("[[message]]", "[message]", (":32: column 10: Cannot overwrite a value", "allowed: TOML")),
    (MESSAGES, "", ("has no messages", "[[message]] tables")),
    ("opening_day", 'messages = "m.csv"\nopening_day', ('stands beside messages = "m.csv"', "one of the two")),
)

CSV_ERRORS = (
    ("", ("has no header line", "close, sender")),
    ("sender,reciever\n", (':1: unknown column "reciever" (meant: receiver?)', "receiver")),
    ("sender,sender\n", (":1: column sender stands there twice",)),
    ("close\n1\n0\n", (":3: close: 0 is out of range", "1 to 100,000")),
    ("close\nyes\n", (':2: close: "yes" is no whole number',)),
    ("close,par\n1,5\n", (":2: par: stands beside close",)),
    ("sender,receiver,security,par\n1,2,0,5,6\n", (":2: 5 cells", "4, as in the header line")),
    ("sender,receiver,security,par\n1,2,0,5\n1,2,0\n",
     (":3: 3 cells", "4, as in the header line; a cell may be empty, and a number has no comma")),
    ("sender,receiver,security,par,text1\n1,2,0,5\n", (":2: 4 cells", "5, as in the header line")),
    ("sender,receiver,security,par\n1,2,0,\n", (":2: par: is missing", "1 to 100,000,000")),
    ("sender,receiver,security,par\n1,2,0,\"1,000\"\n", (':2: par: "1,000" is no whole number (meant: 1000?)', "1 to 100,000,000")),
    ("sender,receiver,security,par\n1,2,0,-5\n", (':2: par: "-5" is no whole number',)),
    ("sender,receiver,security,par\n1,First Bank,0,5\n", (':2: receiver: "First Bank" is not known', "0 to 15")),
    ("sender,receiver,security,par,contract_date\n1,2,0,5,15/03/2023\n",
     (':2: contract_date: "15/03/2023" is no date here (meant: 2023-03-15?)', DATES)),
    ("sender,receiver,security,par,contract_date\n1,2,0,5,blank\n", (':2: contract_date: "blank" is no date here', 'or "empty"')),
    ('close\n"1\n', (":2: no CSV",)),
    (b"close\n\xff\n", (":2: byte 6 is not UTF-8", "UTF-8")),
)

PAIR_ERRORS = (
    (PAIR, "", ("has 0 [[transfer]] tables", "two")),
    ("[[transfer]]\ntitle = \"Other\"", "[[transfer]]\n[[transfer]]", ("has 3 [[transfer]] tables", "two")),
    ("settlement_day = 2023-04-04", "settlement_day = 2023-04-01",
     ("[[transfer]] 1, settlement_day: 2023-04-01, a Saturday, is closed", "an open day")),
    ("settlement_day = 2023-04-04\n", "", ("[[transfer]] 1, settlement_day: is missing",)),
    ("title = \"One\"", "titel = \"One\"", ("[[transfer]] 1, titel: unknown key (meant: title?)",)),
    ("title = \"One\"", "close = 1", ("[[transfer]] 1, close: unknown key",)),
    ("title = \"One\"", "rows = [2]", ("[[transfer]] 1, rows: 2 is no such row", "0, 1")),
    ("title = \"One\"", "rows = 0", ("rows: 0 is no list",)),
    ("par = 200_000", "par = 0", ("[[transfer]] 1, par: 0 is out of range",)),
    ("contract_date = 2023-03-15", 'contract_date = ""', ('[[transfer]] 1, contract_date: "" is no date here', 'or "empty"')),
)


class Errors(common.Desk):
    def refused(self, words, *args):
        """The command fails with these words, and its output file stays as it was and alone in its folder."""
        before = sorted(os.listdir(self.folder))
        error = self.bad(*args, "-o", self.path("there"))
        for word in words:
            self.assertIn(word, error)
        self.assertEqual(common.content(self.path("there")), b"as it was")
        self.assertEqual(sorted(os.listdir(self.folder)), before)

    def setUp(self):
        super().setUp()
        self.file("there", "as it was")

    def source(self, text, old, new):
        self.assertIn(old, text)
        return self.file("source.toml", text.replace(old, new, 1))

    def test_book(self):
        for old, new, words in BOOK_ERRORS:
            with self.subTest(new=new):
                source = self.source(WHOLE, old, new)
                self.refused(words, "book", "make", source)
                self.refused(words, "run", source)

    def test_payments_at_most_sixteen(self):
        extra = "".join("[[security.payment]]\nrecord = %d-01-01\nbeneficiary = %d-01-01\npayment = %d-02-01\n" % ((year,) * 3)
                        for year in range(2024, 2039))
        self.refused(("[[security]] 1, payment 17: one payment too many", "at most 16"),
                     "book", "make", self.file("source.toml", BOOK + extra))

    def test_messages(self):
        for old, new, words in MESSAGE_ERRORS:
            with self.subTest(new=new):
                source = self.source(WHOLE, old, new)
                self.refused(words, "messages", "make", source)
                self.refused(words, "run", source)

    def test_no_new_file(self):
        source = self.source(WHOLE, "par = 200_000", "par = 0")
        for command in (("messages", "make"), ("run",)):
            self.bad(*command, source, "-o", self.path("new"))
        self.assertEqual(sorted(os.listdir(self.folder)), ["source.toml", "there"])

    def test_messages_that_are_no_tables(self):
        self.refused((":1: message: is no array of tables", "[[message]]"), "messages", "make",
                     self.file("source.toml", "message = 5\n" + BOOK))

    def test_csv(self):
        for text, words in CSV_ERRORS:
            with self.subTest(text=text):
                self.refused(words, "messages", "make", self.file("source.csv", text))

    def test_pair(self):
        for old, new, words in PAIR_ERRORS:
            with self.subTest(new=new):
                self.refused(words, "board", self.source(BOOK + PAIR, old, new))

    def test_files(self):
        folder = self.path("folder")
        os.mkdir(folder)
        latin = self.file("latin.toml", b'opening_day = 2023-04-04\n# caf\xe9\n')
        for command in (("book", "make"), ("book", "show"), ("messages", "make"), ("messages", "show"), ("claims", "show"),
                        ("run",), ("board",)):
            self.refused(("there is no such file", "none.toml"), *command, self.path("none.toml"))
            self.refused(("is a folder, not a file",), *command, folder)
        for command in (("book", "make"), ("messages", "make"), ("run",), ("board",)):
            self.refused(("latin.toml:2: byte 30 is not UTF-8", "text in UTF-8"), *command, latin)
        for size, given in ((0, b""), (9219, bytes(9219)), (9221, bytes(9221))):
            self.refused(("has %s bytes" % format(size, ","), "9,220 bytes"), "book", "show", self.file("b.dat", given))
        self.refused(("has %d bytes" % len(BOOK), "a book.dat of 9,220 bytes"), "book", "show", self.file("b.toml", BOOK))
        self.refused(("has 1 bytes", "whose name ends in .toml"), "claims", "show", self.file("o.dat", b""), "--book", self.file("b.dat", b"x"))

    def test_files_that_a_source_names(self):
        self.refused(("none.toml: there is no such file",), "run", self.file("s.toml", 'book = "none.toml"\n' + MESSAGES))
        self.refused(("none.csv: there is no such file",), "run", self.file("s.toml", 'messages = "none.csv"\n' + BOOK))
        self.refused(("text in quotes",), "run", self.file("s.toml", "book = 3\n"))
        self.file("inner.toml", 'book = "s.toml"\n')
        self.refused(("inner.toml:1: book: a book that names another book",), "run",
                     self.file("s.toml", 'book = "inner.toml"\n'))
        self.file("inner.toml", '[[mesage]]\nclose = 1\n')
        self.refused(("inner.toml:1: mesage: unknown key (meant: message?)",), "run",
                     self.file("s.toml", 'messages = "inner.toml"\n' + BOOK))
        self.file("inner.toml", 'messages = "s.toml"\n')
        self.refused(("inner.toml:1: messages: a file of messages that names another",), "run",
                     self.file("s.toml", 'messages = "inner.toml"\n' + BOOK))

    def test_output_files(self):
        source = self.file("s.toml", WHOLE)
        os.mkdir(self.path("folder"))
        self.assertIn("is a folder", self.bad("book", "make", source, "-o", self.path("folder")))
        self.assertIn("the folder of this file is not there", self.bad("book", "make", source, "-o", self.path("no/b.dat")))
        for command in (("book", "make"), ("messages", "make"), ("run",)):
            self.assertIn("would overwrite the input", self.bad(*command, source, "-o", source))
        self.assertEqual(common.content(source).decode(), WHOLE)
        self.file("inner.toml", BOOK)
        self.file("m.csv", "close\n1\n")
        outer = self.file("outer.toml", 'book = "inner.toml"\nmessages = "m.csv"\n')
        for name in ("inner.toml", "m.csv", "outer.toml"):
            self.assertIn("would overwrite the input", self.bad("run", outer, "-o", self.path(name)))
        os.symlink("inner.toml", self.path("link"))
        self.assertIn("would overwrite the input", self.bad("run", outer, "-o", self.path("link")))
        book = self.file("b.dat", common.content(CASE_BOOK))
        self.assertIn("would overwrite the input", self.bad("book", "show", book, "-o", book))

    @unittest.skipIf(os.geteuid() == 0, "the superuser may read and write every file")
    def test_permissions(self):
        source = self.file("s.toml", WHOLE)
        os.chmod(source, 0)
        self.refused(("no permission",), "run", source)

    def test_an_output_file_keeps_its_mode_and_links(self):
        source = self.file("s.toml", WHOLE)
        os.chmod(self.path("there"), 0o640)
        os.symlink("there", self.path("link"))
        self.good("book", "make", source, "-o", self.path("link"))
        self.assertTrue(os.path.islink(self.path("link")))
        self.assertEqual(os.stat(self.path("there")).st_mode & 0o777, 0o640)
        self.assertEqual(common.content(self.path("there")), common.content(CASE_BOOK))

    def test_records_are_not_written_to_a_terminal(self):
        self.file("s.toml", WHOLE)
        ours, theirs = pty.openpty()
        run = subprocess.run([sys.executable, common.COMMAND, "messages", "make", "s.toml"], cwd=self.folder, stdout=theirs,
                             stderr=subprocess.PIPE, timeout=60)
        os.close(theirs)
        os.close(ours)
        self.assertEqual(run.returncode, 1)
        self.assertIn(b"is a terminal", run.stderr)

    def test_usage(self):
        source = self.file("s.toml", WHOLE)
        for args in ((), ("book",), ("book", "make"), ("book", "mend", source), ("run",), ("run", source, source),
                     ("run", source, "--format", "xml"), ("claims", "show", "--format", "toml"), ("board", source),
                     ("messages", "show", "--format", "json"), ("run", source, "--what"), ("nothing",)):
            status, output, errors = self.call(*args)
            self.assertEqual((status, output), (2, b""), args)
            self.assertIn("usage: claimdesk", errors)

    def test_help(self):
        for args in (("--help",), ("book", "make", "--help"), ("run", "--help")):
            status, output, errors = self.call(*args)
            self.assertEqual((status, errors), (0, ""))
            self.assertIn(b"usage: claimdesk", output)

    def test_odd_values_are_taken_or_refused(self):
        """Whatever value stands in the place of another, nothing else happens."""
        values = ("0", "-1", "true", "[]", "{}", '"x"', "2023-04-01", "10:00:00", "1.5", "nan", '""', '"\\u0000\\n"',
                  "99999999999999999999999", "[[1]]", '"Second Bank"', '"00"')
        lines = (WHOLE + PAIR).split("\n")
        for place in range(0, len(lines)):
            if "=" not in lines[place]:
                continue
            for value in values[place % 5::5]:
                changed = lines[:place] + [lines[place].split("=")[0] + "= " + value] + lines[place + 1:]
                source = self.file("source.toml", "\n".join(changed))
                for command in (("book", "make"), ("messages", "make"), ("board",)):
                    status, _, errors = self.call(*command, source, "-o", self.path("out"))
                    self.assertEqual(status, 1 if errors else 0, changed[place])
                    if errors:
                        self.plain(errors)


if __name__ == "__main__":
    unittest.main()
