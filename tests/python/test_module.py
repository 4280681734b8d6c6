"""The Python module over an installed library: against a C caller on the same calls, against the reference's streams, and its refusals."""
import builtins
import ctypes
import datetime
import inspect
import itertools
import os
import random
import re
import shutil
import struct
import subprocess
import sys
import tempfile
import unittest
from array import array
from calendar import monthrange

HERE = os.path.dirname(os.path.abspath(__file__))
sys.path[:0] = [os.path.join(os.path.dirname(HERE), "c"), os.path.join(os.path.dirname(HERE), "claimrun")]
import building  # noqa: E402
import common  # noqa: E402
import declarations  # noqa: E402

PREFIX = tempfile.mkdtemp()
PYTHON = os.path.join(PREFIX, "lib", "claim_tracker", "python")
unittest.addModuleCleanup(shutil.rmtree, PREFIX)
INSTALLED = subprocess.run([os.path.join(building.ROOT, "tools", "install"), PREFIX], capture_output=True, text=True,
                           env=os.environ | {"DESTDIR": ""})
if INSTALLED.returncode != 0:
    shutil.rmtree(PREFIX)
    raise AssertionError(INSTALLED.stderr)
os.environ.pop("CLAIM_TRACKER_LIBRARY", None)
sys.path.insert(0, PYTHON)
import calling  # noqa: E402
import claim_tracker  # noqa: E402
from claim_tracker import Book, Claim, ClaimType, Number, Transfer  # noqa: E402

CALENDAR, TABLES, DAY = claim_tracker.read_book_file(common.BOOK)
TAG = "{98A:CNTR/%d}"
LIMITS = ("7,6,3,2,1", "16,16,16,16,16", "1,1,1,1,1", "1,16,16,16,16", "2,9,4,4,1")
BROKEN = ("-", "7,6,3,2", "7,6,3,2,1,1", "0,6,3,2,1", "7,6,3,2,0", "17,6,3,2,1", "7,17,3,2,1", "7,6,7,2,1", "7,6,3,4,1", "7,6,3,2,3",
          "4294967295,6,3,2,1")


# ---- lists of calls

def piece_words(*first, count=16):
    """Pieces as a line of a list has them: these, and ones behind them."""
    return ",".join(map(str, [*first, *[1] * (count - len(first))]))


ONES = piece_words()
PIECES = (ONES, piece_words(1000), piece_words(7, 1000, 200000), piece_words(*[1000000] * 16))
BAD_PIECES = ("-", piece_words(count=15), piece_words(count=17), piece_words(0), piece_words(*[1] * 15, 0), piece_words(1000001),
              piece_words(1, 4294967295))


def transfer_hex(sender, receiver, security, class_, code, par, first="", second=""):
    """A transfer record, made without the module."""
    lines = [line.ljust(64).encode("ascii")[:64] for line in (first, second)]
    return struct.pack("<HHBBBBBI64s64s", 139, 1, sender, receiver, security, class_, code, par, *lines).hex()


def case_tables():
    """Document 01's case tables, with two more securities and a holding account that is restricted."""
    tables = TABLES[:]
    tables[114:114 + 9] = array("I", [1, 3, 20230331, 20230331, 20230403, 22500000, 0, 0, 1 << 5])
    tables[228:228 + 16] = array("I", [4, 2, 20230401, 20230402, 20230403, 7, 1000000000, 0, 0,
                                       20230403, 20230404, 20230405, 0, 1000000000, 1, 0])
    return tables


def monthly_tables():
    """Three securities with payments around the first of each month from April 2022 to March 2023: an agency MBS, a Treasury, and an MBS
    guaranteed by the United States whose Record Dates lie ten days before the others."""
    months = [20220000 + 100 * month for month in range(4, 13)] + [20230100, 20230200, 20230300]
    tables = array("I", bytes(4 * claim_tracker.TABLE_WORDS))
    for security, (kind, record) in enumerate(((3, 11), (1, 11), (4, 1))):
        rows = [word for month in months for word in (month + record, month + 11, month + 25, 5000000, 7, 0, 1 << 5)]
        tables[114 * security:114 * security + 2 + len(rows)] = array("I", [kind, 1, *rows])
    return tables


def book_lines(tables=None):
    """The lines that put the words of a book, the case book where no other tables are given."""
    lines = ["calendar %d %d" % pair for pair in enumerate(CALENDAR)]
    return lines + ["tables %d %d" % pair for pair in enumerate(tables or case_tables()) if pair[1]]


def random_calls(count, seed, lines, dates):
    """A list of calls of every kind behind these lines; most transfers are right but for one field, and have the first of the dates."""
    choice = random.Random(seed)

    def mostly(usual, *others):
        return choice.choice(others) if choice.random() < 0.1 else usual

    lines = list(lines)
    for _ in range(count):
        form = choice.choice(("", "_in"))
        room = mostly(9000, 0, 34, 35, 244, 245)
        kind = choice.random()
        if kind < 0.1:
            lines.append("close%s %d 02000200" % (form, room))
        elif kind < 0.15:
            record = choice.choice(("-", "8b00", "02000200", "04000400"))
            lines.append("%s%s %d %s" % (choice.choice(("transfer", "close")), form, room, record))
        elif kind < 0.2:
            data = "".join(choice.choice(("02000200", transfer_hex(1, 2, 0, 0, 0, 7, TAG % dates[0]))) for _ in range(4))
            data += choice.choice(("", "8b", "0300"))
            lines.append("serve %d %d %s" % (choice.random() < 0.3, choice.choice((65541, 65542, 140000)), data))
        else:
            day = mostly(*dates)
            tag = mostly(TAG % day, "", "text " + TAG % day, TAG % day + TAG % day, "{98A:CNTR/", "{98A:CNTR/}")
            fields = (mostly(choice.randrange(1, 4), 0, 5, 16), mostly(choice.randrange(4, 6), 1, 255), mostly(choice.randrange(3), 3, 16),
                      mostly(0, 1, 2), mostly(choice.choice((0, 0, 0, 0, 1, 7)), *range(2, 7), *range(8, 14)),
                      mostly(200000, 0, 1, 100000000, 100000001))
            form = choice.choice((form, "_with_limits " + mostly(choice.choice(LIMITS), *BROKEN)))
            if choice.random() < 0.3:
                lines.append("pieces " + mostly(ONES, *PIECES, *BAD_PIECES))
            lines.append("transfer%s %d %s" % (form, room, transfer_hex(*fields, tag, mostly("", "more text", TAG % day))))
    return lines


def edge_calls():
    """Lengths, words and counts at their edges, and readers and writers at each size."""
    lines = book_lines()
    opened = transfer_hex(1, 2, 0, 0, 0, 200000, TAG % 20230315)
    for lengths in ("479 1824 8192", "481 1824 8192", "480 0 8192", "480 1824 8191", "480 1824 8193", "480 1824 4096", "480 1824 0",
                    "0 0 0", "480 1824 8192"):
        lines += ["lengths " + lengths, "open 20230404", "transfer 245 " + opened, "serve 0 65542 " + opened]
        lines += ["transfer_with_limits %s 245 %s" % (limits, opened) for limits in (LIMITS[0], BROKEN[0])]
    for day in (20230404, 20230509, 20230506):
        lines += ["book %d 0" % day] + ["transfer_with_limits %s 245 %s" % (limits, opened) for limits in LIMITS + BROKEN]
    for day, pieces in itertools.product((20230404, 20230506), PIECES + BAD_PIECES):
        lines += ["book %d 0" % day, "pieces " + pieces, "transfer 245 " + opened, "transfer_in 245 " + opened]
        lines += ["transfer_with_limits %s 245 %s" % (limits, opened) for limits in (LIMITS[0], BROKEN[0])]
    lines.append("pieces " + ONES)
    lines += ["open 20230402", "open 0", "open 4294967295", "book 20230404 4294967294"]
    lines += ["transfer 245 " + opened, "transfer_in 245 " + opened]
    for place in (18, 4096 + 18):
        for word in (9000000000, 9000000001, 18446744073709551615, 0):
            lines += ["open 20230404", "balances %d %d" % (place, word)]
            lines += ["transfer 0 " + transfer_hex(1, 2, 0, 0, code, 1) for code in (1, 7)] + ["close_in 65535 02000200"]
    lines += ["calendar 1 4294967295", "open 20230404", "calendar 1 0", "tables 0 9", "open 20230404"]
    lines += ["transfer_with_limits %s 245 %s" % (BROKEN[0], opened), "tables 0 3", "open 20391229"]
    lines += ["close 0 02000200", "close 0 02000200", "calendar 479 0", "close_in 0 02000200"]
    answer, claim = common.EXPECTED[35:].hex(), common.EXPECTED[:35].hex()
    for record in (opened, "02000200", claim, answer, "ff" * 141):
        for size in {len(record), len(record) - 2, len(record) + 8, 8, 0}:
            data = (record + "ab" * 4)[:size] or "-"
            lines += ["read_%s %s" % (name, data) for name in ("transfer", "close", "claim", "answer")]
    most = "255 255 255 255 255 255 4294967295 18446744073709551615 18446744073709551615 4294967295 255"
    for room in (0, 3, 4, 5, 6, 34, 35, 36, 140, 141, 142):
        lines += ["write_close %d" % room, "write_answer %d 65535" % room, "write_claim %d %s" % (room, most),
                  "write_claim %d 1 0 1 2 0 0 1 100000 0 20230417 3" % room,
                  "write_transfer %d 1 2 0 0 0 200000 %s %s" % (room, "7b" * 64, "20" * 63 + "7d"),
                  "write_transfer %d 255 254 253 252 251 4294967295 %s %s" % (room, bytes(range(64)).hex(), bytes(range(64, 128)).hex())]
    return lines + ["text %d" % number for number in range(200)] + ["text 65535"]


def carry_over_calls(count, seed):
    """A list of carry overs, most of them right but for one thing, to balances that hold other words, each with a return and a close behind
    it."""
    choice = random.Random(seed)

    def mostly(usual, *others):
        return choice.choice(others) if choice.random() < 0.1 else usual

    lines = book_lines()
    for _ in range(count):
        place, month = choice.randrange(claim_tracker.LENDING_WORDS), choice.randrange(claim_tracker.CALENDAR_WORDS)
        par = 0 if place // 16 % 16 == place % 16 else choice.randrange(9000000001)
        lines += ["balances %d %d" % (choice.randrange(claim_tracker.BALANCE_WORDS), choice.getrandbits(64)),
                  "saved 18 %d" % mostly(15000, 4999, 9000000000, 9000000001),
                  "saved %d %d" % (place, mostly(par, 1, 9000000000, 9000000001, 2 ** 64 - 1)),
                  "calendar %d %d" % (month, CALENDAR[month] ^ mostly(0, 1 << 31, 1 << 30, 1 << 28, 1)),
                  "lengths %d 1824 %d" % (mostly(480, 0, 479, 481), mostly(8192, 0, 4096, 8191, 8193)),
                  "book %d %d" % (mostly(20230331, 20030404, 20230401, 20391229, 20391230, 0, 4294967295), mostly(3, 0, 4294967295)),
                  "carry_over %d" % mostly(4096, 0, 4095, 4097, 8192),
                  "lengths 480 1824 8192",
                  "transfer 0 " + transfer_hex(2, 1, 0, 0, 3, 5000), "close_in 9000 02000200",
                  "calendar %d %d" % (month, CALENDAR[month]), "saved %d 0" % place]
    return lines


def mark_calls(count, seed):
    """A list of marks that are set and returned to, most of them right but for one thing, with a loan or a repo and a close between."""
    choice = random.Random(seed)

    def mostly(usual, *others):
        return choice.choice(others) if choice.random() < 0.1 else usual

    lines = [*book_lines(), "open 20230331"]
    for _ in range(count):
        place, month, word = choice.randrange(8192), choice.randrange(480), choice.randrange(claim_tracker.STORE_WORDS)
        par = 0 if place // 16 % 16 == place % 16 else choice.randrange(9000000001)
        call = "%s %d %d" % (choice.choice(("set_mark", "return_to_mark")), mostly(32780, 0, 32779, 32781),
                             mostly(choice.randrange(1, 5), 0, 5, 257, 4294967295))
        lines += ["transfer 0 " + transfer_hex(1, 2, 0, 0, choice.choice((1, 7)), choice.randrange(1, 90000)),
                  mostly("close_in 9000 02000200", "book 20230331 4294967295", "book 20230401 5", "book 0 0"),
                  "balances %d %d" % (place, mostly(par, 1, 9000000000, 9000000001)),
                  mostly("store 32780 7", "store %d %d" % (word, choice.choice((0, 1, 9000000001))),
                         "store %d %d" % (8195 * choice.randrange(4) + choice.randrange(4), choice.choice((0, 1, 2, 20230403, 2 ** 32)))),
                  "calendar %d %d" % (month, CALENDAR[month] ^ mostly(0, 1 << 31, 1 << 28, 1)),
                  "lengths %d 1824 %d" % (mostly(480, 0, 479, 481), mostly(8192, 0, 4096, 8191, 8193)),
                  call, "lengths 480 1824 8192", "calendar %d %d" % (month, CALENDAR[month]), "balances %d 0" % place]
        if choice.random() < 0.3:
            lines.append("open 20230331")
    return lines


def claim_hex(payer, payee, interest, principal=0, release=20230417, outcome=0):
    """A claim record, made without the module."""
    return struct.pack("<HH6BIQQIB", 33, 3, 1, outcome, payer, payee, 0, 0, 1, interest, principal, release, 3).hex()


def forecast_calls(count, seed):
    """A list of forecasts of up to forty claims, most of them right but for one thing, with sums about the limit."""
    choice = random.Random(seed)
    large = (2 ** 53, 2 ** 53 - 1, 2 ** 53 + 1, 2 ** 52, 2 ** 63, 2 ** 64 - 1)
    lines = []
    for _ in range(count):
        records = []
        for _ in range(choice.choice((0, 1, 2, 5, 40))):
            payer, payee = choice.sample(range(4), 2)
            cents = choice.choice(large) if choice.random() < 0.03 else choice.randrange(10 ** 12)
            records.append(claim_hex(payer, payee, cents, choice.randrange(100), choice.choice((20230417, 20230417, 20230418, 0)),
                                     choice.choice((0, 0, 0, 1, 2, 3, 255))))
        if records and choice.random() < 0.3:
            where, (at, byte) = choice.randrange(len(records)), choice.choice(((0, 34), (1, 1), (2, 4), (3, 1), (6, 16), (7, 16), (7, 255)))
            records[where] = records[where][:2 * at] + "%02x" % byte + records[where][2 * at + 2:]
        run = "".join(records) + "ab" * (choice.random() < 0.05)
        account = choice.choice((16, 255, 256, 4294967295)) if choice.random() < 0.05 else choice.randrange(5)
        date = choice.choice((0, 20230230, 20230418, 20400101)) if choice.random() < 0.1 else 20230417
        lines.append("forecast %d %d %s" % (account, date, run or "-"))
    return lines


def all_days():
    """Every day from 2000 to 2039 and numbers that are none, each with whether a book can be on it: Monday to Friday, but for the last open day."""
    first, last = datetime.date(2000, 1, 1), datetime.date(2039, 12, 31)
    days = [first + datetime.timedelta(days) for days in range((last - first).days + 1)]
    numbers = {10000 * day.year + 100 * day.month + day.day: day.weekday() < 5 for day in days}
    numbers[20391230] = False
    return numbers | dict.fromkeys((0, 1, 19991231, 20000100, 20230229, 20230431, 20231301, 20400102, 2 ** 32 - 1), False)


class AgainstC(building.Library):
    """The same list of calls through the C caller and through the module."""
    maxDiff = 2000

    def same(self, lines):
        """Both print the same; what they print is given back."""
        program = self.build("tests/c/calls.c", "-std=c11", "-O1")
        run = subprocess.run([program], input="\n".join(lines) + "\n", capture_output=True, text=True, timeout=building.SECONDS)
        self.assertEqual((run.returncode, run.stderr), (0, ""))
        by_c, by_python = run.stdout.splitlines(), calling.answers(lines).splitlines()
        for made, found in zip(by_c, by_python):
            self.assertEqual(found, made)
        self.assertEqual(len(by_python), len(by_c))
        return by_c

    def test_random_calls(self):
        """Claims of each type and most numbers occur among them."""
        self.has_everything(self.same(random_calls(800, 11, [*book_lines(), "open 20230330"], (20230315, 20230401, 20230405, 20230231,
                                                                                               20391231))))

    def test_random_calls_before_the_memo(self):
        """Likewise from 17 October 2022 on, with a loan that is held; lending gets 15, and the list ends on a later day."""
        lines = [*book_lines(monthly_tables()), "open 20221017", "balances 18 15000"]
        found = self.same(random_calls(800, 12, lines, (20220715, 20220411, 20221011, 20230102, 20220231, 19991231)))
        self.has_everything(found, 15)
        days = [(int(line.split(" book ")[1].split()[0]), int(line.split()[1])) for line in found]
        self.assertEqual({day < 20230130 for day, number in days if number == 15}, {True})
        self.assertGreater(days[-1][0], 20230130)

    def test_carry_overs(self):
        """Each number of a carry over occurs, and what is carried over is returned and claimed."""
        found = self.same(carry_over_calls(300, 13))
        self.assertEqual({int(line.split()[1]) for line in found if line.startswith("carry_over")}, {0, 1, 2, 4})
        self.assertTrue(any(line.startswith("close_in 0 ") and "2100030003" in line for line in found))

    def test_marks(self):
        """Each number of both calls occurs."""
        found = self.same(mark_calls(500, 15))
        for name, numbers in (("set_mark", {0, 1, 2, 4, 16}), ("return_to_mark", {0, 1, 2, 4, 16, 17})):
            self.assertEqual({int(line.split()[1]) for line in found if line.startswith(name)}, numbers)

    def test_forecasts(self):
        """Each number occurs, and differences of either sign."""
        found = [line.split() for line in self.same(forecast_calls(600, 16))]
        self.assertEqual({int(line[1]) for line in found}, {0, 18, 19})
        self.assertEqual({line[4][0] in "89abcdef" for line in found if line[1] == "0"}, {True, False})

    def has_everything(self, found, *others):
        """What a random list is to show: these numbers and the usual ones, claims, and runs that are over or full."""
        numbers = {int(line.split()[1]) for line in found}
        self.assertGreaterEqual(numbers, {0, 5, 6, 7, 10, 12, 13, 14, 132, 133, 135, 138, 139, *others})
        for name, least in (("transfer", 200), ("close", 5)):
            self.assertGreater(sum(int(line.split()[3]) for line in found if line.startswith(name)), least)
        for kind in ClaimType:
            self.assertTrue(any("21000300%02x" % kind in line for line in found), kind)
        for words in (" over 1 ", " over 0 full 0 ", " over 0 full 1 ", " written 0 over 0 full 1 "):
            self.assertTrue(any(words in line for line in found), words)

    def test_edges(self):
        found = self.same(edge_calls())
        self.assertGreaterEqual({int(line.split()[1]) for line in found if not line.startswith("text")},
                                {0, 1, 2, 3, 4, 5, 8, 9, 10, 11, 12, 13, 14})
        self.assertEqual(found.count("text unknown number"), 201 - len(Number))


class Calls(unittest.TestCase):
    def test_hex_example(self):
        """Document 01's example, by both forms and by a stream."""
        balances = claim_tracker.new_balances()
        done = claim_tracker.open(CALENDAR, TABLES, balances, DAY)
        self.assertEqual(done, (Number.ACCEPTED, Book(20230404, 0), 0))
        message = bytearray(claim_tracker.TRANSFER_BYTES)
        lines = claim_tracker.line(TAG % 20230315), claim_tracker.line("")
        self.assertEqual(claim_tracker.write_transfer(message, Transfer(1, 2, 0, 0, 0, 200000), *lines), 0)
        self.assertEqual(bytes(message), common.TRANSFER)
        output = bytearray(41)
        before = done.book
        done = claim_tracker.transfer(CALENDAR, TABLES, before, balances, message, output)
        self.assertEqual((done, before), ((Number.ACCEPTED, Book(20230404, 1), 1), Book(20230404, 0)))
        self.assertEqual(claim_tracker.write_answer(memoryview(output)[35:], claim_tracker.Answer(done.number)), 0)
        self.assertEqual(bytes(output), common.EXPECTED)
        self.assertEqual(claim_tracker.read_claim(output), (0, Claim(1, 0, 1, 2, 0, 0, 1, 100000, 0, 20230417, 3)))
        self.assertEqual(claim_tracker.read_transfer(message), (0, Transfer(1, 2, 0, 0, 0, 200000), *lines))
        own, output = Book(20230404), bytearray(41)
        self.assertEqual(claim_tracker.transfer_in(CALENDAR, TABLES, own, balances, bytes(message), output), (0, 1))
        self.assertEqual((own, output[:35]), (Book(20230404, 1), common.EXPECTED[:35]))
        output = bytearray(claim_tracker.RECORD_ROOM)
        served = claim_tracker.serve(CALENDAR, TABLES, Book(20230404), balances, message, False, output)
        self.assertEqual(served, (0, Book(20230404, 1), 141, 41, False, True))
        self.assertEqual(bytes(output[:41]), common.EXPECTED)

    def test_half_a_book(self):
        """Balances of loans alone get 1 from every call on a book, and nothing changes."""
        half, own, room = array("Q", [0]) * (claim_tracker.BALANCE_WORDS // 2), Book(DAY), bytearray(claim_tracker.RECORD_ROOM)
        self.assertEqual(claim_tracker.open(CALENDAR, TABLES, half, DAY), (Number.WRONG_LENGTH, Book(20000101), 0))
        limits = array("I", [7, 6, 3, 2, 1])
        self.assertEqual(claim_tracker.transfer_with_limits(CALENDAR, TABLES, limits, Book(DAY), half, common.TRANSFER, room),
                         (Number.WRONG_LENGTH, Book(DAY), 0))
        for message, call, call_in in ((common.TRANSFER, claim_tracker.transfer, claim_tracker.transfer_in),
                                       (b"\2\0\2\0", claim_tracker.close, claim_tracker.close_in)):
            self.assertEqual(call(CALENDAR, TABLES, Book(DAY), half, message, room), (Number.WRONG_LENGTH, Book(DAY), 0))
            self.assertEqual(call_in(CALENDAR, TABLES, own, half, message, room), (Number.WRONG_LENGTH, 0))
            served = claim_tracker.serve(CALENDAR, TABLES, Book(DAY), half, message, True, room)
            self.assertEqual((served.number, served.book, served.consumed, served.written), (Number.WRONG_LENGTH, Book(DAY), 0, 0))
        self.assertEqual((own, set(half), set(room)), (Book(DAY), {0}, {0}))

    def test_streams(self):
        """The streams of crates/vectors, by the rule of FORMATS.md."""
        for number, stream in enumerate(common.vectors()):
            with self.subTest(stream=number):
                self.assertTrue(self.served(stream) == stream.expected)

    def served(self, stream):
        """All that is written for a stream whose input arrives in pieces of 1,000 bytes."""
        if len(stream.book) != claim_tracker.BOOK_FILE_BYTES:
            return common.answer(1)
        calendar, tables, day = claim_tracker.read_book_file(stream.book)
        balances = claim_tracker.new_balances()
        done = claim_tracker.open(calendar, tables, balances, day)
        if done.number:
            return common.answer(done.number)
        book, held, at, ended, found = done.book, b"", 0, False, b""
        output = bytearray(claim_tracker.RECORD_ROOM)
        while True:
            served = claim_tracker.serve(calendar, tables, book, balances, held, ended, output)
            self.assertEqual(served.number, 0)
            book, held, found = served.book, held[served.consumed:], found + output[:served.written]
            if served.over:
                return found
            if served.full:
                continue
            if ended:
                return found
            held, at, ended = held + stream.data[at:at + 1000], at + 1000, at >= len(stream.data)


class Dates(unittest.TestCase):
    """Month lengths and dates against those of Python's own calendar."""
    MONTHS = [(year, month) for year in range(2000, 2040) for month in range(1, 13)]

    def setUp(self):
        self.tables, self.balances = array("I", [0]) * claim_tracker.TABLE_WORDS, claim_tracker.new_balances()

    def number(self, words, day):
        """What opening a book without securities answers."""
        return claim_tracker.open(words, self.tables, self.balances, day).number

    def test_every_month(self):
        """A bit for the last day of a month is sound, one for the day behind it is not."""
        for place, month in enumerate(self.MONTHS):
            last = monthrange(*month)[1]
            for day, number in ((last, Number.BAD_BOOK), (last + 1, Number.BAD_CALENDAR)):
                words = array("I", [0]) * claim_tracker.CALENDAR_WORDS
                words[place] = 1 << day - 1
                with self.subTest(month=month, day=day):
                    self.assertEqual(self.number(words, 20000101), number)

    def test_every_date(self):
        """Where every day is open, the numbers that a book may be opened on are all dates but the last, which has no day after it."""
        words = array("I", [(1 << monthrange(*month)[1]) - 1 for month in self.MONTHS])
        numbers = (10000 * year + 100 * month + day for year in range(1999, 2041) for month in range(100) for day in range(100))
        found = {number for number in numbers if self.number(words, number) == Number.ACCEPTED}
        first, last = datetime.date(2000, 1, 1), datetime.date(2039, 12, 31)
        dates = [first + datetime.timedelta(days) for days in range((last - first).days)]
        self.assertEqual(found, {10000 * date.year + 100 * date.month + date.day for date in dates})


class Limits(unittest.TestCase):
    """Date limits on an MBS and a Treasury of each frequency, each with 16 rows that are all paid by the book's day."""
    DAY = 20230301
    PUBLISHED = 7, 6, 3, 2, 1

    def setUp(self):
        rows = [word for at in range(16) for word in (20230103 + at, 20230103 + at, self.DAY, 1000000000, 0, 0, 0)]
        self.tables = array("I", [word for head in ((3, 4), (1, 1), (1, 2), (1, 3), (1, 4)) for word in (*head, *rows)])
        self.tables.extend([0] * (claim_tracker.TABLE_WORDS - len(self.tables)))
        self.balances, self.claims = claim_tracker.new_balances(), bytearray(560)
        self.messages = [bytes.fromhex(transfer_hex(1, 2, security, 0, 0, 5, TAG % 20230102)) for security in range(5)]

    def call(self, limits, security):
        return claim_tracker.transfer_with_limits(CALENDAR, self.tables, array("I", limits), Book(self.DAY), self.balances,
                                                  self.messages[security], self.claims)

    def rows(self, done):
        return [claim_tracker.read_claim(self.claims[35 * at:]).claim.row for at in range(done.claims)]

    def test_numbers(self):
        """Every list of five numbers at the ends of their range or past them: refused, or each security claims its own number of rows."""
        for limits in itertools.product((0, 1, 2, 15, 16, 17), repeat=5):
            mbs, monthly, quarterly, semiannual, annual = limits
            if 1 <= mbs <= 16 and 16 >= monthly >= quarterly >= semiannual >= annual >= 1:
                for security, limit in enumerate(limits):
                    done = self.call(limits, security)
                    self.assertEqual((done, self.rows(done)), ((0, Book(self.DAY, 1), limit), list(range(16 - limit, 16))), limits)
            else:
                self.assertEqual(self.call(limits, 0), (Number.BAD_LIMITS, Book(self.DAY), 0), limits)

    def test_lengths(self):
        """Another number of limits is refused, and nothing is written."""
        for length in (0, 1, 2, 3, 4, 6, 7, 16, 300):
            self.assertEqual(self.call([1] * length, 0), (Number.BAD_LIMITS, Book(self.DAY), 0), length)
        self.assertEqual((set(self.claims), set(self.balances)), ({0}, {0}))
        self.assertEqual(self.call([2 ** 32 - 1] * 5, 0).number, Number.BAD_LIMITS)

    def test_published(self):
        """The form without limits is that with the published ones."""
        for security, message in enumerate(self.messages):
            done, claims = self.call(self.PUBLISHED, security), bytearray(560)
            self.assertEqual(claim_tracker.transfer(CALENDAR, self.tables, Book(self.DAY), self.balances, message, claims), done)
            self.assertEqual((done.claims, claims), (self.PUBLISHED[security], self.claims))
            self.claims[:] = bytes(560)


class Pieces(unittest.TestCase):
    """Minimum pieces on the case tables: 1,000 for security 0, and 1 for the others. Security 1 is a Treasury without payments."""
    LIMITS = array("I", [7, 6, 3, 2, 1])
    BAD = [1] * 15, [1] * 17, [0] + [1] * 15, [1] * 15 + [0], [1000001] + [1] * 15, [1] * 15 + [2 ** 32 - 1], []

    def setUp(self):
        self.balances, self.pieces, self.tables = claim_tracker.new_balances(), claim_tracker.new_pieces(), TABLES[:]
        self.pieces[0] = 1000
        self.tables[114:116] = array("I", [1, 1])

    def lend(self):
        """A loan of 40,500 from account 1 to account 2, which is lent ones."""
        message = bytes.fromhex(transfer_hex(1, 2, 0, 0, 1, 40500))
        self.assertEqual(claim_tracker.transfer(CALENDAR, TABLES, Book(DAY), self.balances, message, bytearray()).number, 0)
        self.assertEqual(self.balances[18], 40500)

    def done(self, form, message, pieces, book, room):
        """A call in one of its forms: its number, and the book, claims, balances and claim buffer after it."""
        balances, claims, given = self.balances[:], bytearray(b"\xaa" * room), Book(book.day, book.count)
        limits = [self.LIMITS] * form.endswith("limits")
        done = getattr(claim_tracker, form)(CALENDAR, self.tables, *limits, given, balances, message, claims, pieces=pieces)
        return done.number, given if form.endswith("in") else done.book, done.claims, balances, claims

    def number(self, sender, receiver, code, par, *, security=0, pieces=None, book=Book(DAY), class_=0, room=35):
        """The number of a late delivery, which each form answers. Refused, it leaves book, balances and claim buffer."""
        message = bytes.fromhex(transfer_hex(sender, receiver, security, class_, code, par, TAG % 20230315))
        pieces = self.pieces if pieces is None else array("I", pieces)
        found, *others = (self.done(form, message, pieces, book, room) for form in ("transfer", "transfer_in", "transfer_with_limits"))
        self.assertEqual(others, [found] * 2)
        if found[0]:
            self.assertEqual(found[1:], (book, 0, self.balances, b"\xaa" * room))
        return found[0]

    def test_multiples(self):
        for code, par, number in ((0, 200000, 0), (0, 200500, 14), (0, 1000, 0), (0, 999, 14), (0, 1001, 14), (1, 1500, 14), (1, 2000, 0),
                                  (4, 1500, 14), (5, 1500, 14), (7, 1500, 14), (7, 3000, 0), (0, 100000000, 0)):
            self.assertEqual(self.number(1, 2, code, par), number, (code, par))

    def test_each_security_has_its_own(self):
        self.pieces[1] = 7
        for security, par, number in ((0, 1001, 14), (1, 1001, 0), (0, 1000, 0), (1, 1000, 14), (0, 7000, 0), (1, 7000, 0)):
            self.assertEqual(self.number(1, 2, 0, par, security=security), number, (security, par))

    def test_whole_balance(self):
        """A decrease of exactly the whole balance, and what is beside it."""
        self.lend()
        for code, par, number in ((3, 40500, 0), (2, 40500, 0), (6, 40500, 0), (3, 40000, 0), (3, 500, 14), (3, 40499, 14),
                                  (3, 40501, 14), (3, 41000, 7), (3, 41500, 14), (9, 40500, 14), (8, 40500, 14), (12, 40500, 14),
                                  (9, 40000, 7), (0, 40500, 14)):
            self.assertEqual(self.number(2, 1, code, par), number, (code, par))
        for code, number in ((1, 14), (4, 14), (5, 14), (3, 14), (7, 14)):
            self.assertEqual(self.number(1, 2, code, 40500), number, code)

    def test_whole_balance_on_repo(self):
        self.balances[4096 + 18] = 40500
        for code, number in ((8, 0), (9, 0), (12, 0), (2, 14), (3, 14), (6, 14)):
            self.assertEqual(self.number(2, 1, code, 40500), number, code)

    def test_rest_behind_whole_pieces(self):
        """A balance off its piece goes down by whole pieces, and then its rest goes at once."""
        self.lend()
        book = Book(DAY)
        for par, number, balance in ((40000, 0, 500), (499, 14, 500), (1000, 7, 500), (500, 0, 0)):
            message = bytes.fromhex(transfer_hex(2, 1, 0, 0, 3, par))
            done = claim_tracker.transfer_in(CALENDAR, TABLES, book, self.balances, message, bytearray(), pieces=self.pieces)
            self.assertEqual((done.number, self.balances[18]), (number, balance), par)
        self.assertEqual(book, Book(DAY, 2))

    def test_bad_lists(self):
        self.lend()
        for pieces in self.BAD:
            for sender, receiver, code in ((1, 2, 0), (1, 2, 1), (2, 1, 3), (2, 1, 9)):
                self.assertEqual(self.number(sender, receiver, code, 40500, pieces=pieces), Number.BAD_PIECES, pieces)
        self.assertEqual(self.number(1, 2, 0, 1000000, pieces=[1000000] * 16), 0)
        self.assertEqual(self.number(1, 2, 0, 1000001, pieces=[1000000] * 16), Number.OFF_PIECE)

    def test_order(self):
        """12 before 13 before 4, and 139 and 11 before 14 before 8 and 10."""
        closed, full = Book(20230402), Book(DAY, 2 ** 32 - 1)
        for pieces in self.BAD:
            done = claim_tracker.transfer_with_limits(CALENDAR, TABLES, array("I", [7, 6, 3, 2]), closed, self.balances, common.TRANSFER,
                                                      bytearray(35), pieces=array("I", pieces))
            self.assertEqual(done, (Number.BAD_LIMITS, closed, 0))
            self.assertEqual(self.number(1, 2, 0, 200000, pieces=pieces, book=closed), Number.BAD_PIECES)
        self.assertEqual(self.number(1, 2, 0, 200500, book=closed), Number.BAD_BOOK)
        self.assertEqual(self.number(1, 1, 0, 200500), Number.BAD_FIELD)
        self.assertEqual(self.number(1, 2, 0, 200500, class_=1), Number.CONTRACT_DATE_NOT_DAY)
        self.assertEqual(self.number(1, 2, 0, 200500, book=full), Number.COUNT_FULL)
        self.assertEqual(self.number(1, 2, 0, 200500, room=34), Number.OFF_PIECE)
        self.assertEqual(self.number(1, 2, 0, 200000, room=34), Number.NO_ROOM)
        self.balances[18] = 9000000000
        self.assertEqual(self.number(1, 2, 1, 1500), Number.OFF_PIECE)
        self.assertEqual(self.number(1, 2, 1, 1000), Number.PAST_LIMIT)

    def test_ones(self):
        """Without pieces, and in a run, any par is taken."""
        message, claims = bytes.fromhex(transfer_hex(1, 2, 0, 0, 0, 200501, TAG % 20230315)), bytearray(35)
        for call in (claim_tracker.transfer, claim_tracker.transfer_in):
            self.assertEqual(call(CALENDAR, TABLES, Book(DAY), self.balances, message, claims).number, 0)
        done = claim_tracker.transfer_with_limits(CALENDAR, TABLES, self.LIMITS, Book(DAY), self.balances, message, claims)
        self.assertEqual((done.number, done.claims), (0, 1))
        output = bytearray(claim_tracker.RECORD_ROOM)
        served = claim_tracker.serve(CALENDAR, TABLES, Book(DAY), self.balances, message, True, output)
        self.assertEqual((served.book, bytes(output[:41])), (Book(DAY, 1), bytes(claims) + common.answer(0)))


class BeforeTheMemo(unittest.TestCase):
    """Days before 20230130, on a pool (security 0), a Treasury (1) and a pool whose Record Dates lie before its Beneficiary Dates (2)."""
    OLD, NEW = 20230127, 20230130
    LIMITS = array("I", [1, 1, 1, 1, 1])
    EMPTY = "{98A:CNTR/}"
    FORMS = "transfer", "transfer_in", "transfer_with_limits"

    def setUp(self):
        self.tables, self.balances, self.pieces = monthly_tables(), claim_tracker.new_balances(), claim_tracker.new_pieces()

    def done(self, form, day, message, room, count=0):
        """A call in one of its forms: its number, the book after it, and its claims. Refused, it leaves book, balances and claim buffer."""
        balances, claims, book = self.balances[:], bytearray(b"\xaa" * room), Book(day, count)
        limits = [self.LIMITS] * form.endswith("limits")
        done = getattr(claim_tracker, form)(CALENDAR, self.tables, *limits, book, balances, message, claims, pieces=self.pieces)
        after = book if form.endswith("in") else done.book
        if done.number:
            self.assertEqual((after, done.claims, balances, claims), (Book(day, count), 0, self.balances, b"\xaa" * room))
        return done.number, after, [claim_tracker.read_claim(claims[35 * at:]).claim for at in range(done.claims)]

    def number(self, day, code=0, par=5000, line=TAG % 20220601, *, security=0, class_=0, parties=(1, 2), room=560, count=0, forms=FORMS):
        """The number that each form answers."""
        message = bytes.fromhex(transfer_hex(*parties, security, class_, code, par, line))
        found, *others = (self.done(form, day, message, room, count)[0] for form in forms)
        self.assertEqual(others, [found] * len(others))
        return found

    def claims(self, day, line, security=0, form="transfer"):
        """The type and the row of each claim of an accepted transfer."""
        number, book, found = self.done(form, day, bytes.fromhex(transfer_hex(1, 2, security, 0, 0, 100000, line)), 560)
        self.assertEqual((number, book), (0, Book(day, 1)))
        return [(claim.claim_type, claim.row) for claim in found]

    def fails(self, *rows):
        return [(ClaimType.FAIL, row) for row in rows]

    def test_lending(self):
        """Every code of lending gets 15, also on a balance that it could take from; no code of repo does."""
        self.balances[18] = self.balances[4096 + 18] = 5000
        for code in range(13):
            parties = (2, 1) if code in (2, 3, 6, 8, 9, 12) else (1, 2)
            for line in ("", TAG % 20220601, self.EMPTY):
                self.assertEqual(self.number(self.OLD, code, line=line, parties=parties), Number.LENDING_TOO_EARLY if 1 <= code <= 6 else 0)
            self.assertEqual(self.number(self.NEW, code, line="", parties=parties), 0)
        self.assertEqual(self.number(20000103, 1, line="", forms=("transfer",)), Number.LENDING_TOO_EARLY)

    def test_order(self):
        """6, 135, 138, 11 and 14 stand before 15, and 7 and 8 behind it."""
        self.balances[18] = 9000000000
        self.assertEqual(self.number(self.OLD, 1, parties=(1, 1)), Number.BAD_FIELD)
        self.assertEqual(self.number(self.OLD, 1, line="{98A:CNTR/ }"), Number.TAG_WITHOUT_DATE)
        self.assertEqual(self.number(self.OLD, 1, line=TAG % 20230130), Number.CONTRACT_DATE_AFTER_DAY)
        self.assertEqual(self.number(self.OLD, 1, count=2 ** 32 - 1), Number.COUNT_FULL)
        self.assertEqual(self.number(self.OLD, 1), Number.LENDING_TOO_EARLY)
        self.assertEqual(self.number(self.NEW, 1), Number.PAST_LIMIT)
        self.assertEqual(self.number(self.OLD, 3), Number.LENDING_TOO_EARLY)
        self.assertEqual(self.number(self.NEW, 3), Number.ABOVE_BALANCE)
        self.pieces[0] = 1000
        self.assertEqual(self.number(self.OLD, 1, 5500), Number.OFF_PIECE)

    def test_empty_tags(self):
        """On an old day of either class and every code that is taken; from the memo's day on 135. What is nearly empty is no date."""
        for code, class_ in itertools.product((0, 7, 10, 11), (0, 1)):
            self.assertEqual(self.number(self.OLD, code, line=self.EMPTY, class_=class_), 0)
            for line in (self.EMPTY, "x" * 53 + self.EMPTY):
                self.assertEqual(self.number(self.NEW, code, line=line, class_=class_), Number.TAG_WITHOUT_DATE)
        for line, number in (("{98A:CNTR/ }", 135), ("{98A:CNTR/0}", 135), (TAG % 19991231, 135), ("{98A:CNTR/}{98A:CNTR/}", 132),
                             (self.EMPTY + TAG % 20220601, 132), ("{98A:CNTR/", 133), ("}{98A:CNTR/", 133), ("x" * 53 + self.EMPTY, 0)):
            self.assertEqual(self.number(self.OLD, line=line), number, line)
        self.assertEqual(self.number(self.OLD, line=TAG % 20220601, class_=1), Number.CONTRACT_DATE_NOT_DAY)

    def test_claims_of_an_empty_tag(self):
        """No fail, and the interim claims of a transfer without a tag."""
        self.assertEqual(self.claims(self.OLD, self.EMPTY), [])
        for line in (self.EMPTY, ""):
            self.assertEqual(self.claims(20230105, line, security=2), [(ClaimType.INTERIM, 9)])
        self.assertEqual(self.claims(20230105, TAG % 20221101, security=2), self.fails(7, 8) + [(ClaimType.INTERIM, 9)])

    def test_fails_by_type(self):
        """Only MBS are claimed on an old day."""
        for kind in claim_tracker.SecurityType:
            for frequency in claim_tracker.Frequency:
                if kind:
                    self.tables[0:2] = array("I", [kind, frequency])
                    self.assertEqual(self.claims(self.OLD, TAG % 20221101), self.fails(7, 8, 9) if kind >= 3 else [])
                    self.assertTrue(self.claims(self.NEW, TAG % 20221101))

    def test_fails_by_dates(self):
        """Rows behind the Contract Date, up to the day, and within six months of it."""
        for day, contract, rows in ((self.OLD, 20221010, range(6, 10)), (self.OLD, 20221011, range(7, 10)),
                                    (self.OLD, 20220411, range(4, 10)), (20230110, 20221210, [8]), (20230111, 20221210, [8, 9]),
                                    (20230111, 20230110, [9]), (20230111, 20230111, []), (20221011, 20220101, range(7)),
                                    (20221012, 20220101, range(1, 7))):
            self.assertEqual(self.claims(day, TAG % contract), self.fails(*rows), (day, contract))

    def half_year_before(self, day):
        """The same day six months before, or the last of that month, by Python's own calendar."""
        year, month = divmod(12 * day.year + day.month - 1 - 6, 12)
        return datetime.date(year, month + 1, min(day.day, monthrange(year, month + 1)[1]))

    def test_every_half_year(self):
        """On each day from 2000 on: of a row on the day six months before and of those beside it, all but the earlier one are claimed."""
        every_day = array("I", [(1 << monthrange(2000 + month // 12, month % 12 + 1)[1]) - 1 for month in range(480)])
        first, memo, one = datetime.date(2000, 1, 1), datetime.date(2023, 1, 30), datetime.timedelta(1)
        message, claims = bytes.fromhex(transfer_hex(1, 2, 0, 0, 0, 100000, TAG % 20000101)), bytearray(560)

        def number(day):
            return 10000 * day.year + 100 * day.month + day.day

        for place in range((memo - first).days):
            day = first + place * one
            edge = self.half_year_before(day)
            dates = [date for date in (edge - one, edge, edge + one, day) if date > first]
            rows = [word for date in dates for word in (number(date), number(date), 20391231, 5000000, 0, 0, 0)]
            tables = array("I", [3, 1, *rows, *[0] * (claim_tracker.TABLE_WORDS - 2 - len(rows))])
            done = claim_tracker.transfer(every_day, tables, Book(number(day)), self.balances, message, claims)
            found = [claim_tracker.read_claim(claims[35 * at:]).claim.row for at in range(done.claims)]
            self.assertEqual((done.number, found), (0, [row for row, date in enumerate(dates) if date >= edge]), day)

    def test_half_years_of_the_document(self):
        """The days that FORMATS.md lists."""
        listed = re.findall(r"(?m)^\| (\d{8}) \| (\d{8})\b", building.content("docs", "FORMATS.md"))
        self.assertGreater(len(listed), 5)
        for words in listed:
            day, earliest = (datetime.date.fromisoformat(word) for word in words)
            self.assertEqual(self.half_year_before(day), earliest)
            self.assertLess(day.weekday(), 5)

    def test_no_maximum_number(self):
        """Sixteen rows of the half year, all waiting, give sixteen claims whatever the limits are; on the memo's day the first that waits
        of the most recent ones is claimed. A buffer one byte short gets 10."""
        rows = [word for at in range(16) for word in (20230101 + at, 20230101 + at, 20230228, 1000000000, 0, 0, 0)]
        self.tables[:114] = array("I", [4, 4, *rows])
        for form in self.FORMS:
            self.assertEqual(self.claims(self.OLD, TAG % 20221231, form=form), self.fails(*range(16)))
            self.assertEqual(self.claims(self.NEW, TAG % 20221231, form=form), self.fails(15 if form.endswith("limits") else 9))
        self.assertEqual(self.number(self.OLD, room=16 * 35 - 1), Number.NO_ROOM)
        for limits in ([1] * 4, [17] * 5, []):
            done = claim_tracker.transfer_with_limits(CALENDAR, self.tables, array("I", limits), Book(self.OLD), self.balances,
                                                      bytes.fromhex(transfer_hex(1, 2, 0, 0, 0, 5, TAG % 20221231)), bytearray(560))
            self.assertEqual(done, (Number.BAD_LIMITS, Book(self.OLD), 0))

    def test_held_loan(self):
        """A saved book with par on loan: it is claimed where a close crosses a Record Date, and can be returned from the memo's day on."""
        self.balances[18] = 15000
        self.tables[2 + 7 * 9:5 + 7 * 9] = array("I", [self.OLD, self.OLD, 20230228])
        for call in (claim_tracker.close, claim_tracker.close_in):
            book, claims = Book(20230126, 7), bytearray(35)
            done = call(CALENDAR, self.tables, book, self.balances, b"\2\0\2\0", claims)
            self.assertEqual((done.number, done.claims), (0, 1))
            self.assertEqual(book if call is claim_tracker.close_in else done.book, Book(self.OLD, 7))
            self.assertEqual(claim_tracker.read_claim(claims).claim, Claim(ClaimType.LENDING, 0, 2, 1, 0, 9, 0, 7500, 0, 20230228, 3))
        returned = {"par": 15000, "line": "", "parties": (2, 1)}
        self.assertEqual((self.number(self.OLD, 3, **returned), self.number(self.NEW, 3, **returned)), (15, 0))

    def test_a_history_over_the_date(self):
        """The same fail and the same loan on both days, by a run and by calls: six claims and then seven, 15 and then 0."""
        months = [20220700 + 100 * month for month in range(6)] + [20230100, 20230200]
        rows = [word for month in months for word in (month + 1, month + 1, month + 25, 5000000, 0, 0, 0)]
        self.tables[:114] = array("I", [3, 1, *rows, *[0] * (112 - len(rows))])
        fail, loan = (bytes.fromhex(transfer_hex(1, 2, 0, 0, code, 100000, line)) for code, line in ((0, TAG % 20220615), (1, "")))
        close, output = b"\2\0\2\0", bytearray(2 * claim_tracker.RECORD_ROOM)
        book = claim_tracker.open(CALENDAR, self.tables, self.balances, self.OLD).book
        served = claim_tracker.serve(CALENDAR, self.tables, book, self.balances, fail + loan + close + fail + loan, True, output)
        self.assertEqual((served.number, served.book, served.over, self.balances[18]), (0, Book(self.NEW, 3), False, 100000))
        claims, answers, at = [], [], 0
        while at < served.written:
            if claim_tracker.read_claim(output[at:]).number == 0:
                claims.append(claim_tracker.read_claim(output[at:]).claim)
                at += claim_tracker.CLAIM_BYTES
            else:
                answers.append(claim_tracker.read_answer(output[at:]).answer.number)
                at += claim_tracker.ANSWER_BYTES
        self.assertEqual(answers, [0, 15, 0, 0, 0])
        self.assertEqual([(claim.row, claim.release, claim.slot) for claim in claims],
                         [(row, self.NEW, 2) for row in range(1, 7)] + [(row, 20230131, 2) for row in range(7)])
        self.assertEqual(sum(claim.interest for claim in claims), 650000)


class CarryOver(unittest.TestCase):
    """A book saved on 20230331 with the balances on loan alone: 3 transfers, and 15,000 from account 1 to account 2."""
    BOOK = Book(20230331, 3)
    EMPTY = bytes(8 * claim_tracker.LENDING_WORDS)

    def setUp(self):
        self.calendar, self.saved = CALENDAR[:], array("Q", self.EMPTY)
        self.saved[18] = 15000

    def number(self, book=BOOK, held=7, words=claim_tracker.BALANCE_WORDS):
        """The number of a carry over to balances that hold a word everywhere. Accepted, they are the saved ones and zeros; refused, they are
        as they were. The book comes back as given, and the saved ones stay."""
        balances, given, saved = array("Q", [held]) * words, Book(book.day, book.count), self.saved.tobytes()
        before = balances.tobytes()
        done = claim_tracker.carry_over(self.calendar, given, self.saved, balances)
        self.assertEqual((done.book, given, done.claims), (book, book, 0))
        self.assertTrue(self.saved.tobytes() == saved, "the saved words changed")
        self.assertTrue(balances.tobytes() == (before if done.number else saved + self.EMPTY), "number %d, wrong balances" % done.number)
        return done.number

    def carried(self, book=BOOK):
        """The balances of the carried book."""
        balances = array("Q", [7]) * claim_tracker.BALANCE_WORDS
        self.assertEqual(claim_tracker.carry_over(self.calendar, book, self.saved, balances), (0, book, 0))
        return balances

    def test_accepted(self):
        """Whatever the balances hold, and with any count."""
        for held, count in itertools.product((0, 7, 9000000001, 2 ** 64 - 1), (0, 3, 2 ** 32 - 1)):
            self.assertEqual(self.number(Book(20230331, count), held), 0)
        self.assertEqual(self.number(Book(20030404, 2 ** 32 - 1)), 0)
        self.saved = array("Q", [0 if place // 16 % 16 == place % 16 else 9000000000 - place for place in range(4096)])
        self.assertEqual(self.number(), 0)
        self.saved = array("Q", self.EMPTY)
        self.assertEqual(self.number(), 0)

    def test_every_word(self):
        """A balance is at most 9,000,000,000, and 0 where an account would lend itself."""
        for place in range(claim_tracker.LENDING_WORDS):
            before = self.saved[place]
            own = place // 16 % 16 == place % 16
            for word, number in ((1, 4 if own else 0), (9000000000, 4 if own else 0), (9000000001, 4)):
                self.saved[place] = word
                self.assertEqual(self.number(), number, (place, word))
            self.saved[place] = before
        for word in (1 << 34, 1 << 63, 2 ** 64 - 1):
            self.saved[19] = word
            self.assertEqual(self.number(), Number.BAD_BOOK, word)

    def test_every_day(self):
        """Every day from 2000 to 2039 that is open, but the last; no other number."""
        for number, good in all_days().items():
            self.assertEqual(self.number(Book(number, 3)), 0 if good else Number.BAD_BOOK, number)

    def test_lengths(self):
        """480 words of the calendar, 4,096 saved balances and 8,192 balances, and no other numbers."""
        words, saved = self.calendar, self.saved
        for calendar, count, balances in itertools.product((480, 0, 479, 481), (4096, 0, 4095, 4097, 8192), (8192, 0, 4096, 8191, 8193)):
            self.calendar, self.saved = (words + array("I", [0]))[:calendar], (saved + saved)[:count]
            number = 0 if (calendar, count, balances) == (480, 4096, 8192) else Number.WRONG_LENGTH
            self.assertEqual(self.number(words=balances), number, (calendar, count, balances))

    def test_every_month(self):
        """A bit for a day that the month lacks is refused."""
        for place, month in enumerate(Dates.MONTHS):
            before = self.calendar[place]
            for bit in range(28, 32):
                self.calendar[place] = before | 1 << bit
                self.assertEqual(self.number(), 0 if bit < monthrange(*month)[1] else Number.BAD_CALENDAR, (month, bit))
            self.calendar[place] = before

    def test_order(self):
        """1 before 2 before 4."""
        closed = Book(20230401, 3)
        for place, word in ((18, 15000), (17, 1), (19, 9000000001)):
            self.saved[place] = word
            for book in (self.BOOK, closed):
                self.calendar[0] |= 1 << 31
                self.assertEqual(self.number(book, words=8191), Number.WRONG_LENGTH)
                self.assertEqual(self.number(book), Number.BAD_CALENDAR)
                self.calendar[0] &= ~(1 << 31)
                self.assertEqual(self.number(book, words=8191), Number.WRONG_LENGTH)
                self.assertEqual(self.number(book), 0 if book is self.BOOK and place == 18 else Number.BAD_BOOK)
            self.saved[place] = 15000 if place == 18 else 0

    def test_return_and_close(self):
        """5,000 come back and the other 10,000 are claimed: by calls, on the own book, and by a run."""
        message, close = bytes.fromhex(transfer_hex(2, 1, 0, 0, 3, 5000)), b"\2\0\2\0"
        claim = Claim(ClaimType.LENDING, 0, 2, 1, 0, 0, 0, 5000, 0, 20230417, 3)
        balances, claims = self.carried(), bytearray(70)
        done = claim_tracker.transfer(CALENDAR, TABLES, self.BOOK, balances, message, bytearray())
        self.assertEqual((done, balances[18]), ((0, Book(20230331, 4), 0), 10000))
        done = claim_tracker.close(CALENDAR, TABLES, done.book, balances, close, claims)
        self.assertEqual((done, claim_tracker.read_claim(claims).claim), ((0, Book(20230403, 4), 1), claim))
        balances, claims, own = self.carried(), bytearray(70), Book(20230331, 3)
        self.assertEqual(claim_tracker.transfer_in(CALENDAR, TABLES, own, balances, message, bytearray()), (0, 0))
        self.assertEqual(claim_tracker.close_in(CALENDAR, TABLES, own, balances, close, claims), (0, 1))
        self.assertEqual((own, claim_tracker.read_claim(claims).claim), (Book(20230403, 4), claim))
        output = bytearray(2 * claim_tracker.RECORD_ROOM)
        served = claim_tracker.serve(CALENDAR, TABLES, self.BOOK, self.carried(), message + close, True, output)
        self.assertEqual((served.number, served.book, served.written), (0, Book(20230403, 4), 47))
        self.assertEqual(claim_tracker.read_claim(output[6:]).claim, claim)

    def test_lending_on_both_sides(self):
        """Loans of many pairs saved, then loans, returns and closes in security 0: each balance is what was lent before and since, less what
        came back, and is claimed at the close of 20230331 and at that of 20230428. Nothing is on repo."""
        choice = random.Random(14)
        pairs = [(lender, borrower) for lender in range(16) for borrower in range(16) if lender != borrower]
        lent = {pair: choice.randrange(200000) for pair in choice.sample(pairs, 60)}
        for (lender, borrower), par in lent.items():
            self.saved[16 * lender + borrower] = par
        lent[1, 2] = lent.get((1, 2), 15000)
        balances, book, closes, numbers = self.carried(), self.BOOK, [], set()
        while len(closes) < 22:
            for _ in range(20):
                code, par, pair = choice.randrange(1, 7), choice.randrange(1, 150000), choice.choice(pairs)
                lender, borrower = pair
                after = lent.get(pair, 0) + (par if code in (1, 4, 5) else -par)
                number = 0 if after >= 0 else Number.ABOVE_BALANCE
                parties = pair if code in (1, 4, 5) else (borrower, lender)
                message = bytes.fromhex(transfer_hex(*parties, 0, 0, code, par))
                done = claim_tracker.transfer(CALENDAR, TABLES, book, balances, message, bytearray())
                self.assertEqual(done, (number, Book(book.day, book.count + (number == 0)), 0))
                if number == 0:
                    lent[pair] = after
                numbers.add(number)
                book = done.book
            claims = bytearray(claim_tracker.claim_room(len(pairs)))
            done = claim_tracker.close(CALENDAR, TABLES, book, balances, b"\2\0\2\0", claims)
            found = [claim_tracker.read_claim(claims[35 * at:]).claim for at in range(done.claims)]
            row = {20230331: 0, 20230428: 1}.get(book.day)
            wanted = []
            if row is not None:
                release = (20230417, 20230515)[row]
                for (lender, borrower), par in sorted(lent.items()):
                    cents = (par * 5000000 + 5000000) // 10000000
                    settled = (0, release, 3) if cents else (1, 0, 0)
                    if par:
                        wanted.append(Claim(3, settled[0], borrower, lender, 0, row, 0, cents, 0, *settled[1:]))
            self.assertEqual((done.number, found), (0, wanted), book.day)
            self.assertEqual(list(balances[:256]), [lent.get((place // 16, place % 16), 0) for place in range(256)])
            book = done.book
            closes.append(done.claims)
        self.assertEqual((numbers, set(balances[256:])), ({0, Number.ABOVE_BALANCE}, {0}))
        self.assertEqual([place for place, count in enumerate(closes) if count > 60], [0, 20])

    def test_repo_behind_it(self):
        """A repo begins at zero and is claimed beside the loan."""
        balances, claims = self.carried(), bytearray(70)
        for sender, receiver, code, par, number in ((2, 1, 9, 1, Number.ABOVE_BALANCE), (1, 2, 7, 30000, 0), (2, 1, 9, 30001, 7)):
            message = bytes.fromhex(transfer_hex(sender, receiver, 0, 0, code, par))
            self.assertEqual(claim_tracker.transfer(CALENDAR, TABLES, self.BOOK, balances, message, bytearray()).number, number)
        self.assertEqual(claim_tracker.close(CALENDAR, TABLES, self.BOOK, balances, b"\2\0\2\0", claims).claims, 2)
        found = [claim_tracker.read_claim(claims[35 * at:]).claim for at in range(2)]
        self.assertEqual([(claim.claim_type, claim.interest) for claim in found], [(ClaimType.LENDING, 7500), (ClaimType.REPO, 15000)])

    def test_before_the_memo(self):
        """A book of an old day: what it has on loan is claimed at its closes, lending gets 15, and from the memo's day on it comes back."""
        tables, book = monthly_tables(), Book(20221110, 3)
        balances, claims = self.carried(book), bytearray(70)
        message = bytes.fromhex(transfer_hex(2, 1, 0, 0, 3, 5000))
        self.assertEqual(claim_tracker.transfer(CALENDAR, tables, book, balances, message, bytearray()),
                         (Number.LENDING_TOO_EARLY, book, 0))
        done = claim_tracker.close(CALENDAR, tables, book, balances, b"\2\0\2\0", claims)
        self.assertEqual((done, claim_tracker.read_claim(claims).claim),
                         ((0, Book(20221111, 3), 1), Claim(ClaimType.LENDING, 0, 2, 1, 0, 7, 0, 7500, 0, 20221125, 3)))
        later = Book(20230130, 3)
        self.assertEqual(claim_tracker.transfer(CALENDAR, tables, later, self.carried(later), message, bytearray()),
                         (0, Book(20230130, 4), 0))


class Marks(unittest.TestCase):
    """A book on 20230404 with 9 transfers and 1,000 on loan, and a store whose mark 2 holds 20230331, 5 transfers, 15,000 on loan and 7 on
    repo."""
    BOOK, CLOSED = Book(20230404, 9), Book(20230401, 9)
    WORDS, STORE, MARK = claim_tracker.BALANCE_WORDS, claim_tracker.STORE_WORDS, claim_tracker.MARK_WORDS
    TWO = MARK                                  # the place of mark 2: its flag, day and count, and from 3 on its balances

    def setUp(self):
        self.calendar, self.balances, self.store = CALENDAR[:], claim_tracker.new_balances(), array("Q", [7]) * self.STORE
        self.balances[53] = 1000
        self.store[self.TWO:2 * self.MARK] = array("Q", [1, 20230331, 5]) + claim_tracker.new_balances()
        self.store[self.TWO + 3 + 18], self.store[self.TWO + 3 + 4096 + 18] = 15000, 7

    def set_number(self, mark=2, book=BOOK):
        """The number of setting a mark. Accepted, its words are 1, day, count and the balances, and all others stay; refused, all stay. Book
        and balances stay."""
        store, wanted, balances, given = self.store[:], self.store[:], self.balances.tobytes(), Book(book.day, book.count)
        number = claim_tracker.set_mark(self.calendar, given, self.balances, store, mark)
        if number == 0:
            wanted[self.MARK * (mark - 1):self.MARK * mark] = array("Q", [1, book.day, book.count]) + self.balances
        self.assertTrue(store.tobytes() == wanted.tobytes(), "number %d, a wrong store" % number)
        self.assertTrue(self.balances.tobytes() == balances, "the balances changed")
        self.assertEqual((given, type(number)), (book, Number))
        return number

    def return_number(self, mark=2, book=BOOK):
        """The number of a return. Accepted, book and balances are the mark's; refused, they are those given. The store stays."""
        balances, before, store, given = self.balances[:], self.balances.tobytes(), self.store.tobytes(), Book(book.day, book.count)
        done = claim_tracker.return_to_mark(self.calendar, given, balances, self.store, mark)
        if done.number == 0:
            _, day, count, *_ = at = self.store[self.MARK * (mark - 1):self.MARK * mark]
            book, before = Book(day, count), at[3:].tobytes()
        self.assertEqual((done.book, done.claims), (book, 0))
        self.assertTrue(balances.tobytes() == before, "number %d, wrong balances" % done.number)
        self.assertTrue(self.store.tobytes() == store, "the store changed")
        return done.number

    def numbers(self, mark=2, book=BOOK):
        return self.set_number(mark, book), self.return_number(mark, book)

    def spoilt(self, place, word):
        """The number of a return to mark 2 with a changed word; a setting overwrites it."""
        before = self.store[self.TWO + place]
        self.store[self.TWO + place] = word
        number = self.return_number()
        self.assertEqual(self.set_number(), 0)
        self.store[self.TWO + place] = before
        return number

    def test_set(self):
        """The mark's words, with their places written out."""
        store, balances = claim_tracker.new_store(), claim_tracker.new_balances()
        balances[18], balances[4114] = 15000, 7
        self.assertEqual(claim_tracker.set_mark(self.calendar, Book(20230331, 5), balances, store, 2), 0)
        found = {place: word for place, word in enumerate(store) if word}
        self.assertEqual(found, {8195: 1, 8196: 20230331, 8197: 5, 8198 + 18: 15000, 8198 + 4114: 7})
        done = claim_tracker.return_to_mark(self.calendar, self.BOOK, self.balances, store, 2)
        self.assertEqual((done, self.balances), ((0, Book(20230331, 5), 0), balances))

    def test_each_mark(self):
        """Each is set on a book of its own and overwritten; all are returned to, the first again at the end."""
        books = [Book(20230331, 5), Book(20230403, 0), Book(20230127, 2 ** 32 - 1), Book(20391229, 1)]
        words = [array("Q", [0 if place // 16 % 16 == place % 16 else 9000000000 - 4 * place - mark for place in range(self.WORDS)])
                 for mark in range(4)]
        wanted = array("Q")
        for mark, (book, balances) in enumerate(zip(books, words), 1):
            self.assertEqual(claim_tracker.set_mark(self.calendar, self.BOOK, self.balances, self.store, mark), 0)
            self.assertEqual(claim_tracker.set_mark(self.calendar, book, balances, self.store, mark), 0)
            wanted += array("Q", [1, book.day, book.count]) + balances
        self.assertTrue(self.store == wanted)
        for mark in (1, 2, 3, 4, 1):
            done = claim_tracker.return_to_mark(self.calendar, self.BOOK, self.balances, self.store, mark)
            self.assertEqual(done, (0, books[mark - 1], 0))
            self.assertTrue((self.balances, self.store) == (words[mark - 1], wanted))

    def test_unset(self):
        """Any number but 1 in the first word."""
        self.assertEqual([self.numbers(mark) for mark in (1, 2, 3, 4)], [(0, 17), (0, 0), (0, 17), (0, 17)])
        for flag in (0, 2, 3, 255, 256, 257, 2 ** 32, 2 ** 32 + 1, 2 ** 63, 2 ** 63 + 1, 2 ** 64 - 1):
            self.assertEqual(self.spoilt(0, flag), Number.BAD_MARK, flag)
        self.store = claim_tracker.new_store()
        self.assertEqual([self.return_number(mark) for mark in (1, 2, 3, 4)], [17] * 4)

    def test_counts(self):
        for count in (0, 1, 9, 2 ** 31, 2 ** 32 - 1):
            self.assertEqual(self.spoilt(2, count), 0, count)
            self.assertEqual(self.numbers(book=Book(20230404, count)), (0, 0))
        for count in (2 ** 32, 2 ** 32 + 5, 2 ** 33, 2 ** 63 + 5, 2 ** 64 - 1):
            self.assertEqual(self.spoilt(2, count), Number.BAD_MARK, count)

    def test_every_day(self):
        """Every day from 2000 to 2039 that is open, but the last, is the book's or the mark's; no other number is."""
        numbers = all_days()
        for day, good in numbers.items():
            self.assertEqual(self.numbers(book=Book(day, 3)), (0, 0) if good else (Number.BAD_BOOK,) * 2, day)
        for day, good in numbers.items():
            self.store[self.TWO + 1] = day
            self.assertEqual(self.return_number(), 0 if good else Number.BAD_MARK, day)
        for past in (2 ** 32, 2 ** 33, 2 ** 40, 2 ** 63):
            self.assertEqual(self.spoilt(1, past + 20230331), Number.BAD_MARK, past)

    def test_every_word(self):
        """A balance is at most 9,000,000,000, and 0 where an account would lend itself: with 4 that of the book, with 17 that of the mark."""
        for place in range(self.WORDS):
            before, own = self.store[self.TWO + 3 + place], place // 16 % 16 == place % 16
            for word, bad in ((1, own), (9000000000, own), (9000000001, True)):
                self.store[self.TWO + 3 + place] = word
                self.assertEqual(self.return_number(), Number.BAD_MARK if bad else 0, (place, word))
            self.store[self.TWO + 3 + place] = before
            before, word = self.balances[place], 1 if own else 9000000001
            self.balances[place] = word
            self.assertEqual(self.numbers(), (Number.BAD_BOOK, Number.BAD_BOOK), (place, word))
            self.balances[place] = before
        for place, word in itertools.product((1, 4097, self.WORDS - 2), (1 << 34, 1 << 63, 2 ** 64 - 1)):
            self.assertEqual(self.spoilt(3 + place, word), Number.BAD_MARK, (place, word))

    def test_other_marks_are_not_judged(self):
        for place in (0, 1, 2, 3, 3 + 17, self.MARK - 1):
            for mark in (0, 2, 3):
                self.store[self.MARK * mark + place] = 2 ** 64 - 1
        self.assertEqual(self.numbers(), (0, 0))

    def test_marks_outside(self):
        for mark in (0, 5, 6, 8, 255, 256, 257, 258, 260, 65536 + 2, 2 ** 31 + 2, 2 ** 32 - 1):
            self.assertEqual(self.numbers(mark), (Number.NO_SUCH_MARK,) * 2, mark)

    def test_lengths(self):
        """480 words of the calendar and 8,192 balances, else 1; then 32,780 words of the store, else 16."""
        words, balances, store = self.calendar, self.balances, self.store
        for calendar, lent, held in itertools.product((480, 0, 479, 481), (8192, 0, 4096, 8191, 8193),
                                                      (32780, 0, 1, 8195, 16390, 32779, 32781, 40975)):
            self.calendar, self.balances, self.store = (words + words)[:calendar], (balances + balances)[:lent], (store + store)[:held]
            number = Number.WRONG_LENGTH if (calendar, lent) != (480, 8192) else 0 if held == 32780 else Number.NO_SUCH_MARK
            self.assertEqual(self.numbers(), (number, number), (calendar, lent, held))

    def test_every_month(self):
        """A bit for a day that the month lacks is refused."""
        for place, month in enumerate(Dates.MONTHS):
            before = self.calendar[place]
            self.calendar[place] = before | 1 << monthrange(*month)[1] - 1
            self.assertEqual(self.numbers(), (0, 0), month)
            self.calendar[place] = before | 1 << monthrange(*month)[1]
            self.assertEqual(self.numbers(), (Number.BAD_CALENDAR,) * 2, month)
            self.calendar[place] = before

    def test_order(self):
        """1, 2, 4, 16, 17: where several apply, the first of them, and nothing is written."""
        long, short = self.store + array("Q", [7]), self.store[:-1]
        sound = self.calendar, self.balances, self.store
        for wrong in itertools.product((False, True), (False, True), (None, "day", "word"), (None, "mark", "short", "long"),
                                       (None, "flag", "day", "count", "word")):
            balances, calendar, present, where, inside = wrong
            self.calendar, self.balances, store = sound[0][:], sound[1][:], {"short": short, "long": long}.get(where, sound[2])
            self.store = store[:]
            book, mark = self.CLOSED if present == "day" else self.BOOK, 9 if where == "mark" else 2
            if balances:
                self.balances.pop()
            if calendar:
                self.calendar[0] |= 1 << 31
            if present == "word":
                self.balances[17] = 1
            if inside:
                place, word = {"flag": (0, 2), "day": (1, 20230401), "count": (2, 2 ** 32), "word": (3 + 17, 1)}[inside]
                self.store[self.TWO + place] = word
            number = 1 if balances else 2 if calendar else 4 if present else 16 if where else 0
            self.assertEqual(self.numbers(mark, book), (number, number or (17 if inside else 0)), wrong)

    def test_old_marks(self):
        """A store that was kept: its marks are returned to from a book that was opened since."""
        kept = array("Q", self.store.tobytes())
        book = claim_tracker.open(CALENDAR, TABLES, self.balances, 20230404).book
        done = claim_tracker.return_to_mark(CALENDAR, book, self.balances, kept, 2)
        self.assertEqual((done, self.balances[18]), ((0, Book(20230331, 5), 0), 15000))

    def test_close_behind_a_return(self):
        """What is claimed behind a return is what the history that ended at the mark claims."""
        close, store, claims = b"\2\0\2\0", claim_tracker.new_store(), bytearray(70)
        book = claim_tracker.open(CALENDAR, TABLES, self.balances, 20230331).book
        start, back = (bytes.fromhex(transfer_hex(*fields, 15000)) for fields in ((1, 2, 0, 0, 1), (2, 1, 0, 0, 3)))
        self.assertEqual(claim_tracker.transfer_in(CALENDAR, TABLES, book, self.balances, start, bytearray()).number, 0)
        self.assertEqual(claim_tracker.set_mark(CALENDAR, book, self.balances, store, 3), 0)
        for message, count, closed in ((None, 1, 1), (back, 2, 0), (None, 1, 1)):
            if message:
                self.assertEqual(claim_tracker.transfer_in(CALENDAR, TABLES, book, self.balances, message, bytearray()).number, 0)
            done = claim_tracker.close(CALENDAR, TABLES, book, self.balances, close, claims)
            self.assertEqual(done, (0, Book(20230403, count), closed))
            if closed:
                self.assertEqual(claim_tracker.read_claim(claims).claim,
                                 Claim(ClaimType.LENDING, 0, 2, 1, 0, 0, 0, 7500, 0, 20230417, 3))
            done = claim_tracker.return_to_mark(CALENDAR, done.book, self.balances, store, 3)
            self.assertEqual((done, self.balances[18]), ((0, Book(20230331, 1), 0), 15000))
            book = done.book

    def test_trials(self):
        """Transfers, closes, marks and returns in any order, beside a tally of the history in force, which each mark keeps as it ended there:
        its day, its count and the par of each pair on loan and on repo."""
        choice, numbers = random.Random(16), set()
        pairs = [(1, 2), (2, 1), (3, 15), (0, 7)]
        day, count, lent, kept = datetime.date(2023, 3, 28), 0, {}, {}
        book, store = claim_tracker.open(CALENDAR, TABLES, self.balances, 20230328).book, claim_tracker.new_store()
        for _ in range(3000):
            mark, step = choice.randrange(6), choice.choice(("transfer", "transfer", "transfer", "close", "set", "return"))
            if step == "transfer":
                code, par, (lender, borrower) = choice.randrange(1, 13), choice.randrange(1, 150000), choice.choice(pairs)
                up, pair = code % 6 in (1, 4, 5), (int(code > 6), lender, borrower)
                after = lent.get(pair, 0) + (par if up else -par)
                number = 0 if after >= 0 else Number.ABOVE_BALANCE
                message = transfer_hex(*((lender, borrower) if up else (borrower, lender)), 0, 0, code, par)
                done = claim_tracker.transfer(CALENDAR, TABLES, book, self.balances, bytes.fromhex(message), bytearray())
                if number == 0:
                    lent, count = lent | {pair: after}, count + 1
            elif step == "close" and book.day < 20230510:
                claims, row = bytearray(280), {20230331: 0, 20230428: 1}.get(book.day)
                done = claim_tracker.close(CALENDAR, TABLES, book, self.balances, b"\2\0\2\0", claims)
                number, day = 0, day + datetime.timedelta(3 if day.weekday() == 4 else 1)
                wanted = [Claim(3 + half, 0, borrower, lender, 0, row, 0, (par + 1) // 2, 0, (20230417, 20230515)[row], 3)
                          for (half, lender, borrower), par in sorted(lent.items()) if row is not None and par]
                self.assertEqual([claim_tracker.read_claim(claims[35 * at:]).claim for at in range(done.claims)], wanted)
            elif step != "return":
                number = 0 if 1 <= mark <= 4 else Number.NO_SUCH_MARK
                done = claim_tracker.Done(claim_tracker.set_mark(CALENDAR, book, self.balances, store, mark), book, 0)
                if number == 0:
                    kept[mark] = day, count, lent
            else:
                number = 0 if mark in kept else Number.BAD_MARK if 1 <= mark <= 4 else Number.NO_SUCH_MARK
                done = claim_tracker.return_to_mark(CALENDAR, book, self.balances, store, mark)
                day, count, lent = kept.get(mark, (day, count, lent))
            book = done.book
            self.assertEqual((done.number, book), (number, Book(int(day.strftime("%Y%m%d")), count)))
            found = {(place // 4096, place // 16 % 256, place % 16): par for place, par in enumerate(self.balances) if par}
            self.assertEqual(found, {pair: par for pair, par in lent.items() if par})
            numbers.add((step, number, done.claims > 0))
        self.assertLessEqual({("transfer", 0, False), ("transfer", 7, False), ("close", 0, True), ("set", 0, False), ("set", 16, False),
                              ("return", 0, False), ("return", 16, False), ("return", 17, False)}, numbers)


class Forecasts(unittest.TestCase):
    """Figures are added up here, in whole numbers, and compared by their bits."""

    def run_of(self, claims):
        return bytes.fromhex("".join(claim_hex(*claim) for claim in claims))

    def is_answer(self, found, number, pay=0, receive=0):
        """Number and figures, each by its bits: no zero has a sign."""
        self.assertEqual((found.number, struct.pack("<3d", *found.cash)), (number, struct.pack("<3d", pay, receive, receive - pay)))

    def sums(self, claims, account, date):
        """The cents that an account pays and receives."""
        counted = [claim for claim in claims if claim[4] == date and claim[5] == 0]
        return tuple(sum(claim[2] + claim[3] for claim in counted if claim[party] == account) for party in (0, 1))

    def test_random_runs(self):
        choice = random.Random(17)
        refused = 0
        for _ in range(400):
            claims = [(*choice.sample(range(16), 2), choice.randrange(2 ** choice.choice((1, 20, 40, 53, 53))), choice.randrange(2 ** 30),
                       choice.choice((20230417, 20230417, 20230418)), choice.choice((0, 0, 0, 1, 2, 3)))
                      for _ in range(choice.choice((0, 1, 9, 90)))]
            for account in (0, choice.randrange(16), 15):
                pay, receive = self.sums(claims, account, 20230417)
                found = claim_tracker.forecast(self.run_of(claims), account, 20230417)
                if max(pay, receive) > 2 ** 53:
                    refused += 1
                    self.is_answer(found, 19)
                else:
                    self.is_answer(found, 0, pay, receive)
        self.assertGreater(refused, 0)

    def test_limit(self):
        most = claim_tracker.MOST_FORECAST_CENTS
        self.assertEqual(most, 2 ** 53)
        for more in (-2, -1, 0, 1, 2):
            for cents in (((most + more, 0),), ((0, most + more),), ((most - 5, 5 + more),), ((most - 3, 0), (3 + more, 0))):
                run = self.run_of([(1, 2, *pair, 20230417, 0) for pair in cents])
                self.is_answer(claim_tracker.forecast(run, 1, 20230417), *((19,) if more > 0 else (0, most + more)))
                self.is_answer(claim_tracker.forecast(run, 2, 20230417), *((19,) if more > 0 else (0, 0, most + more)))
        run = self.run_of([(1, 2, most, 0, 20230417, 0), (2, 1, most, 0, 20230417, 0)])
        self.is_answer(claim_tracker.forecast(run, 1, 20230417), 0, most, most)

    def test_every_date(self):
        """Each day from 2000 to 2039 is a date, open or not; numbers that are none get 18."""
        for date in all_days():
            run = self.run_of([(1, 2, 5, 0, date, 0)])
            is_date = 20000101 <= date <= 20391231 and date not in (20230229, 20230431, 20231301)
            self.is_answer(claim_tracker.forecast(run, 1, date), *((0, 5) if is_date else (18,)))

    def test_bad_records(self):
        """Each record of three, at every byte that is judged, and every cut; 18 comes before 19."""
        good = [(1, 2, 2 ** 60, 0, 20230417, 0)] * 3
        run = self.run_of(good)
        self.is_answer(claim_tracker.forecast(run, 1, 20230417), 19)
        for end in range(len(run)):
            self.is_answer(claim_tracker.forecast(run[:end], 1, 20230417), (19 if end else 0) if end % 35 == 0 else 18)
        for at, byte in ((0, 32), (0, 35), (1, 33), (2, 1), (2, 4), (3, 3), (6, 2), (6, 16), (7, 1), (7, 16), (7, 255)):
            for record in range(3):
                bad = bytearray(run)
                bad[35 * record + at] = byte
                self.is_answer(claim_tracker.forecast(bad, 1, 20230417), 18)
        for at in (4, 5, 8, 9, *range(10, 14), 34):
            changed = bytearray(self.run_of([(1, 2, 5, 0, 20230417, 0), (1, 2, 3, 0, 20230417, 0)]))
            changed[at] = 255
            self.is_answer(claim_tracker.forecast(changed, 1, 20230417), 0, 3 if at == 5 else 8)

    def test_accounts(self):
        run = self.run_of([(account, (account + 1) % 16, account + 1, 0, 20230417, 0) for account in range(16)])
        for account in range(16):
            self.is_answer(claim_tracker.forecast(run, account, 20230417), 0, account + 1, (account - 1) % 16 + 1)
        for account in (16, 17, 255, 256, 257, 65536, 2 ** 32 - 1):
            self.is_answer(claim_tracker.forecast(run, account, 20230417), 18)
            self.is_answer(claim_tracker.forecast(b"", account, 20230417), 18)

    def test_claims_of_the_calls(self):
        """Claims as the calls write them, one behind the other: those of a transfer and of a close."""
        balances, claims = claim_tracker.new_balances(), bytearray(claim_tracker.claim_room(3))
        book = claim_tracker.open(CALENDAR, TABLES, balances, 20230331).book
        loan = bytes.fromhex(transfer_hex(1, 2, 0, 0, 1, 15000))
        fail = bytes.fromhex(transfer_hex(3, 1, 0, 0, 0, 200000, TAG % 20230315))
        book = claim_tracker.transfer(CALENDAR, TABLES, book, balances, loan, claims).book
        done = claim_tracker.close(CALENDAR, TABLES, book, balances, bytes.fromhex("02000200"), memoryview(claims)[:35])
        self.assertEqual((done.number, done.claims), (0, 1))
        done = claim_tracker.transfer(CALENDAR, TABLES, done.book, balances, fail, memoryview(claims)[35:])
        self.assertEqual((done.number, done.claims), (0, 1))
        run = memoryview(claims)[:70]
        for account, figures in ((1, (0, 107500)), (2, (7500, 0)), (3, (100000, 0)), (4, (0, 0))):
            self.is_answer(claim_tracker.forecast(run, account, 20230417), 0, *figures)
        self.is_answer(claim_tracker.forecast(claims, 1, 20230417), 18)


class Largest(unittest.TestCase):
    """The sizes of claim buffers that FORMATS.md names: each is reached, and a byte less is too short."""
    DAYS = 20230102, 20230301, 20230302, 20230303

    def setUp(self):
        """A calendar with four open days, and 16 rows between the first two in each security."""
        self.calendar = array("I", bytes(4 * 480))
        for day in self.DAYS:
            self.calendar[12 * (day // 10000 - 2000) + day // 100 % 100 - 1] |= 1 << day % 100 - 1
        rows = [word for at in range(16) for word in (20230103 + at, 20230103 + at, 20230301, 1000000000, 0, 0, 0)]
        self.tables = array("I", [claim_tracker.SecurityType.AGENCY_MBS, claim_tracker.Frequency.MONTHLY, *rows] * 16)
        self.balances = claim_tracker.new_balances()
        self.book = claim_tracker.open(self.calendar, self.tables, self.balances, self.DAYS[0]).book
        self.assertEqual(self.book, Book(self.DAYS[0]))

    def lend(self, count):
        """Loans in security 0, as many."""
        places = [16 * lender + borrower for lender in range(16) for borrower in range(16) if lender != borrower]
        for place in places[:count]:
            self.balances[place] = 1

    def close(self, room):
        return claim_tracker.close(self.calendar, self.tables, self.book, self.balances, b"\2\0\2\0", bytearray(room))

    def test_close(self):
        for place in range(claim_tracker.BALANCE_WORDS):
            self.balances[place] = place // 16 % 16 != place % 16
        room = claim_tracker.claim_room(claim_tracker.MOST_CLOSE_CLAIMS)
        self.assertEqual(room, 4300800)
        self.assertEqual(self.close(room - 1), (Number.NO_ROOM, self.book, 0))
        self.assertEqual(self.close(room), (0, Book(self.DAYS[1]), claim_tracker.MOST_CLOSE_CLAIMS))

    def transfer(self, book, room):
        """What a transfer answers, and the types of its claims."""
        claims, message = bytearray(room), bytes.fromhex(transfer_hex(1, 2, 0, 0, 0, 5, TAG % 20230131))
        done = claim_tracker.transfer(self.calendar, self.tables, book, self.balances, message, claims)
        return done, [claim_tracker.read_claim(claims[35 * at:]).claim.claim_type for at in range(done.claims)]

    def test_transfer(self):
        """Each of 16 rows gives a claim: all Record Dates are before the day, seven Beneficiary Dates too and nine behind it."""
        book, last = Book(self.DAYS[1]), 20230320
        self.calendar[278] |= 1 << last % 100 - 1
        for at in range(16):
            later = [20230201 + at, book.day] if at < 7 else [20230303 + at, last]
            self.tables[3 + 7 * at:5 + 7 * at] = array("I", later)
        room = claim_tracker.claim_room(claim_tracker.MOST_TRANSFER_CLAIMS)
        self.assertEqual(room, 560)
        self.assertEqual(self.transfer(book, room - 1), ((Number.NO_ROOM, book, 0), []))
        self.assertEqual(self.transfer(book, room), ((0, Book(book.day, 1), 16), [ClaimType.FAIL] * 7 + [ClaimType.INTERIM] * 9))

    def test_stream(self):
        """1,872 claims of a close fit a stream. A close with more gets 10 and the day stays; one call by value works it, and the stream
        goes on."""
        self.lend(117)
        output, close = bytearray(claim_tracker.RECORD_ROOM), b"\2\0\2\0"
        served = claim_tracker.serve(self.calendar, self.tables, self.book, self.balances, close, False, output)
        self.assertEqual((served.book, served.consumed, served.written), (Book(self.DAYS[1]), 4, 1872 * 35 + 6))
        self.lend(118)
        served = claim_tracker.serve(self.calendar, self.tables, self.book, self.balances, close, False, output)
        self.assertEqual((served.book, served.consumed, bytes(output[:served.written])), (self.book, 4, common.answer(10)))
        done = self.close(claim_tracker.claim_room(118 * 16))
        self.assertEqual(done, (0, Book(self.DAYS[1]), 118 * 16))
        served = claim_tracker.serve(self.calendar, self.tables, done.book, self.balances, close, True, output)
        self.assertEqual((served.book, bytes(output[:served.written])), (Book(self.DAYS[2]), common.answer(0)))


class Names(unittest.TestCase):
    """The module's names and numbers are the header's."""

    def test_enumerations(self):
        enums = declarations.enumerators()
        self.assertEqual({"CLAIM_TRACKER_" + name: getattr(claim_tracker, name) for name in dir(claim_tracker)
                          if name.isupper() and not name.startswith("_")}, enums.pop(""))
        for name, prefix in (("number", ""), ("kind", "KIND_"), ("class", "CLASS_"), ("code", "CODE_"), ("claim_type", "CLAIM_TYPE_"),
                             ("outcome", "OUTCOME_"), ("slot", "SLOT_"), ("security_type", "SECURITY_"), ("frequency", "FREQUENCY_")):
            enum = getattr(claim_tracker, name.title().replace("_", ""))
            self.assertEqual({"CLAIM_TRACKER_" + prefix + value.name: value for value in enum}, enums.pop("claim_tracker_" + name))
        self.assertEqual(enums, {})

    def test_functions(self):
        """Each function has its call, with the header's arguments without counts; the pieces may be left out, and go by their name."""
        for name, (_, arguments) in declarations.header_functions().items():
            call = getattr(claim_tracker, name.removeprefix("claim_tracker_"))
            given = inspect.getfullargspec(call)
            words = [word for word, _ in arguments if word]
            self.assertEqual(given.args, [word for word in words if word != "pieces"])
            self.assertEqual(given.kwonlyargs, [word for word in words if word == "pieces"])

    def struct(self, form):
        """The C struct of the module for one of the crates."""
        return getattr(claim_tracker, "_" + "".join("_" + letter if letter.isupper() and at else letter.upper()
                                                    for at, letter in enumerate(form)))

    def test_structs(self):
        """The C structs of the module have the header's fields, names and sizes."""
        kinds = {"uint8_t": "c_ubyte", "uint16_t": "c_ushort", "uint32_t": "c_uint", "uint64_t": "c_ulong", "size_t": "c_ulong",
                 "bool": "c_bool", "double": "c_double", "uint8_t[64]": "c_ubyte_Array_64"}
        own = {"struct " + c: form for form, c in declarations.STRUCTS.items()}
        for form, name in declarations.STRUCTS.items():
            self.assertEqual([(field, kind.__name__) for field, kind in self.struct(form)._fields_],
                             [(field, kinds.get(kind) or own[kind]) for field, kind in declarations.header_structs()[name]])

    def test_argument_types(self):
        """Each call is handed what the header declares: values by their types, words and bytes by their addresses."""
        kinds = {"uint16_t": ctypes.c_uint16, "uint32_t": ctypes.c_uint32, "bool": ctypes.c_bool, declarations.COUNT: ctypes.c_size_t}
        for form, name in declarations.STRUCTS.items():
            kinds |= {"struct " + name: self.struct(form), "struct %s *" % name: ctypes.POINTER(self.struct(form))}
        kinds |= {kind: ctypes.c_void_p for kind in ("const uint32_t *", "const uint64_t *", "uint64_t *", "const uint8_t *", "uint8_t *",
                                                     "const uint8_t[64]")}
        functions = declarations.header_functions()
        self.assertEqual(sorted(functions), sorted("claim_tracker_" + name for name in claim_tracker._CALLS))
        for name, (returned, arguments) in functions.items():
            call = claim_tracker._CALLS[name.removeprefix("claim_tracker_")]
            self.assertEqual([call.restype, *call.argtypes], [kinds[returned], *(kinds[kind] for _, kind in arguments)], name)


class Refusals(unittest.TestCase):
    """Bad arguments raise plain errors, and nothing is called."""

    def setUp(self):
        self.balances = array("Q", [7]) * claim_tracker.BALANCE_WORDS
        self.buffer = bytearray(b"\xaa" * 300)
        self.book = Book(DAY)

    def good(self, **changed):
        """The arguments of a transfer without limits and pieces, some of them changed."""
        return {"calendar": CALENDAR, "tables": TABLES, "book": self.book, "balances": self.balances, "message": common.TRANSFER,
                "claims": self.buffer} | changed

    def refused(self, error, words, call, *arguments, **named):
        with self.assertRaises(error) as raised:
            call(*arguments, **named)
        self.assertRegex(str(raised.exception), words)
        self.assertEqual((bytes(self.buffer), set(self.balances), self.book), (b"\xaa" * 300, {7}, Book(DAY)))

    def test_kinds(self):
        wrong = array("H", bytes(960)), array("i", bytes(1920)), bytes(1920), list(CALENDAR), None, "text", memoryview(CALENDAR)[::2]
        for call in (claim_tracker.transfer, claim_tracker.close, claim_tracker.transfer_in, claim_tracker.close_in):
            for given in wrong:
                for name in ("calendar", "tables", "balances"):
                    self.refused(TypeError, r"\A%s: .*; allowed: " % name, call, **self.good(**{name: given}))
            self.refused(TypeError, r"\Abalances: .*64-bit", call, **self.good(balances=CALENDAR))
            for given in (None, "text", [1, 2], array("I", [1]), 5):
                for name in ("message", "claims"):
                    self.refused(TypeError, r"\A%s: .*; allowed: bytes" % name, call, **self.good(**{name: given}))
            self.refused(TypeError, r"\Aclaims: cannot be written to", call, **self.good(claims=bytes(245)))
            self.refused(TypeError, r"\Abalances: cannot be written to", call,
                         **self.good(balances=memoryview(bytes(8 * claim_tracker.BALANCE_WORDS)).cast("Q")))
            for given in ((DAY, 0), None, DAY):
                self.refused(TypeError, r"\Abook: of type \w+; allowed: Book", call, **self.good(book=given))
            self.refused(TypeError, r"\Abook.day: of type float", call, **self.good(book=Book(2.0)))

    def test_limits(self):
        call = claim_tracker.transfer_with_limits
        for given in (None, [7, 6, 3, 2, 1], b"\7\6\3\2\1", array("Q", [7, 6, 3, 2, 1]), array("i", [7, 6, 3, 2, 1])):
            self.refused(TypeError, r"\Alimits: .*; allowed: 32-bit words", call, **self.good(limits=given))
        self.refused(ValueError, r"\Abalances and limits overlap\Z", call,
                     **self.good(limits=memoryview(self.balances).cast("B")[:20].cast("I")))
        self.refused(TypeError, r"missing 1 required positional argument: 'limits'", call, **self.good())

    def test_pieces(self):
        ones = [1] * 16
        for call in (claim_tracker.transfer, claim_tracker.transfer_in):
            for given in (None, ones, bytes(ones), array("Q", ones), array("i", ones)):
                self.refused(TypeError, r"\Apieces: .*; allowed: 32-bit words", call, **self.good(pieces=given))
            self.refused(ValueError, r"\Abalances and pieces overlap\Z", call,
                         **self.good(pieces=memoryview(self.balances).cast("B")[:64].cast("I")))
        for call in (claim_tracker.close, claim_tracker.close_in):
            self.refused(TypeError, r"unexpected keyword argument 'pieces'", call, **self.good(pieces=claim_tracker.new_pieces()))

    def test_carry_over(self):
        def good(**changed):
            return {"calendar": CALENDAR, "book": self.book, "saved": saved, "balances": self.balances} | changed

        call, saved = claim_tracker.carry_over, array("Q", bytes(8 * claim_tracker.LENDING_WORDS))
        for given in (None, "text", [0] * claim_tracker.LENDING_WORDS, bytes(saved), CALENDAR, array("q", bytes(8)), memoryview(saved)[::2]):
            for name in ("saved", "balances"):
                self.refused(TypeError, r"\A%s: .*; allowed: 64-bit words" % name, call, **good(**{name: given}))
        self.refused(TypeError, r"\Acalendar: .*; allowed: 32-bit words", call, **good(calendar=saved))
        self.refused(TypeError, r"\Abalances: cannot be written to", call, **good(balances=memoryview(bytes(65536)).cast("Q")))
        self.refused(TypeError, r"\Abook: of type int; allowed: Book", call, **good(book=DAY))
        self.refused(ValueError, r"\Abook.count: ", call, **good(book=Book(DAY, 2 ** 32)))
        both = memoryview(self.balances)
        for part in (both[:claim_tracker.LENDING_WORDS], both[claim_tracker.LENDING_WORDS:], both[-1:]):
            self.refused(ValueError, r"\Abalances and saved overlap\Z", call, **good(saved=part))
        self.refused(ValueError, r"\Abalances and calendar overlap\Z", call, **good(calendar=both.cast("B")[:1920].cast("I")))
        self.assertEqual(call(**good(saved=memoryview(bytes(saved)).cast("Q"))), (0, self.book, 0))

    def test_marks(self):
        def good(**changed):
            return {"calendar": CALENDAR, "book": self.book, "balances": self.balances, "store": store, "mark": 1} | changed

        store, both = claim_tracker.new_store(), memoryview(self.balances)
        for call in (claim_tracker.set_mark, claim_tracker.return_to_mark):
            for given in (None, "text", [0] * claim_tracker.STORE_WORDS, bytes(store), CALENDAR, array("q", bytes(8)),
                          memoryview(store)[::2]):
                for name in ("balances", "store"):
                    self.refused(TypeError, r"\A%s: .*; allowed: 64-bit words" % name, call, **good(**{name: given}))
            self.refused(TypeError, r"\Acalendar: .*; allowed: 32-bit words", call, **good(calendar=store))
            self.refused(TypeError, r"\Abook: of type int; allowed: Book", call, **good(book=DAY))
            self.refused(ValueError, r"\Abook.count: ", call, **good(book=Book(DAY, 2 ** 32)))
            for mark in (-1, 2 ** 32, 2 ** 32 + 1):
                self.refused(ValueError, r"\Amark: -?\d+; allowed: 0 to 4294967295\Z", call, **good(mark=mark))
            for mark in (None, "1", 1.0):
                self.refused(TypeError, r"\Amark: of type \w+; allowed: a whole number\Z", call, **good(mark=mark))
            for part in (both, both[:1], both[-1:]):
                self.refused(ValueError, r"\Abalances and store overlap\Z", call, **good(store=part))
        constant = memoryview(bytes(store)).cast("Q")
        self.refused(TypeError, r"\Astore: cannot be written to", claim_tracker.set_mark, **good(store=constant))
        self.refused(TypeError, r"\Abalances: cannot be written to", claim_tracker.return_to_mark, **good(balances=constant))
        self.refused(ValueError, r"\Acalendar and store overlap\Z", claim_tracker.set_mark,
                     **good(calendar=memoryview(store).cast("B")[:1920].cast("I")))
        self.refused(ValueError, r"\Abalances and calendar overlap\Z", claim_tracker.return_to_mark,
                     **good(calendar=both.cast("B")[:1920].cast("I")))
        zeros = claim_tracker.new_balances()
        self.assertEqual(claim_tracker.set_mark(**good(balances=constant[:claim_tracker.BALANCE_WORDS])), 0)
        self.assertEqual(claim_tracker.return_to_mark(**good(balances=zeros, store=constant)), (Number.BAD_MARK, self.book, 0))

    def test_forecast(self):
        call, run = claim_tracker.forecast, bytes(35)
        for given in (None, "text", [1, 2], array("I", [1]), 5):
            self.refused(TypeError, r"\Aclaims: .*; allowed: bytes", call, given, 1, 20230417)
        for value in (-1, 2 ** 32):
            self.refused(ValueError, r"\Aaccount: -?\d+; allowed: 0 to 4294967295\Z", call, run, value, 20230417)
            self.refused(ValueError, r"\Adate: -?\d+; allowed: 0 to 4294967295\Z", call, run, 1, value)
        for value in ("1", 1.0, None):
            self.refused(TypeError, r"\Aaccount: of type \w+; allowed: a whole number\Z", call, run, value, 20230417)
            self.refused(TypeError, r"\Adate: of type \w+; allowed: a whole number\Z", call, run, 1, value)

    def test_overlaps(self):
        call = claim_tracker.transfer
        self.refused(ValueError, r"\Aclaims and message overlap\Z", call, **self.good(message=memoryview(self.buffer)[200:]))
        both = memoryview(self.balances).cast("B")
        self.refused(ValueError, r"\Abalances and claims overlap\Z", call, **self.good(claims=both[-8:]))
        self.refused(ValueError, r"\Abalances and calendar overlap\Z", call, **self.good(calendar=both[:1920].cast("I")))
        self.refused(ValueError, r"\Abuffer and second_line overlap\Z", claim_tracker.write_transfer, self.buffer,
                     Transfer(1, 2, 0, 0, 0, 1), bytes(64), memoryview(self.buffer)[236:])
        self.refused(ValueError, r"\Abalances: does not begin at a multiple of 8 bytes\Z", call,
                     **self.good(balances=memoryview(bytearray(8 * claim_tracker.BALANCE_WORDS + 8))[4:-4].cast("Q")))
        line = memoryview(bytearray(b"{98A:CNTR/20230315}".ljust(64)))
        self.assertEqual(claim_tracker.write_transfer(bytearray(141), Transfer(1, 2, 0, 0, 0, 1), line, line), 0)

    def test_empty(self):
        """Memory of no items is lent too, and no address is null."""
        for given, kind in ((array("I"), claim_tracker._U32), (array("Q"), claim_tracker._U64), (bytearray(), claim_tracker._U8),
                            (b"", claim_tracker._U8), (memoryview(array("I")), claim_tracker._U32)):
            lent = claim_tracker._Lent("given", given, kind)
            self.assertEqual((lent.count, lent.address != 0), (0, True))
        self.assertEqual(claim_tracker.open(array("I"), array("I"), array("Q"), DAY), (Number.WRONG_LENGTH, Book(20000101), 0))

    def test_ranges(self):
        for day in (-1, 2 ** 32):
            self.refused(ValueError, r"\Aday: -?\d+; allowed: 0 to 4294967295\Z", claim_tracker.open, CALENDAR, TABLES, self.balances, day)
            self.refused(ValueError, r"\Abook.count: ", claim_tracker.transfer_in, **self.good(book=Book(DAY, day)))
        self.refused(TypeError, r"\Aday: of type str; allowed: a whole number\Z", claim_tracker.open, CALENDAR, TABLES, self.balances, "1")
        fields = Transfer(1, 2, 0, 0, 0, 1)
        for name, value in (("sender", 256), ("receiver", -1), ("security", 256), ("class_", 256), ("code", 256), ("par", 2 ** 32)):
            self.refused(ValueError, r"\Atransfer.%s: " % name, claim_tracker.write_transfer, self.buffer,
                         fields._replace(**{name: value}), bytes(64), bytes(64))
        claim = Claim(*[0] * 11)
        for name, value in (("slot", 256), ("transfer", 2 ** 32), ("interest", 2 ** 64), ("principal", -1), ("release", 2 ** 32)):
            self.refused(ValueError, r"\Aclaim.%s: " % name, claim_tracker.write_claim, self.buffer, claim._replace(**{name: value}))
        self.refused(ValueError, r"\Aanswer.number: 65536; ", claim_tracker.write_answer, self.buffer, claim_tracker.Answer(65536))
        self.refused(TypeError, r"\Aanswer: of type int; allowed: Answer", claim_tracker.write_answer, self.buffer, 5)
        for size in (0, 63, 65):
            self.refused(ValueError, r"\Asecond_line: %d bytes; allowed: 64\Z" % size, claim_tracker.write_transfer, self.buffer, fields,
                         bytes(64), bytes(size))
        self.refused(TypeError, r"\Aended: of type int; allowed: True or False\Z", claim_tracker.serve, CALENDAR, TABLES, self.book,
                     self.balances, b"", 1, self.buffer)

    def test_values_of_a_caller(self):
        self.assertEqual(claim_tracker.line("a"), b"a" + b" " * 63)
        self.assertEqual(claim_tracker.claim_room(3), 105)
        self.assertEqual(claim_tracker.new_pieces(), array("I", [1] * 16))
        self.assertEqual(claim_tracker.new_store(), array("Q", [0] * 32780))
        for call, given in ((claim_tracker.line, "x" * 65), (claim_tracker.line, "\u00e9"), (claim_tracker.line, b"x"),
                            (claim_tracker.claim_room, -1), (claim_tracker.read_book_file, bytes(9219))):
            self.assertRaises(ValueError, call, given)
        self.assertEqual((len(CALENDAR), len(TABLES), DAY), (480, 1824, 20230404))
        with builtins.open(os.path.join(building.ROOT, "crates/claimrun/data/book.dat"), "rb") as file:
            self.assertEqual(b"".join((CALENDAR.tobytes(), TABLES.tobytes(), DAY.to_bytes(4, "little"))), file.read())


class Library(building.Library):
    """How the module finds the library, and that the example of FORMATS.md works."""

    def test_example(self):
        text = building.content("docs", "FORMATS.md")
        source = "".join(line[4:] for line in text[text.index("    import claim_tracker\n"):].splitlines(keepends=True)
                         if line.startswith("    "))
        self.file("book.dat", common.BOOK)
        run = subprocess.run([sys.executable, "-B", "-c", source], capture_output=True, text=True, timeout=building.SECONDS,
                             cwd=self.folder, env=os.environ | {"PYTHONPATH": PYTHON})
        self.assertEqual((run.returncode, run.stderr), (0, ""))
        self.assertEqual(run.stdout, "accepted %s\n" % (Claim(1, 0, 1, 2, 0, 0, 1, 100000, 0, 20230417, 3),))

    def imports(self, module, **environment):
        """Imports a copy of the module in a process of its own."""
        environment = {name: value for name, value in os.environ.items() if name != "CLAIM_TRACKER_LIBRARY"} | environment
        return subprocess.run([sys.executable, "-B", "-c", "import claim_tracker; print(claim_tracker.read_close(b'\\2\\0\\2\\0'))"],
                              capture_output=True, text=True, timeout=building.SECONDS, env=environment | {"PYTHONPATH": module})

    def test_beside_the_module(self):
        run = self.imports(PYTHON)
        self.assertEqual((run.returncode, run.stdout, run.stderr), (0, "0\n", ""))

    def test_by_the_environment(self):
        module = os.path.join(building.ROOT, "python")
        library = os.path.join(PREFIX, "lib", "libclaim_tracker.so")
        self.assertEqual(self.imports(module, CLAIM_TRACKER_LIBRARY=library).stdout, "0\n")
        run = self.imports(module)
        self.assertIn("ImportError: there is no library %s" % os.path.join(module, "libclaim_tracker.so.2"), run.stderr)
        run = self.imports(PYTHON, CLAIM_TRACKER_LIBRARY=self.path("missing.so"))
        self.assertIn("ImportError: there is no library %s" % self.path("missing.so"), run.stderr)
        run = self.imports(PYTHON, CLAIM_TRACKER_LIBRARY=self.file("bad.so", b"text"))
        self.assertIn("ImportError: %s is not the claim tracker's library: " % self.path("bad.so"), run.stderr)


if __name__ == "__main__":
    unittest.main()
