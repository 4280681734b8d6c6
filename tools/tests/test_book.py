"""Books: text to bytes, bytes to text, both ways round."""
import random
import struct
import unittest

import common
from common import BOOK, CASE_BOOK, IN_PIECES, content
from desk import book

CALENDAR = 480 * 4


def words(data):
    return list(struct.unpack("<2305I", data))


class Books(common.Desk):
    def made(self, text):
        self.good("book", "make", self.file("book.toml", text), "-o", self.path("book.dat"))
        return content(self.path("book.dat"))

    def shown(self, data):
        return self.good("book", "show", self.file("given.dat", data)).decode()

    def back(self, data):
        """The text of any file of 9,220 bytes makes the same bytes, and they show as the same text."""
        text = self.shown(data)
        self.assertEqual(self.made(text), data)
        self.assertEqual(self.shown(content(self.path("book.dat"))), text)
        return text

    def test_cases_book(self):
        self.assertEqual(self.made(BOOK), content(CASE_BOOK))
        self.assertNotIn("[words]", self.back(content(CASE_BOOK)))

    def test_every_key(self):
        text = """opening_day = "20230405"
[calendar]
weekdays = ["Tuesday", "Wednesday", "Saturday"]
first = 2023-01-01
last = "2023-12-31"
holidays = [2023-04-11]
closed = ["2023-04-12"]
open = [2023-04-10, 2024-02-29]
[accounts]
15 = "Last Bank"
[[security]]
number = 15
type = "US-guaranteed MBS"
frequency = "annual"
[[security.payment]]
record = 20230401
beneficiary = 2023-04-02
payment = 2024-02-29
interest = 1.999999999
principal = 2
final = true
restricted = [0, "Last Bank"]
"""
        data = words(self.made(text))
        self.assertEqual(data[23 * 12 + 3], sum(1 << (day - 1) for day in (1, 4, 5, 8, 10, 15, 18, 19, 22, 25, 26, 29)))
        self.assertEqual((data[23 * 12 - 1], data[24 * 12], data[24 * 12 + 1]), (0, 0, 1 << 28))
        self.assertEqual(data[480 + 15 * 114:480 + 15 * 114 + 10],
                         [4, 4, 20230401, 20230402, 20240229, 1_999_999_999, 2_000_000_000, 1, 1 << 15 | 1, 0])
        self.assertEqual(data[-1], 20230405)
        self.assertNotIn("[words]", self.back(struct.pack("<2305I", *data)))

    def test_factors_are_exact(self):
        for text, billionths in (('"0.005"', 5_000_000), ("0.1", 100_000_000), ("0.3", 300_000_000), ("0", 0), ("-0.0", 0),
                                 ("1.000000001", 1_000_000_001), ('"2.0"', 2_000_000_000), ("5e-9", 5),
                                 ('"0.0000000010000"', 1), ("1e-3", 1_000_000)):
            data = words(self.made(BOOK.replace('"0.005"', text, 1)))
            self.assertEqual(data[480 + 5], billionths, text)

    def test_one_of_both_factors_is_enough(self):
        for text, words_of_row in (('interest = "0.1"', (100_000_000, 0)), ('principal = "0.1"', (0, 100_000_000)),
                                   ("interest = 0", (0, 0))):
            data = words(self.made(BOOK.replace('interest = "0.005"', text, 1)))
            self.assertEqual(tuple(data[480 + 5:480 + 7]), words_of_row)

    def test_payments_behind_a_final_one(self):
        """They are made, with a warning for each final payment that is not the last."""
        both = BOOK.replace('interest = "0.005"', 'interest = "0.005"\nfinal = true')
        status, _, errors = self.call("book", "make", self.file("book.toml", both), "-o", self.path("book.dat"))
        self.assertEqual(status, 0)
        self.assertEqual(errors.count("\n"), 1)
        self.assertIn("book.toml:18: warning: [[security]] 1, payment 1, final: redeems the security, and payments stand behind it", errors)
        data = words(content(self.path("book.dat")))
        self.assertEqual((data[480 + 7], data[480 + 14]), (1, 1))

    def test_pieces(self):
        """A piece is read and kept beside the words, which have no place for it: the bytes are the same, and they show none."""
        for text, piece in ((BOOK, 1), (IN_PIECES, 1000), (IN_PIECES.replace("1_000", "1"), 1),
                            (IN_PIECES.replace("1_000", "1_000_000"), 1000000)):
            self.assertEqual(book.read(self.file("source.toml", text)).names.piece(0), piece)
            self.assertEqual(self.made(text), content(CASE_BOOK))
        self.assertEqual(book.read(self.path("source.toml")).names.piece(1), 1)
        self.assertNotIn("piece", self.back(content(self.path("book.dat"))))

    def test_random_files(self):
        dice = random.Random(1)
        for _ in range(4):
            self.assertIn("[words", self.back(dice.randbytes(9220)))

    def test_extreme_files(self):
        for data in (bytes(9220), b"\xff" * 9220, content(CASE_BOOK)[:-4] + bytes(4)):
            self.back(data)

    def test_random_calendars(self):
        dice = random.Random(2)
        for share in (1, 3, 9):
            days = [dice.getrandbits(28) & ~sum(1 << dice.randrange(28) for _ in range(share)) for _ in range(480)]
            text = self.back(struct.pack("<480I", *days) + content(CASE_BOOK)[CALENDAR:])
            self.assertNotIn("[words.calendar]", text)

    def test_damaged_words(self):
        """One or more words of a sound book changed: only what cannot be said otherwise stands among the words."""
        dice = random.Random(3)
        for _ in range(30):
            data = words(content(CASE_BOOK))
            for _ in range(dice.randrange(1, 4)):
                place = dice.choice((dice.randrange(480), 480 + dice.randrange(40), 480 + dice.randrange(1824), 2304))
                data[place] = dice.choice((0, 1, 2, 9, 65536, 70000, 20230401, 20231399, 2_000_000_001, 2 ** 32 - 1,
                                           data[place] + 1 & 0xffffffff, dice.getrandbits(32)))
            self.back(struct.pack("<2305I", *data))

    def test_damage_is_named(self):
        data = words(content(CASE_BOOK))
        data[1] |= 1 << 30
        data[480 + 2 + 6] = 65536 + 8
        data[480 + 2 + 7 + 3] = 2_000_000_001
        data[480 + 114] = 9
        data[-1] = 20230402
        text = self.back(struct.pack("<2305I", *data))
        self.assertIn("restricted = [3]", text)
        tail = text[text.index("[words]"):]
        self.assertEqual([line for line in tail.split("\n") if "=" in line], [
            "opening_day = 20230402", "1 = %d  # 2000-02" % data[1], "8 = 65544  # security 0, row 0, restricted",
            "12 = 2000000001  # security 0, row 1, interest", "114 = 9  # security 1, type"])

    def test_words_are_written_last(self):
        data = self.made(BOOK + "[words]\nopening_day = 7\n[words.tables]\n0 = 9\n1823 = 5\n[words.calendar]\n479 = 1\n")
        expected = words(content(CASE_BOOK))
        expected[480], expected[480 + 1823], expected[479], expected[2304] = 9, 5, 1, 7
        self.assertEqual(words(data), expected)

    def test_claimrun_takes_what_is_made(self):
        """What make accepts without [words], claimrun opens."""
        dice = random.Random(4)
        for _ in range(20):
            rows = "".join("[[security.payment]]\nrecord = %d\nbeneficiary = %d\npayment = %d\ninterest = \"%s\"\n" % (
                20230000 + month * 100 + dice.randrange(1, 10), 20230000 + month * 100 + dice.randrange(1, 10),
                20230000 + month * 100 + dice.randrange(10, 29), dice.choice(("0", "2", "0.000000001", "1.25")))
                for month in range(1, dice.randrange(2, 13)))
            security = '[[security]]\nnumber = %d\ntype = "%s"\nfrequency = "%s"\n' % (
                dice.randrange(16), dice.choice(("Treasury", "non-Treasury debt", "agency MBS", "US-guaranteed MBS")),
                dice.choice(("monthly", "quarterly", "semiannual", "annual")))
            source = self.file("s.toml", "opening_day = 2023-02-%02d\n%s%s[[message]]\nclose = 1\n" % (
                dice.choice((1, 2, 3, 28)), security, rows))
            self.assertIn(b"accepted: close", self.good("run", source))

    def test_standard_input_and_output(self):
        """Without -o, or with -, bytes go to standard output; a source that is - is standard input."""
        source = self.file("s.toml", BOOK)
        for args, given in (((source,), b""), ((source, "-o", "-"), b""), (("-",), BOOK.encode())):
            self.assertEqual(self.good("book", "make", *args, given=given), content(CASE_BOOK))
        self.assertIn("standard input:1: ", self.bad("book", "make", "-", given=b"opening_day = 1\n"))
        self.assertEqual(self.good("book", "show", "-", given=content(CASE_BOOK)), self.good("book", "show", CASE_BOOK))

    def test_book_of_another_file(self):
        self.file("inner.toml", BOOK)
        self.assertEqual(self.made('book = "inner.toml"\n'), content(CASE_BOOK))


if __name__ == "__main__":
    unittest.main()
