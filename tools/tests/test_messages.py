"""Messages: TOML and CSV to records and back."""
import random
import unittest

import common
from common import BOOK, CASE_MESSAGES, IN_PIECES, MESSAGES, content

CLOSE = bytes([2, 0, 2, 0])
TRANSFER = content(CASE_MESSAGES)


def record(sender=1, receiver=2, security=0, market=0, code=0, par=200_000, line1=b"", line2=b"", fill=b" "):
    return bytes([139, 0, 1, 0, sender, receiver, security, market, code]) + par.to_bytes(4, "little") + \
        line1.ljust(64, fill) + line2.ljust(64, fill)


class Messages(common.Desk):
    def made(self, text, name="m.toml"):
        return self.good("messages", "make", self.file(name, text))

    def back(self, data):
        """Both forms of any stream make the same bytes; the TOML form is given."""
        path = self.file("given.dat", data)
        texts = {form: self.good("messages", "show", path, "--format", form).decode() for form in ("csv", "toml")}
        for form, text in texts.items():
            self.assertEqual(self.made(text, "back." + form), data)
        return texts["toml"]

    def test_cases_transfer(self):
        self.assertEqual(self.made(BOOK + MESSAGES), TRANSFER + CLOSE * 2)
        self.assertEqual(self.back(TRANSFER), "[[message]]\nsender = 1\nreceiver = 2\nsecurity = 0\npar = 200_000\n"
                         "contract_date = 2023-03-15\n")

    def test_codes_by_their_tags(self):
        tags = "none SLST SLRV CLSL CLSR ADSL ADSR RPST RPRV CLRP CLRV ADRP ADRV"
        for code, tag in enumerate(tags.split()):
            text = '[[message]]\nsender = 1\nreceiver = 2\nsecurity = 0\npar = 200_000\ncode = "%s"\n' % tag
            self.assertEqual(self.made(text), record(code=code))
            self.assertEqual('code = "%s"' % tag in self.back(record(code=code)), code > 0)

    def test_lines(self):
        tag, empty = b"{98A:CNTR/20230315}", b"{98A:CNTR/}"
        head = "[[message]]\nsender = 1\nreceiver = 2\nsecurity = 0\npar = 200_000\n"
        for text, line1, line2 in (
                ("", b"", b""),
                ('text1 = "A"\ntext2 = "B"', b"A", b"B"),
                ("contract_date = 2023-03-15", tag, b""),
                ('contract_date = 2023-03-15\ntext1 = " A"\ntext2 = "B"', tag + b" A", b"B"),
                ('contract_date = "20230315"\ntext1 = "A {contract_date} B"', b"A " + tag + b" B", b""),
                ('contract_date = 2023-03-15\ntext1 = "A"\ntext2 = "{contract_date}"', b"A", tag),
                ('contract_date = "empty"', empty, b""),
                ('contract_date = " empty "\ntext1 = " A"\ntext2 = "B"', empty + b" A", b"B"),
                ('contract_date = "empty"\ntext1 = "A {contract_date} B"', b"A " + empty + b" B", b""),
                ('contract_date = "empty"\ntext1 = "A"\ntext2 = "{contract_date}"', b"A", empty),
                ('contract_date = "empty"\ntext1 = "%s"' % ("x" * 53), empty + b"x" * 53, b""),
                ('text1 = "{contract_date}"', b"{contract_date}", b""),
                ('text1 = "%s"' % ("x" * 64), b"x" * 64, b""),
                ('line1_hex = "%s"\ntext2 = "B"' % ("00" * 64), bytes(64), b"B"),
                ('line1_hex = "%s"\ncontract_date = 2023-03-15\ntext2 = "{contract_date}"' % ("ff" * 64), b"\xff" * 64, tag)):
            self.assertEqual(self.made(head + text + "\n"), record(line1=line1, line2=line2), text)
            self.back(record(line1=line1, line2=line2))

    def test_lines_that_are_no_plain_text(self):
        for line in (bytes(64), b"\xe9", b"a\tb", b"{98A:CNTR/20231399}", b"{98A:CNTR/", b"{98A:CNTR/20230315}" * 3,
                     b"{contract_date}{98A:CNTR/20230315}", b'quote " and \\', b" leading", b"{98A:CNTR/20230315}x" * 2,
                     b"{98A:CNTR/ }", b"{98A:CNTR/}" * 2, b"{contract_date}{98A:CNTR/}", b"{98A:CNTR/}x{98A:CNTR/20230315}"):
            for fill in (b" ", b"\0"):
                self.back(record(line1=line, fill=fill))
                self.back(record(line2=line, fill=fill))

    def test_empty_tag(self):
        """It is shown by its own word; two tags, and one that holds anything else, are shown as text."""
        self.assertIn('\ncontract_date = "empty"\n', self.back(record(line1=b"{98A:CNTR/}")))
        self.assertIn('\ncontract_date = "empty"\ntext2 = "A {contract_date}"\n', self.back(record(line2=b"A {98A:CNTR/}")))
        for line in (b"{98A:CNTR/ }", b"{98A:CNTR/0}", b"{98A:CNTR/}{98A:CNTR/20230315}", b"{98A:CNTR/", b"{98A:CNTR/empty}"):
            self.assertIn('\ntext1 = "%s"\n' % line.decode(), self.back(record(line1=line)))
        self.assertEqual(self.made("sender,receiver,security,par,contract_date\n1,2,0,200000,empty\n1,2,0,200000,\n", "m.csv"),
                         record(line1=b"{98A:CNTR/}") + record())

    def test_fields_out_of_range_as_hex(self):
        for fields in ({"sender": 200}, {"receiver": 16}, {"receiver": 1}, {"security": 16}, {"market": 2}, {"code": 13},
                       {"par": 0}, {"par": 100_000_001}, {"par": 2 ** 32 - 1}):
            self.assertIn("hex = ", self.back(record(**fields)))

    def test_closes_in_a_row(self):
        self.assertEqual(self.back(CLOSE * 3 + TRANSFER + CLOSE).count("close = "), 2)
        self.assertEqual(self.made("[[message]]\nclose = true\n[[message]]\nclose = 2\n"), CLOSE * 3)
        self.back(CLOSE * 100_001)

    def test_no_messages(self):
        self.assertEqual(self.back(b""), "message = []\n")

    def test_cut_anywhere(self):
        for size in list(range(0, 9)) + [100, 140]:
            self.back(CLOSE + TRANSFER + TRANSFER[:size])
            self.back(TRANSFER + CLOSE[:size % 4] + b"")

    def test_other_kinds_and_bytes_behind(self):
        for data in (bytes([33, 0, 3, 0]) + bytes(31), bytes([4, 0, 4, 0, 0, 0]), bytes([139, 0, 2, 0]), bytes(10)):
            self.assertIn("hex = ", self.back(TRANSFER + data + TRANSFER))

    def test_random_streams(self):
        dice = random.Random(1)
        for _ in range(40):
            data = bytearray(b"".join(dice.choice((TRANSFER, CLOSE, record(code=1))) for _ in range(dice.randrange(5))))
            for _ in range(dice.randrange(5) if data else 0):
                data[dice.randrange(len(data))] = dice.choice((0, 32, 34, 92, 125, dice.randrange(256)))
            self.back(bytes(data) + dice.randbytes(dice.choice((0, 0, 3, 300))))
        self.back(dice.randbytes(70_000))

    def test_csv(self):
        text = ("sender,receiver,security,market,code,par,contract_date,text1,text2,close\n"
                "1,Second Bank,Pool,,,200000,20230315,,,\n\n"
                "2,1,0,other,SLST,1_000,2023-03-15,,\"a, \"\"b\"\"\",\n"
                ",,,,,,,,,2\n,,,,,,,,,true\n1,2,0,,,5,,,,\n")
        book = self.file("book.toml", BOOK)
        self.assertEqual(self.good("messages", "make", self.file("m.csv", text), "--book", book),
                         TRANSFER + record(2, 1, 0, 1, 1, 1000, b"{98A:CNTR/20230315}", b'a, "b"') + CLOSE * 3 + record(par=5))

    def test_csv_of_a_spreadsheet(self):
        """A byte order mark and lines that end in carriage return and line feed."""
        text = b"\xef\xbb\xbfsender,receiver,security,par\r\n1,2,0,200000\r\n"
        self.assertEqual(self.made(text, "m.csv"), record())

    def test_messages_of_another_file(self):
        self.file("inner.csv", "close\n4\n")
        self.file("inner.toml", "[[message]]\nclose = 3\n")
        self.assertEqual(self.made('messages = "inner.csv"\n'), CLOSE * 4)
        self.assertEqual(self.made('messages = "inner.toml"\n'), CLOSE * 3)

    def test_par_off_the_piece(self):
        """It is made, with a warning that claimrun does not look at the piece. A multiple has none, nor a par of another security."""
        text = IN_PIECES + MESSAGES.replace("200_000", "200_500")
        source = self.file("m.toml", text)
        status, output, errors = self.call("messages", "make", source)
        self.assertEqual((status, output), (0, record(par=200_500, line1=b"{98A:CNTR/20230315}") + CLOSE * 2))
        self.assertEqual(errors, "%s:30: warning: [[message]] 1, par: 200,500 is no multiple of the piece 1,000 of Pool: claimrun lends "
                         "ones and does not refuse it for this, a call lent this piece answers 14; allowed: multiples of 1,000, or exactly "
                         "the whole balance in a decrease\n" % source)
        for command in ("check", "run"):
            self.assertEqual(self.call(command, source)[::2], (0, errors))
        for good in (text.replace("200_500", "200_000"), text.replace("200_500", "1_000"), BOOK + MESSAGES.replace("200_000", "200_500"),
                     text.replace('security = "Pool"', "security = 3")):
            self.made(good)

    def test_par_off_the_piece_in_csv(self):
        """Twenty warnings are told at most, each with its line; all messages are made."""
        book = self.file("book.toml", IN_PIECES)
        for count in (1, 19, 20, 500):
            source = self.file("m.csv", "sender,receiver,security,code,par\n" + "2,1,Pool,CLSL,1500\n" * count + "1,2,Pool,,2000\n")
            status, output, errors = self.call("messages", "make", source, "--book", book)
            self.assertEqual((status, output), (0, record(2, 1, code=3, par=1500) * count + record(par=2000)))
            told = min(count, 20)
            for line, words in enumerate(errors.split("\n")[:told], 2):
                self.assertIn("m.csv:%d: warning: par: 1,500 is no multiple of the piece 1,000 of Pool" % line, words)
            self.assertEqual(errors.split("\n")[told:-1], ["claimdesk: there may be more; 20 warnings are told at most"] * (told == 20))

    def test_show_reads_standard_input(self):
        self.assertEqual(self.good("messages", "show", given=CLOSE), b"[[message]]\nclose = 1\n")


if __name__ == "__main__":
    unittest.main()
