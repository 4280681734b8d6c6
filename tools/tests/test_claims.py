"""Claims: claimrun's records as text, CSV and JSON."""
import csv
import io
import json
import re
import struct
import unittest

import common
from common import BOOK, CASE_BOOK, CASE_OUTPUT, content
from desk import claims, claims_text
from desk.names import Names

OUTPUT = content(CASE_OUTPUT)


def claim(kind=1, outcome=0, payer=1, payee=2, security=0, row=0, transfer=1, interest=100_000, principal=0,
          release=20230417, slot=3):
    return struct.pack("<HHBBBBBBIQQIB", 33, 3, kind, outcome, payer, payee, security, row, transfer, interest, principal,
                       release, slot)


def answer(number):
    return struct.pack("<HHH", 4, 4, number)


class Claims(common.Desk):
    def shown(self, data, *args):
        return self.good("claims", "show", self.file("out.dat", data), *args).decode()

    def objects(self, data, *args):
        return json.loads(self.shown(data, "--format", "json", *args))

    def test_hex_example(self):
        lines = self.shown(OUTPUT).split("\n")
        self.assertEqual(lines[1].split(), "1 fail 1 1 2 0 row 0 1,000.00 0.00 2023-04-17 day".split())
        self.assertEqual(lines[2].split(), "1 accepted".split())
        self.assertEqual(lines[3:], [""])

    def test_types(self):
        """Each claim type by its word in each form; the table tells the claims of a transfer by its number."""
        for kind, word, short, transfer in ((1, "fail", "fail 7", 7), (2, "interim", "interim 7", 7), (3, "lending", "loan", 0),
                                            (4, "repo", "repo", 0)):
            data = claim(kind, transfer=transfer) + answer(0)
            self.assertIn("  1  %s  " % short, self.shown(data).split("\n")[1])
            rows = list(csv.DictReader(io.StringIO(self.shown(data, "--format", "csv"))))
            for found in (rows[0], self.objects(data)[0]):
                self.assertEqual((found["type"], str(found.get("transfer", ""))), (word, "7" if transfer else ""))

    def test_standard_input(self):
        self.assertEqual(self.good("claims", "show", given=OUTPUT).decode(), self.shown(OUTPUT))

    def test_beneficiary_date_with_the_book(self):
        self.assertNotIn("2023-04-01", self.shown(OUTPUT))
        self.assertIn(" 2023-04-01 ", self.shown(OUTPUT, "--book", CASE_BOOK))
        named = self.shown(OUTPUT, "--book", self.file("s.toml", BOOK))
        for words in ("2023-04-01", " First Bank ", " Second Bank ", " Pool "):
            self.assertIn(words, named)

    def test_another_book(self):
        """A claim on a row that the book does not have is no claim of this book."""
        self.shown(claim(row=1) + answer(0), "--book", CASE_BOOK)
        for record, words in ((claim(row=2), "security 0, row 2"), (claim(security=3), "security 3, row 0")):
            path = self.file("out.dat", OUTPUT + record + answer(0))
            for book in (CASE_BOOK, self.file("s.toml", BOOK)):
                for form in ("text", "csv", "json"):
                    error = self.bad("claims", "show", path, "--book", book, "--format", form)
                    self.assertIn("out.dat: byte 41: a claim on %s, which the book does not have: it is not this book" % words, error)
            self.good("claims", "show", path)

    def test_columns_are_aligned(self):
        data = claim(payer=15, interest=1) + claim(interest=1_800_000_000_000, principal=2 ** 64 - 1) + answer(0)
        head, first, second = self.shown(data).split("\n")[:3]
        self.assertEqual(head.index("interest") + len("interest"), first.index(" 0.01") + 5)
        self.assertEqual(second.index("18,000,000,000.00") + 17, first.index(" 0.01") + 5)
        self.assertIn("184,467,440,737,095,516.15", second)

    def test_notices_with_their_reasons(self):
        for outcome, short, reason in ((1, "both zero", "both amounts are zero"), (2, "redeemed", "the payment redeems the security"),
                                       (3, "restricted", "the payer's payment went to a non-interest-bearing account")):
            for kind, word in ((3, " loan "), (4, " repo ")):
                data = claim(kind, outcome, transfer=0, release=0, slot=0) + answer(0)
                line = self.shown(data).split("\n")[1]
                self.assertTrue(word in line and line.endswith("  notice   " + short), line)
                self.assertEqual(self.objects(data)[0]["reason"], reason)

    def test_times(self):
        for slot, time in ((1, "8:05"), (2, "8:45"), (3, "day")):
            self.assertTrue(self.shown(claim(slot=slot) + answer(0)).split("\n")[1].endswith("  " + time))

    def test_every_answer(self):
        for number, meaning in claims.MEANINGS.items():
            line = self.shown(answer(number)).split("\n")[1]
            self.assertIn("  REFUSED %d, %s" % (number, meaning) if number else "  accepted", line)
            self.assertEqual(self.objects(answer(number))[0]["meaning"], meaning)

    def test_refusals_are_counted_on_standard_error(self):
        path = self.file("out.dat", answer(0) + answer(7) + claim() + answer(0) + answer(6))
        self.assertEqual(self.call("claims", "show", path)[2], "claimdesk: 2 of 4 messages refused\n")
        self.assertEqual(self.call("claims", "show", self.file("out.dat", OUTPUT))[2], "")

    def test_only(self):
        data = claim() + claim(3, 1, transfer=0, release=0, slot=0) + answer(0) + answer(7)
        for only, kinds in (("claims", ["claim"]), ("notices", ["notice"]), ("refused", ["answer"])):
            self.assertEqual([entry["record"] for entry in self.objects(data, "--only", only)], kinds)
            lines = self.shown(data, "--only", only).split("\n")
            self.assertEqual(len(lines), 3)
        self.assertIn("REFUSED 7", lines[1])

    def test_width_of_a_terminal(self):
        """Names are cut where the terminal is narrow, and nothing is wider than it."""
        wide = [len(line) for line in self.table(None)]
        self.assertGreater(max(wide), 100)
        for width in (100, 120):
            lines = self.table(width)
            self.assertLessEqual(max(map(len, lines)), width)
            self.assertTrue(any("18,000,000,000.00" in line for line in lines))
        self.assertIn("…", "".join(self.table(100)))

    def table(self, width, colour=False):
        """Claims between long names, as a table for a terminal."""
        names = Names()
        names.accounts = {1: "The First Bank of the Long Name", 2: "The Second Bank of the Long Name"}
        names.securities = {0: "A pool with a name of its own"}
        data = claim(interest=1_800_000_000_000) + answer(0) + answer(6)
        view = claims_text.View(width, colour)
        output = io.BytesIO(data)

        def start():
            output.seek(0)
            return view.counted(claims_text.entries(claims.numbered(claims.records(output, "out")), None))

        return "".join(claims_text.text(start, None, names, view)).split("\n")

    def test_colour_is_never_the_only_sign(self):
        plain, coloured = self.table(120), self.table(120, True)
        self.assertEqual([re.sub("\033\\[[0-9]*m", "", line) for line in coloured], plain)
        self.assertTrue(any("REFUSED 6" in line for line in plain))
        self.assertNotEqual(plain, coloured)

    def test_messages_are_counted(self):
        found = self.objects(answer(0) + claim() + claim() + answer(0) + answer(6))
        self.assertEqual([entry["message"] for entry in found], [1, 2, 2, 2, 3])

    def test_an_answer_about_the_book_has_no_message(self):
        self.assertEqual(self.objects(answer(3))[0]["message"], None)
        self.assertIn("-  REFUSED 3, a table breaks a rule: the book", self.shown(answer(3)))

    def test_json(self):
        self.assertEqual(self.objects(OUTPUT, "--book", CASE_BOOK), [
            {"message": 1, "record": "claim", "type": "fail", "outcome": 0, "payer": 1, "payee": 2, "security": 0, "row": 0,
             "beneficiary_date": "2023-04-01", "transfer": 1, "interest": "1000.00", "principal": "0.00",
             "release_date": "2023-04-17", "slot": 3, "time": "during the day"},
            {"message": 1, "record": "answer", "answer": 0, "meaning": "accepted"}])
        self.assertEqual(self.objects(b""), [])

    def test_csv(self):
        rows = list(csv.DictReader(io.StringIO(self.shown(OUTPUT, "--format", "csv"))))
        self.assertEqual([row["record"] for row in rows], ["claim", "answer"])
        self.assertEqual((rows[0]["interest"], rows[0]["release_date"], rows[1]["meaning"]),
                         ("1000.00", "2023-04-17", "accepted"))

    def test_fields_of_the_message(self):
        """Columns of the message, a lending claim without a transfer, and no cell that a spreadsheet would run."""
        source = self.file("m.toml", '[[message]]\nsender = 1\nreceiver = 2\nsecurity = 0\npar = 200_000\ncontract_date = 2023-03-15\n'
                           'text2 = "=1+1"\n\n[[message]]\nclose = 1\n')
        self.good("messages", "make", source, "-o", self.path("m.dat"))
        data = OUTPUT + claim(3, transfer=0) + answer(0)
        args = ("--messages", self.path("m.dat"), "--book", CASE_BOOK)
        found = self.objects(data, *args)
        self.assertEqual({key: found[1][key] for key in ("call", "code", "sender", "receiver", "market", "par", "contract_date", "text2")},
                         {"call": "transfer", "code": "none", "sender": 1, "receiver": 2, "market": "secondary", "par": 200_000,
                          "contract_date": "2023-03-15", "text2": "=1+1"})
        self.assertNotIn("transfer", found[2])
        self.assertEqual((found[3]["call"], found[3]["day"]), ("close", "2023-04-05"))
        rows = list(csv.DictReader(io.StringIO(self.shown(data, "--format", "csv", *args))))
        self.assertEqual((rows[1]["text2"], rows[2]["transfer"], rows[3]["day"]), ("'=1+1", "", "2023-04-05"))
        self.assertIn("accepted: close, to 2023-04-05", self.shown(data, *args))

    def test_empty_tag(self):
        """It is told beside what else stands in the lines, and is no date."""
        source = self.file("m.toml", '[[message]]\nsender = 1\nreceiver = 2\nsecurity = 0\npar = 200_000\ncontract_date = "empty"\n'
                           'text2 = "more"\n')
        self.good("messages", "make", source, "-o", self.path("m.dat"))
        args = ("--messages", self.path("m.dat"))
        found = self.objects(answer(135), *args)[0]
        self.assertEqual((found["contract_date"], found.get("text1"), found["text2"]), ("empty", None, "more"))
        rows = list(csv.DictReader(io.StringIO(self.shown(answer(135), "--format", "csv", *args))))
        self.assertEqual((rows[0]["contract_date"], rows[0]["text1"], rows[0]["text2"]), ("empty", "", "more"))
        self.assertIn("REFUSED 135, the Contract Date tag holds no date: transfer account 1 to account 2, security 0, par 200,000, "
                      "empty Contract Date tag, more\n", self.shown(answer(135), *args))

    def test_nothing_is_added_up(self):
        data = (claim(interest=1234) + answer(0)) * 2
        for form in ("text", "csv", "json"):
            self.assertNotIn("24.68", self.shown(data, "--format", form))

    def test_output_that_is_none(self):
        for data, words in ((OUTPUT[:-1], "byte 35: the record that begins here is cut short"),
                            (OUTPUT[:3], "byte 0: the record that begins here is cut short"),
                            (OUTPUT + b"\2\0\2\0", "byte 41: no claim or answer begins here (bytes 02 00 02 00)"),
                            (answer(131), "byte 0: the answer 131 has no meaning"),
                            (answer(0) + claim(kind=5), "byte 6: a claim with type 5; allowed: 1, 2, 3, 4"),
                            (claim(outcome=4), "a claim with outcome 4"), (claim(payer=16), "a claim with payer 16"),
                            (claim(payee=16), "a claim with payee 16"), (claim(security=16), "a claim with security 16"),
                            (claim(row=16), "a claim with row 16"), (claim(slot=4), "a claim with slot 4")):
            for form in ("text", "csv", "json"):
                self.assertIn(words, self.bad("claims", "show", self.file("out.dat", data), "--format", form))
                self.assertIn("standard input: byte ", self.bad("claims", "show", "--format", form, given=data))


if __name__ == "__main__":
    unittest.main()
