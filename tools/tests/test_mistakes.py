"""All mistakes of a source in one run, in the order of their lines."""
import os
import unittest
from unittest import mock

import common
from common import BOOK, MESSAGES, PAIR

WHOLE = BOOK + MESSAGES


class Sources(common.Desk):
    def found(self, *args):
        """The lines of a call's errors without file and what is allowed: line number and what is wrong."""
        lines = self.bad(*args, "-o", self.path("out")).split("\n")[:-1]
        return [line.split("/")[-1].split("; allowed: ")[0] for line in lines]

    def changed(self, text, *pairs):
        """A source with these changes."""
        for old, new in pairs:
            self.assertIn(old, text)
            text = text.replace(old, new, 1)
        return self.file("s.toml", text)


class AllMistakes(Sources):
    def test_in_every_part(self):
        source = self.changed(
            WHOLE, ("2023-04-04", "2023-04-01"), ("1 = ", "16 = "),
            ("[[security]]", '[calendar]\nclosed = [1, 2023-05-01, "x"]\n[[security]]'),
            ("agency MBS", "MBS"), ("payment = 2023-04-15", "payment = 2040-01-01"), ('interest = "0.005"', 'interest = "half"\nfinal = 3'),
            ("par = 200_000", 'par = 0\ncode = "SLTS"'), ("close = 2", "close = -1"))
        wrong = ["s.toml:4: accounts, 16: is no account",
                 "s.toml:8: calendar, closed: 1 is no date here",
                 's.toml:8: calendar, closed: "x" is no date here',
                 's.toml:12: [[security]] 1, type: "MBS" is not known',
                 "s.toml:18: [[security]] 1, payment 1, payment: 2040-01-01 is no date here",
                 's.toml:19: [[security]] 1, payment 1, interest: "half" is no decimal number',
                 "s.toml:20: [[security]] 1, payment 1, final: 3 is neither true nor false",
                 's.toml:29: [[message]] 1, sender: "First Bank" is not known',
                 "s.toml:32: [[message]] 1, par: 0 is out of range",
                 's.toml:33: [[message]] 1, code: "SLTS" is not known',
                 "s.toml:37: [[message]] 2, close: -1 is out of range"]
        self.assertEqual(self.found("run", source), wrong)
        self.assertEqual(self.found("messages", "make", source), wrong)
        self.assertEqual(self.found("book", "make", source), wrong[:7])

    def test_of_one_message(self):
        source = self.changed(WHOLE, ('"First Bank"\nreceiver', '"No Bank"\nreceiver'), ("receiver = 2", "receiver = 99"),
                              ('"Pool"\npar', "5.5\npar"),
                              ("par = 200_000", 'par = "1"\nmarket = 1\ncode = 2\ntext1 = 3\ntext2 = "é"'), ("2023-03-15", '"soon"'))
        self.assertEqual([line.split(", ")[-1].split(":")[0] for line in self.found("run", source)],
                         ["sender", "receiver", "security", "par", "market", "code", "text1", "text2", "contract_date"])

    def test_of_one_payment(self):
        """All date rules are told, and none on dates that are wrong themselves."""
        source = self.changed(WHOLE, ("record = 2023-05-01", "record = 2023-04-01"),
                              ("beneficiary = 2023-05-01", "beneficiary = 2023-05-16"))
        self.assertEqual(self.found("run", source), [
            "s.toml:20: [[security]] 1, payment 2, record: 2023-04-01 is not after the Record Date before it, 2023-04-01",
            "s.toml:21: [[security]] 1, payment 2, beneficiary: 2023-05-16 is after its Payment Date, 2023-05-15"])
        source = self.changed(WHOLE, ("record = 2023-05-01", "record = 1"))
        self.assertEqual(self.found("run", source), ["s.toml:20: [[security]] 1, payment 2, record: 1 is no date here"])

    def test_of_two_files(self):
        self.file("b.toml", BOOK.replace("monthly", "weekly"))
        self.file("m.csv", "sender,receiver,security,par\n1,2,0,5\n1,2,0\n1,1,0,5\nFirst Bank,2,Pool,0\n")
        source = self.file("s.toml", 'book = "b.toml"\nmessages = "m.csv"\n')
        self.assertEqual(self.found("run", source), [
            'b.toml:11: [[security]] 1, frequency: "weekly" is not known', "m.csv:3: 3 cells",
            "m.csv:4: receiver: account 1 is the sender too", "m.csv:5: par: 0 is out of range"])

    def test_beside_a_file_that_cannot_be_read(self):
        source = self.file("s.toml", 'messages = "none.csv"\n' + BOOK.replace("monthly", "weekly"))
        self.assertEqual(self.found("run", source), ['s.toml:12: [[security]] 1, frequency: "weekly" is not known',
                                                     "none.csv: there is no such file"])

    def test_of_a_pair(self):
        source = self.changed(BOOK + PAIR, ("settlement_day = 2023-04-04", "settlement_day = 2023-04-01"), ("par = 200_000", "par = 0"),
                              ("settlement_day = 2023-03-31\nsender = 1", "settlement_day = 2023-03-31\nsender = 2"))
        self.assertEqual(self.found("board", source), [
            "s.toml:27: [[transfer]] 1, settlement_day: 2023-04-01, a Saturday, is closed",
            "s.toml:31: [[transfer]] 1, par: 0 is out of range",
            "s.toml:38: [[transfer]] 2, receiver: account 2 is the sender too"])

    def test_columns_of_a_header(self):
        source = self.file("m.csv", "sendr,par,par,date\n1,2,3,4,5\n")
        self.assertEqual(self.found("messages", "make", source), [
            'm.csv:1: unknown column "sendr" (meant: sender?)', "m.csv:1: column par stands there twice",
            'm.csv:1: unknown column "date"'])

    def test_a_misspelt_key_is_told_once(self):
        """What is missing for it is not told too."""
        for old, new in (("opening_day", "opening_dya"), ("frequency", "frequenzy"), ("record", "recrod"), ("interest", "intrest"),
                         ("sender", "sendr"), ("par = ", "pra = "), ("[[message]]", "[[mesage]]")):
            text = WHOLE if new != "[[mesage]]" else WHOLE.replace("[[message]]", "[[mesage]]")
            source = self.file("s.toml", text.replace(old, new, 1))
            (line,) = self.found("run", source)
            self.assertIn("unknown key (meant: %s?)" % old.strip("[] ="), line)

    def test_at_most_twenty(self):
        for count, told in ((19, 19), (20, 20), (500, 20)):
            source = self.file("m.csv", "close\n" + "0\n" * count)
            lines = self.found("messages", "make", source)
            self.assertEqual(lines[:told], ["m.csv:%d: close: 0 is out of range" % line for line in range(2, told + 2)])
            self.assertEqual(lines[told:], ["claimdesk: there may be more; 20 mistakes are told at most"] if told == 20 else [])


class Checks(Sources):
    """claimdesk check, which runs nothing."""

    def judged(self, path, *args):
        return self.good("check", path, *args).decode().split("/")[-1]

    def test_sources_without_mistakes(self):
        book, pool = self.file("b.toml", BOOK), self.file("m.csv", "sender,receiver,security,par\nFirst Bank,2,Pool,5\n")
        for path, args, words in (
                (self.file("s.toml", WHOLE), (), "s.toml: no mistakes in the book and 3 messages\n"),
                (book, (), "b.toml: no mistakes in the book\n"),
                (pool, ("--book", book), "m.csv: no mistakes in 1 message\n"),
                (self.file("m.toml", "[[message]]\nclose = 1200\n"), (), "m.toml: no mistakes in 1,200 messages\n"),
                (self.file("two.toml", 'book = "b.toml"\nmessages = "m.csv"\n'), (), "two.toml: no mistakes in the book and 1 message\n"),
                (self.file("pair.toml", BOOK + PAIR), (), "pair.toml: no mistakes in the book and two transfers\n")):
            self.assertEqual(self.judged(path, *args), words)

    def test_examples(self):
        for name in os.listdir(common.EXAMPLES):
            if name.endswith((".toml", ".csv")):
                args = ("--book", os.path.join(common.EXAMPLES, "busy-day.toml")) if name.endswith(".csv") else ()
                self.assertIn(name + ": no mistakes in ", self.judged(os.path.join(common.EXAMPLES, name), *args))

    def test_the_same_mistakes_as_run_and_board_tell(self):
        for text, command in ((WHOLE.replace("200_000", "0").replace("agency MBS", "MBS").replace("opening_day", "day"), "run"),
                              ((BOOK + PAIR).replace("200_000", "0").replace("monthly", "weekly"), "board")):
            source = self.file("s.toml", text)
            self.assertGreater(len(self.found("check", source)), 2)
            self.assertEqual(self.found("check", source), self.found(command, source))

    def test_a_source_with_nothing(self):
        self.assertEqual(self.found("check", self.file("s.toml", "")), ["s.toml:1: opening_day: is missing"])

    def test_runs_nothing(self):
        """It works where claimrun is not built."""
        with mock.patch.object(common.running, "PROGRAM", self.path("none")):
            for text in (WHOLE, BOOK + PAIR):
                self.judged(self.file("s.toml", text))


if __name__ == "__main__":
    unittest.main()
