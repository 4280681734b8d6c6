"""Checks of claimrun's output against the messages that were sent."""
import io
import os
import struct
import unittest

import common
from common import CASE_MESSAGES, CASE_OUTPUT, content
from desk import checking, layout
from desk.errors import Fault
from test_claims import answer, claim

CLOSE = bytes([2, 0, 2, 0])
TRANSFER = content(CASE_MESSAGES)
OUTPUT = content(CASE_OUTPUT)
INTERIM = claim(2)
LENDING, REPO = claim(3, transfer=0), claim(4, transfer=0)
VECTORS = os.path.join(common.ROOT, "crates", "vectors", "data", "streams.in")


def vectors():
    """Messages and output of each stream of crates/vectors, made by the reference."""
    data, found, at = content(VECTORS), [], 0
    while at < len(data):
        size = struct.unpack_from("<I", data, at)[0]
        found.append(data[at + 4:at + 4 + size])
        at += 4 + size
    return list(zip(found[1::3], found[2::3]))


def record_ends(output):
    """Where the records of an output end."""
    ends = [0]
    while ends[-1] < len(output):
        ends.append(ends[-1] + 2 + struct.unpack_from("<H", output, ends[-1])[0])
    return ends


def check(messages, output):
    return checking.check(layout.messages(io.BytesIO(messages)), io.BytesIO(output), "output")


class Checks(common.Desk):
    def paths(self, messages, output):
        return self.file("messages.dat", messages), self.file("claims.dat", output)

    def agreed(self, messages, output):
        """The line of a check that finds nothing wrong."""
        return self.good("claims", "check", *self.paths(messages, output)).decode()

    def refused(self, words, messages, output):
        """The check fails with these words, and so does show, which shows the records all the same."""
        sent, claims = self.paths(messages, output)
        error = self.bad("claims", "check", sent, claims)
        self.assertIn("claims.dat: " + words, error)
        self.assertEqual(self.call("claims", "show", claims, "--messages", sent), (1, self.good("claims", "show", claims), error))

    def test_hex_example(self):
        self.assertEqual(self.agreed(TRANSFER, OUTPUT), "1 message, 1 answer, 1 claim, 0 notices\n")

    def test_counts(self):
        notice = claim(outcome=3, release=0, slot=0)
        output = OUTPUT + notice * 2 + answer(0) + answer(0) * 1199 + LENDING + REPO + answer(0)
        self.assertEqual(self.agreed(TRANSFER * 2 + CLOSE * 1200, output), "1,202 messages, 1,202 answers, 3 claims, 2 notices\n")
        self.assertEqual(self.agreed(b"", b""), "0 messages, 0 answers, 0 claims, 0 notices\n")

    def test_interim_claims_are_a_transfers(self):
        self.assertEqual(self.agreed(TRANSFER * 2, claim() + INTERIM * 2 + answer(0) + INTERIM + answer(0)),
                         "2 messages, 2 answers, 4 claims, 0 notices\n")

    def test_refused_messages(self):
        self.assertEqual(self.agreed(TRANSFER + CLOSE + TRANSFER, answer(138) + answer(9) + OUTPUT),
                         "3 messages, 3 answers, 1 claim, 0 notices\n")

    def test_refused_book(self):
        for number in (1, 2, 3, 4):
            self.assertIn("2 messages, 1 answer, 0 claims, 0 notices: the book is refused with %d, " % number,
                          self.agreed(TRANSFER + CLOSE, answer(number)))

    def test_five_ends_it(self):
        for rest in (b"\2", TRANSFER[:140], b"\7\0\7\0" + TRANSFER * 3):
            self.assertEqual(self.agreed(TRANSFER + rest, OUTPUT + answer(5)),
                             "2 messages, 2 answers, 1 claim, 0 notices: claimrun stops at message 2, which is no whole record\n")

    def test_cut_at_the_end_of_a_record(self):
        self.refused("its end, byte 0: message 1 of 2 has no answer: the output is cut", TRANSFER + CLOSE, b"")
        self.refused("its end, byte 41: message 2 of 2 has no answer: the output is cut", TRANSFER + CLOSE, OUTPUT)
        self.refused("its end, byte 41: message 2 of 2 has no answer", TRANSFER + b"\2", OUTPUT)
        self.refused("its end, byte 35: the claims of message 1 have no answer: the output is cut", TRANSFER, OUTPUT[:35])

    def test_cut_within_a_record(self):
        sent, claims = self.paths(TRANSFER, OUTPUT[:-1])
        for args in (("check", sent, claims), ("show", claims, "--messages", sent)):
            self.assertIn("claims.dat: byte 35: the record that begins here is cut short", self.bad("claims", *args))

    def test_more_answers_than_messages(self):
        self.refused("record 3, byte 41: there is no message 2 that it could answer", TRANSFER, OUTPUT + answer(0))
        self.refused("record 1, byte 0: there is no message 1 that it could answer", b"", OUTPUT)
        self.refused("record 4, byte 47: there is no message 3 that it could answer", TRANSFER + b"\2", OUTPUT + answer(5) + answer(0))

    def test_answers_about_the_book_stand_alone(self):
        self.refused("record 2, byte 6: follows the answer 3, which is about the book", TRANSFER, answer(3) + answer(0))
        self.refused("record 3, byte 41: the answer 4 is about the book and stands behind other records", TRANSFER * 2, OUTPUT + answer(4))

    def test_answers_of_other_messages(self):
        self.refused("record 1, byte 0: message 1 is answered with 5", TRANSFER, answer(5))
        self.refused("record 1, byte 0: message 1 is answered with 0", b"\2", answer(0))
        self.refused("record 2, byte 35: message 1 is refused with 6, and there are claims of it", TRANSFER, OUTPUT[:35] + answer(6))

    def test_claims_of_other_messages(self):
        for messages, record in ((CLOSE, claim()), (CLOSE, INTERIM), (TRANSFER, LENDING), (TRANSFER, claim(4)), (TRANSFER, claim(payer=3)),
                                 (TRANSFER, claim(payee=3)), (TRANSFER, claim(2, payee=3)), (TRANSFER, claim(security=1)), (b"\2", claim()),
                                 (b"\2", REPO)):
            self.refused("record 1, byte 0: a claim that message 1 cannot give", messages, record + answer(0))

    def test_a_failed_check_writes_no_file(self):
        sent, claims = self.paths(TRANSFER + CLOSE, OUTPUT)
        there = self.file("there", "as it was")
        for args in (("check", sent, claims), ("show", claims, "--messages", sent)):
            self.bad("claims", *args, "-o", there)
        self.assertEqual(content(there), b"as it was")
        self.good("claims", "check", self.file("messages.dat", TRANSFER), claims, "-o", there)
        self.assertEqual(content(there), b"1 message, 1 answer, 1 claim, 0 notices\n")

    def test_show_of_what_agrees(self):
        sent, claims = self.paths(TRANSFER, OUTPUT)
        shown = self.good("claims", "show", claims, "--messages", sent)
        self.assertIn(b"accepted: transfer account 1 to account 2, security 0, par 200,000, Contract Date 2023-03-15", shown)
        self.assertEqual(self.good("claims", "show", "--messages", sent, given=OUTPUT), shown)
        self.assertEqual(self.good("claims", "show", "-", "--messages", sent, "-o", "-", given=OUTPUT), shown)

    def test_files(self):
        sent, claims = self.paths(TRANSFER, OUTPUT)
        for args in (("check", self.path("none"), claims), ("check", sent, self.path("none")),
                     ("show", claims, "--messages", self.path("none"))):
            self.assertIn("none: there is no such file", self.bad("claims", *args))
        for path in (sent, claims):
            self.assertIn("would overwrite the input", self.bad("claims", "check", sent, claims, "-o", path))
            self.assertIn("would overwrite the input", self.bad("claims", "show", claims, "--messages", sent, "-o", path))

    def test_streams_of_the_reference(self):
        """Each agrees whole. Cut at the end of any record, or with an answer more, none does."""
        cut = 0
        for messages, output in vectors():
            check(messages, output)
            for end in record_ends(output)[:-1] if messages else ():
                self.assertRaises(Fault, check, messages, output[:end])
                cut += 1
            self.assertRaises(Fault, check, messages, output + answer(0))
        self.assertGreater(cut, 1000)


if __name__ == "__main__":
    unittest.main()
