"""The C programs under examples/: what they print, and a stream served with buffers of several sizes."""
import os
import subprocess
import sys
import unittest

import building

sys.path.insert(0, os.path.join(building.ROOT, "tests", "claimrun"))
import common  # noqa: E402

FIRST_CLAIM = """0 accepted, transfer 1
account 1 pays account 2 100000 cents of interest on 20230417
"""
CARRY_OVER = """carry over: 0 accepted, day 20230331, transfer 3
return of 5,000: 0 accepted, day 20230331, transfer 4
close: 0 accepted, day 20230403, transfer 4
account 2 pays account 1 5000 cents of interest on 20230417
"""
MARK_AND_RETURN = """loan of 15,000: 0 accepted, day 20230331, transfer 1
set mark 1: 0 accepted
close: 0 accepted, day 20230403, transfer 1
account 2 pays account 1 7500 cents of interest on 20230417
return to mark 1: 0 accepted, day 20230331, transfer 1
return of 5,000: 0 accepted, day 20230331, transfer 2
close: 0 accepted, day 20230403, transfer 2
account 2 pays account 1 5000 cents of interest on 20230417
"""
FORECASTS = (          # of the run of document 01's example: account, date, status, what is printed
    ("1", "20230417", 0, "0 accepted\naccount 1 on 20230417: pays 100000 cents, receives 0, receive less pay -100000\n"),
    ("2", "20230417", 0, "0 accepted\naccount 2 on 20230417: pays 0 cents, receives 100000, receive less pay 100000\n"),
    ("2", "20230418", 0, "0 accepted\naccount 2 on 20230418: pays 0 cents, receives 0, receive less pay 0\n"),
    ("16", "20230417", 1, "18 the account or the date of a forecast is wrong, or a claim record of its run is cut or bad\n"))
STORED = ("closed-opening-day", "full-output", "fill-points-at", "many-reads")
ROOM = common.RECORD_ROOM


class Examples(building.Library):
    def prints(self, source, words):
        """A program without arguments prints these words, however it is compiled."""
        for compiler in building.c_compilers():
            for standard in ("c99", "c11"):
                with self.subTest(compiler=compiler, standard=standard):
                    program = self.build(source, "-std=" + standard, compiler=compiler)
                    run = subprocess.run([program], capture_output=True, text=True, timeout=building.SECONDS)
                    self.assertEqual((run.returncode, run.stderr, run.stdout), (0, "", words))

    def test_first_claim(self):
        self.prints("examples/first_claim.c", FIRST_CLAIM)

    def test_carry_over(self):
        self.prints("examples/carry_over.c", CARRY_OVER)

    def test_mark_and_return(self):
        self.prints("examples/mark_and_return.c", MARK_AND_RETURN)

    def test_cash_forecast(self):
        """Answers are left out, before, between and behind claims; all else goes to the library."""
        program = self.build("examples/cash_forecast.c", "-std=c11")
        with open(os.path.join(building.ROOT, "crates", "claimrun", "stdout"), "rb") as file:
            output = file.read()
        claim, answer = output[:35], output[35:]

        def found(account, date, given):
            run = subprocess.run([program, account, date], input=given, capture_output=True, timeout=building.SECONDS)
            self.assertEqual(run.stderr, b"")
            return run.returncode, run.stdout.decode()

        for account, date, status, words in FORECASTS:
            for given in (output, claim, answer + output + answer):
                self.assertEqual(found(account, date, given), (status, words))
        for given in (output[:-1], output[:34], claim + b"\0", answer + b"\2\0\2\0" + claim):
            self.assertEqual(found("1", "20230417", given), FORECASTS[-1][2:])
        self.assertEqual(found("1", "20230417", output * 4000)[1].splitlines()[1],
                         "account 1 on 20230417: pays 400000000 cents, receives 0, receive less pay -400000000")

    def test_readme_shows_the_first_claim(self):
        shown = "".join("    " + line for line in FIRST_CLAIM.splitlines(keepends=True))
        self.assertTrue(shown in building.content("README.md"), "README.md does not show:\n" + shown)


class Streams(building.Library):
    """The example that serves a stream. What it is to write comes from the reference."""

    def program(self, *rooms):
        """The example with buffers of these sizes."""
        words = ["-D%s_ROOM=%d" % pair for pair in zip(("INPUT", "OUTPUT"), rooms)]
        return self.build("examples/serve_stream.c", "-std=gnu11", *words)

    def serve(self, program, stream):
        """A run of the example on a stream."""
        book = self.file("book.dat", stream.book) if stream.book else self.path("missing.dat")
        with open(self.file("input", stream.data), "rb") as given:
            return subprocess.run([program, book], stdin=given, capture_output=True, timeout=building.SECONDS)

    def serves(self, program, streams):
        for number, stream in enumerate(streams):
            with self.subTest(stream=number):
                run = self.serve(program, stream)
                self.assertEqual((run.returncode, run.stderr, run.stdout == stream.expected), (0, b"", True))

    def test_all_streams(self):
        """The streams of crates/vectors, with the least output and the least input."""
        self.serves(self.program(141, ROOM), common.vectors())

    def test_claims_that_fill_the_output(self):
        """Many records wait in the input while the output is full."""
        streams = list(map(common.stored, STORED))
        self.serves(self.program(65536, ROOM), streams)
        self.serves(self.program(65536, 4 * 65536), streams)

    def test_no_room_for_a_record(self):
        """One byte less than a record asks for: the run ends, and says why."""
        run = self.serve(self.program(65536, ROOM - 1), common.stored("full-output"))
        self.assertEqual((run.returncode, run.stdout), (1, b""))
        self.assertEqual(run.stderr, b"serve_stream: the output buffer has no room for a record\n")


if __name__ == "__main__":
    unittest.main()
