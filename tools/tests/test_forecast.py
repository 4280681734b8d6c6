"""The cash forecast: the library's figures as the desk shows them, what the library is handed, refusals. Figures are worked out by hand."""
import csv
import io
import json
import os
import re
import shlex
import shutil
import subprocess
import tempfile
import unittest
from unittest import mock

import common
from common import BOOK, CASE_OUTPUT, content
from test_claims import answer, claim

DAY, OTHER_DAY = 20230417, 20230418
MOST = 9_007_199_254_740_992
IN_WORDS = {18: "the forecast is refused with 18, the account or the date of a forecast is wrong, or a claim record of its run is cut or "
            "bad; allowed: claims of 35 bytes, each between two different accounts from 0 to 15, and answers of 6 bytes between them\n",
            19: "the forecast is refused with 19, the cents to pay or to receive go past 9,007,199,254,740,992\n"}
HEADING = "account  release     to pay  to receive  receive less pay\n"
ZEROS = HEADING + "1        2023-04-17    0.00        0.00              0.00\n"
STAND_IN = """#include "claim_tracker.h"
struct claim_tracker_cash_forecast claim_tracker_forecast(const uint8_t *claims, size_t claim_bytes, uint32_t account, uint32_t date)
{
    (void)claims, (void)claim_bytes, (void)account, (void)date;
    return (struct claim_tracker_cash_forecast){%s};
}
"""
PREFIX = tempfile.mkdtemp()
LIBRARY = os.path.join(PREFIX, "lib", "libclaim_tracker.so.2")
unittest.addModuleCleanup(shutil.rmtree, PREFIX)


def setUpModule():
    run = subprocess.run([os.path.join(common.TOOLS, "install"), PREFIX], capture_output=True, text=True, env=os.environ | {"DESTDIR": ""})
    if run.returncode != 0:
        raise AssertionError(run.stderr)


# Of account 1 on 17 April 1,000.06 to pay and 200.07 to receive: all types, amounts of one cent and of 0. The rest does not count.
RUN = (claim(payer=1, payee=2, interest=100_000, principal=5), claim(3, payer=3, payee=1, transfer=0, interest=7, principal=20_000),
       claim(payer=1, payee=2, interest=900_000, release=OTHER_DAY), claim(4, payer=1, payee=4, transfer=0, interest=1),
       claim(3, 1, payer=1, payee=2, transfer=0, interest=0, release=0, slot=0), claim(2, payer=2, payee=1, interest=0, principal=0),
       claim(3, 2, payer=2, payee=1, transfer=0, principal=800_000, release=0, slot=0), claim(payer=2, payee=3, interest=3_333),
       claim(1, 3, payer=1, payee=3, interest=700_000, release=DAY))
FIGURES = {1: ("1000.06", "200.07", "-799.99"), 2: ("33.33", "1000.05", "966.72"), 3: ("200.07", "33.33", "-166.74"),
           4: ("0.00", "0.01", "0.01"), 0: ("0.00", "0.00", "0.00"), 15: ("0.00", "0.00", "0.00")}


class Forecast(common.Desk):
    """claimdesk with the installed library."""

    def setUp(self):
        super().setUp()
        self.use(LIBRARY)

    def use(self, library):
        """Names the library; with None the one beside the module is meant."""
        patch = mock.patch.dict(os.environ, {} if library is None else {"CLAIM_TRACKER_LIBRARY": library})
        patch.start()
        self.addCleanup(patch.stop)
        if library is None:
            os.environ.pop("CLAIM_TRACKER_LIBRARY", None)

    def words(self, data, *more, account=1, date="2023-04-17"):
        """The words of a command about these bytes."""
        return "forecast", self.file("claims.dat", data), "--account", str(account), "--date", date, *more

    def shown(self, data, *more, **words):
        return self.good(*self.words(data, *more, **words)).decode()

    def figures(self, data, **words):
        """The three figures in JSON."""
        found = json.loads(self.shown(data, "--format", "json", **words))
        return found["pay"], found["receive"], found["difference"]

    def refused(self, number, place, data, **words):
        """The forecast is refused with a number at a byte, and no figure is shown."""
        self.assertEqual(self.bad(*self.words(data, **words)),
                         "claimdesk: %s: byte %d: %s" % (self.path("claims.dat"), place, IN_WORDS[number]))


class Figures(Forecast):
    def test_counted_and_not_counted(self):
        """Claims that settle on the date count for payer and payee; notices, other dates and other accounts do not."""
        for account, figures in FIGURES.items():
            self.assertEqual(self.figures(b"".join(RUN), account=account), figures)
        for account, figures in {1: ("9000.00", "0.00", "-9000.00"), 2: ("0.00", "9000.00", "9000.00"), 3: ("0.00",) * 3}.items():
            self.assertEqual(self.figures(b"".join(RUN), account=account, date="20230418"), figures)
        self.assertEqual(self.figures(b"".join(RUN), date="2023-04-19"), ("0.00",) * 3)

    def test_notices(self):
        """No outcome but 0 counts, whatever release date stands in the record."""
        for outcome in (1, 2, 3, 255):
            for release in (0, DAY):
                self.assertEqual(self.figures(claim(1, outcome, release=release) + claim(interest=1)), ("0.01", "0.00", "-0.01"))

    def test_difference(self):
        for receive, figures in ((10_000, ("100.00", "100.00", "0.00")), (9_999, ("100.00", "99.99", "-0.01")),
                                 (10_001, ("100.00", "100.01", "0.01")), (9_900, ("100.00", "99.00", "-1.00")),
                                 (9_899, ("100.00", "98.99", "-1.01")), (110_010_000, ("100.00", "1100100.00", "1100000.00"))):
            self.assertEqual(self.figures(claim(interest=10_000) + claim(payer=2, payee=1, interest=receive)), figures)

    def test_other_fields_are_not_judged(self):
        """Those that the library does not judge the desk does not either."""
        self.assertEqual(self.figures(claim(9, security=200, row=77, slot=9)), ("1000.00", "0.00", "-1000.00"))

    def test_answers_are_left_out(self):
        apart = answer(0) + b"".join(record + answer(0) * count for count, record in enumerate(RUN)) + answer(0)
        for form in ("text", "csv", "json"):
            self.assertEqual(self.shown(apart, "--format", form), self.shown(b"".join(RUN), "--format", form))

    def test_standard_input(self):
        data = b"".join(RUN) + answer(0)
        self.assertEqual(self.good("forecast", "-", "--account", "1", "--date", "2023-04-17", given=data).decode(), self.shown(data))
        self.assertIn("claimdesk: standard input: byte 321: the forecast is refused with 18",
                      self.bad("forecast", "-", "--account", "1", "--date", "2023-04-17", given=data + b"\0"))

    def test_nothing(self):
        for data in (b"", answer(0), answer(0) * 3):
            self.assertEqual(self.shown(data), ZEROS)

    def test_refusals_are_counted_on_standard_error(self):
        """Refused messages have no claims; that there are some is told, as for other commands."""
        status, output, errors = self.call(*self.words(answer(3)))
        self.assertEqual((status, output.decode(), errors), (0, ZEROS, "claimdesk: 1 of 1 message refused\n"))
        self.assertEqual(self.call(*self.words(answer(0) + RUN[0] + answer(0) + answer(10) + answer(7)))[2],
                         "claimdesk: 2 of 4 messages refused\n")

    def test_example(self):
        """A claim of 1,000.00 from account 1 to account 2, as claimrun wrote it."""
        self.assertEqual(self.shown(content(CASE_OUTPUT)), "account  release       to pay  to receive  receive less pay\n"
                                                           "1        2023-04-17  1,000.00        0.00         -1,000.00\n")

    def test_largest_sum(self):
        """2 to the power of 53 cents, in one claim and in several, are exact, and so are those below."""
        for run in (claim(interest=MOST), claim(interest=MOST - 1, principal=1), claim(interest=MOST - 3) + claim(interest=1) * 3):
            self.assertEqual(self.figures(run), ("90071992547409.92", "0.00", "-90071992547409.92"))
        both = claim(interest=MOST) + claim(payer=2, payee=1, interest=MOST - 1)
        self.assertEqual(self.figures(both), ("90071992547409.92", "90071992547409.91", "-0.01"))
        self.assertIn("90,071,992,547,409.92  90,071,992,547,409.91             -0.01\n", self.shown(both))


class Forms(Forecast):
    def test_text(self):
        self.assertEqual(self.shown(b"".join(RUN)), "account  release       to pay  to receive  receive less pay\n"
                                                    "1        2023-04-17  1,000.06      200.07           -799.99\n")

    def test_csv(self):
        """A figure below zero stays a number; a name that a spreadsheet would take for a formula does not."""
        self.assertEqual(self.shown(b"".join(RUN), "--format", "csv"),
                         "account,account_name,release_date,pay,receive,difference\n1,,2023-04-17,1000.06,200.07,-799.99\n")
        source = self.file("s.toml", BOOK.replace("First Bank", "=1+1"))
        rows = list(csv.DictReader(io.StringIO(self.shown(RUN[0], "--format", "csv", "--book", source))))
        self.assertEqual([(row["account"], row["account_name"], row["difference"]) for row in rows], [("1", "'=1+1", "-1000.05")])

    def test_json(self):
        self.assertEqual(json.loads(self.shown(b"".join(RUN), "--format", "json")), {
            "account": 1, "release_date": "2023-04-17", "pay": "1000.06", "receive": "200.07", "difference": "-799.99"})

    def test_names(self):
        """An account goes by its number or by its name in a source, and is shown by its name."""
        source, data = self.file("s.toml", BOOK), b"".join(RUN)
        for account in ("2", "Second Bank", " Second Bank "):
            self.assertEqual(self.shown(data, "--book", source, account=account),
                             "account      release     to pay  to receive  receive less pay\n"
                             "Second Bank  2023-04-17   33.33    1,000.05            966.72\n")
            found = json.loads(self.shown(data, "--book", source, "--format", "json", account=account))
            self.assertEqual((found["account"], found["account_name"]), (2, "Second Bank"))
        self.assertIn("\n3  ", self.shown(data, "--book", source, account=3))

    def test_output_file(self):
        words = self.words(b"".join(RUN))
        self.assertEqual(self.good(*words, "-o", self.path("cash")), b"")
        self.assertEqual(content(self.path("cash")), self.good(*words))
        source = self.file("s.toml", BOOK)
        for path in (words[1], source):
            self.assertIn("would overwrite the input", self.bad(*words, "--book", source, "-o", path))
        before = content(self.path("cash"))
        for data in (RUN[0] + b"\0", claim(interest=MOST, principal=1)):
            self.bad(*self.words(data, "-o", self.path("cash")))
        self.assertEqual(content(self.path("cash")), before)

    def test_manual(self):
        """The command of the manual shows what the manual says, on what claimrun writes for its example."""
        manual = content(os.path.join(common.ROOT, "docs", "DESK.md")).decode()
        command, shown = re.search(r"    tools/claimdesk (forecast claims.dat .*)\n\n((?:    .*\n)+)", manual).groups()
        words = shlex.split(command.replace("examples/", common.EXAMPLES + "/"))
        source = words[words.index("--book") + 1]
        self.good("book", "make", source, "-o", self.path("book.dat"))
        self.file("claims.dat", subprocess.run([common.running.PROGRAM], input=self.good("messages", "make", source), cwd=self.folder,
                                               stdout=subprocess.PIPE, timeout=60, check=True).stdout)
        words[1] = self.path("claims.dat")
        self.assertEqual(self.good(*words).decode(), re.sub(r"(?m)^    ", "", shown))


class Refusals(Forecast):
    def test_cut(self):
        """Cut within a record, an output has no forecast; cut behind one, it has that of the records before."""
        data, ends = b"", [0]
        for record in (RUN[0], answer(0), RUN[3], answer(0), answer(0), RUN[7], answer(0)):
            data += record
            ends.append(len(data))
        for size in range(len(data)):
            if size in ends:
                self.assertEqual(self.figures(data[:size])[0], "0.00" if size < 35 else "1000.05" if size < 76 else "1000.06")
            else:
                self.refused(18, max(end for end in ends if end < size), data[:size])

    def test_bad_records(self):
        """In the first place, in the middle and at the end, on the date and on another, with more behind it and without."""
        whole = RUN[0]
        for bad in (claim(payer=1, payee=1), claim(payer=5, payee=5, release=OTHER_DAY), claim(payer=16), claim(payee=16, outcome=2),
                    claim(1, 1, payer=255, payee=1, release=0), b"\x22\0" + whole[2:] + b"\0", b"\x20\0" + whole[2:-1],
                    b"\x21\0\1\0" + whole[4:], b"\x21\0\3\1" + whole[4:], b"\4\0\5\0\0\0", b"\5\0\4\0\0\0\0", b"\4\0\4\1\0\0",
                    b"\2\0\2\0", b"\0" * 35, b"\n", b"text\n", b"\0" * 6):
            for before in ((), (RUN[0],), (answer(0),), (RUN[0], answer(0), RUN[3], answer(0))):
                for behind in ((), (RUN[7],), (answer(0), RUN[7], answer(0))):
                    with self.subTest(bad=bad, before=len(before), behind=len(behind)):
                        self.refused(18, sum(map(len, before)), b"".join((*before, bad, *behind)))

    def test_the_first_of_many(self):
        """The place is that of the first bad record, wherever it stands."""
        records = [record for _ in range(6) for record in (RUN[0], answer(0), RUN[7])]
        for place, record in enumerate(records):
            if record != answer(0):
                broken = [*records[:place], claim(payer=3, payee=3), *records[place + 1:-1], claim(payer=99)]
                self.refused(18, sum(map(len, records[:place])), b"".join(broken))

    def test_sum_too_large(self):
        """To pay, to receive, and in both ways; the place is that of the claim with which the sum goes past."""
        for payer, payee in ((1, 2), (2, 1)):
            whole = claim(payer=payer, payee=payee, interest=MOST)
            one, other = claim(payer=payer, payee=payee, interest=1), claim(payer=payee, payee=payer, interest=MOST)
            self.refused(19, 0, claim(payer=payer, payee=payee, interest=MOST, principal=1))
            self.refused(19, 0, claim(payer=payer, payee=payee, interest=2 ** 64 - 1, principal=2 ** 64 - 1))
            self.refused(19, 76, whole + other + answer(0) + one + answer(0))
            self.figures(whole + other)

    def test_claims_that_do_not_count_are_in_no_sum(self):
        whole, more = claim(interest=MOST), 2 ** 64 - 1
        for record in (claim(1, 1, interest=more), claim(interest=more, release=OTHER_DAY), claim(payer=3, interest=more)):
            self.assertEqual(self.figures(whole + record)[0], "90071992547409.92")

    def test_bad_before_too_large(self):
        """18 goes before 19, wherever the bad record stands, and has its own place."""
        whole, bad = claim(interest=MOST), claim(payer=7, payee=7)
        for records, place in (((bad, whole, whole), 0), ((whole, bad, whole), 35), ((whole, whole, bad), 70), ((whole, whole, b"\0"), 70)):
            self.refused(18, place, b"".join(records))

    def test_account(self):
        source = self.file("s.toml", BOOK)
        tries = [(number, number + " is out of range") for number in ("16", "255", "4294967297")]
        for account, what in tries + [(word, '"%s" is not known' % word) for word in ("-1", "1.0", "", "x", "First", "9" * 30)]:
            words = self.words(RUN[0], account=account)
            self.assertEqual(self.bad(*words), "claimdesk: --account: %s; allowed: 0 to 15\n" % what)
            self.assertEqual(self.bad(*words, "--book", source),
                             "claimdesk: --account: %s; allowed: 0 to 15 or a name: First Bank, Second Bank\n" % what)
        self.assertIn('"First Bank" is not known', self.bad(*self.words(RUN[0], account="First Bank")))

    def test_date(self):
        for date, hint in (("2023-02-29", ""), ("20230431", ""), ("1999-12-31", ""), ("2040-01-01", ""), ("0", ""), ("", ""), ("today", ""),
                           ("2023-4-17", " (meant: 2023-04-17?)"), ("05/10/2024", " (meant: 2024-05-10 or 2024-10-05?)")):
            self.assertEqual(self.bad(*self.words(RUN[0], date=date)), 'claimdesk: --date: "%s" is no date here%s; allowed: a date from '
                             '2000-01-01 to 2039-12-31, written 2023-04-01 or "20230401"\n' % (date, hint))
        for date in ("2000-01-01", "2024-02-29", "2039-12-31"):
            self.assertEqual(self.figures(RUN[0], date=date), ("0.00",) * 3)

    def test_files(self):
        os.mkdir(self.path("folder"))
        for name, words in (("none", "none: there is no such file"), ("folder", "folder: is a folder, not a file")):
            self.assertIn(words, self.bad("forecast", self.path(name), "--account", "1", "--date", "2023-04-17"))
            self.assertIn(words, self.bad(*self.words(b"", "--book", self.path(name))))

    def test_usage(self):
        path = self.file("claims.dat", RUN[0])
        for args in ((), (path,), (path, "--account", "1"), (path, "--date", "2023-04-17"), ("--account", "1", "--date", "2023-04-17"),
                     (path, path, "--account", "1", "--date", "2023-04-17"), self.words(RUN[0], "--format", "toml")[1:]):
            status, output, errors = self.call("forecast", *args)
            self.assertEqual((status, output), (2, b""), args)
            self.assertIn("usage: claimdesk", errors)
        self.assertIn(b"forecast", self.call("--help")[1])
        self.assertIn(b"--account ACCOUNT", self.call("forecast", "--help")[1])


class Library(Forecast):
    """Where the library is found, and that the figures are its own."""

    def built(self, name, *sources):
        """A shared library from C sources."""
        paths = [self.file("%s%d.c" % (name, place), source) for place, source in enumerate(sources)]
        run = subprocess.run(["cc", "-shared", "-fPIC", "-Wall", "-Wextra", "-Werror", "-I", os.path.join(common.ROOT, "include"), *paths,
                              "-o", self.path(name)], capture_output=True, text=True, timeout=60)
        self.assertEqual((run.returncode, run.stderr), (0, ""))
        return self.path(name)

    def others(self):
        """The source of all functions of the header but the forecast: they do nothing."""
        header = content(os.path.join(common.ROOT, "include", "claim_tracker.h")).decode()
        names = set(re.findall(r"\b(claim_tracker_\w+)\(", header)) - {"claim_tracker_forecast"}
        self.assertGreater(len(names), 15)
        return "".join("void %s(void);\nvoid %s(void) {}\n" % (name, name) for name in sorted(names))

    def stand_in(self, name, answered):
        """A library whose forecast answers a C expression of its arguments."""
        return self.built(name, self.others(), STAND_IN % answered)

    def test_figures_are_the_librarys(self):
        """Whatever a library answers is shown, though no sum of the claims gives it and it is no difference."""
        self.use(self.stand_in("odd.so", "0, {12345.0, 600000007.0, -3.0}"))
        for data in (b"", b"".join(RUN), content(CASE_OUTPUT), b"no record"):
            self.assertEqual(self.figures(data), ("123.45", "6000000.07", "-0.03"))
            self.assertIn("  123.45  6,000,000.07             -0.03\n", self.shown(data))

    def test_zero_has_no_sign(self):
        self.use(self.stand_in("zeros.so", "0, {-0.0, -0.0, -0.0}"))
        self.assertEqual(self.shown(b"".join(RUN)), ZEROS)
        self.assertEqual(self.figures(b""), ("0.00",) * 3)

    def test_what_is_handed_over(self):
        """The claims without the answers, and from the first bytes that are neither on all bytes; the account and the date."""
        self.use(self.stand_in("handed.so", "0, {(double)claim_bytes, (double)account, (double)date}"))
        for data, size in ((b"", 0), (answer(0), 0), (b"".join(RUN), 315), (answer(0) + RUN[0] + answer(7) + RUN[1] + answer(0), 70),
                           (RUN[0] + answer(0)[:5], 40), (RUN[0] + answer(0) + b"\0" + answer(0), 42), (answer(0) + RUN[0][:34], 34)):
            self.assertEqual(self.figures(data, account=11), ("%d.%02d" % divmod(size, 100), "0.11", "202304.17"))

    def test_bytes_that_are_handed_over(self):
        """The last of them are those of the last claim, also behind an answer."""
        self.use(self.stand_in("last.so", "0, {claims[6], claims[claim_bytes - 1], claims[claim_bytes - 35]}"))
        self.assertEqual(self.figures(claim(payer=9) + answer(0) + claim(slot=2) + answer(1)), ("0.09", "0.02", "0.33"))

    def test_refusal_that_no_record_causes(self):
        """It has no place."""
        self.use(self.stand_in("refusing.so", "18, {0.0, 0.0, 0.0}"))
        for data in (b"", RUN[0]):
            self.assertEqual(self.bad(*self.words(data)), "claimdesk: %s: %s" % (self.path("claims.dat"), IN_WORDS[18]))

    def no_library(self, words, library):
        """The forecast fails with these words, and with what is to be done."""
        self.use(library)
        error = self.bad(*self.words(RUN[0], "-o", self.path("cash")))
        self.assertIn("claimdesk: forecast: " + words, error)
        self.assertTrue(error.endswith("; allowed: run 'tools/install PREFIX' in the repository and then PREFIX/bin/claimdesk, or set "
                                       "CLAIM_TRACKER_LIBRARY to PREFIX/lib/libclaim_tracker.so.2\n"), error)
        self.assertFalse(os.path.exists(self.path("cash")))

    def test_missing(self):
        """In the repository there is none beside the module."""
        for library in (None, ""):
            self.no_library("there is no library %s/python/libclaim_tracker.so.2: " % common.ROOT, library)
        self.no_library("there is no library %s: " % self.path("none.so"), self.path("none.so"))
        self.no_library("there is no library %s: " % self.folder, self.folder)

    def test_no_library(self):
        for name, given in (("text.so", "text"), ("empty.so", ""), ("cut.so", content(LIBRARY)[:60])):
            path = self.file(name, given)
            self.no_library("%s is not the claim tracker's library: " % path, path)

    def test_library_without_the_forecast(self):
        path = self.built("older.so", self.others())
        self.no_library("%s is not the claim tracker's library: %s: undefined symbol: claim_tracker_forecast" % (path, path), path)

    def test_other_commands_do_without_it(self):
        self.use(self.path("none.so"))
        data = self.file("out.dat", content(CASE_OUTPUT))
        self.good("claims", "show", data)
        self.good("--version")
        run = self.command("claims", "show", data)
        self.assertEqual((run.returncode, run.stderr), (0, b""))

    def test_library_beside_the_module(self):
        """A desk with the module and the library beside it needs no variable; without the module it tells the file that is missing."""
        self.use(None)
        home = self.path("home")
        shutil.copytree(os.path.join(common.TOOLS, "desk"), os.path.join(home, "desk"), ignore=shutil.ignore_patterns("__pycache__"))
        shutil.copy(common.COMMAND, home)
        words = [os.path.join(home, "claimdesk"), *self.words(b"".join(RUN))]
        run = subprocess.run(words, capture_output=True, text=True, timeout=60)
        self.assertEqual((run.returncode, run.stdout), (1, ""))
        self.assertEqual(run.stderr, "claimdesk: %s: there is no such file\n" % self.path("python/claim_tracker.py"))
        shutil.copytree(os.path.join(PREFIX, "lib", "claim_tracker", "python"), os.path.join(home, "python"))
        run = subprocess.run(words, capture_output=True, text=True, timeout=60)
        self.assertEqual((run.returncode, run.stderr), (0, ""))
        self.assertIn("  1,000.06      200.07           -799.99\n", run.stdout)


if __name__ == "__main__":
    unittest.main()
