"""The board: the page's text, and in headless Chromium what a reader sees of it."""
import html.parser
import os
import re
import sys
import unittest

import chromium
import common
from common import BOOK, EXAMPLES, IN_PIECES, PAIR, content

WORKSHOP = os.path.join(EXAMPLES, "workshop-pair.toml")
WIDTHS = (420, 800, 1280, 1600)
TWO_ROWS = BOOK + PAIR.replace("settlement_day = 2023-04-04", "settlement_day = 2023-05-09")

# The same transfer on the last day of the older rules and on the first of today's, in a pool with a coupon on the first of each month.
AROUND_THE_MEMO = BOOK[:BOOK.index("[[security.payment]]")] + "".join(
    '[[security.payment]]\nrecord = %d\nbeneficiary = %d\npayment = %d\ninterest = "0.005"\n' % (month + 1, month + 1, month + 25)
    for month in (20220700, 20220800, 20220900, 20221000, 20221100, 20221200, 20230100)) + PAIR.replace(
    "settlement_day = 2023-04-04", "settlement_day = 2023-01-27").replace(
    "settlement_day = 2023-03-31", "settlement_day = 2023-01-30").replace("2023-03-15", "2022-06-15")

# Long names, many rows, several marks on one day, marks on closed days, a span of years.
HARD = """title = "A pair with %s"
[calendar]
holidays = [2023-06-01]
[accounts]
1 = "The First Custody and Savings Bank of the Lake and River Counties"
2 = "Wwwwwwwwwwwwwwwwwwwwwwwwwwwwwwwwwwwwwwwwwwwwwwwwwwwwwwww"
[[security]]
number = 3
type = "US-guaranteed MBS"
frequency = "monthly"
%s
[[transfer]]
title = "Late by two years, and the title is so long that it takes more than one line of the column it stands in"
settlement_day = 2023-06-02
sender = 1
receiver = 2
security = 3
par = 100_000_000
contract_date = 2021-06-06
rows = [10, 11, 12, 13, 14]
[[transfer]]
settlement_day = 2023-05-31
sender = 2
receiver = 1
security = 3
par = 1
code = "ADSL"
market = "other"
contract_date = 2023-05-31
""" % ("a <title> & \\\"quotes\\\"", "".join(
    "[[security.payment]]\nrecord = %d\nbeneficiary = %d\npayment = %d\ninterest = \"2\"\nprincipal = \"2\"\n" % (
        (20220000 if month < 13 else 20228800) + month * 100 + 1, (20220000 if month < 13 else 20228800) + month * 100 + 1,
        (20220000 if month < 13 else 20228800) + month * 100 + 1) for month in range(4, 20)))


def setUpModule():
    if chromium.PROGRAM is None:
        print("Chromium is not installed: the page is read but not drawn", file=sys.stderr)


class Page(html.parser.HTMLParser):
    """The elements of a page: that each is closed, their attributes and the text."""

    VOID = ("meta", "circle", "rect", "path")

    def __init__(self, text):
        super().__init__()
        self.open, self.tags, self.attributes, self.words, self.folded = [], [], [], "", ""
        self.feed(text)
        self.close()

    def handle_starttag(self, tag, attributes):
        self.tags.append(tag)
        self.attributes += attributes
        if tag not in self.VOID:
            self.open.append(tag)

    def handle_startendtag(self, tag, attributes):
        self.tags.append(tag)
        self.attributes += attributes

    def handle_endtag(self, tag):
        assert self.open.pop() == tag, tag

    def handle_data(self, data):
        if "details" in self.open:
            self.folded += data
        elif "style" not in self.open:
            self.words += data


class Pages(common.Desk):
    """Pages made from sources."""

    def page(self, source):
        """The path of the page that a source gives."""
        path = source if os.path.isabs(source) else self.file("pair.toml", source)
        self.good("board", path, "-o", self.path("board.html"))
        return self.path("board.html")

    def parsed(self, source):
        return Page(content(self.page(source)).decode("utf-8"))


class Board(Pages):
    """The text of the page."""

    def test_whole_and_self_contained(self):
        for source in (WORKSHOP, HARD, BOOK + PAIR):
            page = self.parsed(source)
            self.assertEqual(page.open, [])
            text = content(self.path("board.html")).decode("utf-8")
            self.assertTrue(text.startswith('<!DOCTYPE html>\n<html lang="en">'))
            for word in ("<script", "http", "javascript", "<link", "<img", "@import", "src="):
                self.assertNotIn(word, text)
            self.assertLessEqual(set(re.findall(r"url\((.*?)\)", text)), {"#hatch-%d" % number for number in (1, 2, 3, 4)})
            self.assertFalse([name for name, _ in page.attributes if name.startswith("on") or name == "href"])
            self.assertEqual(page.tags.count("h1"), 1)
            self.assertEqual(page.tags.count("h2"), 2)

    def test_reads_without_colour(self):
        text = content(self.page(WORKSHOP)).decode("utf-8")
        for colour in re.findall(r"#([0-9a-f]{3}|[0-9a-f]{6})\b", text):
            parts = colour if len(colour) == 3 else [colour[at:at + 2] for at in (0, 2, 4)]
            self.assertEqual(len(set(parts)), 1, colour)

    def test_texts(self):
        page = self.parsed(WORKSHOP)
        for words in ("Settled on the day before", "Settled on the day itself", "Harbor Bank", "Orchard Trust", "$1,000,000",
                      "Contract Date", "Settlement day", "Record Date", "Beneficiary Date", "Payment Date", "closed",
                      "Wed 31 May", "Thu 1 Jun", "Hatched: a closed day"):
            self.assertIn(words, page.words)
        self.assertIn(("role", "img"), page.attributes)
        self.assertIn("Time line: Settled on the day before", page.words)

    def test_the_fold_hides_who_owes_what(self):
        page = self.parsed(WORKSHOP)
        self.assertEqual(page.tags.count("details"), 2)
        self.assertNotIn("open", dict(page.attributes))
        for words in ("Nobody owes anything.", "Harbor Bank owes Orchard Trust", "$5,000.00 interest and $10,000.00 principal",
                      "Beneficiary Date Thu 1 Jun 2023 (row 0, fail)", "Release date Thu 15 Jun 2023, during the day",
                      "Beneficiary Date Thu 1 Jun 2023: not claimed", "Beneficiary Date Thu 1 Jun 2023: claimed"):
            self.assertIn(words, page.folded)
            self.assertNotIn(words, page.words)
        self.assertNotIn("Release date", page.words)

    def test_facts_to_work_the_amount_out(self):
        words = self.parsed(WORKSHOP).words
        for fact in ("agency MBS, monthly", "for each dollar of par $0.005 interest, $0.01 principal"):
            self.assertIn(fact, words)

    def test_pieces(self):
        """A piece other than 1 is shown, and that claimrun does not look at it."""
        shown = "$1,000 of par; claimrun lends ones and does not ask for it"
        self.assertEqual(self.parsed(IN_PIECES + PAIR).words.count(shown), 2)
        for text in (BOOK, IN_PIECES.replace("1_000", "1")):
            self.assertNotIn("Piece", self.parsed(text + PAIR).words)

    def test_par_off_the_piece(self):
        """It is warned of once, by check too, and claimed on all the same."""
        source = self.file("pair.toml", IN_PIECES + PAIR.replace("200_000", "200_500", 1))
        status, _, errors = self.call("board", source, "-o", self.path("board.html"))
        self.assertEqual((status, errors.count("\n")), (0, 1))
        self.assertIn("pair.toml:32: warning: [[transfer]] 1, par: 200,500 is no multiple of the piece 1,000 of Pool", errors)
        self.assertEqual(self.call("check", source)[::2], (0, errors))
        self.assertIn("$1,002.50 interest", Page(content(self.path("board.html")).decode("utf-8")).folded)

    def test_several_claims_are_a_table(self):
        """One row for each claim, and no totals."""
        page = self.parsed(TWO_ROWS)
        self.assertEqual(page.tags.count("table"), 1)
        self.assertEqual(page.tags.count("tr"), 3)
        for words in ("First Bank owes Second Bank", "Sat 1 Apr 2023, fail", "Mon 1 May 2023, fail", "$1,000.00", "Wed 10 May 2023",
                      "Mon 15 May 2023"):
            self.assertIn(words, page.folded)
        self.assertNotIn("$2,000.00", page.folded)

    def test_interim_claims_are_told(self):
        """Between the Record Date and the Beneficiary Date of the May payment: alone, and behind a fail."""
        source = (BOOK + PAIR).replace("record = 2023-05-01", "record = 2023-04-03")
        folded = self.parsed(source.replace("contract_date = 2023-03-15\n", "", 1)).folded
        self.assertIn("First Bank owes Second Bank $1,000.00 interest and $0.00 principal, for the payment with Beneficiary Date "
                      "Mon 1 May 2023 (row 1, interim). Release date Mon 15 May 2023, during the day.", folded)
        page = self.parsed(source)
        self.assertEqual(page.tags.count("tr"), 3)
        for words in ("Sat 1 Apr 2023, fail", "Mon 1 May 2023, interim"):
            self.assertIn(words, page.folded)

    def test_a_later_payment_that_waits_is_not_claimed(self):
        """On 2 May April's and May's payments wait: May's is claimed where April's is not after the Contract Date, or is paid."""
        source = re.sub("settlement_day = .*", "settlement_day = 2023-05-02", BOOK + PAIR).replace("2023-04-15", "2023-05-16")
        for was, becomes, april, may in (("2023-05-16", "2023-05-16", "claimed", "not claimed"),
                                         ("2023-03-15", "2023-04-01", "not claimed", "claimed"),
                                         ("2023-05-16", "2023-05-02", "claimed", "claimed")):
            folded = self.parsed(source.replace(was, becomes)).folded
            self.assertEqual(re.findall(r"Beneficiary Date \w+ 1 (\w+) 2023: (claimed|not claimed)", folded),
                             [("Apr", april), ("May", may)] * 2)

    def test_days_before_the_memo(self):
        """The older rules are told where they hold; the coupon of July is more than six months back there."""
        page = self.parsed(AROUND_THE_MEMO)
        self.assertEqual(page.words.count("those of days before Mon 30 Jan 2023"), 1)
        self.assertLess(page.words.index("those of days before"), page.words.index("Other"))
        self.assertEqual(re.findall(r"Beneficiary Date \w+ 1 Jul 2022: (claimed|not claimed)", page.folded), ["not claimed", "claimed"])
        self.assertEqual(len(re.findall(r"Beneficiary Date \w+ 1 \w+ \w+: claimed", page.folded)), 6 + 7)
        self.assertNotIn("Rules", self.parsed(BOOK + PAIR).words)

    def test_empty_tags(self):
        """Before the memo an empty tag is the settlement day, where it is marked; later it holds no date."""
        page = self.parsed(AROUND_THE_MEMO.replace("contract_date = 2022-06-15", 'contract_date = "empty"'))
        for words in ("the settlement day, by an empty tag", "Fri 27 Jan 2023: Contract Date; Fri 27 Jan 2023: Settlement day",
                      "an empty tag, which holds no date"):
            self.assertEqual(page.words.count(words), 1, words)
        self.assertNotIn("Mon 30 Jan 2023: Contract Date", page.words)
        self.assertIn("Nobody owes anything.", page.folded)
        self.assertIn("claimrun refuses the transfer: 135, the Contract Date tag holds no date", page.folded)

    def test_lending_before_the_memo(self):
        page = self.parsed(AROUND_THE_MEMO.replace("par = 200_000", 'par = 200_000\ncode = "SLST"'))
        self.assertEqual(page.words.count("SLST, loan start"), 2)
        self.assertEqual(page.folded.count("claimrun refuses the transfer: 15, a tracking code of lending on a day before 30 January 2023"), 1)
        self.assertEqual(page.folded.count("Nobody owes anything."), 1)

    def test_tracking_codes_by_their_words(self):
        """A loan and a repo settle without a claim, each under its name."""
        page = self.parsed((BOOK + PAIR).replace('title = "One"', 'title = "One"\ncode = "SLST"')
                           .replace('title = "Other"', 'title = "Other"\ncode = "RPST"'))
        for words in ("SLST, loan start", "RPST, repo start"):
            self.assertIn(words, page.words)
        self.assertEqual(page.folded.count("Nobody owes anything."), 2)

    def test_dates_have_one_form(self):
        for source in (WORKSHOP, TWO_ROWS, AROUND_THE_MEMO, AROUND_THE_MEMO.replace("par = 200_000", 'par = 200_000\ncode = "SLST"')):
            page = self.parsed(source)
            self.assertNotRegex(page.words + page.folded, "[0-9]{4}-[0-9]{2}-[0-9]{2}")

    def test_notices_and_refusals(self):
        source = (BOOK + PAIR).replace('interest = "0.005"', 'interest = "0.005"\nrestricted = [1]', 1)
        self.assertIn("A notice, no money moves: the payer's payment went to a non-interest-bearing account",
                      self.parsed(source).folded)
        source = (BOOK + PAIR).replace("contract_date = 2023-03-15", "contract_date = 2023-04-05", 1)
        self.assertIn("claimrun refuses the transfer: 138, the Contract Date is after the day", self.parsed(source).folded)

    def test_rows_that_are_drawn(self):
        both = self.parsed(BOOK + PAIR).words
        self.assertIn("Payment Date, row 1", both)
        chosen = self.parsed((BOOK + PAIR).replace('title = "One"', 'title = "One"\nrows = [0]')
                             .replace('title = "Other"', 'title = "Other"\nrows = []'))
        self.assertNotIn("row 1", chosen.words)

    def test_names_are_escaped(self):
        page = self.parsed(HARD)
        self.assertIn('A pair with a <title> & "quotes"', page.words)

    def test_first_and_last_dates(self):
        source = """[[security]]
number = 0
type = "Treasury"
frequency = "annual"
[[security.payment]]
record = 2000-01-01
beneficiary = 2000-01-01
payment = 2039-12-30
interest = 0
[[transfer]]
settlement_day = 2000-01-03
sender = 0
receiver = 1
security = 0
par = 1
contract_date = 2000-01-01
[[transfer]]
settlement_day = 2039-12-29
sender = 0
receiver = 1
security = 0
par = 1
contract_date = 2000-01-01
"""
        page = self.parsed(source)
        self.assertIn("Fri 30 Dec", page.words)
        self.assertIn("2039", page.words)
        self.assertIn("38 years", page.words)
        self.assertNotIn("2020", page.words)


@unittest.skipIf(chromium.PROGRAM is None, "Chromium is not installed")
class Seen(Pages):
    """What Chromium makes of the page."""

    def judge(self, found, width):
        """Nothing is cut off and no texts of a time line overlap."""
        self.assertEqual(found["width"], width)
        self.assertLessEqual(found["scroll"], width)
        self.assertEqual(found["cut"], [])
        for block in found["blocks"]:
            self.assertTrue(block["left"] >= 0 and block["right"] <= width, block)
        self.assertGreaterEqual(found["size"], 11)
        for line in found["lines"]:
            edge = line["box"]
            for text in line["texts"]:
                self.assertTrue(edge["left"] <= text["left"] and text["right"] <= edge["right"], text)
                self.assertTrue(edge["top"] <= text["top"] and text["bottom"] <= edge["bottom"], text)
            for place, one in enumerate(line["texts"]):
                for other in line["texts"][:place]:
                    apart = (one["left"] >= other["right"] or other["left"] >= one["right"]
                             or one["top"] >= other["bottom"] - 4 or other["top"] >= one["bottom"] - 4)
                    self.assertTrue(apart, (one, other))

    def side_by_side(self, found):
        """The two time lines stand side by side, each day beside itself."""
        left, right = (line["box"] for line in found["lines"][:2])
        self.assertTrue(left["right"] <= right["left"] and left["top"] == right["top"])
        days = [{text["text"]: text["top"] for text in line["texts"]} for line in found["lines"][:2]]
        shared = [day for day in days[0].keys() & days[1].keys() if re.fullmatch("[A-Z][a-z]{2} [0-9]+ [A-Z][a-z]{2}", day)]
        self.assertGreater(len(shared), 5)
        for day in shared:
            self.assertEqual(days[0][day], days[1][day], day)

    def test_nothing_is_cut_off(self):
        for source in (WORKSHOP, HARD, TWO_ROWS, AROUND_THE_MEMO):
            page = self.page(source)
            for width in WIDTHS:
                with self.subTest(source=source[-40:], width=width):
                    found = chromium.measures(page, self.path("copy.html"), width)
                    self.judge(found["closed"], width)
                    self.judge(found["open"], width)
                    if width > 640:
                        self.side_by_side(found["closed"])
                    self.assertTrue(all(found["closed"]["hidden"]))
                    self.assertFalse(any(found["open"]["hidden"]))

    def test_a_screenshot_is_drawn(self):
        page = self.page(WORKSHOP)
        for width in WIDTHS:
            drawn, height, rows = chromium.screenshot(page, self.path("shot.png"), width, 1000)
            self.assertEqual((drawn, height), (max(width, chromium.NARROWEST), 1000))
            self.assertGreater(len(set(rows)), 200)

    def test_printed(self):
        """The exercise is one sheet; opened answers are on a sheet of their own."""
        page = self.page(WORKSHOP)
        self.assertEqual(chromium.pages(page, self.path("closed.pdf")), 1)
        opened = self.file("open.html", content(page).replace(b"<details>", b"<details open>"))
        self.assertEqual(chromium.pages(opened, self.path("open.pdf")), 2)
        self.assertEqual(chromium.pages(self.page(TWO_ROWS), self.path("two.pdf")), 1)

    def test_dark(self):
        """Where the system asks for dark pages, and where Chromium makes pages dark, letters stand out from what is behind them."""
        page = self.page(TWO_ROWS)
        for options in ((), ("--force-dark-mode",), ("--force-dark-mode", "--enable-features=WebContentsForceDark")):
            found = chromium.measures(page, self.path("copy.html"), 1280, *options)
            for contrast in found["open"]["contrasts"]:
                self.assertGreaterEqual(contrast, 4.5, options)
            self.assertGreater(len(found["open"]["contrasts"]), 50)


if __name__ == "__main__":
    unittest.main()
