"""docs/FORMATS.md: its tables and examples are the header's numbers and the bytes of document 01's example."""
import os
import re
import struct
import sys
import unittest

import building
import declarations

sys.path.insert(0, os.path.join(building.ROOT, "tools"))
from desk import layout  # noqa: E402

TEXT = building.content("docs", "FORMATS.md")
CRATE = os.path.join(building.ROOT, "crates", "claimrun")


def section(name):
    """The text below a heading."""
    return re.search(r"(?ms)^## %s\n(.*?)(?=^## |\Z)" % name, TEXT)[1]


def rows(text):
    """The cells of the tables in a text, without their headings."""
    cells = [[cell.strip() for cell in line.strip("|").split("|")] for line in text.splitlines() if line.startswith("|")]
    return [row for at, row in enumerate(cells) if not set("".join(row)) <= {"-"} and not (
        at + 1 < len(cells) and set("".join(cells[at + 1])) <= {"-"})]


def data(*names):
    with open(os.path.join(CRATE, *names), "rb") as file:
        return file.read()


class Formats(unittest.TestCase):
    def test_numbers(self):
        """The table of numbers has the header's enumerators, in its order."""
        found = [(row[1].strip("`"), int(row[0])) for row in rows(section("Numbers"))]
        self.assertEqual(found, list(declarations.enumerators()["claim_tracker_number"].items()))

    def test_man_page_numbers(self):
        listed = re.search(r"(?ms)^\.SH RETURN VALUE\n(.*?)^\.SH ", building.content("docs", "man", "claim_tracker.3"))[1]
        self.assertEqual([0] + list(map(int, re.findall(r"(?m)^\.TP.*\n(\d+)$", listed))),
                         list(declarations.enumerators()["claim_tracker_number"].values()))

    def test_records(self):
        """The fields of each record stand one behind the other, with the sizes that the desk has."""
        forms = {"1, a transfer": layout.TRANSFER, "2, a close": layout.HEADER, "3, a claim": layout.CLAIM, "4, an answer": layout.ANSWER}
        parts = re.split(r"(?m)^Kind (.*?), (\d+) bytes:$", section("Records"))[1:]
        self.assertEqual(parts[::3], list(forms))
        for name, size, text in zip(parts[::3], parts[1::3], parts[2::3]):
            form = forms[name]
            sizes = [struct.calcsize("<" + word) for word in re.findall(r"\d*[a-zA-Z]", form.format) for _ in range(1)]
            places = [sum(sizes[:at]) for at in range(len(sizes))]
            self.assertEqual([(int(row[0]), int(row[1])) for row in rows(text)], list(zip(places, sizes)), name)
            self.assertEqual(int(size), form.size)
            header = [bytes.fromhex(row[2].rsplit(": ", 1)[1]) for row in rows(text)[:2]]
            self.assertEqual(struct.unpack("<HH", b"".join(header)), (form.size - 2, int(name[0])))

    def test_book_file(self):
        ends = [tuple(map(int, row[0].split(" to "))) for row in rows(section("book.dat"))]
        self.assertEqual(ends, [(0, 4 * layout.MONTHS - 1), (4 * layout.MONTHS, 4 * (layout.MONTHS + layout.TABLE_WORDS) - 1),
                                (4 * (layout.MONTHS + layout.TABLE_WORDS), layout.BOOK.size - 1)])

    def test_words(self):
        """The words of calendar and tables that are shown are those of the example's book."""
        calendar, tables, day = layout.book_words(data("data", "book.dat"))
        shown = re.findall(r"word (\d+) .*?is 0x([0-9A-F]{8})", section("Calendar").replace("\n", " "), re.I)
        self.assertEqual([(int(word), int(value, 16)) for word, value in shown], [(0, calendar[0]), (279, calendar[279])])
        example = [int(word) for line in re.findall(r"(?m)^    (.*)$", section("Tables")) for word in re.findall(r"\d+", line)]
        self.assertEqual(example + [0] * (layout.TABLE_WORDS - len(example)), tables)
        in_header = re.search(r"half a cent on the dollar:\n(.*?)then zeros", building.content("include", "claim_tracker.h"), re.S)[1]
        self.assertEqual([int(word) for word in re.findall(r"\d+", in_header)], example)
        self.assertIn("opened on %d" % day, section("An example in bytes"))

    def test_bytes(self):
        """The example's bytes are claimrun's input and output."""
        made, blocks = [], re.findall(r"(?m)^    (.*)$", section("An example in bytes"))
        for line in blocks:
            spaces = sum(map(int, re.findall(r"(\d+) spaces", line)))
            made.append(bytes.fromhex(re.match(r"(?:[0-9A-F]{2}\b(?! spaces) ?)*", line)[0]) + b" " * spaces)
        self.assertEqual(b"".join(made[:3]), data("stdin"))
        self.assertEqual(b"".join(made[3:]), data("stdout"))

    def test_sizes(self):
        sizes = declarations.enumerators()[""]
        most = sizes["CLAIM_TRACKER_MOST_TRANSFER_CLAIMS"]
        self.assertIn("gives at most %d claims: %d bytes" % (most, 35 * most), TEXT)
        for document in (("include", "claim_tracker.h"), ("docs", "man", "claim_tracker.3")):
            self.assertRegex(building.content(*document), "(?i)a transfer gives at most %d claims" % most)
        close = sizes["CLAIM_TRACKER_MOST_CLOSE_CLAIMS"]
        self.assertIn("= %s claims: %s bytes" % (format(close, ","), format(35 * close, ",")), TEXT)
        for word in (close, 65536 // 35, sizes["CLAIM_TRACKER_RECORD_ROOM"], sizes["CLAIM_TRACKER_BOOK_FILE_BYTES"],
                     sizes["CLAIM_TRACKER_TABLE_WORDS"], sizes["CLAIM_TRACKER_BALANCE_WORDS"], sizes["CLAIM_TRACKER_LENDING_WORDS"],
                     sizes["CLAIM_TRACKER_MARK_WORDS"], sizes["CLAIM_TRACKER_STORE_WORDS"], sizes["CLAIM_TRACKER_MOST_FORECAST_CENTS"]):
            self.assertIn(format(word, ","), TEXT)
            self.assertIn(format(word, ","), building.content("include", "claim_tracker.h").replace("65542", "65,542"))
        for document in (("docs", "man", "claim_tracker.3"), ("docs", "DESK.md")):
            self.assertIn(format(close, ","), building.content(*document))


if __name__ == "__main__":
    unittest.main()
