"""The examples against their stored output, and the memos' attachments against what the memos say."""
import json
import os
import subprocess
import unittest

import common
from common import EXAMPLES, content
from desk import layout

STORED = os.path.join(EXAMPLES, "output")
FORMS = {".txt": "text", ".csv": "csv", ".json": "json"}


class Examples(common.Desk):
    def test_stored_output(self):
        seen = set()
        for name in sorted(os.listdir(STORED)):
            source, form = os.path.splitext(name)
            path = os.path.join(EXAMPLES, source + ".toml")
            seen.add(source + ".toml")
            with self.subTest(name=name):
                if form == ".html":
                    self.good("board", path, "-o", self.path("page.html"))
                    self.assertEqual(content(self.path("page.html")), content(os.path.join(STORED, name)))
                else:
                    self.assertEqual(self.good("run", path, "--format", FORMS[form]).decode(),
                                     content(os.path.join(STORED, name)).decode())
        self.assertEqual(seen, {name for name in os.listdir(EXAMPLES) if name.endswith(".toml")})

    def claims(self, name):
        """The claims of an example by the free text of the message that they belong to."""
        records = json.loads(self.good("run", os.path.join(EXAMPLES, name), "--format", "json"))
        calls = {record["message"]: record for record in records if record["record"] == "answer"}
        return calls, [record for record in records if record["record"] != "answer"]

    def test_attachment_2_fails(self):
        """Payer, payee, Beneficiary Date and release date of examples 1 to 7 are the memo's, with the year 2023."""
        calls, found = self.claims("attachment-2-fails.toml")
        self.assertEqual([(calls[claim["message"]]["text2"][-1], claim["payer_name"], claim["payee_name"], claim["beneficiary_date"],
                           claim["release_date"]) for claim in found], [
            ("2", "Bank Y/General", "Bank Z/Trust", "2023-04-01", "2023-04-17"),
            ("3", "Bank X/Dealer", "Bank Z/Dealer", "2023-04-01", "2023-04-21"),
            ("6", "Bank Y/General", "Bank Z/Trust", "2023-04-15", "2023-04-21"),
            ("4", "Bank X/Dealer", "Bank Z/Dealer", "2023-04-01", "2023-05-10"),
            ("4", "Bank X/Dealer", "Bank Z/Dealer", "2023-05-01", "2023-05-15"),
            ("7", "Bank Y/Dealer", "Bank X/Dealer", "2023-04-10", "2023-08-16"),
            ("7", "Bank Y/Dealer", "Bank X/Dealer", "2023-07-10", "2023-08-16")])
        found = self.claims("attachment-2-fail-2.toml")[1]
        self.assertEqual([claim["release_date"] for claim in found], ["2024-04-15"])

    def test_attachment_2_interim(self):
        """Example 2 gives a claim on the Payment Date, 15 December; example 1 gives none."""
        calls, found = self.claims("attachment-2-interim.toml")
        self.assertEqual([call["text2"] for call in calls.values() if call["call"] == "transfer"], ["Example 2", "Example 1"])
        self.assertEqual([(calls[claim["message"]]["text2"], claim["type"], claim["payer_name"], claim["payee_name"],
                           claim["security_name"], claim["release_date"]) for claim in found],
                         [("Example 2", "interim", "Bank X/1020", "Bank Y/1030", "CUSIP B", "2026-12-15")])

    def test_attachment_2_balances(self):
        """The claims are on the memo's balances of 15,000 and 50,000 at factor 0.004, and for lending on 10,000 the other way too."""
        both = [("Bank Y/1050", "Bank X/1010", "CUSIP A", "60.00", "2024-02-15"),
                ("Bank Z/1030", "Bank X/1010", "CUSIP B", "200.00", "2024-02-15")]
        for kind, others in (("repo", []), ("lending", [("Bank X/1010", "Bank Z/1030", "CUSIP B", "40.00", "2024-02-15")])):
            found = self.claims("attachment-2-%s.toml" % kind)[1]
            self.assertEqual([(claim["type"], claim["payer_name"], claim["payee_name"], claim["security_name"], claim["interest"],
                               claim["release_date"]) for claim in found], [(kind, *claim) for claim in both + others])

    def test_attachment_3_fails(self):
        """Payer, payee, Beneficiary Date and release date of Memo 219's examples 1 to 5; the first and the last, a repo, give none."""
        asked, given = [], []
        for year in (2002, 2004):
            calls, found = self.claims("attachment-3-fails-%d.toml" % year)
            asked += [(call["text2"][-1], call["code"], call["par"]) for call in calls.values() if call["call"] == "transfer"]
            given += [(calls[claim["message"]]["text2"][-1], claim["type"], claim["payer_name"], claim["payee_name"],
                       claim["beneficiary_date"], claim["release_date"]) for claim in found]
        self.assertEqual(asked, [("1", "none", 100_000), ("2", "none", 200_000), ("4", "none", 400_000), ("3", "none", 300_000),
                                 ("5", "RPST", 500_000)])
        self.assertEqual(given, [("2", "fail", "Bank Y/General", "Bank Z/Trust", "2002-04-01", "2002-04-15"),
                                 ("4", "fail", "Bank Y/Dealer", "Bank X/Dealer", "2002-04-01", "2002-05-10"),
                                 ("4", "fail", "Bank Y/Dealer", "Bank X/Dealer", "2002-05-01", "2002-05-15"),
                                 ("3", "fail", "Bank X/Dealer", "Bank Z/Dealer", "2004-04-01", "2004-04-21")])

    def test_before_and_after(self):
        """Each message on 27 and on 30 January 2023: its answer and how many coupons it claims. On 1 February the loan and the repo are
        claimed, and the fail claims seven coupons again."""
        calls, found = self.claims("before-and-after.toml")
        counts = {number: [claim["type"] for claim in found if claim["message"] == number] for number in calls}
        told = [(call.get("code"), call.get("contract_date"), call["answer"], counts[number]) for number, call in calls.items()]
        agreed = "2022-06-15"
        self.assertEqual(told[:5], [("none", agreed, 0, ["fail"] * 6), ("none", agreed, 0, []), ("none", "empty", 0, []),
                                    ("SLST", None, 15, []), ("RPST", None, 0, [])])
        self.assertEqual(told[6:10], [("none", agreed, 0, ["fail"] * 7), ("none", agreed, 0, ["fail"] * 2), ("none", "empty", 135, []),
                                      ("SLST", None, 0, [])])
        self.assertEqual(told[10:], [(None, None, 0, []), (None, None, 0, ["lending", "repo"]), ("none", agreed, 0, ["fail"] * 7)])
        self.assertEqual([claim["beneficiary_date"] for claim in found if claim["message"] in (1, 7)][5:8],
                         ["2023-01-01", "2022-07-01", "2022-08-01"])

    def test_long_delay(self):
        """June and July wait on 21 July, July alone on the 25th; only the second transfer's Contract Date lies behind June."""
        found = self.claims("long-delay.toml")[1]
        self.assertEqual([[(claim["beneficiary_date"], claim["release_date"]) for claim in found if claim["transfer"] == number]
                          for number in (1, 2, 3)], [
            [("2023-04-01", "2023-07-24"), ("2023-05-01", "2023-07-24"), ("2023-06-01", "2023-07-25")],
            [("2023-07-01", "2023-08-24")],
            [("2023-04-01", "2023-07-26"), ("2023-05-01", "2023-07-26"), ("2023-06-01", "2023-07-26"), ("2023-07-01", "2023-08-24")]])

    def test_workshop(self):
        """Only the transfer settled on the Beneficiary Date owes money."""
        calls, found = self.claims("workshop.toml")
        self.assertEqual([claim["payee_name"] for claim in found], ["Orchard Trust"])

    def test_busy_day_has_everything(self):
        calls, found = self.claims("busy-day.toml")
        words = {call.get(key) for call in calls.values() for key in ("call", "code", "market")}
        for code in ("transfer", *layout.CODES, "close", "other"):
            self.assertIn(code, words)
        self.assertEqual({(claim["type"], claim["outcome"]) for claim in found},
                         {("fail", 0), ("fail", 3), ("interim", 0), ("interim", 3)}
                         | {(kind, outcome) for kind in ("lending", "repo") for outcome in range(4)})
        self.assertEqual({claim["time"] for claim in found if "time" in claim}, {"8:05", "8:45", "during the day"})

    def readme_block(self, first, *place):
        """The block of README, or of another document, that begins with these words, without its indent."""
        text = content(os.path.join(common.ROOT, *(place or ("README.md",)))).decode("utf-8")
        lines = text[text.index("    " + first):].split("\n")
        size = next((at for at, line in enumerate(lines) if line and not line.startswith("    ")), len(lines))
        return "".join(line[4:] + "\n" for line in lines[:size]).rstrip("\n") + "\n"

    def test_readme_shows_the_first_commands_output(self):
        self.assertEqual(self.readme_block("msg  "), content(os.path.join(STORED, "workshop.txt")).decode("utf-8"))

    def test_readme_source_gives_the_claim_it_says(self):
        source = self.file("mine.toml", self.readme_block("opening_day"))
        claim = json.loads(self.good("run", source, "--format", "json"))[0]
        said = [claim[key] for key in ("payer_name", "payee_name", "interest", "release_date", "time")]
        self.assertEqual(said, ["My Bank", "Your Bank", "900.00", "2024-07-03", "8:45"])
        words = "%s owes %s %s of interest, released on %s at %s" % tuple(said)
        self.assertIn(words, " ".join(content(os.path.join(common.ROOT, "README.md")).decode("utf-8").split()))

    def test_manual_shows_lines_of_the_table(self):
        stored = content(os.path.join(STORED, "workshop.txt")).decode("utf-8").split("\n")
        for line in self.readme_block("msg  ", "docs", "DESK.md").rstrip("\n").split("\n"):
            self.assertIn(line, stored)

    def test_manual_by_hand(self):
        """The commands of the manual's section, in a copy of the layout."""
        os.makedirs(self.path("target"))
        os.symlink(os.path.dirname(common.running.PROGRAM), self.path("target/bin"))
        for name in ("tools", "examples"):
            os.symlink(os.path.join(common.ROOT, name), self.path(name))
        run = subprocess.run(["sh", "-e", "-c", self.readme_block("mkdir -p target/try", "docs", "DESK.md")], cwd=self.folder,
                             capture_output=True, timeout=60)
        self.assertEqual((run.returncode, run.stderr), (0, b""))
        self.assertIn(b"5,000.00", run.stdout)

    def test_sources_and_records_round_trip(self):
        for name in sorted(os.listdir(EXAMPLES)):
            path = os.path.join(EXAMPLES, name)
            if not name.endswith(".toml") or name == "workshop-pair.toml":
                continue
            self.good("book", "make", path, "-o", self.path("book.dat"))
            text = self.good("book", "show", self.path("book.dat"))
            self.good("book", "make", self.file("book.toml", text), "-o", self.path("again.dat"))
            self.assertEqual(content(self.path("again.dat")), content(self.path("book.dat")))
            records = self.good("messages", "make", path)
            shown = self.good("messages", "show", self.file("m.dat", records))
            self.assertEqual(self.good("messages", "make", self.file("m.toml", shown)), records)


if __name__ == "__main__":
    unittest.main()
