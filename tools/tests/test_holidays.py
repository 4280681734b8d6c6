"""The Reserve Banks' holidays by name."""
import datetime
import unittest

from common import Desk

from desk import dates, holidays

# Written out year by year, not computed; years before and after the newest holiday, and with holidays on Saturdays and Sundays.
WRITTEN_OUT = {
    2000: "01-01 01-17 02-21 05-29 07-04 09-04 10-09 11-11 11-23 12-25",
    2005: "01-01 01-17 02-21 05-30 07-04 09-05 10-10 11-11 11-24 12-26",
    2021: "01-01 01-18 02-15 05-31 07-05 09-06 10-11 11-11 11-25 12-25",
    2022: "01-01 01-17 02-21 05-30 06-20 07-04 09-05 10-10 11-11 11-24 12-26",
    2023: "01-02 01-16 02-20 05-29 06-19 07-04 09-04 10-09 11-11 11-23 12-25",
    2024: "01-01 01-15 02-19 05-27 06-19 07-04 09-02 10-14 11-11 11-28 12-25",
    2025: "01-01 01-20 02-17 05-26 06-19 07-04 09-01 10-13 11-11 11-27 12-25",
    2026: "01-01 01-19 02-16 05-25 06-19 07-04 09-07 10-12 11-11 11-26 12-25",
    2027: "01-01 01-18 02-15 05-31 06-19 07-05 09-06 10-11 11-11 11-25 12-25",
}


class Holidays(Desk):
    def test_years_written_out(self):
        for year, days in WRITTEN_OUT.items():
            with self.subTest(year):
                self.assertEqual(" ".join(day.strftime("%m-%d") for day in holidays.of_year(year)), days)

    def test_saturdays_are_not_moved_and_sundays_are_kept_on_monday(self):
        for day in holidays.all_of_them():
            self.assertNotEqual(day.weekday(), 6)
        self.assertNotIn(datetime.date(2026, 7, 3), holidays.all_of_them())
        self.assertIn(datetime.date(2027, 7, 5), holidays.all_of_them())
        self.assertNotIn(dates.LAST, holidays.all_of_them())

    def source(self, name):
        return self.file("book.toml", 'opening_day = 2026-07-02\n[calendar]\nholidays = "%s"\n' % name)

    def test_a_source_names_them(self):
        self.good("book", "make", self.source("Federal Reserve"), "-o", self.path("book.dat"))
        shown = self.good("book", "show", self.path("book.dat")).decode()
        for day in ("2023-01-02", "2023-06-19", "2024-11-28"):
            self.assertIn(day, shown)
        for day in ("2021-06-18", "2026-07-03", "2038-12-24"):
            self.assertNotIn(day, shown)

    def test_an_open_day_among_them(self):
        source = self.file("book.toml", 'opening_day = 2026-07-02\n[calendar]\nholidays = "Federal Reserve"\nopen = [2024-07-04]\n')
        self.good("book", "make", source, "-o", self.path("book.dat"))
        self.assertNotIn("2024-07-04", self.good("book", "show", self.path("book.dat")).decode())

    def test_another_name(self):
        errors = self.bad("book", "make", self.source("TARGET"), "-o", self.path("book.dat"))
        self.assertIn('book.toml:3: calendar, holidays: "TARGET" is no list of days; allowed: dates in a list, or "Federal Reserve"', errors)


if __name__ == "__main__":
    unittest.main()
