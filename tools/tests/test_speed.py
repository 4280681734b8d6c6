"""How fast long sources are worked."""
import time
import unittest

import common
from common import BOOK

LINES = 30_000
SECONDS = 5


class Speed(common.Desk):
    def test_many_lines(self):
        days = ("", "", "2023-03-15")
        rows = "".join("%d,%d,Pool,%d,%s\n" % (place % 8, place % 8 + 1, place + 1, days[place % 3]) for place in range(LINES))
        self.file("many.csv", "sender,receiver,security,par,contract_date\n" + rows)
        source = self.file("many.toml", BOOK.replace("opening_day", 'messages = "many.csv"\nopening_day', 1))
        began = time.monotonic()
        self.good("run", source, "-o", self.path("claims.txt"))
        self.assertLess(time.monotonic() - began, SECONDS)
        with open(self.path("claims.txt")) as file:
            self.assertGreater(sum(1 for _ in file), LINES)


if __name__ == "__main__":
    unittest.main()
