"""The tables of docs/SIZING.md that follow from limits: how long a key and a journal last."""

import re
import unittest

from cases import data_of, f
from test_walks import section

DAYS = {"minutes": 1 / 1440, "hours": 1 / 24, "days": 1, "months": 365.25 / 12, "years": 365.25}
# Updates of one value that a journal takes, where most are of others and take two records.
UPDATES = 65_000


def rows(first):
    """The rows of the table whose head begins so: numbers, and spans of time in days."""
    text = section("docs/SIZING.md", "How long a node lasts").split("| " + first, 1)[1].split("\n\n", 1)[0]
    return [[it.strip() for it in row.strip("|").split("|")] for row in text.splitlines()[2:]]


def is_rounded_down(text, days):
    """Whether a span is that of so many days, less than one of its unit lower."""
    number, unit = text.split(" ")
    return int(number) <= days / DAYS[unit] < int(number) + 1


class Tables(unittest.TestCase):
    def test_keys(self):
        heads = re.findall(r"height (\d+)", data_of("docs", "SIZING.md").decode().split("| statements a day", 1)[1].split("\n", 1)[0])
        self.assertEqual(heads, ["8", "12", "15", "17"])
        for rate, *spans in rows("statements a day"):
            for height, span in zip(heads, spans):
                days = 2 ** int(height) / int(rate.replace(",", ""))
                self.assertTrue(is_rounded_down(span, days), (rate, height, span, days))

    def test_journals(self):
        self.assertLess(UPDATES, f.MOST_RECORDS / 2)
        for rate, span in rows("updates a day"):
            self.assertTrue(is_rounded_down(span, UPDATES / int(rate.replace(",", ""))), (rate, span))


if __name__ == "__main__":
    unittest.main()
