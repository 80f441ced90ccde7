"""What is left of a node, and the table of LIFE.md: each of its lives by the sums that the page shows."""

import os
import re
import unittest

import cases
from depot_service import life
from depot_service import messages as m

DAYS = {"hours": 1 / 24, "days": 1, "months": 30, "years": 365}


def status_of(**more):
    """A status with some numbers of its own."""
    numbers = dict(node=1, roster=bytes(32), statements=0, can_sign=100, records=1, journal_bytes=41, updates=0, foreign_leaves=0, convicted=())
    return m.Status(**dict(numbers, **more))


class Warnings(unittest.TestCase):
    """What is said, and how often."""

    def test_each_step_is_said_once(self):
        said = []
        watch = life.Watch(said.append)
        for used in (0, 74, 75, 76, 89, 90, 91, 99, 100, 100):
            watch.look(status_of(statements=used))
        self.assertEqual([re.match("([0-9]+%|no)", it).group() for it in said], ["75%", "90%", "no"])

    def test_each_part_has_its_own(self):
        for more, name in ((dict(records=98_304), "records"), (dict(journal_bytes=805_306_368), "bytes"), (dict(foreign_leaves=3_072), "leaves of others")):
            told = life.warnings(status_of(**more))
            self.assertEqual(len(told), 1, told)
            self.assertTrue(told[0].startswith("75%% of the %s " % name), told)


def life_days(members, updates, plan, height):
    """How many days it lasts, and what ends then, by the page's sums."""
    own = updates / members
    vouchers = 0 if plan == "mesh" else min(400, updates - own)
    neighbours = {"mesh": 0, "ring": 2, "tree": 3}[plan]
    key = 2**height / (own + vouchers)
    journal = 131_072 / (own + 2 * (updates - own) + vouchers + neighbours * vouchers)
    return min(key, journal), "key" if key < journal else "journal"


class Page(unittest.TestCase):
    """The table of the page."""

    def test_lives(self):
        with open(os.path.join(cases.SERVICE, "LIFE.md"), encoding="utf-8") as file:
            rows = [re.split(r" *\| *", it.strip())[1:-1] for it in file if re.match(r"\| [0-9,]+ \| [0-9]+ \|", it)]
        self.assertEqual(len(rows), 12)
        for row in rows:
            updates, members = int(row[0].replace(",", "")), int(row[1])
            for at, cell in enumerate(row[2:]):
                number, unit, what = re.fullmatch("([0-9]+) ([a-z]+), (key|journal)", cell).groups()
                days, ends = life_days(members, updates, ("mesh", "ring", "tree")[at // 2], (12, 17)[at % 2])
                self.assertEqual((int(number), what), (int(days / DAYS[unit] + 1e-9), ends), (row, cell))


if __name__ == "__main__":
    unittest.main()
