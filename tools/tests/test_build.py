"""tools/build.py: in which order crates are proved, how long that takes, and what is said of it. And tools/rt.py: what it computes once.

launcher.sh tries both over a stand-in for rt.
"""
import sys
import types
import unittest
from pathlib import Path
from unittest import mock

sys.path.insert(0, str(Path(__file__).resolve().parent.parent))
import build  # noqa: E402
import rt  # noqa: E402

USES = {"low": [], "left": ["low"], "right": ["low"], "top": ["left", "right"], "other": []}
SECONDS = {"low": 30.0, "left": 20.0, "right": 10.0, "top": 10.0}
NAMES = ["low", "left", "right", "top"]


def order():
    """The order of the four crates."""
    return build.Order(NAMES, USES, SECONDS)


class Orders(unittest.TestCase):
    """Which crate begins when, and with how many jobs."""

    def test_crates_come_after_those_that_they_use(self):
        self.assertEqual(build.with_those_below("top", USES), ["low", "left", "right", "top"])

    def test_the_longest_way(self):
        self.assertEqual(order().longest_way(), ["low", "left", "top"])
        self.assertEqual(order().behind, {"low": 60.0, "left": 30.0, "right": 20.0, "top": 10.0})

    def test_on_one_processor_each_is_alone(self):
        self.assertEqual([(name, end, jobs) for name, end, jobs in order().steps(NAMES, (), 1)], [("low", 30, 1), ("left", 50, 1), ("right", 60, 1), ("top", 70, 1)])

    def test_two_are_proved_side_by_side(self):
        """On four processors the longer of two has more jobs, and the other begins with it."""
        steps = {name: (round(end, 2), jobs) for name, end, jobs in order().steps(NAMES, (), 4)}
        self.assertEqual(steps["low"], (round(30 / 2.8, 2), 4))
        self.assertEqual(steps["left"], (round(50 / 2.8, 2), 4))
        self.assertEqual(steps["right"], (round(30 / 2.8 + 10, 2), 1))
        self.assertEqual(steps["top"], (round(30 / 2.8 + 10 + 10 / 1.6, 2), 2))

    def test_what_has_the_longest_way_behind_it_begins_first(self):
        self.assertEqual(order().ready({"left", "right", "top"}, {"low"}), ["left", "right"])
        self.assertEqual(order().ready({"top"}, {"low", "left"}), [])

    def test_a_long_way_gets_more_jobs(self):
        """Where a crate's way is longer than all that is left on all processors, it gets more than its share."""
        uses = {"long": [], "a": [], "b": [], "c": [], "end": ["long", "a", "b", "c"]}
        found = build.Order(list(uses), uses, {"long": 100.0, "a": 10.0, "b": 10.0, "c": 10.0, "end": 1.0})
        self.assertEqual(list(found.starts(set(uses), set(), 4, 4)), [("long", 4), ("a", 1)])
        self.assertEqual([jobs for _, jobs in found.starts(set(uses), set(), 2, 2)], [2])

    def test_what_runs_already_counts(self):
        self.assertEqual(order().length({"top"}, {"low", "right"}, 1, {"left": (5.0, 1)}), 15.0)
        self.assertEqual(order().length((), NAMES, 1), 0.0)


class Lines(unittest.TestCase):
    """What is said of how far it is."""

    def progress(self, done):
        """How far it is where these are done already."""
        return build.Progress(order(), done, 1, print)

    def test_at_first_nothing_is_done(self):
        self.assertEqual(self.progress([]).line(), "0 of 4 crates are proved; now none; 0 min so far, some 0% of the time, some 2 min to go")

    def test_what_is_kept_costs_no_time(self):
        self.assertIn("0 of 1 crates are proved", self.progress(["low", "left", "right"]).line())

    def test_the_rest_is_told_by_the_pace_so_far(self):
        """Three sevenths of the time took 300 s, so the rest takes 400."""
        with mock.patch("build.time.monotonic", side_effect=lambda: self.now):
            self.now = 1000
            progress = self.progress([])
            progress.begins("low", 1)
            progress.ends("low")
            self.now = 1300
            self.assertEqual(progress.line(), "1 of 4 crates are proved; now none; 5 min so far, some 42% of the time, some 7 min to go")

    def test_what_runs_counts_by_its_time(self):
        with mock.patch("build.time.monotonic", side_effect=lambda: self.now):
            self.now = 1000
            progress = self.progress([])
            progress.begins("low", 1)
            self.now = 1014
            self.assertEqual(progress.line(), "0 of 4 crates are proved; now low; 0 min so far, some 20% of the time, some 1 min to go")


class Sums(unittest.TestCase):
    """What rt.py computes once."""

    def test_once_for_a_question_and_anew_later(self):
        computed, now = [], [100.0]

        def stamp(crate):
            """The sum of a crate, which asks for those below it."""
            computed.append(crate.folder)
            return crate.folder + "".join(sum_of(it) for it in crate.deps)

        sum_of = rt.with_sums_kept(stamp)
        low = types.SimpleNamespace(folder="low", deps=[])
        left, right = types.SimpleNamespace(folder="left", deps=[low]), types.SimpleNamespace(folder="right", deps=[low])
        top = types.SimpleNamespace(folder="top", deps=[left, right])
        with mock.patch("rt.time.monotonic", side_effect=lambda: now[0]):
            self.assertEqual(sum_of(top), "topleftlowrightlow")
            self.assertEqual(sorted(computed), ["left", "low", "right", "top"])
            now[0] += 3
            sum_of(low)
        self.assertEqual(computed.count("low"), 2)

    def test_an_rt_that_is_made_otherwise_is_told(self):
        self.assertFalse(rt.is_known(types.SimpleNamespace(main=print)))
        self.assertFalse(rt.is_known(types.SimpleNamespace(main=print, rtlib=types.SimpleNamespace(Crate=object, lock=print, guarded=print, stop_on_links=print))))


if __name__ == "__main__":
    unittest.main()
