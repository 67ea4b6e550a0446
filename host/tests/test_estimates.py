"""When a change lands, by batches of before that are made by hand; and how that is said."""
import sys
import time
import unittest
from pathlib import Path

sys.path.insert(0, str(Path(__file__).resolve().parent.parent))

from gate_host.core.durations import Ending, Run, Runs  # noqa: E402
from gate_host.core.estimates import (  # noqa: E402
    MOST_BATCHES, POINTS, at_share, estimates_by, estimates_of, joined, range_of, thinned,
)
from gate_host.core.freeze import Freeze  # noqa: E402
from gate_host.core.known import Known  # noqa: E402
from gate_host.core.queue import QueuedBatch  # noqa: E402
from gate_host.landing_times import lines_of_estimates  # noqa: E402

NOW = 1_000_000


def landed(batch, took, ordered=0, changes=None, is_fresh=True):
    return Run(batch, changes or (100 + batch,), is_fresh, ordered, ordered, ordered + took, Ending.LANDED)


def waiting(number, *changes):
    return QueuedBatch(number, "staging", "waiting", 0, changes)


def running(number, *changes, state="staged"):
    return QueuedBatch(number, "staging", state, 0, changes)


# Ten batches that took 100 seconds each.
EVEN = [landed(number, 100) for number in range(1, 11)]


class PartTests(unittest.TestCase):
    def test_a_share_of_a_spread(self):
        for share, due in ((0, 10), (50, 30), (100, 50), (25, 20), (10, 14)):
            self.assertEqual(at_share((10, 20, 30, 40, 50), share), due)
        self.assertEqual([at_share((7,), share) for share in (0, 8, 100)], [7, 7, 7])

    def test_sums_of_two_spreads(self):
        self.assertEqual(joined((0, 10), (5, 6)), (5, 6, 15, 16))
        self.assertEqual(joined((0,), (5, 6)), (5, 6))

    def test_many_values_are_thinned(self):
        """The middle of each of equal parts stands for it."""
        self.assertEqual(thinned([3, 1, 2]), (1, 2, 3))
        self.assertEqual(thinned(list(range(10 * POINTS))), tuple(range(5, 10 * POINTS, 10)))

    def test_of_one_or_two_the_range_is_wide(self):
        self.assertEqual(range_of((60,), 1), (30, 120))
        self.assertEqual(range_of((60, 100), 2), (30, 200))


class EstimateTests(unittest.TestCase):
    def ranges(self, runs, queue, pause=0, now=NOW):
        return {change: (it.earliest - now, it.latest - now) for change, it in estimates_by(runs, pause, queue, now).items()}

    def test_without_a_batch_of_before_there_is_none(self):
        self.assertEqual(estimates_by([], 10, [waiting(1, 7)], NOW), {})
        self.assertEqual(estimates_by([Run(1, (7,), True, 5)], 10, [running(1, 7)], NOW), {})
        self.assertEqual(estimates_by(EVEN, 10, [], NOW), {})

    def test_on_how_many_it_rests(self):
        self.assertEqual([it.batches for it in estimates_by(EVEN[:3], 0, [waiting(11, 7)], NOW).values()], [3])

    def test_what_comes_after_waits_for_all_before_it(self):
        """Each takes 100 seconds, and ten batches widen that by a fortieth."""
        queue = [waiting(11, 7, 8), waiting(12, 9), waiting(13, 10)]
        self.assertEqual(self.ranges(EVEN, queue), {7: (98, 102), 8: (98, 102), 9: (195, 205), 10: (293, 307)})

    def test_a_pause_comes_before_if_none_runs(self):
        self.assertEqual(self.ranges(EVEN, [waiting(11, 7)], 40)[7], (100 - 7, 140 + 7))
        self.assertEqual(self.ranges(EVEN, [running(11, 7), waiting(12, 9)], 40)[9], (195, 205))

    def test_a_batch_that_runs_has_what_is_left(self):
        runs = [*EVEN, Run(11, (7,), True, NOW - 70)]
        self.assertEqual(self.ranges(runs, [running(11, 7), waiting(12, 8)]), {7: (30, 30), 8: (127, 133)})
        self.assertEqual(self.ranges(runs, [running(11, 7, state="landing")]), {7: (0, 0)})

    def test_it_is_told_by_those_that_took_longer(self):
        """After 70 seconds it is none of those that took 50."""
        runs = [*(landed(number, 50) for number in range(1, 10)), *(landed(number, 200) for number in range(10, 15))]
        early, late = self.ranges([*runs, Run(20, (7,), True, NOW - 70)], [running(20, 7)])[7]
        self.assertTrue(120 <= early <= 130 <= late <= 140, (early, late))

    def test_one_that_runs_longer_than_each_before_may_run_as_long_again(self):
        early, late = self.ranges([*EVEN, Run(11, (7,), True, NOW - 300)], [running(11, 7)])[7]
        self.assertTrue(0 <= early <= 30 and 270 <= late <= 370, (early, late))

    def test_a_try_holds_nothing_up(self):
        tried = QueuedBatch(9, "trying", "staged", 0, (99,))
        self.assertEqual(self.ranges(EVEN, [waiting(11, 7), tried]), {7: (98, 102)})

    def test_halves_are_part_of_what_a_batch_takes(self):
        """Each of four batches of two fails after 100 seconds, and its halves land 50 and 100 seconds later. A fresh one of two lands after
        150 to 200 seconds, and what waits behind it goes on after 200. A half itself takes 50."""
        runs = []
        for number in range(4):
            begin, changes = 1000 * number, (10 * number + 1, 10 * number + 2)
            runs += [
                Run(3 * number + 1, changes, True, begin, begin, begin + 100, Ending.FAILED),
                landed(3 * number + 2, 50, begin + 100, changes[:1], False), landed(3 * number + 3, 50, begin + 150, changes[1:], False),
            ]
        found = self.ranges(runs, [waiting(50, 70, 71), waiting(51, 72, 73)])
        self.assertTrue(140 <= found[70][0] <= 150 and 200 <= found[70][1] <= 212, found)
        self.assertTrue(335 <= found[72][0] <= 350 and 400 <= found[72][1] <= 420, found)
        half = [Run(60, (80, 81), True, 5000, 5000, 5100, Ending.FAILED)]
        self.assertEqual(self.ranges([*runs, *half], [waiting(61, 80)]), {80: (49, 51)})

    def test_what_was_cut_off_says_no_more_than_at_least_so_long(self):
        """Its seconds count for nothing: it landed when it was staged again, 190 seconds after the first order."""
        cut = [Run(20, (9,), True, 0, 0, 40, Ending.CUT), landed(21, 100, 90, (9,), False)]
        self.assertEqual(self.ranges(cut, [waiting(30, 7)])[7], (50, 380))

    def test_many_batches(self):
        queue = [waiting(100 + number, number) for number in range(1, 400)]
        self.assertEqual(len(estimates_by(EVEN, 0, queue, NOW)), MOST_BATCHES)


class KnownTests(unittest.TestCase):
    def test_a_frozen_queue_has_none(self):
        known = Known(runs=Runs(EVEN))
        self.assertEqual(len(estimates_of(known, [waiting(11, 7)], NOW)), 1)
        known.freeze = Freeze("rosa", "", 5)
        self.assertEqual(estimates_of(known, [waiting(11, 7)], NOW), {})
        self.assertEqual(lines_of_estimates(known, [waiting(11, 7)], NOW), [])


class WordTests(unittest.TestCase):
    def setUp(self):
        # A full minute of the local zone.
        self.now = int(time.mktime((2026, 11, 30, 12, 0, 0, 0, 0, -1)))

    def lines(self, runs, *queue):
        return lines_of_estimates(Known(runs=Runs(list(runs))), queue, self.now)

    def test_the_lines(self):
        self.assertEqual(self.lines(EVEN, waiting(11, 7, 8), waiting(12, 9)), [
            "will probably land, by how long the last 10 batches took:", "  batch 11 (changes 7, 8): between 12:01 and 12:02",
            "  batch 12 (change 9): between 12:03 and 12:04",
        ])

    def test_how_little_it_rests_on_is_said(self):
        self.assertEqual(self.lines([], waiting(1, 7)), ["when it lands can't be estimated yet: no batch has ended"])
        self.assertEqual(self.lines(EVEN[:1], waiting(2, 7))[0], "will probably land, by how long one batch took, which says little:")
        self.assertEqual(self.lines(EVEN[:2], waiting(3, 7))[0], "will probably land, by how long two batches took, which says little:")
        self.assertEqual(self.lines(EVEN[:2]), [])

    def test_one_that_runs_longer_than_each_before_is_said_to(self):
        late = Run(11, (7,), True, self.now - 300)
        self.assertIn("; it runs longer than each of these did", self.lines([*EVEN, late], running(11, 7))[1])
        self.assertNotIn("longer", self.lines([*EVEN, Run(11, (7,), True, self.now - 90)], running(11, 7))[1])

    def test_another_day_is_named(self):
        lines = self.lines([landed(number, 20 * 3600) for number in range(1, 11)], waiting(11, 7))
        self.assertRegex(lines[1], "between 2026-12-01 07:.. and 2026-12-01 08:..$")

    def test_a_long_queue_has_some_lines(self):
        lines = self.lines(EVEN, *(waiting(100 + number, number) for number in range(1, 31)))
        self.assertEqual((len(lines), lines[-1]), (22, "  and 10 more"))


if __name__ == "__main__":
    unittest.main()
