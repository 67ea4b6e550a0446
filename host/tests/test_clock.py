"""Tests of the readings of the clock, by tables of values."""
import unittest

import playing  # noqa: F401
from gate_host.core.clock import ClockWatch


class ClockTests(unittest.TestCase):
    def test_readings(self):
        day = 86400
        for name, last, readings in (
            ("it stands still and goes on", 1000, [(1000, 50, 1000), (1010, 60, 1010), (1010, 60, 1010)]),
            ("it never goes back", 1000, [(900, 50, 1000), (1001, 60, 1001)]),
            ("a jump has to stand for two readings", 1000,
             [(1000, 50, 1000), (1020 + 3 * day, 70, None), (1030 + 3 * day, 80, 1030 + 3 * day)]),
            ("one that goes back was none", 1000,
             [(1000, 50, 1000), (1020 + 3 * day, 70, None), (1030, 80, 1030), (1040 + 3 * day, 90, None)]),
            ("two other ones are two jumps", 1000,
             [(1000, 50, 1000), (1000 + 3 * day, 60, None), (1000 + 9 * day, 70, None), (1010 + 9 * day, 80, 1010 + 9 * day)]),
            ("time that goes by is no jump", 1000, [(1000, 50, 1000), (1000 + 5 * day, 50 + 5 * day, 1000 + 5 * day)]),
            ("the first one of all", 0, [(1_700_000_000, 50, 1_700_000_000)]),
            ("far ahead at a start", 1000, [(1000 + 2 * day, 50, None), (1010 + 2 * day, 60, 1010 + 2 * day)]),
        ):
            clock = ClockWatch()
            for now, running, due in readings:
                self.assertEqual(clock.reading(last, now, running), due, name)
                self.assertEqual(bool(clock.trouble), due is None, name)
                last = last if due is None else due


if __name__ == "__main__":
    unittest.main()
