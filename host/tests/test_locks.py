"""Tests of the locks of a host and of its gits."""
import os
import sys
import tempfile
import unittest
from pathlib import Path

sys.path.insert(0, str(Path(__file__).resolve().parent.parent))

from gate_host.faults import Trouble  # noqa: E402
from gate_host.git import HELD  # noqa: E402
from gate_host.locks import is_locked, take_lock, take_lock_of_git  # noqa: E402
from gate_host.places import Places  # noqa: E402


class LockTests(unittest.TestCase):
    def setUp(self):
        room = tempfile.TemporaryDirectory()
        self.addCleanup(room.cleanup)
        self.places = Places(Path(room.name))
        self.places.records.mkdir(parents=True)

    def test_one_host_runs_at_a_time(self):
        self.assertFalse(is_locked(self.places))
        lock = take_lock(self.places)
        self.assertTrue(is_locked(self.places))
        with self.assertRaisesRegex(Trouble, "another host runs on"):
            take_lock(self.places)
        os.close(lock)
        self.assertFalse(is_locked(self.places))

    def test_a_git_of_an_earlier_host_is_seen(self):
        self.addCleanup(HELD.clear)
        self.assertTrue(take_lock_of_git(self.places))
        earlier = HELD[0]
        # As long as anything that the earlier host has started is there.
        self.assertFalse(take_lock_of_git(self.places))
        for file in (earlier, HELD[0]):
            os.close(file)
        self.assertTrue(take_lock_of_git(self.places))
        os.close(HELD[0])


if __name__ == "__main__":
    unittest.main()
