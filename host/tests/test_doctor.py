"""Tests of what the doctor finds."""
import os
import sys
import unittest
from pathlib import Path

sys.path.insert(0, str(Path(__file__).resolve().parent.parent))

from folders import InRepository  # noqa: E402


class DoctorTests(InRepository):
    def doctor(self):
        ran = self.run_host("doctor", str(self.path))
        return ran.returncode, [line for line in ran.stdout.splitlines() if line.startswith("WRONG: ")]

    def test_what_it_finds(self):
        self.set_up()
        status, wrong = self.doctor()
        self.assertEqual((status, [line for line in wrong if "sandbox" not in line and "can be run by" not in line]), (
            1, [f"WRONG: no host runs; gate-host run {self.path} starts one"],
        ))
        for change, undo, word in (
            (lambda: self.program.rename(self.room / "away"), lambda: (self.room / "away").rename(self.program), "isn't there; build it"),
            (lambda: self.places.roles.chmod(0o666), lambda: self.places.roles.chmod(0o644), "nobody else may write"),
            (self.leave_a_lock, (self.path / "refs/heads/main.lock").unlink, "main.lock is a lock of git's"),
            (lambda: self.git("config", "core.hooksPath", "/x"), lambda: self.git("config", "--unset", "core.hooksPath"), "core.hooksPath"),
        ):
            self.assertFalse(any(word in line for line in self.doctor()[1]), word)
            change()
            self.assertTrue(any(word in line for line in self.doctor()[1]), word)
            undo()

    def leave_a_lock(self):
        path = self.path / "refs/heads/main.lock"
        path.touch()
        os.utime(path, (0, 0))


if __name__ == "__main__":
    unittest.main()
