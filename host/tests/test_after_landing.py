"""Tests of what runs after a landing, with real commands."""
import sys
import tempfile
import time
import unittest
from pathlib import Path
from types import SimpleNamespace

sys.path.insert(0, str(Path(__file__).resolve().parent.parent))

from gate_host.after_landing import AfterLandings  # noqa: E402
from gate_host.core.known import Landing  # noqa: E402
from gate_host.journal import Journal  # noqa: E402
from gate_host.places import Places  # noqa: E402

A, B, C, D = (digit * 40 for digit in "abcd")


class AfterTests(unittest.TestCase):
    def setUp(self):
        room = tempfile.TemporaryDirectory()
        self.addCleanup(room.cleanup)
        self.places = Places(Path(room.name))
        self.places.outputs.mkdir(parents=True)
        self.journal = Journal(Path(room.name) / "journal.db")
        self.addCleanup(self.journal.close)
        self.written = Path(room.name) / "written"
        self.landings = {}
        self.after = self.new()

    def new(self):
        after = AfterLandings(self.places, self.journal, "main")
        self.addCleanup(after.close)
        return after

    def land(self, number, base, commit):
        self.landings[commit] = Landing(number, base, commit, ())

    def go_on(self, command):
        """Goes on until nothing runs. Gives what is said of the last run."""
        settings = SimpleNamespace(after_landing=command, check_seconds=20)
        late = time.monotonic() + 30
        while True:
            said = self.after.go_on(settings, self.landings)
            if not self.after.running:
                return said
            self.assertLess(time.monotonic(), late)
            time.sleep(0.02)

    def lines(self):
        return self.written.read_text(encoding="utf-8").splitlines() if self.written.exists() else []

    def test_it_gets_what_post_receive_gets_and_runs_in_the_repository(self):
        self.go_on("true")
        self.land(1, A, B)
        self.assertEqual(self.go_on(f'cat >> {self.written}; echo "$PWD $GIT_DIR $GATE_COMMIT" >> {self.written}'), "")
        self.assertEqual(self.lines(), [f"{A} {B} refs/heads/main", f"{self.places.repository} . {B}"])
        self.go_on(f"cat >> {self.written}")
        self.assertEqual(len(self.lines()), 2)

    def test_what_landed_meanwhile_comes_at_once(self):
        self.go_on("true")
        self.land(1, A, B)
        self.land(2, B, C)
        self.go_on(f"cat >> {self.written}")
        self.land(3, C, D)
        self.go_on(f"cat >> {self.written}")
        self.assertEqual(self.lines(), [f"{A} {C} refs/heads/main", f"{C} {D} refs/heads/main"])

    def test_what_landed_before_there_was_a_command_is_not_made_up_for(self):
        for command in ("", f"cat >> {self.written}"):
            self.land(len(self.landings), A, f"{len(self.landings)}" * 40)
            self.go_on("")
            self.go_on(command)
        self.assertEqual(self.lines(), [])
        self.after = self.new()
        self.go_on(f"cat >> {self.written}")
        self.assertEqual(self.lines(), [])

    def test_one_that_fails_is_told_and_does_not_come_again(self):
        self.go_on("true")
        self.land(1, A, B)
        said = self.go_on(f"echo x >> {self.written}; exit 3")
        self.assertIn("the command after the landing of batch 1 failed: it ended with status 3", said)
        self.assertTrue((self.places.outputs / "landing-1").exists())
        self.assertEqual((self.go_on("true"), self.lines()), (said, ["x"]))
        self.land(2, B, C)
        self.assertEqual(self.go_on("true"), "")

    def test_one_that_was_stopped_comes_again(self):
        self.go_on("true")
        self.land(1, A, B)
        self.after.go_on(SimpleNamespace(after_landing="sleep 60", check_seconds=90), self.landings)
        self.after.close()
        self.after = self.new()
        self.go_on(f"cat >> {self.written}")
        self.assertEqual(self.lines(), [f"{A} {B} refs/heads/main"])


if __name__ == "__main__":
    unittest.main()
