"""Tests of the sandbox in which checks run."""
import re
import shutil
import sys
import time
import unittest
from functools import lru_cache
from pathlib import Path
from unittest import mock

sys.path.insert(0, str(Path(__file__).resolve().parent.parent))

from folders import InRepository  # noqa: E402
from gate_host.faults import Trouble  # noqa: E402
from gate_host.sandbox import environment_within, hidden_files, look_again, sandbox_of, unreadable_in, words_before  # noqa: E402
from gate_host.settings import FIRST_SETTINGS, settings_in  # noqa: E402

TEXT = FIRST_SETTINGS.format(main="main", staging="staging", trying="trying", program="/gate", may_push="ines", checks="build = true\n")


class SandboxTests(InRepository):
    def settings(self, **values):
        text = TEXT
        for name, value in values.items():
            text = re.sub(f"(?m)^{name} =.*$", f"{name} = {value}", text)
        return settings_in(text)

    def test_when_there_is_one(self):
        with mock.patch("gate_host.sandbox.why_not", lambda: "it isn't there"):
            self.assertFalse(sandbox_of(self.settings()).is_on)
            self.assertIn("since it isn't there: they can do what the owner", sandbox_of(self.settings()).said)
            with self.assertRaisesRegex(Trouble, "it isn't there"):
                sandbox_of(self.settings(sandbox="required"))
        with mock.patch("gate_host.sandbox.why_not", lambda: ""):
            self.assertTrue(sandbox_of(self.settings()).is_on)
            self.assertFalse(sandbox_of(self.settings(sandbox="off")).is_on)

    def test_one_that_is_there_is_not_looked_for_again(self):
        """If it were, a check could come to run without it, as whoever keeps it from being made may want."""
        for found, looks in (("", 1), ("it isn't there", 2)):
            looked = mock.Mock(return_value=found)
            with mock.patch("gate_host.sandbox.why_not", lru_cache(maxsize=None)(lambda: looked())):
                sandbox_of(self.settings())
                look_again()
                sandbox_of(self.settings())
            self.assertEqual(looked.call_count, looks, found)

    def test_what_is_hidden_is_looked_for_again(self):
        with mock.patch("gate_host.sandbox.HIDDEN", []), mock.patch("gate_host.sandbox.HIDDEN_UNTIL", [time.monotonic() + 60]), \
                mock.patch("gate_host.sandbox.unreadable_in", lambda folder, is_needed: [("/etc/passwd", False)]):
            self.assertEqual(hidden_files(), [])
            look_again()
            self.assertIn(("/etc/passwd", False), hidden_files())

    def test_the_network_is_given_by_a_setting(self):
        for value, is_given in (("no", False), ("yes", True)):
            words = words_before(self.places, self.settings(sandbox_network=value), self.room, self.room)
            self.assertEqual("--share-net" in words, is_given)

    def test_the_environment_of_the_host_stays_outside(self):
        given = {"PATH": "/bin", "LC_ALL": "C", "GATE_COMMIT": "x", "MY_TOKEN": "secret", "SSH_AUTH_SOCK": "/x", "HOME": "/root"}
        self.assertEqual(environment_within(given), {"PATH": "/bin", "LC_ALL": "C", "GATE_COMMIT": "x", "HOME": "/tmp"})

    def test_what_not_everybody_may_read_is_hidden(self):
        for name, mode in (("open", 0o644), ("closed", 0o600)):
            (self.room / name).touch()
            (self.room / name).chmod(mode)
        (self.room / "folder").mkdir(mode=0o700)
        (self.room / "link").symlink_to("closed")
        shutil.rmtree(self.path)
        self.program.unlink()
        self.assertEqual(unreadable_in(str(self.room)), [(f"{self.room}/closed", False), (f"{self.room}/folder", True)])
        for number in range(60):
            (self.room / f"closed-{number}").touch(0o600)
        self.assertEqual(unreadable_in(str(self.room)), [(str(self.room), True)])
        self.assertEqual(len(unreadable_in(str(self.room), is_needed=True)), 62)
        self.assertEqual(unreadable_in(str(self.room / "none")), [])

    def test_what_is_written_lies_over_what_is_read_and_the_repository_over_both(self):
        settings = self.settings(sandbox_reads=self.room, sandbox_writes=self.room)
        words = words_before(self.places, settings, self.room / "clone", self.room / "tmp")
        places = [words.index("--bind-try"), words.index(str(self.path)), words.index(str(self.places.mirror / "objects"))]
        self.assertEqual(places, sorted(places))


if __name__ == "__main__":
    unittest.main()
