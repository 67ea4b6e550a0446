"""Tests of how a host of a bare repository is put together, as far as no story shows it."""
import os
import shutil
import subprocess
import sys
import tempfile
import time
import unittest
from pathlib import Path
from unittest import mock

sys.path.insert(0, str(Path(__file__).resolve().parent.parent))

from gate_host import bare  # noqa: E402
from gate_host.bare import OwnerFiles, SystemClock, run_host  # noqa: E402
from gate_host.faults import Trouble  # noqa: E402
from gate_host.places import Places  # noqa: E402

HOST = Path(__file__).resolve().parent.parent / "gate-host"


class InGuarded(unittest.TestCase):
    """A test with a repository that was set up."""

    words = ()

    def setUp(self):
        room = tempfile.TemporaryDirectory()
        self.addCleanup(room.cleanup)
        path, program = Path(room.name) / "project.git", Path(room.name) / "gate"
        shutil.copy("/bin/true", program)
        subprocess.run(["git", "init", "--quiet", "--bare", "--initial-branch=main", str(path)], check=True, timeout=30)
        words = ["init", str(path), "--program", str(program), "--check=build=true", "--reviewer=rosa", *self.words]
        subprocess.run([sys.executable, HOST, *words], check=True, capture_output=True, timeout=60)
        self.places = Places(path)


class OwnerTests(InGuarded):
    def test_what_was_good_before_stays(self):
        files = OwnerFiles(self.places, os.geteuid())
        self.assertEqual(files.read(), [("settings", ""), ("roles", ""), ("reporters", "")])
        self.assertEqual((files.settings.main, files.roles), ("main", {"rosa": "reviewer"}))
        text = self.places.settings.read_text(encoding="utf-8")
        self.places.settings.write_text("[host]\n", encoding="utf-8")
        self.places.roles.write_text("rosa queen\n", encoding="utf-8")
        self.assertEqual([(name, fault[:24]) for name, fault in files.read()], [
            ("settings", "settings: main and progr"), ("roles", "roles: line 1 isn't a na"), ("reporters", ""),
        ])
        self.assertEqual((files.settings.main, files.roles), ("main", {"rosa": "reviewer"}))
        self.places.settings.write_text(text.replace("tick_seconds = 10", "tick_seconds = 3"), encoding="utf-8")
        self.places.roles.write_text("otto member\n", encoding="utf-8")
        self.assertEqual(files.read(), [("settings", ""), ("roles", ""), ("reporters", "")])
        self.assertEqual((files.settings.tick_seconds, files.roles), (3, {"otto": "member"}))

    def test_reporters_are_read_again(self):
        """Those of before stay if the file is refused, and without the file there are none."""
        files = OwnerFiles(self.places, os.geteuid())
        for text, due in (("ci tests\n", {"tests": {"ci"}}), ("ci\n", {"tests": {"ci"}}), (None, {})):
            self.places.reporters.unlink()
            if text:
                self.places.reporters.write_text(text, encoding="utf-8")
            said = dict(files.read())["reporters"]
            self.assertEqual((files.reporters, bool(said)), (due, text == "ci\n"))

    def test_a_folder_that_others_may_exchange_is_no_more_read(self):
        files = OwnerFiles(self.places, os.geteuid())
        self.places.repository.chmod(0o777)
        with self.assertRaisesRegex(Trouble, "could exchange what is in it"):
            files.read()


class HostTests(InGuarded):
    words = ("--main=m", "--staging=s", "--trying=t")

    def test_it_works_on_the_branches_that_the_settings_name(self):
        with mock.patch.object(bare, "Host") as host, mock.patch.object(bare, "complain"):
            run_host(self.places, False)
        ports = host.call_args[0][0]
        ports.journal.close()
        for repository in (ports.repository.repository, ports.source.repository, ports.runner.repository):
            self.assertEqual(repository.main, "refs/heads/m")
            self.assertEqual(repository.staged_on, {"staging": "refs/heads/s", "trying": "refs/heads/t"})


class ClockTests(unittest.TestCase):
    def test_it_is_the_clock_of_the_system(self):
        with mock.patch("time.time", lambda: 1700000000.9):
            self.assertEqual(SystemClock().now(), 1700000000)
        before = SystemClock().running()
        time.sleep(0.01)
        self.assertGreater(SystemClock().running(), before)


if __name__ == "__main__":
    unittest.main()
