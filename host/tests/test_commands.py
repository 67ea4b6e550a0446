"""Tests of what people say by the command line, and of what that needs."""
import os
import sqlite3
import sys
import unittest
from pathlib import Path
from unittest import mock

sys.path.insert(0, str(Path(__file__).resolve().parent.parent))

from folders import InRepository  # noqa: E402
from gate_host import VERSION  # noqa: E402
from gate_host.commands import must_read_tables  # noqa: E402
from gate_host.faults import Trouble  # noqa: E402
from gate_host.places import name_of_user  # noqa: E402

MYSELF = name_of_user(os.geteuid())


class CommandTests(unittest.TestCase):
    def test_a_sqlite_that_reads_no_strict_table_is_refused(self):
        for version in ((3, 36, 0), (3, 9, 2)):
            with mock.patch.object(sqlite3, "sqlite_version_info", version), self.assertRaisesRegex(Trouble, "3.37"):
                must_read_tables()
        with mock.patch.object(sqlite3, "sqlite_version_info", (3, 37, 0)):
            must_read_tables()


class SayTests(InRepository):
    def setUp(self):
        super().setUp()
        self.set_up()
        self.head = self.commit()
        self.git("update-ref", "refs/heads/change/1", self.head)

    def notes(self):
        return [path for path in self.places.spool.iterdir() if not path.name.startswith(".")]

    def say(self, *words):
        return self.run_host("say", "1", *words, "--repository", str(self.path))

    def test_what_it_says(self):
        ran = self.say("bors r+")
        self.assertEqual((ran.returncode, ran.stdout.split(" at ")[0]), (0, f"said by {MYSELF} of change 1 of {self.path}"))
        self.assertIn("no host runs at present, so this waits", ran.stderr)
        self.assertNotIn("has no command", ran.stderr)
        self.assertNotIn("no program", ran.stderr)
        self.assertIn("this has no command; a line that begins with bors is one", self.say("looks good").stderr)
        self.assertIn("you stand in no clone that has fetched this change", ran.stderr)
        self.program.unlink()
        self.assertIn(f"there is no program of the bot at {self.program}", self.say("bors r+").stderr)

    def test_a_head_may_be_named_by_its_beginning(self):
        for seen, status in ((self.head, 0), (self.head[:7], 0), (self.head[:7].upper(), 0), (self.head[:6], 1), ("0000000", 1), ("", 0)):
            self.assertEqual(self.say("bors r+", "--head", seen).returncode, status, seen)

    def test_what_was_fetched_counts_as_seen(self):
        """In a clone of the repository, also if that is named; and in no other clone."""
        self.git("update-ref", "refs/heads/main", self.head)
        clones = (("clone", str(self.path), True), ("by-url", f"file://{self.path}", True), ("other", "/elsewhere", False))
        for name, url, is_clone in clones:
            clone = self.room / name
            self.git("clone", "--quiet", "--origin", "upstream", str(self.path), str(clone))
            self.git("-C", str(clone), "config", "remote.upstream.url", url)
            ran = self.run_host("say", "1", "bors r+", "--repository", str(self.path), at=clone)
            self.assertEqual("stand in no clone" in ran.stderr, not is_clone)
        self.git("update-ref", "refs/heads/change/1", self.commit("y"))
        ran = self.run_host("say", "1", "bors r+", "--repository", str(self.path), at=self.room / "clone")
        self.assertEqual((ran.returncode, f"you have looked at {self.head}" in ran.stderr), (1, True))
        ran = self.run_host("say", "1", "bors r+", "--repository", str(self.path), at=self.room / "other")
        self.assertEqual(ran.returncode, 0)

    def test_the_version(self):
        ran = self.run_host("--version")
        self.assertEqual((ran.returncode, ran.stdout), (0, f"gate-host {VERSION}\n"))

    def test_a_status_is_reported_by_a_reporter(self):
        def report(*words):
            return self.run_host("status", *words, "--repository", str(self.path))
        self.assertIn(f"{MYSELF} isn't named as a reporter of tests", report(self.head, "tests", "success").stderr)
        self.assertEqual(self.init("--reporter", f"{MYSELF}=tests", "--reporter", f"{MYSELF}=build").returncode, 0)
        before, notes = self.places.reporters.read_text(encoding="utf-8"), len(self.notes())
        self.assertEqual(self.init("--reporter", f"{MYSELF}=tests").returncode, 0)
        self.assertEqual(self.places.reporters.read_text(encoding="utf-8"), before)
        for words, status, said in (
            ((self.head, "tests", "success"), 0, "no host runs at present"),
            ((self.head.upper(), "tests", "error", "--description", "x"), 0, ""),
            ((self.head, "build", "success"), 0, "the host has a command for build"), ((self.head[1:], "tests", "success"), 1, "40 digits"),
            ((self.head, "lint", "success"), 1, "isn't named as a reporter of lint"), ((self.head, "tests", "fine"), 2, "invalid choice"),
            ((self.head, "te\nsts", "success"), 1, "takes no such name"),
            ((self.head, "tests", "error", "--description", "x" * 301), 1, "300"),
        ):
            ran = report(*words)
            self.assertEqual((ran.returncode, said in ran.stderr), (status, True), (words, ran.stderr))
        self.assertEqual(len(self.notes()), notes + 3)

    def test_a_branch_may_be_packed(self):
        self.git("pack-refs", "--all")
        self.assertEqual(self.say("bors r+").returncode, 0)


if __name__ == "__main__":
    unittest.main()
