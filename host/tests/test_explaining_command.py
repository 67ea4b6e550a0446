"""`gate-host explain` on a repository: what it reads, that it writes nothing, and what it refuses."""
import json
import os
import shutil
import sqlite3
import stat
import sys
import time
import unittest
from contextlib import closing
from pathlib import Path
from unittest import mock

sys.path.insert(0, str(Path(__file__).resolve().parent.parent))

from answered import Story, mark  # noqa: E402
from folders import InRepository  # noqa: E402
from gate_host import journal_copy  # noqa: E402
from gate_host.explaining import asking  # noqa: E402
from gate_host.faults import Trouble  # noqa: E402
from stand_in import PROGRAM, is_built  # noqa: E402
from test_audit_files import write_journal  # noqa: E402


def rooms():
    """The rooms of copies that are there now."""
    return set(Path("/dev/shm").glob(f"{journal_copy.PREFIX}*"))


def rooms_that_stay(before):
    """The rooms that have come since, and don't go away. Another test may have one for a while."""
    new, late = rooms() - before, time.monotonic() + 60
    while any(it.exists() for it in new) and time.monotonic() < late:
        time.sleep(0.2)
    return [it for it in new if it.exists()]


class CommandTests(InRepository):
    def explain(self, *words):
        return self.run_host("explain", *words, "--repository", str(self.path))

    def refused(self, why, *words, status=1):
        ran = self.explain(*words)
        self.assertEqual((ran.returncode, ran.stdout), (status, ""), ran.stderr)
        self.assertIn(why, ran.stderr)

    def files(self):
        """All files of the repository with what stands in them."""
        return {str(path): path.read_bytes() for path in sorted(self.path.rglob("*")) if stat.S_ISREG(path.lstat().st_mode)}

    def test_bad_words(self):
        self.set_up()
        for words in ((), ("x",), ("0",), ("-1",), ("4294967296",), ("7", "8"), ("7", "--at"), ("7", "--all"), ("\u0667",)):
            self.refused("usage: gate-host", *words, status=2)

    def test_what_cannot_be_read(self):
        self.refused("has no folder gate", "7")
        self.set_up()
        self.refused("there is no journal", "7")
        journal = self.places.records / "journal.db"
        journal.write_bytes(b"x" * 8192)
        self.refused("can't be read as a journal", "7")
        journal.unlink()
        story = Story()
        story.answers = ["[]"] * len(story.rows)
        write_journal(journal, story.journal()).close()
        self.refused("the journal has no delivery tick-99", "7", "--at", "tick-99")
        self.refused("ended with status 0 after 0 of 7 deliveries", "7")
        self.program.unlink()
        self.refused("there is no program of the bot at", "7")

    def test_who_may_not_read_the_journal_is_told(self):
        self.set_up()
        (self.places.records / "journal.db").touch()
        no = mock.patch.object(journal_copy, "read_journal", side_effect=PermissionError)
        with no, self.assertRaisesRegex(Trouble, "nobody but the owner"):
            journal_copy.journal_of(self.places, self.room)

    @is_built
    def test_a_question_and_nothing_written(self):
        self.set_up()
        shutil.copy(PROGRAM, self.program)
        story = Story()
        approved, there = story.approves(11), rooms()
        with closing(write_journal(self.places.records / "journal.db", story.journal())):
            self.assertGreater((self.places.records / "journal.db-wal").stat().st_size, 0)
            before = self.files()
            ran = self.explain("11")
            self.assertEqual(ran.returncode, 0)
            self.assertRegex(ran.stderr, "^gate-host: no host runs at present, .*\n$")
            self.assertEqual(ran.stdout.splitlines()[1], f"It is open, and approved by rosa {mark(approved)}.")
            ran = self.explain("11", "--at", "7")
            self.assertEqual((ran.stderr, ran.stdout.splitlines()[1]), ("", "It is open, and not approved."))
            document = json.loads(self.explain("11", "--json", "--at", approved).stdout)
            self.assertEqual(document["approved"]["mark"][1], approved)
            self.assertEqual(self.explain("99").stdout.splitlines()[1], "It was never opened.")
            (self.places.reports / "process").write_text(str(os.getpid()), encoding="utf-8")
            self.assertEqual(self.explain("11").stderr, "")
            (self.places.reports / "process").unlink()
            self.assertEqual(self.files(), before)
        self.assertEqual(rooms_that_stay(there), [])

    @is_built
    def test_made_up_comments_act_nowhere(self):
        """Two people who may are each asked for as the first one: over records in which nobody was asked for before. A name that the
        journal has isn't used again."""
        story = Story()
        story.happens("role", person="vera", role="reviewer")
        story.tell("tick", id="asked-1", now=7)
        answered, = [it for it in story.explained(11).answered if not it.rule]
        self.assertEqual(answered.people, ("rosa", "vera"))

    @is_built
    def test_no_more_than_some_who_may_are_asked_for(self):
        story = Story()
        story.happens("role", person="vera", role="reviewer")
        with mock.patch.object(asking, "MOST_WHO_MAY", 1):
            answered, = [it for it in story.explained(11).answered if not it.rule]
        self.assertEqual(answered.people, ("rosa",))

    def test_records_that_say_nothing(self):
        with closing(sqlite3.connect(self.room / "bot.db")) as records:
            records.execute("CREATE TABLE desk (one INTEGER)")
        with self.assertRaisesRegex(Trouble, "records that the program has left can't be read"):
            asking.records_in(self.room / "bot.db", 7, "")


if __name__ == "__main__":
    unittest.main()
