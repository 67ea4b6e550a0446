"""Tests of whether the bot's file and the journal are of one history."""
import sqlite3
import sys
import unittest
from contextlib import closing
from pathlib import Path

sys.path.insert(0, str(Path(__file__).resolve().parent.parent))

from folders import InRepository  # noqa: E402
from gate_host.bot_file import lacks_answers  # noqa: E402
from gate_host.core.facts import Ticked  # noqa: E402
from gate_host.faults import Trouble  # noqa: E402
from gate_host.journal import Journal  # noqa: E402


class BotFileTests(InRepository):
    def setUp(self):
        super().setUp()
        self.places.records.mkdir(parents=True)
        self.journal = Journal(self.places.records / "journal.db")
        self.addCleanup(self.journal.close)

    def deliver(self, *answers):
        known = self.journal.known()
        for answer in answers:
            self.journal.record(known, 0, Ticked(1))
            if answer:
                self.journal.keep_answer(known, 0, answer)

    def keep(self, **answers):
        with closing(sqlite3.connect(self.places.bot)) as bot:
            bot.execute("CREATE TABLE IF NOT EXISTS answers (id TEXT PRIMARY KEY, body TEXT)")
            bot.executemany("INSERT INTO answers VALUES (?, ?)", [(name.replace("_", "-"), answer) for name, answer in answers.items()])
            bot.commit()

    def test_what_the_two_files_may_be(self):
        self.assertTrue(lacks_answers(self.places, self.journal))
        self.deliver("[]", "[]", "")
        self.assertTrue(lacks_answers(self.places, self.journal))
        self.keep(tick_1="[]")
        self.assertTrue(lacks_answers(self.places, self.journal))
        self.keep(tick_2="[]")
        self.assertFalse(lacks_answers(self.places, self.journal))
        # An answer that came, and that the host couldn't write down.
        self.keep(tick_3="[]")
        self.assertFalse(lacks_answers(self.places, self.journal))
        self.keep(tick_4="[]")
        with self.assertRaisesRegex(Trouble, "the journal is older"):
            lacks_answers(self.places, self.journal)

    def test_another_history(self):
        self.deliver("[]")
        self.keep(tick_1="[7]")
        with self.assertRaisesRegex(Trouble, "aren't of one history"):
            lacks_answers(self.places, self.journal)

    def test_an_empty_file(self):
        self.places.bot.touch()
        self.assertTrue(lacks_answers(self.places, self.journal))


if __name__ == "__main__":
    unittest.main()
