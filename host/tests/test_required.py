"""Tests of what a text of settings requires, by programs that answer as the bot's does, and by the built one if GATE_PROGRAM names it."""
import os
import sqlite3
import sys
import unittest
from contextlib import closing
from pathlib import Path
from unittest import mock

sys.path.insert(0, str(Path(__file__).resolve().parent.parent))

from folders import InFolder  # noqa: E402
from gate_host import required  # noqa: E402
from gate_host.faults import Unable  # noqa: E402
from gate_host.required import Wanted, required_statuses, wanted_of  # noqa: E402

DONE = '[{"orders":[],"verdict":"done"}]'


class RequiredTests(InFolder):
    def program(self, answer, rows=(), ending="exit 0"):
        """A program that takes one line, answers this, and leaves these rows."""
        records = self.room / "records"
        with closing(sqlite3.connect(records)) as database:
            database.execute("CREATE TABLE wanted (kind INTEGER, place INTEGER, word TEXT)")
            database.executemany("INSERT INTO wanted VALUES (?, ?, ?)", rows)
            database.execute("CREATE TABLE desk AS SELECT 2 AS required_approvals, 60 AS timeout_sec")
            database.commit()
        path = self.room / "program"
        path.write_text(f"#!/bin/sh\nread -r line\nprintf '%s\\n' '{answer}'\ncp {records} \"$3\"\n{ending}\n", encoding="utf-8")
        path.chmod(0o755)
        return str(path)

    def test_the_lists_come_in_the_order_of_their_places(self):
        program = self.program(DONE, [(1, 1, "b"), (2, 0, "wip"), (1, 0, "z"), (3, 0, "format")])
        self.assertEqual(required_statuses(program, "x"), ["z", "b"])
        self.assertEqual(wanted_of(program, "x", self.room), Wanted(["z", "b"], ["format"], 2, 60))

    def test_a_text_that_is_refused_has_the_number(self):
        refused = '[{"detail":2,"number":17,"rule":"BadSettings","verdict":"denied"}]'
        self.assertEqual(required_statuses(self.program(refused), "x"), 2)
        self.assertEqual(wanted_of(str(self.room / "program"), "x"), 2)

    def test_what_a_program_may_do_otherwise(self):
        for why, answer, ending in (
            ("takes the settings for no delivery", '{"error":"LineTooLong","number":5}', "exit 0"),
            ("takes the settings for no delivery", "", "exit 0"),
            ("in a way that isn", '[{"verdict":"denied","detail":"x"}]', "exit 0"),
            ("ended with status 1: gate: Memory", DONE, "echo 'gate: Memory' >&2; exit 1"),
            ("no answer for 0.3 seconds", DONE, "sleep 60"),
            ("records that the program has left", DONE, "echo x >\"$3\""),
        ):
            with self.subTest(why=why), mock.patch.object(required, "SECONDS", 0.3 if "sleep" in ending else 60):
                program = self.program(answer, ending=ending)
                with self.assertRaisesRegex(Unable, why):
                    required_statuses(program, "x")
                (self.room / "records").unlink()
        for room in (self.room / "none", None):
            full = mock.patch.object(required.tempfile, "TemporaryDirectory", side_effect=OSError(28, "No space left on device"))
            with full, self.assertRaisesRegex(Unable, "can't be asked what settings mean"):
                wanted_of(program, "x", room)
        with self.assertRaisesRegex(Unable, "can't be started"):
            required_statuses(str(self.room / "none"), "x")

    @unittest.skipUnless("GATE_PROGRAM" in os.environ, "GATE_PROGRAM names no built program")
    def test_the_built_program(self):
        program = os.environ["GATE_PROGRAM"]
        text = '# \u00e4 "x"\nstatus = ["b", \'a\', "\u00e9"]\npr_status = ["z"]\nblock_labels = ["wip"]\n'
        self.assertEqual(required_statuses(program, text), ["b", "a", "\u00e9"])
        found = wanted_of(program, f"{text}required_approvals = 3\ntimeout_sec = 90\n", self.room)
        self.assertEqual(found, Wanted(["b", "a", "\u00e9"], ["z"], 3, 90))
        self.assertEqual([it.name for it in self.room.iterdir()], [])
        for number, text in ((1, "status = ["), (2, "timeout_sec = 60"), (3, "status = []")):
            self.assertEqual(required_statuses(program, text), number)


if __name__ == "__main__":
    unittest.main()
