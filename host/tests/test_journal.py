"""Tests of the journal: its steps, and what a start reads."""
import json
import sqlite3
import sys
import tempfile
import threading
import unittest
from concurrent.futures import ThreadPoolExecutor
from contextlib import closing
from pathlib import Path

sys.path.insert(0, str(Path(__file__).resolve().parent.parent))

from gate_host.core.facts import Ended, MainSeen, Merged, Moved, Opened, PushTold, RoleGiven, Said, Staged, Ticked  # noqa: E402
from gate_host.core.known import Known  # noqa: E402
from gate_host.faults import Trouble  # noqa: E402
from gate_host.journal import Journal  # noqa: E402

A, B, C, D = (digit * 40 for digit in "abcd")
DONE = '[{"orders":[],"verdict":"done"}]'
STAGE = {"order": "stage", "batch": 1, "branch": "staging", "base": A, "heads": [[7, B]]}
LAND = {"order": "land", "batch": 1, "base": A, "commit": C}


# So often two open a new journal at once. Before each looked within its step, two of three such openings failed, and of the others one
# in six, since SQLite doesn't always wait for another one that begins its log.
TRIES = 40


def tables_of_new(path, together):
    """Opens a journal at the same time as somebody else, and gives its tables."""
    together.wait()
    with closing(Journal(path)) as journal:
        return [name for name, in journal.database.execute("SELECT name FROM sqlite_schema WHERE type = 'table' ORDER BY name")]


def answer(*orders):
    return json.dumps([{"orders": list(orders), "verdict": "done"}])


class InRoom(unittest.TestCase):
    def setUp(self):
        room = tempfile.TemporaryDirectory()
        self.addCleanup(room.cleanup)
        self.path = Path(room.name) / "journal.db"

    def journal(self):
        journal = Journal(self.path)
        self.addCleanup(journal.close)
        return journal


class StepTests(InRoom):
    def test_what_is_written_is_known_by_the_next_one(self):
        journal = self.journal()
        known = journal.known()
        self.assertTrue(journal.is_empty())
        for fact, answers in (
            (RoleGiven("rosa", "reviewer"), [DONE]), (MainSeen(A, "x"), [DONE, DONE]), (Opened(7, "ines", B), [DONE]),
            (Said("n1", 7, "rosa", "bors r+"), [DONE]), (Ticked(50), [answer(STAGE)]), (Merged("tick-5.0", C), []),
            (Staged("tick-5.0"), [DONE]), (Ended(1, "build", "success", "it ended", "1-0-build"), [answer(LAND)]),
            (Moved("status-8.0", "main"), [DONE]),
        ):
            journal.record(known, 100, fact)
            self.assertEqual(journal.known(), known)
            for it in answers:
                journal.keep_answer(known, 100, it)
                self.assertEqual(journal.known(), known)
        self.assertEqual([json.loads(line)["id"] for line, _ in journal.answered()], [
            "role-1", "base-2", "settings-2", "opened-3", "comment-4", "tick-5", "tick-5.0", "status-8", "status-8.0",
        ])
        self.assertEqual(journal.count_answered(), 9)
        self.assertEqual(journal.last_answered(1), {"status-8.0": DONE})
        self.assertEqual(journal.told(7)[-1], (100, f"Landed on main as {C}, with change 7. Approved by rosa."))
        self.assertEqual(journal.told_since(journal.count_told() - 1), [7])

    def test_a_step_that_fails_leaves_nothing(self):
        journal = self.journal()
        known = journal.known()
        with self.assertRaises(ZeroDivisionError), journal.step():
            journal.write(known, 1, 100, RoleGiven("rosa", "member"))
            raise ZeroDivisionError
        self.assertEqual(journal.known(), Known())

    def test_a_delivery_that_has_no_answer_comes_again(self):
        journal = self.journal()
        journal.record(journal.known(), 100, MainSeen(A, "x"))
        known = self.journal().known()
        self.assertEqual([it.id for it in known.waiting], ["base-1", "settings-1"])
        self.assertEqual(journal.without_answer(), "base-1")
        journal.keep_answer(known, 100, DONE)
        self.assertEqual([it.id for it in self.journal().known().waiting], ["settings-1"])

    def test_a_journal_that_was_altered_is_refused(self):
        journal = self.journal()
        known = journal.known()
        journal.record(known, 100, RoleGiven("rosa", "member"))
        journal.keep_answer(known, 100, DONE)
        for statement, why in (
            ("UPDATE deliveries SET line = replace(line, 'rosa', 'eve')", "was altered, or is .* it has .*eve.* in the place of .*rosa"),
            ("DELETE FROM deliveries", "it has nothing in the place of"),
            ("UPDATE deliveries SET answer = 'x'", "an answer that is no JSON"),
            ("UPDATE facts SET kind = 'Danced'", "a fact of a kind that isn't known"), ("UPDATE facts SET body = '{'", "can't be read"),
        ):
            with closing(sqlite3.connect(self.path)) as other, closing(sqlite3.connect(self.path.with_name("copy.db"))) as copy:
                other.backup(copy)
            with closing(sqlite3.connect(self.path.with_name("copy.db"))) as copy:
                copy.execute(statement)
                copy.commit()
            with closing(Journal(self.path.with_name("copy.db"))) as altered, self.assertRaisesRegex(Trouble, why):
                altered.known()

    def test_a_journal_of_a_later_version_is_refused(self):
        self.journal().database.execute("PRAGMA user_version = 99")
        with self.assertRaisesRegex(Trouble, "of version 99"):
            Journal(self.path)

    def test_two_that_open_a_new_journal_at_once_both_have_it(self):
        """Either may be the first to look which version it is, and to make the tables."""
        for number in range(TRIES):
            path, together = self.path.with_name(f"{number}.db"), threading.Barrier(2)
            with ThreadPoolExecutor(2) as threads:
                found = list(threads.map(lambda _: tables_of_new(path, together), range(2)))
            self.assertEqual(found, [found[0]] * 2)
            self.assertEqual(found[0], ["deliveries", "facts", "marks", "notes", "told"])

    def test_notes_that_were_taken(self):
        journal = self.journal()
        known = journal.known()
        for fact in (Said("n1", 7, "rosa", "so"), PushTold("n2", "rosa", (), ()), Ticked(1)):
            journal.record(known, 100, fact)
        self.assertEqual([journal.has_taken(it) for it in ("n1", "n2", "n3")], [True, True, False])

    def test_no_fact_comes_before_the_answers_to_the_one_before(self):
        journal = self.journal()
        known = journal.known()
        journal.record(known, 100, Ticked(1))
        with self.assertRaisesRegex(RuntimeError, "before tick-1 has its answer"):
            journal.record(known, 100, Ticked(2))
        with self.assertRaisesRegex(Trouble, "to tick-1 isn't understood"):
            journal.keep_answer(known, 100, "[7]")

    def test_marks(self):
        journal = self.journal()
        self.assertEqual(journal.mark("x"), "")
        with journal.step():
            journal.set_mark("x", "7")
        self.assertEqual(journal.mark("x"), "7")


if __name__ == "__main__":
    unittest.main()
