"""Tests of what becomes of a journal of an earlier version."""
import json
import sqlite3
import sys
import unittest
from contextlib import closing
from pathlib import Path

sys.path.insert(0, str(Path(__file__).resolve().parent.parent))

from gate_host.core.duties import Duties, Merge, Move, ToLand, ToMerge, steps_of  # noqa: E402
from gate_host.core.facts import Moved, Ticked  # noqa: E402
from gate_host.core.known import Change, Test  # noqa: E402
from gate_host.core.orders import Land, Stage  # noqa: E402
from gate_host.faults import Trouble  # noqa: E402
from gate_host.journal import Journal  # noqa: E402
from test_journal import A, B, C, D, DONE, LAND, STAGE, InRoom, answer  # noqa: E402

TRY = {"order": "stage", "batch": 2, "branch": "trying", "base": A, "heads": [[8, C]]}
NOTICE = {"order": "notice", "change": 9, "why": "Pushed"}

# The tables of versions 1 and 2.
OF_1 = """
CREATE TABLE deliveries (number INTEGER PRIMARY KEY, id TEXT NOT NULL UNIQUE, line TEXT NOT NULL, answer TEXT);
CREATE INDEX without_answer ON deliveries (number) WHERE answer IS NULL;
CREATE TABLE orders (
    delivery INTEGER NOT NULL, place INTEGER NOT NULL, kind TEXT NOT NULL, body TEXT NOT NULL, batch INTEGER, done INTEGER NOT NULL,
    PRIMARY KEY (delivery, place)
);
CREATE INDEX left_undone ON orders (delivery, place) WHERE done = 0;
CREATE INDEX of_batch ON orders (batch);
CREATE TABLE changes (number INTEGER PRIMARY KEY, phase TEXT NOT NULL, head TEXT NOT NULL);
CREATE TABLE pushes (number INTEGER PRIMARY KEY, change INTEGER NOT NULL, head TEXT NOT NULL, person TEXT NOT NULL, UNIQUE (change, head));
CREATE TABLE people (name TEXT PRIMARY KEY, role TEXT NOT NULL);
CREATE TABLE notes (name TEXT PRIMARY KEY) WITHOUT ROWID;
CREATE TABLE tests (branch TEXT PRIMARY KEY, batch INTEGER NOT NULL, target TEXT NOT NULL);
CREATE TABLE results (batch INTEGER NOT NULL, name TEXT NOT NULL, state TEXT NOT NULL, PRIMARY KEY (batch, name));
CREATE TABLE told (number INTEGER PRIMARY KEY, change INTEGER NOT NULL, at INTEGER NOT NULL, text TEXT NOT NULL);
CREATE INDEX of_change ON told (change);
CREATE TABLE facts (name TEXT PRIMARY KEY, value TEXT NOT NULL);
PRAGMA user_version = 1;
"""
OF_2 = """
CREATE TABLE made (target TEXT PRIMARY KEY) WITHOUT ROWID;
CREATE TABLE said_moves (
    before TEXT NOT NULL, target TEXT NOT NULL, person TEXT NOT NULL, at INTEGER NOT NULL, PRIMARY KEY (before, target, person)
);
CREATE TABLE moves (number INTEGER PRIMARY KEY, at INTEGER NOT NULL, before TEXT NOT NULL, target TEXT NOT NULL, person TEXT);
CREATE INDEX of_target ON said_moves (target);
CREATE INDEX strays ON moves (number) WHERE person IS NULL OR person = '';
PRAGMA user_version = 2;
"""


class EarlierTests(InRoom):
    def make(self, is_second):
        """A journal as a host of an earlier version leaves it that dies while a batch is landed."""
        with closing(sqlite3.connect(self.path)) as journal:
            journal.executescript(OF_1 + (OF_2 if is_second else ""))
            lines = [
                ("role-1", {"event": "role", "person": "rosa", "role": "reviewer"}, DONE),
                ("tick-2", {"event": "tick", "now": 50}, answer(STAGE, TRY)),
                ("tick-2.0", {"event": "staged", "batch": 1, "commit": C}, DONE),
                ("status-4", {"event": "status", "commit": C, "name": "build", "state": "success"}, answer(LAND, NOTICE)),
                ("role-5", {"event": "role", "person": "otto", "role": "member"}, None),
            ]
            for number, (id, body, answered) in enumerate(lines, 1):
                journal.execute("INSERT INTO deliveries VALUES (?, ?, ?, ?)", (number, id, json.dumps({"id": id, **body}), answered))
            for delivery, place, order, done in ((2, 0, STAGE, 1), (2, 1, TRY, 0), (4, 0, LAND, 0), (4, 1, NOTICE, 0)):
                row = (delivery, place, order["order"], json.dumps(order), order.get("batch"), done)
                journal.execute("INSERT INTO orders VALUES (?, ?, ?, ?, ?, ?)", row)
            journal.executemany("INSERT INTO changes VALUES (?, ?, ?)", [(7, "open", B), (8, "landed", C)])
            journal.executemany("INSERT INTO pushes VALUES (?, ?, ?, ?)", [(1, 7, D, "ines"), (2, 7, A, "otto")])
            journal.executemany("INSERT INTO people VALUES (?, ?)", [("rosa", "reviewer"), ("otto", "member"), ("eve", "nobody")])
            journal.executemany("INSERT INTO notes VALUES (?)", [("n1",), ("n2",)])
            journal.execute("INSERT INTO tests VALUES ('staging', 1, ?)", (C,))
            journal.execute("INSERT INTO results VALUES (1, 'build', 'success')")
            journal.execute("INSERT INTO told (change, at, text) VALUES (7, 77, 'told before')")
            journal.executemany("INSERT INTO facts VALUES (?, ?)", [
                ("base", A), ("settings of", A), ("settings refused", "why"), ("clock", "50"), ("log written up to", "1"),
            ])
            if is_second:
                journal.execute("INSERT INTO made VALUES (?)", (D,))
                journal.execute("INSERT INTO said_moves VALUES (?, ?, 'ines', 5)", (A, B))
                journal.executemany("INSERT INTO moves (at, before, target, person) VALUES (?, ?, ?, ?)", [
                    (5, A, B, None), (6, B, C, ""), (7, C, D, "ines"),
                ])
            journal.commit()

    def test_what_a_journal_of_version_2_knew_is_known(self):
        self.make(is_second=True)
        journal = self.journal()
        known = journal.known()
        self.assertEqual(known.roles, {"rosa": "reviewer", "otto": "member", "eve": "nobody"})
        self.assertEqual((known.base, known.settings_of, known.refusal, known.clock), (A, A, "why", 50))
        self.assertEqual(known.changes, {7: Change("open", B), 8: Change("landed", C)})
        self.assertEqual((known.pusher(7, D), known.pusher(7, A), list(known.pushers[7])), ("ines", "otto", [D, A]))
        self.assertEqual(([journal.has_taken(it) for it in ("n1", "n2", "n3")], known.made), ([True, True, False], {C, D}))
        self.assertEqual(known.told_moves, {(A, B, "ines"): 5})
        self.assertEqual([(it.before, it.target) for it in known.unknown_moves()], [(A, B)])
        self.assertEqual([(it.before, it.target) for it in known.strays()], [(B, C)])
        self.assertEqual((known.tests, known.results), ({"staging": Test("staging", 1, C)}, {"staging": {"build": "success"}}))
        batch, other = known.batches["staging"], known.batches["trying"]
        self.assertEqual((batch.order, batch.stage, batch.now, batch.commit), ("tick-2.0", Stage(1, "staging", A, ((7, B),)), 50, C))
        steps = steps_of(known, Duties(ToLand(1, A, C), ToMerge(other.stage.batch)))
        self.assertEqual(steps, [Move("status-4.0", Land(1, A, C), batch), Merge("tick-2.1", other)])
        # The notice that nobody was told yet is told by this.
        self.assertEqual(journal.told(7), [(77, "told before")])
        self.assertEqual([text[:34] for _, text in journal.told(9)], ["The approval or the try has ended "])
        self.assertEqual((journal.mark("log written up to"), journal.count_answered()), ("1", 4))

    def test_it_goes_on_where_it_stood(self):
        self.make(is_second=True)
        journal = self.journal()
        known = journal.known()
        self.assertEqual([it.id for it in known.waiting], ["role-5"])
        journal.keep_answer(known, 100, DONE)
        journal.record(known, 100, Moved("status-4.0", "main"))
        self.assertEqual([(it.id, it.event, it.order) for it in known.waiting], [("status-4.0", "base", Land(1, A, C))])
        journal.keep_answer(known, 100, DONE)
        journal.record(known, 100, Ticked(60))
        self.assertEqual(journal.told(7)[-1][1], f"Landed on main as {C}, with change 7.")
        # No identifier comes again.
        self.assertEqual(known.waiting[0].id, "tick-8")
        self.assertEqual(known.changes[7], Change("landed", B))
        self.assertEqual(self.journal().known(), known)

    def test_what_has_no_answer_is_drawn_from_as_ever(self):
        self.make(is_second=True)
        with closing(sqlite3.connect(self.path)) as journal:
            journal.execute("UPDATE deliveries SET answer = NULL WHERE number >= 3")
            for statement in ("DELETE FROM orders WHERE delivery = 4", "DELETE FROM tests", "DELETE FROM results"):
                journal.execute(statement)
            journal.commit()
        journal = self.journal()
        known = journal.known()
        self.assertEqual([it.id for it in known.waiting], ["tick-2.0", "status-4", "role-5"])
        journal.keep_answer(known, 100, DONE)
        self.assertEqual(known.tests, {"staging": Test("staging", 1, C)})
        journal.keep_answer(known, 100, answer(LAND))
        self.assertEqual(self.journal().known(), known)

    def test_a_landing_whose_report_has_no_answer_yet(self):
        self.make(is_second=True)
        with closing(sqlite3.connect(self.path)) as journal:
            journal.execute("UPDATE orders SET done = 1")
            line = json.dumps({"id": "status-4.0", "event": "base", "commit": C})
            journal.execute("UPDATE deliveries SET id = 'status-4.0', line = ? WHERE number = 5", (line,))
            journal.commit()
        journal = self.journal()
        known = journal.known()
        self.assertEqual([(it.id, it.order, it.changes) for it in known.waiting], [("status-4.0", Land(1, A, C), (7,))])
        journal.keep_answer(known, 100, DONE)
        self.assertEqual(journal.told(7)[-1][1], f"Landed on the main branch as {C}, with change 7.")

    def test_others_read_it_and_leave_it_as_it_is(self):
        self.make(is_second=True)
        with closing(Journal(self.path, is_hosts=False)) as journal:
            self.assertEqual((journal.known().made, journal.count_answered(), journal.without_answer()), ({C, D}, 4, "role-5"))
        with closing(sqlite3.connect(self.path)) as journal:
            self.assertEqual(journal.execute("PRAGMA user_version").fetchone()[0], 2)

    def test_a_journal_of_version_1(self):
        self.make(is_second=False)
        known = self.journal().known()
        self.assertEqual((known.made, known.moves, known.told_moves), ({C}, {}, {}))

    def test_it_is_brought_over_whole_or_not_at_all(self):
        self.make(is_second=True)
        with closing(sqlite3.connect(self.path)) as journal:
            journal.execute("UPDATE orders SET body = '{\"order\":\"dance\"}'")
            journal.commit()
        with self.assertRaisesRegex(Trouble, "can't be brought over: an order that isn't known"):
            Journal(self.path)
        with closing(sqlite3.connect(self.path)) as journal:
            self.assertEqual(journal.execute("PRAGMA user_version").fetchone()[0], 2)
            self.assertEqual(journal.execute("SELECT count(*) FROM notes").fetchone()[0], 2)


if __name__ == "__main__":
    unittest.main()
