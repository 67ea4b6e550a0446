"""Tests of what an audit touches: the journal, the repository, the program; and of the command."""
import argparse
import contextlib
import io
import itertools
import json
import os
import shutil
import sqlite3
import subprocess
import sys
import unittest
from contextlib import closing
from pathlib import Path
from unittest import mock

sys.path.insert(0, str(Path(__file__).resolve().parent.parent))

from folders import InFolder, InHistory  # noqa: E402
from gate_host import journal as hosts  # noqa: E402
from gate_host.audit import journal_file, replay  # noqa: E402
from gate_host.audit.audit import audit, main_in  # noqa: E402
from gate_host.audit.entries import Row, Stage, entries_of, gaps_in  # noqa: E402
from gate_host.audit.journal_file import read_journal  # noqa: E402
from gate_host.audit.objects import Objects, full_name, head_of  # noqa: E402
from gate_host.core.facts import Ticked  # noqa: E402
from gate_host.faults import Trouble  # noqa: E402
from telling import Told  # noqa: E402
from test_journal_of_2 import OF_1, OF_2  # noqa: E402

TABLES = """CREATE TABLE facts (number INTEGER PRIMARY KEY, at INTEGER, kind TEXT, body TEXT);
CREATE TABLE deliveries (number INTEGER PRIMARY KEY, fact INTEGER, id TEXT, line TEXT, answer TEXT);"""


def write_journal(path, journal, version=3):
    """Writes a journal as a host does, of which all stands in the log. Gives the connection, whose end puts it into the file."""
    database = sqlite3.connect(path)
    database.execute("PRAGMA journal_mode = WAL")
    database.execute(f"PRAGMA user_version = {version}")
    database.executescript(TABLES)
    database.executemany("INSERT INTO facts VALUES (?, ?, ?, ?)", journal.facts)
    database.executemany("INSERT INTO deliveries VALUES (?, ?, ?, ?, ?)", journal.rows)
    database.commit()
    return database


class JournalTests(InFolder):
    def setUp(self):
        super().setUp()
        self.path, self.folder = self.room / "journal.db", self.room / "folder"
        self.folder.mkdir()
        told = Told()
        told.begin()
        self.journal = told.journal()

    def test_what_stands_in_the_log_is_read_and_nothing_is_written(self):
        with closing(write_journal(self.path, self.journal)):
            before = {path.name: path.read_bytes() for path in self.room.glob("journal.db*") if not path.name.endswith("-shm")}
            self.assertGreater(len(before["journal.db-wal"]), 0)
            self.assertEqual(read_journal(self.path, self.folder), self.journal)
            self.assertEqual({name: (self.room / name).read_bytes() for name in before}, before)

    def test_a_file_without_a_log(self):
        write_journal(self.path, self.journal).close()
        (self.folder / "journal.db-wal").write_text("of before", encoding="utf-8")
        self.assertEqual(read_journal(self.path, self.folder), self.journal)

    def test_one_that_was_brought_over(self):
        """Of what came before there are the deliveries, and one fact."""
        with closing(sqlite3.connect(self.path)) as journal:
            journal.executescript(OF_1 + OF_2)
            rows = [(row.number, row.id, row.line, None if row.number == 3 else row.answer) for row in self.journal.rows]
            journal.executemany("INSERT INTO deliveries VALUES (?, ?, ?, ?)", rows)
            journal.commit()
        with closing(hosts.Journal(self.path)) as journal:
            known = journal.known()
            journal.keep_answer(known, 9, '[{"orders":[],"verdict":"done"}]')
            journal.record(known, 9, Ticked(7))
            journal.keep_answer(known, 9, '[{"orders":[],"verdict":"done"}]')
        found = read_journal(self.path, self.folder)
        self.assertEqual([fact.kind for fact in found.facts], ["Upgraded", "Ticked"])
        self.assertEqual(gaps_in(found), [])
        self.assertEqual(len(entries_of(found)[0]), len(rows) + 1)

    def test_what_is_no_journal(self):
        for version, why in ((1, "; start the host of today"), (2, "; start the host of today"), (0, ""), (4, "")):
            path = self.room / f"of-{version}"
            write_journal(path, self.journal, version).close()
            with self.assertRaisesRegex(Trouble, f"of version {version}{why}"):
                read_journal(path, self.folder)
        with self.assertRaisesRegex(Trouble, "there is no journal"):
            read_journal(self.room / "none", self.folder)
        self.path.write_bytes(b"x" * 8192)
        with self.assertRaisesRegex(Trouble, "can't be read as a journal"):
            read_journal(self.path, self.folder)

    def test_what_no_host_has_written(self):
        for statement, why in (
            ("UPDATE deliveries SET line = x'ff'", "a delivery 1"), ("UPDATE deliveries SET answer = 7.5", "a delivery 1"),
            ("UPDATE facts SET at = 'x'", "a fact 1"),
        ):
            shutil.rmtree(self.folder)
            self.folder.mkdir()
            self.path.unlink(missing_ok=True)
            database = write_journal(self.path, self.journal)
            if "7.5" in statement:
                database.execute("ALTER TABLE deliveries DROP COLUMN answer")
                database.execute("ALTER TABLE deliveries ADD COLUMN answer")
            database.execute(statement)
            database.commit()
            database.close()
            with self.assertRaisesRegex(Trouble, why):
                read_journal(self.path, self.folder)

    def test_a_journal_that_is_written_all_the_time(self):
        write_journal(self.path, self.journal).close()
        marks = mock.patch.object(journal_file, "marks_of", side_effect=lambda *paths: [object()])
        with marks, mock.patch.object(journal_file, "PAUSE", 0), self.assertRaisesRegex(Trouble, "written all the time"):
            read_journal(self.path, self.folder)


class ReplayTests(InFolder):
    def program(self, body):
        path = self.room / "program"
        path.write_text(f"#!/bin/sh\n{body}\n", encoding="utf-8")
        path.chmod(0o755)
        return str(path)

    def test_the_lines_are_handed_in_as_they_stand(self):
        rows = [Row(1, 1, "a", '{"id": "a"}\u00e4', '{"id": "a"}\u00e4'), Row(2, 1, "b", "x\ny", "x y"), Row(3, 1, "c", "last", None)]
        self.assertEqual(replay.replayed(self.program("exec cat"), rows), [])
        found, = replay.replayed(self.program("tr a z"), rows)
        self.assertEqual(found.about, "a")
        self.assertEqual(replay.replayed(self.program("exec cat"), []), [])

    def test_a_program_that_does_not_do_its_work(self):
        rows = [Row(1, 1, "a", "a", "a"), Row(2, 1, "b", "b", "b")]
        for body, why in (
            ("head -n 1", "after 1 of 2 deliveries"), ("cat; echo 'gate: Memory' >&2; exit 1", "status 1 after 2 of 2 .*Memory"),
        ):
            with self.assertRaisesRegex(Trouble, why):
                replay.replayed(self.program(body), rows)
        with self.assertRaisesRegex(Trouble, "can't be started"):
            replay.replayed(str(self.room / "none"), rows)
        with mock.patch.object(replay, "SECONDS", 0.2), self.assertRaisesRegex(Trouble, "took more than"):
            replay.replayed(self.program("exec sleep 60"), rows)


class ObjectTests(InHistory):
    def setUp(self):
        super().setUp()
        self.folder = self.room / "folder"
        self.folder.mkdir()

    def objects(self):
        return Objects(self.folder, self.path, "main")

    def land(self, *heads):
        merged = self.made(*heads)
        self.git("fetch", "--quiet", str(self.places.mirror), f"{merged}:refs/heads/merged")
        self.git("update-ref", "refs/heads/main", merged)
        return merged

    def test_the_branch_by_first_parents(self):
        merged = self.land(self.one, self.two)
        objects = self.objects()
        self.assertEqual((objects.replacements(), objects.fetch()), ([], []))
        walk = objects.walk()
        self.assertEqual([commit.name for commit in walk], [self.base, merged])
        self.assertEqual(walk[1].parents, (self.base, self.one, self.two))
        self.assertEqual(full_name(walk, merged[:7].upper()), merged)
        for named, why in (("0" * 40, "no commit"), ("", "several commits")):
            with self.assertRaisesRegex(Trouble, why):
                full_name(walk, named)

    def test_merges_are_made_again(self):
        self.land(self.one, self.two)
        objects = self.objects()
        objects.fetch()
        walk = objects.walk()
        heads = ((1, self.one), (2, self.two))
        self.assertEqual(objects.remake(Stage(3, "staging", self.base, heads)).tree, walk[1].tree)
        self.assertEqual(objects.remake_all({"x": Stage(3, "staging", self.base, heads[::-1])})["x"].tree, walk[1].tree)
        self.assertNotEqual(objects.remake(Stage(3, "staging", self.base, heads[:1])).tree, walk[1].tree)
        self.assertIn("names no head", objects.remake(Stage(3, "staging", self.base, ())).why)

    def test_merges_that_there_are_none_of(self):
        for name, head in (("clash", self.clash), ("alone", self.alone), ("one", self.one)):
            self.git("update-ref", f"refs/heads/{name}", head)
        parents = [it for parent in (self.base, self.one, self.clash, self.alone) for it in ("-p", parent)]
        author = ["-c", "user.name=x", "-c", "user.email=x@localhost"]
        everything = self.git(*author, "commit-tree", f"{self.base}^{{tree}}", *parents, "-m", "x")
        self.git("update-ref", "refs/heads/main", everything)
        objects = self.objects()
        self.assertEqual(objects.fetch(), [])
        for heads, why in (
            (((1, self.one), (2, self.clash)), "change 2 doesn't merge: both change b"),
            (((1, self.alone),), "change 1 doesn't merge: it has no commit in common"), (((1, "7" * 40),), "change 1 doesn't merge: "),
        ):
            self.assertIn(why, objects.remake(Stage(3, "staging", self.base, heads)).why)

    def test_what_stands_in_the_place_of_objects(self):
        self.land(self.one)
        self.git("update-ref", f"refs/replace/{self.one}", self.two)
        (self.path / "info").mkdir(exist_ok=True)
        (self.path / "info/grafts").write_text(f"{self.base}\n", encoding="utf-8")
        objects = self.objects()
        self.assertEqual([(it.kind, it.about) for it in objects.replacements()], [
            ("replacement", f"refs/replace/{self.one}"), ("replacement", "info/grafts"),
        ])
        self.assertEqual(objects.fetch(), [])
        self.assertEqual(objects.walk()[1].parents, (self.base, self.one))
        self.git("pack-refs", "--all")
        self.assertEqual(len(objects.replacements()), 2)

    def test_an_object_that_was_altered(self):
        self.land(self.one)
        one, two = (self.git("hash-object", "-w", "--stdin", given=text) for text in ("2\n", "evil\n"))
        places = [self.path / "objects" / it[:2] / it[2:] for it in (one, two)]
        os.replace(places[1], places[0])
        found = self.objects().fetch()
        self.assertEqual({it.kind for it in found}, {"object"})
        self.assertIn(f"found at: {places[0]}", " ".join(it.said for it in found))

    def test_settings_of_the_repository_are_not_obeyed(self):
        mark, merged = self.room / "mark", self.land(self.one)
        for name, value in (
            ("uploadpack.packObjectsHook", f"touch {mark}"), ("core.alternateRefsCommand", f"touch {mark}"),
            ("core.fsmonitor", f"touch {mark}"), ("uploadpack.hideRefs", "refs/heads"),
        ):
            self.git("config", name, value)
        before = sorted(str(path) for path in self.path.rglob("*"))
        objects = self.objects()
        self.assertEqual(objects.fetch(), [])
        self.assertEqual((objects.walk()[-1].name, mark.exists()), (merged, False))
        self.assertEqual(sorted(str(path) for path in self.path.rglob("*")), before)

    def test_which_branch(self):
        self.assertEqual(head_of(self.path), "main")
        with self.assertRaisesRegex(Trouble, "no branch other"):
            Objects(self.folder, self.path, "other")
        self.git("update-ref", "--no-deref", "HEAD", self.base)
        self.assertIsNone(head_of(self.path))

    def test_the_settings_are_read_as_text(self):
        for text, due in (
            ("", None), ("main = a", None), ("[host]\n", None), ("[checks]\nmain = e\n", None), ("[host]\nmain =\n", None),
            ("main = a\n[host]\n# main = b\nmain = c\nprogram=/x\nmain = d\n[checks]\nmain = e\n", "c"), ("[host]\nmain=a/b", "a/b"),
            ("[host]\n[checks]\nmain = e\n", None),
        ):
            self.assertEqual(main_in(text), due, text)


class CommandTests(InHistory):
    """The command, with a program that gives each delivery the answer that is kept for it."""

    def setUp(self):
        super().setUp()
        self.journal = self.room / "copy.db"
        merged = self.made(self.one)
        self.git("fetch", "--quiet", str(self.places.mirror), f"{merged}:refs/heads/merged")
        self.git("update-ref", "refs/heads/main", merged)
        told = Told()
        told.tell("base", commit=self.base)
        told.tell("settings", text="S")
        told.tell("opened", change=1, author="otto", head=self.one)
        told.approve()
        name = told.test(base=self.base, heads=[(1, self.one)], commit=merged)
        told.landed(name, merged)
        self.told = told

    def program(self):
        answers = self.room / "answers"
        answers.write_text("".join(f"{row.answer}\n" for row in self.told.rows), encoding="utf-8")
        path = self.room / "program"
        path.write_text(f"#!/bin/sh\n[ \"$2\" = --db ] && exit 9\ncat >/dev/null\nexec cat {answers}\n", encoding="utf-8")
        path.chmod(0o755)
        return str(path)

    def run_audit(self, **more):
        self.journal.unlink(missing_ok=True)
        write_journal(self.journal, self.told.journal()).close()
        given = {
            "repository": str(self.path), "journal": str(self.journal), "program": self.program(), "main": None, "start": None, "allow": [],
            "json": False, **more,
        }
        printed = io.StringIO()
        required = mock.patch("gate_host.audit.audit.required_statuses", lambda program, text: ["build", "lint"])
        with contextlib.redirect_stdout(printed), required:
            status = audit(argparse.Namespace(**given))
        return status, printed.getvalue()

    def test_a_branch_that_is_right(self):
        status, printed = self.run_audit()
        self.assertEqual(status, 0, printed)
        self.assertRegex(printed.splitlines()[1], f"batch 1  1 {self.one[:7]}  rosa         build, lint$")
        self.assertTrue(printed.endswith("; 0 findings\n"))
        status, printed = self.run_audit(json=True, start=self.base[:8])
        self.assertEqual((status, len(json.loads(printed)["steps"])), (0, 1))

    def test_a_finding(self):
        self.told.rows[3] = self.told.rows[3]._replace(line=self.told.rows[3].line.replace("r+", "r-"))
        status, printed = self.run_audit()
        self.assertEqual(status, 1)
        self.assertIn("FINDING not approved: change 1 landed", printed)
        self.assertTrue(printed.endswith("; 1 finding\n"))

    def test_what_is_about_no_step(self):
        self.told.rows[1] = self.told.rows[1]._replace(number=50)
        self.told.rows.sort()
        merged = self.git("rev-parse", "main")
        self.git("update-ref", "refs/heads/main", self.base)
        printed = self.run_audit()[1]
        for words in ("missing delivery: delivery 2 of", f"lost: batch 1 landed as {merged} "):
            self.assertIn(f"FINDING {words}", printed)

    def test_an_object_that_was_altered(self):
        one, two = (self.git("hash-object", "-w", "--stdin", given=text) for text in ("2\n", "evil\n"))
        os.replace(self.path / "objects" / two[:2] / two[2:], self.path / "objects" / one[:2] / one[2:])
        status, printed = self.run_audit()
        self.assertEqual(status, 1)
        self.assertTrue(printed.startswith("FINDING object: not all of the main branch can be read"), printed)

    def test_a_branch_that_moves_meanwhile(self):
        """The two are read once more then."""
        merged = self.git("rev-parse", "main")
        for moves, status in ((iter([self.base, merged]), 0), (itertools.cycle([self.base, merged]), None)):
            def read(path, folder):
                for commit in itertools.islice(moves, 1):
                    self.git("update-ref", "refs/heads/main", commit)
                return read_journal(path, folder)

            with mock.patch("gate_host.audit.audit.read_journal", read):
                if status is None:
                    with self.assertRaisesRegex(Trouble, "moves all the time"):
                        self.run_audit()
                else:
                    self.assertEqual(self.run_audit()[0], status)

    def test_a_journal_without_a_base(self):
        self.told = Told()
        status, printed = self.run_audit()
        self.assertEqual(status, 1)
        self.assertIn("FINDING missing delivery: the journal has no base", printed)

    def test_what_cannot_be_done(self):
        for why, more in (
            ("is no bare repository", {"repository": str(self.room)}), ("can't be started", {"program": str(self.room / "none")}),
            ("no branch other", {"main": "other"}), ("no commit", {"start": "0" * 40}),
            ("there is no journal", {"journal": str(self.room / "none")}),
        ):
            with self.subTest(why=why):
                with self.assertRaisesRegex(Trouble, why):
                    self.run_audit(**more)
        write_journal(self.room / "other.db", self.told.journal()).close()
        ran = self.run_command("audit", str(self.path), "--journal", str(self.room / "other.db"), "--program", self.program())
        self.assertEqual((ran[0], ran[1]), (1, ""))
        self.assertIn("ended with status 9", ran[2])

    def run_command(self, *words):
        script = Path(__file__).resolve().parent.parent / "gate-host"
        ran = subprocess.run([sys.executable, str(script), *words], capture_output=True, encoding="utf-8", timeout=60)
        return ran.returncode, ran.stdout, ran.stderr


if __name__ == "__main__":
    unittest.main()
