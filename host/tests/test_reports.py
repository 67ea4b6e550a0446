"""Tests of the reports: with a program that stands in for `gate serve`, and with the built one."""
import random
import sqlite3
import subprocess
import sys
import time
import unittest
from contextlib import closing
from pathlib import Path
from unittest import mock

HOST = Path(__file__).resolve().parent.parent
sys.path.insert(0, str(HOST))

from gate_host import reports  # noqa: E402
from gate_host.client import Guard  # noqa: E402
from gate_host.core.deliveries import touched  # noqa: E402
from gate_host.core.duties import BRANCHES, Duties, Move, Point, ToLand, ToMerge, ToTest, steps_of, tests_of  # noqa: E402
from gate_host.core.facts import (  # noqa: E402
    Closed, Conflicted, Ended, MainSeen, Merged, Moved, NotMoved, Opened, Pushed, RoleGiven, Said, Staged, Ticked,
)
from gate_host.core.queue import batches_in  # noqa: E402
from gate_host.journal import Journal  # noqa: E402
from gate_host.report_bot import NoReport  # noqa: E402
from gate_host.reports import MARK, Reports, log_text  # noqa: E402

from playing import open_in  # noqa: E402
from stand_in import BATCH, EMPTY, PROGRAM, SECONDS, WALK, WithStandIn, is_built, is_there  # noqa: E402


def begun(places, journal, complain):
    """The reports of a host that begins: what is known was read from the journal."""
    reports = Reports(places, journal, complain)
    known = journal.known(heard=lambda then, it: reports.note(it.delivery, touched(it.delivery, it.orders, then)))
    reports.begin(known.changes)
    return reports


class ReportsTests(WithStandIn):
    """The files of reports, with a journal and a file of the bot that has its answers."""

    seconds_of_starting = SECONDS

    def setUp(self):
        super().setUp()
        self.journal = Journal(self.places.records / "journal.db")
        self.addCleanup(self.journal.close)
        self.complaints = []
        self.reports = None

    def begin(self):
        """Begins as a host that is started. The one before has ended."""
        if self.reports:
            self.reports.close()
        self.reports = begun(self.places, self.journal, self.complaints.append)
        self.known = self.journal.known()
        self.addCleanup(self.reports.close)
        return self.reports

    def refresh(self, *remarks):
        """Writes what has changed. The machine may be a slow one."""
        with mock.patch.object(reports, "SECONDS_OF_STARTING", self.seconds_of_starting):
            self.reports.refresh(str(self.program), list(remarks))

    def answer(self, fact, is_noted=True):
        """Writes a fact down, and the answer there and in the file of the bot. Notes it, as the loop does."""
        self.journal.record(self.known, 0, fact)
        delivery = self.journal.keep_answer(self.known, 0, "[]").delivery
        with closing(sqlite3.connect(self.places.bot)) as bot:
            bot.execute("CREATE TABLE IF NOT EXISTS answers (id TEXT PRIMARY KEY, body TEXT)")
            bot.execute("INSERT INTO answers VALUES (?, '[]')", (delivery.id,))
            bot.commit()
        if is_noted:
            self.reports.note(delivery, touched(delivery, [], self.known))
        return delivery.line

    def open(self, *changes, **more):
        for change in changes:
            self.put(f"changes-{change}", f"change    {change}\n")
            self.answer(Opened(change, "ines", "a" * 40), **more)

    def text(self, name):
        path = self.places.reports / name
        return path.read_text(encoding="utf-8") if path.exists() else None

    def asked(self):
        """For which changes the program was asked since the last time."""
        found = [int(it[1].rpartition("/")[2]) for it in self.requests() if it[1].startswith("/changes/")]
        (self.room / "seen").unlink(missing_ok=True)
        return found

    def folders(self):
        return list(self.places.records.glob("reports-*"))

    def test_what_is_written(self):
        self.begin()
        self.refresh()
        self.assertEqual((self.text("queue"), self.starts(), self.reports.is_waiting), (None, [], True))
        self.open(7)
        self.refresh("open: change 7")
        self.assertEqual((self.text("queue"), self.text("change-7")), (EMPTY + "\nopen: change 7\n", "change    7\n"))
        self.assertEqual(self.requests(), [["GET", "/queue", ""], ["GET", "/changes/7", ""]])
        self.open(8)
        line = self.answer(Closed(7))
        self.put("changes-7", "closed\n")
        self.refresh()
        self.assertEqual((self.text("queue"), self.text("change-7"), self.text("change-8")), (EMPTY, "closed\n", "change    8\n"))
        posted = [it[2] for it in self.requests() if it[0] == "POST"]
        self.assertEqual((len(posted), posted[-1], len(self.starts())), (2, line, 1))
        self.assertEqual((self.places.reports / "queue").stat().st_mode & 0o777, 0o644)
        self.assertEqual(self.complaints, [])

    def test_what_is_said_of_the_queue_stands_right_below_it(self):
        """It is told of the queue that is written with it."""
        reports = self.begin()
        reports.more_of_queue = lambda queue: [f"batch {it.number} {it.changes}" for it in queue]
        self.answer(Ticked(7))
        self.refresh("open: change 7")
        self.put("queue", EMPTY + BATCH)
        self.answer(Ticked(8))
        self.refresh("open: change 7")
        self.assertEqual((self.places.reports / "queue").read_text(encoding="utf-8"), f"{EMPTY}{BATCH}\nbatch 1 (7,)\nopen: change 7\n")

    def test_whether_something_waits(self):
        """It does if that isn't known: before the first report, after an answer, and if the bot for reports is lost."""
        self.begin()
        self.open(7)
        found = [self.reports.is_waiting]
        for text in (EMPTY, EMPTY + BATCH, EMPTY):
            self.put("queue", text)
            self.refresh()
            found.append(self.reports.is_waiting)
        self.answer(Ticked(1))
        found.append(self.reports.is_waiting)
        self.refresh()
        found.append(self.reports.is_waiting)
        self.behave("fails")
        self.refresh()
        found.append(self.reports.is_waiting)
        self.assertEqual(found, [True, False, True, False, True, False, True])

    def test_a_bot_that_is_lost_is_made_again(self):
        for mode, why in (("ends", "has ended: status 3"), ("fails", "by 503")):
            with self.subTest(mode):
                self.complaints.clear()
                self.begin()
                self.open(*({7} - set(self.known.changes)))
                self.refresh()
                self.behave(mode)
                for now in (1, 2):
                    self.answer(Ticked(now))
                    self.refresh("open: change 7")
                self.assertEqual((len(self.complaints), self.reports.is_waiting), (1, True))
                self.assertIn(why, self.complaints[0])
                self.assertIn(f"\ntrouble: {self.complaints[0]}\n", self.text("queue"))
                # There is one folder for each that runs, and none runs before its time.
                self.assertEqual((self.folders(), self.reports.is_behind), ([], False))
                self.behave("good")
                (self.room / "seen").unlink()
                self.put("changes-7", f"after {mode}\n")
                self.answer(Closed(7))
                self.refresh()
                self.assertEqual(self.seen(), [])
                self.reports.next_start = 0.0
                self.assertTrue(self.reports.is_behind)
                self.refresh()
                self.assertEqual((self.text("change-7"), self.text("queue")), (f"after {mode}\n", EMPTY))
                # The copy has all that was answered.
                self.assertEqual([it for it in self.requests() if it[0] == "POST"], [])
                self.assertEqual((self.reports.is_waiting, self.reports.is_behind, len(self.folders())), (False, False, 1))

    def test_starts_are_fewer_and_fewer(self):
        """Whether they lead to reports or not: who ends the bot for reports again and again costs the host little."""
        self.begin()
        self.open(7)
        pauses = []
        for mode in ("fault", "fault", "ends", "fails", "fault", "good", "good", "good"):
            self.reports.close()
            self.reports.next_start = 0.0
            self.behave(mode)
            self.refresh()
            pauses.append(round(self.reports.next_start - self.reports.last_start))
        self.assertEqual((pauses, len(self.starts()), len(self.complaints)), ([2, 4, 8, 16, 32, 60, 60, 60], 8, 4))
        self.assertEqual(self.text("change-7"), "change    7\n")
        # It has run long by then.
        self.reports.close()
        self.reports.last_start -= reports.SOON
        self.reports.next_start = 0.0
        self.refresh()
        self.assertEqual(self.reports.next_start - self.reports.last_start, 2)

    def test_a_slow_start_holds_nobody_up(self):
        self.begin()
        self.behave("slow")
        self.open(7)
        with mock.patch.object(self, "seconds_of_starting", 0.1):
            self.refresh()
        before = time.monotonic()
        self.open(8)
        self.refresh()
        self.assertLess(time.monotonic() - before, 1)
        self.assertEqual((self.text("queue"), self.reports.is_behind, self.reports.is_waiting), (None, True, True))
        self.behave("good")
        self.until("it is ready", lambda: self.refresh() or not self.reports.is_waiting)
        self.assertEqual((self.text("change-7"), self.text("change-8"), len(self.starts())), ("change    7\n", "change    8\n", 1))
        # What was answered while it started isn't in its copy.
        self.assertEqual(len([it for it in self.requests() if it[0] == "POST"]), 1)

    def test_a_file_of_the_bot_that_is_behind_is_not_copied(self):
        self.begin()
        self.open(7)
        for why, statement in (("older", "DELETE FROM answers"), ("of another history", "INSERT INTO answers VALUES ('opened-1', '[7]')")):
            with closing(sqlite3.connect(self.places.bot)) as bot:
                bot.execute(statement)
                bot.commit()
            self.reports.next_start = 0.0
            self.refresh()
            found = (self.starts(), self.folders(), self.reports.is_waiting, self.reports.is_behind)
            self.assertEqual(found, ([], [], True, False), why)
        self.assertEqual(self.complaints, [])

    def test_a_file_that_is_written_meanwhile_is_not_copied(self):
        self.begin()
        self.open(7)
        right = reports.copy_up_to_date.__globals__["copy_records"]

        def copied(places, folder):
            right(places, folder)
            (places.records / "bot.db-wal").touch()

        with mock.patch("gate_host.bot_file.copy_records", copied):
            self.refresh()
        self.assertEqual((self.starts(), self.reports.is_waiting), ([], True))
        self.reports.next_start = 0.0
        self.refresh()
        self.assertEqual((len(self.starts()), self.text("change-7")), (1, "change    7\n"))

    def test_a_file_that_cannot_be_copied_is_told(self):
        self.begin()
        self.open(7)
        self.places.bot.write_bytes(b"no database" * 1000)
        self.refresh()
        self.assertEqual((self.starts(), self.folders(), self.reports.is_waiting, len(self.complaints)), ([], [], True, 1))
        self.assertIn(f"gets no copy of {self.places.bot}: file is not a database", self.complaints[0])

    def test_the_copy_is_for_the_owner_alone_and_goes_away(self):
        left = self.places.records / "reports-left"
        left.mkdir()
        self.begin()
        self.assertFalse(left.exists())
        self.open(7)
        self.refresh()
        folder, = self.folders()
        self.assertEqual(folder.stat().st_mode & 0o777, 0o700)
        given = self.starts()[0]
        self.assertEqual([given[given.index(it) + 1] for it in ("--db", "--token")], [str(folder / "bot.db"), str(folder / "token")])
        process = self.reports.bot.process.pid
        self.reports.close()
        self.assertEqual((self.folders(), is_there(process), self.reports.is_waiting), ([], False, True))

    def test_which_changes_are_asked_for_at_a_start(self):
        self.begin()
        self.open(*range(1, 6))
        self.until("all are written", lambda: self.refresh() or not self.reports.is_behind)
        self.asked()

        def lose_mark():
            (self.places.reports / MARK).unlink()

        def empty():
            (self.places.reports / "change-2").write_text("", encoding="utf-8")

        for why, alter, due in (
            ("nothing was lost", lambda: None, []), ("a file is missing", (self.places.reports / "change-4").unlink, [4]),
            ("a file is empty", empty, [2]), ("something was answered since", lambda: self.answer(Closed(3), is_noted=False), [3]),
            ("so it was, and is written", lambda: None, []), ("there is no mark", lose_mark, [1, 2, 3, 4, 5]),
            ("the system was started anew", lambda: (self.places.reports / MARK).write_text("closed-6 x\n"), [1, 2, 3, 4, 5]),
            ("the journal is older", lambda: (self.places.reports / MARK).write_text(f"closed-7 {reports.boot()}\n"), [1, 2, 3, 4, 5]),
            ("it is as new", lambda: (self.places.reports / MARK).write_text(f"closed-6 {reports.boot()}\n"), []),
            ("the mark is none", lambda: (self.places.reports / MARK).write_text("x"), [1, 2, 3, 4, 5]),
        ):
            alter()
            self.begin()
            self.until("all are written", lambda: self.refresh() or not self.reports.is_behind)
            self.assertEqual(sorted(self.asked()), due, why)

    def test_many_changes_hold_nobody_up(self):
        self.begin()
        self.open(*range(1, 41))
        with mock.patch.object(reports, "SECONDS_OF_ASKING", 0.0):
            for due in (40, 39):
                self.refresh()
                self.assertEqual((self.asked(), self.reports.is_behind), ([due], True))
            self.open(41)
            # What was noted last comes first.
            self.answer(Closed(7))
            for due in (7, 41, 38):
                self.refresh()
                self.assertEqual(self.asked(), [due])
        self.assertFalse((self.places.reports / MARK).exists())
        self.until("all are written", lambda: self.refresh() or not self.reports.is_behind)
        self.assertEqual(sorted(self.asked()), sorted(set(range(1, 38)) - {7}))
        self.assertEqual(self.text(MARK), f"closed-42 {reports.boot()}\n")

    def test_what_cannot_be_written_is_written_later(self):
        self.begin()
        self.open(7)
        with mock.patch("gate_host.reports.write", mock.Mock(side_effect=OSError(28, "No space left on device"))):
            for _ in range(2):
                self.refresh()
        self.assertEqual(self.complaints, ["the reports can't be written: [Errno 28] No space left on device"])
        self.assertFalse(self.reports.is_behind)
        self.reports.next_write = 0.0
        self.assertTrue(self.reports.is_behind)
        self.refresh()
        self.assertEqual((self.text("queue"), self.text("change-7"), self.reports.is_behind), (EMPTY, "change    7\n", False))
        self.assertEqual(len(self.starts()), 1)

    def test_logs_are_written_whatever_becomes_of_the_bot(self):
        self.begin()
        self.behave("fault")
        self.open(7)
        with self.journal.step():
            self.journal.tell(0, [(7, "told")])
        self.refresh()
        self.assertEqual(self.text("log-7"), log_text([(0, "told")]))


# What is said, and the settings. What lets changes land is there more often.
COMMANDS = (
    *["r+"] * 9, *["try"] * 4, "r-", "p=3", "try-", "retry", "delegate+", "delegate=vera,otto", "delegate-", "ping", "r=vera", "dance",
)
GOOD = 'status = ["ci"]'
TEXTS_OF_SETTINGS = (
    *[GOOD] * 3, f"{GOOD}\nmax_batch_size = 2", "status = [", f"{GOOD}\nrequired_approvals = 1",
    'status = ["ci", "lint"]\ntimeout_sec = 50',
)
# What is due to come about.
DUE = {"Stage", "Land", "Conflict", "Failed", "TimedOut", "Pushed", "Closed", "Settings", "TryPassed", "TryFailed"}
# What is to be done for a batch by its state in the report of the queue.
BY_STATE = {"ordered": ToMerge, "staged": ToTest, "landing": ToLand}


@is_built
class WithProgramTests(WithStandIn):
    """The built program, with a talk as the loop has it, about few changes to which everything happens."""

    def setUp(self):
        super().setUp()
        self.journal = Journal(self.places.records / "journal.db")
        self.addCleanup(self.journal.close)
        self.bot, self.duties = Guard(str(PROGRAM), self.places.bot), Duties()
        self.addCleanup(self.bot.close)
        self.reports = begun(self.places, self.journal, self.fail)
        self.addCleanup(self.reports.close)
        self.known, self.commits, self.now = self.journal.known(), 0, 0
        # What came about.
        self.came = set()

    def commit(self):
        self.commits += 1
        return f"{self.commits:040x}"

    def say(self, fact):
        """Writes a fact down, and hands in what it tells the bot."""
        self.journal.record(self.known, 0, fact)
        while self.known.waiting:
            answered = self.bot.hand_in(self.known.waiting[0].line)
            self.duties = answered.duties
            heard = self.journal.keep_answer(self.known, 0, answered.text)
            self.reports.note(heard.delivery, touched(heard.delivery, heard.orders, self.known))
            self.came |= {getattr(order, "why", type(order).__name__) for order in heard.orders}

    def go_each_way(self):
        """Has an approval or a try end in each way once, since some rarely come by chance."""
        ways = (
            ("r+", lambda change, order: self.say(Conflicted(order, change, "why"))), ("r+", lambda change, _: self.say(Closed(change))),
            ("r+", lambda change, _: self.say(Pushed(change, self.commit()))), ("r+", lambda *_: self.say(Ticked(self.later(60)))),
            ("r+", lambda *_: self.say(MainSeen(self.known.base, f"{GOOD}\nrequired_approvals = 1"))),
            ("r+", lambda *_: self.check("staging", "failure")), ("try", lambda *_: self.check("trying", "failure")),
            ("try", lambda *_: self.check("trying", "success")), ("r+", lambda *_: self.land()),
        )
        self.say(RoleGiven("rosa", "reviewer"))
        for change, (command, end) in enumerate(ways, 90):
            self.say(MainSeen(self.known.base or "f" * 40, f"{GOOD}\ntimeout_sec = 50"))
            self.say(Opened(change, "ines", self.commit()))
            self.say(Said(f"note-{change}", change, "rosa", f"bors {command}"))
            self.say(Ticked(self.later(1)))
            order = next(iter(self.known.orders))
            if change > 90:
                self.say(Merged(order, self.commit()))
                self.say(Staged(order))
            end(change, order)

    def land(self):
        self.check("staging", "success")
        self.say(Moved(next(iter(self.known.orders)), "main"))

    def do_duty(self, chance):
        steps, goes_well = steps_of(self.known, self.duties), chance.random() < 0.8
        if not steps:
            return
        step = steps[0]
        if isinstance(step, Move):
            self.say(Moved(step.order, "main") if goes_well else NotMoved(step.order))
        elif isinstance(step, Point):
            self.say(Staged(step.order))
        else:
            self.say(Merged(step.order, self.commit()) if goes_well else Conflicted(step.order, step.batch.stage.changes[0], "by chance"))

    def what_is_to_be_done_agrees(self):
        """With the report of the queue, and with what is open by the orders. The bot may have put back or dropped what is open by those."""
        running = {it.branch: (BY_STATE[it.state], it.number) for it in batches_in(self.text("queue")) if it.state != "waiting"}
        said = {branch: self.duties.of(branch) for branch in BRANCHES if self.duties.of(branch)}
        self.assertEqual({branch: (type(duty), duty.batch) for branch, duty in said.items()}, running)
        self.assertEqual(said, {branch: open_in(self.known).of(branch) for branch in said})
        self.assertEqual(len(steps_of(self.known, self.duties) + tests_of(self.known, self.duties)), len(said))

    def check(self, branch, state):
        if branch in self.known.tests:
            self.say(Ended(self.known.tests[branch].batch, "ci", state, "by chance", "x"))

    def push(self, change):
        """A change is opened, or moves."""
        is_new = self.known.phase(change) == "closed"
        self.say(Opened(change, "otto", self.commit()) if is_new else Pushed(change, self.commit()))

    def close_one(self, change):
        if self.known.phase(change) == "open":
            self.say(Closed(change))

    def step(self, chance):
        """Something happens, by chance. New changes come as time goes by, since what has landed stays so."""
        change, person = self.commits // 20 + chance.randint(1, 5), chance.choice((*["rosa"] * 6, "milo", "otto", "vera"))
        state = chance.choice(("success", "success", "failure"))
        happens = (
            *[lambda: self.do_duty(chance)] * 12,
            *[lambda: self.say(Said(self.commit(), change, person, f"bors {chance.choice(COMMANDS)}"))] * 12,
            *[lambda: self.check(chance.choice(("staging", "staging", "trying")), state)] * 8,
            *[lambda: self.say(Ticked(self.later(chance.choice((1, 1, 1, 60)))))] * 6,
            *[lambda: self.push(change)] * 7,
            *[lambda: self.close_one(change)] * 2,
            *[lambda: self.say(MainSeen(self.known.base, chance.choice(TEXTS_OF_SETTINGS)))] * 2,
            lambda: self.say(RoleGiven(person, chance.choice(("reviewer", "member", "nobody")))),
            *[lambda: self.say(RoleGiven("rosa", "reviewer"))] * 2,
            lambda: self.say(MainSeen(self.commit(), None)),
        )
        chance.choice(happens)()

    def later(self, seconds):
        self.now += seconds
        return self.now

    def refresh(self):
        """Writes all. The built program may be a slow one."""
        with mock.patch.multiple(reports, SECONDS_OF_ASKING=60, SECONDS_OF_STARTING=60):
            self.reports.refresh(str(PROGRAM), [])

    def text(self, name):
        path = self.places.reports / name
        return path.read_text(encoding="utf-8") if path.exists() else None

    def test_each_report_is_that_of_the_program(self):
        """Whatever happens, the files have what the program says, although it is asked only for what a delivery may have altered."""
        chance = random.Random(10)
        self.go_each_way()
        asked = 0
        for number in range(WALK):
            self.step(chance)
            asked += len(self.reports.due)
            self.refresh()
            self.what_is_to_be_done_agrees()
            first = self.commits // 20
            for change in [90, 97, 98, *range(max(1, first - 3), first + 6)] if number % 3 == 2 else []:
                self.assertEqual(self.text(f"change-{change}"), self.reports.bot.change(change), f"change {change} at step {number}")
        self.assertEqual(DUE - self.came, set())
        self.assertTrue(any("state     landed\n" in path.read_text(encoding="utf-8") for path in self.places.reports.glob("change-*")))
        self.assertLess(asked, 3 * WALK)
        lines = self.room / "lines"
        lines.write_text("".join(f"{line}\n" for line, _ in self.journal.answered()), encoding="utf-8")
        ran = subprocess.run([str(PROGRAM), "report", str(lines)], capture_output=True, encoding="utf-8", check=True)
        self.assertEqual(self.text("queue"), ran.stdout)
        self.assertEqual(len(list(self.places.records.glob("reports-*"))), 1)

    def test_who_has_no_token_gets_no_report(self):
        self.say(MainSeen(self.commit(), None))
        self.refresh()
        self.reports.bot.token = "0" * 64
        with self.assertRaisesRegex(NoReport, "by 401"):
            self.reports.bot.queue()

    def test_one_that_is_killed_is_made_again(self):
        self.say(Opened(7, "otto", self.commit()))
        self.refresh()
        complaints = []
        self.reports.complain = complaints.append
        self.reports.bot.process.kill()
        self.say(Closed(7))
        self.refresh()
        self.reports.next_start = 0.0
        self.refresh()
        self.assertIn("state     closed\n", self.text("change-7"))
        self.assertEqual(len(complaints), 1)
        self.assertIn("has ended: status -9", complaints[0])


class LogTests(WithStandIn):
    """The logs of changes, which are written at their end."""

    def setUp(self):
        super().setUp()
        self.journal = Journal(self.places.records / "journal.db")
        self.addCleanup(self.journal.close)
        self.log = self.places.reports / "log-7"

    def reports(self):
        return begun(self.places, self.journal, self.fail)

    def tell(self, *texts):
        with self.journal.step():
            self.journal.tell(0, [(7, text) for text in texts])

    def test_a_log_is_written_at_its_end(self):
        reports = self.reports()
        written = []
        with mock.patch("gate_host.reports.write", lambda path, text: written.append(path.name) or path.write_text(text, encoding="utf-8")):
            for number in range(3):
                self.tell(f"{number}", f"{number}\nmore")
                reports.write_logs()
                self.assertEqual(self.log.read_text(encoding="utf-8"), log_text(self.journal.told(7)))
            reports.write_logs()
        self.assertEqual(written, ["log-7"])

    def test_a_log_is_whole_after_a_start_and_after_a_failure(self):
        reports = self.reports()
        self.tell("one")
        reports.write_logs()
        # A host has died while it wrote.
        self.tell("two")
        with open(self.log, "a", encoding="utf-8") as log:
            log.write("19")
        self.reports().write_logs()
        self.assertEqual(self.log.read_text(encoding="utf-8"), log_text(self.journal.told(7)))
        self.tell("three")
        with mock.patch("gate_host.reports.log_text", mock.Mock(side_effect=OSError)), self.assertRaises(OSError):
            reports.write_logs()
        reports.write_logs()
        self.assertEqual(self.log.read_text(encoding="utf-8"), log_text(self.journal.told(7)))


if __name__ == "__main__":
    unittest.main()
