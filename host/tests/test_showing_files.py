"""The files of what is shown, kept up to date beside the reports: with a program that stands in for the bot, at kills and after starts."""
import json
import os
import sqlite3
import subprocess
import sys
import time
import unittest
from contextlib import closing
from pathlib import Path
from types import SimpleNamespace
from unittest import mock

HOST = Path(__file__).resolve().parent.parent
sys.path.insert(0, str(HOST))

from gate_host import reports  # noqa: E402
from gate_host.core.deliveries import touched  # noqa: E402
from gate_host.core.facts import Closed, MainSeen, Opened, Ticked  # noqa: E402
from gate_host.git import GitFailed  # noqa: E402
from gate_host.journal import Journal  # noqa: E402
from gate_host.ports import Reading  # noqa: E402
from gate_host.reports import Reports  # noqa: E402
from gate_host.showing import files  # noqa: E402
from gate_host.showing.files import Around, Pages, without_times  # noqa: E402

from stand_in import EMPTY, SECONDS, WithStandIn  # noqa: E402

A = "a" * 40
SETTINGS = SimpleNamespace(checks={"build": "make"}, tick_seconds=10.0)
OWNER = SimpleNamespace(main="main", reporters={"lint": frozenset({"ci"})}, settings=SETTINGS)


class Died(BaseException):
    """The host was killed here."""


class FilesTests(WithStandIn):
    def setUp(self):
        super().setUp()
        self.journal = Journal(self.places.records / "journal.db")
        self.addCleanup(lambda: self.journal.close())
        self.now, self.bot_starts, self.asked, self.complaints, self.reports = 1000, 1, [], [], None
        self.begin()

    def begin(self):
        """Begins as a host that is started. The one before was killed."""
        if self.reports:
            self.reports.end_bot()
        self.known = self.journal.known()
        self.reports = Reports(self.places, self.journal, self.complaints.append)
        self.journal.known(heard=lambda then, it: self.reports.note(it.delivery, touched(it.delivery, it.orders, then)))
        around = Around(
            "project.git", "", OWNER, lambda text: Reading(("build",), timeout=60), lambda: self.bot_starts, self.title, lambda: self.now)
        self.reports.pages = Pages(self.places.reports, self.journal, self.known, around)
        self.reports.begin(self.known.changes)
        self.addCleanup(self.reports.end_bot)

    def title(self, base, head):
        self.asked.append((base, head))
        if head.startswith("e"):
            raise GitFailed("git can't")
        return f"About {head[:3]}"

    def answer(self, fact):
        """Writes a fact down, with an answer to each of its deliveries, and notes that."""
        self.journal.record(self.known, self.now, fact)
        while self.known.waiting:
            delivery = self.journal.keep_answer(self.known, self.now, '[{"orders":[],"verdict":"done"}]').delivery
            with closing(sqlite3.connect(self.places.bot)) as bot:
                bot.execute("CREATE TABLE IF NOT EXISTS answers (id TEXT PRIMARY KEY, body TEXT)")
                bot.execute("INSERT INTO answers VALUES (?, ?)", (delivery.id, '[{"orders":[],"verdict":"done"}]'))
                bot.commit()
            self.reports.note(delivery, touched(delivery, [], self.known))

    def open(self, *changes):
        for change in changes:
            self.put(f"changes-{change}", f"change    {change}\nauthor    ines\n")
            self.answer(Opened(change, "ines", f"{change:040x}"))

    def tell(self, change, text):
        with self.journal.step():
            self.journal.tell(self.now, [(change, text)])

    def refresh(self, *remarks):
        with mock.patch.object(reports, "SECONDS_OF_STARTING", SECONDS):
            self.reports.refresh(str(self.program), list(remarks))

    def settle(self, *remarks):
        self.until("all are written", lambda: self.refresh(*remarks) or not self.reports.is_behind)

    def text(self, name):
        path = self.places.reports / name
        return path.read_text(encoding="utf-8") if path.exists() else None

    def states(self):
        """When each file was written."""
        return {it.name: (it.stat().st_mtime_ns, it.stat().st_ino) for it in self.places.reports.iterdir() if it.is_file()}

    def written_by(self, act):
        """The files that are another one after something."""
        before = self.states()
        act()
        return {name for name, state in self.states().items() if before.get(name) != state}

    def written_by_settling(self):
        return {it for it in self.written_by(self.settle) if not it.startswith(".")}

    def test_what_is_written(self):
        self.answer(MainSeen(A, 'status = ["build"]\n'))
        self.open(7)
        self.tell(7, "gate: <b>pong</b>\noutput: 1-0-build")
        self.settle("open: change 7", "trouble: x")
        page, queue, change = self.text("index.html"), json.loads(self.text("queue.json")), json.loads(self.text("change-7.json"))
        self.assertIn('<a href="change-7.html">7</a>', page)
        self.assertIn("About 000", page)
        self.assertEqual((queue["at"], queue["troubles"], queue["remarks"], queue["not_approved"]), (1000, ["x"], ["open: change 7"], [7]))
        self.assertEqual(queue["settings"], {
            "text": 'status = ["build"]\n', "commit": A, "refusal": "", "required": ["build"], "timeout": 60, "checks": ["build"],
            "reporters": {"lint": ["ci"]}})
        self.assertEqual((change["title"], change["report"]), ("About 000", "change    7\nauthor    ines\n"))
        self.assertIn("gate: &lt;b&gt;pong&lt;/b&gt;", self.text("change-7.html"))
        self.assertIn("gate_journal_facts_total 2\n", self.text("metrics.prom"))
        for name in ("index.html", "queue.json", "metrics.prom", "change-7.html", "change-7.json"):
            self.assertEqual((self.places.reports / name).stat().st_mode & 0o777, 0o644, name)

    def test_only_what_was_touched_is_written(self):
        self.answer(MainSeen(A, None))
        self.open(1, 2, 3)
        self.settle()
        self.assertEqual(self.written_by_settling(), set())
        self.now += 500
        self.assertEqual(self.written_by_settling(), set())
        self.tell(2, "told")
        self.assertEqual(self.written_by_settling(), {"log-2", "change-2.html"})
        self.put("changes-3", "change    3\nauthor    otto\n")
        self.answer(Closed(3))
        self.assertEqual(self.written_by_settling(), {
            "change-3", "change-3.html", "change-3.json", "index.html", "queue.json", "metrics.prom"})
        self.answer(Ticked(1500))
        self.assertEqual(self.written_by_settling(), {"index.html", "queue.json", "metrics.prom"})
        self.assertEqual(self.complaints, [])

    def test_a_start_writes_what_it_has_to(self):
        self.answer(MainSeen(A, None))
        self.open(1, 2, 3)
        self.settle()
        self.begin()
        # That the host was started once more is the only news.
        self.assertEqual(self.written_by_settling(), {"metrics.prom"})
        self.assertIn("gate_host_starts_total 2\n", self.text("metrics.prom"))
        for name in ("change-2.html", "change-2.json"):
            (self.places.reports / name).unlink()
            self.begin()
            self.assertEqual(self.written_by_settling(), {name, "metrics.prom"})
        (self.places.reports / "change-3.html").write_text("", encoding="utf-8")
        self.begin()
        self.assertEqual(self.written_by_settling(), {"change-3.html", "metrics.prom"})

    def test_a_host_of_before_has_left_no_pages(self):
        self.answer(MainSeen(A, None))
        self.open(1, 2, 3)
        self.tell(2, "told")
        self.settle()
        for path in self.places.reports.iterdir():
            if path.suffix or path.name == files.MARK:
                path.unlink()
        self.begin()
        self.settle()
        self.assertEqual({it.name for it in self.places.reports.glob("*.html")}, {"index.html", *(f"change-{it}.html" for it in (1, 2, 3))})
        self.assertIn("told", self.text("change-2.html"))

    def test_pages_of_another_look_are_written_again(self):
        self.answer(MainSeen(A, None))
        self.open(1, 2)
        self.settle()
        for mark in ("0 other\n", "x", f"{10 ** 6} {files.form()}\n"):
            (self.places.reports / files.MARK).write_text(mark, encoding="utf-8")
            self.begin()
            self.assertEqual(sorted(self.reports.pages.due), [1, 2], mark)
            self.settle()
        self.assertEqual(self.text(files.MARK), f"{self.journal.count_told()} {files.form()}\n")

    def test_it_may_die_before_each_file(self):
        """Whatever was written by then, the next host writes the rest: for each place at which it can die there is a change that was
        touched before."""
        self.answer(MainSeen(A, None))
        self.open(*range(1, 9))
        self.settle()
        right, place = os.replace, 0
        for place in range(40):
            change = 1 + place % 8
            self.tell(change, f"told {place}")
            self.put(f"changes-{change}", f"change    {change}\nauthor    otto-{place}\n")
            self.answer(Closed(change) if self.known.phase(change) == "open" else Opened(change, "otto", f"{place:040x}"))
            left = [place % 10]

            def die(*given):
                left[0] -= 1
                if left[0] < 0:
                    raise Died
                return right(*given)

            with mock.patch("os.replace", die):
                try:
                    self.refresh()
                except Died:
                    pass
            self.begin()
            self.settle()
            page, document = self.text(f"change-{change}.html"), json.loads(self.text(f"change-{change}.json"))
            self.assertIn(f"told {place}", page, place)
            self.assertEqual((document["report"], document["phase"]), (self.text(f"change-{change}"), self.known.phase(change)), place)
            self.assertIn(f"otto-{place}", page, place)

    def test_it_may_die_at_a_log(self):
        """A log that was written, with its mark in the journal, has a page that is old."""
        self.answer(MainSeen(A, None))
        self.open(1)
        self.settle()
        self.tell(1, "told late")
        self.reports.write_logs()
        self.begin()
        self.settle()
        self.assertIn("told late", self.text("change-1.html"))

    def test_it_may_die_while_pages_are_left(self):
        """All reports are written by then, and of three pages one."""
        self.answer(MainSeen(A, None))
        self.open(1, 2, 3)
        self.settle()
        for change in (1, 2, 3):
            self.put(f"changes-{change}", f"change    {change}\nauthor    otto\n")
            self.answer(Closed(change))
        with mock.patch.object(files, "SECONDS_OF_WRITING", 0.0), mock.patch.object(reports, "SECONDS_OF_ASKING", SECONDS):
            self.refresh()
        self.assertEqual((len(self.reports.due), len(self.reports.pages.due)), (0, 2))
        self.begin()
        self.settle()
        self.assertEqual([json.loads(self.text(f"change-{it}.json"))["phase"] for it in (1, 2, 3)], ["closed"] * 3)
        self.assertTrue(all("otto" in self.text(f"change-{it}.html") for it in (1, 2, 3)))

    def test_a_refresh_ends_soon(self):
        self.answer(MainSeen(A, None))
        self.open(*range(1, 31))
        at_once = mock.patch.object(files, "SECONDS_OF_WRITING", 0.0), mock.patch.object(files, "SECONDS_OF_TITLES", 0.0)
        with at_once[0], at_once[1], mock.patch.object(reports, "SECONDS_OF_ASKING", SECONDS):
            for due in (29, 28):
                self.refresh()
                self.assertEqual(len(self.reports.pages.due), due)
            self.assertTrue(self.reports.is_behind)
            self.assertFalse((self.places.reports / files.MARK).exists())
            # What was noted last comes first.
            self.tell(30, "told")
            self.refresh()
            self.assertIn("told", self.text("change-30.html"))
        self.settle()
        self.assertEqual(len(list(self.places.reports.glob("change-*.html"))), 30)

    def test_titles_are_asked_for_once(self):
        self.answer(MainSeen(A, None))
        self.open(1, 2)
        self.answer(Opened(3, "ines", "e" * 40))
        for _ in range(3):
            self.answer(Ticked(self.now))
            self.settle()
        self.assertEqual(sorted(self.asked), sorted([(A, f"{1:040x}"), (A, f"{2:040x}"), (A, "e" * 40)]))
        late = time.monotonic() + 61
        with mock.patch("time.monotonic", lambda: late):
            self.reports.pages.title_of(3, A, "e" * 40)
        self.assertEqual(self.asked.count((A, "e" * 40)), 2)
        # The next host has them of the files.
        self.asked.clear()
        self.begin()
        self.settle()
        self.assertEqual(self.asked, [(A, "e" * 40)])
        self.assertIn("About 000", self.text("index.html"))

    def test_that_it_has_ended_is_told(self):
        self.answer(MainSeen(A, None))
        self.open(1)
        self.settle("open: change 1")
        self.now = 2000
        self.reports.close()
        self.assertIn("<h1>No host runs</h1>", self.text("index.html"))
        queue = json.loads(self.text("queue.json"))
        self.assertEqual((queue["ended"], queue["remarks"]), (2000, ["open: change 1"]))
        self.assertIn("gate_host_up 0\n", self.text("metrics.prom"))
        self.begin()
        self.settle("open: change 1")
        self.assertIn("<h1>Nothing runs, and nothing waits</h1>", self.text("index.html"))
        self.assertIn("gate_host_up 1\n", self.text("metrics.prom"))

    def test_starts_do_not_go_back(self):
        self.answer(MainSeen(A, None))
        self.open(1)
        self.bot_starts = 3
        self.settle()
        self.assertIn("gate_bot_starts_total 3\n", self.text("metrics.prom"))
        self.bot_starts = 1
        self.begin()
        self.settle()
        self.assertIn("gate_bot_starts_total 4\n", self.text("metrics.prom"))
        self.assertIn("gate_host_starts_total 2\n", self.text("metrics.prom"))

    def test_a_full_disk_is_told_and_ends_nothing(self):
        self.answer(MainSeen(A, None))
        self.open(1)
        with mock.patch("gate_host.showing.files.write", mock.Mock(side_effect=OSError(28, "No space left on device"))):
            self.refresh()
            self.refresh()
            self.reports.close()
        self.assertEqual(self.complaints, [
            "the reports can't be written: [Errno 28] No space left on device",
            "the page doesn't say that the host has ended: [Errno 28] No space left on device"])
        self.begin()
        self.settle()
        self.assertIn("change-1.html", self.text("index.html"))

    def test_commands_print_documents(self):
        self.answer(MainSeen(A, None))
        self.open(7)
        self.tell(7, "one\r\ntwo\noutput: 1-0-build")
        self.settle()
        for asked, due in (
            (["queue"], {"not_approved": [7], "host_runs": False, "version": 1}),
            (["change", "7"], {"change": 7, "phase": "open", "host_runs": False}),
            (["log", "7"], {"change": 7, "host_runs": False, "entries": [
                {"at": 1000, "text": "one\r\ntwo\noutput: 1-0-build", "outputs": ["1-0-build"]}]}),
        ):
            ran = self.run_command(*asked, "--json")
            found = json.loads(ran.stdout)
            self.assertEqual((ran.returncode, {name: found[name] for name in due}), (0, due), asked)
        for asked, why in ((["change", "8"], "there is no change 8"), (["log", "8"], "of change 8 nothing was said")):
            ran = self.run_command(*asked, "--json")
            self.assertEqual((ran.returncode, ran.stdout), (1, ""))
            self.assertIn(why, ran.stderr)
        (self.places.reports / "log-7").write_text("no log\n", encoding="utf-8")
        (self.places.reports / "queue.json").write_text("[", encoding="utf-8")
        for asked in (["log", "7"], ["queue"]):
            self.assertIn("can't be read", self.run_command(*asked, "--json").stderr)

    def run_command(self, *words):
        command = [sys.executable, HOST / "gate-host", *words, "--repository", self.places.repository]
        return subprocess.run([str(it) for it in command], capture_output=True, encoding="utf-8", timeout=60, check=False)

    def test_pages_that_differ_by_their_time_alone(self):
        one = '<time id="made" data-exact datetime="2026-11-30T14:05:20Z">14:05:20</time> <time datetime="x">13:00</time>'
        other = '<time id="made" data-exact datetime="2026-12-01T00:00:00Z">00:00:00</time> <time datetime="x">30 Nov 13:00</time>'
        self.assertEqual(without_times(one), without_times(other))
        self.assertNotEqual(without_times(one), without_times(other.replace('"x"', '"y"')))
        self.assertEqual(EMPTY.count("\n"), 3)


if __name__ == "__main__":
    unittest.main()
