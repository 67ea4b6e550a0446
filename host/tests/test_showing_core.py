"""What is shown of the queue, as functions of values: the snapshot, the document, the page, the log and the numbers to watch."""
import html.parser
import json
import os
import random
import re
import shutil
import subprocess
import sys
import time
import unittest
from dataclasses import replace
from pathlib import Path
from unittest import mock

sys.path.insert(0, str(Path(__file__).resolve().parent.parent))

from gate_host.core.counts import MOST_NAMES, OTHERS, Counts  # noqa: E402
from gate_host.core.facts import Conflicted, Ended, Faulted, Labeled, Opened, Reported, Said  # noqa: E402
from gate_host.core.freeze import Freeze  # noqa: E402
from gate_host.showing import documents, logs, metrics, pages  # noqa: E402
from gate_host.showing.change_page import page_of_change  # noqa: E402
from gate_host.showing.looks import POLICY, SCRIPT, STYLE, source_of  # noqa: E402
from gate_host.showing.markup import is_address, moment  # noqa: E402
from gate_host.showing.snapshot import (  # noqa: E402
    Beside, ShownBatch, ShownChange, ShownCheck, ShownLanding, ShownMember, changes_with_titles, snapshot_of,
)
from playing import A, B, BEFORE, C, D, DONE, LANDED, LANDING, MADE, NOTICE, ORDERED, STAGED, Play, with_orders  # noqa: E402
from shown_things import AROUND, BROKEN, BUSY, CALM, CHANGE, ENDED, FROZEN, LOG, NOW  # noqa: E402
from test_audit_core import PACKAGE, imported_by  # noqa: E402

DECIDING = ("snapshot", "documents", "pages", "change_page", "markup", "looks", "logs", "metrics")
HARMLESS = {"base64", "dataclasses", "datetime", "hashlib", "html", "itertools", "json", "re", "time", "typing"}
HEADING = f"base {A}\nclock 50\n           batch branch  state     prio changes\n"
HOSTILE = (
    "<script>alert(1)</script>", '"><img src=x onerror=alert(1)>', "</title><h1>x", "]]>", "javascript:alert(1)", "&lt;b&gt;", "'\"`",
    "\u202eevil\u2066", "a\x00b\x1b[31m", "x" * 10000,
)
promtool = shutil.which("promtool")


class ImportTests(unittest.TestCase):
    def test_what_decides_touches_nothing(self):
        there = {path.stem for path in (PACKAGE / "showing").glob("*.py")}
        self.assertEqual(there, {*DECIDING, "__init__", "files"})
        for name in DECIDING:
            own, others = imported_by(PACKAGE / "showing" / f"{name}.py")
            self.assertLessEqual(others, HARMLESS, name)
            for module in own:
                folder = module.parent.resolve().name
                self.assertTrue(folder == "core" or (folder == "showing" and module.name in DECIDING), (name, module))


def report(*lines):
    """A report of the queue with these batches."""
    return HEADING + "".join("{:>16} {:<7} {:<8} {:>5} {}\n".format(*it) for it in lines)


def beside(*lines, **more):
    return Beside("project.git", "main", 1000, report(*lines), ("build", "lint"), 600, **more)


class SnapshotTests(unittest.TestCase):
    """The facts are numbered from 1, and each is written down at 100 and its number."""

    def test_a_batch_in_each_state(self):
        for steps, state, due in (
            (BEFORE, "waiting", ShownBatch(1, "staging", "waiting", 0, (7,), "", 104, None, (), "the next reading of the clock")),
            (ORDERED, "ordered", ShownBatch(1, "staging", "ordered", 0, (7,), "", 50, 650, (), "its commit on staging")),
            (MADE, "ordered", ShownBatch(1, "staging", "ordered", 0, (7,), C, 50, 650, (), "its commit on staging")),
            (STAGED, "staged", ShownBatch(1, "staging", "staged", 0, (7,), C, 50, 650, (
                ShownCheck("build", "open"), ShownCheck("lint", "open")), "the checks build, lint")),
            (LANDING, "landing", ShownBatch(1, "staging", "landing", 0, (7,), C, None, None, (
                ShownCheck("build", "success"), ShownCheck("lint", "open")), "main to move to ccccccc")),
        ):
            found = snapshot_of(Play(*steps).known, beside((1, "staging", state, 0, "7")))
            self.assertEqual(found.batches, (due,), state)

    def test_what_is_not_known_of_a_batch(self):
        staged = Play(*STAGED, (Ended(1, "build", "error", "it ended", ""), DONE)).known
        line = (1, "staging", "staged", 0, "7")
        shown, = snapshot_of(staged, replace(beside(line), required=None, timeout=0)).batches
        self.assertEqual((shown.checks, shown.since, shown.until), ((ShownCheck("build", "error"),), 50, None))
        shown, = snapshot_of(Play(*BEFORE).known, beside(line)).batches
        self.assertEqual((shown.commit, shown.since, shown.until), ("", None, None))
        self.assertEqual([it.state for it in shown.checks], ["open", "open"])

    def test_what_batches_wait_for(self):
        lines = [
            (1, "staging", "staged", 0, "7"), (2, "staging", "waiting", 0, "8"), (3, "staging", "waiting", 0, "9"),
            (4, "trying", "waiting", 0, "7"),
        ]
        found = snapshot_of(Play(*STAGED).known, beside(*lines))
        self.assertEqual([it.waits_for for it in found.batches], [
            "the checks build, lint", "batch 1", "the 2 batches before it", "the next reading of the clock"])
        frozen = snapshot_of(Play(*STAGED).known, beside(*lines), Freeze("rosa", "why", 3))
        self.assertEqual([it.waits_for for it in frozen.batches], [
            "the checks build, lint", "the end of the freeze", "the end of the freeze", "the end of the freeze"])

    def test_changes(self):
        play = Play(*BEFORE, (Opened(9, "otto", D), DONE), (Labeled(9, "b"), DONE), (Labeled(9, "a"), DONE))
        found = snapshot_of(play.known, beside((1, "staging", "waiting", 0, "7"), titles={B: "One"}))
        self.assertEqual(found.changes, (
            ShownChange(7, "One", B, "ines", ("rosa",), "rosa", (), True, 104, ""),
            ShownChange(9, "", D, "otto", (), "", ("a", "b"), False, None, "")))
        self.assertEqual(found.not_approved, (9,))

    def test_a_change_that_left_is_not_approved_any_more(self):
        for step, due in (
            ((Ended(1, "build", "failure", "it ended", ""), with_orders(NOTICE)), "it fails the check build (Failed)"),
            ((Said("n2", 7, "rosa", "bors r-"), DONE), "its approval was taken back"),
        ):
            shown, = snapshot_of(Play(*STAGED, step).known, beside()).changes
            self.assertEqual((shown.is_approved, shown.approvers, shown.said_by, shown.approved_at, shown.left), (False, (), "", None, due))

    def test_landings(self):
        found = snapshot_of(Play(*LANDED).known, beside(titles={B: "One"}))
        self.assertEqual(found.landed, (ShownLanding(1, A, C, 109, (ShownMember(7, "One", B, "ines", ("rosa",), "rosa"),)),))
        self.assertEqual((found.base, found.clock, found.batches, found.changes), (C, 50, (), ()))

    def test_the_last_landings_come_first_and_are_few(self):
        known = Play(*LANDED).known
        first, = known.landings.values()
        known.landings = {f"{it:040x}": replace(first, batch=it, at=0) for it in range(1, 31)}
        found = snapshot_of(known, beside()).landed
        self.assertEqual(([it.batch for it in found], {it.at for it in found}), (list(range(30, 10, -1)), {None}))

    def test_remarks_and_troubles(self):
        found = snapshot_of(Play().known, beside(remarks=("open: no change", "trouble: x", "bors.toml: y", "trouble: trouble: z")))
        self.assertEqual((found.remarks, found.troubles), (("open: no change", "bors.toml: y"), ("x", "trouble: z")))

    def test_of_which_heads_titles_are_shown(self):
        play = Play(*LANDED, (Opened(9, "otto", D), DONE))
        self.assertEqual(changes_with_titles(play.known, report((2, "staging", "waiting", 0, "9"))), [
            (9, C, D), (9, C, D), (7, A, B)])


class LogTests(unittest.TestCase):
    def round_trip(self, told):
        self.assertEqual([tuple(it) for it in logs.entries_in(logs.log_text(told))], told)

    def test_nothing_is_lost(self):
        self.round_trip([])
        for text in (
            "", " ", "x", "\n", "a\n\nb", "    x", "2026-11-30 14:05:20 +0000  x", "a\n2026-11-30 14:05:20 +0000  x", "a\r\nb\r",
            "a\n    b",
            "\x0b\x0c\x1c\x85\u2028\u2029", "\t", "a\n", "\n\n\n", "\ud7ff\ue000\U0001f600",
        ):
            self.round_trip([(0, text), (1796047520, text), (1796047520, "end")])

    def test_nothing_is_lost_by_chance_in_any_zone(self):
        chance = random.Random(1)
        self.addCleanup(time.tzset)
        for zone in ("UTC", "Asia/Kolkata", "America/St_Johns", "Pacific/Chatham"):
            with mock.patch.dict(os.environ, {"TZ": zone}):
                time.tzset()
                for _ in range(50):
                    text = "".join(chance.choice("\n\n  \t\r0a:+-") for _ in range(chance.randrange(30)))
                    self.round_trip([(chance.randrange(2 ** 33), text) for _ in range(3)])

    def test_what_is_no_log(self):
        for text in ("x\n", "    x\n", "2026-11-30 14:05:20 +0000 x\n", "2026-11-30 14:05:20  x\n", "2026-11-30 14:05:20 +0000  x\ny\n"):
            with self.assertRaises(logs.NoLog):
                logs.entries_in(text)

    def test_a_line_that_is_being_written_is_left_out(self):
        whole = logs.log_text([(5, "a\nb")])
        self.assertEqual(logs.entries_in(whole[:-1]), [logs.Entry(5, "a")])
        self.assertEqual(logs.entries_in(whole + "2026-11"), [logs.Entry(5, "a\nb")])

    def test_outputs(self):
        self.assertEqual(logs.outputs_in("said\noutput: 1-0-build\noutput: ../x\n output: 2-0-x"), ["1-0-build"])
        self.assertEqual(logs.outputs_in("output: 1-0-build"), [])


class DocumentTests(unittest.TestCase):
    def test_the_queue(self):
        play = Play(*STAGED)
        found = json.loads(documents.json_of_queue(snapshot_of(
            play.known, beside((1, "staging", "staged", 3, "7"), reporters=(("lint", ("ci", "eve")),), titles={B: "\u202e\x1b"}))))
        self.assertEqual(found["batches"], [{
            "number": 1, "branch": "staging", "state": "staged", "priority": 3, "changes": [7], "commit": C, "since": 50, "until": 650,
            "checks": [{"name": "build", "state": "open"}, {"name": "lint", "state": "open"}], "waits_for": "the checks build, lint"}])
        self.assertEqual(found["settings"], {
            "text": 'status = ["build"]\n', "commit": A, "refusal": "", "required": ["build", "lint"], "timeout": 600, "checks": [],
            "reporters": {"lint": ["ci", "eve"]}})
        self.assertEqual((found["version"], found["freeze"], found["estimates"], found["ended"]), (1, None, {}, None))
        self.assertEqual(found["changes"][0]["title"], "\u202e\x1b")

    def test_what_others_find_out_is_there(self):
        found = json.loads(documents.json_of_queue(BROKEN))
        self.assertEqual((found["broken"]["name"], found["broken"]["at"]), ("test", NOW - 700))
        self.assertEqual(json.loads(documents.json_of_queue(FROZEN))["freeze"], {
            "person": "rosa", "reason": "release 4.2 is being cut; back at 16:00", "at": NOW - 1200})
        self.assertEqual(json.loads(documents.json_of_queue(BUSY))["estimates"]["409"], {
            "earliest": NOW + 200, "latest": NOW + 500, "batches": 12})

    def test_it_is_ascii(self):
        for text in HOSTILE:
            shown = documents.json_of_queue(replace(CALM, troubles=(text,)))
            self.assertTrue(shown.replace("\n", "").isprintable() and shown.isascii())
            self.assertEqual(json.loads(shown)["troubles"], [text])

    def test_a_change(self):
        play = Play(*BEFORE, (Labeled(7, "a, b"), DONE), (Labeled(7, "-"), DONE))
        found = documents.document_of_change(play.known, 7, "One", "report")
        self.assertEqual((found.phase, found.labels, found.approvers, found.said_by, found.approved_at), (
            "open", ("-", "a, b"), ("rosa",), "rosa", 104))
        landed = documents.document_of_change(Play(*LANDED).known, 7, "One", "report")
        self.assertEqual((landed.phase, landed.approvers, landed.landed), (
            "landed", (), documents.LandedDocument(1, C, B, ("rosa",), "rosa", 109)))
        self.assertEqual(documents.document_of_change(Play().known, 8, "", "").phase, "closed")

    def test_the_title_of_a_head(self):
        document = documents.json_of_change(replace(CHANGE, title="One", head=A))
        for text, head, due in (
            (document, A, "One"), (document, B, ""), ("", A, ""), ("[", A, ""), ("[]", A, ""), ("{}", A, ""), ("7", A, ""), ("null", A, ""),
        ):
            self.assertEqual(documents.title_in(text, head), due, text)

    def test_a_log(self):
        self.assertEqual(documents.log_document(7, [logs.Entry(5, "x\noutput: 1-0-build")]), {
            "version": 1, "change": 7, "entries": [{"at": 5, "text": "x\noutput: 1-0-build", "outputs": ["1-0-build"]}]})


class CountTests(unittest.TestCase):
    def test_what_is_counted(self):
        counts = Play(*LANDED).known.counts
        self.assertEqual((counts.facts, counts.staged, counts.landed, counts.landed_changes, counts.refused, counts.conflicts), (
            9, {"staging": 1}, 1, 1, 0, 0))
        # It was staged at 107 and ended at 108.
        self.assertEqual((counts.results, counts.seconds, counts.notices), ({("build", "success"): 1}, {"build": 1}, {}))

    def test_what_ends_otherwise(self):
        conflict = Play(*ORDERED, (Conflicted("tick-5.0", 7, "why"), with_orders({**NOTICE, "why": "Conflict"}))).known.counts
        self.assertEqual((conflict.conflicts, conflict.notices, conflict.staged), (1, {"Conflict": 1}, {}))
        failed = Play(*STAGED, (Ended(1, "build", "failure", "x", ""), with_orders(NOTICE)), (Faulted(1, "lint", "x"),)).known.counts
        self.assertEqual((failed.notices, failed.results, failed.faults), ({"Failed": 1}, {("build", "failure"): 1}, {"lint": 1}))

    def test_reports_of_others(self):
        def reported(number, state, commit=C):
            return Reported(f"r{number}", "ci", commit, "build", state, "")
        counts = Play(
            *STAGED, (reported(1, "pending"), DONE), (reported(2, "success"), DONE), (reported(3, "failure", B), DONE)).known.counts
        self.assertEqual((counts.results, counts.seconds), ({("build", "success"): 1}, {"build": 2}))

    def test_many_names_are_one_in_the_end(self):
        counts = Counts(since={"staging": (1, 0)})
        for number in range(MOST_NAMES + 50):
            counts.learn(number, 5, Ended(1, f"name {number}", "success", "", ""), [])
        self.assertEqual((len(counts.seconds), counts.results[(OTHERS, "success")]), (MOST_NAMES + 1, 50))

    def test_a_clock_that_was_put_back_takes_nothing_away(self):
        counts = Counts(since={"staging": (1, 100)})
        counts.learn(1, 40, Ended(1, "build", "success", "", ""), [])
        self.assertEqual(counts.seconds, {"build": 0})


def numbers_of(snapshot=BUSY, counts=None, starts=metrics.Starts(3, 4)):
    return metrics.metrics_of(snapshot, counts or Play(*LANDED).known.counts, 109, starts)


def value_in(text, name):
    return [line[len(name) + 1:] for line in text.split("\n") if line.startswith(f"{name} ")]


class MetricsTests(unittest.TestCase):
    def test_gauges(self):
        text = numbers_of()
        for name, due in (
            ('gate_queue_batches{branch="staging",state="waiting"}', "3"), ('gate_queue_changes{branch="staging",state="waiting"}', "5"),
            ('gate_queue_batches{branch="trying",state="staged"}', "1"), ('gate_queue_changes{branch="trying",state="waiting"}', "0"),
            ('gate_open_changes{approved="yes"}', "7"), ('gate_open_changes{approved="no"}', "4"),
            ("gate_queue_oldest_approval_timestamp_seconds", str(NOW - 900)), ("gate_queue_frozen", "0"), ("gate_main_broken", "0"),
            ('gate_batch_since_timestamp_seconds{branch="staging",state="staged"}', str(NOW - 400)), ("gate_host_up", "1"),
            ("gate_clock_reading_timestamp_seconds", str(NOW - 4)), ("gate_troubles", "0"),
        ):
            self.assertEqual(value_in(text, name), [due], name)
        self.assertEqual(value_in(numbers_of(FROZEN), "gate_queue_frozen"), ["1"])
        self.assertEqual((value_in(numbers_of(BROKEN), "gate_main_broken"), value_in(numbers_of(BROKEN), "gate_troubles")), (["1"], ["1"]))
        self.assertEqual(value_in(numbers_of(ENDED), "gate_host_up"), ["0"])
        self.assertNotIn("oldest_approval", numbers_of(CALM))

    def test_counters(self):
        text = numbers_of()
        for name, due in (
            ("gate_journal_facts_total", "9"), ("gate_batches_landed_total", "1"), ("gate_changes_landed_total", "1"),
            ('gate_notices_total{reason="Failed"}', "0"), ('gate_batches_staged_total{branch="staging"}', "1"),
            ('gate_check_results_total{check="build",state="success"}', "1"), ('gate_check_seconds_sum{check="build"}', "1"),
            ('gate_check_seconds_count{check="build"}', "1"), ("gate_host_starts_total", "3"), ("gate_bot_starts_total", "4"),
            ("gate_journal_last_fact_timestamp_seconds", "109"),
        ):
            self.assertEqual(value_in(text, name), [due], name)

    def test_values_of_labels(self):
        for name, due in (
            ('a"b', 'a\\"b'), ("a\\b", "a\\\\b"), ("a\nb", "a\\nb"), ('\\"\n', '\\\\\\"\\n'), ("\ud800", "\\\\ud800"), ("é", "é"),
        ):
            self.assertEqual(metrics.escaped(name), due)

    @unittest.skipUnless(promtool, "there is no promtool; Debian's package prometheus has it")
    def test_prometheus_takes_it(self):
        counts = Counts(since={"staging": (1, 0)})
        for name in HOSTILE:
            counts.learn(1, 5, Ended(1, name, "success", "", ""), [])
            counts.learn(2, 5, Faulted(1, name, ""), [])
        for text in (numbers_of(), numbers_of(CALM, Counts()), numbers_of(FROZEN, counts)):
            ran = subprocess.run([promtool, "check", "metrics"], input=text.encode(), capture_output=True, timeout=60, check=False)
            self.assertEqual((ran.returncode, ran.stdout + ran.stderr), (0, b""))

    def test_starts(self):
        self.assertEqual(metrics.starts_in(metrics.mark_of(metrics.Starts(2, 5))), metrics.Starts(2, 5))
        for mark in ("", "1", "1 2 3", "x 1", "-1 2"):
            self.assertIsNone(metrics.starts_in(mark), mark)


class Outline(html.parser.HTMLParser):
    """What a page is made of: its elements with their attributes, and its text."""

    def __init__(self, page):
        super().__init__()
        self.elements, self.said = [], []
        self.feed(page)

    def handle_starttag(self, tag, attrs):
        self.elements.append((tag, dict(attrs)))

    def handle_data(self, data):
        self.said.append(data)

    def all(self, tag):
        return [attributes for name, attributes in self.elements if name == tag]


def poisoned(text):
    """A queue in which whatever people write is this text."""
    change = replace(BUSY.changes[0], title=text, author=text, approvers=(text, "x"), said_by=text, labels=(text,), left=text)
    other = replace(change, number=421, is_approved=False)
    batch = replace(BUSY.batches[0], changes=(409,), checks=(ShownCheck(text, "open"),), waits_for=text)
    waiting = replace(batch, state="waiting")
    settings = replace(CALM.settings, text=text, refusal=text, required=(text,), checks=(text,), reporters=((text, (text,)),))
    landing = replace(CALM.landed[0], changes=(replace(CALM.landed[0].changes[0], title=text, author=text, approvers=(text,)),))
    return replace(
        BROKEN, repository=text, main=text, code=text, changes=(change, other), not_approved=(421,), batches=(batch, waiting),
        landed=(landing,), settings=settings, remarks=(text,), troubles=(text,), freeze=Freeze(text, text, NOW),
        broken=replace(BROKEN.broken, name=text, said=text, output=text, since=text))


class PageTests(unittest.TestCase):
    def test_what_people_wrote_is_text(self):
        plain = [(tag, sorted(attributes)) for tag, attributes in Outline(pages.page_of_queue(poisoned("x"))).elements]
        for text in HOSTILE:
            with self.subTest(text[:30]):
                page = pages.page_of_queue(poisoned(text))
                self.assertEqual([(tag, sorted(it)) for tag, it in Outline(page).elements], plain)
                self.assertTrue(page.replace("\n", "").replace("\t", "").isprintable())

    def test_of_a_change_too(self):
        def page(text):
            open_one = replace(CHANGE, phase="open", landed=None, report=f"head {text}")
            document = replace(open_one, title=text, author=text, approvers=(text,), said_by=text)
            return page_of_change(document, [logs.Entry(5, f"{text}\n> {text}\n{text}")], replace(AROUND, code=text, main=text))
        plain = [(tag, sorted(it)) for tag, it in Outline(page("x")).elements]
        for text in HOSTILE:
            self.assertEqual([(tag, sorted(it)) for tag, it in Outline(page(text)).elements], plain, text[:30])

    def test_it_leads_to_addresses_of_the_web_alone(self):
        for address, due in (("https://x", True), ("http://x", True), ("javascript:alert(1)", False), ("JavaScript:x", False), ("", False)):
            self.assertEqual(is_address(address), due, address)
        page = Outline(pages.page_of_queue(replace(BUSY, code="https://hub/o/r")))
        led = {it["href"] for it in page.all("a")}
        self.assertIn(f"https://hub/o/r/commit/{BUSY.base}", led)
        self.assertIn("change-409.html", led)

    def test_nothing_else_is_loaded_or_run(self):
        for page in (pages.page_of_queue(BUSY), page_of_change(CHANGE, LOG, AROUND)):
            outline = Outline(page)
            policy, = [it["content"] for it in outline.all("meta") if it.get("http-equiv") == "Content-Security-Policy"]
            self.assertEqual(policy, POLICY)
            self.assertTrue(policy.startswith("default-src 'none';"))
            for kind, text in (("style", STYLE), ("script", SCRIPT)):
                self.assertEqual(re.findall(f"<{kind}>(.*?)</{kind}>", page, re.DOTALL), [text])
                self.assertIn(f"{kind}-src {source_of(text)};", policy)
            names = {name for _, attributes in outline.elements for name in attributes}
            self.assertFalse([name for name in names if name in ("src", "style", "srcdoc") or name.startswith("on")])
            self.assertEqual([it["href"][:5] for it in outline.all("link")], ["data:"])

    def test_what_a_screen_reader_needs(self):
        for page in map(pages.page_of_queue, (BUSY, CALM, FROZEN, BROKEN, ENDED)):
            outline = Outline(page)
            self.assertEqual(outline.all("html"), [{"lang": "en"}])
            self.assertEqual([len(outline.all(it)) for it in ("header", "main", "footer", "h1")], [1, 1, 1, 1])
            names = [it["id"] for _, it in outline.elements if "id" in it]
            self.assertEqual(len(names), len(set(names)))
            self.assertLessEqual({it["aria-labelledby"] for _, it in outline.elements if "aria-labelledby" in it}, set(names))
            self.assertEqual(len(outline.all("table")), len(outline.all("caption")))
            self.assertTrue(all(it.get("scope") in ("col", "row", "rowgroup") for it in outline.all("th")))

    def test_times(self):
        for at, now, due in (
            (NOW, NOW, "14:05"), (NOW - 86400, NOW, "29 Nov 14:05"), (NOW - 365 * 86400, NOW, "30 Nov 2025"), (0, NOW, "1 Jan 1970"),
        ):
            self.assertRegex(moment(at, now), f'^<time datetime="[0-9TZ:-]+">{due}</time>$')
        self.assertEqual(moment(NOW, NOW, "data-exact"), '<time data-exact datetime="2026-11-30T14:05:20Z">14:05:20</time>')
        self.assertEqual(moment(None, NOW), "")

    def test_headlines(self):
        for snapshot, due in (
            (BUSY, "Batch 89 is being tested"), (CALM, "Nothing runs, and nothing waits"), (FROZEN, "The queue is frozen"),
            (BROKEN, "main is broken"), (ENDED, "No host runs"), (replace(BUSY, batches=BUSY.batches[1:4]), "No batch runs, and some wait"),
        ):
            self.assertEqual(pages.headline(snapshot), due)
            self.assertIn(f"<title>{due} · main of project.git</title>", pages.page_of_queue(snapshot))

    def test_long_lists_end(self):
        many = tuple(replace(BUSY.changes[8], number=1000 + it) for it in range(300))
        page = pages.page_of_queue(replace(CALM, changes=many, not_approved=tuple(it.number for it in many)))
        self.assertEqual((page.count("change-1199.html"), page.count("change-1200.html")), (1, 0))
        self.assertIn("And 100 more, which are in queue.json.", page)


if __name__ == "__main__":
    unittest.main()
