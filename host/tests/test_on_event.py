"""Tests of what a command is told of events, with real commands; and of which events there are, by a table of facts."""
import json
import sys
import tempfile
import time
import unittest
from pathlib import Path
from types import SimpleNamespace

sys.path.insert(0, str(Path(__file__).resolve().parent.parent))

from playing import A, B, C, DONE, LANDED, LANDING, MADE, NOTICE, ORDERED, STAGED, Play, with_orders  # noqa: E402

from gate_host import on_event  # noqa: E402
from gate_host.core.events import MOST_EVENTS, Events  # noqa: E402
from gate_host.core.facts import Conflicted, Ended, Reported  # noqa: E402
from gate_host.journal import Journal  # noqa: E402
from gate_host.on_event import MOST_AT_ONCE, OnEvents  # noqa: E402
from gate_host.places import Places  # noqa: E402


class OnEventTests(unittest.TestCase):
    def setUp(self):
        room = tempfile.TemporaryDirectory()
        self.addCleanup(room.cleanup)
        self.places = Places(Path(room.name))
        for folder in (self.places.outputs, self.places.records):
            folder.mkdir(parents=True)
        self.journal = Journal(Path(room.name) / "journal.db")
        self.addCleanup(self.journal.close)
        self.written = Path(room.name) / "written"
        self.takes = f"cat >> {self.written}"
        self.events = Events()
        self.told = self.new()

    def new(self):
        told = OnEvents(self.places, self.journal)
        self.addCleanup(told.close)
        return told

    def happens(self, *kinds):
        for kind in kinds:
            self.events.add(5, kind, {"change": 7})

    def go_on(self, command):
        """Goes on until nothing runs. Gives what is said of the last run."""
        settings = SimpleNamespace(on_event=command)
        late = time.monotonic() + 30
        while True:
            said = self.told.go_on(settings, self.events)
            if not self.told.running:
                return said
            self.assertLess(time.monotonic(), late)
            time.sleep(0.02)

    def kinds(self):
        lines = self.written.read_text(encoding="utf-8").splitlines() if self.written.exists() else []
        return [(it["event"], it["kind"]) for it in map(json.loads, lines)]

    def test_a_line_of_json_for_each(self):
        self.go_on(self.takes)
        self.events.add(5, "notice", {"change": 7, "text": "é\n\"x\""})
        self.assertEqual(self.go_on(self.takes), "")
        text = self.written.read_text(encoding="utf-8")
        self.assertEqual(text, '{"event": 1, "at": 5, "kind": "notice", "change": 7, "text": "é\\n\\"x\\""}\n')

    def test_what_happened_before_there_was_a_command_is_not_made_up_for(self):
        self.happens("landing")
        self.go_on("")
        self.go_on(self.takes)
        self.happens("notice")
        self.go_on(self.takes)
        self.go_on("")
        self.happens("landing")
        self.go_on("")
        self.go_on(self.takes)
        self.happens("failure")
        self.go_on(self.takes)
        self.assertEqual(self.kinds(), [(2, "notice"), (4, "failure")])

    def test_a_command_that_fails_is_told_again_after_a_pause(self):
        self.go_on(self.takes)
        self.happens("landing")
        said = self.go_on(f"{self.takes}; exit 3")
        self.assertRegex(said, "^the command that is told of events failed, and is tried again: it ended with status 3 after")
        self.happens("notice")
        self.assertEqual(self.go_on(self.takes), said)
        self.assertEqual(self.kinds(), [(1, "landing")])
        self.told.next_start = 0.0
        self.assertEqual(self.go_on(self.takes), "")
        self.assertEqual(self.kinds(), [(1, "landing"), (1, "landing"), (2, "notice")])

    def test_the_pauses_grow(self):
        self.go_on("exit 1")
        self.happens("landing")
        pauses = []
        for _ in range(9):
            self.told.next_start = 0.0
            self.go_on("exit 1")
            pauses.append(self.told.pause)
        self.assertEqual(pauses, [5, 10, 20, 40, 80, 160, 300, 300, 300])

    def test_a_host_that_dies_has_them_told_again_with_the_same_numbers(self):
        self.go_on(self.takes)
        self.happens("landing")
        settings = SimpleNamespace(on_event=f"{self.takes}; sleep 60")
        self.told.go_on(settings, self.events)
        late = time.monotonic() + 20
        while not self.kinds():
            self.assertLess(time.monotonic(), late)
            time.sleep(0.02)
        self.told.close()
        self.told = self.new()
        self.assertEqual(self.go_on(self.takes), "")
        self.assertEqual(self.kinds(), [(1, "landing"), (1, "landing")])
        self.told = self.new()
        self.go_on(self.takes)
        self.assertEqual(len(self.kinds()), 2)

    def test_a_command_that_hangs_holds_nobody_up_and_is_ended(self):
        self.addCleanup(setattr, on_event, "SECONDS", on_event.SECONDS)
        on_event.SECONDS = 0.2
        self.go_on(self.takes)
        self.happens("landing")
        start = time.monotonic()
        self.told.go_on(SimpleNamespace(on_event="sleep 60"), self.events)
        self.assertLess(time.monotonic() - start, 2)
        self.assertIn("it took more than 0.2 seconds", self.go_on("sleep 60"))

    def test_what_can_not_be_started_is_tried_again(self):
        self.go_on(self.takes)
        self.happens("landing")
        self.places.records.rename(self.places.records.with_name("elsewhere"))
        self.assertRegex(self.go_on(self.takes), "^the command that is told of events failed, and is tried again: it can't be started: ")
        self.places.records.with_name("elsewhere").rename(self.places.records)
        self.told.next_start = 0.0
        self.assertEqual((self.go_on(self.takes), self.kinds()), ("", [(1, "landing")]))

    def test_many_come_in_parts_and_the_oldest_of_too_many_are_lost(self):
        self.go_on(self.takes)
        self.happens(*["notice"] * (MOST_EVENTS + 5))
        for _ in range(MOST_EVENTS // MOST_AT_ONCE):
            self.go_on(self.takes)
        self.assertEqual(self.kinds(), [(number, "notice") for number in range(6, MOST_EVENTS + 6)])
        self.assertEqual(self.told.told, MOST_EVENTS + 5)

    def test_a_command_that_reads_nothing_is_told_all_the_same(self):
        self.go_on("true")
        self.happens("landing")
        self.assertEqual((self.go_on("true"), self.told.told), ("", 1))


class EventTests(unittest.TestCase):
    def test_which_events_there_are(self):
        failure = {"batch": 1, "branch": "staging", "changes": [7], "commit": C, "name": "build", "state": "failure", "said": "it ended"}
        reported = {**failure, "state": "error", "said": "as ci reports: x"}
        told = (
            "The approval or the try has ended (Failed): it fails the check build. Mend it, push, and have it approved again; or have it "
            "retried by bors retry."
        )
        notice = {"change": 7, "why": "Failed", "name": "build", "text": told}
        landing = {"batch": 1, "changes": [7], "base": A, "commit": C, "branch": "main", "approvals": {"7": "rosa"}}
        conflict = {"batch": 1, "changes": [7], "change": 7, "said": "both change x"}
        for steps, due in (
            (MADE, []), (LANDING, []), (LANDED, [("landing", landing)]),
            ([*STAGED, (Ended(1, "build", "failure", "it ended", "x"), with_orders(NOTICE))], [("failure", failure), ("notice", notice)]),
            ([*STAGED, (Reported("n9", "ci", C, "build", "error", "x"), DONE)], [("failure", reported)]),
            ([*STAGED, (Reported("n9", "ci", C, "build", "pending", "x"), DONE)], []),
            ([*STAGED, (Reported("n9", "ci", B, "build", "failure", "x"), DONE)], []),
            ([*ORDERED, (Conflicted("tick-5.0", 7, "both change x"), DONE)], [("conflict", conflict)]),
        ):
            self.assertEqual([(it.kind, it.fields) for it in Play(*steps).known.events.last], due)

    def test_each_has_a_number_and_the_time_of_its_fact(self):
        known = Play(*STAGED, (Ended(1, "build", "failure", "it ended", "x"), with_orders(NOTICE))).known
        self.assertEqual([(it.number, it.at) for it in known.events.last], [(1, 108), (2, 108)])
        self.assertEqual([it.number for it in known.events.after(1)], [2])


if __name__ == "__main__":
    unittest.main()
