"""What decides in an explanation touches nothing, and what it reads of a journal that no program has to answer."""
import json
import sys
import unittest
from pathlib import Path

sys.path.insert(0, str(Path(__file__).resolve().parent.parent))

from gate_host.audit.entries import Journal  # noqa: E402
from gate_host.audit.shown import time_of_day  # noqa: E402
from gate_host.core.estimates import Estimate  # noqa: E402
from gate_host.core.orders import Denied  # noqa: E402
from gate_host.core.queue import QueuedBatch, batches_in  # noqa: E402
from gate_host.explaining.courses import End, courses_of, texts_to_ask  # noqa: E402
from gate_host.explaining.events import events_of, moment_of  # noqa: E402
from gate_host.explaining.explained import Explanation, Place, groups_of  # noqa: E402
from gate_host.explaining.shown import line_of_estimate  # noqa: E402
from gate_host.explaining.records import Asked, ChangeRow, Phase, Records, people_to_ask  # noqa: E402
from gate_host.faults import Trouble  # noqa: E402
from telling import BASE, HEAD, MERGED, NEXT, OTHER, Told, land, stage  # noqa: E402
from test_audit_core import PACKAGE, imported_by  # noqa: E402

DECIDING = ("events", "courses", "lives", "records", "explained", "shown")
HARMLESS = {"re", "dataclasses", "enum", "json", "typing"}
# What of the audit is a function of values too, by its own test.
OF_AUDIT = {"entries", "shown"}
TWO = ((1, HEAD), (2, OTHER))


class ImportTests(unittest.TestCase):
    def test_what_decides_touches_nothing(self):
        there = {path.stem for path in (PACKAGE / "explaining").glob("*.py")}
        self.assertEqual(there, {*DECIDING, "__init__", "asking"})
        for name in DECIDING:
            own, others = imported_by(PACKAGE / "explaining" / f"{name}.py")
            self.assertLessEqual(others, HARMLESS, name)
            folders = {(module.parent.resolve().name, module.name) for module in own}
            for folder, module in folders:
                is_harmless = folder == "core" or (folder, module) == ("gate_host", "faults")
                is_harmless |= folder == "audit" and module in OF_AUDIT or folder == "explaining" and module in DECIDING
                self.assertTrue(is_harmless, (name, folder, module))


def told(*steps):
    """A journal in which these things are told."""
    story = Told()
    story.begin(TWO)
    for step in steps:
        step(story)
    return story.journal()


def ordered(batch=1, heads=TWO, **more):
    return lambda story: story.tell("tick", stage(batch, heads=heads, **more), now=5)


def tells(event, *orders, **fields):
    return lambda story: story.tell(event, *orders, **fields)


def ends_of(journal, running=(), required=("build",)):
    courses = courses_of(events_of(journal.rows, journal.facts), {"S": required}, set(running))
    return {number: (course.end, course.ended.mark.number if course.ended else None) for number, course in courses.all.items()}


class EstimateTests(unittest.TestCase):
    def test_why_there_is_none(self):
        """Of the first hundred batches of a queue there is an estimate, once a batch has ended."""
        none = "When it lands can't be estimated yet: no batch has ended."
        for ahead, due in ((0, none), (99, none), (100, "When it lands can't be estimated: 100 batches come before it.")):
            before = tuple(QueuedBatch(number, "staging", "waiting", 0, (number,)) for number in range(ahead))
            found = Explanation(7, None, ChangeRow(Phase.OPEN), place=Place(200, (7,), "waiting", before, 1))
            self.assertEqual(line_of_estimate(found), due)

    def test_when_it_will_land(self):
        found = Explanation(7, None, ChangeRow(Phase.OPEN), place=Place(9, (7,), "waiting", (), 9), estimate=Estimate(100, 160, 8))
        due = f"between {time_of_day(100)} and {time_of_day(160)}, by how long the last 8 batches took."
        self.assertEqual(line_of_estimate(found), f"It will probably land {due}")


class CourseTests(unittest.TestCase):
    """How a batch ends, by hand-made answers. The first four deliveries begin the journal, and the fifth orders batch 1."""

    def test_ends(self):
        staged = tells("staged", batch=1, commit=MERGED)
        failed, other = (tells("status", commit=MERGED, name=name, state="failure") for name in ("build", "format"))
        to_land = tells("status", land(), commit=MERGED, name="build", state="success")
        for steps, running, due in (
            ([staged], [1], (None, None)), ([staged, failed], [], (End.FAILED, 7)), ([staged, other], [1], (None, None)),
            ([staged, other, ordered(2)], [2], (End.TIMED_OUT, 8)), ([tells("conflict", batch=1)], [], (End.CONFLICT, 6)),
            ([staged, to_land], [1], (None, None)), ([staged, to_land, tells("base", commit=MERGED)], [], (End.LANDED, 8)),
            ([staged, to_land, tells("base", commit=NEXT)], [], (End.OVERTAKEN, 8)), ([tells("base", commit=NEXT)], [], (End.MOVED, 6)),
            ([staged, to_land, tells("refused", batch=1)], [], (End.REFUSED, 8)),
            ([tells("settings", text="T"), ordered(2)], [2], (End.SETTINGS, 6)), ([tells("settings", text="T")], [], (End.SETTINGS, 6)),
            ([tells("settings", text="S"), ordered(2)], [2], (End.TIMED_OUT, 7)),
            ([tells("settings", text="T"), staged, ordered(2)], [2], (End.TIMED_OUT, 8)),
        ):
            self.assertEqual(ends_of(told(ordered(), *steps), running)[1], due)

    def test_what_was_denied_ends_nothing(self):
        for event, fields in (
            ("conflict", {"batch": 1}), ("base", {"commit": NEXT}), ("refused", {"batch": 1}),
            ("comment", {"change": 1, "person": "eve", "text": "bors r-"}),
        ):
            journal = told(ordered(), tells(event, replies=[{"number": 19, "rule": "NoSuchBatch", "verdict": "denied"}], **fields))
            self.assertEqual(ends_of(journal, [1])[1], (None, None))

    def test_a_priority_that_is_the_same(self):
        same = tells("comment", change=1, person="rosa", text="bors p=0")
        other = tells("comment", change=1, person="rosa", text="bors p=1")
        self.assertEqual(ends_of(told(ordered(), same), [1])[1], (None, None))
        self.assertEqual(ends_of(told(ordered(), same, other))[1], (End.LEFT, 7))
        self.assertEqual(ends_of(told(other, ordered(), other), [1])[1], (None, None))

    def test_a_try_is_another_branch(self):
        journal = told(ordered(), ordered(2, ((1, HEAD),), branch="trying"), tells("base", commit=NEXT), ordered(3))
        self.assertEqual(ends_of(journal, [2, 3]), {1: (End.MOVED, 7), 2: (None, None), 3: (None, None)})

    def test_which_settings_are_asked_for(self):
        """Those by which a status may have failed a batch of several."""
        steps = (ordered(), tells("staged", batch=1, commit=MERGED), tells("status", commit=MERGED, name="build", state="error"))
        events = events_of(*reversed(told(*steps)))
        courses = courses_of(events, {}, {1})
        self.assertEqual((texts_to_ask(courses, {1}), texts_to_ask(courses, {3})), (["S"], []))


class MomentTests(unittest.TestCase):
    def journal(self):
        story = Told()
        story.tell("role", id="first", person="rosa", role="reviewer")
        story.tell("base", id="3", commit=BASE)
        story.tell("base", id="third", commit=NEXT)
        return story.journal()

    def test_a_delivery_by_its_identifier_or_number(self):
        for named, number in (("first", 1), ("1", 1), ("third", 3), ("2", 2), ("3", 2), (None, 3)):
            self.assertEqual(moment_of(self.journal(), named).last.number, number, named)
        for named in ("4", "0", "-1", "", "firs", "\u0662"):
            with self.assertRaisesRegex(Trouble, "the journal has no delivery"):
                moment_of(self.journal(), named)

    def test_a_delivery_without_an_answer(self):
        facts, rows = self.journal()
        journal = Journal(facts, [*rows[:2], rows[2]._replace(answer=None)])
        with self.assertRaisesRegex(Trouble, "third has no answer yet"):
            moment_of(journal, "third")
        found = moment_of(journal, None)
        self.assertEqual((found.last.number, found.waiting, len(found.events)), (2, 1, 2))

    def test_facts_count_up_to_the_next_delivery(self):
        story = Told()
        story.tell("role", person="rosa", role="reviewer")
        story.fact("Delayed", order="x.0", why="first")
        story.tell("base", commit=BASE)
        story.fact("Delayed", order="x.0", why="second")
        self.assertEqual([it.why for it in moment_of(story.journal(), "1").delays], ["first"])
        self.assertEqual([it.why for it in moment_of(story.journal(), "2").delays], ["first", "second"])

    def test_a_journal_that_no_host_has_written(self):
        for line, answer in (("7", "[]"), ("x", "[]"), (json.dumps({"event": "tick"}), "x"), (json.dumps({"event": "tick"}), '["x"]')):
            facts, rows = self.journal()
            with self.assertRaisesRegex(Trouble, "the journal can't be read"):
                moment_of(Journal(facts, [rows[0]._replace(line=line, answer=answer)]), None)
        story = Told()
        story.fact("Delayed", order="x.0")
        with self.assertRaisesRegex(Trouble, "the journal can't be read"):
            moment_of(story.journal(), None)


class AskingTests(unittest.TestCase):
    def test_who_is_asked_for(self):
        change = ChangeRow(Phase.OPEN, "ines", HEAD, delegates=("rosa", "vera"))
        self.assertEqual(people_to_ask(Records(change, ("milo", "rosa"))), ("somebody-else", "ines", "rosa", "vera", "milo"))
        for taken, due in ((("somebody-else",), "somebody-else-0"), (("somebody-else", "somebody-else-0"), "somebody-else-1")):
            self.assertEqual(people_to_ask(Records(change, taken))[0], due)

    def test_who_is_answered_alike(self):
        rights, reviews = Denied("NotPermitted", "Reviewer"), Denied("TooFewReviews", (1, 2))
        asked = [Asked("x", rights), Asked("ines", rights), Asked("rosa", reviews), Asked("vera", None), Asked("milo", reviews)]
        found = [(it.people, it.has_others, it.rule, it.detail) for it in groups_of(asked, ChangeRow(Phase.OPEN))]
        self.assertEqual(found, [
            (("vera",), False, "", ""), (("rosa", "milo"), False, "TooFewReviews", "1 of 2"), (("ines",), True, "NotPermitted", "Reviewer"),
        ])


class QueueTests(unittest.TestCase):
    def test_the_report_of_the_queue(self):
        """That of docs/formats.md."""
        report = (
            "base 0000000000000000000000000000000000000000\nclock 1700000000\n           batch branch  state     prio changes\n"
            "               1 staging staged       0 12,11\n               2 staging waiting     -5 13\n"
            "               3 trying  ordered      0 14\n\nopen: change 12\n"
        )
        self.assertEqual(batches_in(report), [
            QueuedBatch(1, "staging", "staged", 0, (12, 11)), QueuedBatch(2, "staging", "waiting", -5, (13,)),
            QueuedBatch(3, "trying", "ordered", 0, (14,)),
        ])


if __name__ == "__main__":
    unittest.main()
