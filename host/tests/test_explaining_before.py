"""Why a change left the queue last, and what became of its batch: over journals with the answers of the built program. What is due is taken
from docs/ and from each story."""
import json
import re
import sys
import tempfile
import unittest
from pathlib import Path

sys.path.insert(0, str(Path(__file__).resolve().parent.parent))

from answered import SETTINGS, Story, at, commit, heading, mark  # noqa: E402
from gate_host.audit.entries import Journal  # noqa: E402
from gate_host.core.queue import batches_in  # noqa: E402
from gate_host.explaining.asking import explanation_of  # noqa: E402
from gate_host.explaining.events import moment_of  # noqa: E402
from gate_host.explaining.shown import json_of, text_of  # noqa: E402
from gate_host.faults import Trouble  # noqa: E402
from gate_host.report_bot import ReportBot  # noqa: E402
from stand_in import PROGRAM, SECONDS, is_built  # noqa: E402

FOUR = ((11, "ines", "a"), (12, "otto", "b"), (13, "otto", "c"), (14, "vera", "e"))
ENDED = {"batch": 1, "name": "build", "state": "failure", "said": "it ended with status 1", "output": "1-0-build"}


def approved(*changes, **more):
    """A story in which these changes are approved, at the numbers that come after those of the beginning."""
    story = Story(**more)
    story.approves(*changes)
    return story


def staged(*changes, **more):
    """The same, with their batch staged."""
    story = approved(*changes, **more)
    story.ticks(1000)
    story.staged(1, "d")
    return story


def left_of(story, change, when=None):
    """Why it left, and nothing else."""
    found = [line for line in story.lines(change, when) if line.startswith("It left")]
    return found[0] if len(found) == 1 else found


def steps_of(story, change, when=None):
    """What became of its batch, and nothing else."""
    lines = story.lines(change, when)
    return lines[lines.index("What became of its batch:") + 1:] if "What became of its batch:" in lines else []


@is_built
class LeavingTests(unittest.TestCase):
    """Each way by which an approval ends, in the order of the table in docs/commands.md."""

    def test_by_people(self):
        reviews = 'status = ["build"]\nrequired_approvals = 1\n'
        story = approved(11)
        id = story.says("rosa", 11, "bors r-")
        self.assertEqual(left_of(story, 11), f"It left the queue last since its approval was taken back, by rosa {mark(id)}.")

        story = approved(11)
        story.fact("PushTold", note="n1", person="vera", heads=[[11, commit("e")]], moves=[])
        id = story.happens("pushed", change=11, head=commit("e"))
        self.assertEqual(left_of(story, 11), f"It left the queue last since it was pushed (Pushed), to eeeeeee, by vera {mark(id)}.")

        story = approved(11)
        id = story.happens("closed", change=11)
        self.assertEqual(left_of(story, 11), f"It left the queue last since it is no open change any more (Closed) {mark(id)}.")
        self.assertEqual(story.lines(11)[0], f"It is closed, and not approved {mark(id)}.")

        story = approved(11)
        id = story.happens("labeled", change=11, label="wip")
        due = f"It left the queue last since it has a label that blocks it (Labeled), the label wip {mark(id)}."
        self.assertEqual(left_of(story, 11), due)

        story = Story(settings=reviews)
        story.happens("review", change=11, person="milo", head=commit("a"), approves=True)
        story.approves(11)
        id = story.happens("review", change=11, person="milo", head=commit("a"), approves=False)
        due = f"It left the queue last since it has too few reviews (Reviews), milo approves it no more {mark(id)}."
        self.assertEqual(left_of(story, 11), due)

        story = approved(11)
        story.happens("labeled", change=11, label="docs")
        id = story.happens("settings", text=SETTINGS.replace("wip", "docs"))
        due = f"It left the queue last since by the new settings it may not be approved (Settings) {mark(id)}."
        self.assertEqual(left_of(story, 11), due)

    def test_by_its_batch(self):
        story = approved(11)
        story.ticks(1000)
        told = {"order": "tick-9.0", "change": 11, "why": "both change parts/clash"}
        id = story.happens("conflict", "Conflicted", told, batch=1)
        due = "It left the queue last since it can't be merged (Conflict), in batch 1, change 11 doesn't merge: both change parts/clash"
        self.assertEqual(left_of(story, 11), f"{due} {mark(id)}.")

        story = staged(11)
        id = story.status("d", "build", "failure", kind="Ended", told=ENDED)
        due = (
            "It left the queue last since it fails the check build (Failed, build), in batch 1 at ddddddd, it ended with status 1; output: "
            f"1-0-build {mark(id)}."
        )
        self.assertEqual(left_of(story, 11), due)

        story = staged(11)
        id = story.ticks(4600)
        due = "It left the queue last since no verdict of all required checks came in time (TimedOut), in batch 1 at ddddddd"
        self.assertEqual(left_of(story, 11), f"{due} {mark(id)}.")

    def test_the_last_one_counts_and_a_try_leaves_nothing(self):
        story = approved(11)
        first = story.says("rosa", 11, "bors r-")
        story.says("rosa", 11, "bors retry")
        self.assertEqual(left_of(story, 11), [])
        second = story.says("rosa", 11, "bors merge-")
        self.assertIn(mark(second), left_of(story, 11))
        self.assertIn(mark(first), left_of(story, 11, first))
        story.says("milo", 12, "bors try")
        story.happens("pushed", change=12, head=commit("e"))
        self.assertEqual(left_of(story, 12), [])

    def test_nothing_is_told_of_what_never_was_in_the_queue(self):
        self.assertEqual((left_of(Story(), 11), steps_of(Story(), 11)), ([], []))


@is_built
class BatchTests(unittest.TestCase):
    """What became of a batch."""

    def four(self):
        """Batch 1 has four changes and fails. Of its halves the first one lands, and the second one fails. Then 13 can't be merged."""
        story = staged(11, 12, 13, 14, changes=FOUR)
        story.status("d", "test")
        marks = [story.status("d", "build", "failure", kind="Ended", told=ENDED)]
        story.ticks(1010)
        story.staged(2, "1")
        story.status("1", "build")
        story.status("1", "test")
        marks.append(story.happens("base", commit=commit("1")))
        story.ticks(1020)
        story.staged(3, "2")
        marks.append(story.status("2", "test", "error"))
        story.ticks(1030)
        marks.append(story.happens("conflict", batch=4))
        return story, marks

    def test_the_halves_of_four(self):
        story, (failed, landed, second, conflict) = self.four()
        ended = "the check build at ddddddd was failure: it ended with status 1; output: 1-0-build"
        first = f"  batch 1 (changes 11, 12, 13, 14) failed: {ended} {mark(failed)}"
        self.assertEqual(steps_of(story, 13, "tick-13"), [])
        for change in (11, 12, 13, 14):
            due = [first, "    batch 2 (changes 11, 12) waits", "    batch 3 (changes 13, 14) waits"]
            self.assertEqual(steps_of(story, change, failed), due)
        self.assertEqual(story.lines(13, failed)[1:4], [
            "It waits in batch 3 (changes 13, 14), at place 2 of the queue.", "  before it: batch 2 (changes 11, 12), which waits",
            "The queue waits for a reading of the clock, at which batch 2 is ordered.",
        ])
        due = [first, "    batch 2 (changes 11, 12) is being tested, at 1111111", "    batch 3 (changes 13, 14) waits"]
        self.assertEqual(steps_of(story, 14, "staged-18"), due)
        self.assertEqual(steps_of(story, 11, "staged-18"), due)
        self.assertEqual(story.lines(11, landed)[0], f"It has landed as {commit('1')}, with batch 2 (changes 11, 12) {mark(landed)}.")
        half = f"    batch 2 (changes 11, 12) landed as 1111111 {mark(landed)}"
        self.assertEqual(steps_of(story, 14, landed), [first, half, "    batch 3 (changes 13, 14) waits"])
        other = f"    batch 3 (changes 13, 14) failed: the check test at 2222222 was error {mark(second)}"
        due = [first, half, other, "      batch 4 (change 13) waits", "      batch 5 (change 14) waits"]
        self.assertEqual(steps_of(story, 13, second), due)
        due = [first, half, other, f"      batch 4 (change 13) couldn't be merged {mark(conflict)}", "      batch 5 (change 14) waits"]
        self.assertEqual(steps_of(story, 13), due)
        self.assertEqual(steps_of(story, 14), due)
        self.assertEqual(left_of(story, 13), f"It left the queue last since it can't be merged (Conflict), in batch 4 {mark(conflict)}.")
        self.assertEqual(story.lines(14)[1], "It waits in batch 5 (change 14), at place 1 of the queue.")

    def test_a_change_leaves_a_half_that_waits(self):
        story = staged(11, 12, 13)
        failed = story.status("d", "build", "failure")
        id = story.says("rosa", 13, "bors r-")
        first = f"  batch 1 (changes 11, 12, 13) failed: the check build at ddddddd was failure {mark(failed)}"
        due = [
            first, "    batch 2 (change 11) waits", "    batch 3 (change 12) waits",
            f"    change 13 left: its approval was taken back, by rosa {mark(id)}",
        ]
        for change in (11, 12, 13):
            self.assertEqual(steps_of(story, change), due)

    def test_a_long_way_is_cut(self):
        """A batch that waits again and again, since the main branch moves: more often than a program may call itself."""
        story = staged(11, settings='status = ["build"]\n')
        for number in range(1, 1100):
            story.happens("base", commit=f"{number:040x}")
            story.ticks(1000)
        lines = story.lines(11)
        steps = lines[lines.index("What became of its batch:") + 1:]
        self.assertEqual((len(steps), steps[-1]), (101, "  and so on"))
        self.assertIn("batch 100 (change 11) was taken back", steps[-2])

    def test_a_time_that_is_over(self):
        """A status that isn't required fails nothing, whatever it says."""
        story = staged(11, 12)
        story.status("d", "format", "failure")
        id = story.ticks(4600)
        self.assertEqual(steps_of(story, 12), [
            f"  batch 1 (changes 11, 12) failed: its time was over at ddddddd {mark(id)}", "    batch 2 (change 11) is about to be tested",
            "    batch 3 (change 12) waits",
        ])

    def test_landings_that_do_not_come_about(self):
        for event, more, due in (
            ("refused", {"batch": 1}, "couldn't land as ddddddd: the host reported its landing as refused"),
            ("base", {"commit": commit("9")}, "couldn't land: the main branch moved to 9999999 first"),
        ):
            story = staged(11, 12)
            story.status("d", "build")
            story.status("d", "test")
            closed = story.happens("closed", change=12)
            id = story.happens(event, **more)
            self.assertEqual(steps_of(story, 11), [
                f"  batch 1 (changes 11, 12) {due}. Its changes that stand wait again {mark(id)}", "  batch 2 (change 11) waits",
                f"  change 12 left: it is no open change any more (Closed) {mark(closed)}",
            ])

    def test_what_has_a_batch_wait_again(self):
        for event, more, due in (
            ("base", {"commit": commit("9")}, "the main branch moved to 9999999. It waits again"),
            ("settings", {"text": 'status = ["build"]\n'}, "other settings came. It waits again"),
        ):
            story = staged(11, 12)
            id = story.happens(event, **more)
            first = f"  batch 1 (changes 11, 12) was taken back: {due} {mark(id)}"
            self.assertEqual(steps_of(story, 11), [first, "  batch 2 (changes 11, 12) waits"])
            story.ticks(1010)
            self.assertEqual(steps_of(story, 11), [first, "  batch 2 (changes 11, 12) is about to be tested"])

    def test_a_member_that_leaves(self):
        story = staged(11, 12)
        story.fact("PushTold", note="n1", person="vera", heads=[[12, commit("e")]], moves=[])
        id = story.happens("pushed", change=12, head=commit("e"))
        self.assertEqual(steps_of(story, 11), [
            "  batch 1 (changes 11, 12) was taken back: change 12 was pushed to eeeeeee by vera. Its other changes wait again "
            f"{mark(id)}",
            "  batch 2 (change 11) waits", f"  change 12 left: it was pushed (Pushed), to eeeeeee, by vera {mark(id)}",
        ])
        for event, more, due, why in (
            ("closed", {"change": 12}, "change 12 was closed", "it is no open change any more (Closed)"),
            ("labeled", {"change": 12, "label": "wip"}, "change 12 got the label wip",
             "it has a label that blocks it (Labeled), the label wip"),
        ):
            story = staged(11, 12)
            id = story.happens(event, **more)
            self.assertEqual(steps_of(story, 12), [
                f"  batch 1 (changes 11, 12) was taken back: {due}. Its other changes wait again {mark(id)}",
                "  batch 2 (change 11) waits", f"  change 12 left: {why} {mark(id)}",
            ])
        story = staged(11, 12)
        story.happens("labeled", change=12, label="docs")
        id = story.happens("settings", text=SETTINGS.replace("wip", "docs"))
        self.assertEqual(steps_of(story, 11), [
            f"  batch 1 (changes 11, 12) was taken back: new settings are against a change of it. Its other changes wait again {mark(id)}",
            "  batch 2 (change 11) waits", f"  change 12 left: by the new settings it may not be approved (Settings) {mark(id)}",
        ])
        story = staged(11, 12)
        id = story.says("rosa", 12, "bors p=4")
        self.assertEqual(steps_of(story, 12), [
            f"  batch 1 (changes 11, 12) was taken back: a command of rosa took change 12 out. Its other changes wait again {mark(id)}",
            "  batch 2 (change 11) waits", "  batch 3 (change 12) waits",
        ])

    def test_equal_settings_take_nothing_back(self):
        """The batch runs on, and its time is over much later."""
        story = staged(11, 12)
        story.happens("settings", text=f"# other words\n{SETTINGS}")
        story.ticks(1010)
        id = story.ticks(4600)
        due = f"  batch 1 (changes 11, 12) failed: its time was over at ddddddd {mark(id)}"
        self.assertEqual(steps_of(story, 11)[0], due)


@is_built
class MomentTests(unittest.TestCase):
    def test_every_moment_agrees_with_the_reports(self):
        """At each delivery, of one change by turns: whether it is approved, queued and landed, by the reports of another run."""
        story, _ = BatchTests().four()
        story.happens("closed", change=14)
        story.happens("opened", change=14, author="ines", head=commit("e"))
        story.journal()
        with tempfile.TemporaryDirectory() as folder:
            bot = ReportBot(str(PROGRAM), Path(folder))
            self.addCleanup(bot.close)
            self.assertTrue(bot.is_ready(SECONDS))
            seen = set()
            for row in story.rows:
                bot.hand_in(row.line)
                number = 11 + row.number % 4
                found, report = story.explained(number, str(row.number)), bot.change(number)
                lines = dict(line.split(maxsplit=1) for line in (report or "").splitlines())
                self.assertEqual(heading(found).rpartition(", after ")[2], f"delivery {row.number} ({row.id}) of {at(row.fact)}")
                self.assertEqual(found.change.phase.value, lines.get("state", "never opened"), row)
                self.assertEqual(", ".join(found.change.approvers) or "-", lines.get("approved", "-"), row)
                self.assertEqual(found.change.is_approved, found.approved is not None and found.landed is None, row)
                batch = next((it for it in batches_in(bot.queue()) if number in it.changes), None)
                place = (found.place.batch, found.place.state, found.place.changes) if found.place else None
                self.assertEqual(place, (batch.number, batch.state, batch.changes) if batch else None, row)
                self.assertEqual(found.landed is not None, lines.get("state") == "landed", row)
                seen.add((found.change.phase, found.place.state if found.place else ""))
            self.assertGreaterEqual(len(seen), 6)

    def test_a_moment_knows_nothing_of_later_ones(self):
        story, (failed, *_) = BatchTests().four()
        whole = story.journal()
        place = next(place for place, row in enumerate(whole.rows) if row.id == failed)
        cut = Journal(whole.facts[:whole.rows[place].fact], whole.rows[:place + 1])
        with tempfile.TemporaryDirectory() as room:
            due = explanation_of(13, moment_of(cut, None), str(PROGRAM), Path(room))
        self.assertEqual(story.explained(13, failed), due)

    def test_a_program_of_another_journal(self):
        story = approved(11)
        whole = story.journal()
        last = whole.rows[-1]._replace(answer='[{"number":1,"rule":"UnknownChange","verdict":"denied"}]')
        with tempfile.TemporaryDirectory() as room, self.assertRaisesRegex(Trouble, "isn't the program of this journal"):
            explanation_of(11, moment_of(Journal(whole.facts, [*whole.rows[:-1], last]), None), str(PROGRAM), Path(room))


@is_built
class TextTests(unittest.TestCase):
    def test_nothing_breaks_out_of_the_terminal(self):
        """A check, what the host says of it, and a label have characters that a terminal obeys. The lines are as many as without."""
        evil = "\u202ebuild\u009b2J"
        told = {**ENDED, "name": evil, "said": "\x1b[2Jit\nended\r", "output": ""}
        story = staged(11, 12, settings=f'status = ["{evil}"]\nblock_labels = ["w\u0085p"]\n')
        story.status("d", evil, "failure", kind="Ended", told=told)
        story.happens("labeled", change=12, label="w\u0085p")
        found = story.explained(12)
        text = text_of(found)
        self.assertEqual([it for it in text.replace("\n", "") if not it.isprintable()], [])
        self.assertIn("the check ?build?2J at ddddddd was failure: ?[2Jit?ended?", text)
        self.assertIn("the label w?p", text)
        written = json_of(found)
        self.assertEqual(re.sub(r"[ -~\n]", "", written), "")
        self.assertEqual(json.loads(written)["steps"][0]["name"], evil)

    def test_the_document(self):
        story = approved(11)
        document = json.loads(json_of(story.explained(11)))
        self.assertEqual(document["change"]["phase"], "open")
        self.assertEqual(document["change"]["head"], commit("a"))
        self.assertEqual(document["approved"]["approvers"], ["rosa"])
        self.assertEqual(document["place"], {"batch": 1, "changes": [11], "state": "waiting", "ahead": [], "first": 1})
        self.assertEqual(document["moment"], [8, "comment-8", 108])
        self.assertEqual((document["landed"], document["left"], document["steps"]), (None, None, []))
        document = json.loads(json_of(Story(base=None).explained(11)))
        self.assertEqual([(it["people"], it["has_others"], it["rule"]) for it in document["answered"]], [
            (["rosa"], False, "NoBase"), (["ines", "milo"], True, "NotPermitted"),
        ])


if __name__ == "__main__":
    unittest.main()
