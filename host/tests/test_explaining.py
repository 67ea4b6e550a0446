"""Explanations over journals with the answers of the built program. What is due is taken from docs/ and from each story."""
import re
import sys
import unittest
from pathlib import Path

sys.path.insert(0, str(Path(__file__).resolve().parent.parent))

from answered import Story, at, clock, commit, mark  # noqa: E402
from gate_host.core.estimates import Estimate  # noqa: E402
from gate_host.explaining.shown import REFUSALS  # noqa: E402
from stand_in import is_built  # noqa: E402

COMMANDS = Path(__file__).resolve().parent.parent.parent / "docs/commands.md"
LEVEL = (
    "the person lacks the level that the command needs (NotPermitted, ReviewerOrDelegate). "
    "Reviewers, and delegates of this change, have it."
)
REVIEWS = 'status = ["build"]\nrequired_approvals = 2\n'
HEADS = 'status = ["build"]\npr_status = ["format"]\n'


def denied(who, why):
    return f"bors r+ of {who} would be denied now: {why}"


def landing_and_pushed():
    story = Story()
    story.approves(11)
    story.ticks(60)
    story.staged(1, "d")
    story.status("d", "build")
    story.status("d", "test")
    story.happens("pushed", change=11, head=commit("e"))
    return story


def after(story, *events):
    for event, fields in events:
        story.happens(event, **fields)
    return story


@is_built
class RuleTests(unittest.TestCase):
    """Each rule that may deny `r+`, by what the program answers for a reviewer."""

    def test_each_rule(self):
        reviewed = {"change": 11, "person": "milo", "head": commit("a"), "approves": True}
        for story, due in (
            (Story(settings=None, base=None),
             "no settings have been accepted so far (NoSettings). The main branch needs a bors.toml that is accepted."),
            (Story(base=None), "no base has been handed in so far (NoBase). The host has to have seen the main branch."),
            (after(Story(), ("closed", {"change": 11})), "the change is closed or has landed (NotOpen). It has to be opened again first."),
            (landing_and_pushed(), "the landing of the change is ordered and not settled (Landing). How that goes has to be waited for."),
            (after(Story(), ("labeled", {"change": 11, "label": "wip"})),
             "the change carries a label of block_labels (Blocked, wip). The label wip has to be taken away."),
            (after(Story(settings=REVIEWS), ("review", reviewed)),
             "the change has fewer reviews than required_approvals (TooFewReviews, 1 of 2). "
             "It has 1 of 2: more people have to approve its head."),
            (Story(settings=HEADS),
             "a status of pr_status hasn't succeeded on the head of the change (HeadStatus, format). "
             "The status format has to succeed on aaaaaaa."),
        ):
            lines = [line for line in story.lines(11) if line.startswith("bors r+")]
            self.assertEqual(lines, [denied("rosa", due), denied("ines, milo or anybody else", LEVEL)])

    def test_nothing_is_asked_of_what_is_approved_or_never_opened(self):
        story = Story()
        approved = story.approves(11)
        self.assertEqual(story.lines(11), [
            f"It is open, and approved by rosa {mark(approved)}.", "It waits in batch 1 (change 11), at place 1 of the queue.",
            "The queue waits for a reading of the clock, at which batch 1 is ordered.",
        ])
        self.assertEqual(story.lines(99), ["It was never opened."])

    def test_who_may(self):
        """A delegate may, on the change of the delegation alone. A person without a role is named if it is the author."""
        story = Story()
        story.says("rosa", 12, "bors d=vera")
        self.assertEqual(story.lines(12), [
            "It is open, and not approved.", "bors r+ would approve it now if vera or rosa said so.",
            denied("otto, milo or anybody else", LEVEL),
        ])
        self.assertEqual(story.lines(13)[1], "bors r+ would approve it now if rosa said so.")
        approved = story.approves(12, person="vera")
        self.assertEqual(story.lines(12)[0], f"It is open, and approved by vera {mark(approved)}.")

    def test_a_role_is_that_of_the_moment(self):
        story = Story()
        story.happens("role", person="milo", role="reviewer")
        taken = story.happens("role", person="rosa", role="nobody")
        self.assertEqual(story.lines(11, taken)[1:], [
            "bors r+ would approve it now if milo said so.", denied("ines or anybody else", LEVEL),
        ])
        self.assertEqual(story.lines(11, "8")[1], "bors r+ would approve it now if milo or rosa said so.")

    def test_for_whom_it_was_approved(self):
        story = Story()
        approved = story.says("rosa", 11, "bors r=vera,@Milo")
        self.assertEqual(story.lines(11)[0], f"It is open, and approved by vera, milo (said by rosa) {mark(approved)}.")


class WordTests(unittest.TestCase):
    def test_the_words_are_those_of_the_page(self):
        """Each rule that judges `r+`, by the tables of docs/commands.md."""
        text = COMMANDS.read_text(encoding="utf-8").replace("`", "")
        rows = re.findall(r"^\| ([0-9]+) \| ([A-Za-z]+) \| (.*?) \| .*\|$", text, re.MULTILINE)
        numbers = re.search(r"^\| r\+, r= \| ([0-9, ]+) \|$", text, re.MULTILINE)[1].split(", ")
        due = {name: why for number, name, why in rows if number in numbers and name not in ("NotApproved", "AlreadyTrying", "NotTrying")}
        self.assertEqual(len(due), 10)
        due["AlreadyApproved"] = due["AlreadyApproved"].rpartition(": ")[2]
        self.assertEqual({name: why for name, (why, _) in REFUSALS.items()}, due)


@is_built
class QueueTests(unittest.TestCase):
    def test_behind_two_batches(self):
        story = Story(settings='status = ["build"]\nmax_batch_size = 1\n')
        story.approves(11, 12)
        approved = story.says("rosa", 13, "bors r+")
        self.assertEqual(story.lines(13), [
            f"It is open, and approved by rosa {mark(approved)}.", "It waits in batch 3 (change 13), at place 3 of the queue.",
            "  before it: batch 1 (change 11), which waits", "  before it: batch 2 (change 12), which waits",
            "The queue waits for a reading of the clock, at which batch 1 is ordered.",
        ])
        story.ticks(1000)
        self.assertEqual(story.lines(13)[1:], [
            "It waits in batch 3 (change 13), at place 3 of the queue.", "  before it: batch 1 (change 11), which is about to be tested",
            "  before it: batch 2 (change 12), which waits", "Batch 1 has to be over first.",
            "The queue waits for the commit of batch 1 on staging.",
            f"  ordered at {clock(1000)}; its time is over at the first reading of the clock from {clock(4600)} on",
        ])
        story.says("rosa", 12, "bors p=-3")
        self.assertEqual(story.lines(13)[1:3], [
            "It waits in batch 3 (change 13), at place 2 of the queue.", "  before it: batch 1 (change 11), which is about to be tested",
        ])

    def test_one_of_two_checks(self):
        story = Story()
        story.approves(11)
        story.ticks(1000)
        story.staged(1, "d")
        done = story.status("d", "test")
        self.assertEqual(story.lines(11)[1:], [
            "It is in batch 1 (change 11), which is being tested.", "The queue waits for these checks of batch 1 at ddddddd: build.",
            f"  staged at {clock(1000)}; its time is over at the first reading of the clock from {clock(4600)} on",
            "  the check build is open", f"  the check test has succeeded {mark(done)}",
        ])
        again = story.status("d", "test", "pending")
        self.assertEqual(story.lines(11)[2], "The queue waits for these checks of batch 1 at ddddddd: build, test.")
        self.assertEqual(story.lines(11)[-1], f"  the check test runs again, after a success or not {mark(again)}")

    def test_landing_and_landed(self):
        story = Story()
        approved = story.approves(11)
        story.approves(12)
        landed = story.passes(1, "d", 1000)
        before = str(int(landed.rpartition("-")[2]) - 1)
        self.assertEqual(story.lines(12, before)[1:], [
            "It is in batch 1 (changes 11, 12), which is landing.",
            "The queue waits for the main branch to move to ddddddd, as ordered for batch 1.",
        ])
        self.assertEqual(story.lines(11), [
            f"It has landed as {commit('d')}, with batch 1 (changes 11, 12) {mark(landed)}.", f"It was approved by rosa {mark(approved)}.",
        ])

    def test_when_it_lands(self):
        """A batch is ordered by fact 9 and lands by fact 13, so it took 4 seconds. With one batch the range is half of that to twice."""
        story = Story()
        story.approves(11)
        self.assertEqual(story.estimate(11), ["When it lands can't be estimated yet: no batch has ended."])
        landed = story.passes(1, "d", 1000)
        self.assertEqual(story.estimate(11), [])
        self.assertEqual((landed, story.approves(12)), ("base-13", "comment-14"))
        due = f"between {at(16)} and {at(22)}, by how long one batch took, which says little."
        self.assertEqual(story.estimate(12), [f"It will probably land {due}"])
        self.assertEqual(story.explained(12).estimate, Estimate(116, 122, 1))
        self.assertIsNone(story.explained(12, landed).estimate)

    def test_the_host_is_delayed(self):
        story = Story()
        story.approves(11)
        ordered = story.ticks(1000)
        story.fact("Delayed", order=f"{ordered}.0", why="the disk is full")
        self.assertEqual(story.lines(11)[-1], "  the host can't stage it yet: the disk is full")


if __name__ == "__main__":
    unittest.main()
