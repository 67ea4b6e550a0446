"""Tests of what an audit reads: rows and what is missing among them, the commands of comments, and what was said up to an order to land."""
import sys
import unittest
from pathlib import Path

sys.path.insert(0, str(Path(__file__).resolve().parent.parent))

from gate_host.audit.entries import Fact, Journal, Row, entries_of, gaps_in, replies_in  # noqa: E402
from gate_host.audit.grammar import Act, acts_in  # noqa: E402
from gate_host.audit.replay import differences  # noqa: E402
from gate_host.audit.story import movers_in, story_of  # noqa: E402
from telling import BASE, DENIED, DONE, HEAD, MERGED, NEXT, OTHER, Told, notice, stage  # noqa: E402

OTHERS = Act("other")
APPROVED = Act("r+")


def kinds_in(findings):
    return [(finding.kind, finding.about) for finding in findings]


class EntryTests(unittest.TestCase):
    def test_what_is_missing(self):
        facts = [Fact(number, 5, "Ticked", "{}") for number in (1, 2, 3, 4)]
        rows = [Row(number, number, f"tick-{number}", "{}", "[]") for number in (1, 2, 3, 4)]
        upgraded = [Fact(7, 5, "Upgraded", "{}"), Fact(8, 5, "Ticked", "{}")]
        for why, journal, due in (
            ("nothing", Journal(facts, rows), []),
            ("nothing in an empty one", Journal([], []), []),
            ("the first delivery", Journal(facts, rows[1:]), ["delivery 1 of the journal isn't there, so something was taken out"]),
            ("two deliveries", Journal(facts, rows[:1] + rows[3:]), ["deliveries 2 to 3 of the journal aren't there"]),
            ("a fact", Journal(facts[:1] + facts[2:], rows), ["fact 2 of the journal isn't there", "tick-2 was told by fact 2"]),
            ("the first fact", Journal(facts[1:], rows[1:2]), ["delivery 1", "fact 1"]),
            ("an answer", Journal(facts, [rows[0]._replace(answer=None), *rows[1:]]), ["tick-1 has no answer"]),
            ("the last answers", Journal(facts, rows[:2] + [it._replace(answer=None) for it in rows[2:]]), []),
            ("nothing of an earlier version", Journal(upgraded, [rows[0]._replace(fact=0), rows[1]._replace(fact=8)]), []),
            ("a fact after it", Journal([upgraded[0], upgraded[1]._replace(number=9)], []), ["fact 8"]),
        ):
            with self.subTest(why=why):
                found = [finding.said for finding in gaps_in(journal)]
                self.assertEqual(len(found), len(due), found)
                for said, beginning in zip(found, due):
                    self.assertTrue(said.startswith(beginning), said)

    def test_what_is_no_answer(self):
        stage, dance = '{"order":"stage","heads":[[1]]}', '{"order":"dance"}'
        wrong = [f'[{{"verdict":"done","orders":[{order}]}}]' for order in (stage, dance, "7")]
        for text in ("", "7", "{}", "[7]", '[{"verdict":"maybe"}]', '[{"verdict":"done"}]', *wrong, "[" * 100000):
            self.assertIsNone(replies_in(text), text[:50])
        self.assertEqual(replies_in("[]"), ())
        self.assertEqual([it.is_done for it in replies_in('[{"verdict":"done","orders":[]},{"verdict":"denied"}]') or ()], [True, False])

    def test_what_cannot_be_read_is_told(self):
        rows = [
            Row(1, 1, "x", '{"id":"x","event":"tick"}', "[]"), Row(2, 1, "y", '{"id":"x"}', "[]"), Row(3, 1, "z", "nothing", "[]"),
            Row(4, 1, "a", '{"id":"a"}', "7"), Row(5, 1, "b", '{"id":"b"}', None),
        ]
        entries, found = entries_of(Journal([Fact(1, 50, "Ticked", "{}")], rows))
        self.assertEqual([(it.id, it.event, it.at) for it in entries], [("x", "tick", 50)])
        self.assertEqual(kinds_in(found), [("altered", "y"), ("altered", "z"), ("altered", "a")])

    def test_other_answers(self):
        rows = [Row(number, 1, f"x-{number}", "", answer) for number, answer in enumerate(("[1]", None, "[2]", "[3]"))]
        self.assertEqual(differences(rows, ["[1]", "[7]", "[2]", "[3]"]), [])
        self.assertEqual(len(differences(rows[:1], ["[1] "])), 1)
        found, = differences(rows, ["[1]", "[7]", "[5]", "[6]"])
        self.assertEqual((found.kind, found.about), ("answer", "x-2"))
        self.assertEqual(found.said, "the program answers x-2 by [5], and the journal has [2]. Of the later answers 1 differ too.")
        found, = differences([rows[0]._replace(answer="a" * 900 + "b")], ["a" * 900 + "c"])
        self.assertIn("a" * 50 + "c, and", found.said)


class GrammarTests(unittest.TestCase):
    def test_the_commands_of_a_line(self):
        """The lines of docs/formats.md, and those by which a reader might be wrong."""
        for line, due in (
            ("BORS ping", [OTHERS]), ("bors:r+", [APPROVED]), ("bors r- ", [Act("r-")]), ("bors r+\r", [APPROVED]),
            ("bors r+\r\r", [OTHERS]),
            (" bors r+", []), ("bors", []), ("bors ", [OTHERS]), ("bors:", [OTHERS]), ("bors\tping", []), ("bors \tping", [OTHERS]),
            ("bors R+", [OTHERS]), ("bors r+, please", [OTHERS]), ("borsalino", []), ("bor\u017f r+", []),
            ("bors merge=Rosa, @milo,rosa", [Act("r=", ("rosa", "milo"))]), ("bors r+   p=12", [OTHERS, APPROVED]),
            ("bors r+p=12", [OTHERS]), ("bors r= p=5", [OTHERS]), ("bors r=rosa p=12345", [OTHERS]),
            ("bors r=rosa, milo p=-7", [OTHERS, Act("r=", ("rosa", "milo"))]),
            ("bors r+ p=5 p=6", [OTHERS]), ("bors p=007", [OTHERS]), ("bors: try on arm p=5", [Act("try")]), ("bors tryon", [OTHERS]),
            ("bors try", [Act("try")]), ("bors try-", [OTHERS]), ("bors delegate=vera,", [OTHERS]), ("bors retry now", [OTHERS]),
            ("bors retry", [Act("retry")]), ("bors merge", [APPROVED]), ("bors merge p=1", [OTHERS, APPROVED]),
            ("bors merge-", [Act("r-")]),
            ("bors r=", [OTHERS]), ("bors r=a,", [OTHERS]), ("bors r=a b", [OTHERS]), ("bors r=a p=1 p=2", [OTHERS]),
            ("bors r=" + "a" * 64, [Act("r=", ("a" * 64,))]), ("bors r=" + "a" * 65, [OTHERS]), ("bors r=@@a", [OTHERS]),
            ("bors r+\u00a0", [OTHERS]), ("bors r+ p=\u0665", [OTHERS]), ("bors: r+", [APPROVED]), ("bors r+ p=-12345", [OTHERS]),
        ):
            with self.subTest(line=line):
                self.assertEqual(acts_in(line), due)

    def test_the_commands_of_a_comment(self):
        text = "Looks good.\nbors r+ p=2\nbors d+\nbors: dance\r\n\nbors r-"
        self.assertEqual(acts_in(text), [OTHERS, APPROVED, OTHERS, OTHERS, Act("r-")])


class ApprovalTests(unittest.TestCase):
    """Who had approved change 1 at the order to land it, or nobody."""

    def approvers(self, *happened):
        told = Told()
        told.begin()
        for what in happened:
            what(told)
        told.test()
        found = story_of(entries_of(told.journal())[0])
        self.assertEqual(found.findings, [])
        approval = found.landings[-1].approvals.get(1)
        return (approval.approvers, approval.person) if approval and approval.head == HEAD else None

    def test_what_gives_and_ends_an_approval(self):
        def say(text, *verdicts, person="rosa"):
            replies = [DONE if it else DENIED for it in verdicts or (True,)]
            return lambda told: told.approve(text=text, person=person, replies=replies)

        def tell(event, *orders, **fields):
            return lambda told: told.tell(event, *orders, change=1, **fields)

        rosa, vera = (("rosa",), "rosa"), (("vera", "milo"), "rosa")
        away, back = tell("pushed", notice(1, "Pushed"), head=OTHER), tell("pushed", head=HEAD)
        for why, happened, due in (
            ("nothing", [], None),
            ("r+", [say("bors r+")], rosa),
            ("r+ by another writing of the name", [say("bors r+", person="@Rosa")], rosa),
            ("merge", [say("bors merge")], rosa),
            ("r=", [say("bors r=vera,@Milo")], vera),
            ("with a priority", [say("bors r+ p=5", True, True)], rosa),
            ("with a priority, of which only that was done", [say("bors r+ p=5", True, False)], None),
            ("with a priority that was denied", [say("bors r+ p=5", False, True)], rosa),
            ("denied", [say("bors r+", False)], None),
            ("the second line", [say("bors ping\nbors r+", True, True)], rosa),
            ("the second line, denied", [say("bors r+\nbors ping", False, True)], None),
            ("no command", [say("I think: bors r+", *[]), ] if False else [lambda told: told.approve(text="r+", replies=[])], None),
            ("on another change", [lambda told: told.approve(change=2)], None),
            ("r-", [say("bors r+"), say("bors r-")], None),
            ("r- that was denied", [say("bors r+"), say("bors r-", False)], rosa),
            ("r- and r+ in one comment", [say("bors r+"), say("bors r-\nbors r+", True, True)], rosa),
            ("a push", [say("bors r+"), away], None),
            ("a push and back", [say("bors r+"), away, back], None),
            ("a push of the same head", [say("bors r+"), back], rosa),
            ("a push and back, without a notice", [say("bors r+"), tell("pushed", head=OTHER), back], None),
            ("closed", [say("bors r+"), tell("closed")], None),
            ("opened again", [say("bors r+"), tell("opened", author="otto", head=HEAD)], None),
            ("a push before", [away, back, say("bors r+")], rosa),
            ("an approval of another head", [away, say("bors r+"), back], None),
            ("closed and opened", [say("bors r+"), tell("closed"), tell("opened", author="otto", head=HEAD)], None),
            ("retry of nothing", [say("bors retry", False)], None),
            ("retry after a push", [say("bors r+"), away, back, say("bors retry")], rosa),
            ("retry twice", [say("bors r+"), away, back, say("bors retry"), away, back, say("bors retry")], rosa),
            ("retry by another one", [say("bors r+"), away, back, say("bors retry", person="vera")], (("vera",), "vera")),
            ("retry of a list", [say("bors r=vera,milo"), away, back, say("bors retry")], vera),
            ("retry of a try", [say("bors r+"), away, back, say("bors try"), say("bors retry")], None),
            ("retry of a try that was denied", [say("bors r+"), away, back, say("bors try", False), say("bors retry")], rosa),
            ("a notice", [say("bors r+"), lambda told: told.tell("tick", notice(1, "TimedOut"), now=5)], None),
            ("a notice to another change", [say("bors r+"), lambda told: told.tell("tick", notice(2, "TimedOut"), now=5)], rosa),
            ("a notice of a try", [say("bors r+"), lambda told: told.tell("tick", notice(1, "TryFailed"), now=5)], rosa),
            ("a label", [say("bors r+"), tell("labeled", notice(1, "Labeled"), label="wip")], None),
            ("an opening that was denied", [say("bors r+"), lambda told: told.tell("opened", change=1, replies=[DENIED])], rosa),
        ):
            with self.subTest(why=why):
                self.assertEqual(self.approvers(*happened), due)

    def test_who_approved_and_when(self):
        told = Told()
        told.begin()
        said = told.approve()
        name = told.test()
        landing = story_of(entries_of(told.journal())[0]).landings[0]
        approval = landing.approvals[1]
        self.assertEqual((approval.id, approval.at), (said, 104))
        self.assertEqual((landing.name, landing.settings, landing.is_staged), (name, "S", True))

    def test_an_answer_with_too_few_replies(self):
        told = Told()
        told.begin()
        said = told.approve(text="bors ping\nbors r+")
        story = story_of(entries_of(told.journal())[0])
        self.assertEqual(kinds_in(story.findings), [("altered", said)])
        self.assertEqual(story.approvals, {})


class StatusTests(unittest.TestCase):
    def test_the_last_word_since_the_staging_counts(self):
        told = Told()
        told.begin()
        told.tell("status", commit=MERGED, name="early", state="success")
        told.tell("status", commit=MERGED, name="denied", state="success", replies=[DENIED])
        told.test(states=[("a", "pending"), ("a", "success"), ("b", "success"), ("b", "pending"), ("c", "success")])
        told.tell("status", commit=MERGED, name="late", state="success")
        landing = story_of(entries_of(told.journal())[0]).landings[0]
        self.assertEqual(landing.states, {"a": "success", "b": "pending", "c": "success"})

    def test_what_becomes_of_an_order(self):
        for how, tell in (
            ("base", lambda told, name: told.landed(name)), ("base", lambda told, name: told.tell("base", commit=MERGED)),
            ("over", lambda told, name: told.tell("base", commit=NEXT)),
            ("refused", lambda told, name: told.tell("refused", id=name, batch=1)),
            (None, lambda told, name: told.tell("refused", batch=1, replies=[DENIED])), (None, lambda told, name: None),
        ):
            told = Told()
            told.begin()
            name = told.test()
            tell(told, name)
            told.tell("tick", stage(2, branch="trying"), now=7)
            story = story_of(entries_of(told.journal())[0])
            self.assertEqual(story.outcomes.get(name), how)

    def test_who_moved_the_branch(self):
        told = Told()
        told.fact("MoverFound", move=1, person="", used=[])
        told.fact("MoverFound", move=2, person="ines", used=[])
        told.fact("MainSeen", commit=BASE, settings=None)
        told.fact("MoverFound", move=1, person="owner", used=[])
        self.assertEqual(movers_in(told.facts), {1: "owner", 2: "ines"})


if __name__ == "__main__":
    unittest.main()
