"""Tests of what an audit finds of each step of the main branch, and of what it shows: tables of values."""
import json
import sys
import unittest
from dataclasses import replace
from pathlib import Path

sys.path.insert(0, str(Path(__file__).resolve().parent.parent))

from gate_host.audit.entries import entries_of  # noqa: E402
from gate_host.audit.shown import Result, json_of_result, text_of_result  # noqa: E402
from gate_host.audit.steps import Commit, Known, Remade, Written, lost, steps_of, to_be_made  # noqa: E402
from gate_host.audit.story import movers_in, story_of  # noqa: E402
from telling import BASE, DENIED, HEAD, MERGED, NEXT, OTHER, Told, land  # noqa: E402

TREE = "7" * 40
FIRST = Commit(BASE, "6" * 40, ())
LANDED = Commit(MERGED, TREE, (BASE, HEAD))
PUSHED = Commit(NEXT, TREE, (MERGED,))
LAST = Commit("e" * 40, TREE, (NEXT,))
MADE = {MERGED: Remade(TREE)}
REQUIRED = {"S": ["build", "lint"]}


def told_of_landing(**more):
    """A journal in which change 1 is approved, tested and landed."""
    told = Told()
    told.begin()
    told.approve()
    told.landed(told.test(**more))
    return told


def known_of(told, walk=(FIRST, LANDED), made=None, required=None, allowed=()):
    story = story_of(entries_of(told.journal())[0])
    return Known("main", walk, story, movers_in(told.facts), MADE if made is None else made, required or REQUIRED, allowed)


def kinds_of(known, start=None):
    return [(step.commit[0], step.kind, [it.kind for it in step.findings]) for step in steps_of(known, start)]


class LandingTests(unittest.TestCase):
    def found(self, told, due, **more):
        self.assertEqual(kinds_of(known_of(told, **more)), [("1", "landing", due)])

    def test_a_landing_that_is_right(self):
        self.found(told_of_landing(), [])

    def test_what_may_be_wrong_with_its_merge(self):
        other = Commit(MERGED, "5" * 40, (BASE, HEAD))
        for why, walk, made, due in (
            ("other files", (FIRST, other), MADE, ["other files"]),
            ("it doesn't merge", (FIRST, LANDED), {MERGED: Remade(why="both change a")}, ["other files"]),
            ("it wasn't made again", (FIRST, LANDED), {}, ["other files"]),
            ("another head", (FIRST, LANDED._replace(parents=(BASE, OTHER))), MADE, ["other parents"]),
            ("a head more", (FIRST, LANDED._replace(parents=(BASE, HEAD, OTHER))), MADE, ["other parents"]),
            ("no head", (FIRST, LANDED._replace(parents=(BASE,))), MADE, ["other parents"]),
        ):
            with self.subTest(why=why):
                self.found(told_of_landing(), due, walk=walk, made=made)

    def test_what_is_written_in_the_repository(self):
        message = "Batch 1: change 1\n\nchange 1: Batch: 9\n  by ines\n\nApproved-by: rosa\nBatch: 1\n"
        for written, due in (
            (Written(), []), (Written("S", message), []), (Written(None, message), []), (Written("other", message), ["other settings"]),
            # A host of before named nobody.
            (Written("S", "Batch 1: change 1\n"), []), (Written("S", "Batch 1: change 1\n\nApproved-by: linus\n"), []),
            (Written("S", message.replace("by: rosa", "by: linus")), ["other message"]),
            (Written("S", message.replace("Approved-by: rosa\n", "")), ["other message"]),
            (Written("S", message.replace("by: rosa\n", "by: rosa\nApproved-by: linus\n")), ["other message"]),
            (Written("S", message.replace("by: rosa", "by: rosa (said by eve)")), ["other message"]),
            (Written("S", message.replace("\nBatch: 1\n", "\nBatch: 2\n")), ["other message"]),
        ):
            known = replace(known_of(told_of_landing()), written={MERGED: written})
            self.assertEqual(kinds_of(known), [("1", "landing", due)], written)
        told = Told()
        told.begin()
        told.approve(text="bors r=vera,rosa")
        told.landed(told.test())
        named = message.replace("Approved-by: rosa\n", "Approved-by: vera (said by rosa)\nApproved-by: rosa\n")
        self.assertEqual(kinds_of(replace(known_of(told), written={MERGED: Written("S", named)})), [("1", "landing", [])])

    def test_the_order_of_the_heads_counts(self):
        told = Told()
        told.begin(heads=[(1, HEAD), (2, OTHER)])
        told.approve(1)
        told.approve(2)
        told.landed(told.test(heads=[(2, OTHER), (1, HEAD)]))
        self.found(told, [], walk=(FIRST, LANDED._replace(parents=(BASE, OTHER, HEAD))))
        self.found(told, ["other parents"], walk=(FIRST, LANDED._replace(parents=(BASE, HEAD, OTHER))))

    def test_a_parent_that_is_named_twice(self):
        told = Told()
        told.begin(heads=[(1, HEAD), (2, HEAD), (3, BASE)])
        for change in (1, 2, 3):
            told.approve(change)
        told.landed(told.test(heads=[(1, HEAD), (2, HEAD), (3, BASE)]))
        self.found(told, [])

    def test_another_base(self):
        told = told_of_landing(base=NEXT)
        self.found(told, ["other base", "other parents"])

    def test_what_was_tested(self):
        success, failure = ("build", "success"), ("build", "failure")
        lint = ("lint", "success")
        for why, states, required, due in (
            ("all", [success, lint], None, []),
            ("none that is required", [("other", "success")], None, ["not tested"] * 2),
            ("one", [success], None, ["not tested"]),
            ("one that failed at last", [success, failure, lint], None, ["not tested"]),
            ("one that failed at first", [failure, success, lint], None, []),
            ("one that runs again", [success, ("build", "pending"), lint], None, ["not tested"]),
            ("what the settings of then require", [success], {"S": ["build"]}, []),
            ("settings that are refused", [success, lint], {"S": 2}, ["not tested"]),
            ("settings that nobody knows", [success, lint], {"T": []}, ["not tested"]),
        ):
            with self.subTest(why=why):
                self.found(told_of_landing(states=states), due, required=required)

    def test_a_status_before_the_staging_does_not_count(self):
        told = Told()
        told.begin()
        told.approve()
        told.tell("status", commit=MERGED, name="lint", state="success")
        told.landed(told.test(states=[("build", "success")]))
        self.found(told, ["not tested"])

    def test_the_settings_of_the_order_count(self):
        told = Told()
        told.begin()
        told.approve()
        told.tell("settings", text="T", replies=[DENIED])
        name = told.test()
        told.tell("settings", text="T")
        told.landed(name)
        self.found(told, [], required={**REQUIRED, "T": ["more"]})

    def test_another_commit_was_staged(self):
        told = Told()
        told.begin()
        told.approve()
        told.test(commit=OTHER)
        told.landed(f'{told.tell("status", land(), commit=MERGED, name="x", state="success")}.0')
        self.found(told, ["not tested"] * 3)

    def test_each_head_has_to_be_approved(self):
        told = Told()
        told.begin(heads=[(1, HEAD), (2, OTHER)])
        told.approve(2)
        told.landed(told.test(heads=[(1, HEAD), (2, OTHER)]))
        known = known_of(told, walk=(FIRST, LANDED._replace(parents=(BASE, HEAD, OTHER))))
        finding, = steps_of(known)[0].findings
        self.assertEqual(finding.kind, "not approved")
        self.assertIn("change 1 landed", finding.said)

    def test_an_approval_of_another_head_does_not_count(self):
        told = Told()
        told.begin()
        told.approve()
        told.landed(told.test(heads=[(1, OTHER)]))
        self.found(told, ["not approved"], walk=(FIRST, LANDED._replace(parents=(BASE, OTHER))))

    def test_an_order_that_was_not_done(self):
        told = Told()
        told.begin()
        told.approve()
        told.tell("refused", id=told.test(), batch=1)
        self.found(told, ["other report"])
        told = Told()
        told.begin()
        told.approve()
        told.test()
        told.tell("base", commit=NEXT)
        self.assertEqual(kinds_of(known_of(told))[0], ("1", "landing", ["other report"]))

    def test_two_orders_for_one_commit(self):
        """The one that was reported as done counts, whichever it is."""
        told = Told()
        told.begin()
        told.approve()
        told.tell("refused", id=told.test(), batch=1)
        told.landed(told.test(batch=2))
        told.tell("status", land(batch=2), commit=MERGED, name="build", state="success")
        self.assertEqual([(step.landing.land.batch, step.landing.name) for step in steps_of(known_of(told))], [(2, "status-13.0")])
        self.found(told, [])

    def test_what_has_landed_is_not_approved_any_more(self):
        told = told_of_landing()
        told.landed(told.test(batch=2, base=MERGED, commit=NEXT), NEXT)
        walk = (FIRST, LANDED, Commit(NEXT, TREE, (MERGED, HEAD)))
        known = known_of(told, walk, made={**MADE, NEXT: Remade(TREE)})
        self.assertEqual(kinds_of(known), [("1", "landing", []), ("d", "landing", ["not approved"])])

    def test_a_journal_that_ends_before_the_report(self):
        told = Told()
        told.begin()
        told.approve()
        told.test()
        self.found(told, [])

    def test_which_merges_are_made_again(self):
        story = known_of(told_of_landing()).story
        for start, due in ((None, [MERGED]), (BASE, [MERGED]), (MERGED, []), (NEXT, [])):
            self.assertEqual(list(to_be_made([FIRST, LANDED, PUSHED], story, start)), due)
        self.assertEqual(to_be_made([FIRST, LANDED._replace(parents=(BASE,))], story), {})


class MoveTests(unittest.TestCase):
    def moved(self, told, commit, person):
        fact = int(told.tell("base", commit=commit).split("-")[1])
        if person is not None:
            told.fact("MoverFound", move=fact, person=person, used=[])

    def test_who_moved_the_branch(self):
        for why, person, allowed, due in (
            ("somebody who may", "ines", (), ("d", "push", ["past the queue"])),
            ("somebody who is allowed", "Ines", ("ines",), ("d", "push", [])),
            ("somebody else", "otto", ("ines",), ("d", "push", ["past the queue"])),
            ("nobody who may", "", ("ines", ""), ("d", "stray", ["past the hook"])),
            ("nobody knows", None, ("ines",), ("d", "push", ["past the queue"])),
        ):
            with self.subTest(why=why):
                told = told_of_landing()
                self.moved(told, NEXT, person)
                self.assertEqual(kinds_of(known_of(told, (FIRST, LANDED, PUSHED), allowed=allowed)), [("1", "landing", []), due])

    def test_one_move_of_many_commits_is_one_finding(self):
        told = told_of_landing()
        self.moved(told, LAST.name, "ines")
        self.moved(told, "f" * 40, "")
        walk = (FIRST, LANDED, PUSHED, LAST, Commit("f" * 40, TREE, (LAST.name,)))
        due = [("1", "landing", []), ("d", "push", []), ("e", "push", ["past the queue"]), ("f", "stray", ["past the hook"])]
        self.assertEqual(kinds_of(known_of(told, walk)), due)

    def test_from_the_middle_of_a_move(self):
        told = told_of_landing()
        self.moved(told, LAST.name, "ines")
        known = known_of(told, (FIRST, LANDED, PUSHED, LAST))
        self.assertEqual(kinds_of(known, NEXT), [("e", "push", ["past the queue"])])

    def test_a_commit_that_was_brought_twice(self):
        told = told_of_landing()
        for commit, person in ((NEXT, "ines"), (MERGED, "otto"), (NEXT, "vera")):
            self.moved(told, commit, person)
        steps = steps_of(known_of(told, (FIRST, LANDED, PUSHED)))
        self.assertEqual([(step.move.person, step.is_step) for step in steps[1:]], [("ines", True), ("otto", False), ("vera", False)])

    def test_what_the_journal_does_not_have(self):
        self.assertEqual(kinds_of(known_of(told_of_landing(), (FIRST, LANDED, PUSHED)))[1], ("d", "no order", ["no order"]))
        told = told_of_landing()
        told.tell("base", id="status-9.0", commit=NEXT)
        step = steps_of(known_of(told, (FIRST, LANDED, PUSHED)))[1]
        self.assertEqual([it.said for it in step.findings], [f"{NEXT} was handed in as landed (status-9.0), and no order to land names it"])

    def test_what_is_lost(self):
        told = told_of_landing()
        self.moved(told, BASE, "ines")
        known = known_of(told, (FIRST,), allowed=("ines",))
        self.assertEqual([(step.commit, step.is_step) for step in steps_of(known)], [(BASE, False)])
        said = f"batch 1 landed as {MERGED} (status-8.0), and the history of the branch has that no more"
        self.assertEqual([it.said for it in lost(known)], [said])
        self.moved(told, NEXT, "")
        self.moved(told, BASE, "ines")
        known = known_of(told, (FIRST,))
        self.assertEqual([it.about for it in lost(known)], [MERGED, NEXT])
        self.assertEqual([kinds for _, _, kinds in kinds_of(known)], [["past the queue"], ["past the hook"], ["past the queue"]])

    def test_a_landing_that_somebody_else_told(self):
        told = Told()
        told.begin()
        told.approve()
        told.test()
        told.tell("base", commit=MERGED)
        self.assertEqual(kinds_of(known_of(told)), [("1", "landing", [])])

    def test_from_where_on(self):
        told = told_of_landing()
        self.moved(told, NEXT, "ines")
        self.moved(told, LAST.name, "")
        walk = (Commit("9" * 40, TREE, ()), FIRST, LANDED, PUSHED, LAST)
        known = known_of(told, walk)
        self.assertEqual([commit for commit, _, _ in kinds_of(known)], ["1", "d", "e"])
        for start, due in ((MERGED, ["d", "e"]), (NEXT, ["e"]), (LAST.name, []), (walk[0].name, ["0", "1", "d", "e"])):
            self.assertEqual([commit for commit, _, _ in kinds_of(known, start)], due)

    def test_what_was_lost_since(self):
        """Also if the branch came back to where it is looked at from."""
        told = told_of_landing()
        self.moved(told, LAST.name, "ines")
        self.moved(told, MERGED, "ines")
        self.moved(told, "9" * 40, "ines")
        walk = (FIRST, LANDED, Commit("8" * 40, TREE, (MERGED,)), Commit("9" * 40, TREE, ("8" * 40,)))
        known = known_of(told, walk)
        for start, due, gone in ((MERGED, [LAST.name], ["e", "1"]), ("8" * 40, [], []), ("9" * 40, [], [])):
            self.assertEqual([it.about for it in lost(known, start)], due)
            self.assertEqual([step.commit[0] for step in steps_of(known, start) if not step.is_step], gone)
        # What somebody has replaced who is allowed, and what hadn't landed, is told as that push alone.
        self.assertEqual(lost(known_of(told, walk, allowed=("ines",))), [])
        self.assertEqual([it.about for it in lost(known_of(told, walk, allowed=("otto",)))], [LAST.name])

    def test_a_first_base_that_is_not_there_any_more(self):
        known = known_of(told_of_landing(), (LANDED._replace(parents=()), PUSHED))
        self.assertEqual([it.about for it in lost(known)], [BASE])
        self.assertEqual(kinds_of(known), [("d", "no order", ["no order"])])
        self.assertEqual(kinds_of(known_of(Told(), (FIRST, LANDED))), [("1", "no order", ["no order"])])


class ShownTests(unittest.TestCase):
    def result(self):
        told = told_of_landing()
        fact = int(told.tell("base", commit=NEXT).split("-")[1])
        told.fact("MoverFound", move=fact, person="ines\x1b", used=[])
        known = known_of(told, (FIRST, LANDED, PUSHED))
        return Result("main", NEXT, len(told.facts), len(told.rows), len(told.rows), steps_of(known), lost(known))

    def test_the_text(self):
        lines = text_of_result(self.result()).splitlines()
        self.assertEqual(lines[0].split(), ["commit", "when", "what", "changes", "approved", "by", "statuses"])
        self.assertRegex(lines[1], r"^1111111111  1970-01-01 \d\d:\d\d:\d\d [+-]\d{4}  batch 1        1 aaaaaaa  rosa         build, lint$")
        self.assertRegex(lines[2], r"^dddddddddd  1970-01-01 \d\d:\d\d:\d\d [+-]\d{4}  push by ines\?  -          -            -$")
        self.assertTrue(lines[3].startswith("FINDING past the queue: the main branch was moved from 1111"), lines[3])
        self.assertEqual(lines[4], (
            f"2 steps of main up to {NEXT}: 1 landing with 1 change, 1 past the queue; 11 facts, 10 answers to 10 deliveries; 1 finding"
        ))

    def test_the_document(self):
        document = json.loads(json_of_result(self.result()))
        self.assertEqual(set(document), {"branch", "tip", "steps", "findings", "counts"})
        landing, push = document["steps"]
        self.assertEqual(landing, {
            "commit": MERGED, "kind": "landing", "at": 108, "is_step": True, "order": "status-8.0", "batch": 1, "base": BASE,
            "changes": [{"change": 1, "head": HEAD, "approved_by": ["rosa"], "said_by": "rosa", "delivery": "comment-4", "at": 104}],
            "statuses": {"build": "success", "lint": "success"},
        })
        self.assertEqual(push, {
            "commit": NEXT, "kind": "push", "at": 110, "is_step": True, "delivery": "base-10", "before": MERGED, "after": NEXT,
            "person": "ines\x1b",
        })
        self.assertEqual([(it["kind"], it["about"]) for it in document["findings"]], [("past the queue", NEXT)])
        counts = {"steps": 2, "landings": 1, "changes": 1, "pushes": 1, "facts": 11, "deliveries": 10, "answers": 10, "findings": 1}
        self.assertEqual(document["counts"], counts)

    def test_who_approved(self):
        told = Told()
        told.begin(heads=[(1, HEAD), (2, OTHER)])
        told.approve(1, "bors r=vera,milo")
        told.landed(told.test(heads=[(1, HEAD), (2, OTHER)], states=[("build", "success"), ("lint", "pending")]))
        known = known_of(told, walk=(FIRST, LANDED._replace(parents=(BASE, HEAD, OTHER))))
        line = text_of_result(Result("main", MERGED, 0, 0, 0, steps_of(known), [])).splitlines()[1]
        self.assertIn("1 aaaaaaa, 2 bbbbbbb  1: vera and milo (said by rosa), 2: nobody  build, lint pending", line)
        push = [replace(step, at=10 ** 20, is_step=False) for step in self.result().steps[1:]]
        self.assertIn("-     push by ines?, left no step", text_of_result(Result("main", NEXT, 0, 0, 0, push, [])))


if __name__ == "__main__":
    unittest.main()
