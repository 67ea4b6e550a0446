"""Tests of what is made of a look at the branches, by tables of values."""
import unittest
from dataclasses import astuple, replace

from playing import A, B, C, D, E, DONE, Play, BEFORE, ORDERED, MADE, STAGED, LANDED
from gate_host.core import watching
from gate_host.core.facts import (
    Closed, HeadDated, Labeled, MainSeen, MoverFound, Opened, Pushed, PushesForgotten, PushTold, Queued, Reported, Reviewed, RoleGiven,
    Unlabeled,
)
from gate_host.core.known import Change
from gate_host.core.notes import Report
from gate_host.core.watching import Watch


class WatchTests(unittest.TestCase):
    def test_roles(self):
        known = Play(*BEFORE).known
        for roles, due in (
            ({"rosa": "reviewer"}, []), ({"rosa": "member"}, [RoleGiven("rosa", "member")]), ({}, [RoleGiven("rosa", "nobody")]),
            ({"rosa": "reviewer", "otto": "member"}, [RoleGiven("otto", "member")]),
        ):
            self.assertEqual(watching.news_of_roles(known, roles), due)
        known.roles["rosa"] = "nobody"
        self.assertEqual(watching.news_of_roles(known, {}), [])

    def test_the_main_branch(self):
        for steps, commit, due in (([], A, True), (BEFORE, A, False), (BEFORE, B, True), (LANDED, C, True)):
            self.assertEqual(watching.is_news_of_main(Play(*steps).known, commit), due)

    def test_heads(self):
        closed = [*BEFORE, (Closed(7), DONE)]
        for steps, heads, due in (
            (BEFORE, {7: B}, []), (BEFORE, {7: C}, [Pushed(7, C)]), (BEFORE, {}, [Closed(7)]),
            (LANDED, {7: B}, []), (LANDED, {7: D}, [Pushed(7, D)]), (LANDED, {}, []), (closed, {}, []),
            (closed, {7: C}, ["new"]), (BEFORE, {7: B, 9: C}, ["new"]),
        ):
            known = Play(*steps).known
            found = [watching.news_of_head(known, *it) or ("new" if watching.is_new(known, it[0]) else None) for it in heads.items()]
            self.assertEqual([it for it in found if it] + watching.gone(known, heads), due, heads)

    def test_which_head_the_writer_of_a_comment_has_seen(self):
        dated = [*BEFORE, (HeadDated(7, B, 50),)]
        again = [*dated, (Closed(7), DONE), (Opened(7, "ines", B), DONE)]
        for steps, written, due in (
            (BEFORE, 60, ""), (dated, 51, B), (dated, 50, ""), ([*dated, (Pushed(7, C), DONE)], 60, ""),
            # While it was closed, it may have been at other heads.
            (again, 60, ""), ([*again, (HeadDated(7, B, 70),)], 60, ""), ([*again, (HeadDated(7, B, 70),)], 71, B),
        ):
            self.assertEqual(watching.seen_by(Play(*steps).known, 7, written), due, (len(steps), written))

    def test_a_head_that_was_moved_by_force_is_dated_anew(self):
        known = Play(*BEFORE, (HeadDated(7, B, 50),)).known
        for head, forced, due in ((B, 0, False), (B, 49, False), (B, 55, False), (B, 56, True), (C, 0, True)):
            self.assertEqual(watching.has_to_be_dated(known, 7, head, forced), due, (head, forced))

    def test_a_push_of_many_is_opened_by_and_by(self):
        watch, known, heads = Watch(3), Play(*BEFORE).known, {7: C, **{number: A for number in range(100, 220)}}
        self.assertEqual(sorted(watch.pick(known, heads)), [7, *range(100, 150)])
        self.assertTrue(watch.is_awaited(150))
        for number in range(100, 150):
            known.changes[number] = Change("open", A)
        # One that came later waits behind those that wait.
        self.assertEqual(sorted(watch.pick(known, {**heads, 50: A}))[:1] + watch.later[-1:], [7, 50])
        self.assertFalse(watch.is_awaited(150))

    def test_the_author_is_who_told_or_in_the_end_the_owner(self):
        known = Play(*BEFORE, (PushTold("n2", "otto", ((8, C),), ()),)).known
        watch = Watch(3, rounds=5)
        self.assertEqual(watch.author(known, 8, C, "owner", False), "otto")
        self.assertIsNone(watch.author(known, 9, C, "owner", False))
        self.assertTrue(watch.is_awaited(9))
        watch.rounds = 6
        self.assertIsNone(watch.author(known, 9, C, "owner", True))
        self.assertEqual(watch.author(known, 9, C, "owner", False), "owner")
        self.assertFalse(watch.is_awaited(9))
        self.assertIsNone(watch.author(known, 9, D, "owner", True))
        watch.rounds = 9
        self.assertEqual(watch.author(known, 9, D, "owner", True), "owner")

    def test_who_moved_the_main_branch(self):
        told = ((A, B, "ines"), (B, C, "ines"), (A, D, "eve"), (D, B, "eve"), (C, C, "ines"))
        pushes = PushTold("n", "ines", (), tuple(it[:2] for it in told if it[2] == "ines"))
        others = PushTold("m", "eve", (), tuple(it[:2] for it in told if it[2] == "eve"))
        for before, after, due in (
            (A, B, ("ines", (B,))), (A, C, ("ines", (B, C))), (A, D, ("", ())), (D, B, ("", ())), (D, C, ("", ())), (B, A, ("", ())),
        ):
            play = Play((MainSeen(before, "x"), DONE, DONE), (MainSeen(after, "x"), DONE, DONE), (pushes,), (others,))
            move, = play.known.unknown_moves()
            found = watching.mover_of(play.known, move, {"ines"})
            self.assertEqual((found.person, found.used), due)
            play.add(found)
            self.assertEqual([it.target for it in play.known.strays()], [] if due[0] else [after])
            # What was told counts once.
            self.assertFalse([target for _, target, _ in play.known.told_moves if target in found.used])

    def test_a_move_is_looked_into_a_round_later(self):
        known, watch = Play((MainSeen(A, "x"), DONE, DONE), (MainSeen(B, "x"), DONE, DONE)).known, Watch(3, rounds=5)
        watch.note_moves(known)
        self.assertIsNone(watch.next_mover(known, {"ines"}, False))
        watch.rounds = 6
        self.assertIsNone(watch.next_mover(known, {"ines"}, True))
        self.assertEqual(watch.next_mover(known, {"ines"}, False), MoverFound(2, ""))

    def test_what_is_told_of_a_push_excuses_one_move(self):
        play = Play(*((MainSeen(it, "x"), DONE, DONE) for it in (A, B, A, B)), (PushTold("n", "ines", (), ((A, B),)),))
        watch = Watch(3, rounds=5)
        watch.note_moves(play.known)
        watch.rounds, found = 7, []
        while watch.next_mover(play.known, {"ines"}, False):
            found.append(watch.next_mover(play.known, {"ines"}, False))
            play.add(found[-1])
        self.assertEqual([it.person for it in found], ["ines", "", ""])

    def test_a_reviewer_may_put_a_history_in_the_place_of_the_first_commit(self):
        told = PushTold("n", "rosa", (), ((A, B),)), PushTold("m", "eve", (), ((A, C),))
        for first, role, target, due in ((A, "reviewer", B, "rosa"), ("", "reviewer", B, ""), (D, "reviewer", B, ""), (A, "member", B, ""),
                                         (A, "reviewer", C, "")):
            play = Play((RoleGiven("rosa", role), DONE), *((MainSeen(it, "x"), DONE, DONE) for it in (A, target)), *((it,) for it in told))
            move, = play.known.unknown_moves()
            self.assertEqual(watching.mover_of(play.known, move, {"ines"}, first).person, due)

    def test_which_reports_count(self):
        known = Play(*STAGED).known
        report = Report("n", "ci", C, "tests", "success", "")
        reporters = {"tests": {"ci"}, "build": {"ci"}}
        for given, due in (
            (report, ""), (replace(report, person="eve"), "isn't named as a reporter"), (replace(report, name="lint"), "isn't named"),
            (replace(report, name="build"), "has a command of its own"), (replace(report, commit=E), "neither tested now nor the head"),
            # Of the head of a change the host tests nothing.
            (replace(report, name="build", commit=B), ""),
        ):
            found = watching.report_of(known, given, {"build"}, reporters)
            self.assertEqual(found if not due else due in found, Reported(*astuple(given)) if not due else True, given)

    def test_of_a_merge_the_host_alone_reports_what_it_tests_also_when_the_batch_is_over(self):
        known = Play(*LANDED, (Opened(8, "vera", C), DONE)).known
        report = Report("n", "ci", C, "build", "success", "")
        found = watching.report_of(known, report, {"build"}, {"build": {"ci"}})
        self.assertIn("for which the host has a command of its own", found)

    def test_which_commit_is_about_to_be_tested(self):
        for steps, due in ((ORDERED, False), (MADE, True), (STAGED, False), (LANDED, False)):
            self.assertEqual(watching.is_about_to_be_tested(Play(*steps).known, C), due)

    def test_labels(self):
        play = Play(*BEFORE)
        for labels, due in (
            (["wip", "b"], [Labeled(7, "b"), Labeled(7, "wip")]), (["wip", "b"], []),
            (["c", "wip"], [Labeled(7, "c"), Unlabeled(7, "b")]), ([], [Unlabeled(7, "c"), Unlabeled(7, "wip")]),
        ):
            found = watching.news_of_labels(play.known, 7, labels)
            self.assertEqual(found, due)
            for it in found:
                play.add(it, DONE)

    def test_reviews(self):
        play = Play(*BEFORE, (RoleGiven("milo", "member"), DONE))
        for reviews, due in (
            ({"rosa": True, "ines": True, "eve": True, "milo": False}, [Reviewed(7, "rosa", B, True)]), ({"rosa": True}, []),
            ({"rosa": False, "milo": True}, [Reviewed(7, "milo", B, True), Reviewed(7, "rosa", B, False)]),
            ({"rosa": False}, [Reviewed(7, "milo", B, False)]), ({}, []),
        ):
            found = watching.news_of_reviews(play.known, 7, reviews)
            self.assertEqual(found, due)
            for it in found:
                play.add(it, DONE)
        play = Play(*BEFORE, (Reviewed(7, "rosa", B, True), DONE), (Pushed(7, C), DONE))
        self.assertEqual(watching.news_of_reviews(play.known, 7, {}), [])
        self.assertEqual(watching.news_of_reviews(play.known, 7, {"rosa": True}), [Reviewed(7, "rosa", C, True)])

    def test_in_which_batch_a_change_waits_is_told_once(self):
        play = Play(*BEFORE)
        for waiting, due in (({7: 3}, [Queued(7, 3)]), ({7: 3}, []), ({}, []), ({7: 4, 8: 4}, [Queued(7, 4), Queued(8, 4)])):
            found = watching.news_of_queue(play.known, waiting)
            self.assertEqual(found, due)
            for it in found:
                play.add(it)
        self.assertEqual([it for it in play.told if it.change == 7][-2:], [(7, "It waits in batch 3."), (7, "It waits in batch 4.")])

    def test_what_is_never_reported(self):
        self.assertEqual(watching.never_reported(["a", "b", "c"], {"a": "make"}, {"c": {"ci"}}), ["b"])

    def test_branches_that_landings_have_left(self):
        known = Play(*LANDED).known
        for heads, due in (({7: B, 8: B}, {7: B}), ({7: C}, {}), ({}, {}), ({8: B}, {})):
            self.assertEqual(watching.left_by_landings(known, heads), due)

    def test_only_the_owner_accepts_a_move(self):
        play = Play((MainSeen(A, "x"), DONE, DONE), (MainSeen(B, "x"), DONE, DONE), (MoverFound(2, ""),))
        for commit, person, due in ((B, "owner", [MoverFound(2, "owner")]), (A, "owner", []), (B, "eve", [])):
            self.assertEqual(watching.accepted(play.known, commit, person, "owner"), due)
        play.add(MoverFound(2, "owner"))
        self.assertEqual(play.known.moves, {})

    def test_what_was_told_of_pushes_counts_not_for_long(self):
        play = Play((PushTold("n", "ines", (), ((A, B),)),))
        self.assertIsNone(watching.old_pushes(play.known, 100))
        self.assertEqual(watching.old_pushes(play.known, 101), PushesForgotten(101))
        play.add(PushesForgotten(100))
        self.assertEqual(len(play.known.told_moves), 1)
        play.add(PushesForgotten(101))
        self.assertEqual(play.known.told_moves, {})

    def test_free_numbers(self):
        for taken, due in ((set(), 1), ({1, 2, 4}, 3), ({4294967295}, 1), ({2}, 1)):
            self.assertEqual(watching.free_number(taken), due)


if __name__ == "__main__":
    unittest.main()
