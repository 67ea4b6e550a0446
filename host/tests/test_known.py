"""Tests of what is known and open after some facts and answers, by tables of values."""
import unittest

from playing import (
    A, B, C, D, E, DONE, DENIED, with_orders, said_by, stage, LAND, NOTICE, Play, BEFORE, ORDERED, MADE, STAGED, LANDING, LANDED,
)
from gate_host.core import words
from gate_host.core.commands import Command, Kind
from gate_host.core.facts import (
    BaseEnded, Closed, Conflicted, Delayed, Doubted, Ended, Faulted, Frozen, HeadDated, kind_of, KINDS, Labeled, MainSeen, Merged, Moved,
    MoverFound, NotMoved, NotTaken, Opened, Pushed, PushesForgotten, PushTold, Queued, Reported, Reviewed, RoleGiven, Said, Staged, Thawed,
    Ticked, Unlabeled,
)
from gate_host.core.known import MOST_CLAIMS, MOST_TOLD_MOVES, Change, Landing, Member, People, Test
from gate_host.core.orders import Unread, answer_in

HELD = [*STAGED, (Frozen("n3", "rosa", "why"),), (Ended(1, "build", "success", "it ended", "x"),)]
DOUBTED = [*STAGED, (Doubted(1, "build", "failure", "it ended", "x"),)]


class KnownTests(unittest.TestCase):
    def test_what_is_tested(self):
        self.assertEqual(Play(*MADE).known.tests, {})
        self.assertEqual(Play(*STAGED).known.tests, {"staging": Test("staging", 1, C)})
        self.assertEqual(Play(*LANDING).known.results, {"staging": {"build": "success"}})
        denied = [*MADE, (Staged("tick-5.0"), '[{"number":19,"rule":"NoSuchBatch","verdict":"denied"}]')]
        self.assertEqual(Play(*denied).known.tests, {})

    def test_the_phases_of_changes(self):
        for steps, due in (
            (BEFORE, Change("open", B)), ([*BEFORE, (Closed(7), DONE)], Change("closed", B)), (LANDING, Change("open", B)),
            (LANDED, Change("landed", B)), ([*LANDED, (Pushed(7, D),)], Change("landed", D)),
            ([*LANDING, (Moved("status-8.0", "main"), '[{"number":20,"rule":"SameAsBase","verdict":"denied"}]')], Change("open", B)),
            ([*BEFORE, (Closed(7), DONE), (Opened(7, "vera", C), DONE)], Change("open", C)),
        ):
            self.assertEqual(Play(*steps).known.changes[7], due)

    def test_the_base_and_its_settings(self):
        for steps, due in (
            ([], ("", "", "")), (BEFORE, (A, A, "")), (LANDED, (C, A, "")), ([*LANDED, (MainSeen(C, "x"), DONE)], (C, C, "")),
            ([*BEFORE, (MainSeen(D, None), DONE)], (D, D, words.NO_SETTINGS)),
            ([*BEFORE, (MainSeen(A, "x"), DENIED)],
             (A, A, "gate: denied, that needs more rights than you have (NotPermitted, ReviewerOrDelegate)")),
        ):
            known = Play(*steps).known
            self.assertEqual((known.base, known.settings_of, known.refusal), due)

    def test_which_settings_were_told_and_which_taken(self):
        text = 'status = ["build"]\n'
        for steps, due in (
            ([], (None, "")), (BEFORE, (text, text)), ([*BEFORE, (MainSeen(A, "x"), DENIED)], ("x", text)),
            ([*BEFORE, (MainSeen(D, None), DONE)], (None, text)), ([*BEFORE, (MainSeen(D, "x"), DONE, DONE)], ("x", "x")),
        ):
            known = Play(*steps).known
            self.assertEqual((known.settings, known.taken), due)

    def test_who_has_approved(self):
        opened, said = BEFORE[:3], said_by
        approve, for_two = Command(Kind.APPROVE), Command(Kind.APPROVE_FOR, ("vera", "milo"))
        approved = [*opened, said(1, "rosa", "bors r+ p=2", DONE, DONE)]
        for steps, due in (
            (opened, People("ines")), (approved, People("ines", ("rosa",), "rosa", approve)),
            ([*opened, said(1, "rosa", "bors r=vera,@Milo", DONE)], People("ines", ("vera", "milo"), "rosa", for_two)),
            ([*approved, said(2, "otto", "bors r-", DONE)], People("ines", (), "", approve)),
            ([*approved, said(2, "otto", "bors r-", DENIED)], People("ines", ("rosa",), "rosa", approve)),
            ([*opened, said(1, "rosa", "bors r+", DENIED)], People("ines")),
            ([*approved, (Pushed(7, C), DONE)], People("ines", (), "", approve)),
            # Who says retry approves, but for the people who were named then.
            ([*approved, (Pushed(7, C), DONE), said(2, "otto", "bors retry", DONE)], People("ines", ("otto",), "otto", approve)),
            ([*opened, said(1, "rosa", "bors r=vera,milo", DONE), said(2, "otto", "bors r-\nbors retry", DONE, DONE)],
             People("ines", ("vera", "milo"), "otto", for_two)),
            ([*opened, said(1, "rosa", "bors ping\nbors r+", DONE, DENIED)], People("ines")),
            ([*opened, said(1, "milo", "bors try", DONE)], People("ines", (), "", Command(Kind.TRY))),
            # Nobody is named if it can't be told who approved.
            ([*approved, said(2, "otto", "bors ping", DONE, DONE)], People("ines", (), "", approve)),
            ([*approved, (Closed(7), DONE), (Opened(7, "vera", C), DONE)], People("vera", (), "", approve)),
        ):
            self.assertEqual(Play(*steps).known.people[7], due)

    def test_labels_and_reviews(self):
        labeled = [*BEFORE, (Labeled(7, "wip"), DONE), (Labeled(7, "b"), DONE)]
        for steps, due in ((BEFORE, {}), (labeled, {7: {"wip", "b"}}), ([*labeled, (Unlabeled(7, "b"), DONE)], {7: {"wip"}}),
                           ([*labeled, (Closed(7), DONE), (Opened(7, "vera", C), DONE)], {7: {"wip", "b"}})):
            self.assertEqual(Play(*steps).known.labels, due)
        opinions = (("rosa", True), ("milo", True), ("milo", False))
        reviewed = [*BEFORE, *((Reviewed(7, person, B, approves), DONE) for person, approves in opinions)]
        for steps, due in ((reviewed, {7: {"rosa": True, "milo": False}}), ([*reviewed, (Pushed(7, C), DONE)], {}),
                           ([*reviewed, (Closed(7), DONE), (Opened(7, "vera", B), DONE)], {})):
            self.assertEqual(Play(*steps).known.reviews, due)

    def test_what_has_landed(self):
        known = Play(*LANDED).known
        landing = Landing(1, A, C, (Member(7, B, "ines", ("rosa",), "rosa"),))
        self.assertEqual((known.landings, known.landing_of(7), known.landing_of(8)), ({C: landing}, landing, None))
        self.assertEqual(Play(*LANDING).known.landings, {})

    def test_the_members_of_a_try_need_no_approval(self):
        known = Play(*BEFORE, (Ticked(50), with_orders(stage(branch="trying")))).known
        self.assertEqual(known.batches["trying"].members, (Member(7, B, "ines"),))

    def test_a_report_counts_for_what_is_tested(self):
        began, failed = (Reported(f"n{it}", "ci", C, "lint", state, "see 7\x1b") for it, state in ((3, "pending"), (4, "error")))
        play = Play(*STAGED, (began, DONE), (failed, DONE))
        self.assertEqual(play.known.results, {"staging": {"lint": "error"}})
        self.assertEqual([it.text for it in play.told][-1], "The check lint of batch 1 (change 7) failed: as ci reports: see 7?.")
        self.assertEqual(len(play.told), len(Play(*STAGED).told) + 1)
        play = Play(*BEFORE, (Reported("n3", "ci", B, "format", "success", ""), DONE))
        self.assertEqual((play.known.results, len(play.told)), ({}, len(Play(*BEFORE).told)))

    def test_what_was_reported_of_a_head_is_news_again_once_it_is_tested_as_a_merge(self):
        # Somebody makes the merge a head before it is told that the batch is staged with it.
        reported = [*MADE, (Opened(8, "vera", C), DONE), (Reported("n3", "ci", C, "build", "success", ""), DONE)]
        self.assertEqual(Play(*reported).known.reported, {C: {"build": "success"}})
        self.assertEqual(Play(*reported, (Staged("tick-5.0"), DONE)).known.reported, {})

    def test_what_is_reported_of_a_head_is_news_again_once_a_change_has_left_it(self):
        reported = [*BEFORE, (Reported("n3", "ci", B, "format", "success", ""), DONE)]
        self.assertEqual(Play(*reported).known.reported, {B: {"format": "success"}})
        for left in (Closed(7), Pushed(7, C)):
            self.assertEqual(Play(*reported, (left, DONE)).known.reported, {}, left)
        self.assertEqual(Play(*reported, (Opened(8, "vera", B), DONE)).known.reported, {})

    def test_a_batch_that_is_over_hears_no_more_reports(self):
        late = Reported("n9", "ci", C, "lint", "failure", "late")
        denied = '[{"number":19,"rule":"NoSuchBatch","verdict":"denied"}]'
        for steps, is_over in (
            (STAGED, False), (LANDING, False), (LANDED, True), ([*LANDING, (NotMoved("status-8.0"), DONE)], True),
            ([*STAGED, (Ticked(90), with_orders({**NOTICE, "why": "TimedOut"}))], True),
            ([*STAGED, (Ended(1, "build", "failure", "it ended", "x"), with_orders(NOTICE))], True),
            # It may have failed a check that isn't required.
            ([*STAGED, (Ended(1, "other", "failure", "it ended", "x"), DONE)], False),
            ([*STAGED, (Ticked(90), with_orders({**NOTICE, "why": "TimedOut", "change": 9}))], False),
            ([*STAGED, (Ticked(90), with_orders({**NOTICE, "why": "TryFailed"}))], False),
        ):
            play = Play(*steps)
            self.assertEqual(play.known.changes_at(C), [] if is_over else [7], steps[-1])
            told = len(play.told)
            play.add(late, *([] if is_over else [denied]))
            self.assertEqual(len(play.told) - told, int(not is_over))

    def test_how_many_batches_have_ended(self):
        for steps, due in (
            (ORDERED, 0), (STAGED, 0), (LANDING, 0), (LANDED, 1), ([*LANDED, (Ticked(90), DONE)], 1),
            ([*LANDING, (NotMoved("status-8.0"), DONE)], 1), ([*ORDERED, (Conflicted("tick-5.0", 7, "why"), DONE)], 1),
            ([*STAGED, (Ended(1, "build", "failure", "it ended", "x"), DONE)], 1),
            ([*STAGED, (Ticked(90), with_orders({**NOTICE, "why": "TimedOut"}))], 1),
            ([*STAGED, (Ended(1, "build", "success", "it ended", "x"), with_orders({**NOTICE, "why": "TryPassed"}))], 1),
            # An approval that ends by a push is no batch that has ended, and neither is another base.
            ([*BEFORE, (Pushed(7, C), with_orders({**NOTICE, "why": "Pushed"}))], 0), ([*BEFORE, (MainSeen(D, None), DONE)], 0),
        ):
            self.assertEqual(Play(*steps).known.ended, due)

    def test_who_told_first_of_a_push_is_believed_and_what_came_before_is_dropped(self):
        told = [
            (PushTold("n1", "ines", ((1, A), (1, B)), ()),), (PushTold("n2", "otto", ((1, A), (1, C), (2, A)), ()),),
            (Opened(1, "ines", B), DONE),
        ]
        self.assertEqual(Play(*told[:2]).known.pusher(1, A), "ines")
        known = Play(*told).known
        self.assertEqual([known.pusher(1, it) for it in (A, B, C)], [None, None, "otto"])
        self.assertEqual(known.pusher(2, A), "otto")

    def test_what_one_person_tells_takes_no_room_of_others(self):
        many = range(MOST_CLAIMS)
        told = [
            (PushTold("n1", "ines", ((1, A),), ((A, B),)),), (PushTold("n2", "eve", tuple((change, D) for change in many), ()),),
            (PushTold("n3", "eve", ((7, E), (8, E)), tuple((C, f"{number:040x}") for number in range(2 * MOST_TOLD_MOVES))),),
        ]
        known = Play(*told).known
        self.assertEqual((known.pusher(1, A), known.pusher(0, D), known.pusher(1, D), known.pusher(2, D)), ("ines", None, None, "eve"))
        self.assertEqual((known.pusher(7, E), len(known.claims["eve"])), ("eve", MOST_CLAIMS))
        self.assertEqual(sum(map(len, known.pushers.values())), MOST_CLAIMS + 1)
        self.assertEqual((len(known.told_moves), (A, B, "ines") in known.told_moves), (MOST_TOLD_MOVES + 1, True))

    def test_what_becomes_of_an_order_that_is_not_open(self):
        """It changes nothing, but that a merge is one of the host's."""
        for steps, fact in (
            (STAGED, Merged("tick-5.0", D)), (ORDERED, Staged("tick-5.0")), (STAGED, Conflicted("tick-5.0", 7, "why")),
            (LANDED, NotMoved("status-8.0")), (LANDED, Moved("status-8.0", "main")), (STAGED, Delayed("tick-5.0", "why")),
        ):
            play = Play(*steps)
            before = Play(*steps).known
            before.made |= {D} if isinstance(fact, Merged) else set()
            self.assertEqual((play.known.learn(99, play.known.at, fact), play.known), ([], before), fact)

    def test_an_order_to_land_what_is_not_staged_is_refused(self):
        play = Play(*STAGED)
        play.known.learn(99, 0, Ended(1, "build", "success", "it ended", "x"))
        with self.assertRaises(Unread):
            play.known.hear(answer_in(with_orders({**LAND, "batch": 2})))

    def test_a_fact_whose_deliveries_have_no_answer_yet(self):
        """The host may have died there, behind any kind of fact. What it has to hand in first is a function of what was written down."""
        kinds = {"Upgraded"}
        for steps, fact, due in (
            (BEFORE[:1], MainSeen(A, "x"), ["base-2", "settings-2"]), (BEFORE[:2], Opened(7, "ines", B), ["opened-3"]),
            (BEFORE[:3], Said("n1", 7, "rosa", "bors r+"), ["comment-4"]), (BEFORE, Ticked(50), ["tick-5"]),
            (ORDERED, Merged("tick-5.0", C), []),
            (MADE, Staged("tick-5.0"), ["tick-5.0"]), (ORDERED, Conflicted("tick-5.0", 7, "why"), ["tick-5.0"]),
            (STAGED, Ended(1, "build", "success", "it ended", "x"), ["status-8"]), (LANDING, NotMoved("status-8.0"), ["status-8.0"]),
            (LANDING, Moved("status-8.0", "main"), ["status-8.0"]), (BEFORE, Pushed(7, C), ["pushed-5"]),
            (BEFORE, Closed(7), ["closed-5"]), (BEFORE, RoleGiven("otto", "member"), ["role-5"]),
            (STAGED, Faulted(1, "build", "why"), []), (ORDERED, Delayed("tick-5.0", "why"), []),
            (BEFORE, NotTaken("n4", 9, "rosa", "bors r+", "why"), []),
            (BEFORE, PushTold("n2", "ines", ((7, C),), ((A, B),)), []), (BEFORE, MoverFound(9, "ines"), []),
            (BEFORE, PushesForgotten(5), []), (BEFORE, Queued(7, 1), []), (BEFORE, HeadDated(7, B, 5), []),
            (BEFORE, Labeled(7, "wip"), ["labeled-5"]),
            (BEFORE, Unlabeled(7, "wip"), ["unlabeled-5"]), (BEFORE, Reviewed(7, "rosa", B, False), ["review-5"]),
            (STAGED, Reported("n3", "ci", C, "lint", "success", ""), ["status-8"]),
            (STAGED, Reported("n3", "ci", D, "lint", "success", ""), []),
            (BEFORE, Reported("n3", "ci", B, "lint", "pending", ""), ["status-5"]),
            (BEFORE, Frozen("n3", "rosa", "why"), []), (HELD, Thawed("n4", "rosa"), ["status-9"]),
            (STAGED, Doubted(1, "build", "failure", "it ended", "x"), []),
            (DOUBTED, BaseEnded(1, "build", "success", "it ended", "x"), ["status-9"]),
        ):
            kinds.add(kind_of(fact))
            play = Play(*steps)
            play.known.learn(play.number + 1, 0, fact)
            self.assertEqual([it.id for it in play.known.waiting], due)
            # An order that this settles isn't open while its report has no answer.
            self.assertNotIn(getattr(fact, "order", "") if due else "", play.known.orders)
        self.assertEqual(kinds, set(KINDS))


if __name__ == "__main__":
    unittest.main()
