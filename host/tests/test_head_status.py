"""Tests of what is said of how a change stands, after some facts and answers."""
import unittest

from playing import A, B, BEFORE, C, DENIED, DONE, LANDED, LANDING, ORDERED, STAGED, Play, said_by, stage, with_orders
from gate_host.core.facts import Closed, Ended, Labeled, Opened, Pushed, Said, Ticked
from gate_host.core.head_status import Place, HeadStatus, head_status_of

D, E = "d" * 40, "e" * 40
LONG = "x" * 200


def notice(why, **more):
    return with_orders({"order": "notice", "change": 7, "why": why, **more})


def failed(name):
    return (Ended(1, name, "failure", "it ended", "x"), notice("Failed", name=name))


class HeadStatusTests(unittest.TestCase):
    def test_how_a_change_stands(self):
        waits, runs = Place(3, "waiting", 2), Place(1, "staged", 1)
        closed = (Closed(7), notice("Closed"))
        for steps, place, due in (
            (BEFORE[:3], None, None),
            (BEFORE, waits, HeadStatus(B, "pending", "waiting: place 2 of the queue, in batch 3")),
            (ORDERED, Place(1, "ordered", 1), HeadStatus(B, "pending", "about to be tested, with batch 1")),
            (STAGED, runs, HeadStatus(B, "pending", "being tested as ccccccc, with batch 1", C)),
            (LANDING, Place(1, "landing", 1), HeadStatus(B, "pending", "landing as ccccccc, with batch 1", C)),
            (LANDED, None, HeadStatus(B, "success", "landed as ccccccc, with batch 1", C)),
            # What is pushed later doesn't land.
            ([*LANDED, (Pushed(7, D),)], None, HeadStatus(B, "success", "landed as ccccccc, with batch 1", C)),
            ([*STAGED, failed("build")], None, HeadStatus(B, "failure", "not landed: it fails the check build", C)),
            ([*STAGED, failed(LONG)], None, HeadStatus(B, "failure", f"not landed: it fails the check {LONG}"[:140], C)),
            ([*STAGED, (Pushed(7, D), notice("Pushed"))], None, HeadStatus(D, "failure", "not landed: it was pushed", C)),
            ([*BEFORE, closed], None, HeadStatus(B, "failure", "not landed: it is no open change any more")),
            ([*BEFORE, closed, (Opened(7, "ines", B), DONE)], None, HeadStatus(B, "failure", "not landed: it is no open change any more")),
            ([*BEFORE, closed, (Opened(7, "ines", D), DONE)], None, None),
            ([*BEFORE, (Labeled(7, "wip"), notice("Labeled"))],
             None, HeadStatus(B, "failure", "not landed: it has a label that blocks it")),
            ([*BEFORE, said_by(2, "rosa", "bors r-", DONE)], None, HeadStatus(B, "failure", "not landed: its approval was taken back")),
            ([*BEFORE, said_by(2, "rosa", "bors r-", DENIED)],
             waits, HeadStatus(B, "pending", "waiting: place 2 of the queue, in batch 3")),
            # What is approved again is on its way again, and what was pushed after a failure has no outcome yet.
            ([*STAGED, failed("build"), said_by(2, "rosa", "bors retry", DONE)], None, None),
            ([*STAGED, failed("build"), (Pushed(7, D), DONE)], None, None),
            # Of a try nothing is said.
            ([*BEFORE[:3], (Said("n1", 7, "rosa", "bors try"), DONE), (Pushed(7, D), notice("Pushed"))], None, None),
            ([*BEFORE, (Ticked(9), notice("TryFailed"))], waits, HeadStatus(B, "pending", "waiting: place 2 of the queue, in batch 3")),
        ):
            known = Play(*steps).known
            self.assertEqual(head_status_of(known, {7: place} if place else {}, 7), due, steps[-1])

    def test_a_batch_that_is_halved_is_no_end(self):
        halves = with_orders(stage(batch=2, heads=((7, B),)))
        play = Play(*BEFORE, (Opened(8, "otto", E), DONE), (Said("n2", 8, "rosa", "bors r+"), DONE),
                    (Ticked(50), with_orders(stage(heads=((7, B), (8, E))))), (Ticked(99), halves))
        self.assertEqual((play.known.approved, play.known.ends), ({7, 8}, {}))
        self.assertIsNone(head_status_of(play.known, {}, 8))

    def test_which_texts_alter_often(self):
        self.assertEqual([HeadStatus(A, "pending", text).is_waiting for text in ("waiting: place 1", "being tested")], [True, False])


if __name__ == "__main__":
    unittest.main()
