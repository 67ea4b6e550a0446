"""How long batches took, by hand-made deliveries and answers; and what the host knows of it by its journal."""
import json
import sys
import unittest
from pathlib import Path

sys.path.insert(0, str(Path(__file__).resolve().parent.parent))

from gate_host.core.durations import KEPT, Ending, Run, Runs, outcomes_of  # noqa: E402
from gate_host.core.orders import answer_in  # noqa: E402
from playing import A, B, C, D, DENIED, DONE, LANDED, LANDING, ORDERED, STAGED, Play, stage, with_orders  # noqa: E402


def tick(now, *orders):
    return {"event": "tick", "now": now}, with_orders(*orders)


def notice(change, why):
    return {"order": "notice", "change": change, "why": why}


def land(batch=1, commit=C):
    return {"order": "land", "batch": batch, "base": A, "commit": commit}


def batch(number, *changes, **more):
    return stage(number, heads=[(it, B) for it in changes], **more)


def runs_of(*steps):
    """What is known after these steps, of which each has a time, a delivery and its answer."""
    runs = Runs()
    for at, (body, answer) in steps:
        runs.take(at, json.dumps({"id": "x", **body}), answer_in(answer))
    return runs


def status(state="success", commit=C, *orders):
    return {"event": "status", "commit": commit, "name": "build", "state": state}, with_orders(*orders)


STAGED_AS_C = {"event": "staged", "batch": 1, "commit": C}, DONE
LANDS = {"event": "base", "commit": C}, DONE
OTHER_BASE = {"event": "base", "commit": D}, DONE
TWO = [(100, tick(5, batch(1, 7, 8))), (110, STAGED_AS_C)]
ONE = [(100, tick(5, batch(1, 7))), (110, STAGED_AS_C)]


def said(text, change=7, replies=DONE):
    return {"event": "comment", "change": change, "person": "rosa", "text": text}, replies


class RunTests(unittest.TestCase):
    def test_how_a_batch_ends(self):
        """Each with the time at which it ended, how, and who left."""
        failed, to_land = status("failure"), status("success", C, land())
        next_batch = (200, tick(9, batch(2, 7)))
        for steps, due in (
            ([*TWO, (150, to_land), (160, LANDS)], (160, Ending.LANDED, ())),
            ([*TWO, (150, to_land), (160, OTHER_BASE)], (160, Ending.CUT, ())),
            ([*TWO, (150, to_land), (160, ({"event": "refused", "batch": 1}, DONE))], (160, Ending.CUT, ())),
            ([*TWO, (150, OTHER_BASE)], (150, Ending.CUT, ())),
            ([*TWO, (150, ({"event": "base", "commit": D}, DENIED))], (None, None, ())),
            ([TWO[0], (120, ({"event": "conflict", "batch": 1}, DONE))], (120, Ending.FAILED, ())),
            # Of several the bot says nothing: the next order shows that it failed, and by what.
            ([*TWO, (150, failed)], (None, None, ())),
            ([*TWO, (150, failed), (151, failed), next_batch], (150, Ending.FAILED, ())),
            ([*TWO, (150, failed), (160, tick(8)), next_batch], (200, Ending.FAILED, ())),
            ([*TWO, (150, status("failure", D)), next_batch], (200, Ending.FAILED, ())),
            ([*TWO, next_batch], (200, Ending.FAILED, ())),
            ([*TWO, (150, ({"event": "settings", "text": "x"}, DONE)), next_batch], (150, Ending.CUT, ())),
            ([*TWO, (150, ({"event": "settings", "text": "x"}, DONE)), (160, tick(8)), next_batch], (200, Ending.FAILED, ())),
            ([*TWO, (150, said("bors p=3")), next_batch], (150, Ending.CUT, ())),
            ([*TWO, (150, said("bors p=3", 9)), next_batch], (200, Ending.FAILED, ())),
            ([*TWO, (150, said("bors r-"))], (150, Ending.CUT, (7,))),
            ([*TWO, (150, said("bors r-", 9))], (None, None, ())),
            ([*TWO, (150, said("bors r-", 7, DENIED))], (None, None, ())),
            ([*TWO, (150, ({"event": "pushed", "change": 8, "head": D}, with_orders(notice(8, "Pushed"))))], (150, Ending.CUT, (8,))),
            ([*TWO, (150, to_land), (155, ({"event": "closed", "change": 8}, with_orders(notice(8, "Closed")))), (160, LANDS)],
             (160, Ending.LANDED, ())),
            ([*TWO, (150, ({"event": "pushed", "change": 8, "head": D}, with_orders(notice(8, "TryFailed"))))], (None, None, ())),
            ([*ONE, (150, status("failure", C, notice(7, "Failed")))], (150, Ending.FAILED, (7,))),
            ([*ONE, (150, tick(9, notice(7, "TimedOut")))], (150, Ending.FAILED, (7,))),
        ):
            run = runs_of(*steps).last[0]
            self.assertEqual((run.ended, run.ending, run.left), due, steps)
            self.assertEqual((run.batch, run.ordered), (1, 100))

    def test_a_try_is_none(self):
        runs = runs_of(*TWO, (120, tick(6, batch(2, 9, branch="trying"))), (130, ({"event": "staged", "batch": 2, "commit": D}, DONE)))
        self.assertEqual([(run.batch, run.staged, run.ended) for run in runs.last], [(1, 110, None)])

    def test_which_is_fresh(self):
        """A half isn't, and what is staged again isn't. A change that left and was approved again is."""
        failed = [*TWO, (150, status("failure"))]
        runs = runs_of(*failed, (200, tick(9, batch(2, 7))), (210, ({"event": "conflict", "batch": 2}, with_orders(notice(7, "Conflict")))))
        self.assertEqual([run.is_fresh for run in runs.last], [True, False])
        self.assertEqual([runs.is_fresh(changes) for changes in ((7,), (8,), (9,), (8, 9))], [True, False, True, False])
        runs = runs_of(*TWO, (150, OTHER_BASE))
        self.assertFalse(runs.is_fresh((7, 8)))
        # One that leaves while its half waits comes back as a fresh one.
        runs = runs_of(*TWO, (150, OTHER_BASE), (160, ({"event": "closed", "change": 8}, with_orders(notice(8, "Closed")))))
        self.assertEqual([runs.is_fresh(changes) for changes in ((7,), (8,))], [False, True])

    def test_the_last_ones_are_kept(self):
        runs = runs_of(*[(number, tick(number, batch(number, number))) for number in range(1, KEPT + 12)])
        self.assertEqual([runs.last[0].batch, runs.last[-1].batch, len(runs.last)], [12, KEPT + 11, KEPT])

    def test_the_pause_between_readings(self):
        for nows, due in (((), 0), ((5,), 0), ((5, 15), 10), ((5, 5, 15, 25, 900, 910), 10), ((1, 2, 3, 60), 1)):
            self.assertEqual(runs_of(*[(now, tick(now)) for now in nows]).pause(), due)


def run(batch, changes, ordered, ended, ending, left=(), is_fresh=True):
    return Run(batch, changes, is_fresh, ordered, ordered, ended, ending, left)


class OutcomeTests(unittest.TestCase):
    def test_what_a_batch_has_led_to(self):
        """Batch 1 fails after 60 seconds. Change 7 lands by its half at 200, and change 8 fails alone at 260. Batch 4 is cut off at 320 and
        lands at 400 as batch 5. Batch 6 fails, and what becomes of its halves isn't known yet."""
        found = outcomes_of([
            run(1, (7, 8), 100, 160, Ending.FAILED), run(2, (7,), 160, 200, Ending.LANDED, (), False),
            run(3, (8,), 200, 260, Ending.FAILED, (8,), False), run(4, (9,), 300, 320, Ending.CUT),
            run(5, (9,), 330, 400, Ending.LANDED, (), False), run(6, (1, 2), 400, 450, Ending.FAILED),
            run(7, (1,), 450, None, None, (), False),
        ])
        self.assertEqual([(it.run.batch, it.landed, it.over) for it in found], [
            (1, (100,), 160), (2, (40,), 40), (3, (), 60), (4, (100,), 100), (5, (70,), 70), (6, (), None),
        ])

    def test_a_change_that_left_has_not_landed_by_that_batch(self):
        """It was approved again, and landed by another one."""
        found = outcomes_of([run(1, (7, 8), 100, 120, Ending.CUT, (8,)), run(2, (7,), 130, 170, Ending.LANDED, (), False),
                             run(3, (8,), 500, 540, Ending.LANDED)])
        self.assertEqual([(it.landed, it.over) for it in found], [((70,), 70), ((40,), 40), ((40,), 40)])


class KnownTests(unittest.TestCase):
    def test_the_host_knows_it_by_the_times_of_its_facts(self):
        """The n-th fact of a play is written down at n + 100."""
        for steps, due in (
            (ORDERED, Run(1, (7,), True, 105)), (STAGED, Run(1, (7,), True, 105, 107)),
            (LANDING, Run(1, (7,), True, 105, 107)), (LANDED, Run(1, (7,), True, 105, 107, 109, Ending.LANDED)),
        ):
            self.assertEqual(Play(*steps).known.runs.last, [due])


if __name__ == "__main__":
    unittest.main()
