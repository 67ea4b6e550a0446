"""Tests of what facts tell the bot, and people, by tables of values."""
import json
import unittest

from playing import A, B, C, D, DONE, DENIED, with_orders, NOTICE, Play, BEFORE, ORDERED, MADE, STAGED, LANDING, LANDED
from gate_host.core.deliveries import touched
from gate_host.core.facts import (
    Closed, Conflicted, Delayed, Ended, Faulted, MainSeen, Merged, Moved, MoverFound, NotMoved, Pushed, PushesForgotten, PushTold,
    Said, Staged,
)
from gate_host.core.known import Change
from gate_host.core.orders import Land, Notice, Stage


class ToldTests(unittest.TestCase):
    def lines(self, *steps):
        return [json.loads(line) for line in Play(*steps).lines]

    def test_what_each_fact_tells_the_bot(self):
        self.assertEqual(self.lines(*LANDED), [
            {"id": "role-1", "event": "role", "person": "rosa", "role": "reviewer"},
            {"id": "base-2", "event": "base", "commit": A},
            {"id": "settings-2", "event": "settings", "text": 'status = ["build"]\n'},
            {"id": "opened-3", "event": "opened", "change": 7, "author": "ines", "head": B},
            {"id": "comment-4", "event": "comment", "change": 7, "person": "rosa", "text": "bors r+"},
            {"id": "tick-5", "event": "tick", "now": 50},
            {"id": "tick-5.0", "event": "staged", "batch": 1, "commit": C},
            {"id": "status-8", "event": "status", "commit": C, "name": "build", "state": "success"},
            {"id": "status-8.0", "event": "base", "commit": C},
        ])

    def test_what_else_is_told(self):
        for steps, due in (
            ([*BEFORE, (Pushed(7, C), DONE)], {"id": "pushed-5", "event": "pushed", "change": 7, "head": C}),
            ([*BEFORE, (Closed(7), DONE)], {"id": "closed-5", "event": "closed", "change": 7}),
            ([*ORDERED, (Conflicted("tick-5.0", 7, "why"), DONE)], {"id": "tick-5.0", "event": "conflict", "batch": 1}),
            ([*LANDING, (NotMoved("status-8.0"), DONE)], {"id": "status-8.0", "event": "refused", "batch": 1}),
            ([*BEFORE, (MainSeen(A, "other"), DONE)], {"id": "settings-5", "event": "settings", "text": "other"}),
            ([*BEFORE, (MainSeen(D, None), DONE)], {"id": "base-5", "event": "base", "commit": D}),
            # What the report of a landing has told isn't told again.
            ([*LANDED, (MainSeen(C, "other"), DONE)], {"id": "settings-10", "event": "settings", "text": "other"}),
            ([*BEFORE, (Said("n2", 7, "eve", "so\nbors r+\nBORS: try\nborst"), DONE)],
             {"id": "comment-5", "event": "comment", "change": 7, "person": "eve", "text": "bors r+\nBORS: try"}),
        ):
            self.assertEqual(self.lines(*steps)[-1], due)

    def test_what_tells_the_bot_nothing(self):
        for before, fact in (
            (BEFORE, Said("n2", 7, "eve", "good")), (BEFORE, Said("n2", 7, "eve", "bors r+", A)),
            (BEFORE, PushTold("n2", "ines", ((7, B),), ())), (BEFORE, PushesForgotten(5)), (BEFORE, MoverFound(9, "ines")),
            (LANDED, Pushed(7, D)), (ORDERED, Merged("tick-5.0", C)), (ORDERED, Delayed("tick-5.0", "why")),
            # A merge that isn't made is nowhere; an order that isn't open has no report, and a check of another batch no status.
            (ORDERED, Staged("tick-5.0")), (BEFORE, Conflicted("tick-5.0", 7, "why")), (BEFORE, Moved("status-8.0", "main")),
            (STAGED, Staged("tick-5.0")), (LANDED, Moved("status-8.0", "main")), (LANDED, NotMoved("status-8.0")),
            (MADE, Ended(1, "build", "success", "it ended", "x")), (STAGED, Ended(2, "build", "success", "it ended", "x")),
        ):
            Play(*before, (fact,))

    def test_people_are_told(self):
        play = Play(*LANDED)
        self.assertEqual([it.change for it in play.told], [7] * len(play.told))
        self.assertEqual([it.text for it in play.told], [
            "rosa wrote:\n> bors r+", "gate: approved at bbbbbbb",
            "Batch 1 (change 7) is merged onto aaaaaaa as ccccccc, which is tested now.",
            "The check build of batch 1 (change 7) succeeded: it ended.\noutput: 1-0-build",
            f"Landed on main as {C}, with change 7. Approved by rosa.",
        ])
        for steps, due in (
            ([*BEFORE, (Said("n2", 7, "eve", "bors r+"), DENIED)],
             ["eve wrote:\n> bors r+", "gate: denied, that needs more rights than you have (NotPermitted, ReviewerOrDelegate)"]),
            ([*BEFORE, (Said("n2", 7, "eve", "bors r+", A),)],
             ["eve wrote:\n> bors r+", f"Not taken: it was about {A}, and the change is at {B} now. Look at that first."]),
            ([*BEFORE, (Said("n2", 7, "eve", "bors r+", B, False),)],
             ["eve wrote:\n> bors r+", f"Not taken: {B} can't be read whole in the repository. Push it again, or push another commit."]),
            ([*ORDERED, (Conflicted("tick-5.0", 7, "both change x"), with_orders(NOTICE))],
             ["Batch 1 (change 7) can't be merged. Change 7 doesn't: both change x.",
              "The approval or the try has ended (Failed): it fails the check build. Mend it, push, and have it approved again; or have it "
              "retried by bors retry."]),
            ([*ORDERED, (Delayed("tick-5.0", "no disk"),)], ["Batch 1 (change 7) can't be staged yet, for a reason of the host: no disk"]),
            ([*STAGED, (Faulted(1, "build", "it was killed"),), (Faulted(1, "build", "it was killed"),)],
             ["The check build of batch 1 (change 7) has come to no verdict, by a fault of the host, and is tried again: it was killed."]),
            ([*LANDED, (Pushed(7, D),)], [f"Change 7 has landed, and {D} won't. Push it as another change."]),
        ):
            self.assertEqual([it.text for it in Play(*steps).told[-len(due):]], due)

    def test_which_changes_an_answer_is_about(self):
        play = Play(*STAGED)
        play.known.learn(99, 0, Ended(1, "build", "failure", "it ended", "x"))
        delivery = play.known.waiting[0]
        self.assertEqual(touched(delivery, [], play.known), [7])
        orders = [Stage(2, "staging", A, ((9, B), (3, C))), Notice(5, "Failed"), Land(1, A, C)]
        self.assertEqual(touched(delivery, orders, play.known), [3, 5, 7, 9])
        play.known.changes.update({20: Change("open", B), 21: Change("closed", B)})
        play.known.learn(100, 0, MainSeen(D, "x"))
        base, settings = play.known.waiting[1:]
        self.assertEqual([touched(it, [], play.known) for it in (base, settings)], [[], [7, 20]])


if __name__ == "__main__":
    unittest.main()
