"""Tests of writing and reading facts."""
import unittest

from playing import A, B, C
from gate_host.core.facts import (
    BaseEnded, Closed, Conflicted, Delayed, Doubted, Ended, fact_in, Faulted, Frozen, HeadDated, kind_of, KINDS, Labeled, MainSeen, Merged,
    Moved, MoverFound, NotMoved, NotTaken, Opened, Pushed, PushesForgotten, PushTold, Queued, Reported, Reviewed, RoleGiven, Said, Staged,
    Thawed, Ticked, Unlabeled, Upgraded, written,
)
from gate_host.core.orders import Unread


class FactTests(unittest.TestCase):
    def test_each_kind_is_read_as_it_was_written(self):
        facts = [
            RoleGiven("rosa", "member"), MainSeen(A, "x\u2028\n"), MainSeen(A, None), Opened(7, "ines", B), Pushed(7, C), Closed(7),
            Said("n", 7, "rosa", "bors r+", "", False), NotTaken("n", 7, "rosa", "bors r+", "why"),
            PushTold("n", "ines", ((7, B),), ((A, C),)), MoverFound(3, "", (A, B)),
            PushesForgotten(9), Merged("tick-1.0", C), Conflicted("tick-1.0", 7, "why"), Delayed("tick-1.0", "why"), Staged("tick-1.0"),
            Ended(1, "build", "error", "said", "1-0-build"), Faulted(1, "build", "said"), Moved("status-1.0", "main"),
            NotMoved("status-1.0"),
            Reported("n", "ci", C, "tests", "pending", "at 7"), Queued(7, 3),
            Doubted(1, "build", "failure", "said", "1-0-build"), BaseEnded(1, "build", "success", "said", "1-0-build-on-main"),
            Frozen("n", "rosa", "why"), Thawed("n", "rosa"),
            HeadDated(7, B, 5), Labeled(7, "wip"), Unlabeled(7, "wip"), Reviewed(7, "rosa", B, True), Ticked(5), Upgraded("{}"),
        ]
        self.assertEqual({kind_of(fact) for fact in facts}, set(KINDS))
        for fact in facts:
            self.assertEqual(fact_in(kind_of(fact), written(fact)), fact)

    def test_what_is_no_fact(self):
        for kind, body in (("Danced", "{}"), ("Ticked", "{}"), ("Ticked", "[]"), ("Ticked", '{"now":1,"then":2}')):
            with self.assertRaises(Unread, msg=(kind, body)):
                fact_in(kind, body)


if __name__ == "__main__":
    unittest.main()
