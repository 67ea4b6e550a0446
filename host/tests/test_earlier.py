"""All that is known can be written down as one fact, and read again."""
import unittest
from dataclasses import fields

from playing import A, B, C, DONE, LANDED, LANDING, ORDERED, STAGED, Play, said_by, stage, with_orders
from gate_host.core.earlier import restore, upgraded
from gate_host.core.facts import (
    fact_in, HeadDated, kind_of, Labeled, MainSeen, Merged, PushTold, Queued, Reported, Reviewed, RoleGiven, Staged, Ticked, written,
)
from gate_host.core.known import Known

# What may be forgotten: which batches have just ended, and which faults people were told of.
FORGOTTEN = {
    "ended", "faulted",
    # And what no earlier host knew.
    "at", "approved_at", "counts", "runs", "events", "freeze", "held", "doubts", "base_states", "broken",
}


class EarlierTests(unittest.TestCase):
    def test_what_is_known_comes_back(self):
        push = PushTold("n9", "ines", ((9, A), (9, B)), ((A, B),))
        seen = set()
        for steps in (
            [], LANDED, LANDING, ORDERED, [*LANDING, (push,), (MainSeen(B, None), DONE)],
            [*LANDING, (Ticked(60), with_orders(stage(2, "trying", heads=((8, C),)))), (Merged("tick-9.0", C),)],
            [*LANDED, (Queued(8, 3),), said_by(2, "rosa", "bors ping", DONE), (Labeled(9, "wip"), DONE), (HeadDated(7, C, 5),),
             (Reviewed(9, "rosa", C, True), DONE)], [*STAGED, (Reported("n", "ci", C, "lint", "error", ""), DONE)],
            [*STAGED, said_by(2, "rosa", "bors r-", DONE)],
        ):
            known = Play(*steps).known
            # A delivery that has no answer yet, of each kind.
            known.learn(98, 0, RoleGiven("otto", "member"))
            known.over = {it.stage.batch for it in known.batches.values()}
            for name in list(known.orders)[1:]:
                known.learn(99, 0, Staged(name))
            fact = upgraded(known)
            found = Known()
            restore(found, fact_in(kind_of(fact), written(fact)))
            for field in fields(Known):
                if field.name not in FORGOTTEN:
                    self.assertEqual(getattr(found, field.name), getattr(known, field.name), field.name)
                    seen |= {field.name} if getattr(known, field.name) else set()
        # Each field was there at some time.
        self.assertEqual({field.name for field in fields(Known)} - FORGOTTEN - seen, set())


if __name__ == "__main__":
    unittest.main()
