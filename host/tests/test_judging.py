"""How good estimates were, over deliveries and answers that are made by hand."""
import json
import sys
import unittest
from pathlib import Path

sys.path.insert(0, str(Path(__file__).resolve().parent.parent))

from gate_host.core.orders import answer_in  # noqa: E402
from gate_host.core.queue import QueuedBatch  # noqa: E402
from gate_host.judging import Judge, Judged  # noqa: E402
from playing import A, B, C, D, DONE, stage, with_orders  # noqa: E402


def batch(number, state, change):
    return QueuedBatch(number, "staging", state, 0, (change,))


class JudgeTests(unittest.TestCase):
    def judged(self, *steps):
        """Batch 1 takes 100 seconds. At 300 change 8 waits in batch 2, which is ordered at 310. So by one batch it is to land from 350 to
        500, and then from 360 to 510."""
        judge = Judge()
        begin = [
            (100, {"event": "tick", "now": 1}, ordered(1, 7, C), [batch(1, "ordered", 7)]), (200, {"event": "base", "commit": C}, DONE, []),
            (300, {"event": "comment", "change": 8, "text": "bors r+"}, DONE, [batch(2, "waiting", 8)]),
            (310, {"event": "tick", "now": 1}, ordered(2, 8, D), [batch(2, "ordered", 8)]),
        ]
        for at, body, answer, queue in [*begin, *steps]:
            judge.take(at, json.dumps({"id": "x", **body}), answer_in(answer), queue)
        return judge.judged

    def test_within_before_and_after(self):
        """None could be told of change 7."""
        for at, due in ((400, (2, 0, 0)), (355, (1, 1, 0)), (345, (0, 2, 0)), (505, (1, 0, 1)), (600, (0, 0, 2))):
            found = self.judged((at, {"event": "base", "commit": D}, DONE, []))
            self.assertEqual((found.within, found.before, found.after), due, at)
            self.assertEqual((found.landed, found.never, found.none), (2, 0, 1))
            self.assertEqual(found.lengths, [(150, at - 300), (150, at - 310)])

    def test_what_left_never_landed_by_that_approval(self):
        pushed = with_orders({"order": "notice", "change": 8, "why": "Pushed"})
        found = self.judged((320, {"event": "pushed", "change": 8}, pushed, []))
        self.assertEqual((found.landed, found.never), (0, 2))
        found = self.judged((320, {"event": "comment", "change": 8, "text": "bors r-"}, DONE, []))
        self.assertEqual((found.landed, found.never), (0, 2))

    def test_counts_are_added(self):
        one = Judged(1, 2, 3, 4, 5, [(1, 2)])
        one.add(Judged(10, 20, 30, 40, 50, [(3, 4)]))
        self.assertEqual(one, Judged(11, 22, 33, 44, 55, [(1, 2), (3, 4)]))


def ordered(number, change, commit):
    """A batch is ordered, and its landing at once."""
    return with_orders(stage(number, heads=[(change, B)]), {"order": "land", "batch": number, "base": A, "commit": commit})


if __name__ == "__main__":
    unittest.main()
