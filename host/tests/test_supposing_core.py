"""What decides in a what-if touches nothing; and what a history tells of a batch, by trials that are made by hand."""
import sys
import unittest
from pathlib import Path

sys.path.insert(0, str(Path(__file__).resolve().parent.parent))

from gate_host.core.orders import answer_in  # noqa: E402
from gate_host.supposing.compared import differences_of, nearness_of  # noqa: E402
from gate_host.supposing.evidence import NEVER, Basis, Check, Evidence, middle  # noqa: E402
from gate_host.supposing.history import Content, Trial, Verdict  # noqa: E402
from gate_host.supposing.shown import length  # noqa: E402
from gate_host.supposing.tally import Found, Landed, Tally  # noqa: E402
from gate_host.supposing.world import Guesses, Played  # noqa: E402
from playing import A, C, D, DENIED, DONE, stage, with_orders  # noqa: E402
from test_audit_core import PACKAGE, imported_by  # noqa: E402

DECIDING = ("history", "evidence", "tally", "world", "compared", "shown")
HARMLESS = {"dataclasses", "enum", "hashlib", "heapq", "json", "typing"}
OF_AUDIT, OF_EXPLAINING = {"entries", "shown"}, {"events", "courses"}
KNOWN, INFERRED, GUESSED = Basis
ROOT = Content("r")


class ImportTests(unittest.TestCase):
    def test_what_decides_touches_nothing(self):
        there = {path.stem for path in (PACKAGE / "supposing").glob("*.py")}
        self.assertEqual(there, {*DECIDING, "__init__", "asking"})
        for name in DECIDING:
            own, others = imported_by(PACKAGE / "supposing" / f"{name}.py")
            self.assertLessEqual(others, HARMLESS, name)
            for folder, module in {(module.parent.resolve().name, module.name) for module in own}:
                is_harmless = folder == "core" or folder == "supposing" and module in DECIDING
                is_harmless |= folder == "audit" and module in OF_AUDIT or folder == "explaining" and module in OF_EXPLAINING
                self.assertTrue(is_harmless, (name, folder, module))


def heads(*changes):
    return tuple((change, f"h{change}") for change in changes)


def onto(*changes, outside="r"):
    return Content(outside, frozenset(heads(*changes)))


def passed(content, of, after=100, name="build"):
    return Trial(content, of, 1, verdicts={name: Verdict("success", after)}, lasted=after)


def failed(content, of, after=50, name="build"):
    return Trial(content, of, 1, verdicts={name: Verdict("failure", after)}, lasted=after)


def late(content, of, lasted=600):
    return Trial(content, of, 1, lasted=lasted, has_timed_out=True)


def conflict(content, of, culprit=0):
    return Trial(content, of, conflict=2, culprit=culprit)


class MergeTests(unittest.TestCase):
    def merge(self, trials, content, of, time=0):
        found = Evidence(trials).merge_of(content, of, time)
        return found.is_clean, found.after, found.basis

    def test_exactly_this_batch(self):
        for trials, due in (
            ([passed(ROOT, heads(1))], (True, 1, KNOWN)), ([conflict(ROOT, heads(1))], (False, 2, KNOWN)), ([], (True, 0, GUESSED)),
            # Another order of the heads, and another commit of the main branch, are others.
            ([passed(onto(outside="s"), heads(1))], (True, 1, INFERRED)),
        ):
            self.assertEqual(self.merge(trials, ROOT, heads(1)), due)

    def test_what_was_seen_together_merges(self):
        trials = [passed(ROOT, heads(1, 2)), passed(onto(1, 2), heads(3))]
        for content, of, due in (
            (ROOT, heads(1), INFERRED), (onto(1), heads(2), INFERRED), (ROOT, heads(1, 2, 3), INFERRED), (ROOT, heads(2, 3), INFERRED),
            (ROOT, heads(1, 4), GUESSED), (ROOT, ((1, "other"),), GUESSED),
        ):
            self.assertEqual(self.merge(trials, content, of), (True, 1, due), of)

    def test_two_that_were_seen_to_conflict(self):
        """3 doesn't merge with 1 or 2. It merged with 2 alone, so it is 1."""
        trials = [conflict(ROOT, heads(1, 2, 3), 3), passed(ROOT, heads(2, 3))]
        for content, of, due in (
            (ROOT, heads(3, 1), False), (onto(1), heads(3), False), (onto(3), heads(1), False), (ROOT, heads(3, 2), True),
            (onto(1, 3), heads(2), True),
        ):
            self.assertEqual(self.merge(trials, content, of)[0], due, (content, of))

    def test_without_a_name_it_may_be_any_of_them(self):
        trials = [conflict(ROOT, heads(1, 2, 3))]
        self.assertEqual(self.merge(trials, ROOT, heads(1, 2))[0], True)
        self.assertEqual(self.merge(trials, onto(3), heads(1, 2)), (False, 2, INFERRED))

    def test_the_same_batch_again(self):
        trials = [conflict(ROOT, heads(1)), passed(ROOT, heads(1))]
        self.assertEqual([self.merge(trials, ROOT, heads(1), time)[0] for time in (0, 1, 2)], [False, True, True])


class CheckTests(unittest.TestCase):
    def check(self, trials, content, of, name="build"):
        found = Evidence(trials).check_of(name, content, of)
        return found.state, found.after, found.basis

    def test_what_a_history_tells(self):
        for trials, content, of, due in (
            ([failed(ROOT, heads(1), 70)], ROOT, heads(1), ("failure", 70, KNOWN)),
            # A head that failed fails with others, and onto others.
            ([failed(ROOT, heads(1)), passed(ROOT, heads(2))], ROOT, heads(2, 1), ("failure", 50, INFERRED)),
            ([failed(ROOT, heads(1)), passed(ROOT, heads(2))], onto(2), heads(1), ("failure", 50, INFERRED)),
            # So do two that failed together, but not one of them.
            ([failed(ROOT, heads(1, 2)), passed(ROOT, heads(3))], ROOT, heads(1, 2, 3), ("failure", 50, INFERRED)),
            ([failed(ROOT, heads(1, 2)), passed(ROOT, heads(3))], onto(2), heads(1), ("failure", 50, INFERRED)),
            ([failed(ROOT, heads(1, 2)), passed(ROOT, heads(3))], ROOT, heads(1), ("success", 100, GUESSED)),
            # What succeeded since doesn't fail any more.
            ([failed(ROOT, heads(1)), passed(onto(2), heads(1))], ROOT, heads(1, 3), ("success", 100, GUESSED)),
            ([passed(onto(2), heads(1)), failed(ROOT, heads(1))], ROOT, heads(1, 3), ("failure", 50, INFERRED)),
            # Parts of what succeeded succeed, after the median.
            ([passed(ROOT, heads(1, 2), 90), passed(onto(1, 2), heads(3), 300), passed(onto(1), heads(4), 100)], ROOT, heads(2, 3),
             ("success", 100, INFERRED)),
            # How long a failure took says nothing of a success.
            ([failed(ROOT, heads(1), 300), passed(ROOT, heads(2), 100)], ROOT, heads(3), ("success", 100, GUESSED)),
            # Other heads are a guess, and so is a check that was never seen.
            ([passed(ROOT, heads(1))], ROOT, heads(2), ("success", 100, GUESSED)),
            ([passed(ROOT, heads(1), name="lint")], ROOT, heads(1), ("success", 100, GUESSED)),
            ([], ROOT, heads(1), ("success", 0, GUESSED)),
            # What never ended never ends, unless it succeeded since.
            ([late(ROOT, heads(1)), passed(ROOT, heads(2))], ROOT, heads(1, 2), (NEVER, 600, INFERRED)),
            ([late(ROOT, heads(1)), passed(onto(2), heads(1))], onto(3), heads(1), ("success", 100, INFERRED)),
            # One that was stopped takes longer than it had.
            ([Trial(ROOT, heads(1), 1, lasted=130), passed(onto(2), heads(1))], ROOT, heads(1), ("success", 131, INFERRED)),
        ):
            self.assertEqual(self.check(trials, content, of), due, (trials, content, of))

    def test_whether_a_check_was_ever_seen(self):
        found = Evidence([passed(ROOT, heads(1))])
        self.assertEqual(found.check_of("lint", ROOT, heads(1)), Check("lint", "success", 100, GUESSED, True))
        self.assertFalse(found.check_of("build", ROOT, heads(2)).is_unseen)

    def test_the_median(self):
        self.assertEqual([middle(it) for it in ((), (3,), (1, 9), (5, 1, 3))], [None, 3, 9, 3])


class TallyTests(unittest.TestCase):
    def tally(self, *steps):
        tally = Tally()
        for at, body, answer in steps:
            tally.take(at, body, answer_in(answer))
        return tally

    def test_a_landing(self):
        land = {"order": "land", "batch": 1, "base": A, "commit": C}
        comment = {"event": "comment", "change": 7, "person": "rosa", "text": "bors r+"}
        tally = self.tally(
            (10, comment, DONE), (20, {"event": "tick", "now": 5}, with_orders(stage())), (21, {"event": "staged", "commit": C}, DONE),
            (30, {"event": "status", "commit": D, "state": "success"}, DONE),
            (31, {"event": "status", "commit": C, "state": "pending"}, DONE),
            (40, {"event": "status", "commit": C, "state": "success"}, with_orders(land)), (41, {"event": "base", "commit": C}, DONE),
        )
        self.assertEqual((tally.landed, tally.batches, tally.checks, tally.is_busy), ({7: Landed(41, 1, KNOWN)}, 1, 1, False))
        self.assertEqual(tally.since, {7: 10})

    def test_who_is_at_fault_and_who_left(self):
        comment = {"event": "comment", "change": 7, "person": "rosa", "text": "bors r+"}
        failed = {"order": "notice", "change": 7, "why": "Failed", "name": "build"}
        begin = [(10, comment, DONE), (20, {"event": "tick"}, with_orders(stage()))]
        tally = self.tally(*begin, (30, {"event": "status", "commit": C}, with_orders(failed)))
        self.assertEqual((tally.found, tally.ends, tally.is_busy),
                         ([Found(7, 30, "Failed, build", 1)], {7: "leaves the queue (Failed, build)"}, False))
        pushed = {"order": "notice", "change": 7, "why": "Pushed"}
        tally = self.tally(*begin, (30, {"event": "pushed"}, with_orders(pushed)))
        self.assertEqual((tally.found, tally.ends), ([], {7: "leaves the queue (Pushed)"}))
        tally = self.tally((10, comment, DENIED))
        self.assertEqual((tally.ends, tally.is_busy), ({7: "isn't approved (NotPermitted)"}, False))

    def test_a_try_is_busy_too(self):
        tried = {"event": "comment", "change": 7, "person": "milo", "text": "bors try"}
        self.assertTrue(self.tally((10, tried, DONE)).is_busy)
        passed_try = {"order": "notice", "change": 7, "why": "TryPassed"}
        tally = self.tally((10, tried, DONE), (20, {"event": "status"}, with_orders(passed_try)))
        self.assertEqual((tally.is_busy, tally.ends), (False, {}))


def played(landed, waiting=(), ends=()):
    tally = Tally({change: Landed(at, 1, basis) for change, (at, basis) in landed.items()}, ends=dict(ends))
    tally.basis = {change: basis for change, (_, basis) in landed.items()}
    return Played(tally, Guesses(), tuple(waiting), 0)


class ComparedTests(unittest.TestCase):
    def test_the_surest_come_first(self):
        before = played({1: (10, KNOWN), 2: (10, KNOWN), 3: (10, KNOWN), 4: (10, KNOWN), 6: (10, KNOWN)})
        after = played({1: (10, GUESSED), 2: (50, GUESSED), 3: (60, INFERRED), 5: (70, KNOWN)}, [4], {6: "leaves the queue (Failed)"})
        found = differences_of(before.tally, before, after)
        self.assertEqual([(it.change, it.before, it.after, it.why, it.basis, it.truly) for it in found], [
            (6, 10, None, "it leaves the queue (Failed)", KNOWN, 10), (5, None, 70, "", KNOWN, None), (3, 10, 60, "", INFERRED, 10),
            (4, 10, None, "it still waits at the end", GUESSED, 10), (2, 10, 50, "", GUESSED, 10),
        ])

    def test_how_near_a_play_is(self):
        truly, again = played({1: (10, KNOWN), 2: (20, KNOWN), 3: (30, KNOWN), 4: (4, KNOWN)}).tally, played({
            1: (10, KNOWN), 2: (25, KNOWN), 3: (22, KNOWN), 5: (9, KNOWN)}).tally
        found = nearness_of(truly, again)
        self.assertEqual((found.both, found.alone, found.middle, found.most), (3, 2, 5, 8))

    def test_lengths_of_time(self):
        self.assertEqual([length(it) for it in (0, 119, 120, 7199, 7200)], ["0 s", "119 s", "2 min 0 s", "119 min 59 s", "2 h 0 min"])


if __name__ == "__main__":
    unittest.main()
