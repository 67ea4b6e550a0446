"""What other settings would have done, over journals with the answers of the built program. What is due is worked out by hand: the clock is
read a second after a batch has ended, and a batch is staged in the second of its order."""
import json
import sys
import unittest
from pathlib import Path

sys.path.insert(0, str(Path(__file__).resolve().parent.parent))

from gate_host.audit.entries import Journal  # noqa: E402
from gate_host.faults import Trouble  # noqa: E402
from gate_host.supposing.evidence import Basis  # noqa: E402
from gate_host.supposing.shown import json_of, text_of  # noqa: E402
from stand_in import is_built  # noqa: E402
from supposed import NEXT_BASE, SETTINGS, Days, head, landings, supposed  # noqa: E402

ONE = 'status = ["build"]\nmax_batch_size = 1\n'
FOUR = (1, 2, 3, 4)


def two_days():
    """Four changes land as one batch in 100 seconds, and a fifth one alone in 60."""
    days = Days(changes=(*FOUR, 5))
    days.approve(*FOUR)
    days.passes(1, 1010, 1110)
    days.at = 2000
    days.approve(5)
    days.passes(2, 2010, 2070)
    return days


def halved():
    """Of four changes the third one fails the build. The batch fails after 50 seconds, its halves are (1, 2) and (3, 4)."""
    days = Days(changes=FOUR)
    days.approve(*FOUR)
    days.fails(1, 1010, 1060)
    days.passes(2, 1061, 1161)
    days.fails(3, 1162, 1212)
    days.fails(4, 1213, 1263)
    days.passes(5, 1264, 1364)
    return days


class BroughtOver(Days):
    """A journal that was brought over from an earlier version: of its first nine deliveries it has neither facts nor times."""

    def journal(self):
        facts, rows = super().journal()
        return Journal(facts[9:], [row._replace(fact=row.fact if row.fact > 9 else 0) for row in rows])


@is_built
class PlayTests(unittest.TestCase):
    def test_the_same_settings_give_no_difference(self):
        for days in (two_days(), halved()):
            found = supposed(days, SETTINGS)
            self.assertEqual((found.differences, found.before, found.nearness.middle, found.nearness.most), ([], found.truly, 0, 0))
            self.assertEqual((found.after, found.nearness.alone), (found.truly, 0))
            self.assertNotIn(Basis.GUESSED, found.checks)

    def test_a_batch_for_each_change(self):
        """The build takes 100 seconds, the median of 60 and 100 from above. So the four land at 1110, 1211, 1312 and 1413, the first one as
        before. The fifth one's batch is the one that was tried."""
        found = supposed(two_days(), ONE)
        self.assertEqual(landings(found), {2: (1110, 1211, "INFERRED"), 3: (1110, 1312, "INFERRED"), 4: (1110, 1413, "INFERRED")})
        self.assertEqual((found.truly.batches, found.after.batches, found.truly.checks, found.after.checks), (2, 5, 2, 5))
        self.assertEqual((found.after.landed, found.replaced), (5, 1))
        self.assertEqual(found.checks, {Basis.KNOWN: 1, Basis.INFERRED: 4})

    def test_one_batch_for_what_was_tried_alone(self):
        """Under the journal's own settings each of four is a batch. The third one fails after 50 seconds, the others take 100. One
        batch of four fails after 50 seconds too, by inference, and goes on as in `halved`. That 3 and 4 merge is a guess."""
        days = Days(settings=ONE, changes=FOUR)
        days.approve(*FOUR)
        days.passes(1, 1010, 1110)
        days.passes(2, 1111, 1211)
        days.fails(3, 1212, 1262)
        days.passes(4, 1263, 1363)
        found = supposed(days, SETTINGS)
        self.assertEqual((found.truly.batches, found.after.batches, found.truly.found, found.after.found), (4, 5, 1, 1))
        self.assertEqual((found.truly.batches_of_found, found.after.batches_of_found), (100, 300))
        self.assertEqual(landings(found), {
            1: (1110, 1161, "GUESSED"), 2: (1211, 1161, "GUESSED"), 4: (1363, 1364, "GUESSED"),
        })
        self.assertEqual(found.found, [(3, "Failed, build", 3)])

    def test_a_smaller_batch_finds_a_failure_sooner(self):
        """A build that succeeds takes 100 seconds. One by one 1 and 2 land at 1110 and 1211, and 3 fails 50 seconds after 1212. The reading
        that the journal has at 1264 orders 4, which lands as it did."""
        found = supposed(halved(), ONE)
        self.assertEqual((found.truly.batches, found.after.batches), (5, 4))
        self.assertEqual((found.truly.batches_of_found, found.after.batches_of_found), (300, 100))
        self.assertEqual({it: at for it, (_, at, _) in landings(found).items()}, {1: 1110, 2: 1211})

    def test_a_check_that_never_ran_is_a_guess(self):
        found = supposed(two_days(), 'status = ["build", "lint"]\nmax_batch_size = 8\n')
        self.assertEqual(found.unseen, ("lint",))
        self.assertEqual((found.checks, found.after.landed), ({Basis.KNOWN: 2, Basis.GUESSED: 2}, 5))
        self.assertEqual((found.truly.checks, found.after.checks), (2, 4))
        self.assertIn("No check of this name ever had a verdict, so that it succeeds is a guess, and so is its time: lint.", text_of(found))

    def test_too_few_reviews(self):
        """Two have to review. Nobody did, so nothing is approved, and that is certain: by the program itself."""
        found = supposed(two_days(), 'status = ["build"]\nrequired_approvals = 2\n')
        self.assertEqual(landings(found), {it: (1110 if it < 5 else 2070, None, "KNOWN") for it in (*FOUR, 5)})
        self.assertEqual({it.why for it in found.differences}, {"it isn't approved (TooFewReviews)"})
        self.assertEqual((found.after.landed, found.after.batches), (0, 0))

    def test_a_shorter_time(self):
        """A batch has 30 seconds. The one that is staged at 1010 is over at the reading of 1040, which orders (1, 2). So each has three
        batches, and nothing lands. Readings come each 10 seconds, also after the end of the journal."""
        days = Days(changes=FOUR)
        days.approve(*FOUR)
        days.tick(1010)
        days.staged(1)
        for now in range(1020, 1110, 10):
            days.tick(now)
        days.status(1, 1110)
        days.landed(1)
        found = supposed(days, 'status = ["build"]\ntimeout_sec = 30\n')
        self.assertEqual((found.truly.landed, found.after.landed, found.after.batches), (4, 0, 7))
        self.assertEqual(found.found, [(change, "TimedOut", 3) for change in FOUR])

    def test_a_conflict_that_was_seen(self):
        """Change 2 doesn't merge after 1. Alone in a batch onto a base with 1 it conflicts too."""
        days = Days(changes=(1, 2))
        days.approve(1, 2)
        days.tick(1010)
        days.conflict(1, 2)
        days.passes(2, 1011, 1111)
        days.tick(1112)
        days.conflict(3, 2)
        found = supposed(days, ONE)
        self.assertEqual((found.truly.found, found.after.found, found.after.landed, found.after.batches), (1, 1, 1, 2))
        self.assertEqual(found.found, [(2, "Conflict", 1)])
        self.assertEqual(landings(found), {1: (1111, 1110, "KNOWN")})

    def test_a_push_in_the_middle(self):
        """Change 2 is pushed while it is tested with 1, which is staged again. The build takes 10 seconds. One by one 1 has landed by then,
        and 2 is pushed while it runs alone. It is approved anew, and its batch is the one that was tried."""
        days = Days(changes=(1, 2))
        days.approve(1, 2)
        days.tick(1010)
        days.staged(1)
        days.at = 1025
        days.tell("pushed", change=2, head=head(2, 1))
        days.passes(2, 1060, 1070)
        days.at = 1080
        days.approve(2)
        days.passes(3, 1090, 1100)
        found = supposed(days, ONE)
        self.assertEqual((found.truly.landed, found.after.landed), (2, 2))
        self.assertEqual({it: after for it, (_, after, _) in landings(found).items()}, {1: 1020})

    def test_the_main_branch_moves(self):
        """What runs is staged again, under both settings."""
        days = Days(changes=(1, 2))
        days.approve(1, 2)
        days.tick(1010)
        days.staged(1)
        days.at = 1030
        days.tell("base", commit=NEXT_BASE)
        days.passes(2, 1040, 1140)
        found = supposed(days, SETTINGS)
        self.assertEqual((found.differences, found.before, found.merges), ([], found.truly, {Basis.KNOWN: 2}))

    def test_what_happens_in_one_second_keeps_its_order(self):
        """A batch lands, the next one is ordered, and change 3 is approved in the second 1110, so it isn't in that one."""
        days = Days(changes=(1, 2, 3))
        days.approve(1)
        days.tick(1010)
        days.staged(1)
        days.approve(2)
        days.status(1, 1110)
        days.landed(1)
        days.tick(1110)
        days.staged(2)
        days.approve(3)
        days.status(2, 1210)
        days.landed(2)
        days.passes(3, 1211, 1300)
        found = supposed(days, SETTINGS)
        self.assertEqual((found.truly.batches, found.before, found.nearness.most), (3, found.truly, 0))

    def test_a_check_that_fails_by_chance_does_so_as_often_as_it_did(self):
        """The same batch fails the first time, and lands when it is approved again."""
        days = Days(changes=(1,))
        days.approve(1)
        days.fails(1, 1010, 1060)
        days.at = 1100
        days.approve(1)
        days.passes(2, 1110, 1210)
        found = supposed(days, SETTINGS)
        self.assertEqual((found.truly.landed, found.truly.found, found.before), (1, 1, found.truly))

    def test_what_has_no_time_comes_first(self):
        """Two approvals are among it, and nobody waits for them since 1970."""
        days = BroughtOver(changes=(1, 2, 3))
        days.approve(1, 2)
        days.passes(1, 1010, 1110)
        found = supposed(days, SETTINGS)
        self.assertEqual((found.differences, found.after, found.nearness.most), ([], found.truly, 0))

    def test_only_what_lands_from_a_time_on_is_told(self):
        self.assertEqual(sorted(landings(supposed(two_days(), ONE, "tick-14"))), [2, 3, 4])
        found = supposed(two_days(), ONE, "tick-19")
        self.assertEqual((found.differences, found.after.batches), ([], 5))
        self.assertEqual(sorted(landings(supposed(two_days(), ONE, "1970-01-01T00:00:00+00:00"))), [2, 3, 4])
        with self.assertRaisesRegex(Trouble, "^noon is neither a date, "):
            supposed(two_days(), ONE, "noon")

    def test_refused_settings_are_refused_by_the_words_of_the_bot(self):
        with self.assertRaisesRegex(Trouble, "^the bot refuses these settings: it has no key status"):
            supposed(two_days(), "max_batch_size = 1\n")

    def test_the_lines_and_the_document(self):
        found = supposed(two_days(), ONE)
        lines = text_of(found).splitlines()
        self.assertIn(["batches", "2", "2", "5"], [line.split() for line in lines])
        self.assertIn("3 changes land at another time, or not:", lines)
        self.assertRegex(lines[-1], r"^  inferred: change 4 lands 5 min 3 s later, at ")
        document = json.loads(json_of(found))
        self.assertEqual([it["change"] for it in document["differences"]], [2, 3, 4])
        self.assertEqual((document["checks"], document["differences"][0]["basis"]), ({"known": 1, "inferred": 4, "guessed": 0}, "inferred"))


if __name__ == "__main__":
    unittest.main()
