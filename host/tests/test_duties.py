"""Tests of what the bot says is to be done: how it is read, what of it comes next at each place of a story, and that nothing else is."""
import unittest

from playing import C, D, DENIED, DONE, E, BEFORE, LANDED, LANDING, MADE, ORDERED, STAGED, A, B, Play, open_in, stage, with_orders
from gate_host.core.duties import (
    Answered, Duties, Merge, Move, Point, ToLand, ToMerge, ToTest, answered_in, steps_of, tests_of,
)
from gate_host.core.facts import Conflicted, Delayed, Frozen, Merged, NotMoved, Pushed, Thawed, Ticked
from gate_host.core.known import Test
from gate_host.core.orders import Land, Unread

MERGE, TEST, LAND = '{"do":"merge","batch":5}', f'{{"do":"test","batch":5,"commit":"{C}"}}', (
    f'{{"do":"land","batch":5,"base":"{A}","commit":"{C}"}}')


def line_of(staging="null", trying="null", answer=DONE):
    return f'{{"answer":{answer},"staging":{staging},"trying":{trying}}}'


class ReaderTests(unittest.TestCase):
    def test_each_duty_is_read(self):
        for text, due in (("null", None), (MERGE, ToMerge(5)), (TEST, ToTest(5, C)), (LAND, ToLand(5, A, C))):
            self.assertEqual(answered_in(line_of(staging=text)), Answered(DONE, Duties(due, None)))
            if due != ToLand(5, A, C):
                self.assertEqual(answered_in(line_of(trying=text)).duties, Duties(None, due))

    def test_the_answer_is_as_it_stands_in_the_line(self):
        """Byte for byte, since the journal keeps it."""
        for answer in (
            "[]", DONE, DENIED, '[{"verdict":"done","orders":[]},{"orders":[],"verdict":"done"}]', '[ {"x" : "]},\\"\\u00e9é"} ]',
            '[{"staging":null,"trying":{"do":"merge","batch":1}}]', '["],\\"staging\\":null,\\"trying\\":null}"]',
        ):
            self.assertEqual(answered_in(line_of(MERGE, TEST, answer)), Answered(answer, Duties(ToMerge(5), ToTest(5, C))))

    def test_anything_else_is_refused(self):
        for line in (
            "", "[]", DONE, '{"error":"NotJson"}', line_of()[:-1], f"{line_of()}x", f" {line_of()}", line_of() * 2, line_of(answer="{}"),
            line_of(answer="null"), line_of(answer="x"), f'{{"answer":{DONE}}}', f'{{"answer":{DONE},"staging":null}}',
            f'{{"answer":{DONE} "staging":null,"trying":null}}', f'{{"answer":{DONE},"staging":null,"trying":null,"x":null}}',
            f'{{"answer":{DONE},"trying":null,"staging":null}}', f'{{"answer":{DONE},"staging": null,"trying":null}}', f"{line_of()}\n",
            f'{{"answer":{DONE},"staging":null,"staging":{MERGE},"trying":null}}', '{"answer":[],"answer":[],"staging":null,"trying":null}',
        ):
            with self.assertRaises(Unread, msg=line):
                answered_in(line)

    def test_a_duty_of_another_form_is_refused(self):
        for duty in (
            '""', "5", "[]", "{}", "Null", '{"do":"merge"}', '{"batch":5}', '{"batch":5,"do":"merge"}', MERGE.replace("5", '"5"'),
            MERGE.replace("5", "5.0"), MERGE.replace("5", "-5"), MERGE.replace("5", "0"), MERGE.replace("5", "05"),
            MERGE.replace("5", "true"), MERGE.replace(",", ", "), MERGE.replace("merge", "point"), MERGE.replace("5", f'5,"commit":"{C}"'),
            MERGE * 2, f"[{MERGE}]",
            MERGE.replace("}", ',"batch":6}'), '{"do":"test","batch":5}', TEST.replace(C, C[:-1]), TEST.replace(C, f"{C}c"),
            TEST.replace(C, C.upper()), TEST.replace(f'"{C}"', "5"), TEST.replace("test", "land"), TEST.replace('"commit"', '"base"'),
            LAND.replace(A, ""), LAND.replace(f'"{A}"', "null"), LAND.replace("land", "test"), LAND.replace(',"base"', ',"commit"'),
        ):
            for line in (line_of(staging=duty), line_of(trying=duty)):
                with self.assertRaises(Unread, msg=line):
                    answered_in(line)

    def test_nothing_lands_from_the_branch_of_tries(self):
        with self.assertRaises(Unread):
            answered_in(line_of(trying=LAND))


class StepTests(unittest.TestCase):
    def test_what_comes_next_at_each_place(self):
        """After each fact the host may have died. What it has to do then is what the bot says, by what was written down."""
        batch = Play(*ORDERED).known.batches["staging"]
        made = Play(*MADE).known.batches["staging"]
        tested = Test("staging", 1, C)
        for steps, duty, due, tests in (
            (BEFORE, None, [], []), (ORDERED, ToMerge(1), [Merge("tick-5.0", batch)], []),
            (MADE, ToMerge(1), [Point("tick-5.0", made)], []), (STAGED, ToTest(1, C), [], [tested]),
            (LANDING, ToLand(1, A, C), [Move("status-8.0", Land(1, A, C), made)], []), (LANDED, None, [], []),
            ([*LANDING, (NotMoved("status-8.0"), DONE)], None, [], []),
            ([*ORDERED, (Conflicted("tick-5.0", 7, "why"), DONE)], None, [], []),
            ([*ORDERED, (Delayed("tick-5.0", "why"),)], ToMerge(1), [Merge("tick-5.0", batch)], []),
        ):
            known, duties = Play(*steps).known, Duties(duty)
            self.assertEqual((open_in(known), steps_of(known, duties), tests_of(known, duties)), (duties, due, tests))

    def test_what_the_bot_has_put_back_is_not_done(self):
        """Although no later order for the branch has come."""
        for steps in (ORDERED, MADE, STAGED, LANDING):
            known = Play(*steps, (Pushed(7, D), DONE)).known
            self.assertNotEqual(open_in(known), Duties())
            self.assertEqual((steps_of(known, Duties()), tests_of(known, Duties())), ([], []))

    def test_each_branch_has_its_own(self):
        play = Play(*STAGED, (Ticked(60), with_orders(stage(2, heads=((8, D),)), stage(3, "trying", heads=((9, E),)))))
        duties = Duties(ToMerge(2), ToMerge(3))
        self.assertEqual([(it.order, it.batch.stage.batch) for it in steps_of(play.known, duties)], [("tick-8.0", 2), ("tick-8.1", 3)])
        self.assertEqual((play.known.tests, play.known.results), ({}, {}))
        play.add(Ticked(70), with_orders(stage(4, heads=((8, D),))))
        duties = Duties(ToMerge(4), ToMerge(3))
        self.assertEqual([it.batch.stage.batch for it in steps_of(play.known, duties)], [4, 3])
        # The merge of the batch before comes after that, and is nowhere.
        play.add(Merged("tick-8.0", C))
        self.assertEqual([type(it) for it in steps_of(play.known, duties)], [Merge, Merge])
        self.assertIn(C, play.known.made)

    def test_nothing_is_staged_while_the_queue_is_frozen(self):
        """What is tested goes on, and an order to land isn't held back."""
        for steps, duty, due in ((ORDERED, ToMerge(1), [Merge]), (MADE, ToMerge(1), [Point]), (LANDING, ToLand(1, A, C), [Move])):
            self.assertEqual([type(it) for it in steps_of(Play(*steps).known, Duties(duty))], due)
            frozen = Play(*steps, (Frozen("n7", "rosa", "a release."),))
            self.assertEqual([type(it) for it in steps_of(frozen.known, Duties(duty))], due if due == [Move] else [])
            frozen.known.learn(19, 0, Thawed("n8", "rosa"))
            self.assertEqual([type(it) for it in steps_of(frozen.known, Duties(duty))], due)
        frozen = Play(*STAGED, (Frozen("n7", "rosa", "a release."),))
        self.assertEqual(tests_of(frozen.known, Duties(ToTest(1, C))), [Test("staging", 1, C)])

    def test_what_does_not_fit_the_orders_is_refused(self):
        for steps, duties in (
            (BEFORE, Duties(ToMerge(1))), (ORDERED, Duties(ToMerge(2))), (ORDERED, Duties(None, ToMerge(1))), (STAGED, Duties(ToMerge(1))),
            (ORDERED, Duties(ToLand(1, A, C))), (STAGED, Duties(ToLand(1, A, C))), (LANDED, Duties(ToLand(1, A, C))),
            (LANDING, Duties(ToLand(2, A, C))), (LANDING, Duties(ToLand(1, B, C))), (LANDING, Duties(ToLand(1, A, D))),
        ):
            with self.assertRaises(Unread, msg=duties):
                steps_of(Play(*steps).known, duties)
        for steps, duties in (
            (BEFORE, Duties(ToTest(1, C))), (MADE, Duties(ToTest(1, C))), (STAGED, Duties(ToTest(2, C))), (STAGED, Duties(ToTest(1, D))),
            (STAGED, Duties(None, ToTest(1, C))),
        ):
            with self.assertRaises(Unread, msg=duties):
                tests_of(Play(*steps).known, duties)

    def test_an_order_to_land_another_commit_than_the_merge_is_refused(self):
        """Also if what is to be done is what was ordered."""
        for land in ({"batch": 1, "base": A, "commit": D}, {"batch": 1, "base": B, "commit": C}):
            known = Play(*LANDING[:-1], (LANDING[-1][0], with_orders({"order": "land", **land}))).known
            with self.assertRaises(Unread, msg=land):
                steps_of(known, Duties(ToLand(**land)))


if __name__ == "__main__":
    unittest.main()
