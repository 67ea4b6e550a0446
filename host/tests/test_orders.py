"""Tests of reading answers and orders."""
import unittest

from playing import A, B, C, DONE, DENIED, with_orders, stage, LAND, NOTICE
from gate_host.core.orders import answer_in, Denied, Done, Land, Notice, Stage, Unread


class OrderTests(unittest.TestCase):
    def test_answers(self):
        for text, due in (
            ("[]", ()), (DONE, (Done(),)), (DENIED, (Denied("NotPermitted", "ReviewerOrDelegate"),)),
            ('[{"number":11,"rule":"TooFewReviews","detail":[0,1],"verdict":"denied"}]', (Denied("TooFewReviews", (0, 1)),)),
            ('[{"number":20,"rule":"SameAsBase","verdict":"denied"}]', (Denied("SameAsBase"),)),
            (with_orders(stage(heads=((7, B), (8, C)))), (Done((Stage(1, "staging", A, ((7, B), (8, C))),)),)),
            (with_orders(LAND, NOTICE), (Done((Land(1, A, C), Notice(7, "Failed", "build"))),)),
            (with_orders({"order": "notice", "change": 7, "why": "Pushed"}), (Done((Notice(7, "Pushed"),)),)),
        ):
            self.assertEqual(answer_in(text), due, text)

    def test_what_is_no_answer(self):
        for text in (
            "", "{}", "[7]", '[{"verdict":"denied"}]', '[{"verdict":"done"}]', with_orders({"order": "dance"}), with_orders(7),
            with_orders({**LAND, "batch": "1"}), with_orders({**LAND, "batch": True}), with_orders({**LAND, "commit": 7}),
            with_orders({**stage(), "heads": [[7]]}), with_orders({**stage(), "heads": [["7", B]]}), with_orders({"order": "notice"}),
        ):
            with self.assertRaises(Unread, msg=text):
                answer_in(text)


if __name__ == "__main__":
    unittest.main()
