"""Tests of the words for people."""
import unittest

from playing import B, C, DENIED, DONE, BEFORE, Play, said_by
from gate_host.core import words
from gate_host.core.commands import commands_in
from gate_host.core.known import Batch, Landing, Member
from gate_host.core.orders import Denied, Done, Notice, Stage

ONE, TWO = Stage(1, "staging", C, ((7, B),)), Stage(2, "staging", C, ((7, B), (8, C)))


class WordTests(unittest.TestCase):
    def test_replies(self):
        for reply, due in (
            (Done(), "gate: done"), (Denied("Landing"), "gate: denied, the change is landing (Landing)"),
            (Denied("NotPermitted", "Member"), "gate: denied, that needs more rights than you have (NotPermitted, Member)"),
            (Denied("TooFewReviews", (0, 1)), "gate: denied, the change has too few reviews (TooFewReviews, 0 of 1)"),
            (Denied("Danced"), "gate: denied, Danced (Danced)"),
        ):
            self.assertEqual(words.reply_in_words(reply), due)
        self.assertEqual(words.first_denial([Done(), Denied("Landing"), Denied("NoBase")]), "gate: denied, the change is landing (Landing)")
        self.assertEqual(words.first_denial([Done()]), "")

    def test_commands_that_have_acted(self):
        rows = (
            ("ping", "pong"), ("r+", "approved at bbbbbbb"), ("r=rosa,vera", "approved at bbbbbbb for rosa, vera"),
            ("r-", "the approval is taken back"), ("p=-5", "priority -5"), ("try", "to be tried at bbbbbbb"), ("try-", "the try is over"),
            ("d+", "ines may approve it now"), ("d=rosa", "rosa may approve it now"), ("d-", "nobody is a delegate of it any more"),
            ("retry", "done"), ("dance", "done"),
        )
        for body, due in rows:
            self.assertEqual(words.acted(commands_in(f"bors {body}")[0], False, B, "ines"), f"gate: {due}", body)
        self.assertEqual(words.acted(commands_in("bors r+")[0], True, B, ""), "gate: approved again at bbbbbbb")
        self.assertEqual(words.acted(commands_in("bors d+")[0], False, B, ""), "gate: the author may approve it now")

    def test_the_replies_to_a_comment(self):
        for text, answers, due in (
            ("bors r+ p=5\nbors dance", (DONE, DONE, DENIED),
             "gate: priority 5\ngate: approved at bbbbbbb\n"
             "gate: denied, that needs more rights than you have (NotPermitted, ReviewerOrDelegate)"),
            ("bors retry", (DONE,), "gate: done"),
            ("bors try\nbors retry", (DONE, DONE), "gate: to be tried at bbbbbbb\ngate: to be tried again at bbbbbbb"),
            # An answer with another number of replies than there are commands is told as it is.
            ("bors ping", (DONE, DONE), "gate: done\ngate: done"),
        ):
            self.assertEqual(Play(*BEFORE[:3], said_by(1, "rosa", text, *answers)).told[-1].text, due)

    def test_the_message_of_a_merge(self):
        members = (Member(7, B, "ines", ("rosa", "vera"), "vera"), Member(8, C, "", ("rosa",), "rosa"))
        batch = Batch("tick-1.0", TWO, 5, members=members)
        titles = {7: "Batch: 9\x1b", 8: "Approved-by: eve"}
        self.assertEqual(words.merge_message(batch, titles).split("\n"), [
            "Batch 2: change 7, change 8", "", "change 7: Batch: 9?", f"  {B}, by ines, approved by rosa (said by vera), vera",
            "change 8: Approved-by: eve", f"  {C}, approved by rosa", "", "Approved-by: rosa (said by vera)", "Approved-by: vera",
            "Approved-by: rosa", "Batch: 2", "",
        ])
        self.assertEqual(words.merge_message(Batch("tick-1.0", ONE, 5), {}), "Batch 1: change 7\n\nBatch: 1\n")
        self.assertEqual(words.merge_message(batch, {7: "x" * 999}).split("\n")[2], f"change 7: {'x' * 200}")
        for title, due in (
            ("[skip ci] x", "(skip ci) x"), ("x [CI Skip][no ci]", "x (CI Skip)(no ci)"), ("[[actions skip]]", "[(actions skip)]"),
            ("a[0] [skipper] [x", "a[0] [skipper] [x"),
        ):
            self.assertEqual(words.merge_message(batch, {7: title}).split("\n")[2], f"change 7: {due}")

    def test_notices(self):
        for notice, due in (
            (Notice(7, "TryPassed"), "The try has passed: all required checks succeed (TryPassed)."),
            (Notice(7, "TryFailed"), "The try has failed (TryFailed)."),
            (Notice(7, "Closed"), "The approval or the try has ended (Closed): it is no open change any more."),
            (Notice(7, "Danced"), "The approval or the try has ended (Danced): it says no more."),
            (Notice(7, "Failed", "lint"), "The approval or the try has ended (Failed): it fails the check lint. Mend it, push, and have it "
             "approved again; or have it retried by bors retry."),
        ):
            self.assertEqual(words.notice(notice), due)

    def test_batches(self):
        for said, due in (
            (words.conflict(ONE, 7, "both\x1b change x"), "Batch 1 (change 7) can't be merged. Change 7 doesn't: both? change x."),
            (words.conflict(TWO, 8, "why"), "Batch 2 (changes 7, 8) can't be merged. Change 8 doesn't: why. Its halves are tried next."),
            (words.result(TWO, "lint", "error", "it hung"), "The check lint of batch 2 (changes 7, 8) failed: it hung."),
            (words.landed(TWO, "main", C), f"Landed on main as {C}, with changes 7, 8."),
            (words.staged(TWO, B), "Batch 2 (changes 7, 8) is merged onto ccccccc as bbbbbbb, which is tested now."),
            (words.landing_of(None, 7), ""), (words.landing_of(Landing(2, C, B, ()), 7), f"\nlanded as {B} with batch 2\n"),
            (words.landing_of(Landing(2, C, B, (Member(7, B, "ines", ("rosa",), "rosa"),)), 7),
             f"\nlanded as {B} with batch 2, approved by rosa\n"),
            (words.approved_by(""), ""), (words.approved_by("rosa, vera"), " Approved by rosa, vera."),
            (words.reported("ci", ""), "as ci reports"), (words.reported("ci", "a\x1bb\ngate: x"), "as ci reports: a?b gate: x"),
            (words.without_reporter_of_heads(["a", "b"]), "the statuses a, b of heads of changes, for which there is no reporter"),
            (words.without_reporter(["a"]),
             "the status a, for which there is neither a command in the settings of the host nor a reporter"),
            (words.listed([7]), "change 7"), (words.listed([7, 9]), "changes 7, 9"),
        ):
            self.assertEqual(said, due)

    def test_no_line_of_a_comment_is_one_of_the_host(self):
        self.assertEqual(words.quoted("eve", "a\ngate: done\x1b[2J\u2028b"), "eve wrote:\n> a\n> gate: done?[2J\n> b")


if __name__ == "__main__":
    unittest.main()
