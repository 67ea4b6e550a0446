"""Tests of comments on GitHub: each is posted once, whatever isn't answered and whoever dies."""
import re
import sys
import tempfile
import unittest
from pathlib import Path
from unittest import mock

sys.path.insert(0, str(Path(__file__).resolve().parent.parent))

try:
    import httpx
except ImportError:
    httpx = None

from gate_host.journal import Journal  # noqa: E402


class Died(BaseException):
    """The host is dead."""


class Reports:
    """The files of reports, of which nothing is due. They keep what they were told."""

    is_behind = is_waiting = False
    remarks = ()

    def refresh(self, program, remarks):
        self.remarks = remarks


class Api:
    """A GitHub that keeps comments, and does to the next posts what a test wants: nothing, or act and not answer, or neither."""

    not_before = time = 0.0
    is_locked, missing = False, ()

    def __init__(self):
        self.comments, self.plan, self.asked, self.looks = [], [], 0, []

    def now(self):
        return self.time

    def get(self, path, **query):
        from gate_host.github.api import Refused
        self.asked += 1
        if path in self.missing:
            raise Refused(404, "Not Found")
        return {"locked": self.is_locked}

    def post(self, path, body):
        from gate_host.github.api import Later, Refused, Unanswered
        what = self.plan.pop(0) if self.plan else "answer"
        if what == "later":
            raise Later("not now")
        if what == "too quickly":
            raise Refused(422, "Validation Failed; was submitted too quickly")
        if what in ("307", "403", "404", "422"):
            raise Refused(int(what), "no")
        if what != "lost":
            self.comments.append((path, body["body"]))
        if what == "die":
            raise Died
        if what in ("acted", "lost"):
            raise Unanswered("silence")

    def all(self, path):
        from gate_host.github.api import Later
        self.asked += 1
        if self.looks and self.looks.pop(0) == "later":
            raise Later("not now")
        return [{"body": body} for place, body in self.comments if place == path]


@unittest.skipIf(httpx is None, "httpx isn't installed")
class CommentTests(unittest.TestCase):
    def setUp(self):
        room = tempfile.TemporaryDirectory()
        self.addCleanup(room.cleanup)
        self.journal = Journal(Path(room.name) / "journal.db")
        self.addCleanup(self.journal.close)
        self.api = Api()
        self.told = 0
        self.complain = mock.Mock()
        for module in ("comments", "board"):
            patched = mock.patch(f"gate_host.github.{module}.complain", self.complain)
            patched.start()
            self.addCleanup(patched.stop)
        self.reports = Reports()
        self.board = self.new()
        self.board.refresh("", [])

    def new(self):
        from gate_host.github.board import Board
        from gate_host.github.comments import Comments
        return Board(self.reports, [Comments(self.journal, self.api, "/repos/o/r")])

    def tell(self, *texts, first=7):
        """Tells each of another change."""
        with self.journal.step():
            self.journal.tell(5, [(first + place, text) for place, text in enumerate(texts)])

    def refresh(self, times=1, seconds=10):
        """Refreshes so often, with so many seconds after each."""
        for _ in range(times):
            self.board.refresh("", [])
            self.api.time += seconds

    def marks(self):
        """Of what each comment is."""
        return [[int(number) for number in re.findall(r"<!-- gate:([0-9]+):", body)] for _, body in self.api.comments]

    def texts(self):
        return [body.split("\n\n<!--")[0] for _, body in self.api.comments]

    def test_what_is_told_is_posted_once_and_what_was_said_is_not(self):
        self.tell("rosa wrote:\n> bors r+", "gate: approved", "It waits in batch 12.", "Landed, and it waits in batch 12.")
        self.assertTrue(self.board.is_behind)
        self.refresh(3)
        self.assertEqual((self.texts(), self.board.is_behind), (["gate: approved", "Landed, and it waits in batch 12."], False))
        self.assertEqual([path for path, _ in self.api.comments], ["/repos/o/r/issues/8/comments", "/repos/o/r/issues/10/comments"])
        self.board = self.new()
        self.refresh()
        self.assertEqual(len(self.texts()), 2)

    def test_what_is_told_of_a_change_stands_in_one_comment(self):
        for text in ("one", "two", "three"):
            self.tell(text, f"{text} too")
        self.refresh()
        self.assertEqual(self.texts(), ["one\n\ntwo\n\nthree", "one too\n\ntwo too\n\nthree too"])
        self.assertEqual(self.marks(), [[1, 3, 5], [2, 4, 6]])
        self.assertEqual((self.board.is_behind, self.journal.mark("comments posted ahead")), (False, ""))

    def test_of_a_comment_that_may_be_there_only_what_is_missing_is_posted(self):
        self.tell("one", "other")
        self.tell("two")
        self.api.plan = ["die"]
        with self.assertRaises(Died):
            self.refresh()
        self.tell("three")
        self.board = self.new()
        self.refresh()
        self.assertEqual((self.texts(), self.marks()), (["one\n\ntwo", "three", "other"], [[1, 3], [4], [2]]))

    def test_a_part_that_is_there_stays_so_while_the_rest_waits(self):
        for status in ("later", "403", "acted", "lost"):
            self.api.comments.clear()
            self.tell("one")
            self.api.plan = ["acted", status]
            self.refresh()
            self.tell("two")
            self.refresh()
            self.api.time += 60
            self.refresh(2)
            self.assertEqual(self.texts(), ["one", "two"], status)

    def test_what_was_told_while_others_wait_is_posted_once(self):
        """The next host knows which texts stand in a comment besides the first one."""
        self.tell("one", "other")
        self.tell("two")
        self.api.plan = ["answer", "die"]
        with self.assertRaises(Died):
            self.refresh()
        self.assertEqual((self.journal.mark("comments posted up to"), self.journal.mark("comments posted ahead")), ("1", "3"))
        self.board = self.new()
        self.refresh()
        self.assertEqual(self.texts(), ["one\n\ntwo", "other"])

    def test_a_comment_has_a_bound(self):
        for number in range(45):
            self.tell(str(number))
        self.refresh()
        self.assertEqual([len(it) for it in self.marks()], [20, 20, 5])

    def test_nobody_makes_a_comment_too_long_by_many_commands(self):
        for _ in range(19):
            self.tell("\n".join(["gate: denied, that needs more rights than you have (NotPermitted, ReviewerOrDelegate)"] * 1000))
        self.tell("Landed on main")
        self.refresh()
        self.assertEqual(self.marks(), [list(range(1, 21))])
        self.assertLess(len(self.api.comments[0][1]), 65536)
        self.assertTrue(self.texts()[0].endswith(" ...\n\nLanded on main"), self.texts()[0][-100:])

    def test_what_was_told_before_the_first_start_is_not_posted(self):
        self.tell("old")
        self.journal.database.execute("DELETE FROM marks")
        self.board = self.new()
        self.refresh()
        self.assertEqual(self.texts(), [])

    def test_a_request_without_an_answer_is_not_sent_again_if_it_has_acted(self):
        for plan in (["acted"], ["lost"], ["lost", "acted"], ["later"], ["acted", "later", "lost"], ["lost", "later", "later", "acted"]):
            self.api.comments.clear()
            self.api.plan = list(plan)
            self.tell("one", "two", "three")
            self.refresh(8)
            self.assertEqual(self.texts(), ["one", "two", "three"], plan)

    def test_what_was_found_there_is_not_posted_with_what_came_later(self):
        for refusal in ("later", "403"):
            self.api.comments.clear()
            self.api.plan = ["acted", refusal]
            self.tell(f"one {refusal}")
            self.refresh()
            self.tell(f"two {refusal}")
            self.refresh()
            self.api.time += 60
            self.refresh()
            self.assertEqual((self.texts(), self.api.plan), ([f"one {refusal}", f"two {refusal}"], []))

    def test_a_doubt_stays_until_it_could_be_asked_what_is_there(self):
        self.tell("one")
        self.refresh()
        self.api.plan, self.api.looks = ["acted"], ["later", "later"]
        self.tell("two", "three")
        self.refresh(5)
        self.assertEqual(self.texts(), ["one", "two", "three"])

    def test_a_host_without_credentials_for_now_goes_on(self):
        from gate_host.faults import Unable
        self.tell("one")
        with mock.patch.object(self.api, "post", side_effect=Unable("the app gets no token")):
            self.refresh(2)
        self.refresh()
        self.assertEqual(self.texts(), ["one"])

    def test_a_host_that_dies_behind_a_comment_does_not_post_it_again(self):
        for place in range(3):
            self.api.comments.clear()
            self.api.plan = ["answer"] * place + ["die"]
            self.tell("one", "two", "three")
            with self.assertRaises(Died):
                self.refresh(3)
            self.board = self.new()
            self.refresh(3)
            self.assertEqual(self.texts(), ["one", "two", "three"], place)

    def test_what_github_will_never_take_is_left_out(self):
        for status, is_locked in (("422", False), ("403", True)):
            self.api.comments.clear()
            self.api.plan, self.api.is_locked = [status], is_locked
            self.tell("one", "two")
            self.refresh(2)
            self.assertEqual(self.texts(), ["two"], status)
            self.assertIn("change 7 can't be commented on", self.complain.call_args[0][0], status)

    def test_a_change_that_is_gone_holds_up_no_others(self):
        self.api.plan, self.api.missing = ["404"], ("/repos/o/r/pulls/7", "/repos/o/r/issues/7")
        self.tell("one", "two")
        self.refresh(2)
        self.assertEqual((self.texts(), self.board.is_behind), (["two"], False))
        self.assertIn("change 7 can't be commented on", self.complain.call_args[0][0])

    def test_a_repository_that_is_not_there_is_asked_for_by_and_by(self):
        self.api.plan, self.api.missing = ["404"] * 3, ("/repos/o/r/pulls/7", "/repos/o/r/issues/7", "/repos/o/r/pulls", "/repos/o/r")
        self.tell("one", "two")
        self.refresh(5)
        self.assertEqual((self.texts(), len(self.api.plan), self.board.is_behind), ([], 2, False))
        self.api.time += 60
        self.api.plan, self.api.missing = [], ()
        self.refresh()
        self.assertEqual(self.texts(), ["one", "two"])

    def test_what_may_want_rights_waits_and_is_told(self):
        for status in ("307", "403", "404"):
            self.api.comments.clear()
            self.complain.reset_mock()
            self.api.plan = [status, status]
            self.tell("one", "two")
            self.refresh(3, seconds=0)
            self.assertEqual((self.texts(), self.board.is_behind), ([], False), status)
            self.assertIn("trouble: what people are told waits: it is tried again in 60 seconds", self.reports.remarks)
            self.api.time += 60
            self.refresh(seconds=0)
            self.assertEqual((self.texts(), self.complain.call_count), ([], 1), status)
            self.api.time += 60
            self.assertTrue(self.board.is_behind)
            self.refresh(2)
            self.assertEqual((self.texts(), list(self.reports.remarks)), (["one", "two"], []), status)

    def test_it_is_asked_what_is_there_only_if_that_is_in_doubt(self):
        self.tell("one", "two", "three")
        self.refresh()
        self.assertEqual(self.api.asked, 1)

    def test_nobody_can_foretell_the_mark_of_a_comment(self):
        from gate_host.github.comments import Comments
        one, again = (Comments(self.journal, self.api, "/repos/o/r") for _ in range(2))
        self.journal.put_mark("key of comments", "")
        other = Comments(self.journal, self.api, "/repos/o/r")
        self.assertEqual((one.mark_of(5), one.mark_of(5) != other.mark_of(5)), (again.mark_of(5), True))
        self.assertRegex(one.mark_of(5), r"^<!-- gate:5:[0-9a-f]{16} -->$")

    def test_what_is_refused_for_ever_holds_up_the_others_for_an_hour(self):
        self.api.plan = ["403"] * 100
        self.tell("one", "two")
        for _ in range(60):
            self.refresh(seconds=60)
        self.api.plan = ["403"]
        self.assertEqual(self.complain.call_count, 1)
        self.refresh()
        self.assertEqual((self.texts(), self.complain.call_args[0][0][:33]), (["two"], "change 7 can't be commented on: G"))

    def test_what_comes_too_quickly_waits(self):
        self.api.plan = ["too quickly"]
        self.tell("one")
        self.refresh()
        self.assertEqual((self.texts(), self.board.is_behind), ([], False))
        self.api.time += 60
        self.refresh()
        self.assertEqual(self.texts(), ["one"])

    def test_a_text_is_shown_as_it_is(self):
        from gate_host.github.comments import markdown
        for text, due in (
            ("a\nb", "a  \nb"), ("@rosa *x* <b>", "@\u200brosa \\*x\\* \\<b\\>"), ("`x` [a](b)", "\\`x\\` \\[a\\]\\(b\\)"),
            ("it failed.\noutput: 1-0-build", "it failed."), ("a\x1b[2J", "a?\\[2J"), ("# x\n- y", "\\# x  \n- y"),
        ):
            self.assertEqual(markdown(text), due)


if __name__ == "__main__":
    unittest.main()
