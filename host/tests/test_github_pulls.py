"""Tests of what is taken of the pull requests on GitHub and of the comments on them, over an API of values."""
import calendar
import time
import unittest
from unittest import mock

from folders import InFolder
from playing import A, B, BEFORE, C, LANDED, STAGED, Play
from gate_host.core.known import Known

try:
    import httpx
except ImportError:
    httpx = None

FORM = "%Y-%m-%dT%H:%M:%SZ"
START = 1_795_982_190


class Api:
    """The comments of a repository, of which some aren't listed yet."""

    def __init__(self):
        self.comments, self.hidden, self.missed = [], set(), set()

    def add(self, number, at, text="bors r+", edited=0, change=7):
        self.comments.append({
            "id": number, "issue_url": f"https://api.github.com/repos/o/r/issues/{change}", "user": {"login": "Rosa", "type": "User"},
            "created_at": time.strftime(FORM, time.gmtime(START + at)), "body": text,
            "updated_at": time.strftime(FORM, time.gmtime(START + max(at, edited))),
        })

    def edit(self, number, at, text):
        comment = next(it for it in self.comments if it["id"] == number)
        comment.update(body=text, updated_at=time.strftime(FORM, time.gmtime(START + at)))

    def get(self, path):
        return {"permission": "write", "role_name": "write"}

    def all(self, path, since, **query):
        begin = calendar.timegm(time.strptime(since, FORM))
        found = [it for it in self.comments if calendar.timegm(time.strptime(it["updated_at"], FORM)) >= begin]
        missed, self.missed = self.missed, set()
        return [it for it in found if it["id"] not in self.hidden | missed]


class Marks:
    """What the journal keeps."""

    def __init__(self):
        self.marks, self.taken = {}, set()

    def mark(self, name):
        return self.marks.get(name, "")

    def put_mark(self, name, value):
        self.marks[name] = value

    def has_taken(self, note):
        return note in self.taken


@unittest.skipIf(httpx is None, "httpx isn't installed")
class CommentTests(InFolder):
    def setUp(self):
        super().setUp()
        self.api, self.marks = Api(), Marks()
        self.source = self.begin()
        with mock.patch("time.time", return_value=START + 0.5):
            self.assertEqual(self.numbers(), [])

    def begin(self):
        from gate_host.github.pulls import PullRequests
        return PullRequests(self.api, "/repos/o/r", "main", self.room, self.marks, Known(), 20.0, "gate", lambda: 0.0)

    def numbers(self):
        """The numbers of the comments that are taken now, as they are asked for at once."""
        self.source.next_poll = 0.0
        return [int(it.note.partition("-")[2]) for it in self.source.take()]

    def take(self):
        """Takes what is there, and has the journal know it."""
        found = self.numbers()
        for number in found:
            self.marks.taken.add(f"comment-{number}")
            self.source.remove(f"comment-{number}")
        return found

    def test_each_is_taken_once_also_by_the_next_host(self):
        self.api.add(1, -5)
        self.api.add(2, 5)
        self.api.add(3, 6, text="Looks good")
        self.api.add(4, 7)
        self.assertEqual(self.numbers(), [2, 4])
        for due in ([2, 4], []):
            self.assertEqual(self.take(), due)
        self.source = self.begin()
        self.api.add(5, 8)
        self.assertEqual((self.take(), self.take()), ([5], []))

    def test_what_is_listed_late_is_taken_all_the_same(self):
        self.api.add(1, 10)
        self.api.hidden = {1}
        self.api.add(2, 200)
        self.assertEqual(self.take(), [2])
        self.api.hidden = set()
        self.assertEqual(self.take(), [1])
        # What is later than some minutes is asked for no more.
        self.api.add(3, 210)
        self.api.hidden = {3}
        self.api.add(4, 511)
        self.assertEqual(self.take(), [4])
        self.api.hidden = set()
        self.assertEqual(self.take(), [])

    def test_what_moves_to_another_page_meanwhile_is_taken_in_its_order(self):
        for number in range(1, 251):
            self.api.add(number, 10 * number)
        # The next time it is asked, this one isn't on any page.
        self.api.missed = {100}
        self.assertEqual(self.take(), list(range(1, 251)))

    def test_what_was_edited_is_not_taken_and_is_answered(self):
        self.api.add(1, 10, edited=12)
        self.api.add(2, 10, edited=13)
        self.api.add(3, 11, text="Looks good")
        self.api.add(4, 11)
        found = {it.note: it.objection for it in self.taken()}
        edited = "it was edited before it was read. Write another comment."
        self.assertEqual(found, {"comment-1": "", "comment-2": edited, "comment-4": ""})
        self.take()
        # One that had no command gets one, and one that was taken another text.
        self.api.edit(3, 400, "bors r+")
        self.api.edit(4, 400, "bors r-")
        self.assertEqual([(it.note, it.objection) for it in self.taken()], [("comment-3", edited)])

    def taken(self):
        self.source.next_poll = 0.0
        return self.source.take()


class Answers:
    """An API of values: lists and answers by their paths. What isn't there is refused."""

    def __init__(self):
        self.lists, self.values, self.asked = {}, {}, []

    def all(self, path, **query):
        self.asked.append(path)
        return list(self.lists.get(path, []))

    def entries(self, path, name, **query):
        self.asked.append(path)
        return list(self.lists.get(path, []))

    def get(self, path, **query):
        from gate_host.github.api import Refused
        self.asked.append(path)
        if path not in self.values:
            raise Refused(404, "Not Found")
        return self.values[path]


def pull(number, state="open"):
    return {
        "number": number, "state": state, "user": {"login": "ines"}, "head": {"sha": B}, "base": {"ref": "main"}, "labels": [],
        "updated_at": "2026-11-29T00:00:00Z",
    }


@unittest.skipIf(httpx is None, "httpx isn't installed")
class LookTests(InFolder):
    def source(self, *steps):
        from gate_host.github.pulls import PullRequests
        self.api, self.marks = Answers(), Marks()
        self.marks.put_mark("comments count from", str(START))
        self.api.values["/repos/o/r/branches/main"] = {"commit": {"sha": A}}
        self.api.values["/repos/o/r/collaborators/rosa/permission"] = {"role_name": "write"}
        self.time = 0.0
        return PullRequests(self.api, "/repos/o/r", "main", self.room, self.marks, Play(*steps).known, 20.0, "gate", lambda: self.time)

    def test_a_change_that_is_missing_in_the_list_is_closed_only_if_it_is(self):
        for found, due in ((pull(7), {7: B, 8: B}), (pull(7, "closed"), {8: B}), ({**pull(7), "draft": True}, {8: B}), (None, {8: B})):
            source = self.source(*BEFORE)
            self.api.lists["/repos/o/r/pulls"] = [pull(8)]
            if found:
                self.api.values["/repos/o/r/pulls/7"] = found
            self.assertEqual(source.look().heads, due)
        self.api.lists["/repos/o/r/pulls"] = [pull(7), pull(8)]
        self.api.asked.clear()
        self.assertEqual(source.look().heads, {7: B, 8: B})
        self.assertNotIn("/repos/o/r/pulls/7", self.api.asked)

    def test_where_main_was_before_a_landing_counts_only_if_it_lasts(self):
        source, found = self.source(*LANDED), []
        for commit, at in ((A, 100.0), (A, 130.0), (C, 131.0), (A, 140.0), (A, 199.0), (A, 200.0), (B, 201.0)):
            self.api.values["/repos/o/r/branches/main"]["commit"]["sha"], self.time = commit, at
            found.append(source.look().main)
        self.assertEqual(found, [C, C, C, C, C, A, B])
        source = self.source(*STAGED)
        self.assertEqual(source.look().main, A)

    def test_a_command_has_the_reviews_read_that_were_given_before_it(self):
        source, reviews = self.source(), "/repos/o/r/pulls/7/reviews"
        self.api.lists["/repos/o/r/pulls"] = [pull(7)]
        self.assertEqual(source.look().details[7].reviews, {})
        self.api.lists[reviews] = [{"user": {"login": "rosa"}, "state": "APPROVED", "commit_id": B}]
        self.assertEqual(source.look().details[7].reviews, {})
        comments = Api()
        comments.add(1, 5)
        self.api.lists["/repos/o/r/issues/comments"] = comments.comments
        self.assertEqual([it.note for it in source.take()], ["comment-1"])
        self.assertEqual(source.look().details[7].reviews, {"rosa": True})

    def test_all_pages_of_statuses_are_read(self):
        source, status = self.source(*STAGED), f"/repos/o/r/commits/{C}/status"
        statuses = [{"context": f"c{number}", "state": "success", "target_url": None} for number in range(120)]
        self.api.lists[status] = statuses
        # What one question brings is a page.
        self.api.values[status] = {"statuses": statuses[:100]}
        self.assertEqual(len(source.reports()), 120)

    def test_what_is_over_is_asked_for_no_more(self):
        for steps, due in ((STAGED, [C]), (LANDED, [])):
            source = self.source(*steps)
            self.assertEqual((list(source.wanted()), source.tested()), (due, set(due)))
            status = f"/repos/o/r/commits/{C}/status"
            self.api.lists[status] = [{"context": "deploy", "state": "success", "target_url": None}]
            self.assertEqual([it.name for it in source.reports()], ["deploy"] if due else [])


if __name__ == "__main__":
    unittest.main()
