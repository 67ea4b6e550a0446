"""Tests of what stands in answers of GitHub's API, by tables of values."""
import sys
import unittest
from pathlib import Path

sys.path.insert(0, str(Path(__file__).resolve().parent.parent))

from gate_host.core.orders import Unread  # noqa: E402
from gate_host.github.reading import (  # noqa: E402
    IssueComment, PullRequest, Status, comment_in, pull_request_in, reviews_in, role_in, statuses_in,
)

A, B = "a" * 40, "b" * 40
TIME, SECONDS = "2026-11-29T19:56:30Z", 1795982190
PULL = {
    "number": 7, "state": "open", "draft": False, "user": {"login": "Ines"}, "head": {"sha": A, "ref": "x"}, "base": {"ref": "main"},
    "labels": [{"name": "wip"}, {"name": "b"}, {"name": ""}, {"name": "a\nb"}, {"name": "é" * 128}], "updated_at": TIME,
}
COMMENT = {
    "id": 31, "issue_url": "https://api.github.com/repos/o/r/issues/7", "user": {"login": "Rosa", "type": "User"}, "created_at": TIME,
    "updated_at": "2026-11-29T19:56:31Z", "body": "bors r+",
}


def review(login, state, commit=A):
    return {"user": login and {"login": login}, "state": state, "commit_id": commit}


def run(name, status="completed", conclusion="success"):
    return {"name": name, "status": status, "conclusion": conclusion, "html_url": "at"}


class ReadingTests(unittest.TestCase):
    def test_pull_requests(self):
        found = PullRequest(7, "ines", A, "main", True, False, ("b", "wip"), SECONDS)
        for more, due in (
            ({}, found), ({"draft": True}, PullRequest(7, "ines", A, "main", True, True, ("b", "wip"), SECONDS)),
            ({"user": None, "labels": []}, PullRequest(7, "ghost", A, "main", True, False, (), SECONDS)),
            ({"state": "closed", "labels": []}, PullRequest(7, "ines", A, "main", False, False, (), SECONDS)),
        ):
            self.assertEqual(pull_request_in({**PULL, **more}), due)
        for more in ({"number": "7"}, {"number": True}, {"head": {"sha": "x"}}, {"head": None}, {"base": {}}, {"updated_at": "soon"},
                     {"updated_at": None}, {"state": None}):
            with self.assertRaises(Unread, msg=more):
                pull_request_in({**PULL, **more})

    def test_comments(self):
        self.assertEqual(comment_in(COMMENT), IssueComment(31, 7, "rosa", SECONDS, SECONDS + 1, "bors r+"))
        self.assertEqual(comment_in({**COMMENT, "user": None, "body": None}), IssueComment(31, 7, None, SECONDS, SECONDS + 1, ""))
        for more in ({"issue_url": "https://api.github.com/repos/o/r/issues/0"}, {"issue_url": "x/issues/7/"}, {"id": None}):
            with self.assertRaises(Unread, msg=more):
                comment_in({**COMMENT, **more})

    def test_the_last_word_of_a_review_counts_and_only_at_the_head(self):
        for reviews, due in (
            ([], {}), ([review("Rosa", "APPROVED")], {"rosa": True}), ([review("rosa", "APPROVED", B)], {}),
            ([review("rosa", "APPROVED"), review("rosa", "COMMENTED", B)], {"rosa": True}),
            ([review("rosa", "APPROVED"), review("rosa", "CHANGES_REQUESTED")], {"rosa": False}),
            ([review("rosa", "CHANGES_REQUESTED", B), review("rosa", "APPROVED")], {"rosa": True}),
            ([review("rosa", "APPROVED"), review("rosa", "DISMISSED")], {"rosa": False}),
            ([review("rosa", "APPROVED"), review("rosa", "APPROVED", B)], {}),
            ([review(None, "APPROVED"), review("milo", "PENDING")], {}),
        ):
            self.assertEqual(reviews_in(reviews, A), due)

    def test_statuses_and_check_runs_are_one_list(self):
        def of(statuses, *runs):
            given = [{"context": name, "state": state, "target_url": None} for name, state in statuses]
            return {it.name: it.state for it in statuses_in(given, runs)}
        for conclusion, due in (
            ("success", "success"), ("neutral", "success"), ("skipped", "success"), ("failure", "failure"), ("timed_out", "error"),
            ("action_required", "error"), ("startup_failure", "error"), ("cancelled", "error"), ("stale", "error"), ("new", "failure"),
        ):
            self.assertEqual(of([], run("x", conclusion=conclusion)), {"x": due})
        for status in ("queued", "in_progress", "waiting", "requested", "pending"):
            self.assertEqual(of([], run("x", status, None)), {"x": "pending"})
        self.assertEqual(of([("b", "success"), ("a", "error")], run("c")), {"a": "error", "b": "success", "c": "success"})
        # Of several under one name the worst counts, whatever comes first.
        self.assertEqual(of([("x", "success")], run("x", conclusion="failure"), run("x")), {"x": "failure"})
        self.assertEqual(of([("x", "failure")], run("x")), {"x": "failure"})
        self.assertEqual(of([("x", "success")], run("x", "queued", None)), {"x": "pending"})
        self.assertEqual(of([("a\nb", "success"), ("x" * 256, "success")]), {})
        self.assertEqual(statuses_in([], [run("x")]), [Status("x", "success", "at")])
        for statuses in ([("x", "fine")], ):
            with self.assertRaises(Unread):
                of(statuses)

    def test_roles(self):
        for permission, name, due in (
            ("admin", "admin", "reviewer"), ("write", "maintain", "reviewer"), ("write", "write", "reviewer"), ("read", "triage", "member"),
            ("read", "read", "nobody"), ("none", "none", "nobody"), ("write", "release-team", "reviewer"), ("read", "helpers", "nobody"),
            ("write", None, "reviewer"), ("read", None, "nobody"),
        ):
            found = {"permission": permission, **({"role_name": name} if name else {})}
            self.assertEqual(role_in(found), due, found)


if __name__ == "__main__":
    unittest.main()
