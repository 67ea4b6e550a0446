"""Tests of the webhooks of the server that speaks as GitHub does, field by field, by the types of go-github, a client of GitHub in Go.

Debian has them in golang-github-google-go-github-dev. Without it these tests are skipped, and say so. `.ci/test_gate_host` runs them.
"""
import re
import sys
import unittest
from pathlib import Path

sys.path[:0] = [str(Path(__file__).resolve().parent)]

from with_github import WithGitHub  # noqa: E402

FOLDER = Path("/usr/share/gocode/src/github.com/google/go-github/github")
# The type of each event.
TYPES = {
    "check_run": "CheckRunEvent", "issue_comment": "IssueCommentEvent", "ping": "PingEvent", "pull_request": "PullRequestEvent",
    "pull_request_review": "PullRequestReviewEvent", "push": "PushEvent", "status": "StatusEvent",
}
# What GitHub sends and these types, of 2022, leave out.
UNTYPED = {
    "Repository": {"has_discussions", "visibility", "tags_url", "forks", "web_commit_signoff_required"},
    "Issue": {"draft", "timeline_url", "performed_via_github_app", "state_reason"},
    "IssueComment": {"performed_via_github_app"},
    "PullRequestLinks": {"merged_at"},
    "PullRequestReview": {"_links"},
    "StatusEvent": {"avatar_url", "organization"},
    "Hook": {"app_id", "deliveries_url"}, "Tree": {"url"},
}
# What these types have, and isn't sent: it is of other actions, of GitHub's other programs, or only of the API. Other types may lack
# whatever they like.
UNSENT = {
    "App": set(), "Branch": set(), "CheckRun": set(), "CheckRunEvent": {"requested_action"}, "CheckRunOutput": {"annotations", "images"},
    "CheckSuite": {"repository", "head_commit"}, "EditBase": set(), "HeadCommit": {"sha"},
    "Issue": {"closed_by", "repository", "text_matches"}, "IssueComment": set(), "IssueCommentEvent": {"changes"}, "Label": set(),
    "PingEvent": {"repository", "organization", "sender", "installation"}, "PRLinks": set(),
    "PullRequest": {
        "review_comment", "merged", "mergeable", "merged_by", "rebaseable", "mergeable_state", "comments", "commits", "additions",
        "deletions", "changed_files", "review_comments", "maintainer_can_modify",
    },
    "PullRequestBranch": set(),
    "PullRequestEvent": {"assignee", "changes", "requested_reviewer", "requested_team", "label", "before", "after"},
    "PullRequestLinks": set(), "PullRequestReview": set(), "PullRequestReviewEvent": set(),
    "PushEvent": {"push_id", "head", "size", "distinct_size", "action"}, "PushEventRepository": set(),
    "RepositoryCommit": {"stats", "files"}, "StatusEvent": set(),
}
# What those of which much is optional have at least.
NEEDED = {
    "Commit": {"author", "committer", "message", "tree", "url"}, "CommitAuthor": {"name", "email"},
    "Organization": {"login", "id", "node_id", "url"}, "Installation": {"id", "node_id"},
    "Repository": {
        "id", "node_id", "name", "full_name", "owner", "private", "fork", "default_branch", "html_url", "clone_url", "url", "pulls_url",
        "created_at", "updated_at", "pushed_at", "archived", "disabled", "open_issues_count",
    },
}
# Where an object is told in short: the end of its place, and what it has.
SHORT = {
    ".pull_requests[]": {"url", "id", "number", "head", "base"}, ".pull_requests[].head": {"ref", "sha", "repo"},
    ".pull_requests[].base": {"ref", "sha", "repo"}, ".pull_requests[].head.repo": {"id", "url", "name"},
    ".pull_requests[].base.repo": {"id", "url", "name"}, ".branches[].commit": {"sha", "url"}, ".parents[]": {"sha", "url", "html_url"},
}
NUMBERS = ("int", "int64")
FIELD = re.compile(r"^\t(?P<name>\w+)\s+(?P<type>\S+)\s+`json:\"(?P<tag>[^\",]+)")


def types():
    """All types that are structs: of each the names in JSON, with their types."""
    found = {}
    for path in sorted(FOLDER.glob("*.go")):
        for name, body in re.findall(r"^type (\w+) struct \{\n(.*?)^\}", path.read_text(encoding="utf-8"), re.DOTALL | re.MULTILINE):
            fields = (FIELD.match(line) for line in body.splitlines())
            found[name] = {it["tag"]: it["type"] for it in fields if it}
    return found


class Fields:
    """Compares what is sent with the types, and gathers what differs."""

    def __init__(self):
        self.types, self.faults = types(), set()

    def compare(self, value, kind, where):
        kind = kind.lstrip("*")
        if value is None:
            return
        if kind.startswith("[]"):
            self.expect(isinstance(value, list), where, value)
            for one in value if isinstance(value, list) else []:
                self.compare(one, kind[2:], f"{where}[]")
        elif kind in ("Timestamp", "time.Time"):
            # In pushes some are numbers.
            is_time = isinstance(value, int) or re.fullmatch(r"\d{4}-\d\d-\d\dT\d\d:\d\d:\d\d(Z|[+-]\d\d:\d\d)", str(value))
            self.expect(is_time, where, value)
        elif kind in self.types:
            self.expect(isinstance(value, dict), where, value)
            self.compare_object(value if isinstance(value, dict) else {}, kind, where)
        else:
            due = {"string": str, "bool": bool, "int": int, "int64": int}.get(kind, object)
            self.expect(isinstance(value, due) and not (kind in NUMBERS and isinstance(value, bool)), where, value)

    def compare_object(self, value, kind, where):
        known = self.types[kind]
        # The repository of a push has more than its own type says: what that of any event has.
        more = {*self.types["Repository"], *UNTYPED["Repository"], "stargazers"} if kind == "PushEventRepository" else set()
        for name in {*value} - {*known} - UNTYPED.get(kind, more):
            self.faults.add(f"{where}.{name} isn't in {kind}")
        asked_for = {*known} - UNSENT.get(kind, {*known}) | NEEDED.get(kind, set())
        for end, names in SHORT.items():
            asked_for = names if where.endswith(end) else asked_for
        for name in asked_for - {*value}:
            self.faults.add(f"{where}.{name} of {kind} is missing")
        for name in {*known} & {*value}:
            self.compare(value[name], known[name], f"{where}.{name}")

    def expect(self, is_so, where, value):
        if not is_so:
            self.faults.add(f"{where} is {value!r}")


class EventTests(WithGitHub):
    maxDiff = None
    """Every action of people is told in the shape that GitHub gives it."""

    def setUp(self):
        if not (FOLDER / "event_types.go").exists():
            said = f"golang-github-google-go-github-dev isn't installed: there is no {FOLDER}"
            print(f"no test of the fields of webhooks: {said}", file=sys.stderr)
            raise unittest.SkipTest(said)
        super().setUp()

    def everything(self):
        """What people and CI can do, each thing once."""
        people, project = self.people, self.project
        change = people.propose(project, "ines", "topic", {"one": "1\n"}, body="why")
        fork = people.fork("otto", project)
        people.propose(project, "otto", "topic", {"two": "2\n"}, fork=fork, draft=True)
        people.push(project, "ines", "release", project.bare.sha("main"))
        people.push_files(project, "ines", "topic", {"one": "2\n", "README": None}, "two\n\nand more")
        comment = people.comment(change, "vera", "bors r+")
        people.edit_comment(comment, "vera", "bors r-")
        people.delete_comment(comment, "vera")
        people.dismiss(people.review(change, "vera", "APPROVED", "good"), "root")
        people.label(change, "vera", "waits")
        people.unlabel(change, "vera", "waits")
        people.make_draft(change, "ines")
        people.ready(change, "ines")
        people.edit(change, "ines", "Another title", "another text")
        people.retarget(change, "ines", "release")
        people.close(change, "ines")
        people.reopen(change, "ines")
        people.status(project, "ines", change.head_sha, "build", "success", "all good", "http://localhost/1")
        run = people.check_run(project, change.head_sha, "lint", "in_progress")
        people.finish_run(project, run)
        people.merge_by_button(change, "vera")
        people.push(project, "ines", "topic", None)

    def test_every_field(self):
        receiver = self.receive()
        self.everything()
        names = self.names(receiver)
        # A fork has no hook, so its pushes aren't told.
        self.assertEqual(names, [
            "ping", "push", "pull_request.opened", "pull_request.opened", "push", "push", "pull_request.synchronize",
            "issue_comment.created", "issue_comment.edited", "issue_comment.deleted", "pull_request_review.submitted",
            "pull_request_review.dismissed", "pull_request.labeled", "pull_request.unlabeled", "pull_request.converted_to_draft",
            "pull_request.ready_for_review", "pull_request.edited", "pull_request.edited", "pull_request.closed",
            "pull_request.reopened", "status", "check_run.created", "check_run.completed", "push", "pull_request.closed", "push",
        ])
        fields = Fields()
        for got in receiver.received:
            fields.compare(got.json, TYPES[got.event], got.name)
        self.assertEqual("\n".join(sorted(fields.faults)), "")

    def test_what_each_action_says_besides(self):
        receiver = self.receive()
        self.everything()
        self.names(receiver)
        found = {}
        for it in receiver.received:
            found.setdefault(it.name, it.json)
        for name, more in (
            ("pull_request.labeled", {"label"}), ("pull_request.unlabeled", {"label"}), ("pull_request.edited", {"changes"}),
            ("pull_request.synchronize", {"before", "after"}), ("issue_comment.edited", {"changes"}), ("pull_request.opened", set()),
            ("pull_request.closed", set()), ("issue_comment.created", set()),
        ):
            kept = {"action", "number", "pull_request", "repository", "organization", "sender", "installation", "issue", "comment"}
            self.assertEqual({*found[name]} - kept, more, name)
        self.assertEqual(found["pull_request_review.submitted"]["review"]["state"], "approved")
        self.assertNotIn("merged", found["pull_request_review.submitted"]["pull_request"])
        self.assertEqual(found["issue_comment.created"]["issue"]["pull_request"]["url"], f"{self.hub.api}/repos/team/project/pulls/1")
        self.assertEqual(found["check_run.completed"]["check_run"]["check_suite"]["head_branch"], "topic")
        self.assertEqual([it["name"] for it in found["status"]["branches"]], ["topic"])
        self.assertEqual({it.json["installation"]["id"] for it in receiver.received[1:]}, {self.app.installation})

    def test_pushes(self):
        receiver = self.receive()
        first = self.project.bare.sha("main")
        made = self.people.push_files(self.project, "ines", "topic", {"one": "1\n", "README": None}, "two\n\nand more")
        self.people.push(self.project, "ines", "topic", first)
        self.people.push(self.project, "ines", "topic", None)
        self.names(receiver)
        found = [it.json for it in receiver.received[1:]]
        self.assertEqual([(it["before"], it["after"]) for it in found], [("0" * 40, made), (made, first), (first, "0" * 40)])
        self.assertEqual([(it["created"], it["forced"], it["deleted"]) for it in found], [
            (True, False, False), (False, True, False), (False, False, True)])
        self.assertEqual([[it["id"] for it in push["commits"]] for push in found], [[made], [], []])
        told = found[0]["commits"][0]
        self.assertEqual((told["message"], told["added"], told["removed"], told["author"]["username"]), (
            "two\n\nand more", ["one"], ["README"], "ines"))
        self.assertEqual((found[0]["ref"], found[0]["pusher"]["name"], found[2]["head_commit"]), ("refs/heads/topic", "ines", None))

    def test_a_fault_would_be_seen(self):
        """What a payload lacks, has too much, or has of another kind."""
        receiver = self.receive()
        self.everything()
        self.names(receiver)
        payload = receiver.received[2].json
        del payload["pull_request"]["head"]["sha"]
        payload["pull_request"]["draft"] = "no"
        payload["pull_request"]["invented"] = 1
        fields = Fields()
        fields.compare(payload, "PullRequestEvent", "it")
        self.assertEqual(sorted(fields.faults), [
            "it.pull_request.draft is 'no'", "it.pull_request.head.sha of PullRequestBranch is missing",
            "it.pull_request.invented isn't in PullRequest",
        ])


if __name__ == "__main__":
    unittest.main()
