"""Tests of the API of the server that speaks as GitHub does: what it refuses, its pages, ETags and limits, and what it shows.

`.ci/test_gate_host` runs them. test_github_server_clients.py has real clients read all that it shows.
"""
import re
import sys
import unittest
from email.utils import parsedate_to_datetime
from pathlib import Path

sys.path[:0] = [str(Path(__file__).resolve().parent)]

from github_server import NotPossible  # noqa: E402
from with_github import HERE, WithGitHub  # noqa: E402


class RefusalTests(WithGitHub):
    """What is refused, in GitHub's words."""

    def test_without_and_with_wrong_tokens(self):
        for header in ("Bearer wrong", "token ghs_wrong", "Basic !", "Other x"):
            self.refused(401, "Bad credentials", HERE, headers={"Authorization": header})
        self.hub.tokens.expire()
        self.refused(401, "Bad credentials", HERE)
        self.assertEqual(self.ask(HERE, headers={"Authorization": None}).status, 200)
        self.assertEqual([it.token for it in self.switches.asked()], ["unknown"] * 4 + ["expired", "none"])

    def test_who_is_nobody_writes_nothing(self):
        self.people.propose(self.project, "ines", "topic", {"one": "1\n"})
        self.refused(
            401, "Requires authentication", f"{HERE}/issues/1/comments", method="POST", given={"body": "hello"},
            headers={"Authorization": None})
        self.refused(401, "Requires authentication", "/user", headers={"Authorization": None})
        self.assertEqual(self.look("/user", token=self.token_of("ines"))["login"], "ines")

    def test_a_token_is_good_for_an_hour(self):
        self.hub.world.clock.stop()
        self.hub.world.clock.advance(3590)
        self.look(HERE)
        self.hub.world.clock.advance(20)
        self.refused(401, "Bad credentials", HERE)
        self.look(HERE, token=self.hub.installation_token())

    def test_what_isnt_there(self):
        for path in ("/repos/team/other", f"{HERE}/pulls/7", f"{HERE}/issues/7/comments", f"{HERE}/commits/nothing/status", "/nothing",
                     f"{HERE}/branches/main/nothing", f"{HERE}/issues/comments/1", "/users/nobody-there", "/repositories/1"):
            self.refused(404, "Branch not found" if "branches" in path else "Not Found", path)

    def test_without_the_name_of_a_program(self):
        got = self.ask(HERE, headers={"User-Agent": None})
        self.assertEqual((got.status, b"User-Agent" in got.body), (403, True))

    def test_what_the_app_may_not(self):
        del self.app.permissions["administration"]
        self.app.permissions["statuses"] = "read"
        token, sha = self.hub.installation_token(), self.project.bare.sha("main")
        self.refused(403, "Resource not accessible by integration", f"{HERE}/branches/main/protection", token=token)
        self.refused(403, "Resource not accessible by integration", f"{HERE}/statuses/{sha}", method="POST", given={}, token=token)
        self.refused(403, "Resource not accessible by integration", "/user", token=token)
        self.refused(401, "A JSON web token could not be decoded", "/app", token=token)

    def test_what_the_app_may_not_elsewhere(self):
        """A fork is somebody else's."""
        fork = self.people.fork("otto", self.project)
        self.people.propose(fork, "otto", "topic", {"one": "1\n"})
        self.assertEqual(len(self.look("/repos/otto/project/pulls")), 1)
        for path, given in (("issues/1/comments", {"body": "hello"}), (f"statuses/{fork.bare.sha('main')}", {"state": "success"})):
            self.refused(403, "Resource not accessible by integration", f"/repos/otto/project/{path}", method="POST", given=given)
        self.refused(403, "Resource not accessible by integration", "/repos/otto/project/hooks")

    def test_what_people_may_not(self):
        sha = self.project.bare.sha("main")
        self.refused(404, "Not Found", f"{HERE}/branches/main/protection", token=self.token_of("vera"))
        self.refused(404, "Not Found", f"{HERE}/statuses/{sha}", method="POST", given={"state": "success"}, token=self.token_of("otto"))
        self.refused(
            403, "Must have push access to view collaborator permission.", f"{HERE}/collaborators/ines/permission",
            token=self.token_of("otto"))

    def test_comments_that_are_none(self):
        self.people.propose(self.project, "ines", "topic", {"one": "1\n"})
        path = f"{HERE}/issues/1/comments"
        self.refused(400, "Problems parsing JSON", path, method="POST", given=b"{")
        self.refused(400, "Body should be a JSON object", path, method="POST", given=b"[]")
        for body in (None, "", " \n", 7, "x" * 65537):
            got = self.refused(422, "Validation Failed", path, method="POST", given={"body": body})
            self.assertEqual(got.json["errors"][0]["resource"], "IssueComment")
        self.assertEqual(self.project.comments, {})

    def test_statuses_that_are_none(self):
        path = f"{HERE}/statuses/{self.project.bare.sha('main')}"
        for given in ({}, {"state": "good"}, {"state": "success", "description": "x" * 141}):
            self.refused(422, "Validation Failed", path, method="POST", given=given)
        self.refused(422, f"No commit found for SHA: {'1' * 40}", f"{HERE}/statuses/{'1' * 40}", method="POST", given={"state": "success"})
        self.assertEqual(self.project.statuses, [])

    def test_what_people_cant_do(self):
        change = self.people.propose(self.project, "ines", "topic", {"one": "1\n"})
        for action in (
            lambda: self.people.open_pull(self.project, "ines", "topic"), lambda: self.people.open_pull(self.project, "ines", "nothing"),
            lambda: self.people.open_pull(self.project, "ines", "main"), lambda: self.people.review(change, "ines", "APPROVED"),
            lambda: self.people.retarget(change, "ines", "nothing"),
        ):
            self.assertRaises(NotPossible, action)
        self.people.merge_by_button(change, "vera")
        self.assertRaises(NotPossible, self.people.reopen, change, "ines")


class PrivateTests(WithGitHub):
    """A repository that not everybody sees."""

    private = True

    def test_who_sees_it(self):
        for login, status in (("otto", 200), ("ines", 200), ("stranger", 404)):
            self.assertEqual(self.ask(HERE, token=self.token_of(login)).status, status)
        self.assertEqual(self.ask(HERE, headers={"Authorization": None}).status, 404)
        self.assertEqual(self.ask(HERE).status, 200)

    def test_what_is_private_elsewhere_the_app_doesnt_see(self):
        self.people.make_repository("otto", "diary", True, {"README": "dear diary\n"})
        for path in ("", "/pulls", "/branches/main", "/issues/comments"):
            self.refused(404, "Not Found", f"/repos/otto/diary{path}")
        self.assertEqual(self.ask("/repos/otto/diary", token=self.token_of("otto")).status, 200)

    def test_a_stranger_has_no_role(self):
        self.people.user("stranger")
        shown = self.look(f"{HERE}/collaborators/stranger/permission")
        self.assertEqual((shown["permission"], shown["role_name"]), ("none", ""))


class ListTests(WithGitHub):
    """Pages, orders and what is chosen."""

    def pages(self, path):
        """All pages of a list, by the addresses of the header Link."""
        found = []
        while path:
            got = self.ask(path)
            self.assertEqual(got.status, 200)
            found.append(got.json)
            links = {name: url for url, name in re.findall(r'<([^>]*)>; rel="(\w+)"', got.headers.get("Link", ""))}
            path = links.get("next", "").replace(self.hub.api, "")
        return found

    def test_pages_are_walked_by_their_links(self):
        for number in range(5):
            self.people.propose(self.project, "ines", f"topic-{number}", {"one": f"{number}\n"})
        found = self.pages(f"{HERE}/pulls?state=open&base=main&per_page=2")
        self.assertEqual([[it["number"] for it in page] for page in found], [[5, 4], [3, 2], [1]])
        self.switches.page_size = 1
        found = self.pages(f"{HERE}/pulls?state=open&base=main&per_page=100")
        self.assertEqual([[it["number"] for it in page] for page in found], [[5], [4], [3], [2], [1]])
        links = self.ask(f"{HERE}/pulls?per_page=100&page=3").headers["Link"]
        self.assertEqual(re.findall(r'page=(\d+)>; rel="(\w+)"', links), [("2", "prev"), ("4", "next"), ("5", "last"), ("1", "first")])
        self.assertIn(f"{self.hub.api}/repositories/{self.project.id}/pulls?", links)

    def test_pages_of_objects_that_have_a_list(self):
        sha = self.project.bare.sha("main")
        for name in ("build", "lint", "docs"):
            self.people.status(self.project, "ines", sha, name, "success")
            self.people.check_run(self.project, sha, name)
        self.switches.page_size = 2
        for path, key in (("status", "statuses"), ("check-runs", "check_runs")):
            found = self.pages(f"{HERE}/commits/{sha}/{path}")
            self.assertEqual([(it["total_count"], len(it[key])) for it in found], [(3, 2), (3, 1)])

    def test_a_list_that_fits_a_page_has_no_links(self):
        self.assertNotIn("Link", self.ask(f"{HERE}/pulls").headers)

    def test_changes_are_chosen(self):
        one = self.people.propose(self.project, "ines", "topic", {"one": "1\n"})
        self.people.push(self.project, "ines", "release", self.project.bare.sha("main"))
        self.people.propose(self.project, "ines", "other", {"two": "2\n"}, base="release")
        self.people.close(self.people.propose(self.project, "ines", "third", {"two": "3\n"}), "ines")
        self.hub.world.clock.advance(5)
        self.people.comment(one, "vera", "hello")
        for query, due in (
            ("", [2, 1]), ("?state=all", [3, 2, 1]), ("?state=closed", [3]), ("?base=release", [2]), ("?head=team:topic", [1]),
            ("?sort=updated&direction=desc", [1, 2]), ("?sort=updated", [2, 1]), ("?sort=created&direction=asc", [1, 2]),
        ):
            self.assertEqual([it["number"] for it in self.look(f"{HERE}/pulls{query}")], due, query)

    def test_comments_since_a_time(self):
        change = self.people.propose(self.project, "ines", "topic", {"one": "1\n"})
        other = self.people.propose(self.project, "ines", "other", {"two": "2\n"})
        self.hub.world.clock.stop()
        first = self.people.comment(change, "vera", "one")
        self.people.comment(other, "vera", "two")
        self.hub.world.clock.advance(10)
        self.people.comment(change, "otto", "three")
        self.people.edit_comment(first, "vera", "one again")
        path = f"{HERE}/issues/comments"
        shown = self.look(path)
        self.assertEqual([it["body"] for it in shown], ["one again", "two", "three"])
        self.assertEqual([it["issue_url"].rpartition("/")[2] for it in shown], ["1", "2", "1"])
        self.assertEqual([it["user"]["login"] for it in shown], ["vera", "vera", "otto"])
        since = shown[2]["created_at"]
        found = self.look(f"{path}?since={since}&sort=updated&direction=asc")
        self.assertEqual([it["body"] for it in found], ["one again", "three"])
        self.assertEqual([it["body"] for it in self.look(f"{HERE}/issues/1/comments")], ["one again", "three"])
        self.assertEqual([it["body"] for it in self.look(f"{path}?sort=created&direction=desc&per_page=1")], ["three"])
        self.people.delete_comment(first, "vera")
        self.assertEqual([it["body"] for it in self.look(path)], ["two", "three"])


class IssueTests(WithGitHub):
    """Issues that are no changes have numbers and comments of the same rows."""

    def test_an_issue_between_changes(self):
        self.people.propose(self.project, "ines", "topic", {"one": "1\n"})
        issue = self.people.open_issue(self.project, "otto", "It doesn't work")
        self.people.propose(self.project, "ines", "other", {"two": "2\n"})
        receiver = self.receive()
        self.people.comment(issue, "vera", "bors r+")
        self.assertEqual([it["number"] for it in self.look(f"{HERE}/pulls")], [3, 1])
        self.refused(404, "Not Found", f"{HERE}/pulls/2")
        self.assertEqual([it["issue_url"][-2:] for it in self.look(f"{HERE}/issues/comments")], ["/2"])
        self.assertEqual([it["body"] for it in self.look(f"{HERE}/issues/2/comments")], ["bors r+"])
        found = ["pull_request" in self.look(f"{HERE}/issues/{number}") for number in (1, 2, 3)]
        self.assertEqual(found, [True, False, True])
        self.assertEqual(self.names(receiver), ["ping", "issue_comment.created"])
        self.assertNotIn("pull_request", receiver.received[1].json["issue"])
        self.assertEqual(self.ask(f"{HERE}/issues/2/comments", method="POST", given={"body": "no change"}).status, 201)


class TagTests(WithGitHub):
    """What hasn't changed isn't sent again, and doesn't count."""

    def test_a_tag_that_is_still_right(self):
        self.people.propose(self.project, "ines", "topic", {"one": "1\n"})
        for path in (HERE, f"{HERE}/pulls", f"{HERE}/pulls/1", f"{HERE}/commits/main/status", f"{HERE}/issues/comments"):
            tag = self.ask(path).headers["ETag"]
            before = self.ask("/rate_limit").json["resources"]["core"]["used"]
            got = self.ask(path, headers={"If-None-Match": tag})
            self.assertEqual((got.status, got.body, got.headers["ETag"]), (304, b"", tag))
            self.assertEqual(self.ask("/rate_limit").json["resources"]["core"]["used"], before)
        self.people.comment(self.project.pulls[1], "vera", "hello")
        self.assertEqual(self.ask(path, headers={"If-None-Match": tag}).status, 200)

    def test_a_tag_is_another_one_for_another_token(self):
        tag = self.ask(HERE).headers["ETag"]
        self.assertEqual(self.ask(HERE, headers={"If-None-Match": f'"x", {tag}'}).status, 304)
        self.assertEqual(self.ask(HERE, headers={"If-None-Match": tag}, token=self.hub.installation_token()).status, 200)


class LimitTests(WithGitHub):
    """Requests are counted."""

    def test_each_request_counts(self):
        first = self.ask(HERE).headers
        second = self.ask(HERE).headers
        self.assertEqual(int(first["X-RateLimit-Remaining"]) - int(second["X-RateLimit-Remaining"]), 1)
        self.assertEqual((first["X-RateLimit-Limit"], first["X-RateLimit-Resource"]), ("5000", "core"))

    def test_a_limit_that_is_reached(self):
        self.hub.world.clock.stop()
        self.hub.rest.exhaust(30)
        got = self.refused(403, f"API rate limit exceeded for installation ID {self.app.installation}.", HERE)
        self.assertEqual(got.headers["X-RateLimit-Remaining"], "0")
        self.assertNotIn("Retry-After", got.headers)
        self.assertEqual(int(got.headers["X-RateLimit-Reset"]), self.hub.world.clock.now() + 30)
        self.assertEqual(self.look("/rate_limit")["rate"]["remaining"], 0)
        # Other tokens of the installation have the same limit, and people have theirs.
        self.assertEqual(self.ask(HERE, token=self.hub.installation_token()).status, 403)
        self.assertEqual(self.ask(HERE, token=self.token_of("ines")).status, 200)
        self.hub.world.clock.advance(31)
        self.assertEqual(self.ask(HERE).status, 200)


class ShownTests(WithGitHub):
    """What the API says of changes, commits and people."""

    def test_a_change(self):
        change = self.people.propose(self.project, "ines", "topic", {"one": "1\n"}, draft=True, body="why")
        self.people.label(change, "vera", "waits")
        shown = self.look(f"{HERE}/pulls/1")
        due = {
            "number": 1, "state": "open", "draft": True, "merged": False, "mergeable": True, "body": "why", "commits": 1, "additions": 1,
            "changed_files": 1, "merge_commit_sha": self.project.bare.sha("refs/pull/1/merge"),
        }
        self.assertEqual({key: shown[key] for key in due}, due)
        self.assertEqual([it["name"] for it in shown["labels"]], ["waits"])
        self.assertEqual((shown["head"]["sha"], shown["head"]["ref"], shown["head"]["label"]), (change.head_sha, "topic", "team:topic"))
        self.assertEqual((shown["base"]["ref"], shown["base"]["sha"]), ("main", self.project.bare.sha("main")))
        self.assertEqual((shown["user"]["login"], shown["user"]["type"]), ("ines", "User"))
        # A list says less.
        self.assertEqual({"merged", "mergeable", "comments"} & {*self.look(f"{HERE}/pulls")[0]}, set())

    def test_a_change_from_a_fork(self):
        fork = self.people.fork("otto", self.project)
        self.people.propose(self.project, "otto", "topic", {"one": "1\n"}, fork=fork)
        shown = self.look(f"{HERE}/pulls/1")
        self.assertEqual((shown["head"]["repo"]["full_name"], shown["head"]["repo"]["fork"]), ("otto/project", True))
        self.assertEqual(self.look("/repos/otto/project")["parent"]["full_name"], "team/project")

    def test_a_change_from_a_fork_that_is_gone(self):
        fork = self.people.fork("otto", self.project)
        change = self.people.propose(self.project, "otto", "topic", {"one": "1\n"}, fork=fork)
        self.people.delete_fork(fork)
        shown = self.look(f"{HERE}/pulls/1")
        self.assertEqual((shown["state"], shown["head"]["repo"], shown["head"]["label"]), ("open", None, "otto:topic"))
        self.assertEqual(shown["head"]["sha"], self.project.bare.sha("refs/pull/1/head"))
        self.refused(404, "Not Found", "/repos/otto/project")
        self.assertRaises(NotPossible, self.people.reopen, change, "otto")
        self.people.push(self.project, "vera", "main", change.head_sha)
        self.assertEqual(self.look(f"{HERE}/pulls/1")["merged"], True)

    def test_the_clock_of_the_server(self):
        self.hub.world.clock.advance(3 * 24 * 3600)
        said = parsedate_to_datetime(self.ask("/rate_limit", token=self.token_of("ines")).headers["Date"])
        self.assertAlmostEqual(said.timestamp(), self.hub.world.clock.now(), delta=60)

    def test_the_ref_of_a_change(self):
        change = self.people.propose(self.project, "ines", "topic", {"one": "1\n"})
        self.assertEqual(self.look(f"{HERE}/git/ref/pull/1/head")["object"]["sha"], change.head_sha)
        self.assertEqual(self.look(f"{HERE}/commits/{change.head_sha[:9]}")["sha"], change.head_sha)
        self.assertEqual(self.look(f"{HERE}/commits/heads/topic/status")["sha"], change.head_sha)
        self.assertEqual([it["sha"] for it in self.look(f"{HERE}/pulls/1/commits")], [change.head_sha])

    def test_a_change_that_conflicts(self):
        self.people.propose(self.project, "ines", "topic", {"README": "one\n"})
        self.people.push_files(self.project, "vera", "main", {"README": "two\n"})
        shown = self.look(f"{HERE}/pulls/1")
        self.assertEqual((shown["mergeable"], shown["mergeable_state"]), (False, "dirty"))

    def test_a_change_that_is_for_another_branch_then(self):
        change = self.people.propose(self.project, "ines", "topic", {"one": "1\n"})
        self.people.push(self.project, "ines", "release", self.project.bare.sha("main"))
        receiver = self.receive()
        self.people.retarget(change, "ines", "release")
        self.people.edit(change, "ines", title="Another title")
        self.names(receiver)
        told = [it.json["changes"] for it in receiver.received[1:]]
        self.assertEqual(told, [
            {"base": {"ref": {"from": "main"}, "sha": {"from": self.project.bare.sha("main")}}}, {"title": {"from": "A change"}}])
        self.assertEqual(self.look(f"{HERE}/pulls/1")["base"]["ref"], "release")

    def test_reviews(self):
        change = self.people.propose(self.project, "ines", "topic", {"one": "1\n"})
        head = change.head_sha
        review = self.people.review(change, "vera", "APPROVED")
        self.people.push_files(self.project, "ines", "topic", {"one": "2\n"})
        self.people.review(change, "otto", "CHANGES_REQUESTED", "no")
        shown = self.look(f"{HERE}/pulls/1/reviews")
        self.assertEqual([(it["user"]["login"], it["state"], it["commit_id"]) for it in shown], [
            ("vera", "APPROVED", head), ("otto", "CHANGES_REQUESTED", change.head_sha)])
        self.people.dismiss(review, "root")
        self.assertEqual(self.look(f"{HERE}/pulls/1/reviews")[0]["state"], "DISMISSED")

    def test_the_combined_status_has_the_newest_of_each_name(self):
        sha = self.project.bare.sha("main")
        path = f"{HERE}/commits/{sha}/status"
        self.assertEqual({key: self.look(path)[key] for key in ("state", "total_count")}, {"state": "pending", "total_count": 0})
        for name, state in (("build", "failure"), ("lint", "success"), ("build", "success")):
            self.people.status(self.project, "ines", sha, name, state)
        shown = self.look(path)
        self.assertEqual((shown["state"], shown["sha"]), ("success", sha))
        self.assertEqual([(it["context"], it["state"]) for it in shown["statuses"]], [("build", "success"), ("lint", "success")])
        # Here it isn't said who gave it.
        self.assertNotIn("creator", shown["statuses"][0])
        every = self.look(f"{HERE}/commits/main/statuses")
        self.assertEqual([(it["context"], it["state"]) for it in every], [("build", "success"), ("lint", "success"), ("build", "failure")])
        self.people.status(self.project, "ines", sha, "build", "error")
        self.assertEqual(self.look(path)["state"], "failure")

    def test_check_runs(self):
        sha = self.project.bare.sha("main")
        run = self.people.check_run(self.project, sha, "build", "in_progress")
        self.people.check_run(self.project, sha, "lint", conclusion="failure")
        self.people.check_run(self.project, sha, "lint", conclusion="neutral")
        path = f"{HERE}/commits/{sha}/check-runs"
        shown = {it["name"]: (it["status"], it["conclusion"]) for it in self.look(path)["check_runs"]}
        self.assertEqual(shown, {"build": ("in_progress", None), "lint": ("completed", "neutral")})
        self.people.finish_run(self.project, run, "cancelled")
        self.assertEqual(self.look(f"{path}?check_name=build")["check_runs"][0]["conclusion"], "cancelled")
        self.assertEqual([self.look(f"{path}?{it}")["total_count"] for it in ("filter=all", "status=queued")], [3, 0])

    def test_roles(self):
        for login, permission, role in (
            ("root", "admin", "admin"), ("vera", "write", "maintain"), ("ines", "write", "write"), ("otto", "read", "read"),
            ("stranger", "read", "read"), ("INES", "write", "write"),
        ):
            self.people.user(login)
            shown = self.look(f"{HERE}/collaborators/{login}/permission")
            self.assertEqual((shown["permission"], shown["role_name"]), (permission, role))
        self.assertEqual(self.look(f"{HERE}/collaborators/vera/permission")["user"]["permissions"], {
            "pull": True, "triage": True, "push": True, "maintain": True, "admin": False})
        self.refused(404, "nobody-there is not a user", f"{HERE}/collaborators/nobody-there/permission")

    def test_what_the_app_writes(self):
        change = self.people.propose(self.project, "ines", "topic", {"one": "1\n"})
        receiver = self.receive()
        got = self.ask(f"{HERE}/issues/1/comments", method="POST", given={"body": "approved"})
        self.assertEqual((got.status, got.headers["Location"]), (201, got.json["url"]))
        self.assertEqual((got.json["user"]["login"], got.json["user"]["type"]), ("gate[bot]", "Bot"))
        given = {"state": "pending", "context": "gate", "description": "place 3", "target_url": "http://localhost/queue"}
        got = self.ask(f"{HERE}/statuses/{change.head_sha}", method="POST", given=given)
        self.assertEqual((got.status, {key: got.json[key] for key in given}), (201, given))
        self.assertEqual(self.names(receiver), ["ping", "issue_comment.created", "status"])
        self.assertEqual(self.look("/users/gate%5Bbot%5D")["type"], "Bot")


class GuardTests(WithGitHub):
    """What a doctor asks for."""

    def test_a_branch_that_nothing_protects(self):
        self.assertEqual(self.look(f"{HERE}/branches/main")["protected"], False)
        self.refused(404, "Branch not protected", f"{HERE}/branches/main/protection")
        self.assertEqual((self.look(f"{HERE}/rules/branches/main"), self.look(f"{HERE}/rulesets")), ([], []))

    def test_a_branch_protected_in_the_older_way(self):
        self.people.protect(self.project, "main", apps=["gate"], users=["root"], checks=["build"], reviews=1)
        shown = self.look(f"{HERE}/branches/main/protection")
        self.assertEqual([it["slug"] for it in shown["restrictions"]["apps"]], ["gate"])
        self.assertEqual([it["login"] for it in shown["restrictions"]["users"]], ["root"])
        self.assertEqual(shown["required_status_checks"]["contexts"], ["build"])
        self.assertEqual((shown["enforce_admins"]["enabled"], shown["allow_force_pushes"]["enabled"]), (True, False))
        shown = self.look(f"{HERE}/branches/main")
        self.assertEqual((shown["protected"], shown["commit"]["sha"]), (True, self.project.bare.sha("main")))

    def test_a_ruleset(self):
        ruleset = self.people.add_ruleset(self.project, "the queue", ["~DEFAULT_BRANCH"], ("update", "deletion"), apps=[self.app.id])
        self.assertEqual([it["type"] for it in self.look(f"{HERE}/rules/branches/main")], ["update", "deletion"])
        self.assertEqual(self.look(f"{HERE}/rules/branches/other"), [])
        shown = self.look(f"{HERE}/rulesets/{ruleset.id}")
        self.assertEqual((shown["enforcement"], shown["current_user_can_bypass"]), ("active", "always"))
        # Who may pass by is shown to those who may change it, and nobody else.
        self.assertNotIn("bypass_actors", shown)
        shown = self.look(f"{HERE}/rulesets/{ruleset.id}", token=self.token_of("root"))
        self.assertEqual(shown["bypass_actors"], [{"actor_id": self.app.id, "actor_type": "Integration", "bypass_mode": "always"}])
        self.assertEqual(shown["current_user_can_bypass"], "never")

    def test_webhooks_of_a_repository(self):
        self.people.add_hook("http://127.0.0.1:1/hook", "secret", self.project, ["push"])
        self.hub.webhooks.wait()
        shown = self.look(f"{HERE}/hooks")[0]
        self.assertEqual((shown["events"], shown["active"], shown["config"]["secret"]), (["push"], True, "********"))


if __name__ == "__main__":
    unittest.main()
