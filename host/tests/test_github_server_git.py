"""Tests of the git of the server that speaks as GitHub does, by the real git. `.ci/test_gate_host` runs them."""
import sys
import unittest
from pathlib import Path

sys.path[:0] = [str(Path(__file__).resolve().parent)]

from with_github import WithGitHub  # noqa: E402


class FetchTests(WithGitHub):
    """Who may read."""

    def test_clones_a_public_repository_without_a_token(self):
        self.must_git("clone", "--quiet", self.address(), "clone")
        self.assertEqual((self.room / "clone/README").read_text(encoding="utf-8"), "hello\n")

    def test_clones_without_git_at_the_end_of_the_address(self):
        self.must_git("clone", "--quiet", self.address()[:-len(".git")], "clone")

    def test_fetches_the_heads_of_changes_forks_included(self):
        one = self.people.propose(self.project, "ines", "topic", {"one": "1\n"})
        fork = self.people.fork("otto", self.project)
        two = self.people.propose(self.project, "otto", "topic", {"two": "2\n"}, fork=fork)
        clone = self.clone()
        self.must_git("fetch", "--quiet", "origin", "+refs/pull/*/head:refs/pulls/*", at=clone)
        found = [self.must_git("rev-parse", f"refs/pulls/{number}", at=clone) for number in (1, 2)]
        self.assertEqual(found, [one.head_sha, two.head_sha])
        self.assertEqual(self.must_git("show", "refs/pulls/2:two", at=clone), "2")

    def test_fetches_what_was_pushed_to_a_fork_later(self):
        fork = self.people.fork("otto", self.project)
        self.people.propose(self.project, "otto", "topic", {"two": "2\n"}, fork=fork)
        place = self.clone(self.token_of("otto"), "otto/project")
        self.must_git("checkout", "--quiet", "topic", at=place)
        made = self.commit(place, {"two": "3\n"})
        self.must_git("push", "--quiet", "origin", "topic", at=place)
        clone = self.clone()
        self.must_git("fetch", "--quiet", "origin", "refs/pull/1/head", at=clone)
        self.assertEqual(self.must_git("rev-parse", "FETCH_HEAD", at=clone), made)

    def test_fetches_a_commit_by_its_name(self):
        change = self.people.propose(self.project, "ines", "topic", {"one": "1\n"})
        clone = self.clone()
        self.people.push_files(self.project, "ines", "topic", {"one": "2\n"})
        self.must_git("fetch", "--quiet", "origin", change.head_sha, at=clone)

    def test_the_record_has_the_requests_without_the_token(self):
        self.must_git("clone", "--quiet", self.address(self.token), "clone")
        asked = self.switches.asked("git/*")
        self.assertEqual({it.operation for it in asked}, {"git/info-refs", "git/upload-pack"})
        # Git asks without a password first, and is told to come with one only where that is needed.
        self.assertEqual({it.token for it in asked}, {"none"})
        self.assertNotIn(self.token, repr(self.switches.asked()))


class PrivateTests(WithGitHub):
    """A repository that not everybody sees."""

    private = True

    def test_asks_for_a_password(self):
        ran = self.git("clone", "--quiet", self.address(), "clone")
        self.assertNotEqual(ran.returncode, 0)
        self.assertEqual([it.status for it in self.switches.asked("git/*")][:1], [401])

    def test_clones_with_a_token_of_the_app_and_of_a_person(self):
        self.clone()
        self.clone(self.token_of("otto"))
        self.assertIn("installation:1", {it.token for it in self.switches.asked("git/*")})

    def test_a_wrong_and_an_expired_token(self):
        ran = self.git("clone", "--quiet", self.address("ghs_wrong"), "clone")
        self.assertIn("Authentication failed", ran.stderr)
        self.hub.tokens.expire()
        ran = self.git("clone", "--quiet", self.address(self.token), "clone")
        self.assertIn("Invalid username or token", ran.stderr)
        self.assertIn("expired", {it.token for it in self.switches.asked("git/*")})

    def test_who_may_not_see_it_finds_nothing(self):
        ran = self.git("clone", "--quiet", self.address(self.token_of("stranger")), "clone")
        self.assertIn("Repository not found", ran.stderr)


class PushTests(WithGitHub):
    """Who may write."""

    def setUp(self):
        super().setUp()
        self.place = self.clone()
        self.made = self.commit(self.place, {"new": "new\n"})

    def push(self, token, *words):
        return self.git("push", self.address(token), *words, at=self.place)

    def test_the_app_and_who_writes_push(self):
        for name, token in (("staging", self.token), ("topic", self.token_of("ines"))):
            ran = self.push(token, f"HEAD:refs/heads/{name}")
            self.assertEqual(ran.returncode, 0, ran.stderr)
            self.assertEqual(self.project.bare.sha(f"refs/heads/{name}"), self.made)

    def test_others_are_refused(self):
        for token, words in (
            ("", "Authentication failed"), ("ghs_wrong", "Authentication failed"),
            (self.token_of("otto"), "Permission to team/project.git denied to otto."),
        ):
            ran = self.push(token, "HEAD:refs/heads/topic")
            self.assertEqual((ran.returncode != 0, words in ran.stderr), (True, True), ran.stderr)
        self.assertIsNone(self.project.bare.sha("refs/heads/topic"))

    def test_an_app_without_the_permission_is_refused(self):
        self.app.permissions["contents"] = "read"
        ran = self.push(self.hub.installation_token(), "HEAD:refs/heads/topic")
        self.assertIn("Write access to repository not granted", ran.stderr)

    def test_the_app_pushes_to_no_fork_and_to_no_repository_that_its_token_isnt_for(self):
        fork = self.people.fork("otto", self.project)
        ran = self.git("push", self.address(self.token, "otto/project"), "HEAD:refs/heads/topic", at=self.place)
        self.assertIn("Write access to repository not granted", ran.stderr)
        self.assertIsNone(fork.bare.sha("refs/heads/topic"))
        other = self.hub.tokens.give(self.app, dict(self.app.permissions), [self.project.id + 1]).text
        self.assertIn("Write access to repository not granted", self.push(other, "HEAD:refs/heads/topic").stderr)

    def test_nobody_pushes_to_the_refs_of_changes(self):
        change = self.people.propose(self.project, "ines", "topic", {"one": "1\n"})
        for token in (self.token, self.token_of("root")):
            for ref in ("refs/pull/1/head", "refs/pull/1/merge", "refs/pull/2/head"):
                ran = self.push(token, f"+HEAD:{ref}")
                self.assertIn("deny updating a hidden ref", ran.stderr)
            self.push(token, ":refs/pull/1/head")
        self.assertEqual(self.project.bare.sha("refs/pull/1/head"), change.head_sha)
        self.assertIsNone(self.project.bare.sha("refs/pull/2/head"))

    def test_a_lease_that_is_broken(self):
        """The main branch moves only from where it was seen."""
        before = self.project.bare.sha("main")
        self.people.push_files(self.project, "vera", "main", {"else": "1\n"})
        ran = self.push(self.token, f"--force-with-lease=refs/heads/main:{before}", "HEAD:refs/heads/main")
        self.assertIn("stale info", ran.stderr)
        ran = self.push(self.token, "HEAD:refs/heads/main")
        self.assertIn("[rejected]", ran.stderr)

    def test_a_great_push(self):
        """It comes in chunks."""
        (self.place / "great").write_bytes(b"".join(str(it * 7919 % 1000003).encode() for it in range(700000)))
        self.commit(self.place, {})
        ran = self.git("-c", "core.compression=0", "-c", "http.postBuffer=65536", "push", self.address(self.token), "HEAD:refs/heads/topic",
                       at=self.place)
        self.assertEqual(ran.returncode, 0, ran.stderr)
        sent = [it for it in self.switches.asked("git/receive-pack") if it.headers.get("Transfer-Encoding") == "chunked"]
        self.assertEqual(len(sent), 1)

    def test_a_push_is_followed_by_its_webhooks_and_the_refs_of_changes(self):
        change = self.people.propose(self.project, "ines", "topic", {"one": "1\n"})
        receiver = self.receive()
        ran = self.push(self.token_of("ines"), "+HEAD:refs/heads/topic")
        self.assertEqual(ran.returncode, 0, ran.stderr)
        self.assertEqual(self.names(receiver), ["ping", "push", "pull_request.synchronize"])
        self.assertEqual((change.head_sha, self.project.bare.sha("refs/pull/1/head")), (self.made, self.made))
        self.assertEqual(receiver.received[1].json["forced"], True)
        self.assertEqual(receiver.received[2].json["after"], self.made)


class ProtectedTests(WithGitHub):
    """A branch that not everybody may move."""

    def setUp(self):
        super().setUp()
        self.place = self.clone()
        self.first = self.project.bare.sha("main")
        self.made = self.commit(self.place, {"new": "new\n"})

    def tried(self, login, *words):
        token = self.token if login == "gate" else self.token_of(login)
        return self.git("push", self.address(token), *words, at=self.place)

    def only_the_app_pushes(self, code, words):
        for login in ("ines", "vera", "root"):
            ran = self.tried(login, "HEAD:refs/heads/main")
            self.assertEqual((code in ran.stderr, words in ran.stderr), (True, True), ran.stderr)
        self.assertEqual(self.project.bare.sha("main"), self.first)
        # Other branches go through in the same push.
        self.assertIn("[new branch]", self.tried("ines", "HEAD:refs/heads/main", "HEAD:refs/heads/topic").stderr)
        ran = self.tried("gate", "HEAD:refs/heads/main")
        self.assertEqual(ran.returncode, 0, ran.stderr)
        self.assertEqual(self.project.bare.sha("main"), self.made)

    def test_protected_in_the_older_way(self):
        self.people.protect(self.project, "main", apps=["gate"])
        self.only_the_app_pushes("GH006", "You're not authorized to push to this branch.")
        ran = self.tried("gate", "--force", f"{self.first}:refs/heads/main")
        self.assertIn("Cannot force-push to this branch", ran.stderr)
        ran = self.tried("gate", ":refs/heads/main")
        self.assertNotEqual(ran.returncode, 0)
        self.assertEqual(self.project.bare.sha("main"), self.made)

    def test_protected_by_a_ruleset(self):
        self.people.add_ruleset(self.project, "the queue", ["~DEFAULT_BRANCH"], ("update", "deletion"), apps=[self.app.id])
        self.only_the_app_pushes("GH013", "Cannot update this protected ref.")

    def test_a_commit_without_the_checks_that_are_required(self):
        self.people.protect(self.project, "main", apps=["gate"], checks=["build", "lint"])
        self.people.push(self.project, "ines", "staging", self.project.bare.sha("main"))
        self.assertEqual(self.tried("gate", "HEAD:refs/heads/staging").returncode, 0)
        self.people.status(self.project, "ines", self.made, "build", "success")
        ran = self.tried("gate", "HEAD:refs/heads/main")
        self.assertIn("2 of 2 required status checks are expected.", ran.stderr)
        self.people.check_run(self.project, self.made, "lint", conclusion="failure")
        self.assertNotEqual(self.tried("gate", "HEAD:refs/heads/main").returncode, 0)
        self.people.check_run(self.project, self.made, "lint", conclusion="skipped")
        ran = self.tried("gate", "HEAD:refs/heads/main")
        self.assertEqual(ran.returncode, 0, ran.stderr)

    def test_a_ruleset_that_requires_checks(self):
        ruleset = self.people.add_ruleset(self.project, "checks", ["~ALL"], ())
        ruleset.rules.append({"type": "required_status_checks", "parameters": {
            "strict_required_status_checks_policy": False, "required_status_checks": [{"context": "build"}]}})
        ran = self.tried("gate", "HEAD:refs/heads/main")
        self.assertIn('- Required status check "build" is expected.', ran.stderr)
        self.people.status(self.project, "ines", self.made, "build", "success")
        self.assertEqual(self.tried("gate", "HEAD:refs/heads/main").returncode, 0)

    def test_a_ruleset_that_isnt_at_work(self):
        self.people.add_ruleset(self.project, "later", ["refs/heads/main"], apps=[self.app.id], enforcement="disabled")
        self.assertEqual(self.tried("ines", "HEAD:refs/heads/main").returncode, 0)

    def test_who_passes_a_ruleset_by_as_a_role(self):
        self.people.add_ruleset(self.project, "admins", ["refs/heads/ma*"], roles=[5])
        self.assertIn("GH013", self.tried("vera", "HEAD:refs/heads/main").stderr)
        self.assertIn("GH013", self.tried("gate", "HEAD:refs/heads/main").stderr)
        self.assertEqual(self.tried("root", "HEAD:refs/heads/main").returncode, 0)


class MergedTests(WithGitHub):
    """A change closes as merged when its head comes to its base branch."""

    def test_by_a_merge_that_is_pushed(self):
        change = self.people.propose(self.project, "ines", "topic", {"one": "1\n"})
        other = self.people.propose(self.project, "ines", "other", {"two": "2\n"})
        updated = change.updated_at
        receiver = self.receive()
        clone = self.clone()
        self.must_git("fetch", "--quiet", "origin", "refs/pull/1/head", at=clone)
        self.must_git("merge", "--quiet", "--no-ff", "-m", "merged", "FETCH_HEAD", at=clone)
        merge = self.must_git("rev-parse", "HEAD", at=clone)
        self.commit(clone, {}, "after it")
        self.hub.world.clock.advance(5)
        self.must_git("push", "--quiet", self.address(self.token), "HEAD:main", at=clone)
        self.assertEqual(self.names(receiver), ["ping", "push", "pull_request.closed"])
        told = receiver.received[2].json["pull_request"]
        self.assertEqual((told["merged"], told["merge_commit_sha"], told["merged_by"]["login"]), (True, merge, "gate[bot]"))
        self.assertEqual((change.state, change.merged, other.state), ("closed", True, "open"))
        self.assertGreater(change.updated_at, updated + 4)
        shown = self.look("/repos/team/project/pulls?state=closed")
        self.assertEqual([(it["number"], it["state"], it["merge_commit_sha"]) for it in shown], [(1, "closed", merge)])

    def test_not_as_long_as_github_takes_its_time(self):
        change = self.people.propose(self.project, "ines", "topic", {"one": "1\n"})
        self.hub.pushes.held = True
        self.people.push(self.project, "vera", "main", change.head_sha)
        self.assertEqual((change.state, self.project.bare.sha("main")), ("open", change.head_sha))
        self.hub.pushes.release()
        self.assertEqual((change.state, change.merged), ("closed", True))

    def test_a_branch_that_goes(self):
        change = self.people.propose(self.project, "ines", "topic", {"one": "1\n"})
        self.people.push(self.project, "ines", "topic", None)
        self.assertEqual((change.state, change.merged), ("closed", False))
        self.assertEqual(self.project.bare.sha("refs/pull/1/head"), change.head_sha)

    def test_a_push_to_a_closed_change_moves_nothing_until_it_is_open_again(self):
        change = self.people.propose(self.project, "ines", "topic", {"one": "1\n"})
        head = change.head_sha
        self.people.close(change, "ines")
        moved = self.people.push_files(self.project, "ines", "topic", {"one": "2\n"})
        self.assertEqual(self.project.bare.sha("refs/pull/1/head"), head)
        self.people.reopen(change, "ines")
        self.assertEqual((change.head_sha, self.project.bare.sha("refs/pull/1/head")), (moved, moved))


if __name__ == "__main__":
    unittest.main()
