"""Tests of the server that speaks as GitHub does, by real clients: PyGithub reads every object that it shows, attribute by attribute.

They need PyGithub, PyJWT, cryptography and httpx, which Debian has for its own Python. Another Python runs them by that one. Without the
packages they are skipped, and say so. `.ci/test_gate_host` runs them.
"""
import datetime
import importlib
import os
import subprocess
import sys
import time
import unittest
import warnings
from pathlib import Path
from unittest import mock

TESTS = Path(__file__).resolve().parent
sys.path[:0] = [str(TESTS)]

from with_github import HERE, SECONDS, WithGitHub  # noqa: E402

# Debian's own Python, and what it has for these tests.
PYTHON = "/usr/bin/python3"
PACKAGES = ("github", "jwt", "cryptography.hazmat.primitives.asymmetric.rsa", "cryptography.hazmat.primitives.serialization", "httpx")


def imported():
    """The packages, or the fault of the first one that isn't there."""
    try:
        return [importlib.import_module(name) for name in PACKAGES], ""
    except ImportError as fault:
        return [None] * len(PACKAGES), f"{sys.executable}: {fault}"


(github, jwt, rsa, serialization, httpx), MISSING = imported()


def load_tests(loader, tests, pattern):
    """All of these tests, or the one that has Debian's Python run them."""
    if not MISSING:
        return unittest.TestSuite(it for it in tests if not any(isinstance(case, ElsewhereTests) for case in it))
    return loader.loadTestsFromTestCase(ElsewhereTests)


class ElsewhereTests(unittest.TestCase):
    """The tests of this file, by another Python than this one."""

    def test_by_the_python_of_debian(self):
        said = MISSING
        if os.path.realpath(sys.executable) != os.path.realpath(PYTHON) and os.access(PYTHON, os.X_OK):
            ran = subprocess.run(
                [PYTHON, "-B", "-m", "unittest", "-v", Path(__file__).stem], cwd=TESTS, capture_output=True, encoding="utf-8",
                timeout=10 * SECONDS, check=False,
            )
            self.assertEqual(ran.returncode, 0, ran.stderr)
            lines = [line for line in ran.stderr.splitlines() if "skipped" in line]
            if not lines:
                self.assertRegex(ran.stderr, r"\nRan [1-9]\d* tests? in ")
                return
            said = lines[0]
        print(f"no tests of the server by real clients: {said}", file=sys.stderr)
        self.skipTest(said)


def make_keys():
    """The key of an app, and the public part of it."""
    key = rsa.generate_private_key(public_exponent=65537, key_size=2048)
    private = key.private_bytes(
        serialization.Encoding.PEM, serialization.PrivateFormat.TraditionalOpenSSL, serialization.NoEncryption())
    public = key.public_key().public_bytes(serialization.Encoding.PEM, serialization.PublicFormat.SubjectPublicKeyInfo)
    return private.decode(), public.decode()


class WithKeys(WithGitHub):
    """An app that has a key."""

    @classmethod
    def setUpClass(cls):
        cls.private_key, cls.public_key = make_keys()


class TokenTests(WithKeys):
    """What the app signs, and the tokens that it gets for that."""

    def signed(self, key=None, algorithm="RS256", **more):
        now = int(time.time())
        claims = {"iat": now - 60, "exp": now + 540, "iss": str(self.app.id), **more}
        return jwt.encode({name: it for name, it in claims.items() if it is not None}, key or self.private_key, algorithm=algorithm)

    def test_the_app_by_its_own_signature(self):
        shown = self.look("/app", token=self.signed())
        self.assertEqual((shown["id"], shown["slug"], shown["permissions"]["contents"]), (self.app.id, "gate", "write"))
        self.assertIn("pull_request_review", shown["events"])
        self.look("/app", token=self.signed(iss=self.app.id))

    def test_signatures_that_dont_count(self):
        now = int(time.time())
        other, _ = make_keys()
        for signed, words in (
            (self.signed(other), "could not be decoded"), (self.signed("a secret", "HS256"), "could not be decoded"),
            (self.signed(iss=None), "'iss'"), (self.signed(iat=now + 120), "'iat'"),
            (self.signed(iat=None), "'iat'"), (self.signed(exp=now - 5), "'exp'"), (self.signed(exp=None), "'exp'"),
            (self.signed(exp=now + 700), "too far in the future"), (self.signed()[:-4] + "AAAA", "could not be decoded"),
            ("a.b.c", "could not be decoded"),
        ):
            got = self.ask("/app", token=signed)
            self.assertEqual((got.status, words in got.json["message"]), (401, True), got.json)
        self.refused(404, "Integration not found", "/app", token=self.signed(iss="7"))
        # Without a signature at all.
        bare = jwt.encode({"iss": str(self.app.id), "iat": now, "exp": now + 60}, None, algorithm="none")
        self.assertEqual(self.ask("/app", token=bare).status, 401)

    def test_a_token_of_the_installation(self):
        path = f"/app/installations/{self.app.installation}/access_tokens"
        got = self.ask(path, method="POST", token=self.signed())
        self.assertEqual((got.status, got.json["repository_selection"]), (201, "all"))
        ends = datetime.datetime.strptime(got.json["expires_at"], "%Y-%m-%dT%H:%M:%SZ").replace(tzinfo=datetime.timezone.utc)
        self.assertAlmostEqual(ends.timestamp(), time.time() + 3600, delta=60)
        self.assertEqual(self.ask(HERE, token=got.json["token"]).status, 200)
        self.assertEqual(self.look("/installation/repositories", token=got.json["token"])["total_count"], 1)
        self.hub.world.clock.advance(3601)
        self.assertEqual(self.ask(HERE, token=got.json["token"]).status, 401)

    def test_a_token_for_less(self):
        path, signed = f"/app/installations/{self.app.installation}/access_tokens", self.signed()
        given = {"permissions": {"contents": "read"}, "repositories": ["project"]}
        got = self.ask(path, method="POST", token=signed, given=given)
        self.assertEqual((got.status, got.json["permissions"]), (201, {"contents": "read"}))
        self.assertEqual([it["name"] for it in got.json["repositories"]], ["project"])
        self.assertEqual(self.ask(f"{HERE}/pulls", token=got.json["token"]).status, 403)
        for given in ({"permissions": {"checks": "write"}}, {"permissions": {"secrets": "read"}}, {"repositories": ["other"]}):
            self.assertEqual(self.ask(path, method="POST", token=signed, given=given).status, 422)

    def test_an_installation_that_is_suspended(self):
        own, token = f"/app/installations/{self.app.installation}", self.hub.installation_token()
        self.assertIsNone(self.look(own, token=self.signed())["suspended_at"])
        self.app.suspended_at = self.hub.world.clock.now()
        self.assertRegex(self.look(own, token=self.signed())["suspended_at"], "^20.*Z$")
        self.refused(403, "This installation has been suspended", f"{own}/access_tokens", method="POST", token=self.signed())
        self.refused(403, "This installation has been suspended", HERE, token=token)

    def test_what_the_app_asks_for_and_was_not_given(self):
        self.app.requested = {**self.app.permissions, "workflows": "write"}
        self.assertEqual(self.look("/app", token=self.signed())["permissions"]["workflows"], "write")
        self.assertNotIn("workflows", self.look(f"/app/installations/{self.app.installation}", token=self.signed())["permissions"])

    def test_what_the_app_alone_may(self):
        path = f"/app/installations/{self.app.installation}/access_tokens"
        for token in (self.token, self.token_of("root")):
            self.assertEqual(self.ask(path, method="POST", token=token).status, 401)
        self.assertEqual(self.ask("/app/installations/7/access_tokens", method="POST", token=self.signed()).status, 404)
        self.assertEqual(self.ask(HERE, token=self.signed()).status, 403)

    def test_the_webhooks_of_the_app(self):
        self.receive()
        signed = self.signed()
        self.assertIn("/hook", self.look("/app/hook/config", token=signed)["url"])
        shown = self.look("/app/hook/deliveries", token=signed)
        self.assertEqual([(it["event"], it["status_code"]) for it in shown], [("ping", 202)])
        self.assertEqual(self.ask(f"/app/hook/deliveries/{shown[0]['id']}/attempts", method="POST", token=signed).status, 201)
        self.hub.webhooks.wait()
        self.assertEqual(self.look("/app/hook/deliveries", token=signed)[0]["redelivery"], True)


def read_all(it):
    """All attributes of an object of PyGithub, but for what it has of the headers."""
    return {name: getattr(it, name) for name, own in vars(type(it)).items() if isinstance(own, property)}


class ReadTests(WithKeys):
    """PyGithub reads what an adapter uses, and all else that it knows of these objects."""

    def setUp(self):
        super().setUp()
        # The client keeps its connections until it is gone.
        warnings.simplefilter("ignore", ResourceWarning)
        # It would ask a proxy that the environment names.
        direct = mock.patch.dict(os.environ, {"NO_PROXY": "127.0.0.1", "no_proxy": "127.0.0.1"})
        direct.start()
        self.addCleanup(direct.stop)
        integration = github.GithubIntegration(self.app.id, self.private_key, base_url=self.hub.api)
        self.given = integration.get_access_token(self.app.installation)
        self.integration = integration
        self.hub_of = {"app": self.client(self.given.token), "root": self.client(self.token_of("root"))}
        self.change = self.people.propose(self.project, "ines", "topic", {"one": "1\n"}, body="why")
        self.repository = self.hub_of["app"].get_repo("team/project")

    def client(self, token):
        return github.Github(token, base_url=self.hub.api, per_page=2, timeout=SECONDS)

    def reads(self, it, *nothing):
        """Reads all attributes. None but these is nothing, and the client asks no more for any of them."""
        before = len(self.switches.asked())
        found = read_all(it)
        asked = [one.path for one in self.switches.asked()[before:]]
        self.assertEqual(asked, [], f"{type(it).__name__} isn't whole")
        self.assertEqual({name for name, value in found.items() if value is None}, {*nothing})
        return found

    def test_a_token_of_the_installation(self):
        self.assertGreater(self.given.expires_at, datetime.datetime.utcnow())
        self.reads(self.given, "on_behalf_of")
        found = self.integration.get_installation("team", "project")
        self.assertEqual(found.id, self.app.installation)
        asked = self.switches.asked("repos/get")
        self.assertEqual({it.token for it in asked}, {"installation:2"})

    def test_the_repository(self):
        found = self.reads(
            self.repository, "description", "homepage", "language", "mirror_url", "parent", "source", "master_branch")
        self.assertEqual((found["full_name"], found["default_branch"], found["private"]), ("team/project", "main", False))
        self.assertEqual(found["clone_url"], f"{self.hub.url}/team/project.git")
        self.assertTrue(found["permissions"].push)

    def test_changes(self):
        self.people.label(self.change, "vera", "waits")
        self.people.comment(self.change, "vera", "hello")
        for number in (2, 3, 4, 5):
            self.people.propose(self.project, "ines", f"topic-{number}", {"two": f"{number}\n"}, draft=number == 3)
        found = {it.number: it for it in self.repository.get_pulls(state="open", base="main", sort="created", direction="asc")}
        self.assertEqual({number: it.draft for number, it in found.items()}, {1: False, 2: False, 3: True, 4: False, 5: False})
        self.assertEqual(len(self.switches.asked("pulls/list")), 3)
        one = found[1]
        said = (one.state, one.user.login, one.head.sha, one.head.repo.full_name, one.base.ref, [it.name for it in one.labels])
        self.assertEqual(said, ("open", "ines", self.change.head_sha, "team/project", "main", ["waits"]))
        self.assertEqual(one.updated_at, datetime.datetime.utcfromtimestamp(int(self.change.updated_at)))
        # A list doesn't say whether it is merged, so the client asks again.
        before = len(self.switches.asked("pulls/get"))
        self.assertEqual((one.merged, len(self.switches.asked("pulls/get")) - before), (False, 1))
        whole = self.reads(self.repository.get_pull(1), "assignee", "closed_at", "merged_at", "merged_by", "milestone")
        self.assertEqual((whole["comments"], whole["commits"], whole["mergeable"], whole["additions"]), (1, 1, True, 1))
        self.reads(self.repository.get_pull(1).head)
        for label in self.repository.get_pull(1).labels:
            self.reads(label, "description")

    def test_a_change_that_has_landed(self):
        merge = self.people.merge_by_button(self.change, "vera")
        found = self.reads(self.repository.get_pull(1), "assignee", "milestone", "mergeable", "rebaseable")
        self.assertEqual((found["merged"], found["state"], found["merge_commit_sha"], found["merged_by"].login), (
            True, "closed", merge, "vera"))

    def test_comments(self):
        for body in ("one", "two", "three"):
            self.people.comment(self.change, "vera", body)
        since = datetime.datetime.utcfromtimestamp(time.time() - 60)
        found = list(self.repository.get_issues_comments(sort="updated", direction="asc", since=since))
        self.assertEqual([it.body for it in found], ["one", "two", "three"])
        for it in found:
            self.reads(it)
        self.assertEqual({(it.user.login, it.user.type, it.issue_url.rpartition("/")[2]) for it in found}, {("vera", "User", "1")})
        made = self.repository.get_pull(1).create_issue_comment("approved <!-- gate:7:0 -->")
        self.reads(made)
        self.assertEqual((made.user.login, made.user.type), ("gate[bot]", "Bot"))
        self.assertEqual([it.id for it in self.repository.get_pull(1).get_issue_comments()], [*(it.id for it in found), made.id])
        self.assertEqual(sorted(it.id for it in found), [it.id for it in found])
        self.reads(self.repository.get_issue(1), "assignee", "closed_at", "closed_by", "milestone", "active_lock_reason")

    def test_reviews(self):
        self.people.review(self.change, "vera", "APPROVED", "good")
        self.people.review(self.change, "otto", "COMMENTED")
        found = list(self.repository.get_pull(1).get_reviews())
        self.assertEqual([(it.user.login, it.state, it.commit_id) for it in found], [
            ("vera", "APPROVED", self.change.head_sha), ("otto", "COMMENTED", self.change.head_sha)])
        for it in found:
            self.reads(it)

    def test_statuses(self):
        sha = self.change.head_sha
        commit = self.repository.get_commit(sha)
        self.people.status(self.project, "ines", sha, "build", "pending", "waits", "http://localhost/1")
        made = commit.create_status("success", "http://localhost/2", "landed", "gate")
        self.assertEqual(made.creator.login, "gate[bot]")
        self.reads(made)
        combined = commit.get_combined_status()
        self.assertEqual((combined.state, {it.context: it.state for it in combined.statuses}), (
            "pending", {"gate": "success", "build": "pending"}))
        self.reads(combined)
        # The combined status doesn't say who gave each.
        self.assertEqual([it.creator for it in combined.statuses], [None, None])
        for it in commit.get_statuses():
            self.reads(it)
        self.reads(commit)
        self.assertEqual(commit.commit.message, "A change")

    def test_check_runs(self):
        sha = self.change.head_sha
        self.people.check_run(self.project, sha, "build", "in_progress")
        self.people.check_run(self.project, sha, "lint", conclusion="failure")
        self.people.check_run(self.project, sha, "docs")
        found = {it.name: it for it in self.repository.get_commit(sha).get_check_runs()}
        self.assertEqual({name: (it.status, it.conclusion) for name, it in found.items()}, {
            "build": ("in_progress", None), "lint": ("completed", "failure"), "docs": ("completed", "success")})
        self.reads(found["lint"])
        self.reads(found["build"], "conclusion", "completed_at")
        self.assertEqual([it.number for it in found["lint"].pull_requests], [1])
        self.assertEqual(found["lint"].app.slug, "github-actions")
        self.reads(found["lint"].app)

    def test_people(self):
        for login, permission in (("root", "admin"), ("vera", "write"), ("ines", "write"), ("otto", "read")):
            self.assertEqual(self.repository.get_collaborator_permission(login), permission)
        self.assertEqual({it.login for it in self.repository.get_collaborators()}, {"ines", "vera", "otto", "root"})
        self.assertEqual(self.client(self.token_of("ines")).get_user().login, "ines")
        self.assertEqual(self.hub_of["app"].get_user("gate[bot]").type, "Bot")
        with self.assertRaises(github.GithubException) as caught:
            self.hub_of["app"].get_user().login
        self.assertEqual(caught.exception.status, 403)

    def test_branches(self):
        self.people.protect(self.project, "main", apps=["gate"], users=["root"], checks=["build"], reviews=1)
        branch = self.hub_of["root"].get_repo("team/project").get_branch("main")
        found = self.reads(branch)
        self.assertEqual((found["protected"], found["commit"].sha), (True, self.project.bare.sha("main")))
        guard = branch.get_protection()
        self.reads(guard)
        self.reads(guard.required_status_checks)
        self.assertEqual(guard.required_pull_request_reviews.required_approving_review_count, 1)
        self.assertEqual((guard.enforce_admins, guard.required_status_checks.contexts), (True, ["build"]))
        self.assertEqual({it.name: it.protected for it in self.repository.get_branches()}, {"main": True, "topic": False})

    def test_a_file(self):
        text = 'status = ["build"]\n' * 9
        self.people.push_files(self.project, "root", "main", {"bors.toml": text})
        self.people.push_files(self.project, "ines", "topic", {"bors.toml": "other\n"})
        found = self.repository.get_contents("bors.toml")
        self.reads(found, "license", "text_matches")
        self.assertEqual((found.decoded_content.decode(), found.type, found.size), (text, "file", len(text)))
        self.assertEqual(self.repository.get_contents("bors.toml", ref="topic").decoded_content, b"other\n")
        for path, ref in (("bors", "main"), ("bors.toml", "nowhere")):
            with self.assertRaises(github.GithubException) as caught:
                self.repository.get_contents(path, ref=ref)
            self.assertEqual(caught.exception.status, 404)

    def test_what_a_token_is_for(self):
        self.hub_of["root"].get_user().login
        self.assertEqual(self.hub_of["root"].oauth_scopes, ["repo", "workflow"])
        self.hub.world.user("vera").scopes = None
        client = self.client(self.token_of("vera"))
        client.get_user().login
        self.assertIsNone(client.oauth_scopes)
        self.assertIsNone(self.hub_of["app"].oauth_scopes)

    def test_webhooks_and_limits(self):
        self.people.add_hook("http://127.0.0.1:1/hook", "secret", self.project, ["push"])
        self.hub.webhooks.wait()
        hook, = self.hub_of["root"].get_repo("team/project").get_hooks()
        self.reads(hook)
        self.reads(hook.last_response)
        self.assertEqual((hook.events, hook.active), (["push"], True))
        limit = self.hub_of["app"].get_rate_limit()
        self.reads(limit)
        self.assertEqual((limit.core.limit, limit.core.remaining < 5000), (5000, True))

    def test_faults_as_the_client_sees_them(self):
        with self.assertRaises(github.UnknownObjectException):
            self.repository.get_pull(77)
        self.switches.retry_after("*", 3)
        with self.assertRaises(github.GithubException) as caught:
            self.repository.get_pull(1)
        self.assertEqual(caught.exception.status, 403)
        self.assertIn("secondary rate limit", caught.exception.data["message"])
        self.hub.rest.exhaust(60)
        with self.assertRaises(github.RateLimitExceededException):
            self.repository.get_pull(1)
        self.assertEqual(self.hub_of["app"].rate_limiting[0], 0)
        self.hub.tokens.expire()
        with self.assertRaises(github.BadCredentialsException):
            self.repository.get_pull(1)


class HttpxTests(WithGitHub):
    """Another client, which keeps its connection."""

    def test_one_connection_for_many_requests(self):
        self.people.propose(self.project, "ines", "topic", {"one": "1\n"})
        with httpx.Client(base_url=self.hub.api, headers={"Authorization": f"Bearer {self.token}"}, trust_env=False) as client:
            first = client.get(f"{HERE}/pulls", params={"per_page": 1})
            again = client.get(f"{HERE}/pulls", params={"per_page": 1}, headers={"If-None-Match": first.headers["etag"]})
            self.assertEqual((first.status_code, again.status_code, again.content), (200, 304, b""))
            self.assertEqual(client.post(f"{HERE}/issues/1/comments", json={"body": "hello"}).status_code, 201)
            self.switches.cut("pulls/list", "after")
            self.assertRaises(httpx.RemoteProtocolError, client.get, f"{HERE}/pulls")
            self.switches.cut("pulls/list", "within")
            self.assertRaises(httpx.RemoteProtocolError, client.get, f"{HERE}/pulls")
            self.assertEqual(client.get(f"{HERE}/pulls").status_code, 200)

    def test_links_as_the_client_reads_them(self):
        for number in range(3):
            self.people.propose(self.project, "ines", f"topic-{number}", {"one": f"{number}\n"})
        self.switches.page_size = 1
        with httpx.Client(headers={"Authorization": f"token {self.token}"}, trust_env=False) as client:
            found, url = [], f"{self.hub.api}{HERE}/pulls?per_page=100"
            while url:
                answer = client.get(url)
                found += [it["number"] for it in answer.json()]
                url = answer.links.get("next", {}).get("url")
        self.assertEqual(found, [3, 2, 1])


if __name__ == "__main__":
    unittest.main()
