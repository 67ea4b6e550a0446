"""Tests of what goes wrong with the server that speaks as GitHub does, when a test wants it to. `.ci/test_gate_host` runs them."""
import hashlib
import hmac
import http.client
import sys
import threading
import time
import unittest
from pathlib import Path

sys.path[:0] = [str(Path(__file__).resolve().parent)]

from with_github import HERE, SECRET, WithGitHub  # noqa: E402

# What a client sees of a connection that is cut before anything comes, and of an answer that is cut.
NOTHING, HALF = (http.client.RemoteDisconnected, ConnectionError), http.client.IncompleteRead


class FaultTests(WithGitHub):
    """Requests that are refused or cut."""

    def setUp(self):
        super().setUp()
        self.change = self.people.propose(self.project, "ines", "topic", {"one": "1\n"})
        self.path = f"{HERE}/issues/1/comments"

    def comment(self, body="hello"):
        return self.ask(self.path, method="POST", given={"body": body})

    def bodies(self):
        return [it.body for it in self.project.comments.values()]

    def test_a_limit_with_retry_after(self):
        self.switches.retry_after("issues/*", 7, times=2)
        for _ in range(2):
            got = self.comment()
            self.assertEqual((got.status, got.headers["Retry-After"]), (403, "7"))
            self.assertIn("secondary rate limit", got.json["message"])
        self.assertEqual(self.bodies(), [])
        self.assertEqual(self.comment().status, 201)
        self.switches.retry_after("*", 1, status=429)
        self.assertEqual([self.ask(HERE).status, self.ask(HERE).status], [429, 200])

    def test_a_status_of_500(self):
        self.switches.fail("pulls/get", 502, times=None, skip=1)
        self.assertEqual([self.ask(f"{HERE}/pulls/1").status for _ in range(3)], [200, 502, 502])
        got = self.ask(f"{HERE}/pulls/1")
        self.assertTrue(got.body.startswith(b"<html>"))
        self.assertEqual(self.ask(f"{HERE}/pulls").status, 200)
        self.switches.clear()
        self.assertEqual(self.ask(f"{HERE}/pulls/1").status, 200)

    def test_a_connection_cut_before_the_request_acts(self):
        self.switches.cut("issues/create-comment", "before")
        self.assertRaises(NOTHING, self.comment)
        self.assertEqual(self.bodies(), [])
        self.assertEqual([(it.status, it.acted) for it in self.switches.asked("issues/create-comment")], [(0, False)])

    def test_a_connection_cut_after_the_request_has_acted(self):
        receiver = self.receive()
        self.switches.cut("issues/create-comment", "after")
        self.assertRaises(NOTHING, self.comment)
        self.assertEqual(self.bodies(), ["hello"])
        self.assertEqual(self.names(receiver), ["ping", "issue_comment.created"])
        self.assertEqual([(it.status, it.acted) for it in self.switches.asked("issues/create-comment")], [(0, True)])
        self.assertEqual(self.comment("again").status, 201)
        self.assertEqual(self.bodies(), ["hello", "again"])

    def test_a_connection_cut_within_the_answer(self):
        self.switches.cut("issues/create-comment", "within")
        self.assertRaises(HALF, self.comment)
        self.assertEqual(self.bodies(), ["hello"])

    def test_a_request_that_waits(self):
        self.switches.delay("pulls/get", 0.3)
        before = time.monotonic()
        self.look(f"{HERE}/pulls/1")
        self.assertGreaterEqual(time.monotonic() - before, 0.3)

    def test_a_push_that_acted_and_whose_answer_was_lost(self):
        place = self.clone()
        made = self.commit(place, {"new": "new\n"})
        for when, is_there in (("before", False), ("after", True)):
            self.switches.cut("git/receive-pack", when, times=None)
            ran = self.git("push", self.address(self.token), f"HEAD:refs/heads/{when}", at=place)
            self.assertNotEqual(ran.returncode, 0)
            self.switches.clear()
            self.assertEqual(self.project.bare.sha(f"refs/heads/{when}") == made, is_there)

    def test_the_record(self):
        self.comment()
        self.ask(f"{HERE}/pulls?state=open", token=self.token_of("ines"))
        self.ask(f"{HERE}/nothing", headers={"Authorization": None})
        found = [(it.method, it.path, it.query, it.operation, it.token, it.status) for it in self.switches.asked()]
        self.assertEqual(found, [
            ("POST", f"/api/v3{self.path}", "", "issues/create-comment", "installation:1", 201),
            ("GET", f"/api/v3{HERE}/pulls", "state=open", "pulls/list", "user:ines", 200),
            ("GET", f"/api/v3{HERE}/nothing", "", "unknown", "none", 404),
        ])
        self.assertEqual(len(self.switches.asked("pulls/*", status=200)), 1)
        self.assertEqual(len(self.switches.asked(method="POST")), 1)
        self.assertEqual(self.switches.asked()[0].headers["User-Agent"], "a test")
        said = repr(self.switches.asked())
        self.assertEqual([it in said for it in (self.token, self.token_of("ines"), "Authorization")], [False] * 3)

    def test_many_at_once(self):
        """Switches are set while requests come."""
        found = []

        def ask():
            for _ in range(10):
                found.append(self.ask(f"{HERE}/pulls").status)
        threads = [threading.Thread(target=ask) for _ in range(4)]
        for thread in threads:
            thread.start()
        for _ in range(10):
            self.switches.fail("pulls/list", 500)
            self.people.push_files(self.project, "ines", "topic", {"one": f"{time.time()}\n"})
        for thread in threads:
            thread.join(60)
        found += [self.ask(f"{HERE}/pulls").status for _ in range(11)]
        self.assertEqual((found.count(500), found.count(200)), (10, 41))


class MomentTests(WithGitHub):
    """What others do at a named moment."""

    def test_a_push_before_and_after_a_request(self):
        place = self.clone()
        first = self.project.bare.sha("main")
        self.commit(place, {"new": "new\n"})

        def push():
            self.people.push_files(self.project, "root", "main", {"else": "1\n"})
        # The main branch moves after git has seen where it is, and before it is pushed.
        self.switches.before("git/receive-pack", push)
        ran = self.git("push", f"--force-with-lease=main:{first}", self.address(self.token), "HEAD:main", at=place)
        self.assertNotEqual(ran.returncode, 0, ran.stderr)
        self.assertIn("remote rejected", ran.stderr)
        self.assertEqual(self.must_git("--git-dir", self.project.bare.path, "show", "main:else"), "1")

    def test_the_second_request_of_a_route(self):
        self.people.propose(self.project, "ines", "topic", {"one": "1\n"})
        self.switches.before("pulls/get", lambda: self.people.label(self.project.pulls[1], "vera", "before"), count=2)
        self.switches.after("pulls/get", lambda: self.people.label(self.project.pulls[1], "vera", "after"), count=2)
        found = []
        for _ in range(3):
            found.append([it["name"] for it in self.look(f"{HERE}/pulls/1")["labels"]])
            self.look(f"{HERE}/pulls")
        self.assertEqual(found, [[], ["before"], ["before", "after"]])

    def test_who_asks_the_server_at_such_a_moment(self):
        self.switches.before("repos/get", lambda: self.look(f"{HERE}/pulls"))
        self.look(HERE)
        self.assertEqual([it.operation for it in self.switches.asked()], ["repos/get", "pulls/list"])


class WebhookTests(WithGitHub):
    """Webhooks that are lost, come twice, late, or out of order."""

    def setUp(self):
        super().setUp()
        self.change = self.people.propose(self.project, "ines", "topic", {"one": "1\n"})
        self.receiver = self.receive()
        self.receiver.received.clear()

    def say(self, *bodies):
        for body in bodies:
            self.people.comment(self.change, "vera", body)

    def bodies(self):
        self.names(self.receiver)
        return [it.json["comment"]["body"] for it in self.receiver.received]

    def test_headers_and_the_signature(self):
        self.say("hello, ä")
        self.names(self.receiver)
        got = self.receiver.received[0]
        for name, kind in (("X-Hub-Signature-256", "sha256"), ("X-Hub-Signature", "sha1")):
            due = f"{kind}=" + hmac.new(SECRET.encode(), got.body, getattr(hashlib, kind)).hexdigest()
            self.assertTrue(hmac.compare_digest(got.headers[name], due))
        self.assertEqual((got.headers["X-GitHub-Event"], got.headers["Content-Type"]), ("issue_comment", "application/json"))
        self.assertRegex(got.headers["X-GitHub-Delivery"], r"\A[0-9a-f]{8}(-[0-9a-f]{4}){3}-[0-9a-f]{12}\Z")
        self.assertTrue(got.headers["User-Agent"].startswith("GitHub-Hookshot/"))
        self.assertEqual(got.headers["X-GitHub-Hook-Installation-Target-ID"], str(self.app.id))

    def test_in_order(self):
        self.say(*"abcdef")
        self.assertEqual(self.bodies(), [*"abcdef"])
        self.assertEqual(len({it.headers["X-GitHub-Delivery"] for it in self.receiver.received}), 6)

    def test_lost(self):
        self.hub.webhooks.lost = True
        self.say("a")
        self.hub.webhooks.lost = lambda event, payload: payload["comment"]["body"] == "c"
        self.say("b", "c", "d")
        self.assertEqual(self.bodies(), ["b", "d"])
        self.assertEqual(len(self.look(f"{HERE}/issues/comments")), 4)

    def test_doubled(self):
        self.hub.webhooks.doubled = True
        self.say("a", "b")
        self.assertEqual(sorted(self.bodies()), ["a", "a", "b", "b"])
        # The second one is the first one again.
        self.assertEqual(len({it.headers["X-GitHub-Delivery"] for it in self.receiver.received}), 2)

    def test_late(self):
        self.hub.webhooks.late = lambda event, payload: 1.5 if payload["comment"]["body"] == "a" else 0
        before = time.monotonic()
        self.say("a", "b", "c")
        self.assertEqual(self.bodies(), ["b", "c", "a"])
        self.assertGreaterEqual(time.monotonic() - before, 1.5)

    def test_held_and_out_of_order(self):
        self.hub.webhooks.held = True
        self.say("a", "b", "c")
        self.assertEqual(self.bodies(), [])
        self.hub.webhooks.release()
        self.assertEqual(self.bodies(), ["c", "b", "a"])
        self.hub.webhooks.held = True
        self.say("d", "e", "f")
        self.hub.webhooks.release(lambda them: [them[1], them[0], them[2]])
        self.say("g")
        self.assertEqual(self.bodies()[3:], ["e", "d", "f", "g"])

    def test_held_and_sent_while_others_speak(self):
        """What sends and what tells wait for each other nowhere."""
        def speak():
            for number in range(20):
                self.people.comment(self.change, "vera", str(number))
        threads = [threading.Thread(target=speak, daemon=True) for _ in range(3)]
        for thread in threads:
            thread.start()
        for _ in range(50):
            self.hub.webhooks.held = True
            self.hub.webhooks.release()
        for thread in threads:
            thread.join(60)
        self.hub.webhooks.release()
        self.assertEqual(sorted(self.bodies()), sorted([str(it) for it in range(20)] * 3))

    def test_what_a_late_one_says_is_old(self):
        self.hub.webhooks.held = True
        head = self.change.head_sha
        self.people.label(self.change, "vera", "waits")
        self.people.push_files(self.project, "ines", "topic", {"one": "2\n"})
        self.hub.webhooks.release()
        self.names(self.receiver)
        self.assertEqual([it.name for it in self.receiver.received], ["pull_request.synchronize", "push", "pull_request.labeled"])
        self.assertEqual(self.receiver.received[2].json["pull_request"]["head"]["sha"], head)

    def test_a_receiver_that_refuses_gets_it_once(self):
        self.receiver.status = 500
        self.say("a")
        self.assertEqual(self.bodies(), ["a"])
        sent = self.hub.webhooks.deliveries[-1]
        self.assertEqual(sent.statuses, [500])
        self.receiver.status = 202
        self.hub.webhooks.again(sent)
        self.assertEqual(self.bodies(), ["a", "a"])
        self.assertEqual(len({it.headers["X-GitHub-Delivery"] for it in self.receiver.received}), 1)

    def test_a_receiver_that_is_away(self):
        self.receiver.close()
        self.say("a")
        self.hub.webhooks.wait()
        self.assertEqual(self.hub.webhooks.deliveries[-1].statuses, [0])

    def test_events_that_a_hook_doesnt_want(self):
        self.hub.world.hooks[0].events = ["push"]
        self.say("a")
        self.people.push_files(self.project, "ines", "topic", {"one": "2\n"})
        self.assertEqual(self.names(self.receiver), ["push"])

    def test_the_hook_of_a_repository_has_no_installation(self):
        self.people.add_hook(self.receiver.url, SECRET, self.project, ["issue_comment"])
        self.say("a")
        self.names(self.receiver)
        found = {it.headers["X-GitHub-Hook-Installation-Target-Type"]: "installation" in it.json for it in self.receiver.received[1:]}
        self.assertEqual(found, {"integration": True, "repository": False})


if __name__ == "__main__":
    unittest.main()
