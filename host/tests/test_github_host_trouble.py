"""Stories of a host on GitHub in trouble: webhooks, the API, its own death, and people beside it. The end is the same."""
import os
import signal
import unittest
from pathlib import Path

try:
    import httpx
except ImportError:
    httpx = None

from github_stories import WithHost
from with_github import SECRET

# What the host asks and does, as the server names it.
KINDS = (
    "repos/get-branch", "pulls/list", "pulls/list-reviews", "issues/list-comments-for-repo", "repos/get-collaborator-permission-level",
    "repos/get-combined-status-for-ref", "checks/list-for-ref", "issues/list-comments", "issues/create-comment", "git/info-refs",
    "git/upload-pack", "git/receive-pack",
)
# With more time each kind of request is one at which the host dies.
IS_THOROUGH = bool(os.environ.get("GATE_STORY_THOROUGH"))


class Trouble(WithHost):
    """Two changes of which one lands and one doesn't, with the end that this has without trouble."""

    def begin(self):
        self.before = self.main()
        self.good = self.people.propose(self.project, "otto", "good", {"good": "1\n"}, "A good change")
        self.bad = self.people.propose(self.project, "otto", "bad", {"check": "bad\n"}, "A bad change")

    def comes_to_the_end(self):
        self.landed(self.good)
        self.told(self.bad, "fails the check build")
        self.assertEqual((self.bad.state, self.bad.merged), ("open", False))
        self.until("the branches are where they stay", lambda: self.main() != self.before)
        self.only_landings_are_on_main(self.before)
        for pull in (self.good, self.bad):
            self.texts(pull)
        self.nobody_is_told_twice(self.good, self.bad)
        self.causes_are_explained(good=None, bad=("Failed", "build"))

    def no_secret_is_found(self):
        """Each secret is in its own file alone, and in no address that was asked for."""
        # What works there makes files and removes them.
        for job in list(self.processes):
            self.kill(job)
        own = {self.token: "token", SECRET: "webhook-secret"}
        for path in [self.errors, *(it for it in self.folder.rglob("*") if it.is_file() and not it.is_symlink())]:
            try:
                content = path.read_bytes()
            except FileNotFoundError:
                # What a process of the host's that still ends has removed.
                continue
            for secret, name in own.items():
                if path != self.folder / "gate/records" / name:
                    self.assertNotIn(secret.encode(), content, path)
        for request in self.switches.asked():
            for secret in own:
                self.assertNotIn(secret, f"{request.path}?{request.query}")


@unittest.skipIf(httpx is None, "httpx isn't installed")
class WebhookTests(Trouble):
    def test_webhooks_that_are_doubled_and_out_of_order(self):
        self.begin()
        self.hub.webhooks.doubled = True
        self.hub.webhooks.late = lambda event, payload: len(str(payload)) % 4 * 0.4
        seen = []
        self.watch_arguments(seen)
        self.start_receiver()
        self.start()
        self.see(self.good, self.bad)
        self.hub.webhooks.held = True
        for pull in (self.good, self.bad):
            self.people.comment(pull, "ines", "bors r+")
        self.hub.webhooks.release()
        self.comes_to_the_end()
        self.no_secret_is_found()
        self.assertIn("push", seen)
        for secret in (self.token, SECRET):
            self.assertNotIn(secret, "\0".join(seen))

    def watch_arguments(self, seen):
        """Notes the arguments of all processes whenever git asks something."""
        def note():
            for path in Path("/proc").glob("[0-9]*/cmdline"):
                try:
                    seen.extend(path.read_bytes().decode(errors="replace").split("\0"))
                except OSError:
                    pass
        for number in range(1, 60):
            self.switches.before("git/*", note, number)


@unittest.skipIf(httpx is None, "httpx isn't installed")
class PollingTests(Trouble):
    poll_seconds = 0.5

    def test_without_webhooks(self):
        self.begin()
        self.start()
        self.approve(self.good, self.bad)
        self.comes_to_the_end()

    def test_trouble_of_the_api(self):
        self.begin()
        self.start()
        self.see(self.good, self.bad)
        comments = "issues/create-comment"
        self.switches.cut(comments, "after")
        self.switches.retry_after(comments, 1)
        self.switches.cut(comments, "within")
        self.switches.fail(comments, 502)
        self.switches.cut(comments, "before")
        for number, route in enumerate(KINDS[:7]):
            if number % 2:
                self.switches.fail(route, 500, skip=4)
            else:
                self.switches.cut(route, ("before", "after")[number // 2 % 2], skip=4)
        self.switches.retry_after("*", 1, skip=20)
        for pull in (self.good, self.bad):
            self.people.comment(pull, "ines", "bors r+")
        self.comes_to_the_end()
        self.assertEqual([it.route for it in self.switches.faults if it.times and it.route == comments], [])

    def test_a_push_to_main_from_outside_comes_first(self):
        self.people.protect(self.project, "main", apps=["gate"], users=["root"])
        self.begin()
        self.is_tested = False
        self.start()
        self.approve(self.good)
        self.until("it is staged", lambda: self.project.bare.sha("refs/heads/staging"))
        staged = self.project.bare.sha("refs/heads/staging")
        outside = []
        # When the host is about to push its landing, somebody else has pushed.
        self.switches.before("git/receive-pack", lambda: outside.append(
            self.people.push_files(self.project, "root", "main", {"outside": "1\n"}, "From outside")))
        self.is_tested = True
        self.landed(self.good)
        self.assertEqual(len(outside), 1)
        bare = self.project.bare
        self.assertTrue(bare.is_ancestor(outside[0], self.main()))
        self.assertFalse(bare.is_ancestor(staged, self.main()))
        self.assertTrue(self.tested[self.main()])
        self.nobody_is_told_twice(self.good)
        self.causes_are_explained(good=None, bad=None)


@unittest.skipIf(httpx is None, "httpx isn't installed")
class DeathTests(Trouble):
    poll_seconds = 0.5

    def setUp(self):
        super().setUp()
        self.deaths = []

    def has_ended(self, job, process):
        """A host that was killed is started again."""
        if process.returncode != -signal.SIGKILL or not self.deaths:
            super().has_ended(job, process)
        self.start(job)

    def die(self, operation, number):
        """Has the host killed at the next requests of a kind: first one that doesn't act any more, then one that has acted. So many acted
        and were answered before that."""
        for place, when in enumerate(("before", "after"), number):
            getattr(self.switches, when)(operation, lambda it=(operation, when): self.kill_host(it), place)

    def kill_host(self, which):
        self.deaths.append((*which, self.main() != self.before))
        self.processes["run"].send_signal(signal.SIGKILL)

    def test_a_host_that_is_killed_at_each_kind_of_request(self):
        self.begin()
        self.start()
        self.see(self.good, self.bad)
        kinds = KINDS if IS_THOROUGH else ("issues/create-comment",)
        for kind in kinds:
            self.switches.cut(kind, "before")
            self.die(kind, 1)
        # The pushes before these are of the branch staging: one, and the one at which the host died. The next two are of the main branch.
        self.switches.cut("git/receive-pack", "before", skip=1)
        self.die("git/receive-pack", 3 if IS_THOROUGH else 2)
        self.people.comment(self.good, "ines", "bors r+")
        self.landed(self.good)
        self.people.comment(self.bad, "ines", "bors r+")
        self.comes_to_the_end()
        self.until(f"all deaths come: {self.deaths}", lambda: len(self.deaths) == 2 * len(kinds) + 2)
        pushes = [(when, is_moved) for kind, when, is_moved in self.deaths if kind == "git/receive-pack"]
        self.assertEqual(pushes[-2:], [("before", False), ("after", True)])
        self.nobody_is_told_twice(self.good, self.bad)
        self.no_secret_is_found()


if __name__ == "__main__":
    unittest.main()
