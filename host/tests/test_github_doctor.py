"""Tests of `gate-host doctor` for a repository on GitHub, over the server for tests. test_github_doctor_rules.py tests what it decides."""
import contextlib
import io
import socket
import unittest

try:
    import cryptography
    import httpx
    import jwt
    import waitress
    has_libraries = None not in (cryptography, httpx, jwt, waitress)
except ImportError:
    has_libraries = False

from github_stories import PROGRAM, WithHost
from gate_host.commands import main
from test_github_server_clients import make_keys
from with_github import SECRET

NEEDED = {
    "metadata": "read", "contents": "write", "pull_requests": "write", "issues": "write", "statuses": "write", "checks": "read",
    "workflows": "write",
}
EVENTS = {
    "issue_comment": "Issue comment", "pull_request": "Pull request", "pull_request_review": "Pull request review", "push": "Push",
    "status": "Status", "check_run": "Check run",
}
NO_HOST = "WRONG: no host runs"


class WithDoctor(WithHost):
    """A host that isn't started, whose settings tests change. Most of them ask nothing of the bot, and do without its program."""

    private_key = ""
    no_program = "/bin/true"

    def make_host(self):
        super().make_host()
        self.set((f"program = {PROGRAM.resolve()}", f"program = {self.no_program}"))

    def take_program(self):
        """Has the bot's own program be there."""
        self.set((f"program = {self.no_program}", f"program = {PROGRAM.resolve()}"))

    def set(self, *changes):
        settings = self.folder / "gate/settings"
        text = settings.read_text(encoding="utf-8")
        for before, after in changes:
            self.assertIn(before, text)
            text = text.replace(before, after)
        settings.write_text(text, encoding="utf-8")

    def secret(self, name, text):
        path = self.folder / "gate/records" / name
        path.touch(0o600)
        path.write_text(text, encoding="utf-8")
        return path

    def doctor(self, *words):
        """The status, and what was said. No secret is said. To start a process for each would take minutes."""
        written = io.StringIO()
        with contextlib.redirect_stdout(written), contextlib.redirect_stderr(written):
            status = main(["doctor", str(self.folder), *words])
        said = written.getvalue()
        for secret in self.secrets():
            self.assertNotIn(secret, said)
        return status, said.splitlines()

    def secrets(self):
        lines = self.private_key.splitlines()[1:-1]
        return [SECRET, self.token, *self.hub.tokens.given, *(it.token for it in self.hub.world.users.values() if it.token), *lines]

    def wrong(self):
        """The lines that say what is wrong, but for the host that isn't started."""
        status, lines = self.doctor()
        self.assertEqual(status, 1, lines)
        return [line for line in lines if line.startswith("WRONG: ") and not line.startswith(NO_HOST)]

    def only(self, *texts):
        """What is wrong are lines with these texts, and no others."""
        lines = self.wrong()
        self.assertEqual(len(lines), len(texts), lines)
        for line, text in zip(lines, texts):
            self.assertIn(text, line)

    def notes(self):
        return [line for line in self.doctor()[1] if line.startswith("note: ")]


@unittest.skipUnless(has_libraries, "httpx, PyJWT, cryptography or waitress isn't installed")
class AppTests(WithDoctor):
    """A host by an app, which is set up as it should be before a test makes something wrong."""

    @classmethod
    def setUpClass(cls):
        cls.private_key, cls.public_key = make_keys()

    def setUp(self):
        super().setUp()
        self.app.permissions = dict(NEEDED)
        kinds = ("update", "deletion", "non_fast_forward")
        self.guard = self.people.add_ruleset(self.project, "guard", ["refs/heads/main"], kinds, apps=[self.app.id])

    def make_host(self):
        super().make_host()
        with socket.socket() as free:
            free.bind(("127.0.0.1", 0))
            self.port = free.getsockname()[1]
        records = self.folder / "gate/records"
        self.set(
            (f"token = {records / 'token'}\n", f"app = {self.app.id}\ninstallation = {self.app.installation}\nkey = {records / 'key'}\n"),
            ("listen = 127.0.0.1:0", f"listen = 127.0.0.1:{self.port}"),
        )
        self.key = self.secret("key", self.private_key)
        # Who has set nothing of webhooks up needs none.
        self.hook_secret = records / "webhook-secret"
        self.hook_secret.unlink()

    def take_webhooks(self, secret=SECRET):
        """Starts the receiver, and has GitHub send webhooks by a secret."""
        self.secret("webhook-secret", SECRET)
        self.start("receive")
        self.until("the receiver serves", lambda: "takes webhooks at " in self.errors.read_text(encoding="utf-8"))
        self.people.add_hook(f"http://127.0.0.1:{self.port}/webhook", secret)
        self.hub.webhooks.wait()

    def test_all_is_right(self):
        self.take_program()
        self.take_webhooks()
        self.start()
        self.until("the host has looked", lambda: (self.folder / "gate/reports/queue").exists())
        status, lines = self.doctor()
        self.assertEqual((status, [line for line in lines if line.startswith("WRONG")]), (0, []))
        for text in (
            "GitHub knows the app gate by its key", "the app is installed for team/project", "the permission Contents: Read and write",
            "the event Issue comment tells", "sends JSON, signed by a secret", "the last webhook was taken", "the receiver takes webhooks",
            "bors.toml of main asks for build", "the ruleset guard keeps all from moving main", "no rule keeps the host from moving main",
            "no rule keeps the host from pushing to staging", "no rule keeps the host from pushing to trying", "clock agrees with GitHub's",
            "a host runs",
        ):
            self.assertEqual(sum(line.startswith("right: ") and text in line for line in lines), 1, (text, lines))

    def test_each_permission_and_event(self):
        self.take_webhooks()
        self.only()
        for name, level in NEEDED.items():
            if name != "workflows":
                self.app.permissions = {**NEEDED, name: "read" if level == "write" else ""}
                self.only(f"lacks the permission {name.replace('statuses', 'commit statuses').capitalize().replace('_', ' ')}: ")
        self.app.permissions, self.app.requested = {**NEEDED, "checks": ""}, dict(NEEDED)
        self.only("isn't accepted yet: accept what the app asks for at http")
        self.app.permissions, self.app.requested = dict(NEEDED), None
        for name, page in EVENTS.items():
            self.app.events = [it for it in EVENTS if it != name]
            self.only(f"the event {page} is missing")

    def test_webhooks(self):
        self.assertTrue(any("asks GitHub every 20 seconds" in it for it in self.notes()))
        self.secret("webhook-secret", SECRET)
        self.only(f"nothing takes webhooks at 127.0.0.1:{self.port}")
        self.take_webhooks("another secret")
        self.only("the last webhook wasn't taken, but answered 401: GitHub and the receiver have different secrets")
        hook, = self.hub.world.hooks
        hook.secret = SECRET
        self.people.push_files(self.project, "ines", "topic", {"one": "1\n"})
        self.hub.webhooks.wait()
        self.only()
        hook.content_type = "form"
        self.only("choose the content type application/json at team's Settings > Developer settings > GitHub Apps > gate > General")
        hook.content_type, hook.secret = "json", ""
        self.only("has no secret")
        hook.secret = SECRET
        self.kill("receive")
        self.people.push_files(self.project, "ines", "topic", {"two": "2\n"})
        self.hub.webhooks.wait()
        self.only("nothing takes webhooks at", "the last webhook wasn't answered: GitHub doesn't reach http://127.0.0.1:")

    def test_rules_of_branches(self):
        self.only()
        self.guard.apps = []
        self.only("the rule Restrict updates for main refuses pushes of the host: add the app gate to the bypass list")
        self.guard.apps, self.guard.enforcement = [self.app.id], "disabled"
        self.only("all who may write may move main past the queue")
        self.people.protect(self.project, "main", apps=["gate"])
        self.only()
        self.assertTrue(any("who may push to main can't be told" in it for it in self.notes()))
        self.app.permissions = {**NEEDED, "administration": "read"}
        self.only()
        self.project.protections[0].apps, self.project.protections[0].reviews = [], 1
        self.only("doesn't let the host push: add the app gate", "by Require a pull request before merging")
        self.project.protections.clear()
        self.guard.enforcement = "active"
        self.people.add_ruleset(self.project, "linear", ["refs/heads/*"], ("required_linear_history", "non_fast_forward"))
        self.only(*(f"the rule {rule} refuses pushes of the host" for rule in (
            "Require linear history for main", "Require linear history for staging", "Block force pushes for staging",
            "Require linear history for trying", "Block force pushes for trying")))

    def test_statuses_that_a_rule_asks_for(self):
        self.take_program()
        needs = self.people.add_ruleset(self.project, "checks", ["refs/heads/main"], ())
        needs.rules = [{"type": "required_status_checks", "parameters": {"required_status_checks": [{"context": "build"}]}}]
        self.only()
        needs.rules[0]["parameters"]["required_status_checks"].append({"context": "lint"})
        self.only("add lint to status in bors.toml, or add the app gate to the bypass list, as Always allow, at Settings > Rules")

    def test_bors_toml_and_the_main_branch(self):
        self.take_program()
        self.people.push_files(self.project, "root", "main", {"bors.toml": "status = 7\n"})
        self.only("bors.toml of main isn't taken: status = 7 isn't taken")
        self.set(("main = main\n", "main = master\n"))
        self.only("master has no bors.toml", "team/project has no branch master")

    def test_the_clock(self):
        self.hub.world.clock.advance(95)
        line, = self.wrong()
        self.assertRegex(line, r"this machine's clock is 9[3-6] seconds behind GitHub's")
        # What the app signs was signed later than now, by GitHub's clock.
        self.hub.world.clock.advance(-95 - 125)
        refused, line = self.wrong()
        self.assertIn("GitHub doesn't take the credentials: 'Issued at' claim ('iat') must be", refused)
        self.assertRegex(line, r"this machine's clock is 12[4-7] seconds ahead of GitHub's")

    def test_an_app_that_isnt_at_work(self):
        self.app.suspended_at = self.hub.world.clock.now()
        self.only("the installation of the app is suspended, so it may do nothing: choose Unsuspend at http")
        self.app.suspended_at = None
        self.people.make_repository("eve", "project", files={"README": "x\n"})
        self.set(("repository = team/project", "repository = eve/project"))
        self.only("eve/project isn't among the repositories of the app")
        self.set(("repository = eve/project", "repository = team/project"), (f"installation = {self.app.installation}", "installation = 7"))
        self.only(f"the app gate has no installation 7: write installation = {self.app.installation} in {self.folder}/gate/settings")
        self.set(("installation = 7\n", ""))
        self.only()
        self.set(("repository = team/project", "repository = eve/project"))
        self.only("the app gate isn't installed for eve/project: choose Install App at team's Settings")
        self.set(("repository = eve/project", "repository = team/project"), (f"app = {self.app.id}", "app = 7"))
        self.only("GitHub knows no app 7. See that app = 7 is the App ID")

    def test_keys_that_arent_the_apps(self):
        other, _ = make_keys()
        self.key.write_text(other, encoding="utf-8")
        self.only("GitHub doesn't take the credentials: A JSON web token could not be decoded. See that app = ")
        asked = len(self.switches.asked())
        for text, due in (
            ("x", "has no private key"), (self.public_key, "has no private key"), (elliptic(), "of another kind than RSA"),
            (encrypted(), "behind a password"), ("", "has no secret"),
        ):
            self.key.write_text(text, encoding="utf-8")
            self.only(due)
        self.key.write_text(self.private_key, encoding="utf-8")
        self.key.chmod(0o640)
        self.only(f"others can read {self.key}, which has a secret; chmod 600 it")
        self.key.unlink()
        self.only(f"{self.key} can't be read")
        # Nothing was asked with any of these.
        self.assertEqual(len(self.switches.asked()), asked)

    def test_a_github_that_isnt_there(self):
        with socket.socket() as free:
            free.bind(("127.0.0.1", 0))
            port = free.getsockname()[1]
        self.set((f"api = {self.hub.api}", f"api = http://127.0.0.1:{port}"))
        self.only("what GitHub says can't be looked at: GitHub can't be reached")
        self.set((f"api = http://127.0.0.1:{port}", f"api = {self.hub.api}"))
        self.switches.fail("*", 502, None)
        self.only("what GitHub says can't be looked at: GitHub answers 502")

    def test_what_stands_here(self):
        self.set((f"program = {self.no_program}", "program = /nonexistent"))
        self.only("the program of the bot is /nonexistent, and isn't there; build it")
        self.assertTrue(any("what bors.toml of main asks for can't be told" in it for it in self.notes()))

    def test_a_move_of_the_main_branch_by_nobody_who_may(self):
        status, lines = self.doctor("--accept", "abcdef0")
        self.assertEqual((status, lines), (1, ["gate-host: there is no move of the main branch to abcdef0 that has to be accepted"]))
        self.take_program()
        self.start()
        self.until("the host knows the main branch", lambda: self.journal("base"))
        before = self.main()
        self.guard.enforcement = "disabled"
        moved = self.people.push_files(self.project, "root", "main", {"past": "the queue\n"})
        self.guard.enforcement = "active"
        queue = self.folder / "gate/reports/queue"
        self.until("the host tells of the move", lambda: queue.exists() and f"to {moved}" in queue.read_text(encoding="utf-8"))
        self.kill()
        self.only(f"the main branch was moved from {before} to {moved}")
        status, lines = self.doctor("--accept", moved[:10])
        self.assertEqual((status, lines), (0, [f"the host takes it that the move to {moved} was right, when it runs again"]))
        notes = [it for it in (self.folder / "gate/spool").iterdir() if it.is_file()]
        self.assertEqual([moved in it.read_text(encoding="utf-8") for it in notes], [True])


@unittest.skipUnless(has_libraries, "httpx, PyJWT, cryptography or waitress isn't installed")
class TokenTests(WithDoctor):
    """A host by a token of a user."""

    def setUp(self):
        super().setUp()
        (self.folder / "gate/records/webhook-secret").unlink()
        self.people.add_ruleset(self.project, "guard", ["refs/heads/main"], ("update",), roles=[4])

    def use(self, login):
        self.secret("token", self.token_of(login))
        return self.hub.world.user(login)

    def test_a_token_for_the_whole_repository(self):
        user = self.use("ines")
        self.only()
        lines = self.doctor()[1]
        for text in ("which is of ines", "ines may push to team/project", "has the scope repo", ".github/workflows may be pushed"):
            self.assertTrue(any(line.startswith("right: ") and text in line for line in lines), text)
        user.scopes = "read:user"
        self.only("the token lacks the scope repo")
        self.use("otto")
        self.only("otto may not push to team/project", "the rule Restrict updates for main refuses pushes of the host")

    def test_a_fine_grained_token(self):
        self.use("ines").scopes = None
        self.only()
        self.assertTrue(any("whether the token may write can't be told" in it for it in self.notes()))
        for route, page in (
            ("pulls/list", "Pull requests"), ("issues/list-comments-for-repo", "Issues"), ("checks/list-for-ref", "Checks"),
            ("repos/get-combined-status-for-ref", "Commit statuses"), ("repos/get-branch", "Contents"),
        ):
            self.switches.fail(route, 403, None, body={"message": "Resource not accessible by personal access token"})
            self.only(f"the permission {page} is for, and GitHub answers 403: choose it at")
            self.switches.clear()

    def test_a_token_of_an_installation(self):
        """GitHub doesn't say whose it is, nor whom the rules of branches let pass."""
        self.people.add_ruleset(self.project, "gate", ["refs/heads/main"], ("update",), apps=[self.app.id])
        self.only("at Settings > Rules > Rulesets > guard")
        self.assertIn("right: GitHub takes the token, which is of somebody whom GitHub doesn't name", self.doctor()[1])

    def test_tokens_that_arent_taken(self):
        token = self.secret("token", "ghp_nobodys")
        self.only(f"GitHub doesn't take the credentials: Bad credentials. The token may have ended: write another one into {token}")
        self.project.private = True
        self.people.set_role(self.project, "otto", "none")
        self.use("otto")
        self.only("with this token GitHub shows no team/project")

    def test_webhooks_of_the_repository(self):
        self.use("ines")
        self.secret("webhook-secret", SECRET)
        self.set(("listen = 127.0.0.1:0", f"listen = 127.0.0.1:{self.hub.port}"))
        self.assertTrue(any("the webhooks can't be looked at with this token" in it and "Issue comments" in it for it in self.notes()))
        self.use("root")
        self.assertTrue(any("none leads to an address that ends in /webhook" in it for it in self.notes()))
        self.people.add_hook("http://127.0.0.1:1/another", "x", self.project, ["push"])
        hook = self.people.add_hook(f"{self.hub.url}/webhook", SECRET, self.project, list(EVENTS))
        self.hub.webhooks.wait()
        # The server for tests is no receiver.
        self.only("the last webhook wasn't taken")
        hook.last_status = 202
        self.only()
        hook.active, hook.events = False, ["*"]
        self.only("isn't active: choose Active at the repository's Settings > Webhooks")
        hook.active, hook.events = True, [it for it in EVENTS if it != "check_run"]
        self.only("the event Check runs is missing")


def elliptic():
    """A private key that isn't one of RSA."""
    from cryptography.hazmat.primitives.asymmetric import ec
    from cryptography.hazmat.primitives.serialization import Encoding, NoEncryption, PrivateFormat
    return ec.generate_private_key(ec.SECP256R1()).private_bytes(Encoding.PEM, PrivateFormat.PKCS8, NoEncryption()).decode()


def encrypted():
    """A private key behind a password."""
    from cryptography.hazmat.primitives.asymmetric import rsa
    from cryptography.hazmat.primitives.serialization import BestAvailableEncryption, Encoding, PrivateFormat
    key = rsa.generate_private_key(public_exponent=65537, key_size=2048)
    return key.private_bytes(Encoding.PEM, PrivateFormat.PKCS8, BestAvailableEncryption(b"x")).decode()


if __name__ == "__main__":
    unittest.main()
