"""Tests of what the doctor makes of GitHub's answers: permissions, events, webhooks, rules of branches and the clock, all as values."""
import importlib.util
import socket
import sys
import unittest
from pathlib import Path
from unittest import mock

sys.path.insert(0, str(Path(__file__).resolve().parent.parent))

from gate_host.github.doctor import libraries_checked, receiver_checked  # noqa: E402
from gate_host.github.permissions import (  # noqa: E402
    App, Installation, app_checked, app_in, events_checked, installation_in, permissions_checked, reads_checked, scopes_checked, scopes_in,
    token_checked, writes_not_known,
)
from gate_host.github.protection import (  # noqa: E402
    Branch, Host, Older, Rule, Ruleset, main_checked, older_in, rule_in, ruleset_in, tests_checked,
)
from gate_host.github.settings import github_in  # noqa: E402
from gate_host.github.webhooks import (  # noqa: E402
    Ends, Webhook, clock_checked, no_webhooks, seconds_ahead, webhook_checked, webhook_of_app, webhook_of_repository,
)
from gate_host.places import Places  # noqa: E402

# What the host needs, and the files of workflows.
PERMISSIONS = {
    "metadata": "read", "contents": "write", "pull_requests": "write", "issues": "write", "statuses": "write", "checks": "read",
    "workflows": "write",
}
PAGES = {
    "metadata": "Metadata", "contents": "Contents", "pull_requests": "Pull requests", "issues": "Issues", "statuses": "Commit statuses",
    "checks": "Checks",
}
EVENTS = frozenset({"issue_comment", "pull_request", "pull_request_review", "push", "status", "check_run"})
PAGE = "https://github.com/organizations/team/settings/installations/34"
ENDS = Ends("the place", "/s", "127.0.0.1:8097")
GATE, INES = Host("gate", True), Host("ines", False)


def app(permissions):
    return App("gate", "Gate", "team", permissions)


def installation(permissions=PERMISSIONS, is_suspended=False):
    return Installation(34, "team", PAGE, permissions, EVENTS, is_suspended)


class Decisions(unittest.TestCase):
    def said(self, checks, *due):
        """Each line has a word at its front, and the text that is due somewhere in it."""
        lines = [it.line for it in checks]
        self.assertEqual([line.partition(": ")[0] for line in lines], [word for word, _ in due], lines)
        for line, (_, text) in zip(lines, due):
            self.assertIn(text, line)


class HereTests(Decisions):
    """What is looked at without asking GitHub."""

    def given(self, text):
        found = github_in(f"[host]\n[github]\nrepository = o/r\n{text}\n")
        self.assertIsNotNone(found)
        return found

    def test_libraries(self):
        of_token, of_app = self.given("token = /t"), self.given("app = 12\ninstallation = 34\nkey = /k")
        for missing, due in (
            ((), ["right", "right"]), (("httpx",), ["WRONG", "WRONG"]), (("jwt",), ["right", "WRONG"]),
            (("cryptography",), ["right", "WRONG"]),
        ):
            with mock.patch.object(importlib.util, "find_spec", lambda name: None if name in missing else name):
                found = [it for given in (of_token, of_app) for it in libraries_checked(given)]
            self.assertEqual([it.line.partition(": ")[0] for it in found], due, missing)
            for name in missing:
                self.assertIn(f"this Python has no {name}; Debian has them as python3-{name}", found[1].said)

    def test_the_receiver(self):
        places = Places(Path("/host"))
        with socket.create_server(("127.0.0.1", 0)) as taken:
            port = taken.getsockname()[1]
            for listen in (f"127.0.0.1:{port}", f"*:{port}"):
                self.said([receiver_checked(places, listen)], ("right", f"takes webhooks at {listen}"))
        self.said([receiver_checked(places, f"127.0.0.1:{port}")], ("WRONG", "gate-host receive /host starts the receiver"))
        self.said([receiver_checked(places, "127.0.0.1:0")], ("note", "names no port"))


class PermissionTests(Decisions):
    def lines(self, granted, asked=None):
        return [it.line for it in permissions_checked(app(granted if asked is None else asked), installation(granted))]

    def test_all_that_is_needed(self):
        lines = self.lines(PERMISSIONS)
        self.assertEqual([line for line in lines if not line.startswith("right: ")], [])
        for page in PAGES.values():
            self.assertEqual(sum(f"permission {page}: " in line for line in lines), 1, page)
        # More than is needed is enough.
        self.assertEqual([it for it in self.lines({**PERMISSIONS, "checks": "write"}) if it.startswith("WRONG")], [])

    def test_each_permission_that_is_missing(self):
        for name, page in PAGES.items():
            for level in ("", "read") if PERMISSIONS[name] == "write" else ("",):
                granted = {**PERMISSIONS, name: level}
                choice = "Read and write" if PERMISSIONS[name] == "write" else "Read-only"
                line, = (it for it in self.lines(granted) if it.startswith("WRONG"))
                self.assertIn(f"lacks the permission {page}: {choice}", line)
                place = "team's Settings > Developer settings > GitHub Apps > Gate > Permissions & events > Repository permissions"
                self.assertIn(f"choose {choice} at {place} > {page}", line)
                self.assertIn(PAGE, line)
                # The app asks for it, and nobody has accepted it.
                line, = (it for it in self.lines(granted, PERMISSIONS) if it.startswith("WRONG"))
                self.assertIn(f"{page}: {choice}", line)
                self.assertIn(f"accept what the app asks for at {PAGE}", line)

    def test_permissions_that_matter_to_some(self):
        for granted, due in (
            ({}, []), ({"workflows": ""}, ["Workflows"]), ({"administration": "read"}, []),
            ({"administration": "write"}, ["Administration"]),
            ({"administration": "write", "workflows": ""}, ["Workflows", "Administration"]),
        ):
            notes = [it for it in self.lines({**PERMISSIONS, **granted}) if it.startswith("note: ")]
            self.assertEqual([name in line for name, line in zip(due, notes)], [True] * len(due), notes)
            self.assertEqual(len(notes), len(due), granted)

    def test_whether_the_app_is_at_work(self):
        for given, found, due in (
            (installation(), 34, [("right", "the app gate"), ("right", "installed for team/project")]),
            (installation(), None, [("right", "gate"), ("WRONG", f"choose it at {PAGE} under Repository access")]),
            (installation(), 35, [("right", "gate"), ("WRONG", "set installation = 35 in /settings")]),
            (installation(is_suspended=True), 34, [("right", "gate"), ("WRONG", f"choose Unsuspend at {PAGE}"), ("right", "installed")]),
        ):
            self.said(app_checked(app({}), given, "team/project", found, "/settings"), *due)

    def test_what_github_shows_of_an_app(self):
        owner = {"login": "team", "id": 1, "type": "Organization"}
        shown = {"id": 12, "slug": "gate", "name": "Gate", "owner": owner, "permissions": {"checks": "read"}, "events": ["push"]}
        self.assertEqual(app_in(shown), App("gate", "Gate", "team", {"checks": "read"}))
        given = {"id": 34, "account": owner, "html_url": PAGE, "permissions": PERMISSIONS, "events": list(EVENTS), "suspended_at": None}
        self.assertEqual(installation_in(given), installation())
        self.assertTrue(installation_in({**given, "suspended_at": "2024-01-01T00:00:00Z"}).is_suspended)

    def test_events(self):
        names = {
            "issue_comment": ("Issue comment", "Issue comments"), "pull_request": ("Pull request", "Pull requests"),
            "pull_request_review": ("Pull request review", "Pull request reviews"), "push": ("Push", "Pushes"),
            "status": ("Status", "Statuses"), "check_run": ("Check run", "Check runs"),
        }
        for is_app in (True, False):
            self.assertTrue(all(it.is_right for it in events_checked(EVENTS, "there", 20, is_app)))
            for name, pages in names.items():
                wrong = [it for it in events_checked(EVENTS - {name}, "there", 20, is_app) if not it.is_right]
                page = pages[0 if is_app else 1]
                self.said(wrong, ("WRONG", f"choose {page} at there"))
                self.assertIn("every 20 seconds", wrong[0].said)
        self.assertTrue(all(it.is_right for it in events_checked(frozenset({"*"}), "there", 20, False)))


class TokenTests(Decisions):
    def test_the_user_of_a_token(self):
        self.said(token_checked("ines", "o/r", True), ("right", "of ines"), ("right", "ines may push to o/r"))
        self.said(token_checked("ines", "o/r", False), ("right", "of ines"), ("WRONG", "choose the role Write"))
        self.said(token_checked(None, "o/r", True), ("right", "GitHub doesn't name"), ("right", "may push"))

    def test_scopes(self):
        self.assertIsNone(scopes_in(None))
        self.assertEqual((scopes_in(""), scopes_in("repo, workflow")), (frozenset(), frozenset({"repo", "workflow"})))
        for scopes, is_private, due in (
            ("repo, workflow", True, ["right", "right"]), ("repo", False, ["right", "note"]),
            ("public_repo, workflow", False, ["right", "right"]),
            ("public_repo, workflow", True, ["WRONG", "right"]), ("", False, ["WRONG", "note"]), ("repo:status", True, ["WRONG", "note"]),
        ):
            lines = [it.line.partition(": ")[0] for it in scopes_checked(scopes_in(scopes), is_private)]
            self.assertEqual(lines, due, scopes)
        place = "Settings of its user > Developer settings > Personal access tokens > Tokens (classic)"
        found = scopes_checked(frozenset({"repo"}), True)
        self.said(found, ("right", "the token has the scope repo"), ("note", f"choose the scope workflow at {place}"))
        self.said(scopes_checked(frozenset({"workflow"}), True), ("WRONG", f"lacks the scope repo: choose it at {place}"), ("right", ""))

    def test_what_was_tried(self):
        found = reads_checked({"Contents": None, "Checks": 403})
        self.said(found, ("right", "Contents"), ("WRONG", "GitHub answers 403: choose it at Settings of its user"))
        self.said([writes_not_known()], ("note", "Read and write for Contents, Pull requests, Issues, Commit statuses"))


class WebhookTests(Decisions):
    def hook(self, last=202, **more):
        usual = {"url": "https://h/webhook", "content_type": "json", "has_secret": True, "is_active": True, "events": EVENTS, "last": last}
        return Webhook(**{**usual, **more})

    def test_how_it_is_set(self):
        self.said(webhook_checked(self.hook(), ENDS), ("right", "https://h/webhook sends JSON, signed"), ("right", "was taken"))
        for more, text in (
            ({"is_active": False}, "choose Active at the place"), ({"content_type": "form"}, "choose the content type application/json"),
            ({"has_secret": False}, "write the one of /s at the place"),
        ):
            self.said(webhook_checked(self.hook(**more), ENDS), ("WRONG", text), ("right", "was taken"))

    def test_what_became_of_the_last_one(self):
        for last, word, text in (
            (None, "note", "no webhook"), (200, "right", "taken"), (202, "right", "taken"), (299, "right", "taken"),
            (0, "WRONG", "the last webhook wasn't answered: GitHub doesn't reach https://h/webhook"),
            (302, "WRONG", "GitHub doesn't follow"), (400, "WRONG", "application/json"),
            (401, "WRONG", "different secrets: write the same one into /s"), (404, "WRONG", "hand it to /webhook"),
            (502, "WRONG", "hands on to 127.0.0.1:8097"), (503, "WRONG", "can't keep it"), (504, "WRONG", "took too long"),
            (418, "WRONG", "answered 418"), (300, "WRONG", "answered 300"), (500, "WRONG", "answered 500"),
        ):
            self.said(webhook_checked(self.hook(last), ENDS), ("right", "signed"), (word, text))

    def test_what_github_shows(self):
        config = {"content_type": "json", "insecure_ssl": "0", "secret": "********", "url": "https://h/webhook"}
        rows = ((3, "2024-01-01T00:00:00Z", 401), (9, "2024-01-02T00:00:00Z", 202), (7, "2024-01-02T00:00:00Z", 500))
        deliveries = [{"id": number, "delivered_at": at, "status_code": status} for number, at, status in rows]
        self.assertEqual(webhook_of_app(config, EVENTS, deliveries), self.hook())
        self.assertEqual(webhook_of_app({}, EVENTS, []), Webhook("", "", False, True, EVENTS, None))
        last = {"code": 202, "status": "active", "message": "OK"}
        shown = {"active": True, "events": list(EVENTS), "config": config, "last_response": last}
        self.assertEqual(webhook_of_repository(shown), self.hook())
        unused = {**shown, "active": False, "last_response": {"code": None, "status": "unused", "message": None}}
        self.assertEqual(webhook_of_repository(unused), self.hook(None, is_active=False))

    def test_without_any(self):
        self.said([no_webhooks("there is none", 20.0)], ("note", "asks GitHub every 20 seconds"))

    def test_the_clock(self):
        now = 784111777.0
        self.assertEqual(seconds_ahead("Sun, 06 Nov 1994 08:49:37 GMT", now + 3), 3)
        self.assertEqual(seconds_ahead("Sun, 06 Nov 1994 08:49:37 GMT", now - 95), -95)
        self.assertEqual([seconds_ahead(text, now) for text in ("", "soon")], [None, None])
        for ahead, word, text in (
            (0, "right", "agrees"), (30, "right", "agrees"), (-30, "right", "agrees"), (31, "WRONG", "31 seconds ahead of"),
            (-95.2, "WRONG", "95 seconds behind"),
        ):
            self.said([clock_checked(ahead)], (word, text))


def branch(*rules, name="main", passes=True, others=(), **more):
    """A branch with rules of these kinds, all of one ruleset."""
    at_work = tuple(it if isinstance(it, Rule) else Rule(it, 1, "Settings > Rules > Rulesets") for it in rules)
    return Branch(name, rules=at_work, **{"rulesets": {1: Ruleset("guard", passes, others)}, **more})


def asks_for(*names):
    return Rule("required_status_checks", 1, "Settings > Rules > Rulesets", frozenset(names))


FREE = ("right", "no rule keeps the host from moving main")
ALONE = ("right", "the ruleset guard keeps all from moving main but those in its bypass list")
ANYBODY = ("WRONG", "all who may write may move main past the queue")
FREE_OF_TESTS = ("right", "no rule keeps the host from pushing to staging")
# The names that GitHub's pages have for what refuses a push that is no forced one.
NAMES = {
    "pull_request": "Require a pull request before merging", "merge_queue": "Require merge queue",
    "required_linear_history": "Require linear history", "required_signatures": "Require signed commits",
    "required_deployments": "Require deployments to succeed", "workflows": "Require workflows to pass before merging",
    "code_scanning": "Require code scanning results",
}


class RulesTests(Decisions):
    def main(self, given, *due, host=GATE, required=frozenset({"build"})):
        self.said(main_checked(given, host, required), *due)

    def staging(self, given, *due, host=GATE):
        self.said(tests_checked(given, host), *due)

    def test_who_moves_the_main_branch(self):
        self.main(branch(), ANYBODY, FREE)
        self.main(branch("deletion", "non_fast_forward", "creation"), ANYBODY, FREE)
        self.main(branch("update"), ALONE, FREE)
        self.main(branch("update", others=None), ALONE, ("note", "the bypass list of guard at Settings > Rules > Rulesets"), FREE)
        self.main(branch("update", others=("the role Admin",)), ALONE, ("note", "the role Admin may move main past the queue"), FREE)

    def test_who_passes_each_of_two_rulesets(self):
        """Others move the branch only if they pass both by, and so does the host."""
        rules = [Rule("update", number, "Settings > Rules > Rulesets") for number in (1, 2)]
        for second, due in (
            (Ruleset("other", True, ("a team",)), [ALONE, ("note", "a team may move"), FREE]),
            (Ruleset("other", True, ("an app",)), [ALONE, FREE]),
            (Ruleset("other", False, ("a team",)), [ALONE, ("note", "a team may move"), ("WRONG", "> Rulesets > other")]),
        ):
            self.main(branch(*rules, rulesets={1: Ruleset("guard", True, ("a team", "deploy keys")), 2: second}), *due)

    def test_the_remedy_names_who_has_to_pass(self):
        for host, text in ((GATE, "in the bypass list the app gate"), (INES, "a team or a role that ines alone has")):
            said = main_checked(branch(), host, None)[0].said
            for part in (text, "Restrict updates", "Target branches main", "Enforcement status: Active"):
                self.assertIn(part, said)

    def test_a_ruleset_that_keeps_the_host_out(self):
        out = ("WRONG", "the rule Restrict updates for main refuses pushes of the host: add the app gate to the bypass list")
        self.main(branch("update", passes=False), ALONE, out)
        # Without that rule all could move the branch.
        self.assertNotIn("take the rule off", main_checked(branch("update", passes=False), GATE, frozenset())[-1].said)
        self.main(branch("update", passes=None), ALONE, ("note", "which GitHub doesn't say"))
        unknown = (("right", "the ruleset 1 keeps all"), ("note", "the bypass list of 1"), ("note", "which GitHub doesn't say"))
        self.main(branch("update", rulesets={}), *unknown)

    def test_each_rule_that_keeps_the_host_out(self):
        for kind, name in NAMES.items():
            out = ("WRONG", f"the rule {name} for main refuses pushes of the host")
            self.main(branch(kind, passes=False), ANYBODY, out)
            self.assertIn("or take the rule off", main_checked(branch(kind, passes=False), GATE, frozenset())[-1].said)
            self.main(branch(kind), ANYBODY, FREE)
            self.staging(branch(kind, name="staging", passes=False), ("WRONG", f"the rule {name} for staging"))
            self.staging(branch(kind, name="staging"), FREE_OF_TESTS)
        self.main(branch("from_tomorrow", passes=False), ANYBODY, ("note", "the rule from_tomorrow for main may refuse"))
        self.main(branch("from_tomorrow"), ANYBODY, FREE)

    def test_statuses_that_a_rule_asks_for(self):
        self.main(branch(asks_for("build"), passes=False), ANYBODY, FREE, required=frozenset({"build", "lint"}))
        self.main(branch(asks_for("build", "lint"), passes=False), ANYBODY, FREE, required=frozenset({"build", "lint"}))
        out = ("WRONG", "add lint to status in bors.toml, or add the app gate to the bypass list")
        self.main(branch(asks_for("build", "lint"), passes=False), ANYBODY, out)
        self.main(branch(asks_for("build", "lint")), ANYBODY, FREE)
        self.main(branch(asks_for("build"), passes=False), ANYBODY, ("WRONG", "Require status checks to pass"), required=None)
        # What is to be tested has no status yet.
        self.staging(branch(asks_for("build"), name="staging", passes=False), ("WRONG", "Require status checks to pass for staging"))

    def test_rules_of_the_branches_of_tests(self):
        self.staging(branch(name="staging"), FREE_OF_TESTS)
        for kind, name in (("non_fast_forward", "Block force pushes"), ("update", "Restrict updates")):
            self.staging(branch(kind, name="staging", passes=False), ("WRONG", f"the rule {name} for staging"))
            self.staging(branch(kind, name="staging"), FREE_OF_TESTS)
        self.staging(branch("deletion", name="staging", passes=False), FREE_OF_TESTS)
        self.staging(branch("creation", name="staging", passes=False), FREE_OF_TESTS)
        self.staging(branch("creation", name="staging", passes=False, is_there=False), ("WRONG", "Restrict creations for staging"))

    def test_the_older_protection_of_the_main_branch(self):
        def older(**more):
            return branch(has_older=True, older=Older(**more))
        says = ("right", "the protection of main says who may push")
        unknown = ("note", "whether the protection of main keeps the host out can't be told")
        self.main(branch(has_older=True), ("note", "who may push to main can't be told"), unknown)
        self.main(branch("update", has_older=True), ALONE, unknown)
        self.main(older(), ANYBODY, FREE)
        self.main(older(pushers=frozenset({"the app gate"})), says, FREE)
        self.main(older(pushers=frozenset({"ines"})), says, FREE, host=INES)
        self.main(older(pushers=frozenset({"the app gate", "vera"})), says, ("note", "vera may move main past the queue"), FREE)
        without = older(pushers=frozenset({"the app gate"}), is_for_admins=False)
        self.main(without, says, ("note", "admins may move main past the queue"), FREE)
        out = ("WRONG", "add the app gate at Settings > Branches > main > Restrict who can push")
        self.main(older(pushers=frozenset({"vera"}), may_host=False), says, ("note", "vera"), out)
        self.main(older(hindering=("Lock branch",)), ANYBODY, ("WRONG", "by Lock branch: take that off at Settings > Branches > main"))
        self.main(older(checks=frozenset({"build"})), ANYBODY, FREE)
        self.main(older(checks=frozenset({"lint"})), ANYBODY, ("WRONG", "add lint to status in bors.toml, or take lint off"))
        # A ruleset says enough, whatever the older protection says.
        self.main(branch("update", has_older=True, older=Older()), ALONE, FREE)

    def test_the_older_protection_of_the_branches_of_tests(self):
        def older(**more):
            return branch(name="staging", has_older=True, older=Older(**more))
        unknown = (("note", "whether the protection of staging keeps"), ("note", "see that Allow force pushes is chosen"))
        self.staging(branch(name="staging", has_older=True), *unknown)
        self.staging(older(), FREE_OF_TESTS)
        self.staging(older(refuses_force=True), ("WRONG", "choose Allow force pushes at Settings > Branches > staging"))
        self.staging(older(hindering=("Lock branch",)), ("WRONG", "by Lock branch"))


class ShownRulesTests(Decisions):
    """What GitHub shows of rules, as its documentation has it."""

    def test_a_rule(self):
        shown = {"type": "update", "ruleset_source_type": "Repository", "ruleset_source": "team/project", "ruleset_id": 7}
        self.assertEqual(rule_in(shown), Rule("update", 7, "Settings > Rules > Rulesets"))
        due = "team's Settings > Repository > Rulesets"
        self.assertEqual(rule_in({**shown, "ruleset_source_type": "Organization", "ruleset_source": "team"}).place, due)
        checks = [{"context": "build", "integration_id": 3}, {"context": "lint"}]
        parameters = {"required_status_checks": checks, "strict_required_status_checks_policy": False}
        self.assertEqual(rule_in({**shown, "type": "required_status_checks", "parameters": parameters}).checks, {"build", "lint"})

    def test_a_ruleset(self):
        for said, due in (
            ("always", True), ("exempt", True), ("never", False), ("pull_requests_only", False), (None, None), ("by moonlight", None),
        ):
            shown = {"id": 7, "name": "guard", **({} if said is None else {"current_user_can_bypass": said})}
            self.assertEqual(ruleset_in(shown, 12), Ruleset("guard", due, None))
        actors = [
            {"actor_id": 12, "actor_type": "Integration", "bypass_mode": "always"}, {"actor_id": 5, "actor_type": "RepositoryRole"},
            {"actor_id": 13, "actor_type": "Integration"}, {"actor_id": 12, "actor_type": "Team"},
            {"actor_id": None, "actor_type": "OrganizationAdmin"},
        ]
        found = ruleset_in({"id": 7, "name": "guard", "bypass_actors": actors}, 12).others
        self.assertEqual(found, ("the role Admin", "an app", "a team", "owners of the organization"))

    def test_the_older_protection(self):
        off, on = {"enabled": False}, {"enabled": True}
        plain = {"enforce_admins": on, "allow_force_pushes": off, "required_linear_history": off, "lock_branch": off}
        self.assertEqual(older_in(plain, GATE), Older(refuses_force=True))
        self.assertFalse(older_in({**plain, "allow_force_pushes": on}, GATE).refuses_force)
        who = {"users": [{"login": "Vera"}], "teams": [{"slug": "core"}], "apps": [{"slug": "gate"}]}
        pushers = frozenset({"vera", "the team core", "the app gate"})
        for host, may in (
            (GATE, True), (Host("other", True), False), (Host("VERA", False), True), (INES, False), (Host("gate", False), False),
        ):
            found = older_in({**plain, "restrictions": who}, host)
            self.assertEqual((found.pushers, found.may_host), (pushers, may), host)
        for more, due in (
            ({"required_linear_history": on}, ("Require linear history",)), ({"required_signatures": on}, ("Require signed commits",)),
            ({"lock_branch": on}, ("Lock branch",)), ({"required_pull_request_reviews": {}}, ("Require a pull request before merging",)),
            ({"required_pull_request_reviews": {"bypass_pull_request_allowances": who}}, ()),
        ):
            self.assertEqual(older_in({**plain, **more}, GATE).hindering, due, more)
        checked = {**plain, "required_status_checks": {"strict": True, "contexts": ["build"]}}
        self.assertEqual(older_in(checked, GATE).checks, {"build"})
        # Admins pass it by, unless it is for them as well.
        root = Host("root", False, True)
        locked = {**checked, "lock_branch": on, "restrictions": who}
        self.assertEqual(older_in(locked, root).hindering, ("Lock branch",))
        found = older_in({**locked, "enforce_admins": off}, root)
        self.assertEqual([older_in({**plain, "enforce_admins": it}, who).is_for_admins for it in (on, off) for who in (root, GATE)], [
            True, True, False, False])
        self.assertEqual((found.hindering, found.checks, found.may_host, found.pushers), ((), frozenset(), True, pushers))
        self.assertEqual(older_in({**locked, "enforce_admins": off}, Host("vera", False)).hindering, ("Lock branch",))


if __name__ == "__main__":
    unittest.main()
