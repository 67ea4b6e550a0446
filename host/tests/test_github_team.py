"""The story of a team on GitHub, calm and in trouble. The end is the same.

A run of the checks plays the calm one and one of VARIANTS, which GATE_STORY_PART picks, a number, or else the commit. All of them are
played with GATE_STORY_THOROUGH=1. One alone is played by its name, as in `python3 -m unittest test_github_team.Lost`.
"""
import json
import os
import subprocess
import sys
import tempfile
import unittest
from pathlib import Path

try:
    import httpx
except ImportError:
    httpx = None

from github_stories import HOST, TESTS
from secrets_on_disk import Secret, found_in
from team_on_github import COMMENTS, GIT, OF_APP, QUESTIONS, KilledAtRequests, KilledWithin, Team
from with_github import ENVIRONMENT, WithGitHub

sys.path.insert(0, str(TESTS.parent))
from gate_host.places import name_of_user  # noqa: E402

OWNER = name_of_user(os.geteuid())


class Plays:
    """What each variant has: the test that plays its story."""

    def test_story(self):
        self.play()


@unittest.skipIf(httpx is None, "httpx isn't installed")
class Calm(Plays, Team):
    """Nothing happens beside it."""


# Webhooks


class Lost(Plays, Team):
    """No webhook comes."""

    poll_seconds = 0.5

    def words_of(self, job):
        return [TESTS / "hurried_host.py" if job == "run" else HOST]

    def before_it_starts(self):
        self.hub.webhooks.lost = True

    def ends(self):
        self.assertEqual([it.event for it in self.hub.webhooks.deliveries if it.statuses], [])
        self.assertGreater(len(self.hub.webhooks.deliveries), 30)


class Mixed(Plays, Team):
    """Webhooks come twice, late and out of order; those of the approvals and of the push after one the last one first."""

    def before_it_starts(self):
        self.hub.webhooks.doubled = True
        self.hub.webhooks.late = lambda event, payload: len(str(payload)) % 4 * 0.4

    def before_approvals(self):
        self.hub.webhooks.held = True

    def after_approvals(self):
        self.held = list(self.hub.webhooks.gathered)
        self.hub.webhooks.release()

    def ends(self):
        self.assertGreater(len({it.guid for it in self.held}), 10)
        self.until("all come twice", lambda: all(len(it.statuses) == 2 for it in self.held))


# The API and git


class RefusedQuestions(Plays, Team):
    """Each kind of question is answered once by 500, and once by 403 with Retry-After."""

    kinds = QUESTIONS

    def before_it_starts(self):
        for place, kind in enumerate(self.kinds):
            self.switches.fail(kind, 500 + place % 2 * 2)
            self.switches.retry_after(kind, 1)

    def ends(self):
        self.assertEqual([it.route for it in self.switches.faults if it.times], [])


class RefusedComments(RefusedQuestions):
    """The same of comments, and of git, which gets no Retry-After."""

    kinds = COMMENTS

    def before_it_starts(self):
        super().before_it_starts()
        for kind in GIT:
            self.switches.fail(kind, 503)
            self.switches.fail(kind, 403)


class CutQuestions(Plays, Team):
    """The connection of each kind of question is cut before it acts, after that, and within the answer."""

    kinds = QUESTIONS[:4]

    def before_it_starts(self):
        for kind in self.kinds:
            for when in ("before", "after", "within"):
                self.switches.cut(kind, when)

    def ends(self):
        self.assertEqual([it.route for it in self.switches.faults if it.times], [])


class CutMoreQuestions(CutQuestions):
    """The same of the other questions."""

    kinds = QUESTIONS[4:]


class CutComments(CutQuestions):
    """The same of what people are told."""

    kinds = COMMENTS


class CutGit(CutQuestions):
    """The same of git."""

    kinds = GIT


class Paged(Plays, Team):
    """Each page of a list has one entry. A comment of which the answer doesn't come stands on a later one."""

    def before_it_starts(self):
        self.switches.page_size = 1
        self.switches.cut("issues/create-comment", "after", skip=8)

    def ends(self):
        self.assertEqual([it.route for it in self.switches.faults if it.times], [])
        for kind in ("pulls/list", "issues/list-comments-for-repo", "issues/list-comments"):
            self.assertTrue(any("page=2" in it.query for it in self.switches.asked(kind)), kind)


# Others beside the host


class Outside(Plays, Team):
    """Somebody who may pushes to the main branch between the approvals and the staging, when what was tested is about to land, and when it
    has landed and the host wasn't told so yet."""

    def before_approvals(self):
        self.pushed = []
        self.people.protect(self.project, "main", apps=["gate"], users=["root"])
        self.switches.before("git/receive-pack refs/heads/staging", self.push)
        self.switches.before("git/receive-pack refs/heads/main", self.push)
        # The one before has failed then.
        self.switches.after("git/receive-pack refs/heads/main", self.push, 2)

    def push(self):
        files = {f"outside-{len(self.pushed)}": "1\n"}
        self.pushed.append(self.people.push_files(self.project, "root", "main", files, "From outside"))

    def outside(self):
        return self.pushed

    def ends(self):
        """Nothing tells the host who pushed on GitHub. So the owner accepts it."""
        self.assertEqual(len(self.pushed), 3)
        moves = {it["move"] for it in self.facts("MoverFound")}
        self.assertEqual({it["person"] for it in self.facts("MoverFound")}, {""})
        for commit in self.pushed:
            self.host_once("doctor", self.folder, "--accept", commit)
        self.until("they are accepted", lambda: {it["move"] for it in self.facts("MoverFound") if it["person"] == OWNER} == moves)
        self.assertEqual(len(moves), 3)

    def audited(self, *words):
        """Who has accepted them stands for whoever pushed. Without a word on that they are findings."""
        found = json.loads(self.host_once("audit", *words, status=1))["findings"]
        self.assertEqual(sorted((it["kind"], it["about"]) for it in found), sorted(("past the queue", it) for it in self.pushed))
        return self.host_once("audit", *words, "--allow", OWNER)


class Protected(Plays, Team):
    """The main branch is protected against all pushes, at first also against those of the host. When all people are told, the owner gives
    the host another token, which ends the one before, and names it as who may push."""

    def before_it_starts(self):
        self.guard = self.people.protect(self.project, "main", users=["root"], checks=["build"])
        kinds = ("update", "deletion", "non_fast_forward")
        self.people.add_ruleset(self.project, "main alone", ["~DEFAULT_BRANCH"], kinds, apps=[self.app.id])

    def before_mending(self):
        self.until("the landing is refused", lambda: "can't be landed yet" in self.errors.read_text(encoding="utf-8"))
        self.assertEqual(self.main(), self.before)
        self.until("people are told all", lambda: self.told_on_github() == self.told_by_journal())
        self.hub.tokens.expire()
        self.token = self.hub.installation_token()
        (self.folder / "gate/records/token").write_text(self.token, encoding="utf-8")
        self.guard.apps = ["gate"]

    def ends(self):
        self.assertIn("not authorized to push to this branch", self.errors.read_text(encoding="utf-8"))


# The credentials


class OfApp(Team):
    """The host is an app with a key. The tokens of its installation end soon."""

    def setUp(self):
        from cryptography.hazmat.primitives.asymmetric import rsa
        from cryptography.hazmat.primitives.serialization import Encoding, NoEncryption, PrivateFormat, PublicFormat
        key = rsa.generate_private_key(public_exponent=65537, key_size=2048)
        self.key = key.private_bytes(Encoding.PEM, PrivateFormat.PKCS8, NoEncryption()).decode()
        self.public_key = key.public_key().public_bytes(Encoding.PEM, PublicFormat.SubjectPublicKeyInfo).decode()
        super().setUp()
        # The host takes another one if one is good for 300 seconds more at the most.
        self.hub.tokens.good_seconds = 303

    def make_host(self):
        super().make_host()
        settings, records = self.folder / "gate/settings", self.folder / "gate/records"
        token = f"token = {records / 'token'}\n"
        text = settings.read_text(encoding="utf-8")
        self.assertIn(token, text)
        app = f"app = {self.app.id}\nkey = {records / 'key'}\n"
        settings.write_text(text.replace(token, app), encoding="utf-8")
        (records / "token").unlink()
        (records / "key").touch(0o600)
        (records / "key").write_text(self.key, encoding="utf-8")

    def secrets(self):
        """No token may be on the disk, and of the key no line."""
        own = self.folder / "gate/records/key"
        lines = [it for it in self.key.splitlines() if len(it) == 64]
        tokens = [Secret("token", it) for it in sorted(self.hub.tokens.given)]
        return [*tokens, *(it for it in super().secrets() if it.name == "webhook-secret"), *(Secret("key", it, own) for it in lines)]


class Expired(Plays, OfApp):
    """All tokens end when a request of each kind comes, before the time that GitHub has said."""

    def before_it_starts(self):
        self.count = 0
        for kind in QUESTIONS + COMMENTS + GIT:
            self.switches.before(kind, self.expire)

    def expire(self):
        self.count += 1
        self.hub.tokens.expire()

    def ends(self):
        self.assertEqual(self.count, len(QUESTIONS + COMMENTS + GIT))
        self.assertGreater(len(self.hub.tokens.given), 10)
        self.assertGreater(len(self.switches.asked(status=401)), 5)


# The host is killed


class KilledAtFirstQuestions(Plays, KilledAtRequests):
    """Killed when it asks what is there, at its first start."""

    at_start = QUESTIONS[:5]


class KilledAtQuestions(Plays, KilledAtRequests):
    """Killed when it asks, while changes are approved."""

    at_approvals = QUESTIONS


class KilledAtComments(Plays, KilledAtRequests):
    """Killed when it tells people something."""

    at_approvals = COMMENTS


class KilledAtGit(Plays, KilledAtRequests):
    """Killed at what git asks and pushes."""

    at_start, at_approvals = (GIT[0], GIT[2]), GIT


class KilledAtTokens(Plays, OfApp, KilledAtRequests):
    """Killed when it takes a token of its installation."""

    at_start, at_approvals = OF_APP, OF_APP


def within(number):
    """A part of the deaths of the host within its own steps."""
    return type(f"KilledWithin{number}", (Plays, KilledWithin), {"part": number, "parts": PARTS, "__module__": __name__})


PARTS = 8
WITHIN = tuple(within(number) for number in range(PARTS))
globals().update({it.__name__: it for it in WITHIN})
VARIANTS = (
    Lost, Mixed, RefusedQuestions, RefusedComments, CutQuestions, CutMoreQuestions, CutComments, CutGit, Paged, Outside, Protected,
    Expired, KilledAtFirstQuestions, KilledAtQuestions, KilledAtComments, KilledAtGit, KilledAtTokens, *WITHIN,
)


class SearchTests(unittest.TestCase):
    """The search for secrets finds them."""

    def setUp(self):
        room = tempfile.TemporaryDirectory()
        self.addCleanup(room.cleanup)
        self.room = Path(room.name)
        self.secret = Secret("token", "ghs_0123456789abcdef", self.room / "own")

    def git(self, *words, given=""):
        command = ["git", "--git-dir", self.room / "some.git", *words]
        return subprocess.run(command, input=given, env=ENVIRONMENT, capture_output=True, encoding="utf-8", check=True).stdout.strip()

    def test_a_secret_in_its_own_file_alone(self):
        (self.room / "own").write_text(self.secret.text, encoding="utf-8")
        (self.room / "other").write_text("nothing", encoding="utf-8")
        self.assertEqual(found_in(self.room, [self.secret]), [])

    def test_a_secret_in_another_file_as_it_is_and_in_base64(self):
        import base64
        for name, before in (("a", ""), ("b", "x-access-token:"), ("c", "12"), ("d", "1")):
            (self.room / name).write_bytes(b"x" + base64.b64encode(f"{before}{self.secret.text}: more".encode()) + b"\n")
        (self.room / "e").write_text(f"the token {self.secret.text}!", encoding="utf-8")
        self.assertEqual(found_in(self.room, [self.secret]), [("token", name) for name in "abcde"])

    def test_a_secret_in_a_database_and_in_an_object_of_git(self):
        import sqlite3
        database = sqlite3.connect(self.room / "some.db")
        database.execute("CREATE TABLE told (text TEXT)")
        database.execute("INSERT INTO told VALUES (?)", (f"{self.secret.text} and more",))
        database.commit()
        database.close()
        self.git("init", "--quiet", "--bare")
        self.git("hash-object", "-w", "--stdin", given=self.secret.text)
        self.assertEqual(found_in(self.room, [self.secret]), [("token", "some.db"), ("token", "some.git")])


class ServerTests(WithGitHub):
    """What the stories ask of the server."""

    def test_requests_of_git_by_what_they_are_about(self):
        place = self.clone()
        self.commit(place, {"one": "1\n"})
        at_main, at_topic = [], []
        self.switches.before("git/receive-pack refs/heads/main", lambda: at_main.append(self.project.bare.sha("refs/heads/main")))
        self.switches.before("git/receive-pack refs/heads/topic", lambda: at_topic.append(self.project.bare.sha("refs/heads/topic")))
        self.must_git("push", "--quiet", "origin", "HEAD:refs/heads/topic", at=place)
        self.assertEqual((at_main, at_topic), ([], [None]))
        self.must_git("push", "--quiet", "origin", "HEAD:refs/heads/main", "HEAD:refs/heads/other", at=place)
        pushes = [it.about for it in self.switches.asked("git/receive-pack")]
        self.assertEqual(pushes, ["refs/heads/topic", "refs/heads/main refs/heads/other"])
        services = {it.about for it in self.switches.asked("git/info-refs")}
        self.assertEqual(services, {"git-upload-pack", "git-receive-pack"})

    def test_tokens_that_end_soon(self):
        self.hub.tokens.good_seconds = 1
        token = self.hub.installation_token()
        self.assertEqual(self.ask("/repos/team/project", token=token).status, 200)
        self.assertTrue(self.comes_about(lambda: self.ask("/repos/team/project", token=token).status == 401))


def picked():
    """The number by which one of the variants is picked."""
    given = os.environ.get("GATE_STORY_PART", "")
    if given.isdecimal():
        return int(given)
    ran = subprocess.run(["git", "-C", TESTS, "rev-parse", "HEAD"], capture_output=True, encoding="utf-8", check=False)
    return int(ran.stdout.strip()[-4:], 16) + 1 if ran.returncode == 0 else 1


def load_tests(loader, tests, pattern):
    """The calm story and one variant, or all."""
    is_thorough = bool(os.environ.get("GATE_STORY_THOROUGH"))
    variants = VARIANTS if is_thorough else (VARIANTS[(picked() - 1) % len(VARIANTS)],)
    them = [Calm, *(variants if httpx else ()), SearchTests, ServerTests]
    return unittest.TestSuite(loader.loadTestsFromTestCase(it) for it in them)


if __name__ == "__main__":
    unittest.main()
