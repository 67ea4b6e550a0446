"""The story of a team on GitHub: ten changes by three people, three of them from a fork, and a host of the built program.

Six of them land: a plain one, one of a fork, one of two that conflict, one whose label is taken off, one that waits for its review, and one
that was a draft. Four don't: the other one of the two, one that breaks the build, one that goes to another branch after its approval and
comes back, and one that is pushed to right after its approval. test_github_team.py plays it, calm and in trouble.
"""
import contextlib
import json
import re
import shutil
import sqlite3
import time
import zlib
from typing import NamedTuple

from github_stories import HOST, PROGRAM, TESTS, WithHost
from secrets_on_disk import Secret, found_in
from with_github import SECRET

# What an app says of itself, signed by its key, begins so: {"alg":
BEGINNING_OF_WORD = b"eyJhbGciOi"
SECONDS_OF_CI = 0.2
NUMBER_IN_MARK = re.compile(r"<!-- gate:([0-9]+):[0-9a-f]{16} -->")
# What the host puts before a character that Markdown would make something else of.
ESCAPE = re.compile(r"\\(?=[^A-Za-z0-9\s])")
# What stands on GitHub already: what somebody said, and beside the head at which place a change waits.
NO_NEWS = re.compile(r"[^\n]* wrote:\n> |It waits in batch ")
# The requests of the host, as the server names them.
QUESTIONS = (
    "repos/get-branch", "pulls/list", "pulls/list-reviews", "issues/list-comments-for-repo", "repos/get-collaborator-permission-level",
    "repos/get-combined-status-for-ref", "checks/list-for-ref", "issues/list-events", "pulls/get",
)
COMMENTS = ("issues/list-comments", "issues/create-comment", "repos/create-commit-status")
GIT = (
    "git/info-refs git-upload-pack", "git/info-refs git-receive-pack", "git/upload-pack", "git/receive-pack refs/heads/staging",
    "git/receive-pack refs/heads/main",
)
OF_APP = ("apps/get-repo-installation", "apps/create-installation-access-token")


class Due(NamedTuple):
    """A change, and what is due of it."""

    author: str
    files: dict
    # What people are told of it at the end, one of these at least.
    told: tuple
    lands: bool = False
    is_of_fork: bool = False
    # Why it left the queue last, in one of these ways: the reason and a status, or none if it never left or was never in it.
    left: tuple = (None,)


# Some of the host's own steps, which come in each story: facts that are written down, marks, and what it asks and posts.
FACTS = (
    "Opened", "HeadDated", "Labeled", "Unlabeled", "Reviewed", "Said", "NotTaken", "Pushed", "Closed", "RoleGiven", "MainSeen", "Merged",
    "Conflicted", "Staged", "Moved", "Reported", "Ticked",
)
MARKS = ("comments-posted-up-to", "comments-since", "status-of")
CALLS = ("post", "those_there", "remove", "read_comments", "look", "take", "send")
STEPS = tuple(step for when in ("before", "after") for step in (
    *(f"record-{fact}-{when}" for fact in FACTS), *(f"put_mark-{mark}-{when}" for mark in MARKS), f"note_posted-{when}",
    *(f"{it}-{when}-call" for it in CALLS),
))
LANDED, CONFLICT = ("Landed on main",), ("(Conflict)",)
CHANGES = {
    "plain": Due("otto", {"plain": "1\n"}, LANDED, True),
    "forked": Due("eve", {"forked": "1\n"}, LANDED, True, True),
    # Which of these two lands depends on what else comes to pass.
    "first": Due("otto", {"clash": "first\n"}, ()),
    "second": Due("ada", {"clash": "second\n"}, ()),
    "broken": Due("eve", {"check": "bad\n"}, ("fails the check build",), False, True, (("Failed", "build"),)),
    "labeled": Due("ada", {"labeled": "1\n"}, LANDED, True),
    "unreviewed": Due("otto", {"unreviewed": "1\n"}, LANDED, True),
    "draft": Due("ada", {"draft": "1\n"}, LANDED, True),
    "retargeted": Due("otto", {"retargeted": "1\n"}, ("(Closed)",), left=(("Closed", ""),)),
    # Whether the push or the approval is seen first nobody can say.
    "pushed": Due(
        "eve", {"pushed": "1\n"}, ("(Pushed)", "Not taken: it was about"), False, True, (("Pushed", ""), None),
    ),
}
LANDING, PAIR = tuple(name for name, it in CHANGES.items() if it.lands), ("first", "second")
BEFORE = ("README", "bors.toml", "check")


class Saying:
    """Words that are made when they are written."""

    def __init__(self, say):
        self.say = say

    def __format__(self, form):
        return self.say()


class Team(WithHost):
    """The story. What happens beside it is up to those that are made of this."""

    bors = 'status = ["build"]\nblock_labels = ["wip"]\nrequired_approvals = 1\n'
    has_webhooks = True
    next_ci = 0.0

    def environment(self):
        """What the host leaves in a folder for files of a moment is searched as well."""
        (self.room / "tmp").mkdir(exist_ok=True)
        return {**super().environment(), "TMPDIR": str(self.room / "tmp")}

    # What may happen beside it

    def before_it_starts(self):
        """The changes are there, and no host yet."""

    def before_approvals(self):
        """The host has seen all changes."""

    def after_approvals(self):
        """All are approved, and one was pushed to right after that."""

    def before_mending(self):
        """What keeps three changes from landing is about to go."""

    def ends(self):
        """All has happened. What was due beside it has to have come."""

    def outside(self):
        """The commits of the main branch that somebody has pushed there past the queue."""
        return []

    # What happens

    def play(self):
        self.propose_all()
        self.before_it_starts()
        if self.has_webhooks:
            self.start_receiver()
        self.start()
        self.see(*(pull for name, pull in self.changes.items() if name != "draft"))
        self.until("the reviews are seen", lambda: all(self.is_reviewed(name) for name in CHANGES if name not in ("draft", "unreviewed")))
        self.before_approvals()
        self.approve_all()
        self.before_mending()
        self.mend()
        self.until("one of two lands", lambda: any(self.changes[name].merged for name in PAIR), *(self.changes[name] for name in PAIR))
        self.landed(*(self.changes[name] for name in self.landing()))
        self.until("all are told why", lambda: all(self.is_told(name) for name in CHANGES))
        self.heads_tell_how_they_stand()
        self.ends()
        self.until("people are told all", lambda: self.told_on_github() == self.told_by_journal())
        self.stop()
        self.is_as_it_is_due()

    def ci(self):
        """It looks more seldom than the story."""
        if time.monotonic() >= self.next_ci:
            self.next_ci = time.monotonic() + SECONDS_OF_CI
            super().ci()

    def propose_all(self):
        self.people.push_files(self.project, "root", "next", {"next": "1\n"}, "The next version")
        self.before, fork, self.changes = self.main(), self.people.fork("eve", self.project), {}
        for name, due in CHANGES.items():
            where = {"fork": fork} if due.is_of_fork else {}
            pull = self.people.propose(
                self.project, due.author, name, due.files, f"A change that is {name}", draft=name == "draft", **where)
            self.changes[name] = pull
            if name != "unreviewed":
                self.people.review(pull, "vera", "APPROVED")
        self.people.label(self.changes["labeled"], "ines", "wip")
        self.fork, self.heads = fork, {name: pull.head_sha for name, pull in self.changes.items()}

    def approve_all(self):
        """All are approved before anything is tested. One is pushed to right then, and one goes to another branch."""
        self.is_tested = False
        for name, pull in self.changes.items():
            self.people.comment(pull, "ines", "bors r+")
            if name == "pushed":
                self.people.push_files(self.fork, "eve", "pushed", {"pushed": "2\n"}, "More of it")
        self.after_approvals()
        for name, why in (
            ("labeled", "label that blocks"), ("unreviewed", "too few reviews"), ("draft", "it is a draft"), ("retargeted", "approved at"),
        ):
            self.told(self.changes[name], why)
        retargeted = self.changes["retargeted"]
        self.people.retarget(retargeted, "otto", "next")
        self.until("one for another branch is no change", lambda: self.is_closed(retargeted))
        self.until("the push is seen", lambda: self.is_seen(self.changes["pushed"]))
        self.until("something is staged", lambda: self.project.bare.sha("refs/heads/staging"))
        self.is_tested = True

    def mend(self):
        """What kept three changes from landing goes, and they are approved anew. Nobody approves the one that comes back."""
        labeled, unreviewed, draft, retargeted = (self.changes[it] for it in ("labeled", "unreviewed", "draft", "retargeted"))
        self.people.unlabel(labeled, "ines", "wip")
        self.people.review(unreviewed, "vera", "APPROVED")
        self.people.ready(draft, "ada")
        self.people.retarget(retargeted, "otto", "main")
        self.until("the label is seen to be gone", lambda: any(it["change"] == labeled.number for it in self.facts("Unlabeled")))
        self.until("the reviews are seen", lambda: self.is_reviewed("unreviewed") and self.is_reviewed("draft"))
        self.until("it is a change again", lambda: not self.is_closed(retargeted))
        self.approve(labeled, unreviewed, draft)

    def stop(self):
        """Ends the host by the signal that is meant for that, and the receiver. A host that is about to die does so first."""
        process = self.folder / "gate/reports/process"
        while "run" in self.processes:
            running = self.processes["run"]
            self.until("the host runs", lambda: process.exists() and process.read_text(encoding="utf-8").strip() == str(running.pid)
                       or running is not self.processes["run"])
            running.terminate()
            ended = running.wait(60)
            if running is not self.processes["run"]:
                continue
            if ended == 0:
                del self.processes["run"]
            else:
                self.has_ended("run", running)
        for job in list(self.processes):
            self.kill(job)

    # What is seen

    def asked_of_journal(self, question, *values):
        try:
            place = f"file:{self.folder}/gate/records/journal.db?mode=ro"
            with contextlib.closing(sqlite3.connect(place, uri=True, timeout=20)) as journal:
                return journal.execute(question, values).fetchall()
        except sqlite3.OperationalError:
            # It isn't made yet.
            return []

    def facts(self, kind):
        return [json.loads(body) for body, in self.asked_of_journal("SELECT body FROM facts WHERE kind = ? ORDER BY number", kind)]

    def is_seen(self, pull):
        """Whether the host has written down since when a change is at its head, which it does when it has told the bot of the head."""
        heads = [it["head"] for it in self.facts("HeadDated") if it["change"] == pull.number]
        return heads[-1:] == [pull.head_sha]

    def is_reviewed(self, name):
        """Whether the host has written down the review of a change."""
        return any(it["change"] == self.changes[name].number and it["approves"] for it in self.facts("Reviewed"))

    def landing(self):
        """What has to land: of the two that conflict, the one that did."""
        return (*LANDING, *(name for name in PAIR if self.changes[name].merged))

    def is_told(self, name):
        """Whether people are told what became of a change."""
        said = [ESCAPE.sub("", comment) for comment in self.comments(self.changes[name])]
        due = CHANGES[name].told or (LANDED if self.changes[name].merged else CONFLICT)
        return any(text in comment for text in due for comment in said)

    def told_on_github(self):
        """The number and the change of all that the host has told, by the marks in its comments."""
        own = [it for it in self.project.comments.values() if it.user.login == "gate[bot]"]
        return sorted((int(number), it.issue.number) for it in own for number in NUMBER_IN_MARK.findall(it.body))

    def told_by_journal(self):
        """The same of all that people are told."""
        rows = self.asked_of_journal("SELECT number, change, text FROM told ORDER BY number")
        return [(number, change) for number, change, text in rows if not NO_NEWS.match(text)]

    # What is due at the end

    def nobody_is_told_twice(self, *pulls):
        """Neither by a comment, nor by a part of one."""
        super().nobody_is_told_twice(*pulls)
        for pull in pulls:
            parts = [part for text in self.texts(pull) for part in text.split("\n\n")]
            self.assertEqual(len(set(parts)), len(parts), parts)

    def is_as_it_is_due(self):
        self.what_landed_is_what_is_due()
        self.nobody_is_told_twice(*self.changes.values())
        self.the_audit_finds_nothing()
        self.explanations_name_the_causes()
        self.no_secret_is_found()

    def explanations_name_the_causes(self):
        """Of each change, why it isn't on the main branch, if it isn't, as it stands above."""
        landing = self.landing()
        for name, pull in self.changes.items():
            found = json.loads(self.host_once("explain", pull.number, "--repository", self.folder, "--json"))
            due = ((None,) if name in landing else (("Conflict", ""),)) if name in PAIR else CHANGES[name].left
            self.assertIn(found["left"] and (found["left"]["why"], found["left"]["name"]), due, name)
            self.assertEqual((found["landed"] is not None, found["place"]), (name in landing, None), name)

    def heads_tell_how_they_stand(self):
        """By the status of the host's own. Of what never lands no head says that it has."""
        due = {**dict.fromkeys((*PAIR, "broken"), "failure"), **dict.fromkeys(self.landing(), "success")}

        def others():
            found = {name: [state for state, _ in self.statuses(self.changes[name])] for name in due}
            return {name: states for name, states in found.items() if states[-1:] != [due[name]]}
        self.until(Saying(lambda: f"the heads tell how they stand, and not {others()}"), lambda: not others())
        never = [state for name in {*CHANGES} - {*self.landing()} for head in (self.heads[name], self.changes[name].head_sha)
                 for state, _ in self.statuses(self.changes[name], head)]
        self.assertNotIn("success", never)

    def what_landed_is_what_is_due(self):
        bare, outside, landing = self.project.bare, self.outside(), self.landing()
        self.assertEqual(len(landing), len(LANDING) + 1)
        self.assertEqual({name for name, it in self.changes.items() if it.merged}, set(landing))
        self.assertEqual({name for name, it in self.changes.items() if it.state == "open"}, set(CHANGES) - set(landing))
        files = {file: text for name in landing for file, text in CHANGES[name].files.items()}
        names = [*BEFORE, *files, *(f"outside-{number}" for number in range(len(outside)))]
        self.assertEqual(sorted(bare.git("ls-tree", "--name-only", "refs/heads/main").split()), sorted(names))
        for file, text in {**files, "check": "good\n", "bors.toml": self.bors}.items():
            self.assertEqual(bare.git("show", f"refs/heads/main:{file}"), text)
        for head in (*(self.heads[it] for it in CHANGES if it not in landing), self.changes["pushed"].head_sha):
            self.assertFalse(bare.is_ancestor(head, self.main()), head)
        self.assertNotEqual(self.changes["pushed"].head_sha, self.heads["pushed"])
        steps = bare.git("rev-list", "--first-parent", f"{self.before}..refs/heads/main").split()
        self.assertEqual([it for it in steps if it not in outside and not self.tested.get(it)], [])

    def the_audit_finds_nothing(self):
        """By a clone of the repository and a copy of the journal, as somebody makes them who doesn't trust the host."""
        clone, copy = self.room / "audited.git", self.room / "copied.db"
        self.must_git("clone", "--quiet", "--mirror", self.project.bare.path, clone)
        for end in ("", "-wal"):
            path = self.folder / f"gate/records/journal.db{end}"
            if path.exists():
                shutil.copyfile(path, f"{copy}{end}")
        result = json.loads(self.audited(clone, "--journal", copy, "--program", PROGRAM, "--main", "main", "--json"))
        self.assertEqual(result["findings"], [])
        landed = sorted(change["change"] for step in result["steps"] for change in step.get("changes", []))
        self.assertEqual(landed, sorted(self.changes[name].number for name in self.landing()))
        others = sorted(step["commit"] for step in result["steps"] if step["kind"] != "landing")
        self.assertEqual(others, sorted(self.outside()))

    def audited(self, *words):
        return self.host_once("audit", *words)

    def secrets(self):
        """Each secret that the story has, with the file in which it may be."""
        records = self.folder / "gate/records"
        tokens = {*self.hub.tokens.given, self.token}
        own = [Secret("token", it, records / "token" if it == self.token else None) for it in sorted(tokens)]
        return [*own, Secret("webhook-secret", SECRET, records / "webhook-secret")]

    def no_secret_is_found(self):
        """Neither on the disk, nor in an address that was asked for, nor in what people are told."""
        secrets = self.secrets()
        self.assertEqual(found_in(self.room, secrets), [])
        for secret in secrets:
            if secret.own:
                self.assertIn(secret.text, secret.own.read_text(encoding="utf-8"))
        for path in (it for it in self.room.rglob("*") if it.is_file() and not it.is_symlink()):
            self.assertNotIn(BEGINNING_OF_WORD, path.read_bytes(), path)
        shown = [f"{it.path}?{it.query}" for it in self.switches.asked()] + [it.body for it in self.project.comments.values()]
        self.assertEqual([secret.name for secret in secrets for text in shown if secret.text in text], [])

    def requests_of_host(self):
        """The kinds of requests that came, of git by what they are about. Nobody but the host asks anything here."""
        of_git = [f"{it.operation} {it.about}".strip() for it in self.switches.asked("git/*")]
        return {*of_git, *(it.operation for it in self.switches.asked() if not it.operation.startswith("git/"))}


class Killed(Team):
    """A host that is killed, and is started again each time."""

    def setUp(self):
        super().setUp()
        self.starts = 1

    def has_ended(self, job, process):
        if job != "run" or process.returncode != -9 or not self.may_die():
            super().has_ended(job, process)
        self.starts += 1
        self.start(job)

    def may_die(self):
        """Whether somebody has killed it."""
        return True


class KilledAtRequests(Killed):
    """The host is killed at requests: each kind first before it acts, and then after it has acted."""

    # At which kinds it dies when it has just started, and when changes are approved.
    at_start, at_approvals = (), ()

    def setUp(self):
        super().setUp()
        self.deaths, self.wanted = [], []

    def may_die(self):
        return len(self.deaths) >= self.starts

    def before_it_starts(self):
        self.die_at("start", self.at_start)

    def before_approvals(self):
        self.die_at("approvals", self.at_approvals)

    def die_at(self, when, kinds):
        """Has it die at the next requests of these kinds. Those of before have come then."""
        self.all_deaths_come()
        for kind in kinds:
            self.wanted += [(when, kind, "before"), (when, kind, "after")]
            self.die_next(when, kind, "before")

    def die_next(self, when, kind, place):
        if place == "before":
            self.switches.cut(kind, "before")
        getattr(self.switches, place)(kind, lambda: self.die(when, kind, place))

    def die(self, when, kind, place):
        """Kills the host. If none runs just now, as while a git of the last one still asks, the next request of this kind does it."""
        process = self.processes.get("run")
        if process is None or process.poll() is not None:
            self.die_next(when, kind, place)
            return
        self.deaths.append((when, kind, place))
        process.kill()
        process.wait()
        if place == "before":
            self.die_next(when, kind, "after")

    def all_deaths_come(self):
        what = Saying(lambda: f"deaths at {sorted({*self.wanted} - {*self.deaths})}")
        self.until(what, lambda: sorted(self.deaths) == sorted(self.wanted))

    def ends(self):
        self.all_deaths_come()
        self.assertEqual([it.route for it in self.switches.faults if it.times], [])
        self.until("it is started after each death", lambda: self.starts == len(self.wanted) + 1)
        # So that no kind of request is left out.
        self.assertEqual(self.requests_of_host() - {*QUESTIONS, *COMMENTS, *GIT, *OF_APP}, set())


class KilledWithin(Killed):
    """The host dies before and after each of its own steps of one part, once."""

    part, parts = 0, 1

    def words_of(self, job):
        if job != "run":
            return [HOST]
        (self.room / "marks").mkdir(exist_ok=True)
        return [TESTS / "dying_github_host.py", self.room / "marks", self.part, self.parts]

    def may_die(self):
        return len(self.deaths()) >= self.starts

    def deaths(self):
        return {it.name for it in (self.room / "marks").iterdir()}

    def ends(self):
        """Each step of this part has come that is due, and the host was started again after each."""
        due = {name for name in STEPS if zlib.crc32(name.encode()) % self.parts == self.part}
        self.until("it is started after each death", lambda: self.starts == len(self.deaths()) + 1)
        self.assertEqual(due - self.deaths(), set())
        self.assertNotEqual(due, set())
