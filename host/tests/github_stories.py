"""Stories of a host of a repository on GitHub, with the built program, over the server for tests. test_github_host.py plays them."""
import contextlib
import json
import os
import re
import shutil
import sqlite3
import subprocess
import sys
import time
from pathlib import Path

from with_github import SECRET, WithGitHub

TESTS = Path(__file__).resolve().parent
HOST = TESTS.parent / "gate-host"
PROGRAM = Path(os.environ.get("GATE_PROGRAM") or TESTS.parent.parent / "crates/gate_bot/out/gate_bot")
SECONDS = float(os.environ.get("GATE_STORY_SECONDS", "120"))
MARK = re.compile(r"<!-- gate:[^>]*-->")


class WithHost(WithGitHub):
    """A team whose main branch a host guards, and CI that tests what is staged."""

    bors = 'status = ["build"]\n'
    # How often the host asks without a webhook.
    poll_seconds = 20.0
    # Whether CI tests at once what is staged.
    is_tested = True

    def setUp(self):
        if not os.access(PROGRAM, os.X_OK):
            self.skipTest(f"there is no built program {PROGRAM}")
        super().setUp()
        self.people.push_files(self.project, "root", "main", {"bors.toml": self.bors, "check": "good\n"})
        self.folder = self.room / "host"
        self.errors = self.room / "errors"
        self.errors.touch()
        self.processes = {}
        self.make_host()

    def make_host(self):
        self.host_once("init", self.folder, "--github", "team/project", "--program", PROGRAM)
        settings = self.folder / "gate/settings"
        text = settings.read_text(encoding="utf-8")
        for before, after in (
            ("tick_seconds = 10", "tick_seconds = 0.5"), ("look_seconds = 3", "look_seconds = 0.3"),
            ("listen = 127.0.0.1:8097", "listen = 127.0.0.1:0"), ("[github]\n", f"[github]\napi = {self.hub.api}\nweb = {self.hub.url}\n"),
            ("poll_seconds = 20", f"poll_seconds = {self.poll_seconds}"),
        ):
            self.assertIn(before, text)
            text = text.replace(before, after)
        settings.write_text(text, encoding="utf-8")
        for name, secret in (("token", self.token), ("webhook-secret", SECRET)):
            path = self.folder / "gate/records" / name
            path.touch(0o600)
            path.write_text(secret, encoding="utf-8")

    def environment(self):
        return {"PATH": os.environ["PATH"], "HOME": str(self.room), "LC_ALL": "C.UTF-8", "PYTHONDONTWRITEBYTECODE": "1"}

    def host_once(self, *words, status=0):
        ran = subprocess.run(
            [sys.executable, HOST, *map(str, words)], env=self.environment(), capture_output=True, encoding="utf-8", timeout=60,
            check=False,
        )
        self.assertEqual(ran.returncode, status, ran.stderr)
        return ran.stdout

    def words_of(self, job):
        """The program of a job, before the job itself."""
        return [HOST]

    def start(self, job="run"):
        with open(self.errors, "ab") as errors:
            process = subprocess.Popen(
                [sys.executable, *map(str, self.words_of(job)), job, str(self.folder)], env=self.environment(), stdin=subprocess.DEVNULL,
                stdout=errors, stderr=errors,
            )
        self.processes[job] = process
        self.addCleanup(self.kill, job)

    def start_receiver(self):
        """Takes webhooks, and has GitHub send them."""
        self.start("receive")
        said = "takes webhooks at "
        self.until("the receiver serves", lambda: said in self.errors.read_text(encoding="utf-8"))
        address = self.errors.read_text(encoding="utf-8").partition(said)[2].split("\n")[0]
        self.people.add_hook(address, SECRET)

    def kill(self, job="run"):
        process = self.processes.pop(job, None)
        if process:
            process.kill()
            process.wait()

    def until(self, what, is_so, *about):
        late = time.monotonic() + SECONDS
        while not is_so():
            self.assertEqual(self.hub.troubles, [])
            for job, process in list(self.processes.items()):
                if process.poll() is not None:
                    self.has_ended(job, process)
            if time.monotonic() > late:
                said = [self.comments(it) for it in about]
                self.fail(f"it doesn't come to this: {what}; {said}; {self.errors.read_text(encoding='utf-8')[-3000:]}")
            self.ci()
            time.sleep(0.05)

    def has_ended(self, job, process):
        self.fail(f"gate-host {job} has ended with {process.returncode}: {self.errors.read_text(encoding='utf-8')[-3000:]}")

    # CI: it tests each commit of the two branches once

    def ci(self):
        if not self.is_tested:
            return
        tested = self.__dict__.setdefault("tested", {})
        for branch in ("staging", "trying"):
            commit = self.project.bare.sha(f"refs/heads/{branch}")
            if commit and commit not in tested:
                is_good = "bad" not in self.project.bare.git("show", f"{commit}:check")
                tested[commit] = is_good
                self.people.check_run(self.project, commit, "build", conclusion="success" if is_good else "failure")

    # What people do

    def journal(self, *events):
        """What was handed in of these events, in its order."""
        try:
            place = f"file:{self.folder}/gate/records/journal.db?mode=ro"
            with contextlib.closing(sqlite3.connect(place, uri=True, timeout=20)) as journal:
                found = [json.loads(line) for (line,) in journal.execute("SELECT line FROM deliveries ORDER BY number")]
        except sqlite3.OperationalError:
            # It isn't made yet.
            return []
        return [it for it in found if it["event"] in events]

    def is_seen(self, pull):
        """Whether the host has written down that a change is at its head."""
        heads = [it["head"] for it in self.journal("opened", "pushed") if it["change"] == pull.number]
        return heads[-1:] == [pull.head_sha]

    def is_closed(self, pull):
        """Whether the host takes a change for closed."""
        events = [it["event"] for it in self.journal("opened", "reopened", "closed") if it["change"] == pull.number]
        return events[-1:] == ["closed"]

    def see(self, *pulls):
        """Waits until the host has seen the heads of changes, and whoever comments now does so in a later second."""
        self.until("the host sees the heads", lambda: all(self.is_seen(it) for it in pulls))
        self.later(*pulls)

    def later(self, *pulls):
        at = max(it.updated_at for it in pulls)
        self.until("a second has gone by", lambda: self.hub.world.clock.now() > at + 1.1)

    def approve(self, *pulls):
        self.see(*pulls)
        for pull in pulls:
            self.people.comment(pull, "ines", "bors r+")

    def landed(self, *pulls):
        self.until(f"{[it.number for it in pulls]} land", lambda: all(it.merged for it in pulls), *pulls)
        for pull in pulls:
            self.told(pull, "Landed on main")

    # What is seen

    def comments(self, pull):
        return [it.body for it in self.project.comments.values() if it.issue is pull and it.user.login == "gate[bot]"]

    def told(self, pull, *texts):
        self.until(f"{texts} is told of {pull.number}, of which there is {self.comments(pull)}", lambda: all(
            any(text in comment for comment in self.comments(pull)) for text in texts))

    def texts(self, pull):
        """What the bot said of a change, without the marks; each comment has some, and each mark stands once."""
        said = self.comments(pull)
        marks = [MARK.findall(it) for it in said]
        self.assertTrue(all(marks), said)
        self.assertEqual(len({mark for its in marks for mark in its}), sum(map(len, marks)), said)
        return [MARK.sub("", it).strip() for it in said]

    def statuses(self, pull, head=None):
        """The statuses of the host's own on a head, from the first to the last: each with its state and its words."""
        sha = head or pull.head_sha
        return [(it.state, it.description) for it in self.project.statuses if (it.sha, it.context) == (sha, "gate")]

    def is_at_last(self, pull, state, words):
        """How a change stands at its head, as the host says there. It says nothing twice."""
        self.until(f"{pull.number} is {state}: {words}", lambda: self.statuses(pull)[-1:] == [(state, words)], pull)
        self.assertEqual(len(set(self.statuses(pull))), len(self.statuses(pull)), self.statuses(pull))

    def nobody_is_told_twice(self, *pulls):
        for pull in pulls:
            said = self.texts(pull)
            self.assertEqual(len(set(said)), len(said), said)

    def causes_are_explained(self, **causes):
        """Of each change, by the name of its branch: why it left the queue last, as the story's author wrote it down, by the reason and the
        status that the notice names; or nothing if it never did, or has landed since. None of them waits in the queue."""
        pulls = {it.head_ref: it for it in self.project.pulls.values()}
        said = {}
        for name, pull in pulls.items():
            found = json.loads(self.host_once("explain", pull.number, "--repository", self.folder, "--json"))
            left = found["left"] and (found["left"]["why"], found["left"]["name"])
            said[name] = (left, found["landed"] is not None, found["place"])
        self.assertEqual(said, {name: (cause, pulls[name].merged, None) for name, cause in causes.items()})

    def main(self):
        return self.project.bare.sha("refs/heads/main")

    def only_landings_are_on_main(self, since):
        """Each step of the main branch was staged and tested."""
        for commit in self.project.bare.git("rev-list", "--first-parent", f"{since}..refs/heads/main").split():
            self.assertTrue(self.tested.get(commit), commit)


def clean(folder):
    shutil.rmtree(folder, ignore_errors=True)
