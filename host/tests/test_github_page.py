"""The page of the first landing on GitHub: its commands land a change over the server for tests, and print what the page says."""
import os
import re
import socket
import subprocess
import sys
import time
import unittest
from pathlib import Path

try:
    import httpx
except ImportError:
    httpx = None

from pages import sections_of, steps_of
from with_github import SECONDS, WithGitHub

TOP = Path(__file__).resolve().parent.parent.parent
PAGES = (TOP / "docs/github.md", TOP / "docs/github-running.md")
PROGRAM = Path(os.environ.get("GATE_PROGRAM") or TOP / "crates/gate_bot/out/gate_bot")
MARK = re.compile(r"\s*<!-- gate:[^>]*-->")
# What differs from run to run: commits, readings of the clock, pages of GitHub's, how often the clock
# was read, and how often this test has the host ask.
COMMIT = re.compile(r"\b[0-9a-f]{40}\b|\b(?=[0-9a-f]*[0-9])[0-9a-f]{7}\b")
CLOCK, ADDRESS = re.compile(r"(?<=clock )\d+"), re.compile(r"https?://\S+/runs/\d+")
# Which host it is differs where the test runs.
RELEASE = re.compile(r"^(right|note): this is gate-host .*$", re.MULTILINE)
COUNTS = re.compile(r"\d+ facts, \d+ answers to \d+ deliveries|every \d+ seconds")
PATIENCE = float(os.environ.get("GATE_STORY_SECONDS", "120"))
ACCESS = {"read": "read", "read and write": "write"}
# The sections whose commands the test types, before a change comes and behind it.
FIRST, LAST = ("The folder", "It runs", "The doctor"), ("A first change", "Looking after it", "Webhooks")


def alike(text):
    """A text with one word in the place of each commit, reading of the clock and run, of what is counted in a journal, and of the host."""
    text = RELEASE.sub("HOST", text)
    return COUNTS.sub("COUNTS", ADDRESS.sub("RUN", CLOCK.sub("N", COMMIT.sub("COMMIT", text))))


@unittest.skipIf(httpx is None, "httpx isn't installed")
class PageTests(WithGitHub):
    maxDiff = None

    def setUp(self):
        if not os.access(PROGRAM, os.X_OK):
            self.skipTest(f"there is no built program {PROGRAM}")
        super().setUp()
        self.page = {it.title: it for page in PAGES for it in sections_of(page.read_text(encoding="utf-8"))}
        self.home, self.bin = self.room / "home", self.room / "bin"
        for folder in (self.home, self.bin):
            folder.mkdir()
        (self.bin / "gate-host").symlink_to(TOP / "host/gate-host")
        (self.bin / "python3").symlink_to(sys.executable)
        self.running = []
        self.addCleanup(self.end_all)
        with socket.create_server(("127.0.0.1", 0)) as free:
            self.port = free.getsockname()[1]

    def end_all(self):
        for process in self.running:
            process.terminate()
            process.communicate()

    # Commands

    def here(self, text):
        """A text of the page with the places and numbers of this test in the place of the page's."""
        for before, after in (
            ("/srv/project", str(self.room / "project")), ("/usr/local/lib/gate/gate", str(PROGRAM)), ("123456", str(self.app.id)),
            ("https://github.com", self.hub.url), ("127.0.0.1:8097", f"127.0.0.1:{self.port}"),
        ):
            text = text.replace(before, after)
        return text

    def environment(self):
        return {"PATH": f"{self.bin}:{os.environ['PATH']}", "HOME": str(self.home), "LC_ALL": "C.UTF-8", "PYTHONDONTWRITEBYTECODE": "1"}

    def play(self, *titles):
        """Runs the commands of sections, and compares what they print."""
        for title in titles:
            steps = [step for block in self.page[title].all("console") for step in steps_of(block)]
            self.assertTrue(steps, title)
            for command, due in steps:
                with self.subTest(command=command):
                    self.assertEqual(alike(self.printed_by(self.here(command))), alike(self.here(due)))

    def printed_by(self, command):
        if command.split()[:2] in (["gate-host", "run"], ["gate-host", "receive"]):
            return self.first_line_of(command)
        more = f" --web {self.hub.url}" if command.split()[:2] == ["gate-host", "init"] else ""
        ran = subprocess.run(
            ["bash", "-c", command + more], cwd=self.home, env=self.environment(), capture_output=True, encoding="utf-8", timeout=SECONDS,
            check=False,
        )
        self.assertEqual((ran.returncode, ran.stderr), (0, ""), ran.stdout)
        return ran.stdout

    def first_line_of(self, command):
        """Starts what goes on by itself, and gives what it says first. That it shouldn't run as root isn't the page's matter."""
        process = subprocess.Popen(
            ["bash", "-c", f"exec {command}"], cwd=self.home, env=self.environment(), stdin=subprocess.DEVNULL, stderr=subprocess.PIPE,
            encoding="utf-8",
        )
        self.running.append(process)
        return next((line for line in process.stderr if "this runs as root" not in line), "")

    # What people do on GitHub

    def make_app(self):
        """Makes the app with the permissions of the page's table, and brings its key to the machine."""
        rows = re.findall(r"^\| ([A-Z][a-z ]+) \| (read(?: and write)?) \|", self.page["The app"].text, re.MULTILINE)
        permissions = {name.replace("Commit statuses", "statuses").lower().replace(" ", "_"): ACCESS[access] for name, access in rows}
        key = self.home / "gate.private-key.pem"
        subprocess.run(["openssl", "genrsa", "-out", key, "2048"], check=True, capture_output=True, timeout=SECONDS)
        public = subprocess.run(["openssl", "rsa", "-in", key, "-pubout"], check=True, capture_output=True, timeout=SECONDS).stdout
        self.app = self.people.install_app(self.team, "gate", public.decode(), permissions)

    def hurry(self):
        """Has the clock be read and webhooks taken as this test needs it."""
        path = self.room / "project/gate/settings"
        text = path.read_text(encoding="utf-8")
        seconds = (("tick_seconds = 10", "tick_seconds = 1"), ("poll_seconds = 20", "poll_seconds = 2"))
        for before, after in (*seconds, ("127.0.0.1:8097", f"127.0.0.1:{self.port}")):
            self.assertEqual(text.count(before), 1, before)
            text = text.replace(before, after)
        path.write_text(text, encoding="utf-8")

    def commit_settings(self):
        section = self.page["What has to be tested"]
        files = {"bors.toml": section.all("toml")[0], ".github/workflows/build.yml": section.all("yaml")[0]}
        self.people.push_files(self.project, "root", "main", files, "A queue")

    def restrict(self):
        self.people.add_ruleset(self.project, "main", ["~DEFAULT_BRANCH"], ("update", "deletion", "non_fast_forward"), apps=[self.app.id])

    def send_webhooks(self):
        """Sends webhooks of the page's events, with the secret that the page has made."""
        said = re.search(r"Subscribe to events: ([^.]+)\.", self.page["Webhooks"].text)[1]
        events = [it.lower().replace(" ", "_") for it in said.split(", ")]
        secret = (self.room / "project/gate/records/webhook-secret").read_text(encoding="utf-8").strip()
        self.people.add_hook(f"http://127.0.0.1:{self.port}/webhook", secret, events=events)

    def ci(self):
        """CI, which tests what is staged once."""
        commit = self.project.bare.sha("refs/heads/staging")
        if commit and commit not in self.__dict__.setdefault("tested", set()):
            self.tested.add(commit)
            self.people.check_run(self.project, commit, "build")

    def until(self, what, is_so):
        late = time.monotonic() + PATIENCE
        while not is_so():
            if time.monotonic() > late:
                self.fail(f"it doesn't come to this: {what}; {self.comments()}; {self.statuses()}")
            self.ci()
            time.sleep(0.05)

    def comments(self):
        return [MARK.sub("", it.body) for it in self.project.comments.values() if it.user.login == "gate[bot]"]

    def said(self):
        """What the bot has said, line by line, as a person reads it."""
        lines = "\n".join(self.comments()).splitlines()
        return [line.strip().replace("\\(", "(").replace("\\)", ")") for line in lines if line.strip()]

    def statuses(self):
        return [it.description for it in self.project.statuses if it.context == "gate"]

    # The page

    def test_the_commands_of_the_page_land_a_change(self):
        self.make_app()
        of_folder, *others = FIRST
        self.play(of_folder)
        self.hurry()
        self.commit_settings()
        self.restrict()
        self.play(*others)
        self.change = self.people.propose(self.project, "otto", "first", {"first": "1\n"}, "A first change")
        said, due, status = self.page["A first change"].all("text")
        # A comment touches the change on GitHub. If that came before the host's first look, the head would be as new as the comment.
        seen = self.room / f"project/gate/reports/change-{self.change.number}"
        self.until("the host has seen the change", seen.exists)
        time.sleep(2.1)
        self.people.comment(self.change, "ines", said)
        due = list(filter(None, due.splitlines()))
        self.until("the page's comments", lambda: len(self.said()) == len(due))
        self.assertEqual([alike(it) for it in self.said()], [alike(it) for it in due])
        self.until("the page's status", lambda: [alike(it) for it in self.statuses()[-1:]] == [alike(status.strip())])
        self.assertTrue(self.change.merged)
        self.play(*LAST)
        self.send_webhooks()
        self.people.comment(self.change, "otto", "bors ping")
        self.until("an answer", lambda: self.comments()[-1] == "gate: pong")
        self.hub.webhooks.wait()
        answers = {status for it in self.hub.webhooks.deliveries for status in it.statuses}
        self.assertEqual(answers, {202})


if __name__ == "__main__":
    unittest.main()
