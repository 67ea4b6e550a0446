"""Other users of the system, for tests that root runs. A village has a repository of one of them, with a host, a reviewer, an attacker."""
import json
import os
import pwd
import shutil
import subprocess
import time
from pathlib import Path
from typing import Callable, Dict, List, Optional

from stories import GIT, TOP, Failed, must, want

# Users that most systems have, and who own nothing that tests could harm.
LIKELY = ("www-data", "games", "news", "mail", "lp", "uucp", "proxy", "backup", "list", "irc", "man", "daemon", "bin", "nobody")
# Others can't run a Python of root's own.
PYTHON = "/usr/bin/python3"
# What a host needs of it.
FIT = "import sqlite3, sys; sys.exit(sys.version_info < (3, 9) or sqlite3.sqlite_version_info < (3, 37))"
SECONDS = 60
# What a host says when it begins.
GUARDS = "gate-host: guards "
# A host of another time can be put in the place of the one that is here, to see that an attack succeeds there.
HOST_FOLDER = Path(os.environ.get("GATE_HOST_FOLDER", TOP / "host"))


def others() -> List[str]:
    """The names of users that tests may act as."""
    known = {it.pw_name: it.pw_uid for it in pwd.getpwall()}
    return [name for name in LIKELY if known.get(name, 0) != 0]


def may_be_others() -> bool:
    """Whether tests can act as other users here."""
    if os.geteuid() != 0 or len(others()) < 3 or not os.access(PYTHON, os.X_OK):
        return False
    return run_as(others()[0], PYTHON, "-c", FIT, room=Path("/"), env={}).returncode == 0


def environment_of(user: str, room: Path) -> Dict[str, str]:
    """An environment with nothing of root's: a home in the room, and settings of git that the room has."""
    return {
        "PATH": "/usr/local/bin:/usr/bin:/bin", "HOME": str(room / f"home-{user}"), "LC_ALL": "C.UTF-8", "USER": user, "LOGNAME": user,
        "GIT_CONFIG_NOSYSTEM": "1", "GIT_CONFIG_GLOBAL": str(room / "gitconfig"), "PYTHONDONTWRITEBYTECODE": "1",
    }


def as_user(user: str, room: Path) -> dict:
    """What has a command run as a user, for subprocess."""
    found = pwd.getpwnam(user)
    return {"user": found.pw_uid, "group": found.pw_gid, "extra_groups": [], "cwd": room, "env": environment_of(user, room)}


def run_as(user: str, *command, room: Path, **more) -> subprocess.CompletedProcess:
    """Runs a command as a user, to its end."""
    given = {**as_user(user, room), "capture_output": True, "encoding": "utf-8", "timeout": SECONDS, **more}
    return subprocess.run([str(it) for it in command], **given)


def make_folder(path: Path, user: str, mode: int) -> Path:
    path.mkdir()
    found = pwd.getpwnam(user)
    os.chown(path, found.pw_uid, found.pw_gid)
    path.chmod(mode)
    return path


class Village:
    """A repository of one user, which a host of that user guards. Another one is its reviewer, and a third one attacks."""

    def __init__(self, program: Path, room: Path) -> None:
        self.owner, self.reviewer, self.attacker = others()[:3]
        self.room = Path(room).resolve()
        self.room.chmod(0o755)
        self.homes = {name: make_folder(self.room / f"home-{name}", name, 0o755) for name in (self.owner, self.reviewer, self.attacker)}
        self.repository, self.work = self.homes[self.owner] / "project.git", self.homes[self.owner] / "work"
        self.spool = self.repository / "gate/spool"
        self.errors, self.program = self.room / "errors", self.room / "gate"
        self.process: Optional[subprocess.Popen] = None
        self.copy_host(program)
        self.make_repository()
        try:
            self.start()
        except Failed:
            self.close()
            raise

    def copy_host(self, program: Path) -> None:
        """Copies what others have to read: the tree of root may lie in a folder that they can't enter."""
        self.host = self.room / "host"
        shutil.copytree(HOST_FOLDER, self.host, ignore=shutil.ignore_patterns("tests", "__pycache__"))
        shutil.copyfile(program, self.program)
        for path in (self.room, self.host, *self.host.rglob("*"), self.program):
            path.chmod(0o755)
        name = "[user]\n\tname = somebody\n\temail = somebody@localhost\n"
        (self.room / "gitconfig").write_text(f"{name}[safe]\n\tdirectory = *\n", encoding="utf-8")

    # What people do

    def run(self, user: str, *command, **more) -> subprocess.CompletedProcess:
        return run_as(user, *command, room=self.room, **more)

    def must_run(self, user: str, *command, **more) -> str:
        ran = self.run(user, *command, **more)
        want(f"the status of {command} by {user}, which says {ran.stderr}", ran.returncode, 0)
        return ran.stdout

    def must_git(self, user: str, at: Path, *arguments) -> str:
        return self.must_run(user, GIT, "-C", at, *arguments).strip()

    def script(self, user: str, text: str, *arguments) -> str:
        """Runs a script of Python that can import the files of the host."""
        environment = {**environment_of(user, self.room), "PYTHONPATH": str(self.host)}
        return self.must_run(user, PYTHON, "-c", text, *arguments, env=environment)

    def say(self, user: str, text: str, repository: Optional[Path] = None) -> subprocess.CompletedProcess:
        """Says something of change 1."""
        return self.run(user, PYTHON, self.host / "gate-host", "say", "1", text, "--repository", repository or self.repository)

    def must_say(self, user: str, text: str, repository: Optional[Path] = None) -> None:
        ran = self.say(user, text, repository)
        want(f"how the comment of {user} ends, which says {ran.stderr}", ran.returncode, 0)

    def initialise(self, user: str, repository: Path) -> None:
        """Has `gate-host init` set a repository up."""
        more = ["--reviewer", self.reviewer, "--program", self.program, "--check", "build=true"]
        self.must_run(user, PYTHON, self.host / "gate-host", "init", repository, *more)

    def initialise_again(self) -> None:
        """Has `gate-host init` make what is missing in the village's repository."""
        self.must_run(self.owner, PYTHON, self.host / "gate-host", "init", self.repository)

    # The repository and the host

    def make_repository(self) -> None:
        """A repository with a first commit and a change."""
        owner = self.owner
        self.must_git(owner, self.room, "init", "--quiet", "--bare", "--initial-branch=main", self.repository)
        self.must_git(owner, self.room, "clone", "--quiet", self.repository, self.work)
        (self.work / "bors.toml").write_text('status = ["build"]\n', encoding="utf-8")
        self.first = self.commit("main")
        self.initialise(owner, self.repository)
        settings = self.repository / "gate/settings"
        text = settings.read_text(encoding="utf-8")
        for before, after in (("tick_seconds = 10", "tick_seconds = 0.4"), ("look_seconds = 1", "look_seconds = 0.2")):
            must(f"whether the settings have {before}", before in text)
            text = text.replace(before, after)
        settings.write_text(text, encoding="utf-8")
        (self.work / "more").write_text("1\n", encoding="utf-8")
        self.head = self.commit("change/1")

    def commit(self, branch: str) -> str:
        """Commits what there is in the clone, and pushes it to a branch."""
        self.must_git(self.owner, self.work, "add", ".")
        self.must_git(self.owner, self.work, "commit", "--quiet", "-m", f"For {branch}")
        self.must_git(self.owner, self.work, "push", "--quiet", "origin", f"HEAD:refs/heads/{branch}")
        return self.must_git(self.owner, self.work, "rev-parse", "HEAD")

    def start(self) -> None:
        """Starts the host, and waits until it runs and has seen the change."""
        before = self.complaints().count(GUARDS)
        command = [PYTHON, self.host / "gate-host", "run", self.repository]
        with open(self.errors, "ab") as errors:
            given = {**as_user(self.owner, self.room), "stdin": subprocess.DEVNULL, "stdout": errors, "stderr": errors}
            self.process = subprocess.Popen([str(it) for it in command], **given)
        self.until("the host runs", lambda: self.complaints().count(GUARDS) > before)
        self.until("the change is open", lambda: "state     open" in self.report("change-1"))

    def stop(self) -> None:
        """Ends the host in order."""
        self.process.terminate()
        want("how the host ends", self.process.wait(SECONDS), 0)

    def until(self, what: str, is_so: Callable[[], bool], seconds: float = 150) -> None:
        late = time.monotonic() + seconds
        while not is_so():
            if time.monotonic() > late:
                raise Failed(f"it doesn't come to this within {seconds:g} seconds: {what}; the host says {self.complaints()[-2000:]}")
            if self.process.poll() is not None:
                raise Failed(f"the host has ended, and says {self.complaints()[-2000:]}")
            time.sleep(0.02)

    def complaints(self) -> str:
        return self.errors.read_text(encoding="utf-8", errors="replace") if self.errors.exists() else ""

    def report(self, name: str) -> str:
        path = self.repository / "gate/reports" / name
        return path.read_text(encoding="utf-8") if path.exists() else ""

    def close(self) -> None:
        if self.process and self.process.poll() is None:
            self.process.kill()
            self.process.wait()

    # What is due

    def told(self, words: str, seconds: float = 150) -> None:
        self.until(f"the log of the change says {words!r}", lambda: words in self.report("log-1"), seconds)

    def must_have_said_nothing(self) -> None:
        """The reviewer counts as having said nothing so far, and the host has taken all that lies in the spool. Then what the reviewer
        says counts, so the village is one in which something can be approved."""
        self.must_say(self.attacker, "that was all")
        self.told("> that was all")
        want("what the reviewer is taken to have said", self.said_by_reviewer(), [])
        want("who has approved", self.row("approved"), "-")
        want("where main is", self.must_git(self.owner, self.repository, "rev-parse", "main"), self.first)
        self.must_say(self.reviewer, "bors r+")
        self.told("Landed on main")

    def said_by_reviewer(self) -> List[str]:
        return [line for line in self.report("log-1").splitlines() if line.endswith(f"  {self.reviewer} wrote:")]

    def row(self, name: str) -> str:
        """What a row of the report of the change says."""
        rows = dict(line.split(None, 1) for line in self.report("change-1").splitlines())
        return rows[name].strip()

    def name_of_repository(self) -> str:
        """By what a note names the repository, as far as it has a name. Everybody can find that out."""
        identity = self.repository / "gate/identity"
        text = identity.read_text(encoding="utf-8").strip() if identity.exists() else ""
        return f"{text}-{self.repository.stat().st_ino}"

    def forged(self, **more) -> Dict[str, object]:
        """The body of a note that the attacker would like the reviewer to have left."""
        body = {"kind": "comment", "person": self.reviewer, "change": 1, "text": "bors r+", "head": self.head}
        return {**body, "repository": self.name_of_repository(), "nonce": "0" * 32, **more}


def in_bytes(body: Dict[str, object]) -> bytes:
    return json.dumps(body).encode()
