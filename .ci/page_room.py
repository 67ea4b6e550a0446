"""Where `.ci/test_pages` types the commands of pages: folders, a Bash with the two programs on its PATH, hosts that run, and copies of the
tree with a stub of the kit or with the built program."""
import os
import re
import shlex
import shutil
import signal
import subprocess
import sys
import time
from contextlib import contextmanager
from pathlib import Path
from typing import Callable, Dict, Iterator, List, Tuple

from programs import MORE_SECONDS, TOP, Failed, want

sys.path[:0] = [str(TOP / "host"), str(TOP / "host/tests")]

from pages import Section, sections_of  # noqa: E402

# What a machine of somebody else may say and this one doesn't: who it is, the time, names of commits and of deliveries.
TIME = re.compile(r"\d{4}-\d\d-\d\d \d\d:\d\d:\d\d \+0000")
COMMIT = re.compile(r"\b(?:[0-9a-f]{40}|[0-9a-f]{10}|[0-9a-f]{7})\b")
DELIVERY = re.compile(r"\b(delivery )\d+ \([a-z]+-[0-9.]+\)|\[[a-z]+-[0-9.]+ of TIME\]")
SECONDS = re.compile(r"after \d+ seconds?")
# Tools of the system that alter the machine. Each notes its words in the file `noted`, and does nothing.
STUBBED = ("apt-get", "useradd", "systemctl", "install")
NOTES = '#!/bin/sh\necho "${0##*/} $*" >>"$NOTED"\n'


def alike(text: str) -> str:
    """A text with one word in the place of each time, commit and delivery, and of how long something took."""
    return SECONDS.sub("after SECONDS", DELIVERY.sub("DELIVERY", COMMIT.sub("COMMIT", TIME.sub("TIME", text))))


class Room:
    """A folder for the cases, a PATH with the two programs, and the sections of the pages."""

    def __init__(self, folder: str, program: Path):
        self.folder, self.program = Path(folder), program
        self.sections: Dict[str, List[Section]] = {}
        self.bin, self.stubs = self.new("bin"), self.new("stubs")
        for name, path in (("gate", program), ("gate-host", TOP / "host/gate-host"), ("python3", Path(sys.executable))):
            (self.bin / name).symlink_to(path)
        for name in STUBBED:
            self.tool(self.stubs / name, NOTES)

    def new(self, name: str) -> Path:
        path = self.folder / name
        path.mkdir(parents=True)
        return path

    @staticmethod
    def tool(path: Path, text: str) -> None:
        path.write_text(text, encoding="utf-8")
        path.chmod(0o755)

    def section(self, page: str, title: str) -> Section:
        """The section of a page under this heading, which has to be there once."""
        if page not in self.sections:
            self.sections[page] = sections_of((TOP / page).read_text(encoding="utf-8"))
        found = [it for it in self.sections[page] if it.title == title]
        want(f"how many sections of {page} are called {title}", len(found), 1)
        return found[0]

    # Commands

    def environment(self, **more: str) -> Dict[str, str]:
        kept = {name: value for name, value in os.environ.items() if not name.startswith(("GIT_", "GL_", "GATE_"))}
        who = {f"GIT_{it}_NAME": "ines" for it in ("AUTHOR", "COMMITTER")}
        who.update({f"GIT_{it}_EMAIL": "ines@localhost" for it in ("AUTHOR", "COMMITTER")})
        return {
            **kept, **who, "GIT_CONFIG_GLOBAL": "/dev/null", "GIT_CONFIG_NOSYSTEM": "1", "HOME": str(self.folder), "LC_ALL": "C.UTF-8",
            "TZ": "UTC", "PYTHONDONTWRITEBYTECODE": "1", "PATH": f"{self.bin}:{os.environ['PATH']}", **more,
        }

    def ran(self, commands: str, at: Path, given: str = "", **more: str) -> "subprocess.CompletedProcess[str]":
        """What one Bash gives that stops at the first command that fails."""
        return subprocess.run(
            ["bash", "-e", "-o", "pipefail", "-c", commands], cwd=at, env=self.environment(**more), input=given, capture_output=True,
            encoding="utf-8", timeout=MORE_SECONDS, check=False,
        )

    def typed(self, commands: str, at: Path, given: str = "", **more: str) -> str:
        """What commands print, which have to end well."""
        found = self.ran(commands, at, given, **more)
        if found.returncode:
            raise Failed(f"{commands[:300]} ends with {found.returncode}: {(found.stdout + found.stderr)[-1500:]}")
        return found.stdout

    @contextmanager
    def running(self, command: str, at: Path, **more: str) -> "Iterator[subprocess.Popen[bytes]]":
        """A command that goes on by itself, in a group of its own, and is ended by a signal."""
        child = subprocess.Popen(
            ["bash", "-c", command], cwd=at, env=self.environment(**more), stdin=subprocess.DEVNULL, stdout=subprocess.PIPE,
            stderr=subprocess.DEVNULL, bufsize=0, start_new_session=True,
        )
        try:
            yield child
        finally:
            for sign in (signal.SIGTERM, signal.SIGKILL):
                try:
                    os.killpg(child.pid, sign)
                    child.wait(20)
                except (ProcessLookupError, subprocess.TimeoutExpired):
                    pass
            assert child.stdout
            child.stdout.close()

    # Copies of the tree

    def tree(self, name: str) -> Path:
        """A copy of the tree, without what is built."""
        path = self.new(name)
        words = ["tar", "-C", str(TOP), "--exclude=out", "--exclude=.git", "--exclude=__pycache__", "--exclude=must-fail"]
        with subprocess.Popen([*words, "-cf", "-", "."], stdout=subprocess.PIPE) as packed:
            subprocess.run(["tar", "-C", str(path), "--no-same-owner", "-xf", "-"], stdin=packed.stdout, check=True, timeout=MORE_SECONDS)
        return path

    def built_tree(self, name: str) -> Path:
        """One in which the program counts as built from these sources."""
        path = self.tree(name)
        (path / "crates/gate_bot/out").mkdir()
        shutil.copy(self.program, path / "crates/gate_bot/out/gate_bot")
        self.typed(
            'source .ci/built.sh; mark crates/gate_bot/out/gate_bot crates/gate_bot/out/gate.built "$(toolchain)" "$(sources .)"', path
        )
        return path

    def with_kit(self) -> Dict[str, str]:
        """The variables by which the stub of a kit is found, which proves nothing."""
        path = self.new("kit/bin")
        self.typed(f'source "{TOP}/.ci/stub_kit.sh"; write_kit "{path}"; echo "stub 1" >"{path}/version"', self.folder)
        return {"PATH": f"{path}:{self.bin}:{os.environ['PATH']}", "GATE_TEST_NICENESS": str(os.nice(0))}


def until(what: str, is_so: Callable[[], object], seconds: float = 60) -> None:
    late = time.monotonic() + seconds
    while not is_so():
        if time.monotonic() > late:
            raise Failed(f"it doesn't come to this: {what}")
        time.sleep(0.05)


class Team:
    """A repository that a host guards, in a folder with a clone `work` beside it. The clock is read at once."""

    def __init__(self, room: Room, name: str):
        self.room, self.folder = room, room.new(name)
        self.repository, self.work = self.folder / "project.git", self.folder / "work"
        room.typed("git init --quiet --bare --initial-branch=main project.git", self.folder)

    def hurry(self, *changed: "tuple[str, str]") -> None:
        """Alters the settings of the host: the pauses, and what else is named."""
        path = self.repository / "gate/settings"
        text = path.read_text(encoding="utf-8")
        for before, after in (("tick_seconds = 10\n", "tick_seconds = 1\n"), ("look_seconds = 1\n", "look_seconds = 0.2\n"), *changed):
            want(f"how often the settings have {before!r}", text.count(before), 1)
            text = text.replace(before, after)
        path.write_text(text, encoding="utf-8")

    def clone(self) -> None:
        self.room.typed("git clone --quiet project.git work", self.folder)

    def push(self, person: str, files: Dict[str, Tuple[str, str]]) -> None:
        """Pushes to each of these branches, in one push, a commit that adds this file with this text to the main branch."""
        lines = ["git fetch --quiet; to="]
        for branch, (name, text) in files.items():
            lines.append(f"git checkout --quiet --detach origin/main; printf %s {shlex.quote(text)} >{name}; git add {name}")
            lines.append(f'git commit --quiet -m "Adds {name}"; to="$to $(git rev-parse HEAD):refs/heads/{branch}"')
        self.room.typed("\n".join([*lines, "git push --quiet origin $to"]), self.work, GL_USER=person)

    def say(self, person: str, change: int, text: str) -> None:
        self.room.typed(f"gate-host say {change} '{text}' --repository project.git", self.folder, GL_USER=person)

    def report(self, name: str) -> str:
        path = self.repository / "gate/reports" / name
        return path.read_text(encoding="utf-8") if path.exists() else ""

    def bring(self, change: int) -> None:
        """A change of otto's, which the host has seen and rosa approves."""
        self.push("otto", {f"change/{change}": (f"file-{change}", "")})
        until(f"the host has seen change {change}", lambda: self.report(f"change-{change}"))
        self.say("rosa", change, "bors r+")
        until(f"change {change} lands", lambda: self.has_landed(change))

    def has_landed(self, *changes: int) -> bool:
        return all("Landed on main as" in self.report(f"log-{change}") for change in changes)
