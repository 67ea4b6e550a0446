"""Folders and repositories in which the tests of single files are made. Each is a test's own, and goes away with it."""
import os
import shutil
import subprocess
import sys
import tempfile
import unittest
from pathlib import Path

sys.path.insert(0, str(Path(__file__).resolve().parent.parent))

from gate_host.core.orders import Stage  # noqa: E402
from gate_host.places import Places  # noqa: E402
from gate_host.repository import Repository  # noqa: E402

SCRIPT = Path(__file__).resolve().parent.parent / "gate-host"


class InFolder(unittest.TestCase):
    """A test in a folder of its own."""

    def setUp(self):
        room = tempfile.TemporaryDirectory()
        self.addCleanup(room.cleanup)
        self.room = Path(room.name)


class InRepository(InFolder):
    """A test with a bare repository, in a folder of its own."""

    def setUp(self):
        super().setUp()
        self.path = self.room / "project.git"
        subprocess.run(["git", "init", "--quiet", "--bare", "--initial-branch=main", str(self.path)], check=True, timeout=30)
        self.places = Places(self.path)
        self.program = self.room / "gate"
        shutil.copy("/bin/true", self.program)

    def git(self, *arguments):
        command = ["git", "-c", "user.name=x", "-c", "user.email=x@localhost", "-C", str(self.path), *arguments]
        return subprocess.run(command, stdin=subprocess.DEVNULL, capture_output=True, check=True, timeout=30).stdout.decode().strip()

    def run_host(self, *words, at=None, home=None):
        environment = {name: value for name, value in os.environ.items() if not name.startswith("GIT_")}
        ran = subprocess.run(
            [sys.executable, str(SCRIPT), *words], cwd=at or self.room, env={**environment, "HOME": str(home or self.room)}, timeout=60,
            stdin=subprocess.DEVNULL, capture_output=True, encoding="utf-8",
        )
        return ran

    def init(self, *words):
        return self.run_host("init", str(self.path), *words)

    def set_up(self):
        ran = self.init("--program", str(self.program), "--check=build=true", "--reviewer=rosa")
        self.assertEqual(ran.returncode, 0, ran.stderr)
        return ran

    def commit(self, text="x"):
        tree = self.git("mktree")
        return self.git("commit-tree", tree, "-m", text)


class InHistory(InFolder):
    """A test in a repository with a main branch at `base`, two heads that merge, one that conflicts with the first, and one that stands
    alone."""

    def setUp(self):
        super().setUp()
        self.path = self.room / "project.git"
        subprocess.run(["git", "init", "--quiet", "--bare", "--initial-branch=main", str(self.path)], check=True, timeout=30)
        self.places = Places(self.path)
        self.places.records.mkdir(parents=True)
        self.base = self.commit({"a": "1\n"})
        self.one = self.commit({"a": "1\n", "b": "2\n"}, self.base)
        self.two = self.commit({"a": "1\n", "c": "3\n"}, self.base)
        self.clash = self.commit({"a": "1\n", "b": "9\n"}, self.base)
        self.alone = self.commit({"d": "4\n"})
        self.git("update-ref", "refs/heads/main", self.base)
        self.repository = Repository(self.places, "main")

    def git(self, *arguments, given=""):
        """What git writes of the guarded repository, as somebody else runs it."""
        command = ["git", "-C", str(self.path), *arguments]
        return subprocess.run(command, input=given.encode(), capture_output=True, check=True, timeout=30).stdout.decode().strip()

    def commit(self, files, *parents):
        lines = [f"100644 blob {self.git('hash-object', '-w', '--stdin', given=text)}\t{name}\n" for name, text in files.items()]
        given = [it for parent in parents for it in ("-p", parent)]
        author = ["-c", "user.name=x", "-c", "user.email=x@localhost"]
        return self.git(*author, "commit-tree", self.git("mktree", given="".join(lines)), *given, "-m", "x")

    def order(self, *heads):
        numbered = [[number, head] for number, head in enumerate(heads, 1)]
        return Stage(3, "staging", self.base, tuple(numbered))

    def made(self, *heads):
        return self.repository.merge_batch(self.order(*heads), 5, titled).commit


def titled(titles):
    """The message of a merge, by the titles of its changes."""
    return "".join(f"{change} {title}\n" for change, title in titles.items())
