"""Tests of which version a host is, of which commit, and which program it means."""
import hashlib
import os
import shutil
import subprocess
import sys
import unittest
import unittest.mock
from pathlib import Path

sys.path.insert(0, str(Path(__file__).resolve().parent.parent))

from folders import SCRIPT, InFolder  # noqa: E402
from gate_host import VERSION  # noqa: E402
from gate_host.faults import Trouble  # noqa: E402
from gate_host.release import command_of, commit_of_checkout, release_in, sum_in, told_in, usual_program  # noqa: E402

COMMIT = "0123456789abcdef0123456789abcdef01234567"
SUM = "ab" * 32
PROVED = f"""\
What was proved.

version: {VERSION}
commit: {COMMIT}
tree: clean
program: sha256 {SUM}

gate_text logic=proved functions=1 sum=0
version: 2.0.0
"""


class ReleaseTests(InFolder):
    def test_what_the_file_tells(self):
        told = {"version": VERSION, "commit": COMMIT, "tree": "clean", "program": f"sha256 {SUM}"}
        self.assertEqual(told_in(PROVED), told)
        self.assertEqual(release_in(PROVED), f"gate-host {VERSION}, of commit {COMMIT}")
        self.assertEqual(sum_in(PROVED), SUM)

    def test_a_host_on_the_path_is_called_by_its_name(self):
        script = self.room / "lib/gate host/gate-host"
        script.parent.mkdir(parents=True)
        script.write_text("#!/bin/sh\n", encoding="utf-8")
        script.chmod(0o755)
        commands = self.room / "bin"
        commands.mkdir()
        with unittest.mock.patch.dict(os.environ, {"PATH": str(commands)}):
            self.assertEqual(command_of(script), f"'{script}'")
            (commands / "gate-host").symlink_to(script)
            self.assertEqual(command_of(script), "gate-host")
            self.assertEqual(command_of(SCRIPT), str(SCRIPT))

    def test_changes_that_arent_committed_are_told(self):
        text = PROVED.replace("tree: clean", "tree: with uncommitted changes")
        self.assertEqual(release_in(text), f"gate-host {VERSION}, of commit {COMMIT} with uncommitted changes")

    def test_files_that_arent_those_of_this_host(self):
        for text in ("", PROVED.replace(COMMIT, COMMIT[:39]), PROVED.replace(f"version: {VERSION}", "version: 0.1.0")):
            with self.assertRaisesRegex(Trouble, "install the package again"):
                release_in(text)
        for text in ("", PROVED.replace(SUM, SUM[:63]), PROVED.replace("sha256", "sha1")):
            with self.assertRaisesRegex(Trouble, "no sum of the program"):
                sum_in(text)

    def test_the_program_that_is_meant(self):
        proved = self.room / "lib/PROVED"
        self.assertEqual(usual_program(proved, self.room), self.room / "crates/gate_bot/out/gate_bot")
        proved.parent.mkdir()
        proved.touch()
        self.assertEqual(usual_program(proved, self.room), self.room / "lib/gate")

    def test_the_commit_of_a_checkout(self):
        self.assertIsNone(commit_of_checkout(self.room))
        for words in (["init", "--quiet"], ["commit", "--quiet", "--allow-empty", "-m", "x"]):
            git = ["git", "-c", "user.name=x", "-c", "user.email=x@localhost", "-C", str(self.room)]
            subprocess.run([*git, *words], check=True, timeout=30)
        # A repository of something else.
        self.assertIsNone(commit_of_checkout(self.room))
        (self.room / "crates.txt").touch()
        found = subprocess.run(["git", "-C", str(self.room), "rev-parse", "HEAD"], check=True, capture_output=True, timeout=30)
        self.assertEqual(commit_of_checkout(self.room), found.stdout.decode().strip())
        # A folder in that checkout is none.
        (self.room / "inner").mkdir()
        (self.room / "inner/crates.txt").touch()
        self.assertIsNone(commit_of_checkout(self.room / "inner"))


class InstalledTests(InFolder):
    """A host that stands beside PROVED and the program, as a package installs it."""

    def setUp(self):
        super().setUp()
        self.lib, self.repository = self.room / "lib", self.room / "project.git"
        shutil.copytree(SCRIPT.parent / "gate_host", self.lib / "gate_host", ignore=shutil.ignore_patterns("__pycache__"))
        shutil.copy2(SCRIPT, self.lib)
        self.program = self.lib / "gate"
        shutil.copy("/bin/true", self.program)
        self.write_proved(hashlib.sha256(self.program.read_bytes()).hexdigest())
        subprocess.run(["git", "init", "--quiet", "--bare", "--initial-branch=main", str(self.repository)], check=True, timeout=30)

    def write_proved(self, found):
        (self.lib / "PROVED").write_text(PROVED.replace(SUM, found), encoding="utf-8")

    def lines_of(self, *words):
        ran = subprocess.run(
            [sys.executable, str(self.lib / "gate-host"), *words], capture_output=True, encoding="utf-8", timeout=60, cwd=self.room,
        )
        return (ran.stdout + ran.stderr).splitlines()

    def doctor(self):
        return self.lines_of("doctor", str(self.repository))

    def test_it_finds_the_program_and_tells_the_commit(self):
        self.lines_of("init", str(self.repository), "--check=build=true")
        self.assertIn(f"program = {self.program}", (self.repository / "gate/settings").read_text(encoding="utf-8").splitlines())
        proved = self.lib / "PROVED"
        told = f"this is gate-host {VERSION}, of commit {COMMIT}; {proved} says what was proved of its program"
        self.assertEqual(self.doctor()[0], f"right: {told}")
        self.assertIn(f"right: it is the program that was proved, by the sum in {proved}", self.doctor())
        self.assertEqual(self.lines_of("--version"), [f"gate-host {VERSION}"])

    def test_another_program_is_told(self):
        self.lines_of("init", str(self.repository), "--check=build=true")
        self.write_proved(SUM)
        told = f"it isn't the program that was proved: {self.lib}/PROVED has another sum; install the package again"
        self.assertIn(f"WRONG: {told}", self.doctor())
        other = self.room / "other"
        self.program.rename(other)
        self.assertTrue(any("isn't there; build it" in line for line in self.doctor()))
        settings = self.repository / "gate/settings"
        settings.write_text(settings.read_text(encoding="utf-8").replace(str(self.program), str(other)), encoding="utf-8")
        self.assertIn(f"note: it isn't the program of the package, which is {self.program}", self.doctor())

    def test_a_proved_that_cant_be_read_is_wrong(self):
        self.lines_of("init", str(self.repository), "--check=build=true")
        (self.lib / "PROVED").write_bytes(b"\xff\n")
        self.assertTrue(self.doctor()[0].startswith(f"WRONG: {self.lib}/PROVED can't be read"), self.doctor()[0])


if __name__ == "__main__":
    unittest.main()
