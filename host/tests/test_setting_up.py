"""Tests of how a repository is set up."""
import shutil
import sys
import unittest
from pathlib import Path

sys.path.insert(0, str(Path(__file__).resolve().parent.parent))

from folders import InRepository  # noqa: E402
from gate_host.hook_file import is_for_all, python_for_all  # noqa: E402
from gate_host.settings import settings_in  # noqa: E402


class InitTests(InRepository):
    def test_it_says_what_to_do_next(self):
        ran = self.set_up()
        self.assertIn("To begin: ", ran.stdout)
        self.assertNotIn("no program", ran.stderr)
        self.assertEqual(self.git("show", "main:bors.toml").splitlines()[-1], 'status = ["build"]')

    def test_a_repository_that_is_not_there(self):
        ran = self.run_host("init", "none.git")
        self.assertEqual(ran.returncode, 1)
        self.assertIn("git init --bare --initial-branch=main", ran.stderr)

    def test_a_program_that_is_not_built_is_told(self):
        ran = self.init("--program", str(self.room / "none"))
        self.assertEqual(ran.returncode, 0)
        self.assertIn(f"there is no program of the bot at {self.room / 'none'} yet", ran.stderr)

    def test_checks_and_people_are_added_later(self):
        self.set_up()
        before = self.places.settings.read_text(encoding="utf-8")
        self.places.settings.write_text(before.replace("tick_seconds = 10", "tick_seconds = 3"), encoding="utf-8")
        ran = self.init("--check=lint=make lint", "--check=build=true", "--reviewer=otto", "--member=milo", "--reviewer=rosa")
        self.assertEqual(ran.returncode, 0, ran.stderr)
        self.assertIn("Its checks are: build, lint.", ran.stdout)
        kept = settings_in(self.places.settings.read_text(encoding="utf-8"))
        self.assertEqual((kept.checks, kept.tick_seconds), ({"build": "true", "lint": "make lint"}, 3))
        lines = [line for line in self.places.roles.read_text(encoding="utf-8").splitlines() if not line.startswith("#")]
        self.assertEqual(lines, ["rosa reviewer", "otto reviewer", "milo member"])
        text = self.places.settings.read_text(encoding="utf-8")
        for words, why in (
            (["--check=build=false"], "with another command"), (["--main=other"], "set up already"), (["--program=/x"], "set up already"),
            (["--check=build"], "NAME=COMMAND"), (["--reviewer=ro/sa"], "isn't a name"),
        ):
            ran = self.init(*words)
            self.assertEqual((ran.returncode, self.places.settings.read_text(encoding="utf-8")), (1, text), words)
            self.assertIn(why, ran.stderr)

    def test_the_branch_of_head_has_to_be_there(self):
        self.git("update-ref", "refs/heads/trunk", self.commit())
        ran = self.init("--check=build=true")
        self.assertEqual(ran.returncode, 1)
        self.assertIn("name the one to guard by --main: trunk", ran.stderr)
        self.assertFalse(self.places.folder.exists())
        ran = self.init("--check=build=true", "--main=trunk")
        self.assertEqual(ran.returncode, 0, ran.stderr)
        self.assertIn("HEAD names refs/heads/main", ran.stderr)
        self.assertEqual(settings_in(self.places.settings.read_text(encoding="utf-8")).main, "trunk")

    def test_a_setting_of_the_user_does_not_hide_the_repository(self):
        (self.room / ".gitconfig").write_text("[safe]\n    bareRepository = explicit\n[core]\n    hooksPath = /x\n", encoding="utf-8")
        self.set_up()
        self.git("update-ref", "refs/heads/change/1", self.commit())
        for folder in (self.path, self.path / "refs"):
            ran = self.run_host("say", "1", "bors r+", at=folder)
            self.assertEqual(ran.returncode, 0, ran.stderr)

    def test_others_cannot_exchange_the_folders_of_the_owner(self):
        for mode, due in ((0o775, 0o1775), (0o755, 0o755), (0o1777, 0o1777)):
            self.path.chmod(mode)
            (self.path / "hooks").chmod(0o775)
            self.assertEqual(self.init("--check=build=true").returncode, 0)
            self.assertEqual(self.path.stat().st_mode & 0o7777, due)
            self.assertEqual((self.path / "hooks").stat().st_mode & 0o022, 0)
            self.path.chmod(0o755)
        self.path.chmod(0o775)
        ran = self.run_host("run", str(self.path))
        self.assertEqual(ran.returncode, 1)
        self.assertIn("could exchange what is in it", ran.stderr)

    def test_a_hook_to_which_something_was_added_is_kept(self):
        self.set_up()
        path = self.path / "hooks/pre-receive"
        text = path.read_text(encoding="utf-8") + "echo more\n"
        path.write_text(text, encoding="utf-8")
        ran = self.init()
        self.assertEqual((ran.returncode, path.read_text(encoding="utf-8")), (1, text))
        self.assertIn("take out the line", ran.stderr)

    def test_the_hook_runs_a_python_that_all_can_run(self):
        self.set_up()
        lines = (self.path / "hooks/pre-receive").read_text(encoding="utf-8").splitlines()
        self.assertIn(f"python={python_for_all()}", lines)
        closed = self.room / "closed"
        closed.mkdir(mode=0o700)
        python = closed / "python3"
        python.symlink_to(Path(sys.executable).resolve())
        shutil.copy("/bin/true", closed / "tool")
        self.assertFalse(is_for_all(closed / "tool"))
        self.assertTrue(is_for_all(Path("/bin/true")))

    def test_a_hook_that_was_written_for_another_python_is_written_anew(self):
        self.set_up()
        path = self.path / "hooks/pre-receive"
        due = path.read_text(encoding="utf-8")
        path.write_text(due.replace(python_for_all(), "/none/python3"), encoding="utf-8")
        path.chmod(0o644)
        self.assertEqual(self.init().returncode, 0)
        self.assertEqual((path.read_text(encoding="utf-8"), path.stat().st_mode & 0o777), (due, 0o755))


if __name__ == "__main__":
    unittest.main()
