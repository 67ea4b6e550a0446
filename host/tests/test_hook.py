"""Tests of what a push is refused for, and of what git tells of it."""
import io
import os
import subprocess
import sys
import unittest
from contextlib import redirect_stderr
from pathlib import Path
from unittest import mock

sys.path.insert(0, str(Path(__file__).resolve().parent.parent))

from folders import InRepository  # noqa: E402
from gate_host import hook  # noqa: E402
from gate_host.hook_file import MARK, SCRIPT, python_for_all  # noqa: E402
from gate_host.setting_up import mend_hook  # noqa: E402

NOTHING, COMMIT = "0" * 40, "a" * 40


class HookTests(InRepository):
    def refused(self, before, after, branch, person="otto"):
        with mock.patch("gate_host.hook.person_here", lambda owner: person):
            return hook.complaints([(before, after, branch)], self.places)

    def test_what_is_refused(self):
        self.set_up()
        self.git("symbolic-ref", "refs/heads/master", "refs/heads/main")
        for branch, why in (
            ("main", "by the queue alone"), ("staging", "by the host alone"), ("trying", "by the host alone"),
            ("staging/x", "in the way of the branch staging"), ("trying/x/y", "in the way"), ("main/x", "in the way"),
            ("change", "is no change"), ("change/0", "is no change"), ("change/x", "is no change"), ("master", "another name of"),
        ):
            found = self.refused(COMMIT, COMMIT, f"refs/heads/{branch}")
            self.assertEqual((len(found), why in found[0]), (1, True), branch)
        for name in ("refs/replace/" + COMMIT, "refs/gate/kept/staging/x"):
            self.assertEqual(len(self.refused(NOTHING, COMMIT, name)), 1, name)
        for branch in ("change/7", "other", "stagingx", "x/staging"):
            self.assertEqual(self.refused(NOTHING, COMMIT, f"refs/heads/{branch}"), [], branch)
        self.assertEqual(self.refused(NOTHING, COMMIT, "refs/tags/x"), [])

    def test_what_should_not_be_there_may_be_taken_away(self):
        self.set_up()
        for name in ("refs/replace/" + COMMIT, "refs/heads/staging/x", "refs/heads/change"):
            self.assertEqual(self.refused(COMMIT, NOTHING, name), [], name)
        for name in ("refs/heads/main", "refs/heads/staging", "refs/gate/kept/staging/x"):
            self.assertEqual(len(self.refused(COMMIT, NOTHING, name)), 1, name)

    def test_who_may_push_to_the_main_branch(self):
        self.set_up()
        text = self.places.settings.read_text(encoding="utf-8")
        self.places.settings.write_text(text.replace("may_push = ", "may_push = ines"), encoding="utf-8")
        self.assertEqual(self.refused(COMMIT, COMMIT, "refs/heads/main", "ines"), [])
        self.assertEqual(len(self.refused(COMMIT, COMMIT, "refs/heads/main", "otto")), 1)
        self.assertEqual(self.refused(NOTHING, COMMIT, "refs/heads/main", "otto"), [])
        with mock.patch("gate_host.hook.person_here", lambda owner: None):
            self.assertEqual(len(hook.complaints([], self.places)), 1)

    def test_who_may_put_a_history_in_the_place_of_the_first_commit(self):
        self.set_up()
        first = self.git("rev-parse", "main")
        self.assertEqual(self.places.first_commit(), first)
        for person, before, due in (("rosa", first, 0), ("otto", first, 1), ("rosa", COMMIT, 1)):
            self.assertEqual(len(self.refused(before, COMMIT, "refs/heads/main", person)), due, (person, before))
        self.assertEqual(len(self.refused(first, NOTHING, "refs/heads/main", "rosa")), 1)

    def test_a_push_never_ends_in_a_traceback(self):
        """Whatever of the host or its Python has moved."""
        self.set_up()
        path = self.path / "hooks/pre-receive"
        text = path.read_text(encoding="utf-8")
        update = f"{NOTHING} {COMMIT} refs/heads/staging\n"
        for before, after, due in (
            (None, None, "is moved by the host alone"),
            (f"python={python_for_all()}", "python=/none/python3", "is moved by the host alone"),
            (f"host={SCRIPT}", "host=/none/gate-host", "The owner runs gate-host init here again"),
            ("hook --repository", "hook --repository /none --repository", "is moved by the host alone"),
        ):
            path.write_text(text.replace(before, after) if before else text, encoding="utf-8")
            ran = subprocess.run([path], cwd=self.path, input=update, capture_output=True, encoding="utf-8", timeout=60)
            self.assertEqual((ran.returncode, ran.stderr.count("\n"), due in ran.stderr), (1, 1, True), ran.stderr)
        given, faulty = io.TextIOWrapper(io.BytesIO(b"")), mock.patch.object(hook, "complaints", side_effect=ValueError("x"))
        with faulty, mock.patch("sys.stdin", given), redirect_stderr(io.StringIO()) as said:
            self.assertEqual(hook.before_push(self.places), 1)
        self.assertIn("by a fault of the host; tell its owner: ValueError: x", said.getvalue())

    def test_a_host_that_is_found_by_its_name_knows_its_own_python(self):
        """As one that was installed, which isn't for the Python of the hook."""
        self.set_up()
        path = self.path / "hooks/pre-receive"
        path.write_text(path.read_text(encoding="utf-8").replace(f"host={SCRIPT}", "host=/none/gate-host"), encoding="utf-8")
        (self.room / "bin").mkdir()
        wrapper = self.room / "bin/gate-host"
        wrapper.write_text(f'#!/bin/sh\nexec {sys.executable} {SCRIPT} "$@"\n', encoding="utf-8")
        wrapper.chmod(0o755)
        environment = {**os.environ, "PATH": f"{self.room}/bin:{os.environ['PATH']}"}
        update = f"{NOTHING} {COMMIT} refs/heads/staging\n"
        ran = subprocess.run([path], cwd=self.path, input=update, env=environment, capture_output=True, encoding="utf-8", timeout=60)
        self.assertEqual((ran.returncode, ran.stderr.count("\n"), "is moved by the host alone" in ran.stderr), (1, 1, True), ran.stderr)

    def test_a_host_that_has_moved_is_found_by_its_name(self):
        self.set_up()
        path = self.path / "hooks/pre-receive"
        path.write_text(path.read_text(encoding="utf-8").replace(f"host={SCRIPT}", "host=/none/gate-host"), encoding="utf-8")
        (self.room / "bin").mkdir()
        (self.room / "bin/gate-host").symlink_to(SCRIPT)
        environment = {**os.environ, "PATH": f"{self.room}/bin:{os.environ['PATH']}"}
        update = f"{NOTHING} {COMMIT} refs/heads/staging\n"
        ran = subprocess.run([path], cwd=self.path, input=update, env=environment, capture_output=True, encoding="utf-8", timeout=60)
        self.assertIn("is moved by the host alone", ran.stderr)

    def test_a_start_mends_the_hook_that_init_wrote(self):
        self.set_up()
        path = self.path / "hooks/pre-receive"
        due = path.read_text(encoding="utf-8")
        earlier = f"#!/bin/sh\n{MARK}\nexec {python_for_all()} {SCRIPT} hook --repository .\n"
        for text, is_mended in (
            (due.replace(f"host={SCRIPT}", "host=/none/gate-host"), True), (due.replace(python_for_all(), "/none/python3"), True),
            (earlier, True), (earlier.replace(str(SCRIPT), "/none/gate-host"), True), (due + "echo more\n", False), ("#!/bin/sh\n", False),
        ):
            path.write_text(text, encoding="utf-8")
            with redirect_stderr(io.StringIO()):
                mend_hook(self.path)
            self.assertEqual(path.read_text(encoding="utf-8") == due, is_mended, text)


class UpdateTests(unittest.TestCase):
    def test_what_is_a_change(self):
        for branch, due in (
            ("refs/heads/change/7", 7), ("refs/heads/change/4294967295", 4294967295), ("refs/heads/change/4294967296", 0),
            ("refs/heads/change/07", 0), ("refs/heads/change/7/x", 0), ("refs/heads/change/", 0), ("refs/tags/change/7", 0),
            ("refs/heads/change/7\n", 0),
        ):
            self.assertEqual(hook.change_in(branch), due, branch)

    def test_what_git_tells_of_a_push(self):
        old, new = "0" * 40, "a" * 40
        for branch, due in (
            (b"refs/heads/change/7", "refs/heads/change/7"), ("refs/heads/a\u2028b".encode(), "refs/heads/a\u2028b"),
            (b"refs/heads/\xff", "refs/heads/\ufffd"),
        ):
            line = f"{old} {new} ".encode() + branch + b"\n"
            self.assertEqual(hook.updates_in(line + line), [(old, new, due)] * 2)
        self.assertEqual(hook.updates_in(b""), [])


if __name__ == "__main__":
    unittest.main()
