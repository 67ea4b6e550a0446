"""Tests of what is found in a guarded repository that has it be another one than it seems."""
import sys
import unittest
from pathlib import Path

sys.path.insert(0, str(Path(__file__).resolve().parent.parent))

from folders import InHistory  # noqa: E402
from gate_host.git import ask_git  # noqa: E402
from gate_host.hook_file import hook_command, hook_text  # noqa: E402
from gate_host.inspection import findings  # noqa: E402
from gate_host.settings import FIRST_SETTINGS, settings_in  # noqa: E402

SETTINGS = settings_in(FIRST_SETTINGS.format(main="main", staging="staging", trying="trying", program="/gate", may_push="", checks=""))


class InspectionTests(InHistory):
    def setUp(self):
        super().setUp()
        self.hook = self.path / "hooks/pre-receive"
        self.hook.write_text(hook_text("python3"), encoding="utf-8")
        self.hook.chmod(0o755)

    def found(self, *words, is_grave):
        """One thing is found, and said with these words."""
        found = findings(self.places, SETTINGS)
        self.assertEqual([it.is_grave for it in found], [is_grave], found)
        for word in words:
            self.assertIn(word, found[0].said)

    def test_a_sound_repository(self):
        self.assertEqual(findings(self.places, SETTINGS), [])
        self.git("config", "core.hooksPath", "hooks")
        self.git("pack-refs", "--all")
        self.git("update-ref", "refs/heads/change/7", self.one)
        self.assertEqual(findings(self.places, SETTINGS), [])
        self.git("config", "core.bare", "yes")
        self.assertEqual(findings(self.places, SETTINGS), [])

    def test_settings_of_git(self):
        for name, value, word, is_grave in (
            ("core.hooksPath", "/elsewhere", "core.hooksPath", True), ("core.bare", "false", "no bare repository", True),
            ("extensions.objectFormat", "sha256", "SHA-1", True), ("extensions.refStorage", "reftable", "in another way", True),
            ("filter.a.b.smudge", "evil", "filter.a.b.smudge", False), ("remote.x.uploadpack", "evil", "remote.x.uploadpack", False),
            ("extensions.partialClone", "x", "extensions.partialclone", False), ("core.sshCommand", "x", "core.sshcommand", False),
            ("includeIf.gitdir:/**.path", "x", "count only at times", True),
        ):
            config = (self.path / "config").read_bytes()
            ask_git(None, "config", "--file", str(self.path / "config"), name, value)
            self.found(word, is_grave=is_grave)
            (self.path / "config").write_bytes(config)

    def test_settings_that_are_included(self):
        (self.path / "more").write_text("[core]\n    hooksPath = /elsewhere\n", encoding="utf-8")
        self.git("config", "include.path", str(self.path / "more"))
        self.found("core.hooksPath", is_grave=True)

    def test_hooks(self):
        self.hook.chmod(0o644)
        self.found("can't be executed", is_grave=True)
        command = f"{hook_command()} --repository ."
        own = hook_text("python3")
        more = (own + "exit 0\n", f"exit 0\n{own}", own.replace("python3", "'"), own.replace("python3", "true;"))
        for text in ("#!/bin/sh\n", f"#!/bin/sh\n# {command}\nexit 0\n", *more):
            self.hook.write_text(text, encoding="utf-8")
            self.hook.chmod(0o755)
            self.found("doesn't run gate-host", is_grave=True)
        for text in (f"#!/bin/sh\npython3 {command} || exit\nexit 0\n", hook_text("/other/python 3")):
            self.hook.write_text(text, encoding="utf-8")
            self.assertEqual(findings(self.places, SETTINGS), [], text)
        for path in (self.hook, self.hook.parent):
            path.chmod(0o775)
            self.found("others may write the hook", is_grave=True)
            path.chmod(0o755)
        self.hook.unlink()
        self.found("isn't there", is_grave=True)

    def test_names(self):
        self.git("symbolic-ref", "HEAD", "refs/heads/other")
        self.found("HEAD names refs/heads/other", is_grave=False)
        self.git("symbolic-ref", "HEAD", "refs/heads/main")
        for name, target, is_grave in (("master", "main", True), ("staging", "main", True), ("x", "trying", True), ("x", "y", False)):
            self.git("symbolic-ref", f"refs/heads/{name}", f"refs/heads/{target}")
            self.found(f"refs/heads/{name} is another name of refs/heads/{target}", is_grave=is_grave)
            self.git("symbolic-ref", "--delete", f"refs/heads/{name}")
        (self.path / "refs/heads/master").symlink_to("refs/heads/main")
        self.found("refs/heads/master is another name of refs/heads/main", is_grave=True)

    def test_names_in_the_way(self):
        for name, branch in (("trying/x", "trying"), ("staging/a/b", "staging"), ("change", "change/1")):
            for is_packed in (False, True):
                self.git("update-ref", f"refs/heads/{name}", self.one)
                if is_packed:
                    self.git("pack-refs", "--all")
                self.found(f"refs/heads/{name} is in the way of the branch {branch}", is_grave=False)
                self.git("update-ref", "-d", f"refs/heads/{name}")

    def test_what_git_reads_besides(self):
        self.git("replace", self.one, self.two)
        self.found("refs/replace", is_grave=False)
        self.git("pack-refs", "--all")
        self.found("refs/replace", is_grave=False)
        self.git("replace", "--delete", self.one)
        for name, is_grave in (
            ("info/grafts", False), ("objects/info/alternates", False), ("info/attributes", False), ("shallow", True), ("commondir", True),
        ):
            path = self.path / name
            path.parent.mkdir(exist_ok=True)
            path.write_text("\n", encoding="utf-8")
            self.found(name, is_grave=is_grave)
            path.unlink()

    def test_links(self):
        (self.path / "logs").symlink_to(self.room)
        self.found("logs is a symbolic link", is_grave=False)


if __name__ == "__main__":
    unittest.main()
