"""Tests of how git is run."""
import os
import sys
import unittest
from pathlib import Path
from unittest import mock

sys.path.insert(0, str(Path(__file__).resolve().parent.parent))

from folders import InHistory  # noqa: E402
from gate_host.git import GitFailed, run_git  # noqa: E402


class GitTests(InHistory):
    def test_a_command_has_a_limit(self):
        (self.room / "git").write_text("#!/bin/sh\nsleep 60\n", encoding="utf-8")
        (self.room / "git").chmod(0o755)
        with mock.patch.dict(os.environ, PATH=f"{self.room}:{os.environ['PATH']}"):
            with self.assertRaisesRegex(GitFailed, "took more than"):
                run_git(self.places.mirror, "status", seconds=0.2)


if __name__ == "__main__":
    unittest.main()
