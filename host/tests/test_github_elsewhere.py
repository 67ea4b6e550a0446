"""The tests of the host of GitHub, by Debian's Python, which has the libraries that they need, if another one runs them."""
import importlib.util
import os
import subprocess
import sys
import unittest
from concurrent.futures import ThreadPoolExecutor
from pathlib import Path

TESTS = Path(__file__).resolve().parent
PYTHON = "/usr/bin/python3"
LIBRARIES = ("httpx", "jwt", "cryptography", "waitress")
# Most of their time they wait, so some run side by side.
LANES = 3
# All stories take long.
SECONDS = 7200 if os.environ.get("GATE_STORY_THOROUGH") else 1500
MODULES = (
    "test_github_api", "test_github_comments", "test_github_doctor", "test_github_doctor_rules", "test_github_head_statuses",
    "test_github_notes_of_owner", "test_github_pulls", "test_github_remote", "test_github_receiver", "test_github_settings",
    "test_github_served_page", "test_github_page", "test_github_host", "test_github_host_heads", "test_github_host_trouble",
    "test_github_team",
)


def ran(modules):
    """Some of the tests, in a process of their own."""
    command = [PYTHON, "-B", "-m", "unittest", "-v", *modules]
    return subprocess.run(command, cwd=TESTS, capture_output=True, encoding="utf-8", timeout=SECONDS, check=False)


class ElsewhereTests(unittest.TestCase):
    def test_by_the_python_of_debian(self):
        if all(importlib.util.find_spec(name) for name in LIBRARIES):
            self.skipTest("they run here")
        said = f"{PYTHON} isn't there"
        if os.access(PYTHON, os.X_OK):
            with ThreadPoolExecutor(LANES) as lanes:
                found = list(lanes.map(ran, [MODULES[lane::LANES] for lane in range(LANES)]))
            for it in found:
                self.assertEqual(it.returncode, 0, it.stderr)
            skipped = [line for it in found for line in it.stderr.splitlines() if "skipped" in line]
            if not skipped:
                return
            said = skipped[0]
        print(f"no tests of the host of GitHub: {said}", file=sys.stderr)
        self.skipTest(said)


if __name__ == "__main__":
    unittest.main()
