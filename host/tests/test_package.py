"""Tests of the package: what its description names is there, and it runs without the file beside it."""
import re
import shutil
import subprocess
import sys
import tempfile
import unittest
from pathlib import Path

HOST = Path(__file__).resolve().parent.parent
PACKAGE = HOST / "gate_host"


class PackageTests(unittest.TestCase):
    def test_the_description_names_what_is_there(self):
        text = (HOST / "pyproject.toml").read_text(encoding="utf-8")
        named = re.search(r"^packages = \[(.*)\]$", text, re.MULTILINE)[1].replace('"', "").split(", ")
        there = [".".join(path.parent.relative_to(HOST).parts) for path in sorted(PACKAGE.rglob("__init__.py"))]
        self.assertEqual(sorted(named), there)
        module, name = re.search(r'^gate-host = "(.*):(.*)"$', text, re.MULTILINE).groups()
        sys.path.insert(0, str(HOST))
        self.addCleanup(sys.path.remove, str(HOST))
        self.assertTrue(callable(getattr(__import__(module, fromlist=[name]), name)))

    def test_the_description_names_what_a_host_on_github_needs(self):
        """Each library that the start looks for, by the name that it is installed by."""
        text = (HOST / "pyproject.toml").read_text(encoding="utf-8")
        named = re.search(r"^github = \[(.*)\]$", text, re.MULTILINE)[1]
        sys.path.insert(0, str(HOST))
        self.addCleanup(sys.path.remove, str(HOST))
        from gate_host.github.starting import NEEDED
        needed = {"PyJWT" if name == "jwt" else name for name in NEEDED}
        self.assertEqual(set(re.findall(r'"([A-Za-z]+) >= [0-9.]+"', named)), needed)

    def test_it_runs_where_it_was_installed(self):
        """Without the file `gate-host` beside it the hook runs the package by its path."""
        with tempfile.TemporaryDirectory() as room:
            shutil.copytree(PACKAGE, Path(room, "gate_host"), ignore=shutil.ignore_patterns("__pycache__"))
            repository, program = Path(room, "project.git"), Path(room, "gate")
            shutil.copy("/bin/true", program)
            subprocess.run(["git", "init", "--quiet", "--bare", "--initial-branch=main", str(repository)], check=True, timeout=30)
            words = ["-m", "gate_host", "init", str(repository), "--program", str(program), "--check=build=true"]
            ran = subprocess.run([sys.executable, *words], cwd=room, capture_output=True, encoding="utf-8", timeout=60)
            self.assertEqual(ran.returncode, 0, ran.stderr)
            hook = repository / "hooks/pre-receive"
            self.assertIn(f"host={room}/gate_host/__main__.py\n", hook.read_text(encoding="utf-8"))
            update = f"{'0' * 40} {'a' * 40} refs/heads/staging\n"
            ran = subprocess.run([hook], cwd=repository, input=update, capture_output=True, encoding="utf-8", timeout=60)
            self.assertEqual(ran.returncode, 1)
            self.assertIn("refs/heads/staging is moved by the host alone", ran.stderr)


if __name__ == "__main__":
    unittest.main()
