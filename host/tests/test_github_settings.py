"""Tests of the settings of a host of GitHub, and of its folder."""
import importlib.util
import subprocess
import sys
import tempfile
import unittest
from pathlib import Path

sys.path.insert(0, str(Path(__file__).resolve().parent.parent))

from gate_host.faults import Trouble  # noqa: E402
from gate_host.github.settings import github_in  # noqa: E402

HOST = Path(__file__).resolve().parent.parent / "gate-host"
START = "[host]\nmain = main\n[github]\nrepository = o/r.x\n"
APP = "app = 12\ninstallation = 34\nkey = /k\n"


class SettingsTests(unittest.TestCase):
    def test_what_is_read(self):
        self.assertIsNone(github_in("[host]\nmain = main\n"))
        found = github_in(f"{START}token = /t\n")
        self.assertEqual((found.path, found.git, found.api), ("/repos/o/r.x", "https://github.com/o/r.x.git", "https://api.github.com"))
        self.assertEqual((found.token, found.key, found.webhook_secret, found.listen), (Path("/t"), None, None, "127.0.0.1:8097"))
        found = github_in(f"{START}{APP}api = http://127.0.0.1:7/api/v3/\nweb = http://127.0.0.1:7\nwebhook_secret = /s\n")
        self.assertEqual((found.api, found.git), ("http://127.0.0.1:7/api/v3", "http://127.0.0.1:7/o/r.x.git"))
        self.assertEqual((found.app, found.installation, found.key), ("12", "34", Path("/k")))
        found = github_in(f"{START}app = 12\nkey = /k\nweb = https://hub.test/\n")
        self.assertEqual((found.api, found.git, found.installation), ("https://hub.test/api/v3", "https://hub.test/o/r.x.git", ""))
        self.assertEqual([github_in(f"{START}token = /t\n{it}").status for it in ("", "status =\n", "status = q\n")], ["gate", "", "q"])
        texts = ("", "serve_page = yes\npage = https://q.test/x/\n", "serve_page = no\npage =\n")
        pages = [github_in(f"{START}token = /t\n{it}") for it in texts]
        self.assertEqual([(it.serve_page, it.page) for it in pages], [(False, ""), (True, "https://q.test/x"), (False, "")])
        self.assertEqual([github_in(f"{START}token = /t\n{it}").poll_seconds for it in ("", "poll_seconds = 0.5\n")], [20, 0.5])

    def test_what_is_refused(self):
        for text in (
            START, f"{START}token = t\n", f"{START}{APP}token = /t\n", f"{START}app = 12\n", f"{START}token = /t\ntokens = /t\n",
            f"{START}token = /t\ninstallation = 34\n", f"{START}key = /k\n", f"{START}token = /t\nstatus = {'x' * 256}\n",
            f"{START}{APP.replace('34', 'x')}", "[github]\nrepository = o\ntoken = /t\n", "[github]\nrepository = o/r/x\ntoken = /t\n",
            "[github]\nrepository = ../r\ntoken = /t\n", f"{START}token = /t\napi = ftp://x\n", f"{START}token = /t\nweb = https://a b\n",
            f"{START}token = /t\nserve_page = true\n", f"{START}token = /t\npage = javascript:x\n", f"{START}token = /t\npage = //x\n",
            f"{START}token = /t\npage = https://x/?a\n", f"{START}token = /t\n[github]\n", f"{START}token = /t\npoll_seconds = 0\n",
            f"{START}token = /t\npoll_seconds = soon\n",
        ):
            with self.assertRaises(Trouble, msg=text):
                github_in(text)


class FolderTests(unittest.TestCase):
    def run_host(self, *words):
        ran = subprocess.run([sys.executable, HOST, *map(str, words)], capture_output=True, encoding="utf-8", timeout=60, check=False)
        return ran.returncode, ran.stdout + ran.stderr

    def test_a_folder_is_made_once(self):
        with tempfile.TemporaryDirectory() as room:
            folder = Path(room) / "host"
            status, said = self.run_host("init", folder, "--github", "o/r", "--reviewer", "rosa")
            self.assertEqual(status, 0, said)
            self.assertEqual(github_in((folder / "gate/settings").read_text(encoding="utf-8")).repository, "o/r")
            by_app = Path(room) / "app"
            self.run_host("init", by_app, "--github", "o/r", "--app", "12", "--web", "https://hub.test")
            found = github_in((by_app / "gate/settings").read_text(encoding="utf-8"))
            self.assertEqual((found.app, found.key, found.token), ("12", by_app / "gate/records/app.pem", None))
            self.assertEqual((found.api, found.status), ("https://hub.test/api/v3", "gate"))
            self.assertIn("rosa reviewer", (folder / "gate/roles").read_text(encoding="utf-8"))
            has_waitress = importlib.util.find_spec("waitress") is not None
            for words, why in (
                (("init", folder, "--github", "o/r"), "is set up already"),
                (("init", Path(room) / "x", "--github", "o"), "OWNER/REPOSITORY"),
                (("init", Path(room) / "x", "--github", "o/r", "--app", "gate"), "--app takes the number of the app"),
                (("init", Path(room) / "x", "--github", "o/r", "--web", "hub.test"), "'hub.test' is no address"),
                (("receive", folder), "webhook-secret can't be read" if has_waitress else "this Python has no waitress"),
                (("say", "1", "bors r+", "--repository", folder), "what is said of o/r is said on GitHub"),
                (("status", "a" * 40, "build", "success", "--repository", folder), "what is said of o/r is said on GitHub"),
                (("doctor", folder), f"WRONG: {folder}/gate/records/token can't be read"),
            ):
                status, said = self.run_host(*words)
                self.assertEqual((status, why in said), (1, True), (words, said))


if __name__ == "__main__":
    unittest.main()
