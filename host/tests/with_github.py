"""A server that speaks as GitHub does, with a team, a repository and an app, for the tests of it and for those of what speaks to it."""
import http.client
import http.server
import json
import os
import shutil
import subprocess
import sys
import tempfile
import threading
import time
import unittest
from pathlib import Path
from typing import NamedTuple

TESTS = Path(__file__).resolve().parent
sys.path[:0] = [str(TESTS), str(TESTS.parent)]

from github_server import GitHub  # noqa: E402

SECONDS = 60
SECRET = "the secret of the webhooks"
HERE = "/repos/team/project"
ENVIRONMENT = {
    "PATH": os.environ["PATH"], "HOME": "/nonexistent", "LC_ALL": "C.UTF-8", "GIT_CONFIG_GLOBAL": "/dev/null", "GIT_CONFIG_NOSYSTEM": "1",
    "GIT_TERMINAL_PROMPT": "0", "GIT_AUTHOR_NAME": "ines", "GIT_AUTHOR_EMAIL": "ines@localhost", "GIT_COMMITTER_NAME": "ines",
    "GIT_COMMITTER_EMAIL": "ines@localhost", "GIT_ASKPASS": "true",
}


class Got(NamedTuple):
    """An answer of the API."""

    status: int
    headers: dict
    body: bytes

    @property
    def json(self):
        return json.loads(self.body)


class Received(NamedTuple):
    """A webhook that came."""

    headers: dict
    body: bytes

    @property
    def event(self) -> str:
        return self.headers["X-GitHub-Event"]

    @property
    def json(self) -> dict:
        return json.loads(self.body)

    @property
    def name(self) -> str:
        """The event with its action."""
        return ".".join(it for it in (self.event, self.json.get("action")) if it)


class Receiver:
    """A server that takes webhooks, and keeps them."""

    def __init__(self) -> None:
        self.received: list = []
        self.status = 202
        receiver = self

        class Handler(http.server.BaseHTTPRequestHandler):
            def do_POST(self) -> None:
                body = self.rfile.read(int(self.headers["Content-Length"]))
                receiver.received.append(Received(dict(self.headers), body))
                self.send_response(receiver.status)
                self.send_header("Content-Length", "0")
                self.end_headers()

            def log_message(self, format: str, *args: object) -> None:
                """Nothing is said."""

        self.server = http.server.ThreadingHTTPServer(("127.0.0.1", 0), Handler)
        self.server.daemon_threads = True
        self.url = f"http://127.0.0.1:{self.server.server_address[1]}/hook?from=github"
        threading.Thread(target=self.server.serve_forever, kwargs={"poll_interval": 0.05}, daemon=True).start()

    def close(self) -> None:
        self.server.shutdown()
        self.server.server_close()


class WithGitHub(unittest.TestCase):
    """A new server for each test: the organization team has the repository project; ines writes, vera maintains, otto reads."""

    private = False
    public_key = ""

    def setUp(self) -> None:
        self.room = Path(tempfile.mkdtemp())
        self.addCleanup(shutil.rmtree, self.room, ignore_errors=True)
        self.hub = GitHub(self.room / "repositories")
        self.addCleanup(self.end)
        self.people, self.switches = self.hub.people, self.hub.switches
        self.team = self.people.organization("team")
        self.project = self.people.make_repository(self.team, "project", self.private, {"README": "hello\n"})
        for login, role in (("ines", "write"), ("vera", "maintain"), ("otto", "read"), ("root", "admin")):
            self.people.set_role(self.project, login, role)
        self.app = self.people.install_app(self.team, "gate", self.public_key)
        self.token = self.hub.installation_token()

    def end(self) -> None:
        """Ends the server, in which nothing went wrong."""
        self.hub.close()
        self.assertEqual(self.hub.troubles, [])

    def receive(self, **more) -> Receiver:
        """Has the app's webhooks sent to a receiver."""
        receiver = Receiver()
        self.addCleanup(receiver.close)
        self.people.add_hook(receiver.url, SECRET, **more)
        self.hub.webhooks.wait()
        return receiver

    def names(self, receiver: Receiver) -> list:
        """The names of the webhooks that have come."""
        self.hub.webhooks.wait()
        return [it.name for it in receiver.received]

    def token_of(self, login: str) -> str:
        return self.hub.world.user(login).token

    def ask(self, path: str, method: str = "GET", given=None, token: str = "", headers=None) -> Got:
        """Asks the API, over a new connection, as the app if no other token is given."""
        connection = http.client.HTTPConnection("127.0.0.1", self.hub.port, timeout=SECONDS)
        named = {"User-Agent": "a test", "Authorization": f"Bearer {token or self.token}", **(headers or {})}
        body = given if isinstance(given, (bytes, type(None))) else json.dumps(given).encode()
        try:
            connection.request(method, f"/api/v3{path}", body, {name: it for name, it in named.items() if it is not None})
            answer = connection.getresponse()
            return Got(answer.status, dict(answer.headers), answer.read())
        finally:
            connection.close()

    def look(self, path: str, **more):
        """What the API shows, which has to be there."""
        got = self.ask(path, **more)
        self.assertEqual(got.status, 200, got.body)
        return got.json

    def refused(self, status: int, message: str, path: str, **more) -> Got:
        """Asks for something that is refused in this way."""
        got = self.ask(path, **more)
        self.assertEqual((got.status, got.json["message"]), (status, message))
        self.assertTrue(got.json["documentation_url"].startswith("https://docs.github.com/rest"), got.json)
        return got

    def address(self, token: str = "", repository: str = "team/project") -> str:
        """The address of a repository for git, with a token as a password."""
        return self.hub.url.replace("://", f"://x-access-token:{token}@" if token else "://") + f"/{repository}.git"

    def git(self, *words: object, at=None) -> subprocess.CompletedProcess:
        return subprocess.run(
            ["git", *(str(it) for it in words)], cwd=at or self.room, env=ENVIRONMENT, capture_output=True, encoding="utf-8",
            timeout=SECONDS, check=False,
        )

    def must_git(self, *words: object, at=None) -> str:
        ran = self.git(*words, at=at)
        self.assertEqual(ran.returncode, 0, ran.stderr)
        return ran.stdout.strip()

    def clone(self, token: str = "", repository: str = "team/project") -> Path:
        place = Path(tempfile.mkdtemp(dir=self.room))
        self.must_git("clone", "--quiet", self.address(token or self.token, repository), place)
        return place

    def commit(self, clone: Path, files: dict, message: str = "A commit") -> str:
        for name, text in files.items():
            (clone / name).write_text(text, encoding="utf-8")
        self.must_git("add", ".", at=clone)
        self.must_git("commit", "--quiet", "--allow-empty", "-m", message, at=clone)
        return self.must_git("rev-parse", "HEAD", at=clone)

    @staticmethod
    def comes_about(is_so) -> bool:
        late = time.monotonic() + SECONDS
        while not is_so():
            if time.monotonic() > late:
                return False
            time.sleep(0.02)
        return True
