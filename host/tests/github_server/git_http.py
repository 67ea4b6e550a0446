"""The repositories by git over HTTP: `git http-backend`, behind passwords as GitHub has them."""
import re
import subprocess
from dataclasses import dataclass, field
from typing import Iterator, Optional

from .bare import ENVIRONMENT, SECONDS
from .model import ROLES, Repository, World
from .people import People
from .pushes import Pushes
from .tokens import LEVELS, Asker

PATH = re.compile(r"/(?P<owner>[^/]+)/(?P<name>[^/]+?)(?:\.git)?/(?P<rest>info/refs|git-upload-pack|git-receive-pack)\Z")
SERVICES = ("git-upload-pack", "git-receive-pack")
ASKS = {"WWW-Authenticate": 'Basic realm="GitHub"', "Content-Type": "text/plain; charset=utf-8"}
PLAIN = {"Content-Type": "text/plain; charset=utf-8"}
# What a request of git tells the backend.
TOLD = {"Content-Type": "CONTENT_TYPE", "Content-Encoding": "HTTP_CONTENT_ENCODING", "Git-Protocol": "HTTP_GIT_PROTOCOL"}


@dataclass
class Call:
    """A request of git."""

    method: str
    path: str
    query: str
    headers: dict
    body: bytes


@dataclass
class Reply:
    status: int
    headers: dict = field(default_factory=dict)
    body: bytes = b""


def operation_of(path: str) -> Optional[str]:
    """The name of a route of git, or none."""
    match = PATH.match(path)
    return f"git/{match['rest'].replace('git-', '').replace('/', '-')}" if match else None


def about_of(call: Call, operation: str) -> str:
    """What a request of git is about: the service that is asked for, or the refs that a push is to move."""
    if operation == "git/info-refs":
        return dict(part.partition("=")[::2] for part in call.query.split("&")).get("service", "")
    return " ".join(pushed_refs(call.body)) if operation == "git/receive-pack" else ""


def pushed_refs(body: bytes) -> Iterator[str]:
    """The refs in the first lines of a push: each line begins with its length, and has two commits and the ref."""
    while re.match(rb"[0-9a-f]{4}", body) and body[:4] != b"0000":
        line, body = body[4:int(body[:4], 16)], body[max(4, int(body[:4], 16)):]
        yield line.split(b"\0")[0].decode(errors="replace").split()[-1]


class GitHttp:
    """Fetches and pushes."""

    def __init__(self, world: World, people: People, pushes: Pushes) -> None:
        self.world, self.people, self.pushes = world, people, pushes

    def answer(self, call: Call, asker: Asker) -> Reply:
        match = PATH.match(call.path)
        if match is None:
            return Reply(404, PLAIN, b"Not Found")
        asked_for = dict(part.partition("=")[::2] for part in call.query.split("&")).get("service", "")
        service = asked_for if match["rest"] == "info/refs" else match["rest"]
        if service not in SERVICES:
            # GitHub doesn't serve the older protocol, by single files.
            return Reply(403, PLAIN, b"Please upgrade your git client.\nGitHub.com no longer supports git over dumb-http.")
        repository = self.world.repository(match["owner"], match["name"])
        refusal = self.refusal(repository, asker, service == "git-receive-pack")
        if refusal or repository is None:
            return refusal or Reply(404, PLAIN, b"Repository not found.")
        if match["rest"] == "git-receive-pack":
            who = asker.user or repository.owner
            replies: list = []
            self.people.moving(repository, who, lambda: replies.append(self.run(call, repository, asker, match["rest"])))
            return replies[0]
        return self.run(call, repository, asker, match["rest"])

    def refusal(self, repository: Optional[Repository], asker: Asker, is_push: bool) -> Optional[Reply]:
        """What who may not gets, or none."""
        if asker.label in ("unknown", "expired"):
            return Reply(401, ASKS, b"Invalid username or token. Password authentication is not supported for Git operations.")
        if asker.label == "none" and (is_push or repository is None or repository.private):
            return Reply(401, ASKS, b"No anonymous write access." if is_push else b"Repository not found.")
        if asker.label == "app" or repository is None or not asker.sees(repository):
            return Reply(404, PLAIN, b"Repository not found.")
        if asker.token and LEVELS[asker.token.permissions.get("contents", "")] < LEVELS["write" if is_push else "read"]:
            return Reply(403, PLAIN, b"Write access to repository not granted.")
        if asker.token and is_push and not asker.reaches(repository):
            return Reply(403, PLAIN, b"Write access to repository not granted.")
        if asker.token is None and is_push and ROLES[repository.role_of(asker.user)] < ROLES["write"]:
            name = asker.user.login if asker.user else ""
            return Reply(403, PLAIN, f"Permission to {repository.full_name}.git denied to {name}.".encode())
        return None

    def run(self, call: Call, repository: Repository, asker: Asker, rest: str) -> Reply:
        """Has git's own backend answer."""
        told = {name: call.headers[header] for header, name in TOLD.items() if header in call.headers}
        environment = {
            **ENVIRONMENT, **told, "GIT_PROJECT_ROOT": str(repository.bare.path), "GIT_HTTP_EXPORT_ALL": "1", "PATH_INFO": f"/{rest}",
            "QUERY_STRING": call.query, "REQUEST_METHOD": call.method, "CONTENT_LENGTH": str(len(call.body)), "REMOTE_ADDR": "127.0.0.1",
            "REMOTE_USER": asker.user.login if asker.user else "", "PUSH_RULES": self.pushes.rules_for(repository, asker),
        }
        if "HTTP_GIT_PROTOCOL" in environment:
            environment["GIT_PROTOCOL"] = environment["HTTP_GIT_PROTOCOL"]
        ran = subprocess.run(
            ["git", "http-backend"], env=environment, input=call.body, capture_output=True, timeout=SECONDS, check=False,
        )
        head, _, body = ran.stdout.partition(b"\r\n\r\n")
        headers = dict(line.split(": ", 1) for line in head.decode().split("\r\n") if ": " in line)
        status = int(headers.pop("Status", "200" if ran.stdout else "500").split(" ")[0])
        return Reply(status, headers, body)
