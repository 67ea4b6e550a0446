"""What the server knows: people, the app, repositories, changes and what was said of them. Plain values, under one lock."""
import base64
import hashlib
import threading
import time
from dataclasses import dataclass, field
from datetime import datetime, timezone
from typing import Optional, Union

from .bare import Bare

# What each role may do, the weakest first, by the names of the flags that GitHub gives.
FLAGS = ("pull", "triage", "push", "maintain", "admin")
ROLES = {"none": 0, "read": 1, "triage": 2, "write": 3, "maintain": 4, "admin": 5}
# What GitHub's older field `permission` calls each role.
OLDER = {"none": "none", "read": "read", "triage": "read", "write": "write", "maintain": "write", "admin": "admin"}
# What the app of the tests may do, and which events it gets.
PERMISSIONS = {
    "administration": "read", "checks": "read", "contents": "write", "issues": "write", "members": "read", "metadata": "read",
    "pull_requests": "write", "repository_hooks": "read", "statuses": "write",
}
EVENTS = ("check_run", "issue_comment", "pull_request", "pull_request_review", "push", "status")


class Clock:
    """The clock of the server, which a test may put ahead or stop."""

    def __init__(self) -> None:
        self.ahead = 0.0
        self.stopped: Optional[float] = None

    def now(self) -> float:
        return (time.time() if self.stopped is None else self.stopped) + self.ahead

    def stop(self) -> None:
        """Lets no time go by but what `advance` adds, so that many things have one time stamp."""
        self.stopped = float(int(time.time()))

    def advance(self, seconds: float) -> None:
        self.ahead += seconds


def stamp(seconds: Optional[float]) -> Optional[str]:
    """A time as GitHub writes it, with whole seconds."""
    return None if seconds is None else datetime.fromtimestamp(int(seconds), timezone.utc).strftime("%Y-%m-%dT%H:%M:%SZ")


def seconds_of(text: str) -> float:
    """The time of such a stamp. Raises ValueError."""
    return datetime.fromisoformat(text.replace("Z", "+00:00")).timestamp()


def node(kind: str, number: int) -> str:
    """The other identifier that GitHub gives to all that it knows."""
    return base64.b64encode(f"0{len(kind)}:{kind}{number}".encode()).decode()


@dataclass(eq=False)
class User:
    login: str
    id: int
    kind: str = "User"
    # With this the user asks the API, and pushes.
    token: str = ""
    # What that token is for, as the older kind of tokens has it; none if it is a fine-grained one.
    scopes: Optional[str] = "repo, workflow"

    @property
    def email(self) -> str:
        return f"{self.id}+{self.login}@users.noreply.github.com"


@dataclass(eq=False)
class App:
    id: int
    slug: str
    owner: User
    user: User
    # The public key as its two numbers, by which tokens that the app signs are checked.
    modulus: int = 0
    exponent: int = 0
    installation: int = 0
    permissions: dict = field(default_factory=lambda: dict(PERMISSIONS))
    events: list = field(default_factory=lambda: list(EVENTS))
    created_at: float = 0.0
    # What its page asks for, if the owner of the installation hasn't accepted all of it; and since when the installation is suspended.
    requested: Optional[dict] = None
    suspended_at: Optional[float] = None


@dataclass(eq=False)
class Hook:
    """Where webhooks go: those of the app, or those of a repository."""

    id: int
    url: str
    secret: str
    events: list
    # The repository that has it, or none if it is the app's.
    repository: Optional["Repository"] = None
    active: bool = True
    content_type: str = "json"
    created_at: float = 0.0
    last_status: Optional[int] = None


@dataclass(eq=False)
class Protection:
    """The older kind of protection of a branch. Lists of who may push that are none restrict nobody."""

    pattern: str
    users: Optional[list] = None
    apps: Optional[list] = None
    checks: Optional[list] = None
    strict: bool = False
    reviews: int = 0
    enforce_admins: bool = True
    force_pushes: bool = False
    deletions: bool = False


@dataclass(eq=False)
class Ruleset:
    """The newer kind. Rules are objects with a `type`, and some with `parameters`, as GitHub has them."""

    id: int
    name: str
    include: list
    rules: list
    # Identifiers of apps that pass these rules by.
    apps: list = field(default_factory=list)
    # Roles of people that do so, by GitHub's numbers: 2 maintain, 4 write, 5 admin.
    roles: list = field(default_factory=list)
    enforcement: str = "active"
    created_at: float = 0.0


@dataclass(eq=False)
class Label:
    id: int
    name: str
    color: str = "ededed"


@dataclass(eq=False)
class Pull:
    """A pull request, which is an issue as well."""

    repository: "Repository"
    number: int
    id: int
    issue_id: int
    user: User
    title: str
    body: Optional[str]
    head_repository: Optional["Repository"]
    head_owner: User
    head_ref: str
    head_sha: str
    base_ref: str
    base_sha: str
    created_at: float
    updated_at: float
    draft: bool = False
    state: str = "open"
    labels: list = field(default_factory=list)
    merged_at: Optional[float] = None
    closed_at: Optional[float] = None
    merged_by: Optional[User] = None
    merge_commit_sha: Optional[str] = None
    mergeable: Optional[bool] = None
    # When its head was moved by force, to which commit, and by whom.
    forced: list = field(default_factory=list)

    @property
    def merged(self) -> bool:
        return self.merged_at is not None


@dataclass(eq=False)
class Issue:
    """An issue that is no pull request. The numbers of both are one row, and the comments on both one list."""

    repository: "Repository"
    number: int
    issue_id: int
    user: User
    title: str
    body: Optional[str]
    created_at: float
    updated_at: float
    state: str = "open"
    labels: list = field(default_factory=list)
    closed_at: Optional[float] = None


@dataclass(eq=False)
class Comment:
    id: int
    issue: Union[Pull, Issue]
    user: User
    body: str
    created_at: float
    updated_at: float


@dataclass(eq=False)
class Review:
    id: int
    pull: Pull
    user: User
    state: str
    commit: str
    body: str
    submitted_at: float


@dataclass(eq=False)
class Status:
    id: int
    sha: str
    state: str
    context: str
    description: Optional[str]
    target_url: Optional[str]
    creator: User
    created_at: float


@dataclass(eq=False)
class CheckRun:
    id: int
    suite: int
    sha: str
    name: str
    status: str
    conclusion: Optional[str]
    app: App
    started_at: float
    completed_at: Optional[float] = None
    details_url: str = ""
    title: Optional[str] = None
    summary: Optional[str] = None


def has_succeeded(repository: "Repository", sha: str, name: str) -> bool:
    """Whether GitHub counts a check of this name as successful: the newest status, or the newest check run, where skipped is good too."""
    statuses = [it.state == "success" for it in repository.statuses if it.sha == sha and it.context == name]
    good = ("success", "neutral", "skipped")
    runs = [it.conclusion in good for it in repository.check_runs if it.sha == sha and it.name == name]
    return bool(statuses or runs) and all(them[-1] for them in (statuses, runs) if them)


@dataclass(eq=False)
class Repository:
    id: int
    owner: User
    name: str
    bare: Bare
    created_at: float
    default_branch: str = "main"
    private: bool = False
    parent: Optional["Repository"] = None
    roles: dict = field(default_factory=dict)
    protections: list = field(default_factory=list)
    rulesets: list = field(default_factory=list)
    labels: dict = field(default_factory=dict)
    pulls: dict = field(default_factory=dict)
    issues: dict = field(default_factory=dict)
    comments: dict = field(default_factory=dict)
    reviews: dict = field(default_factory=dict)
    statuses: list = field(default_factory=list)
    check_runs: list = field(default_factory=list)
    pushed_at: float = 0.0
    updated_at: float = 0.0
    # One push at a time, so that what a push has moved can be told.
    pushing: threading.RLock = field(default_factory=threading.RLock)

    @property
    def full_name(self) -> str:
        return f"{self.owner.login}/{self.name}"

    @property
    def next_number(self) -> int:
        """The number of the next pull request or issue."""
        return len(self.pulls) + len(self.issues) + 1

    def role_of(self, user: Optional[User]) -> str:
        """The role of a person. Everybody reads a public repository."""
        if user is not None and user is self.owner:
            return "admin"
        given = self.roles.get(user.login.lower()) if user else None
        return given or ("none" if self.private else "read")


class World:
    """All that is known. Whoever reads or changes it holds the lock."""

    def __init__(self) -> None:
        self.lock = threading.RLock()
        self.clock = Clock()
        self.users: dict = {}
        self.repositories: dict = {}
        self.hooks: list = []
        self.app: Optional[App] = None
        self.last_id = 1000

    def next_id(self) -> int:
        """A number that nothing else has. Later ones are greater."""
        with self.lock:
            self.last_id += 7
            return self.last_id

    def user(self, login: str, kind: str = "User") -> User:
        """The user of a name, who is made if there is none. Upper and lower case don't differ."""
        with self.lock:
            if login.lower() not in self.users:
                number = self.next_id()
                token = "ghp_" + hashlib.sha256(f"{login}:{number}".encode()).hexdigest()[:36]
                self.users[login.lower()] = User(login, number, kind, token)
            return self.users[login.lower()]

    def repository(self, owner: str, name: str) -> Optional[Repository]:
        return self.repositories.get(f"{owner}/{name}".lower())

    def installed(self) -> list:
        """The repositories of the app: those of its owner."""
        return [it for it in self.repositories.values() if self.app and it.owner is self.app.owner]
