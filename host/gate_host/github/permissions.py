"""What an app or a token may do on GitHub and what it is told, held against what the host needs: decisions over what GitHub says of them,
in words that lead to the right place of GitHub's pages."""
from dataclasses import dataclass
from typing import FrozenSet, Iterator, Mapping, Optional

from ..core.orders import Json, list_in, number_in, table_in, text_in
from ..doctor import Checked, note

LEVELS = {"": 0, "read": 1, "write": 2, "admin": 3}
# How GitHub's pages call a level.
CHOICES = {"read": "Read-only", "write": "Read and write"}
TOKENS = "Settings of its user > Developer settings > Personal access tokens"


@dataclass(frozen=True)
class Permission:
    """A permission that the host needs: its name in the API and on GitHub's pages, its level, and what for."""

    name: str
    page: str
    level: str
    reason: str


NEEDED = (
    Permission("metadata", "Metadata", "read", "to see the repository, its rules and the roles of people"),
    Permission("contents", "Contents", "write", "to push what is tested, and what lands"),
    Permission("pull_requests", "Pull requests", "write", "to read changes and reviews, and to answer there"),
    Permission("issues", "Issues", "write", "to read comments on changes, and to answer them"),
    Permission("statuses", "Commit statuses", "write", "to read what CI says of commits, and to show how a change stands"),
    Permission("checks", "Checks", "read", "to read what GitHub Actions and other apps say of commits"),
)
# The events that the host has use for: their names on GitHub's pages of apps and of webhooks, and what they tell it.
EVENTS = {
    "issue_comment": ("Issue comment", "Issue comments", "of commands"),
    "pull_request": ("Pull request", "Pull requests", "of changes"),
    "pull_request_review": ("Pull request review", "Pull request reviews", "of reviews"),
    "push": ("Push", "Pushes", "of moves of branches"),
    "status": ("Status", "Statuses", "of what CI says by statuses"),
    "check_run": ("Check run", "Check runs", "of what CI says by check runs"),
}


@dataclass(frozen=True)
class App:
    """An app as its owner has it: what it asks for isn't what an installation has given it."""

    slug: str
    name: str
    owner: str
    permissions: Mapping[str, str]

    @property
    def page(self) -> str:
        return f"{self.owner}'s Settings > Developer settings > GitHub Apps > {self.name}"


@dataclass(frozen=True)
class Installation:
    """An installation of an app: its number, whose repositories it is for, its page, what it was given, and whether it was stopped."""

    id: int
    account: str
    page: str
    permissions: Mapping[str, str]
    events: FrozenSet[str]
    is_suspended: bool


# Reading


def app_in(found: Json) -> App:
    table = table_in(found)
    return App(text_in(table, "slug"), text_in(table, "name"), text_in(table_in(table.get("owner")), "login"), levels_in(table))


def installation_in(found: Json) -> Installation:
    table = table_in(found)
    return Installation(
        number_in(table, "id"), text_in(table_in(table.get("account")), "login"), text_in(table, "html_url"), levels_in(table),
        names_in(table, "events"), table.get("suspended_at") is not None,
    )


def levels_in(table: Mapping[str, Json]) -> Mapping[str, str]:
    return {str(name): str(level) for name, level in table_in(table.get("permissions")).items()}


def names_in(table: Mapping[str, Json], name: str) -> FrozenSet[str]:
    return frozenset(str(it) for it in list_in(table.get(name, [])))


def scopes_in(header: Optional[str]) -> Optional[FrozenSet[str]]:
    """The scopes of a classic token, or none: only with such a token GitHub's answers have this header."""
    return None if header is None else frozenset(it.strip() for it in header.split(",") if it.strip())


# An app


def app_checked(app: App, given: Installation, repository: str, found: Optional[int], settings: object) -> Iterator[Checked]:
    """Whether the app is at work for the repository. `found` is the installation that has the repository, or none."""
    yield Checked(True, f"GitHub knows the app {app.slug} by its key")
    if given.is_suspended:
        yield Checked(False, f"the installation of the app is suspended, so it may do nothing: choose Unsuspend at {given.page}")
    if found == given.id:
        yield Checked(True, f"the app is installed for {repository}")
    elif found is None:
        yield Checked(False, (
            f"{repository} isn't among the repositories of the app: choose it at {given.page} under Repository access. If the app isn't "
            f"installed for its owner, choose Install App at {app.page}"))
    else:
        yield Checked(False, f"{repository} belongs to another installation: set installation = {found} in {settings}")


def permissions_checked(app: App, given: Installation) -> Iterator[Checked]:
    """Each permission that the host needs, by itself; and those that matter to some."""
    for it in NEEDED:
        choice, place = f"{it.page}: {CHOICES[it.level]}", place_of_permission(app, it.page)
        if LEVELS.get(given.permissions.get(it.name, ""), 0) >= LEVELS[it.level]:
            yield Checked(True, f"the app has the permission {choice}, {it.reason}")
        elif LEVELS.get(app.permissions.get(it.name, ""), 0) >= LEVELS[it.level]:
            yield Checked(False, f"the permission {choice}, {it.reason}, isn't accepted yet: accept what the app asks for at {given.page}")
        else:
            yield Checked(False, (
                f"the app lacks the permission {choice}, {it.reason}: choose {CHOICES[it.level]} at {place}, save that, and then accept it "
                f"at {given.page}"))
    place = place_of_permission(app, "Workflows")
    yield workflows_checked(given.permissions.get("workflows") == "write", f"choose Read and write at {place}")
    if LEVELS.get(given.permissions.get("administration", ""), 0) >= LEVELS["write"]:
        yield note(
            "the app has the permission Administration: Read and write, which the host has no use for. Who gets its key could lift the "
            f"rules of branches: choose No access at {place_of_permission(app, 'Administration')}")


def place_of_permission(app: App, page: str) -> str:
    return f"{app.page} > Permissions & events > Repository permissions > {page}"


def workflows_checked(may: bool, remedy: str) -> Checked:
    """GitHub says so of pushes by apps and by tokens. It was never tried."""
    if may:
        return Checked(True, "changes of the files in .github/workflows may be pushed")
    return note(
        "by its documentation GitHub refuses a push of commits that change files in .github/workflows, so a change of those can't be "
        f"tested and doesn't land. If such changes are to land, {remedy}")


def events_checked(events: FrozenSet[str], place: str, seconds: float, is_app: bool) -> Iterator[Checked]:
    """Each event of a webhook by itself. Nothing is lost without one: the host learns of it later."""
    for name, (of_app, of_webhook, reason) in EVENTS.items():
        page = of_app if is_app else of_webhook
        if events & {name, "*"}:
            yield Checked(True, f"the event {page} tells the host at once {reason}")
        else:
            yield Checked(False, (
                f"the event {page} is missing, so the host learns {reason} only when it asks, every {seconds:g} seconds or less often: "
                f"choose {page} at {place}"))


# A token


def token_checked(login: Optional[str], repository: str, may_push: bool) -> Iterator[Checked]:
    """Whose token it is, if GitHub says so, and whether this user may push."""
    who = login or "somebody whom GitHub doesn't name"
    yield Checked(True, f"GitHub takes the token, which is of {who}")
    yield Checked(may_push, f"{who} may push to {repository}" if may_push else (
        f"{who} may not push to {repository}: choose the role Write there, at the repository's Settings > Collaborators and teams"))


def scopes_checked(scopes: FrozenSet[str], is_private: bool) -> Iterator[Checked]:
    """What a classic token is for."""
    place = f"{TOKENS} > Tokens (classic)"
    has_repo = bool(scopes & ({"repo"} if is_private else {"repo", "public_repo"}))
    yield Checked(has_repo, "the token has the scope repo" if has_repo else f"the token lacks the scope repo: choose it at {place}")
    yield workflows_checked("workflow" in scopes, f"choose the scope workflow at {place}")


def reads_checked(refused: Mapping[str, Optional[int]]) -> Iterator[Checked]:
    """What was tried with a token: by the name of a permission on GitHub's pages the status by which GitHub refused, or none."""
    place = f"{TOKENS} > Fine-grained tokens > Repository permissions"
    for page, status in refused.items():
        if status is None:
            yield Checked(True, f"the token reads what the permission {page} is for")
        else:
            yield Checked(False, (
                f"the token doesn't read what the permission {page} is for, and GitHub answers {status}: choose it at {place} > {page}. "
                "If it isn't offered there, take an app"))


def writes_not_known() -> Checked:
    """What nobody can tell of a fine-grained token without writing something."""
    pages = ", ".join(it.page for it in NEEDED if it.level == "write")
    return note(
        f"whether the token may write can't be told without writing. It needs Read and write for {pages}, which stand at {TOKENS} > "
        "Fine-grained tokens > Repository permissions; and for Workflows, if changes of .github/workflows are to land")
