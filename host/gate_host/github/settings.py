"""The part [github] of the settings of the host: which repository on GitHub it guards, and where its secrets are."""
import configparser
import re
from dataclasses import dataclass
from pathlib import Path
from typing import Optional

from ..core.notes import is_name_of_status
from ..faults import Trouble
from ..places import trusted_text
from ..settings import FIRST_OF_ALL, seconds_in, word_in

SECTION = "github"
KEYS = {
    "repository", "api", "web", "token", "app", "installation", "key", "webhook_secret", "listen", "poll_seconds", "status", "page",
    "serve_page",
}
REPOSITORY = re.compile(r"[A-Za-z0-9-]{1,39}/[A-Za-z0-9_.-]{1,100}")
ADDRESS = re.compile(r"https?://[A-Za-z0-9.:\[\]-]+(/[A-Za-z0-9./_-]*)?")

FIRST_SETTINGS = """\
# The settings of gate-host for a repository on GitHub. Nobody but the owner of this folder may write this file. The host reads it again
# when it has changed, but what stands below [github] only at its start.

[host]
# The branch that is guarded. Its bors.toml says which statuses have to succeed.
main = {main}

""" + FIRST_OF_ALL + """
# How often the host looks at branches and pull requests. GitHub doesn't count an answer that is as before.
look_seconds = 3

# A command that runs in this folder after each landing: on its standard input stand the commit of before, the one of now, and the name of
# the branch.
#after_landing = /usr/local/bin/deploy

# The repository on GitHub. Secrets stand in files of their own, which nobody else may read: the key of an app, with the number of that, or
# a token. The secret of the webhook is for the receiver alone.
[github]
repository = {repository}
{credentials}
webhook_secret = {secret}
listen = 127.0.0.1:8097
# How often comments and statuses are asked for if no webhook comes.
poll_seconds = 20
# The status that the host sets on the heads of changes, which says how each stands. With nothing behind the = it sets none.
status = gate
# Whether `gate-host receive` serves the page of the queue beside the webhooks: yes or no. Whoever reaches it can read that, so a proxy has
# to ask who it is if the repository is private.
serve_page = no
# Where people find that page. The status on a head leads to the page of its change then.
#page = https://gate.example.com
{places}"""
BY_APP, BY_TOKEN = "app = {app}\nkey = {key}", "token = {token}"
FIRST_ROLES = """\
# Who may do what, if it isn't what the permission on GitHub says: whoever may write is a reviewer, and with triage one is a member. Nobody
# but the owner of this folder may write this file. On each line stand a login and `reviewer`, `member` or `nobody`: a reviewer approves
# changes, and a member has them tried.
{lines}"""
GITHUB, GITHUB_API = "https://github.com", "https://api.github.com"


@dataclass(frozen=True)
class GitHubSettings:
    """Which repository it is, by its owner and name, where the API and git are, and by what the host is known there."""

    repository: str
    api: str
    web: str
    token: Optional[Path]
    app: str
    # The number of its installation, or none if GitHub is asked for that.
    installation: str
    key: Optional[Path]
    webhook_secret: Optional[Path]
    listen: str
    poll_seconds: float
    # The name of the status on heads, or none.
    status: str
    # Where people find the pages of the queue, or nothing; and whether the receiver serves them.
    page: str = ""
    serve_page: bool = False

    @property
    def path(self) -> str:
        return f"/repos/{self.repository}"

    @property
    def git(self) -> str:
        return f"{self.web}/{self.repository}.git"


def github_in(text: str) -> Optional[GitHubSettings]:
    """What the text of a file of settings says of GitHub, or none if it says nothing of it."""
    parser = configparser.ConfigParser(delimiters=("=",), interpolation=None, empty_lines_in_values=False)
    try:
        parser.read_string(text)
    except configparser.Error as fault:
        raise Trouble(f"settings: {fault}") from fault
    if not parser.has_section(SECTION):
        return None
    table = parser[SECTION]
    for name in table:
        if name not in KEYS:
            raise Trouble(f"settings: {name} is no setting of [{SECTION}]")
    web = table.get("web", GITHUB).rstrip("/")
    found = GitHubSettings(
        table.get("repository", ""), table.get("api", api_of(web)).rstrip("/"), web, path_of(table.get("token")), table.get("app", ""),
        table.get("installation", ""), path_of(table.get("key")), path_of(table.get("webhook_secret")),
        table.get("listen", "127.0.0.1:8097"), seconds_in(table, "poll_seconds", "20"), table.get("status", "gate"),
        table.get("page", "").rstrip("/"), word_in(table, "serve_page", ("no", "yes")) == "yes",
    )
    must_be_right(found)
    return found


def api_of(web: str) -> str:
    """Where the API is: a GitHub of one's own has it below its own address."""
    return GITHUB_API if web == GITHUB else f"{web}/api/v3"


def must_be_right(found: GitHubSettings) -> None:
    if not REPOSITORY.fullmatch(found.repository):
        raise Trouble(f"settings: repository has to be OWNER/NAME, and not {found.repository!r}")
    for address in (found.web, found.api, *([found.page] if found.page else [])):
        if not ADDRESS.fullmatch(address):
            raise Trouble(f"settings: {address!r} is no address")
    if found.status and not is_name_of_status(found.status):
        raise Trouble(f"settings: status can't be {found.status!r}")
    is_app, is_token = bool(found.app and found.key), bool(found.token)
    is_mixed = is_token and bool(found.app or found.installation or found.key)
    if is_app == is_token or is_mixed or not all(it.isdecimal() for it in (found.app, found.installation) if it):
        raise Trouble("settings: either app and key are needed, or token; and app and installation are numbers")


def path_of(text: Optional[str]) -> Optional[Path]:
    if not text:
        return None
    if not text.startswith("/"):
        raise Trouble(f"settings: a secret is named by a path that begins with /, and not {text}")
    return Path(text)


def read_github(path: Path, owner: int) -> Optional[GitHubSettings]:
    return github_in(trusted_text(path, owner))
