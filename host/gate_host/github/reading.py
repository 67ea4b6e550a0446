"""What stands in the answers of GitHub's API, as values. What isn't as its documentation says is `Unread`."""
import re
from dataclasses import dataclass
from datetime import datetime, timezone
from typing import Dict, Iterable, List, Mapping, Optional, Tuple

from ..core.notes import is_commit, is_name_of_status
from ..core.orders import Json, Unread, list_in, number_in, table_in, text_in
from ..places import person

# From the best to the worst. Of several reports under one name the worst counts.
STATES = ("success", "pending", "failure", "error")
# How a check run that is completed counts; any other conclusion is a failure. GitHub's own required checks take the first three for a
# success as well.
CONCLUSIONS = {
    "success": "success", "neutral": "success", "skipped": "success", "cancelled": "error", "stale": "error", "timed_out": "error",
    "action_required": "error", "startup_failure": "error",
}
# Reviews that say neither yes nor no, and those that aren't sent yet.
NO_WORD = ("COMMENTED", "PENDING")
MOST_IN_LABEL = 255
CONTROL = re.compile(r"[\x00-\x1f\x7f]")


@dataclass(frozen=True)
class PullRequest:
    """A pull request as it is: its number, who opened it, its head, the branch onto which it goes, its labels, and when something of it has
    changed last, in seconds since 1970."""

    number: int
    author: str
    head: str
    base: str
    is_open: bool
    is_draft: bool
    labels: Tuple[str, ...]
    updated: int


@dataclass(frozen=True)
class IssueComment:
    """A comment on an issue or a pull request: its number, which never repeats, and when it was written and altered last. Who wrote it is
    none if the bot takes no such name."""

    id: int
    change: int
    person: Optional[str]
    created: int
    updated: int
    text: str


@dataclass(frozen=True)
class Status:
    """How something under a name stands on a commit."""

    name: str
    state: str
    description: str


def pull_request_in(found: Json) -> PullRequest:
    table = table_in(found)
    head, base = table_in(table.get("head")), table_in(table.get("base"))
    labels = (text_in(table_in(it), "name") for it in list_in(table.get("labels", [])))
    return PullRequest(
        number_in(table, "number"), login_in(table.get("user")) or "ghost", commit_in(head, "sha"), text_in(base, "ref"),
        text_in(table, "state") == "open", table.get("draft") is True, tuple(sorted({it for it in labels if is_label(it)})),
        time_in(table, "updated_at"),
    )


def comment_in(found: Json) -> IssueComment:
    table = table_in(found)
    place = re.search(r"/issues/([1-9][0-9]{0,9})$", text_in(table, "issue_url"))
    if place is None:
        raise Unread(f"a comment of no issue: {table.get('issue_url')!r}")
    body = table.get("body")
    return IssueComment(
        number_in(table, "id"), int(place[1]), login_in(table.get("user")), time_in(table, "created_at"), time_in(table, "updated_at"),
        body if isinstance(body, str) else "",
    )


def reviews_in(found: Iterable[Json], head: str) -> Dict[str, bool]:
    """Whether each person who has said so last approves a head. An approval of another head says nothing of this one."""
    said: Dict[str, Tuple[str, Json]] = {}
    for it in found:
        table = table_in(it)
        who, state = login_in(table.get("user")), text_in(table, "state")
        if who and state not in NO_WORD:
            said[who] = (state, table.get("commit_id"))
    return {who: state == "APPROVED" for who, (state, commit) in said.items() if state != "APPROVED" or commit == head}


def forced_in(found: Iterable[Json]) -> int:
    """When the head of a pull request was moved by force last, as its events tell, or 0."""
    return max((time_in(it, "created_at") for it in map(table_in, found) if it.get("event") == "head_ref_force_pushed"), default=0)


def statuses_in(statuses: Iterable[Json], runs: Iterable[Json]) -> List[Status]:
    """What is reported of a commit, each name once: by statuses and by check runs."""
    found: Dict[str, Status] = {}
    for status in [*(status_in(table_in(it)) for it in statuses), *(run_in(table_in(it)) for it in runs)]:
        before = found.get(status.name)
        if is_name_of_status(status.name) and (before is None or STATES.index(status.state) > STATES.index(before.state)):
            found[status.name] = status
    return sorted(found.values(), key=lambda it: it.name)


def status_in(table: Mapping[str, Json]) -> Status:
    state = text_in(table, "state")
    if state not in STATES:
        raise Unread(f"a status with the state {state}")
    return Status(text_in(table, "context"), state, address_in(table, "target_url"))


def run_in(table: Mapping[str, Json]) -> Status:
    is_over = text_in(table, "status") == "completed"
    state = CONCLUSIONS.get(text_in(table, "conclusion"), "failure") if is_over else "pending"
    return Status(text_in(table, "name"), state, address_in(table, "html_url"))


def role_in(found: Json) -> str:
    """The role of a collaborator by the permission: who may write is a reviewer, and who may triage a member."""
    table = table_in(found)
    name = table.get("role_name", table.get("permission"))
    if name in ("admin", "maintain", "write"):
        return "reviewer"
    # A role of an organization's own has another name, and one of the four permissions.
    if name not in ("triage", "read", "none") and table.get("permission") in ("admin", "write"):
        return "reviewer"
    return "member" if name == "triage" else "nobody"


def login_in(user: Json) -> Optional[str]:
    """The login of a user in lower case, as the bot keeps it, or none if there is no user any more."""
    login = user.get("login") if isinstance(user, dict) else None
    return person(login) if isinstance(login, str) else None


def commit_in(table: Mapping[str, Json], name: str) -> str:
    commit = text_in(table, name)
    if not is_commit(commit):
        raise Unread(f"no commit: {commit!r}")
    return commit


def time_in(table: Mapping[str, Json], name: str) -> int:
    """A time, in whole seconds since 1970."""
    text = text_in(table, name)
    try:
        return int(datetime.strptime(text, "%Y-%m-%dT%H:%M:%SZ").replace(tzinfo=timezone.utc).timestamp())
    except ValueError as fault:
        raise Unread(f"no time: {text!r}") from fault


def address_in(table: Mapping[str, Json], name: str) -> str:
    found = table.get(name)
    return found if isinstance(found, str) else ""


def is_label(text: str) -> bool:
    """Whether the bot takes this for a label."""
    return 0 < len(text.encode("utf-8", "replace")) <= MOST_IN_LABEL and not CONTROL.search(text)
