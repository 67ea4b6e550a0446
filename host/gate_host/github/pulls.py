"""Pull requests as changes, comments on them, and what is reported of commits: the source of a host of a repository on GitHub.

What the API says now is what counts. A webhook only has it asked sooner.
"""
import re
import secrets
import time
from dataclasses import dataclass
from pathlib import Path
from typing import Callable, Collection, Dict, FrozenSet, List, Mapping, Optional, Protocol, Sequence, Set, Tuple, TypeVar

from ..core.commands import command_lines
from ..core.notes import MOST_IN_COMMENT, Comment, Note, Report
from ..core.orders import Unread, table_in
from ..core.watching import news_of_statuses
from ..core.known import Known
from ..faults import Unable
from ..ports import Detail, Look
from . import hints
from .api import PER_PAGE, Api, Refused
from .reading import IssueComment, PullRequest, comment_in, commit_in, forced_in, pull_request_in, reviews_in, role_in, statuses_in

# How often the reviews of all changes are asked for without a webhook, and how long a role is known.
SECONDS_OF_REVIEWS, SECONDS_OF_ROLE = 180.0, 120.0
# So long GitHub may tell where the main branch was before a landing.
SECONDS_OF_OLD = 60.0
# What is reported comes from GitHub, whoever reported it there.
REPORTER = "github"
DRAFT = "it is a draft. Say that it is ready for review, and comment again."
# No comment of the host's own is taken. Each has this.
OWN = re.compile(r"<!-- gate:")
# From when on comments count, and up to when they were read.
FIRST, SINCE = "comments count from", "comments since"
# GitHub may list a comment later than others that are younger. So the last minutes are read again each time.
SECONDS_OF_LAG = 300
# A comment that was altered later than so many seconds may be another one than its writer wrote: who may write alters those of others.
SECONDS_OF_WRITING = 2
EDITED = "it was edited before it was read. Write another comment."
Found = TypeVar("Found")


class Marks(Protocol):
    """Where the journal has how far something has come."""

    def mark(self, name: str) -> str:
        """A mark, or nothing."""

    def put_mark(self, name: str, value: str) -> None:
        """Sets a mark."""

    def has_taken(self, note: str) -> bool:
        """Whether a note was taken before."""


class Roles:
    """The roles of people, by what they may do on GitHub. The owner's file goes before that."""

    def __init__(self, api: Api, path: str, now: Callable[[], float] = time.monotonic):
        self.api, self.path, self.now = api, path, now
        self.found: Dict[str, str] = {}
        self.until: Dict[str, float] = {}

    def ask(self, person: str) -> None:
        """Finds out the role of somebody who has said something, unless it is known."""
        if self.now() < self.until.get(person, 0.0):
            return
        try:
            self.found[person] = role_in(self.api.get(f"{self.path}/collaborators/{person}/permission"))
        except Refused as refused:
            if refused.status != 404:
                raise
            self.found[person] = "nobody"
        self.until[person] = self.now() + SECONDS_OF_ROLE


@dataclass
class Taken:
    """Comments that were read and aren't all taken yet: their notes, and up to when the comments are read with that."""

    notes: Dict[str, Comment]
    since: int


class PullRequests:
    """Where changes and comments come from."""

    has_more = False

    def __init__(
        self, api: Api, path: str, main: str, folder: Path, marks: Marks, known: Known, poll_seconds: float,
        own_status: str, now: Callable[[], float] = time.monotonic,
    ):
        self.api, self.path, self.main, self.folder, self.marks, self.known, self.now = api, path, main, folder, marks, known, now
        # How often comments and statuses are asked for without a webhook, and the name of the host's own status on heads.
        self.poll_seconds, self.own_status = poll_seconds, own_status
        self.roles = Roles(api, path, now)
        self.next_poll = self.next_reviews = 0.0
        self.taken = Taken({}, 0)
        # Comments that are listed again though nothing is left to do about them, as those on an issue.
        self.done: Set[str] = set()
        # The reviews of each change at the head for which they were asked, and of which changes a webhook came.
        self.reviews: Dict[int, Tuple[str, Mapping[str, bool]]] = {}
        self.hinted: FrozenSet[int] = frozenset()
        # Since when GitHub tells the commit of before the last landing, if it does.
        self.old_since: Optional[float] = None

    # What is there

    def look(self) -> Look:
        found = self.asked(lambda: table_in(self.api.get(f"{self.path}/branches/{self.main}")))
        main = self.main_now(self.asked(lambda: commit_in(table_in(found.get("commit")), "sha")))
        pulls = self.asked(self.pulls)
        changes = {it.number: it for it in pulls if it.is_open and not it.is_draft and it.base == self.main}
        details = {number: self.detail_of(it) for number, it in changes.items()}
        if self.now() >= self.next_reviews:
            self.next_reviews = self.now() + SECONDS_OF_REVIEWS
        self.hinted = frozenset()
        self.reviews = {number: it for number, it in self.reviews.items() if number in changes}
        drafts = {it.number: DRAFT for it in pulls if it.is_open and it.is_draft and it.base == self.main}
        return Look(main, {number: it.head for number, it in changes.items()}, (), details, drafts)

    def main_now(self, found: str) -> str:
        """Where the main branch is. Behind a push GitHub may still tell where it was before, which would count as a move past the queue. If
        that lasts, it is one."""
        landing = self.known.landings.get(self.known.base)
        if landing is None or found != landing.base:
            self.old_since = None
            return found
        self.old_since = self.now() if self.old_since is None else self.old_since
        return landing.commit if self.now() < self.old_since + SECONDS_OF_OLD else found

    def pulls(self) -> List[PullRequest]:
        """The pull requests that are open. While the pages of a list are read, one that is closed moves others to pages that were read
        before. So a change that is missing is asked for by itself: its approval would end."""
        found = {it.number: it for it in map(pull_request_in, self.api.all(f"{self.path}/pulls", state="open", base=self.main))}
        for number in (it for it in self.known.open_changes() if it not in found):
            try:
                found[number] = pull_request_in(self.api.get(f"{self.path}/pulls/{number}"))
            except Refused as refused:
                if refused.status != 404:
                    raise
        return list(found.values())

    def detail_of(self, pull: PullRequest) -> Detail:
        head, before = self.reviews.get(pull.number, ("", {}))
        if head != pull.head or pull.number in self.hinted or self.now() >= self.next_reviews:
            before = self.asked(lambda: self.reviews_of(pull))
            for person, approves in before.items():
                if approves:
                    self.roles.ask(person)
            self.reviews[pull.number] = (pull.head, before)
        return Detail(pull.author, pull.labels, before, pull.updated, self.forced(pull.number))

    def reviews_of(self, pull: PullRequest) -> Mapping[str, bool]:
        """What people say of a head. GitHub shows nothing of a pull request that it hides meanwhile, and then nobody approves it."""
        try:
            return reviews_in(self.api.all(f"{self.path}/pulls/{pull.number}/reviews"), pull.head)
        except Refused as refused:
            if refused.status != 404:
                raise
            return {}

    def forced(self, change: int) -> int:
        """When the head of a change was moved by force last, if a command waits, or 0. It may have been at another head that no look has
        seen, as while the host was away: who comes back to a head that was there before does so by force."""
        if not any(it.change == change for it in self.taken.notes.values()):
            return 0
        return self.asked(lambda: forced_in(self.api.all(f"{self.path}/issues/{change}/events")))

    # What was said

    def take(self) -> Sequence[Note]:
        hint = hints.take(self.folder)
        self.hinted |= hint.changes
        if hint.is_some or self.now() >= self.next_poll:
            # What fails is asked again at once: the webhooks that told of it are gone.
            self.next_poll = 0.0
            self.read_comments()
            # A command may need what was reported before it.
            reports = self.reports()
            self.next_poll = self.now() + self.poll_seconds
            return [*reports, *self.taken.notes.values()]
        return list(self.taken.notes.values())

    def remove(self, name: str) -> None:
        """A comment stays on GitHub. When all that were read are taken, the next time begins behind them."""
        if self.taken.notes.pop(name, None):
            self.done.add(name)
            if not self.taken.notes:
                self.marks.put_mark(SINCE, str(self.taken.since))

    def read_comments(self) -> None:
        """Reads the comments since the last time. Those from before the first start are left out: they would act now."""
        first = int(self.marks.mark(FIRST) or 0)
        if not first:
            self.marks.put_mark(FIRST, str(int(time.time())))
            return
        since = int(self.marks.mark(SINCE) or first)
        begin = time.strftime("%Y-%m-%dT%H:%M:%SZ", time.gmtime(max(first, since - SECONDS_OF_LAG)))
        comments = self.asked(lambda: {f"comment-{it.id}": it for it in sorted(self.listed(begin), key=lambda it: it.id)})
        for name, comment in comments.items():
            is_new = comment.created >= first and name not in self.done and name not in self.taken.notes
            if is_new and is_for_bot(comment) and not self.marks.has_taken(name):
                self.roles.ask(str(comment.person))
                self.taken.notes[name] = note_of(name, comment)
                # A command may need the reviews that were given before it.
                self.hinted |= {comment.change}
        self.taken.since = max([since, *(it.updated for it in comments.values())])
        self.done &= comments.keys()
        if not self.taken.notes and self.taken.since > since:
            self.marks.put_mark(SINCE, str(self.taken.since))

    def listed(self, begin: str) -> List[IssueComment]:
        """The comments since a time. While several pages are read, one that is edited or deleted moves others to pages that were read
        before. So they are read twice, which costs little if they are the same."""
        def read() -> List[IssueComment]:
            return [comment_in(it) for it in self.api.all(f"{self.path}/issues/comments", since=begin, sort="updated", direction="asc")]
        found = read()
        return found if len(found) <= PER_PAGE else [*found, *read()]

    def reports(self) -> List[Report]:
        """What is reported of the commits that matter, and wasn't handed in."""
        found = []
        tested = self.tested()
        for commit in self.wanted():
            statuses = self.asked(lambda: statuses_in(
                list(self.api.entries(f"{self.path}/commits/{commit}/status", "statuses")),
                list(self.api.entries(f"{self.path}/commits/{commit}/check-runs", "check_runs")),
            ))
            states = {it.name: it for it in statuses if commit in tested or it.name != self.own_status}
            for name in news_of_statuses(self.known, commit, {name: it.state for name, it in states.items()}):
                note = f"status-{commit}-{secrets.token_hex(8)}"
                found.append(Report(note, REPORTER, commit, name, states[name].state, states[name].description[:300]))
        return found

    def wanted(self) -> Collection[str]:
        """The commits that are tested, and the heads of open changes if the settings may ask for statuses of heads."""
        heads = {it.head for it in self.known.changes.values() if it.phase == "open"} if "pr_status" in self.known.taken else set()
        return sorted(self.tested() | heads)

    def tested(self) -> Set[str]:
        """What is tested. What is over stays known until the next batch comes, and nothing that is reported of it counts."""
        return {test.commit for test in self.known.tests.values() if test.batch not in self.known.over}

    @staticmethod
    def asked(ask: Callable[[], Found]) -> Found:
        """What was asked. What isn't as GitHub's documentation says is no fault of a change."""
        try:
            return ask()
        except Unread as fault:
            raise Unable(f"GitHub answers something else than it should: {fault}") from fault


def is_for_bot(comment: IssueComment) -> bool:
    """Whether a comment has commands, and is somebody's whose name the bot takes."""
    return comment.person is not None and not OWN.search(comment.text) and bool(command_lines(comment.text))


def note_of(name: str, comment: IssueComment) -> Comment:
    """A comment as a note. Of a long one the command lines will do; GitHub ends lines by CR LF, of which the bot drops the CR."""
    text = "\n".join(command_lines(comment.text)) if len(comment.text) > MOST_IN_COMMENT else comment.text
    objection = EDITED if comment.updated > comment.created + SECONDS_OF_WRITING else ""
    return Comment(name, str(comment.person), comment.change, text[:MOST_IN_COMMENT], None, comment.created, objection)
