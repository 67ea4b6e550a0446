"""What notes say, and what is taken of them."""
import re
from dataclasses import asdict, dataclass
from typing import TYPE_CHECKING, Dict, Mapping, Optional, Tuple, Union

from .commands import command_lines
from .facts import PushTold, Said
from .orders import Json

if TYPE_CHECKING:
    from .known import Known

LAST_CHANGE = 4294967295
# A character takes up to six bytes in a line that is handed in, and a line has at most 65,536.
MOST_IN_COMMENT = 8000
COMMIT = re.compile(r"[0-9a-f]{40}")
# A name of a status has at most so many bytes, and the bot takes no control characters in it.
MOST_IN_NAME = 255
CONTROL = re.compile(r"[\x00-\x1f\x7f]")
MOST_IN_DESCRIPTION = 300
STATES = ("success", "failure", "error", "pending")


@dataclass(frozen=True)
class Comment:
    """What a person said of a change, by a note. The head is the one that the writer has seen, empty if it isn't a commit, and none if the
    note doesn't say so."""

    note: str
    person: str
    change: int
    text: str
    seen: Optional[str]
    # When it was written, by the clock of a code host whose comments name no head; and why it can't be taken, or nothing.
    written: Optional[int] = None
    objection: str = ""


@dataclass(frozen=True)
class Acceptance:
    """A person takes the moves of the main branch to a commit for right after all."""

    note: str
    person: str
    commit: str


@dataclass(frozen=True)
class Freezing:
    """A person wants the queue frozen, for a reason in words."""

    note: str
    person: str
    reason: str


@dataclass(frozen=True)
class Thawing:
    """A person wants the freeze ended."""

    note: str
    person: str


@dataclass(frozen=True)
class Report:
    """A person reports the status of a commit under a name, with a description of it, which may be empty."""

    note: str
    person: str
    commit: str
    name: str
    state: str
    description: str


@dataclass(frozen=True)
class Strange:
    """A note that is none of these."""

    note: str
    person: str


Note = Union[Comment, PushTold, Acceptance, Report, Freezing, Thawing, Strange]


@dataclass(frozen=True)
class CommentLeft:
    """A comment as it is left by its writer, with the head that was seen."""

    person: Optional[str]
    change: int
    text: str
    head: str


@dataclass(frozen=True)
class PushLeft:
    """What a hook tells of a push."""

    person: Optional[str]
    heads: Tuple[Tuple[int, str], ...] = ()
    moves: Tuple[Tuple[str, str], ...] = ()


@dataclass(frozen=True)
class AcceptanceLeft:
    """That the owner takes the moves of the main branch to a commit for right after all."""

    person: Optional[str]
    commit: str


@dataclass(frozen=True)
class ReportLeft:
    """The status of a commit under a name, with a description of it, which may be empty."""

    person: Optional[str]
    commit: str
    name: str
    state: str
    description: str


@dataclass(frozen=True)
class FreezeLeft:
    """That the queue is to be frozen, and why."""

    person: Optional[str]
    reason: str


@dataclass(frozen=True)
class ThawLeft:
    """That the freeze is to be ended."""

    person: Optional[str]


Left = Union[CommentLeft, PushLeft, AcceptanceLeft, ReportLeft, FreezeLeft, ThawLeft]
KINDS = {
    CommentLeft: "comment", PushLeft: "push", AcceptanceLeft: "accept", ReportLeft: "status", FreezeLeft: "freeze", ThawLeft: "thaw",
}


def table_of(left: Left) -> Dict[str, Json]:
    """What stands in a note that is left."""
    return {"kind": KINDS[type(left)], **asdict(left)}


def note_in(name: str, person: str, body: Mapping[str, Json]) -> Note:
    """What a note says, by its name, who left it, and the table that it has."""
    if body.get("kind") == "push":
        return push_in(name, person, body)
    if body.get("kind") == "status":
        return report_in(name, person, body)
    if body.get("kind") in ("freeze", "thaw"):
        return freeze_in(name, person, body)
    if body.get("kind") != "accept":
        return comment_in(name, person, body)
    commit = body.get("commit")
    return Acceptance(name, person, commit) if isinstance(commit, str) and is_commit(commit) else Strange(name, person)


def push_in(name: str, person: str, body: Mapping[str, Json]) -> Union[PushTold, Strange]:
    """What a note tells of a push. What isn't as it should be among its heads and moves is left out."""
    heads, moves = body.get("heads"), body.get("moves", [])
    if not isinstance(heads, list) or not isinstance(moves, list):
        return Strange(name, person)
    return PushTold(name, person, tuple(it for it in map(head_in, heads) if it), tuple(it for it in map(move_in, moves) if it))


def comment_in(name: str, person: str, body: Mapping[str, Json]) -> Union[Comment, Strange]:
    change, text, head = body.get("change"), body.get("text"), body.get("head")
    if not is_number(change) or not isinstance(change, int) or not isinstance(text, str) or len(text) > MOST_IN_COMMENT:
        return Strange(name, person)
    seen = None if head is None else head if isinstance(head, str) and is_commit(head) else ""
    # Half of a surrogate pair is no character, and the bot takes none.
    return Comment(name, person, change, text.encode("utf-8", "replace").decode("utf-8"), seen)


def report_in(note: str, person: str, body: Mapping[str, Json]) -> Union[Report, Strange]:
    commit, name, state = body.get("commit"), body.get("name"), body.get("state")
    more = body.get("description")
    if not (isinstance(commit, str) and is_commit(commit) and isinstance(name, str) and is_name_of_status(name)):
        return Strange(note, person)
    if not isinstance(state, str) or state not in STATES or not isinstance(more, str) or not is_description(more):
        return Strange(note, person)
    return Report(note, person, commit, name, state, more.encode("utf-8", "replace").decode("utf-8"))


def freeze_in(note: str, person: str, body: Mapping[str, Json]) -> Union[Freezing, Thawing, Strange]:
    reason = body.get("reason")
    if body.get("kind") == "thaw":
        return Thawing(note, person)
    return Freezing(note, person, reason) if isinstance(reason, str) and is_reason(reason) else Strange(note, person)


def is_reason(text: str) -> bool:
    """Whether this tells why the queue is frozen: a short text on one line, which everybody is shown."""
    return bool(text.strip()) and text.isprintable() and is_description(text)


def is_description(text: str) -> bool:
    """Whether this describes a status: a short text on one line."""
    return len(text) <= MOST_IN_DESCRIPTION and not CONTROL.search(text)


def is_name_of_status(name: str) -> bool:
    """Whether the bot takes this for the name of a status."""
    try:
        return 0 < len(name.encode()) <= MOST_IN_NAME and not CONTROL.search(name)
    except UnicodeEncodeError:
        # Half of a surrogate pair is no character.
        return False


def objection_to(known: "Known", said: Said) -> str:
    """Why the commands of a comment aren't taken, or nothing. They are about what their writer has seen, if that can be read."""
    found = known.changes.get(said.change)
    if found is None or not command_lines(said.text):
        return ""
    if said.seen not in (None, found.head):
        return f"it was about {said.seen or 'another commit'}, and the change is at {found.head} now. Look at that first."
    if not said.is_readable:
        return f"{found.head} can't be read whole in the repository. Push it again, or push another commit."
    return ""


def head_in(found: Json) -> Optional[Tuple[int, str]]:
    """The number of a change and a head, if it is that."""
    if isinstance(found, list) and len(found) == 2 and is_number(found[0]) and is_commit(found[1]):
        return int(found[0]), str(found[1])
    return None


def move_in(found: Json) -> Optional[Tuple[str, str]]:
    """Two commits, if it is that."""
    if isinstance(found, list) and len(found) == 2 and is_commit(found[0]) and is_commit(found[1]):
        return str(found[0]), str(found[1])
    return None


def is_number(found: Json) -> bool:
    """Whether this is a number of a change. True is no number here, although it is an int."""
    return isinstance(found, int) and not isinstance(found, bool) and 0 < found <= LAST_CHANGE


def is_commit(found: Json) -> bool:
    return isinstance(found, str) and COMMIT.fullmatch(found) is not None
