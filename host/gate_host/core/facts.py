"""The facts: all that the host learns, each written down before anything is done about it. The list of them is what the host knows.

An order is named by the identifier that its report has: that of the delivery that it answers, and its place in the answer.
"""
import json
from dataclasses import asdict, dataclass, fields
from typing import Dict, Mapping, Optional, Tuple, Type, Union, get_args

from .orders import Json, Unread, table_in


@dataclass(frozen=True)
class RoleGiven:
    """A person has a role: `reviewer`, `member` or `nobody`."""

    person: str
    role: str


@dataclass(frozen=True)
class MainSeen:
    """The main branch is at a commit, whose settings have this text, or none if it has none that can be read."""

    commit: str
    settings: Optional[str]


@dataclass(frozen=True)
class Opened:
    """A change is there that wasn't open."""

    change: int
    author: str
    head: str


@dataclass(frozen=True)
class Pushed:
    """An open change is at another head. If the change has landed, that is told to people and not to the bot."""

    change: int
    head: str


@dataclass(frozen=True)
class Closed:
    """An open change isn't there any more."""

    change: int


@dataclass(frozen=True)
class HeadDated:
    """A change is at a head since this time at the latest, by the clock of the code host, in seconds since 1970."""

    change: int
    head: str
    at: int


@dataclass(frozen=True)
class Labeled:
    """A change has a label that it hadn't."""

    change: int
    label: str


@dataclass(frozen=True)
class Unlabeled:
    """A change has a label no more."""

    change: int
    label: str


@dataclass(frozen=True)
class Reviewed:
    """A person has reviewed a change at a head, and approves it or doesn't."""

    change: int
    person: str
    head: str
    approves: bool


@dataclass(frozen=True)
class Said:
    """A person said something of a change, in a note. The head is the one that the writer has seen, empty if it is no commit, and none if
    the note doesn't say so. And whether the head that the change has then could be read whole."""

    note: str
    change: int
    person: str
    text: str
    seen: Optional[str] = None
    is_readable: bool = True


@dataclass(frozen=True)
class NotTaken:
    """A person commented on a change in a way that can't be handed in, and why."""

    note: str
    change: int
    person: str
    text: str
    why: str


@dataclass(frozen=True)
class PushTold:
    """A person told in a note of a push: of heads of changes, and of moves of the main branch from one commit to another."""

    note: str
    person: str
    heads: Tuple[Tuple[int, str], ...]
    moves: Tuple[Tuple[str, str], ...]


@dataclass(frozen=True)
class MoverFound:
    """A move of the main branch, named by the fact that told of it, was made by this person, or by nobody who may if that is empty. What
    was told of pushes of the commits on its way is used up."""

    move: int
    person: str
    used: Tuple[str, ...] = ()


@dataclass(frozen=True)
class PushesForgotten:
    """What was told of pushes to the main branch up to this time doesn't count any more: git has moved the branch by then, or refused."""

    up_to: int


@dataclass(frozen=True)
class Merged:
    """The merge of an order to stage is made. It isn't where it is tested yet."""

    order: str
    commit: str


@dataclass(frozen=True)
class Conflicted:
    """An order to stage can't be done: this change doesn't merge, for a reason in words."""

    order: str
    change: int
    why: str


@dataclass(frozen=True)
class Queued:
    """An approved change waits in this batch, as the bot's report of its queue has it."""

    change: int
    batch: int


@dataclass(frozen=True)
class Delayed:
    """An order to stage can't be done yet, for a reason of the host, which is no fault of the changes."""

    order: str
    why: str


@dataclass(frozen=True)
class Staged:
    """The merge of an order to stage is on the branch on which it is tested."""

    order: str


@dataclass(frozen=True)
class Ended:
    """A check of a batch has ended: the state of its status, how, and the name of the file with its output."""

    batch: int
    name: str
    state: str
    said: str
    output: str


@dataclass(frozen=True)
class Faulted:
    """A check of a batch has come to no verdict, which is nobody's fault. It is tried again."""

    batch: int
    name: str
    said: str


@dataclass(frozen=True)
class Reported:
    """A person who may report it said in a note how a status of a commit stands, with a description, which may be empty."""

    note: str
    person: str
    commit: str
    name: str
    state: str
    description: str


@dataclass(frozen=True)
class Moved:
    """An order to land is done: its commit is on the main branch, which has this name."""

    order: str
    branch: str


@dataclass(frozen=True)
class NotMoved:
    """An order to land isn't done and never will be: the main branch is elsewhere, and nothing can still move it."""

    order: str


@dataclass(frozen=True)
class Doubted:
    """A required check of a batch of one change has failed, in this way. Before the bot is told, the check runs on the base alone."""

    batch: int
    name: str
    state: str
    said: str
    output: str


@dataclass(frozen=True)
class BaseEnded:
    """A check of the base of a batch alone has ended: the state of its status, how, and the name of the file with its output."""

    batch: int
    name: str
    state: str
    said: str
    output: str


@dataclass(frozen=True)
class Frozen:
    """A person froze the queue by a note, for a reason in words. Nothing new is staged and nothing lands from then on."""

    note: str
    person: str
    reason: str


@dataclass(frozen=True)
class Thawed:
    """A person ended the freeze by a note."""

    note: str
    person: str


@dataclass(frozen=True)
class Ticked:
    """What the clock says, in whole seconds."""

    now: int


@dataclass(frozen=True)
class Upgraded:
    """What a journal of an earlier version knew, as the text of a table."""

    known: str


Fact = Union[
    RoleGiven, MainSeen, Opened, Pushed, Closed, HeadDated, Labeled, Unlabeled, Reviewed, Said, NotTaken, PushTold, MoverFound,
    PushesForgotten, Merged, Conflicted, Delayed, Staged, Ended, Faulted, Reported, Queued, Moved, NotMoved, Doubted, BaseEnded, Frozen,
    Thawed, Ticked, Upgraded,
]
KINDS: Dict[str, Type[Fact]] = {kind.__name__: kind for kind in get_args(Fact)}


def kind_of(fact: Fact) -> str:
    """By what name a fact is written down."""
    return type(fact).__name__


def written(fact: Fact) -> str:
    """What is written down of a fact beside its kind."""
    return json.dumps(asdict(fact), ensure_ascii=False)


def fact_in(kind: str, body: str) -> Fact:
    """Reads a fact that was written down."""
    if kind not in KINDS:
        raise Unread(f"a fact of a kind that isn't known: {kind}")
    shape = KINDS[kind]
    table = table_in(json.loads(body))
    if set(table) != {field.name for field in fields(shape)}:
        raise Unread(f"a fact {kind} that isn't whole: {body[:200]}")
    return made_of(shape, {name: tupled(value) for name, value in table.items()})


def made_of(shape: Type[Fact], table: Mapping[str, Json]) -> Fact:
    # What the host itself has written has the types of the fields.
    return shape(**table)  # type: ignore[arg-type]


def tupled(value: Json) -> Json:
    """A list of JSON as the tuple that it was."""
    return tuple(tupled(it) for it in value) if isinstance(value, list) else value
