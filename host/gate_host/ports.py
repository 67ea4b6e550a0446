"""The ports: what the host touches, one concern each. The bare repository is the first set of them; `bare` puts it together."""
from dataclasses import dataclass, field
from typing import Dict, FrozenSet, Iterable, List, Mapping, Optional, Protocol, Sequence, Tuple, Union

from .core.deliveries import Delivery
from .core.duties import Duties
from .core.events import Events
from .core.facts import Conflicted, Fact, Merged
from .core.known import Batch, Known, Landing, Test
from .core.notes import Note
from .core.orders import Land
from .journal import Heard
from .settings import Settings


@dataclass(frozen=True)
class Detail:
    """What a code host says of a change besides its head: who opened it, its labels, whether people approve this head, and since when it
    has it at the latest, by the clock of the code host. If a command waits, also when its head was moved by force last, or 0."""

    author: str
    labels: Tuple[str, ...]
    reviews: Mapping[str, bool]
    dated: int
    forced: int = 0


@dataclass(frozen=True)
class Look:
    """What a look has seen: the commit of the main branch, if it is there, the heads of the changes, and what is in the way. And what else
    is known of changes, if their source knows more than branches."""

    main: Optional[str]
    heads: Dict[int, str]
    in_way: Sequence[str] = ()
    details: Mapping[int, Detail] = field(default_factory=dict)
    # Why others that are there can't be taken for changes.
    others: Mapping[int, str] = field(default_factory=dict)


@dataclass(frozen=True)
class Result:
    """How a check has ended: the state of its status, why, in words, and the name of the file with its output."""

    test: Test
    name: str
    state: str
    said: str
    output: str


@dataclass(frozen=True)
class Fault:
    """Why a check has come to no verdict. That is nobody's fault, and it is tried again."""

    test: Test
    name: str
    said: str


class Source(Protocol):
    """Where changes and comments come from."""

    @property
    def has_more(self) -> bool:
        """Whether some notes are left that the last look at them hasn't taken."""

    def look(self) -> Look:
        """Looks at everything, as it is now."""

    def take(self) -> Sequence[Note]:
        """Notes that lie there, in the order in which they were left. They stay until they are removed."""

    def remove(self, name: str) -> None:
        """Removes a note."""


class Repository(Protocol):
    """Where commits come from, are merged and moved. What can't be done at present raises `Unable`."""

    def fetch(self, heads: Mapping[int, str]) -> Dict[int, str]:
        """Has the heads of changes here. Gives why one can't come, by its change."""

    def forget(self, changes: Iterable[int]) -> None:
        """Keeps the heads of these changes no longer."""

    def settings_at(self, commit: str, most: int) -> Optional[str]:
        """The text of the bot's settings in a commit, unless there is none, or one with more bytes."""

    def settings_of(self, batch: Batch) -> Tuple[Optional[str], Optional[str]]:
        """The texts of the bot's settings in the base of a batch and in its merge, each as `settings_at` gives it."""

    def drop(self, change: int, head: str) -> None:
        """Deletes the branch of a change that has landed, if it is at exactly this head."""

    def merge(self, order: str, batch: Batch) -> Union[Merged, Conflicted]:
        """Makes one commit, whose parents are the base and the heads of a batch. Done again, it is the same commit."""

    def point(self, batch: Batch, known: Known) -> None:
        """Moves the branch on which a batch is tested to its merge."""

    def land(self, land: Land, batch: Batch) -> bool:
        """Moves the main branch from exactly the base to exactly the commit. Gives whether the commit is there. If it isn't, it never will
        be by this order."""

    def tidy(self, known: Known) -> None:
        """Throws away what isn't needed any more."""


class Runner(Protocol):
    """What runs checks."""

    def clear(self) -> None:
        """Removes what an earlier host has left."""

    def ended(self, wanted: Sequence[Test]) -> Sequence[Union[Result, Fault]]:
        """What has ended since the last look. What isn't wanted any more is stopped."""

    def lasting(self) -> Sequence[Fault]:
        """The faults because of which checks are tried again. Each lasts until its check has a result."""

    def begin(self, test: Test, settings: Settings, done: Mapping[str, str]) -> None:
        """Starts what is left of the checks of a commit."""

    def close(self) -> None:
        """Stops all."""


@dataclass(frozen=True)
class Reading:
    """What the bot reads in a text of settings, unless it refuses the text: which statuses of what is staged it requires, which of heads of
    changes, and how many reviews. And what its writer should know: why it is refused, and which keys mean nothing to the bot. Then after
    how many seconds a batch fails, or 0."""

    required: Tuple[str, ...] = ()
    of_heads: Tuple[str, ...] = ()
    reviews: int = 0
    refusal: str = ""
    remarks: Tuple[str, ...] = ()
    timeout: int = 0


class Bot(Protocol):
    """The bot, which answers each delivery and says what is to be done then."""

    def read(self, settings: str) -> Reading:
        """What the bot reads in a text of settings. It isn't handed in by that."""

    def hand_in(self, line: str) -> str:
        """Hands a delivery in, and gives the answer."""

    def duties(self) -> Duties:
        """What is to be done for what runs, after all that was handed in."""

    def close(self) -> None:
        """Ends the bot."""


class Journal(Protocol):
    """Where facts and answers are written down, each with all that belongs to it, in one step."""

    def record(self, known: Known, at: int, fact: Fact) -> None:
        """Writes a fact down, and takes it in."""

    def has_taken(self, note: str) -> bool:
        """Whether a note was taken before."""

    def keep_answer(self, known: Known, at: int, answer: str) -> Heard:
        """Writes down the answer to the first delivery that has none, and takes it in."""

    def close(self) -> None:
        """Closes it."""


class Clock(Protocol):
    """The clock."""

    def now(self) -> int:
        """The time, in whole seconds."""

    def running(self) -> float:
        """For how many seconds the system has been running, also while it slept."""


class Board(Protocol):
    """Where people are told."""

    @property
    def is_waiting(self) -> bool:
        """Whether something waits in the queue. If that isn't known, it may."""

    @property
    def is_behind(self) -> bool:
        """Whether a refresh has something to do that was left by the last one."""

    def waiting(self) -> Mapping[int, int]:
        """In which batch each approved change waits, as the report of the queue had it last."""

    def note(self, delivery: Delivery, changes: Sequence[int]) -> None:
        """Notes that a delivery has its answer, and of which changes something may be another way now."""

    def refresh(self, program: str, remarks: Sequence[str]) -> None:
        """Tells all that has changed."""

    def close(self) -> None:
        """Ends what was started for it."""


class AfterLanding(Protocol):
    """What runs after a landing, if the settings name it."""

    def go_on(self, settings: Settings, landings: Dict[str, Landing]) -> str:
        """Has it run for what has landed since the last time. Gives why the last time failed, or nothing."""

    def close(self) -> None:
        """Stops it. What it was about is due again."""


class OnEvent(Protocol):
    """What is told of notices, landings and failures, if the settings name it."""

    def go_on(self, settings: Settings, events: Events) -> str:
        """Has it told of what has happened since the last time. Gives why the last time failed, or nothing."""

    def close(self) -> None:
        """Stops it. What it was told then is due again."""


class Owner(Protocol):
    """What the owner has written for the host."""

    settings: Settings
    roles: Mapping[str, str]
    # Who reports each status that no command of the host's does, by its name; and whether anybody can review changes.
    reporters: Mapping[str, FrozenSet[str]]
    has_reviews: bool
    # The status of the host's own on heads, or none.
    own_status: str
    # The branch that is guarded, and the commit with which it was made for the owner, if it was; since the host was started.
    main: str
    first: str

    def read(self) -> List[Tuple[str, str]]:
        """Reads again, and gives of each file its name and what is wrong with it, or nothing. What was read before stays then."""


@dataclass(frozen=True)
class Ports:
    """All that a host touches."""

    source: Source
    repository: Repository
    runner: Runner
    bot: Bot
    journal: Journal
    clock: Clock
    board: Board
    owner: Owner
    after: AfterLanding
    on_event: OnEvent
