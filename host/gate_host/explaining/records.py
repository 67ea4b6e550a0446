"""What the program says of a moment: by its records, which docs/formats.md describes, by its report, and by its answers to made-up
comments."""
from dataclasses import dataclass
from enum import Enum
from typing import Optional, Tuple

from ..core.orders import Denied
from ..core.queue import QueuedBatch

# A person whom nobody has given a role, and who isn't the author. The bot answers all of these alike.
STRANGER = "somebody-else"


class Phase(Enum):
    """The phase of a change."""

    NEVER = "never opened"
    OPEN = "open"
    CLOSED = "closed"
    LANDED = "landed"


@dataclass(frozen=True)
class ChangeRow:
    """A change in the records: its phase, author and head, who has approved it if it is approved, and its delegates."""

    phase: Phase
    author: str = ""
    head: str = ""
    is_approved: bool = False
    approvers: Tuple[str, ...] = ()
    delegates: Tuple[str, ...] = ()


@dataclass(frozen=True)
class BatchRow:
    """A batch in the records: the clock reading at which it was ordered or staged, if that is how it stands, and its statuses: which
    required names have succeeded, and which are pending."""

    number: int
    since: int
    commit: str
    succeeded: Tuple[str, ...] = ()
    pending: Tuple[str, ...] = ()


@dataclass(frozen=True)
class Records:
    """The records at a moment: a change, everybody with a role, the required statuses, the time that a batch has, and the batches; and the
    batches of both branches in the order of service, as the report of the queue has them."""

    change: ChangeRow
    people: Tuple[str, ...] = ()
    required: Tuple[str, ...] = ()
    timeout: int = 0
    batches: Tuple[BatchRow, ...] = ()
    queue: Tuple[QueuedBatch, ...] = ()

    def row_of(self, number: int) -> Optional[BatchRow]:
        return next((row for row in self.batches if row.number == number), None)


@dataclass(frozen=True)
class Asked:
    """What the program answered to `bors r+` of a person: the denial, or none if it would act."""

    person: str
    denial: Optional[Denied]


def people_to_ask(records: Records) -> Tuple[str, ...]:
    """Whom to ask for: somebody without a role, the author, the delegates, and everybody with a role, each once."""
    change = records.change
    known = {change.author, *change.delegates, *records.people}
    stranger = next(name for name in (STRANGER, *(f"{STRANGER}-{number}" for number in range(len(known) + 1))) if name not in known)
    return tuple(dict.fromkeys(it for it in (stranger, change.author, *change.delegates, *records.people) if it))
