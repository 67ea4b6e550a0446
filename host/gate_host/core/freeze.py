"""A freeze: nothing new is staged and nothing lands, as long as somebody who may wants it so.

The bot orders batches to be staged at a reading of the clock alone, and lands one when its last required status has succeeded. So while a
freeze lasts the loop hands in no reading, and what has succeeded for a batch that may land is held back here. All else goes on, but that
what was ordered to be staged waits. When the freeze ends, what is held is handed in, if it is still about something.
"""
from dataclasses import dataclass
from typing import TYPE_CHECKING, Iterable, List, Optional, Tuple

from .deliveries import Delivery
from .facts import Ended, Fact, Reported

if TYPE_CHECKING:
    from .known import Known

# A status of what is tested, by the number of its batch and its name.
Key = Tuple[int, str]


@dataclass(frozen=True)
class Freeze:
    """Who froze the queue last, why, and since when it is frozen, in seconds since 1970."""

    person: str
    reason: str
    at: int


@dataclass(frozen=True)
class Held:
    """A success that is held back: of which commit, and as which delivery."""

    commit: str
    delivery: Delivery


def key_of(known: "Known", fact: Fact) -> Optional[Key]:
    """Which status of the batch that may land a fact tells, if it tells one."""
    test = known.tests.get("staging")
    if test is None:
        return None
    if isinstance(fact, Ended) and fact.batch == test.batch:
        return test.batch, fact.name
    if isinstance(fact, Reported) and fact.commit == test.commit and test.batch not in known.over:
        return test.batch, fact.name
    return None


def passed_on(known: "Known", fact: Fact, due: List[Delivery]) -> List[Delivery]:
    """What of the deliveries that a fact gives is handed in now. The last word on a status counts, so whatever comes of one takes the place
    of what is held of it."""
    key = key_of(known, fact)
    if key is None:
        return due
    known.held.pop(key, None)
    is_success = isinstance(fact, (Ended, Reported)) and fact.state == "success"
    if known.freeze is None or not is_success or not due:
        return due
    known.held[key] = Held(known.tests["staging"].commit, due[0])
    return []


def released(known: "Known") -> List[Delivery]:
    """What was held back and is still about a batch that is tested, or about the head of an open change."""
    held: Iterable[Held] = known.held.values()
    return [it.delivery for it in held if known.changes_at(it.commit)]
