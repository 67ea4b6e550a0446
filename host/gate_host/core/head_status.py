"""How a change stands on its way to the main branch, in a few words: what a code host shows beside its head."""
from dataclasses import dataclass
from typing import TYPE_CHECKING, Mapping, Optional

from .words import DIGITS, plain, why_ended

if TYPE_CHECKING:
    from .known import Known

# A code host takes no longer ones.
MOST_IN_TEXT = 140
WAITING = "waiting: "


@dataclass(frozen=True)
class Place:
    """Where a change is in the queue for the main branch: in which batch, how that stands, and how many batches come no later."""

    batch: int
    state: str
    place: int


@dataclass(frozen=True)
class HeadStatus:
    """How a change stands: at which head, the state of a status, what it says, and a commit of which more can be read, or none."""

    head: str
    state: str
    text: str
    commit: str = ""

    @property
    def is_waiting(self) -> bool:
        """Whether it says at which place a change waits, which alters often."""
        return self.text.startswith(WAITING)


def head_status_of(known: "Known", places: Mapping[int, Place], change: int) -> Optional[HeadStatus]:
    """How a change stands, by the queue. None if it was never on its way at the head that it has."""
    landing, place, end = known.landing_of(change), places.get(change), known.ends.get(change)
    if landing and known.phase(change) == "landed":
        head = next((it.head for it in landing.members if it.change == change), known.head_of(change))
        return HeadStatus(head, "success", f"landed as {landing.commit[:DIGITS]}, with batch {landing.batch}", landing.commit)
    if place:
        return status_in_queue(known, place, known.head_of(change))
    if end and known.phase(change) != "landed":
        text = plain(f"not landed: {why_ended(end.why, end.name)}")
        return HeadStatus(known.head_of(change), "failure", text[:MOST_IN_TEXT], end.commit)
    return None


def status_in_queue(known: "Known", place: Place, head: str) -> HeadStatus:
    """How a change stands that is in the queue."""
    batch = known.batch_of(place.batch)
    commit = batch.commit if batch else ""
    if place.state == "waiting":
        return HeadStatus(head, "pending", f"{WAITING}place {place.place} of the queue, in batch {place.batch}")
    said = {"ordered": "about to be tested", "staged": "being tested", "landing": "landing"}.get(place.state, place.state)
    named = f" as {commit[:DIGITS]}" if commit else ""
    return HeadStatus(head, "pending", f"{said}{named}, with batch {place.batch}", commit)
