"""How each change was approved, and how it left the queue, by the answers of the bot alone."""
from dataclasses import dataclass, field
from typing import Dict, List, Optional, Sequence, Tuple

from ..core.commands import REPEATED, Command, Kind, commands_in
from ..core.orders import Done, Notice
from ..core.words import TRIES, WITHDRAWN
from .courses import Courses, End
from .events import Event

APPROVALS = (Kind.APPROVE, Kind.APPROVE_FOR)


@dataclass(frozen=True)
class Approval:
    """That a change was approved: for whom, by whose word, by which delivery."""

    approvers: Tuple[str, ...]
    person: str
    event: Event


@dataclass(frozen=True)
class Leaving:
    """That an approval has ended, by the reason of a notice with the name of a status if it has one, or since it was taken back."""

    why: str
    name: str
    event: Event


@dataclass
class Life:
    """What happened to a change: whether it is approved, its approvals and the ends of these, and its last openings and closings."""

    is_approved: bool = False
    approvals: List[Approval] = field(default_factory=list)
    leavings: List[Leaving] = field(default_factory=list)
    last: Optional[Command] = None
    opened: Optional[Event] = None
    closed: Optional[Event] = None

    def left_after(self, number: int) -> Optional[Leaving]:
        """The first end of an approval after a delivery."""
        return next((it for it in self.leavings if it.event.mark.number > number), None)


def lives_of(events: Sequence[Event], courses: Courses) -> Dict[int, Life]:
    """What happened to each change."""
    lives: Dict[int, Life] = {}
    landed = {
        course.ended.mark.number: course.stage.changes for course in courses.all.values() if course.end is End.LANDED and course.ended
    }
    for event in events:
        take(lives, event)
        for change in landed.get(event.mark.number, ()):
            lives.setdefault(change, Life()).is_approved = False
    return lives


def take(lives: Dict[int, Life], event: Event) -> None:
    if event.change:
        life = lives.setdefault(event.change, Life())
        if event.kind == "comment":
            take_comment(life, event)
        elif event.is_done and event.kind == "opened":
            life.opened, life.closed = event, None
        elif event.is_done and event.kind == "closed":
            life.closed = event
    for order in event.orders:
        if isinstance(order, Notice) and order.why not in TRIES:
            end(lives.setdefault(order.change, Life()), Leaving(order.why, order.name, event))


def take_comment(life: Life, event: Event) -> None:
    """A `retry` does what the last approval or try did, and isn't one itself."""
    for command, reply in zip(commands_in(event.text), event.answer):
        if not isinstance(reply, Done):
            continue
        meant = life.last if command.kind is Kind.RETRY and life.last else command
        if meant.kind in APPROVALS:
            life.is_approved = True
            life.approvals.append(Approval(meant.people or (event.person,), event.person, event))
        elif meant.kind is Kind.WITHDRAW:
            end(life, Leaving(WITHDRAWN, "", event))
        if command.kind in REPEATED:
            life.last = command


def end(life: Life, leaving: Leaving) -> None:
    """A notice may be about a try alone."""
    if life.is_approved:
        life.is_approved = False
        life.leavings.append(leaving)
