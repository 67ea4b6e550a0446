"""What is made of a look at the branches, and of who told of pushes. What was seen here and isn't written down is gone when the host ends,
and is seen again by the next one."""
from dataclasses import dataclass, field
from itertools import count
from typing import Collection, Container, Dict, Iterable, List, Mapping, Optional, Set, Tuple, Union

from .facts import (
    Closed, Fact, Frozen, Labeled, MoverFound, Pushed, PushesForgotten, Queued, Reported, Reviewed, RoleGiven, Thawed, Unlabeled,
)
from .known import Known, Move
from .notes import Freezing, Report, Thawing

# By so many seconds a code host may tell a push by force for later than the head to which it led.
SECONDS_OF_FORCE = 5
# So many changes are opened before there is other news, so that a push of many holds nobody up.
MOST_CHANGES_AT_ONCE = 50


@dataclass
class Watch:
    """What the looks have seen and isn't written down yet."""

    # In so many rounds each note is taken that lay there before them.
    rounds_for_all: int
    # How many rounds there were.
    rounds: int = 0
    # Changes that were seen, and that later looks open.
    later: List[int] = field(default_factory=list)
    # In which round a head was first seen of which no note tells who pushed it, and a move of the main branch that nobody has looked into.
    unclaimed: Dict[Tuple[int, str], int] = field(default_factory=dict)
    moves: Dict[int, int] = field(default_factory=dict)

    def pick(self, known: Known, heads: Mapping[int, str]) -> Dict[int, str]:
        """The changes that this look is about. Of those that are new later looks take the rest. Those that have moved don't wait: that ends
        their approval."""
        new = {change for change in heads if known.phase(change) == "closed"}
        waiting = [change for change in self.later if change in new]
        self.later = [*waiting, *sorted(new - set(waiting))][MOST_CHANGES_AT_ONCE:]
        self.unclaimed = {(change, head): since for (change, head), since in self.unclaimed.items() if heads.get(change) == head}
        later = set(self.later)
        return {change: head for change, head in sorted(heads.items()) if change not in later}

    def author(self, known: Known, change: int, head: str, owner: str, has_more: bool) -> Optional[str]:
        """Who is the author of a change that is new, or none if a note may still tell it. What no note has told of is the owner's."""
        told = known.pusher(change, head)
        if told is None and self.may_be_told_yet(self.unclaimed.setdefault((change, head), self.rounds), has_more):
            return None
        self.unclaimed.pop((change, head), None)
        return told or owner

    def may_be_told_yet(self, since: int, has_more: bool) -> bool:
        """Whether a note may still come of what was seen first in that round. It was left before, but a round takes only some notes of
        each user. Whoever goes on leaving notes can hold that up, but not for ever."""
        return since == self.rounds or (has_more and self.rounds < since + self.rounds_for_all)

    def is_awaited(self, change: int) -> bool:
        """Whether a change was seen that isn't open yet. What is said of it waits."""
        return change in self.later or any(change == unclaimed for unclaimed, _ in self.unclaimed)

    def note_moves(self, known: Known) -> None:
        """Notes in which round a move of the main branch was seen first."""
        self.moves = {move.number: self.moves.get(move.number, self.rounds) for move in known.unknown_moves()}

    def next_mover(self, known: Known, may_push: Collection[str], has_more: bool, first: str = "") -> Optional[MoverFound]:
        """Who made the first move of the main branch that nobody has looked into, unless a note may still tell it. What tells of one is
        used up when that is written down, so they are looked into one by one. From the commit `first` a reviewer may move it as well."""
        self.note_moves(known)
        for move in known.unknown_moves():
            if not self.may_be_told_yet(self.moves[move.number], has_more):
                return mover_of(known, move, may_push, first)
        return None


def news_of_roles(known: Known, roles: Mapping[str, str]) -> List[RoleGiven]:
    """The roles that weren't told yet. Who isn't among them any more has none."""
    given = [RoleGiven(name, role) for name, role in roles.items() if known.roles.get(name, "nobody") != role]
    return given + [RoleGiven(name, "nobody") for name, role in known.roles.items() if role != "nobody" and name not in roles]


def is_news_of_main(known: Known, commit: str) -> bool:
    """Whether the base or its settings have to be told."""
    return not commit == known.base == known.settings_of


def is_new(known: Known, change: int) -> bool:
    """Whether a change that is there has to be opened."""
    return known.phase(change) == "closed"


def news_of_head(known: Known, change: int, head: str) -> Optional[Fact]:
    """Whether a change that was there before is at another head."""
    found = known.changes.get(change)
    return Pushed(change, head) if found and found.phase != "closed" and found.head != head else None


def news_of_labels(known: Known, change: int, labels: Collection[str]) -> List[Fact]:
    """Which labels of a change weren't told yet, and which it has no more."""
    before = known.labels.get(change, set())
    return [*(Labeled(change, it) for it in sorted({*labels} - before)), *(Unlabeled(change, it) for it in sorted(before - {*labels}))]


def news_of_reviews(known: Known, change: int, reviews: Mapping[str, bool]) -> List[Reviewed]:
    """Whose reviews of the head that a change has weren't told yet, and who approves it no more. Only people with a role review, and nobody
    the own change: the bot denies all others, and would deny them at each look."""
    people, before, head = known.people_of(change), known.reviews.get(change, {}), known.head_of(change)
    taken = {it for it in reviews if known.roles.get(it, "nobody") != "nobody" and it != people.author}
    new = [Reviewed(change, it, head, reviews[it]) for it in sorted(taken) if before.get(it, False) != reviews[it]]
    return new + [Reviewed(change, it, head, False) for it in sorted(before) if before[it] and it not in reviews]


def has_to_be_dated(known: Known, change: int, head: str, forced: int) -> bool:
    """Whether it has to be noted since when a change is at a head. If it was moved by force after that was noted, it was at another head
    in between, which nobody here has seen. A comment may be about that one."""
    dated, at = known.dated.get(change, ("", 0))
    return dated != head or forced > at + SECONDS_OF_FORCE


def seen_by(known: Known, change: int, written: int) -> str:
    """The head that the writer of a comment has seen, by the time at which it was written: the one that the change has, if it came before
    that; else none. In the same second it may have come after."""
    head, at = known.dated.get(change, ("", 0))
    return head if head == known.head_of(change) and written > at else ""


def news_of_statuses(known: Known, commit: str, states: Mapping[str, str]) -> List[str]:
    """Of which names the state on a commit wasn't told yet. One that is pending from the first is no news."""
    before = known.reported.get(commit, {})
    return [name for name, state in states.items() if before.get(name, "pending") != state]


def gone(known: Known, heads: Container[int]) -> List[Closed]:
    """The open changes that aren't there any more."""
    return [Closed(change) for change, it in known.changes.items() if it.phase == "open" and change not in heads]


def mover_of(known: Known, move: Move, may_push: Collection[str], first: str = "") -> MoverFound:
    """Who may push there and told of having moved the branch, by one step or several; or nobody."""
    told: Dict[str, List[Tuple[str, str]]] = {}
    for before, target, person in sorted(known.told_moves):
        if person in may_push or (first and before == first and known.roles.get(person) == "reviewer"):
            told.setdefault(target, []).append((before, person))
    seen: Set[str] = {move.target}
    steps = [(move.target, "")]
    while steps:
        target, last = steps.pop()
        for before, person in told.get(target, []):
            if before == move.before:
                return MoverFound(move.number, last or person, tuple(sorted(seen)))
            if before not in seen:
                seen.add(before)
                steps.append((before, last or person))
    return MoverFound(move.number, "")


def accepted(known: Known, commit: str, person: str, owner: Optional[str]) -> List[MoverFound]:
    """That the owner takes moves of the main branch to a commit for right after all. Nobody else can."""
    return [MoverFound(move.number, person) for move in known.strays() if person == owner and move.target == commit]


def old_pushes(known: Known, up_to: int) -> Optional[PushesForgotten]:
    """What is forgotten of who told of pushes, unless somebody has still to look into a move."""
    is_old = any(at <= up_to for at in known.told_moves.values())
    return PushesForgotten(up_to) if is_old and not known.unknown_moves() else None


def report_of(known: Known, report: Report, commands: Container[str], reporters: Mapping[str, Container[str]]) -> Union[Reported, str]:
    """The fact as which a report is written down, or why it doesn't count. What a command of the host tests the host alone reports, of each
    commit that it has made, also when the batch is over."""
    said = f"{report.person} reports {report.name} of {report.commit}"
    if report.person not in reporters.get(report.name, ()):
        return f"{said}, and isn't named as a reporter of that"
    if report.name in commands and (known.tests_of(report.commit) or report.commit in known.made):
        return f"{said}, for which the host has a command of its own"
    if not known.changes_at(report.commit):
        return f"{said}, which is neither tested now nor the head of an open change"
    return Reported(report.note, report.person, report.commit, report.name, report.state, report.description)


def is_about_to_be_tested(known: Known, commit: str) -> bool:
    """Whether a commit is the merge of a batch of which it isn't told yet that it is staged."""
    return any(batch.commit == commit and batch.order in known.orders for batch in known.batches.values())


def freeze_of(known: Known, asked: Union[Freezing, Thawing], owner: Optional[str]) -> Union[Frozen, Thawed, str]:
    """The fact as which it is written down that somebody wants the queue frozen or thawed, or why that doesn't count. The owner may, and
    each reviewer."""
    wanted = "frozen" if isinstance(asked, Freezing) else "thawed"
    if asked.person != owner and known.roles.get(asked.person) != "reviewer":
        return f"{asked.person} wants the queue {wanted}, and is neither a reviewer nor the owner"
    if isinstance(asked, Freezing):
        return Frozen(asked.note, asked.person, asked.reason)
    return Thawed(asked.note, asked.person) if known.freeze else f"{asked.person} wants the queue thawed, and it isn't frozen"


def news_of_queue(known: Known, waiting: Mapping[int, int]) -> List[Queued]:
    """In which batches changes wait that people weren't told of yet, by the number of the batch of each."""
    return [Queued(change, batch) for change, batch in sorted(waiting.items()) if known.queued.get(change) != batch]


def never_reported(required: Iterable[str], commands: Container[str], reporters: Container[str]) -> List[str]:
    """The required statuses that nobody ever reports."""
    return [name for name in required if name not in commands and name not in reporters]


def left_by_landings(known: Known, heads: Mapping[int, str]) -> Dict[int, str]:
    """The branches of changes that have landed and are still at the heads that have."""
    landings = filter(None, map(known.landing_of, heads))
    return {it.change: it.head for landing in landings for it in landing.members if heads.get(it.change) == it.head}


def free_number(taken: Container[int]) -> int:
    """The first number that no change has."""
    return next(number for number in count(1) if number not in taken)
