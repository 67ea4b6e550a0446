"""What people and the world did, by a journal, and what became of each batch: the merge, the checks, and how long each took."""
from dataclasses import dataclass, field
from typing import Dict, FrozenSet, List, Mapping, Optional, Sequence, Set, Tuple

from ..audit.entries import Fact, Journal, Row, number_of, table_in, text_of
from ..core.facts import Conflicted, Pushed, fact_in
from ..core.orders import Json, Land, Stage
from ..explaining.courses import Course, Courses, End
from ..explaining.events import Event

# A change at a head.
Head = Tuple[int, str]
TERMINAL = ("success", "failure", "error")


@dataclass(frozen=True)
class Content:
    """What the main branch has: the commit to which others moved it last, and the heads that the host has landed."""

    outside: str = ""
    landed: FrozenSet[Head] = frozenset()

    def with_heads(self, heads: Sequence[Head]) -> "Content":
        return Content(self.outside, self.landed | frozenset(heads))


@dataclass(frozen=True)
class Seen:
    """When something was written down in the journal, and by which fact."""

    at: int
    place: int


@dataclass(frozen=True)
class Verdict:
    """The last word of a check: its state, and so many seconds after the batch was staged."""

    state: str
    after: int
    seen: Optional[Seen] = None


@dataclass(frozen=True)
class Trial:
    """A batch that was ordered: onto which content, with which heads. After how many seconds it was staged or couldn't be merged, and then
    which change doesn't merge, if that is known. The verdicts of its checks, and for how many seconds it was staged, and whether that ended
    by its time."""

    content: Content
    heads: Tuple[Head, ...]
    staged: Optional[int] = None
    conflict: Optional[int] = None
    culprit: int = 0
    verdicts: Mapping[str, Verdict] = field(default_factory=dict)
    lasted: int = 0
    has_timed_out: bool = False
    # When it was told that it is staged, or can't be merged.
    told: Optional[Seen] = None


@dataclass(frozen=True)
class Happening:
    """What people or the world did: its place in the journal, its time, its fields without the identifier, and that."""

    place: int
    at: int
    id: str
    fields: Mapping[str, Json]
    is_done: bool = True

    @property
    def event(self) -> str:
        return text_of(self.fields.get("event"))


@dataclass(frozen=True)
class History:
    """All that a journal says: what happened, in its order, and the batches."""

    happenings: Sequence[Happening]
    trials: Sequence[Trial]
    # The usual pause between two readings of the clock.
    pause: int

    @property
    def begin(self) -> int:
        return self.happenings[0].at if self.happenings else 0

    @property
    def end(self) -> int:
        return self.happenings[-1].at if self.happenings else 0


USUAL_PAUSE = 10


def history_of(journal: Journal, events: Sequence[Event], courses: Courses) -> History:
    """The history of a journal, whose answered deliveries are these events."""
    rows = {row.id: row for row in journal.rows}
    contents, own = contents_of(events)
    staged = {course.commit for course in courses.all.values() if course.commit}
    found: List[Happening] = []
    # What came before a journal was brought over has no time of its own.
    at = first_time(events)
    for event in events:
        at = at if event.mark.at is None else event.mark.at
        if is_from_outside(event, own, staged):
            found.append(happening_of(rows[event.mark.id], at, event))
    found += late_pushes(journal.facts, {row.fact for row in journal.rows})
    culprits = culprits_of(journal.facts)
    places = {row.number: row.fact for row in journal.rows}
    trials = [trial_of(it, contents.get(it.stage.base, Content()), culprits, places) for it in courses.all.values()]
    return History(sorted(found, key=lambda it: it.place), trials, pause_of(found))


def first_time(events: Sequence[Event]) -> int:
    """The first time that is known."""
    return next((event.mark.at for event in events if event.mark.at is not None), 0)


def is_from_outside(event: Event, own: Set[str], staged: Set[str]) -> bool:
    """Whether a delivery says what people or the world did, and not what became of an order."""
    if event.kind == "base":
        return event.commit not in own
    if event.kind == "status":
        return event.commit not in staged
    return event.kind not in ("staged", "conflict", "refused")


def happening_of(row: Row, at: int, event: Event) -> Happening:
    fields = {name: value for name, value in (table_in(row.line) or {}).items() if name != "id"}
    return Happening(row.fact, at, row.id, fields, event.is_done)


def contents_of(events: Sequence[Event]) -> Tuple[Dict[str, Content], Set[str]]:
    """What the main branch had at each commit, and which commits the host has landed there."""
    contents: Dict[str, Content] = {}
    lands: Dict[str, int] = {}
    heads: Dict[int, Tuple[Head, ...]] = {}
    own: Set[str] = set()
    now = Content()
    for event in events:
        if event.kind == "base" and event.is_done:
            is_own = event.commit in lands
            now = now.with_heads(heads.get(lands[event.commit], ())) if is_own else Content(event.commit, now.landed)
            contents[event.commit] = now
            own |= {event.commit} if is_own else set()
        for order in event.orders:
            if isinstance(order, Land):
                lands[order.commit] = order.batch
            elif isinstance(order, Stage):
                heads[order.batch] = tuple(order.heads)
    return contents, own


def late_pushes(facts: Sequence[Fact], told: Set[int]) -> List[Happening]:
    """Pushes to what had landed, of which the bot wasn't told. Under other settings it may not have landed by then."""
    pushes = [(fact, fact_in(fact.kind, fact.body)) for fact in facts if fact.kind == "Pushed" and fact.number not in told]
    return [
        Happening(fact.number, fact.at, f"pushed-{fact.number}", {"event": "pushed", "change": it.change, "head": it.head}, False)
        for fact, it in pushes if isinstance(it, Pushed)
    ]


def culprits_of(facts: Sequence[Fact]) -> Dict[str, int]:
    """Which change doesn't merge, by the name of the order."""
    told = [fact_in(fact.kind, fact.body) for fact in facts if fact.kind == "Conflicted"]
    return {it.order: it.change for it in told if isinstance(it, Conflicted)}


def trial_of(course: Course, content: Content, culprits: Mapping[str, int], places: Mapping[int, int]) -> Trial:
    """A batch with all that became of it."""
    def seen(event: Event) -> Seen:
        return Seen(event.mark.at or 0, places.get(event.mark.number, 0))

    heads, ordered = tuple(course.stage.heads), course.ordered.mark.at
    if ordered is None:
        return Trial(content, heads)
    if course.end is End.CONFLICT and course.ended:
        told = seen(course.ended)
        return Trial(content, heads, None, max(0, told.at - ordered), culprits.get(course.order, 0), told=told)
    if course.staged is None:
        return Trial(content, heads)
    staged = seen(course.staged)
    verdicts = {
        name: Verdict(event.state, max(0, (event.mark.at or 0) - staged.at), seen(event)) for name, event in course.statuses.items()
        if event.state in TERMINAL
    }
    lasted = max(0, seen(course.ended).at - staged.at) if course.ended else 0
    return Trial(content, heads, max(0, staged.at - ordered), None, 0, verdicts, lasted, course.end is End.TIMED_OUT, staged)


def pause_of(happenings: Sequence[Happening]) -> int:
    """The usual pause between two readings of the clock while something waits."""
    nows = [number_of(it.fields.get("now")) for it in happenings if it.event == "tick" and it.is_done]
    pauses = sorted(after - before for before, after in zip(nows, nows[1:]) if after > before)
    return pauses[len(pauses) // 2] if pauses else USUAL_PAUSE
