"""What stands between one change and the main branch at a moment, out of all that is known then."""
from dataclasses import dataclass
from typing import Dict, List, Mapping, Optional, Sequence, Set, Tuple

from ..core.freeze import Freeze
from ..core.durations import Runs
from ..core.estimates import Estimate, estimates_at
from ..core.orders import Denied
from ..core.queue import QueuedBatch
from .courses import HALVED, Course, Courses, End
from .events import Mark, Moment
from .lives import Leaving, Life
from .records import Asked, BatchRow, ChangeRow, Phase, Records

# So many batches and changes are told of how a batch went on.
MOST_STEPS = 100


@dataclass(frozen=True)
class Approved:
    """Who approved a change, by whose word, by which delivery."""

    approvers: Tuple[str, ...]
    said_by: str
    mark: Mark


@dataclass(frozen=True)
class Landed:
    """By which landing a change is on the main branch."""

    batch: int
    changes: Tuple[int, ...]
    commit: str
    mark: Mark


@dataclass(frozen=True)
class Answered:
    """Whom the program would answer alike: the rule that denies their `bors r+`, with its detail, or none if it would act. All who aren't
    named here are among the others, if `has_others`."""

    people: Tuple[str, ...]
    has_others: bool
    rule: str = ""
    detail: str = ""


@dataclass(frozen=True)
class Check:
    """A required status of a batch that is tested: `success`, `pending` or `open`, and by which delivery."""

    name: str
    state: str
    mark: Optional[Mark] = None


@dataclass(frozen=True)
class Run:
    """The batch that runs on `staging`: ordered, staged or landing. The times are readings of the clock, and none of a landing."""

    batch: int
    changes: Tuple[int, ...]
    state: str
    commit: str
    since: Optional[int]
    until: Optional[int]
    checks: Tuple[Check, ...] = ()
    delay: str = ""


@dataclass(frozen=True)
class Place:
    """Where a change is in the queue: in which batch, and which batches come before that, in the order of service. And which one is ordered
    next if none runs."""

    batch: int
    changes: Tuple[int, ...]
    state: str
    ahead: Tuple[QueuedBatch, ...]
    first: int


@dataclass(frozen=True)
class Left:
    """Why a change left the queue: the reason of the notice, the status or label, who did it, to which commit, and by which delivery; and
    the batch in which it was alone, if that failed."""

    why: str
    name: str
    person: str
    commit: str
    mark: Mark
    batch: int = 0
    said: str = ""


@dataclass(frozen=True)
class Step:
    """A batch on the way of a change, or changes that left on that way. `end` says how the batch ended, or how it stands in the queue, or
    that the changes left. The rest says by what."""

    depth: int
    batch: int
    changes: Tuple[int, ...]
    end: str
    kind: str = ""
    change: int = 0
    name: str = ""
    state: str = ""
    person: str = ""
    commit: str = ""
    said: str = ""
    mark: Optional[Mark] = None


@dataclass(frozen=True)
class Explanation:
    """All that is said of a change at a moment."""

    number: int
    moment: Optional[Mark]
    change: ChangeRow
    waiting: int = 0
    closed: Optional[Mark] = None
    landed: Optional[Landed] = None
    approved: Optional[Approved] = None
    answered: Tuple[Answered, ...] = ()
    place: Optional[Place] = None
    run: Optional[Run] = None
    trying: Optional[QueuedBatch] = None
    left: Optional[Left] = None
    steps: Tuple[Step, ...] = ()
    has_more_steps: bool = False
    freeze: Optional[Freeze] = None
    # When it will probably land, by how long the last batches took.
    estimate: Optional[Estimate] = None


@dataclass(frozen=True)
class Story:
    """What happened up to a moment, and what the records say then."""

    moment: Moment
    courses: Courses
    lives: Mapping[int, Life]
    records: Records


def explained(number: int, story: Story, asked: Sequence[Asked]) -> Explanation:
    """What is to be said of a change."""
    change, life = story.records.change, story.lives.get(number, Life())
    place, left = place_of(number, story.records.queue), last_leaving(number, story, life)
    trying = next((it for it in story.records.queue if it.branch == "trying" and number in it.changes), None)
    is_on_its_way = change.phase is not Phase.LANDED
    steps = steps_of(number, story, life) if is_on_its_way else []
    return Explanation(
        number, story.moment.last, change, story.moment.waiting,
        life.closed.mark if life.closed and change.phase is Phase.CLOSED else None,
        landed_by(number, story.courses) if change.phase is Phase.LANDED else None,
        approved_by(life) if change.is_approved or not is_on_its_way else None,
        groups_of(asked, change), place, run_of(story) if place else None, trying,
        left if is_on_its_way and not change.is_approved else None,
        tuple(steps[:MOST_STEPS]), len(steps) > MOST_STEPS, story.moment.freeze if is_on_its_way else None,
        estimate_of(number, story) if place else None,
    )


def approved_by(life: Life) -> Optional[Approved]:
    last = life.approvals[-1] if life.approvals else None
    return Approved(last.approvers, last.person, last.event.mark) if last else None


def landed_by(number: int, courses: Courses) -> Optional[Landed]:
    for course in courses.of(number):
        if course.end is End.LANDED and course.ended:
            return Landed(course.stage.batch, tuple(course.stage.changes), course.ended.commit, course.ended.mark)
    return None


def groups_of(asked: Sequence[Asked], change: ChangeRow) -> Tuple[Answered, ...]:
    """Who was answered alike. The first one was asked for as somebody whom nobody knows, and stands for all others."""
    groups: Dict[Optional[Denied], List[str]] = {}
    for it in asked:
        groups.setdefault(it.denial, []).append(it.person)
    stranger = asked[0].person if asked else ""
    found = [
        Answered(
            tuple(it for it in people if it != stranger), stranger in people, denial.rule if denial else "", detail_of(denial),
        )
        for denial, people in groups.items()
    ]
    # First who may, then who is denied for want of something else than rights, and then all others.
    return tuple(sorted(found, key=lambda it: (bool(it.rule), it.has_others)))


def detail_of(denial: Optional[Denied]) -> str:
    if denial is None or denial.detail is None:
        return ""
    return denial.detail if isinstance(denial.detail, str) else f"{denial.detail[0]} of {denial.detail[1]}"


# The queue


def place_of(number: int, queue: Sequence[QueuedBatch]) -> Optional[Place]:
    staging = [it for it in queue if it.branch == "staging"]
    for place, batch in enumerate(staging):
        if number in batch.changes:
            first = staging[0].number if staging[0].state == "waiting" else 0
            return Place(batch.number, batch.changes, batch.state, tuple(staging[:place]), first)
    return None


def run_of(story: Story) -> Optional[Run]:
    """The batch that runs on `staging`."""
    first = next((it for it in story.records.queue if it.branch == "staging" and it.state != "waiting"), None)
    row = story.records.row_of(first.number) if first else None
    if first is None or row is None:
        return None
    is_ordered, is_staged = first.state == "ordered", first.state == "staged"
    is_timed = is_ordered or is_staged
    course = story.courses.all.get(first.number)
    delays = [it.why for it in story.moment.delays if is_ordered and course and it.order == course.order]
    return Run(
        first.number, first.changes, first.state, row.commit, row.since if is_timed else None,
        row.since + story.records.timeout if is_timed else None,
        tuple(check_of(name, row, course) for name in story.records.required) if is_staged else (), delays[-1] if delays else "",
    )


def check_of(name: str, row: BatchRow, course: Optional[Course]) -> Check:
    state = "success" if name in row.succeeded else "pending" if name in row.pending else "open"
    told = course.statuses.get(name) if course else None
    return Check(name, state, told.mark if told and state != "open" else None)


def estimate_of(number: int, story: Story) -> Optional[Estimate]:
    """When a change of the queue will probably land, as it was to be told at that moment. While the queue is frozen nobody knows."""
    runs, last = runs_of(story.moment), story.moment.last
    if last is None or last.at is None or story.moment.freeze:
        return None
    return estimates_at(runs, story.records.queue, last.at).get(number)


def runs_of(moment: Moment) -> Runs:
    """How long the last batches took by that moment."""
    runs, freezes = Runs(), list(moment.freezes)
    for row, event in zip(moment.rows, moment.events):
        while freezes and freezes[0].number <= row.fact:
            fact = freezes.pop(0)
            (runs.freeze if fact.kind == "Frozen" else runs.thaw)(fact.at)
        if event.mark.at is not None:
            runs.take(event.mark.at, row.line, event.answer)
    return runs


# What was before


def last_leaving(number: int, story: Story, life: Life) -> Optional[Left]:
    return left_of(number, life.leavings[-1], story.courses) if life.leavings else None


def left_of(number: int, leaving: Leaving, courses: Courses) -> Left:
    event = leaving.event
    ended = next((it for it in courses.of(number) if it.ended is event and it.end in HALVED), None)
    is_settings = leaving.why == "Settings"
    return Left(
        leaving.why, leaving.name or (event.name if event.kind == "labeled" else ""), "" if is_settings else event.person,
        ended.commit if ended else event.commit, event.mark, ended.stage.batch if ended else 0, event.said,
    )


def steps_of(number: int, story: Story, life: Life) -> List[Step]:
    """What became of the batch in which a change was first after it was approved last, and of its changes since."""
    if not life.approvals:
        return []
    since = life.approvals[-1].event.mark.number
    first = next((it for it in story.courses.of(number) if it.ordered.mark.number > since), None)
    steps: List[Step] = []
    # A batch whose run goes on is told of by its place.
    if first and first.end:
        add_steps(steps, first, story, 0)
    return steps


def add_steps(steps: List[Step], course: Course, story: Story, depth: int) -> None:
    """Adds a batch and what came of it: its halves one level below it, and what waits again on the same level. One more than the most is
    enough to know that there are more."""
    steps.append(step_of(course, story, depth))
    is_halved = course.end in HALVED
    if course.end in (None, End.LANDED) or is_halved and len(course.stage.changes) == 1:
        return
    for part in parts_after(course, story):
        if len(steps) > MOST_STEPS:
            return
        if part.course:
            add_steps(steps, part.course, story, depth + is_halved)
        else:
            steps.append(last_step(part, story, depth + is_halved))


@dataclass
class Part:
    """Changes of a batch that went on together: in a batch that was ordered, in one that waits, or out of the queue."""

    changes: List[int]
    course: Optional[Course] = None
    batch: int = 0
    left: Optional[Leaving] = None


def parts_after(course: Course, story: Story) -> List[Part]:
    """What became of the changes of a batch that has ended, in the order in which they were in it."""
    number = course.ended.mark.number if course.ended else 0
    # The delivery that ended it may have ordered the next one.
    parts: List[Part] = []
    for change in course.stage.changes:
        part = part_after(change, course, number, story)
        same = next((it for it in parts if is_same(it, part)), None)
        if same and part.left is None:
            same.changes.append(change)
        else:
            parts.append(part)
    return parts


def is_same(one: Part, other: Part) -> bool:
    return one.course is other.course and one.batch == other.batch


def part_after(change: int, course: Course, number: int, story: Story) -> Part:
    later = next((
        it for it in story.courses.of(change) if it.stage.batch > course.stage.batch and it.ordered.mark.number >= number
    ), None)
    # A batch that is landing keeps a change that has left meanwhile.
    left = story.lives.get(change, Life()).left_after(course.ordered.mark.number)
    if left and (later is None or left.event.mark.number <= later.ordered.mark.number):
        return Part([change], left=left)
    if later:
        return Part([change], later)
    queued = next((it.number for it in story.records.queue if it.branch == "staging" and change in it.changes), 0)
    return Part([change], batch=queued)


def last_step(part: Part, story: Story, depth: int) -> Step:
    """Changes that wait, or one that left before its batch was ordered."""
    changes = tuple(part.changes)
    if part.left is None:
        return Step(depth, part.batch, changes, "waiting" if part.batch else "unknown")
    left = left_of(part.changes[0], part.left, story.courses)
    return Step(depth, 0, changes, "gone", left.why, changes[0], left.name, "", left.person, left.commit, left.said, left.mark)


def step_of(course: Course, story: Story, depth: int) -> Step:
    stage, event = course.stage, course.ended
    if course.end is None or event is None:
        state = next((it.state for it in story.records.queue if it.number == stage.batch), "unknown")
        return Step(depth, stage.batch, tuple(stage.changes), state, commit=course.commit, mark=course.ordered.mark)
    is_of_staging = course.end in (End.FAILED, End.CONFLICT, End.TIMED_OUT, End.REFUSED)
    return Step(
        depth, stage.batch, tuple(stage.changes), course.end.value, event.kind, event.change, event.name, event.state, event.person,
        course.commit if is_of_staging else event.commit, event.said, event.mark,
    )


def changes_of_interest(number: int, courses: Courses) -> Set[int]:
    """The changes that were in a batch with this one, itself included."""
    found = {number}
    for course in courses.of(number):
        found.update(course.stage.changes)
    return found
