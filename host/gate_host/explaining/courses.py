"""What became of each batch that was ordered to be staged, by the answers of the bot alone.

An answer says of a batch that it is ordered, that it is to land, and why the approval of a change that was alone in it has ended. The end
of a batch of several has no order. So it is told by the delivery that the bot took, and at a clock reading by the next order: on each
branch at most one batch runs.
"""
from dataclasses import dataclass, field
from enum import Enum
from typing import Dict, List, Mapping, Optional, Sequence, Set

from ..core.commands import Kind, commands_in
from ..core.orders import Done, Land, Notice, Stage
from .events import Event

LEAVING = ("Pushed", "Closed", "Labeled", "Reviews", "Settings")
FAILING = ("failure", "error")


class End(Enum):
    """How the run of a batch has ended."""

    LANDED = "landed"
    REFUSED = "refused"
    OVERTAKEN = "overtaken"
    MOVED = "base moved"
    CONFLICT = "conflict"
    FAILED = "failed"
    TIMED_OUT = "timed out"
    LEFT = "left"
    SETTINGS = "settings"
    PASSED = "passed"


# By these a batch of several is halved, and by those its changes wait again.
HALVED = (End.CONFLICT, End.FAILED, End.TIMED_OUT)
REQUEUED = (End.REFUSED, End.OVERTAKEN, End.MOVED, End.LEFT, End.SETTINGS)


@dataclass
class Course:
    """A batch from its order on: what was ordered by which delivery, at which commit it was staged, the last word of each status since,
    the order to land it, and how it ended by which delivery."""

    stage: Stage
    ordered: Event
    order: str
    staged: Optional[Event] = None
    statuses: Dict[str, Event] = field(default_factory=dict)
    land: Optional[Land] = None
    end: Optional[End] = None
    ended: Optional[Event] = None
    # Other settings that came while it ran.
    settings: Optional[Event] = None

    @property
    def commit(self) -> str:
        return self.staged.commit if self.staged else ""

    def close(self, end: End, event: Event) -> None:
        if self.end is None:
            self.end, self.ended = end, event


@dataclass
class Suspect:
    """A status that may have failed a batch of several: that depends on which names the settings of then required."""

    course: Course
    status: Event
    settings: str


class Courses:
    """The batches of both branches, by their numbers. `required` has the names of each text of settings that was asked for."""

    def __init__(self, required: Mapping[str, Sequence[str]]):
        self.required = required
        self.all: Dict[int, Course] = {}
        # Those of `staging` in which each change was, in their order.
        self.of_change: Dict[int, List[Course]] = {}
        self.running: Dict[str, Course] = {}
        self.suspects: List[Suspect] = []
        self.settings = ""
        self.priorities: Dict[int, int] = {}

    def follow(self, event: Event) -> None:
        """Takes in a delivery, and then what was ordered by it."""
        if event.kind == "comment":
            self.take_comment(event)
        elif event.is_done:
            self.take_fact(event)
        for place, order in enumerate(event.orders):
            if isinstance(order, Stage):
                self.begin(event, f"{event.mark.id}.{place}", order)
            elif isinstance(order, Land) and order.batch in self.all:
                self.all[order.batch].land = order
            elif isinstance(order, Notice):
                self.take_notice(event, order)
        if event.kind == "tick" and event.is_done:
            # What runs on after a reading of the clock wasn't ended by settings of before.
            for course in self.running.values():
                course.settings = None

    def take_fact(self, event: Event) -> None:
        if event.kind == "staged" and event.batch in self.all:
            self.all[event.batch].staged, self.all[event.batch].settings = event, None
        elif event.kind == "conflict" and event.batch in self.all:
            self.close(self.all[event.batch], End.CONFLICT, event)
        elif event.kind == "refused" and event.batch in self.all:
            self.close(self.all[event.batch], End.REFUSED, event)
        elif event.kind == "status":
            self.take_status(event)
        elif event.kind == "base":
            self.take_base(event)
        elif event.kind == "settings":
            self.take_settings(event)

    def take_status(self, event: Event) -> None:
        for course in list(self.running.values()):
            if course.commit != event.commit or course.land:
                continue
            course.statuses[event.name], course.settings = event, None
            if event.state in FAILING and len(course.stage.changes) > 1:
                self.suspects.append(Suspect(course, event, self.settings))
                if event.name in self.required.get(self.settings, ()):
                    self.close(course, End.FAILED, event)

    def take_base(self, event: Event) -> None:
        course = self.running.get("staging")
        if course and course.land:
            has_landed = course.land.commit == event.commit
            self.close(course, End.LANDED if has_landed else End.OVERTAKEN, event)
            for change in course.stage.changes if has_landed else ():
                self.take_out("trying", event, change)
        elif course:
            self.close(course, End.MOVED, event)

    def take_settings(self, event: Event) -> None:
        """Whether these are others than those of before the bot alone knows. If so, the next order shows it."""
        for course in self.running.values():
            if event.text != self.settings and not course.land:
                course.settings = event
        self.settings = event.text

    def take_comment(self, event: Event) -> None:
        for command, reply in zip(commands_in(event.text), event.answer):
            if not isinstance(reply, Done):
                continue
            if command.kind is Kind.WITHDRAW:
                self.take_out("staging", event)
            elif command.kind is Kind.TRY_CANCEL:
                self.take_out("trying", event)
            elif command.kind is Kind.PRIORITY:
                if self.priorities.get(event.change, 0) != command.number:
                    self.take_out("staging", event)
                self.priorities[event.change] = command.number

    def take_out(self, branch: str, event: Event, change: int = 0) -> None:
        """A change leaves the batch that runs there, if it is in it. One that is landing keeps it."""
        course = self.running.get(branch)
        if course and (change or event.change) in course.stage.changes and not course.land:
            self.close(course, End.LEFT, event)

    def take_notice(self, event: Event, notice: Notice) -> None:
        if notice.why in LEAVING:
            self.take_out("staging", event, notice.change)
            if notice.why in ("Pushed", "Closed"):
                self.take_out("trying", event, notice.change)
            return
        course = self.running.get("trying" if notice.why in ("TryPassed", "TryFailed") else "staging")
        if course and notice.change in course.stage.changes:
            ends = {"Failed": End.FAILED, "TryFailed": End.FAILED, "TimedOut": End.TIMED_OUT, "TryPassed": End.PASSED}
            self.close(course, ends.get(notice.why, End.CONFLICT), event)

    def begin(self, event: Event, name: str, stage: Stage) -> None:
        """A batch is ordered, so the one before it on this branch has ended."""
        before = self.running.get(stage.branch)
        if before:
            self.close_unseen(before, event)
        course = self.all[stage.batch] = self.running[stage.branch] = Course(stage, event, name)
        for change in stage.changes if stage.branch == "staging" else ():
            self.of_change.setdefault(change, []).append(course)

    def of(self, change: int) -> List[Course]:
        """The batches of `staging` in which a change was, in the order in which they were ordered."""
        return self.of_change.get(change, [])

    def close_unseen(self, course: Course, event: Event) -> None:
        """Nothing else said that it has ended: other settings did it, or else this reading of the clock."""
        if course.settings:
            self.close(course, End.SETTINGS, course.settings)
        else:
            self.close(course, End.TIMED_OUT, event)

    def close(self, course: Course, end: End, event: Event) -> None:
        course.close(end, event)
        if self.running.get(course.stage.branch) is course:
            del self.running[course.stage.branch]

    def settle(self, running: Set[int], last: Event) -> None:
        """Takes in which batches run at the end, by the report of the queue."""
        for course in list(self.running.values()):
            if course.stage.batch not in running:
                self.close_unseen(course, last)


def courses_of(events: Sequence[Event], required: Mapping[str, Sequence[str]], running: Set[int]) -> Courses:
    """What became of all batches."""
    courses = Courses(required)
    for event in events:
        courses.follow(event)
    if events:
        courses.settle(running, events[-1])
    return courses


def texts_to_ask(courses: Courses, changes: Set[int]) -> List[str]:
    """The texts of settings by which a batch with one of these changes may have failed, each once."""
    found = [it.settings for it in courses.suspects if changes & set(it.course.stage.changes)]
    return list(dict.fromkeys(found))
