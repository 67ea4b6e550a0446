"""How good the estimates of landings were, over a journal: in how many cases a change landed within the range that was told."""
from dataclasses import dataclass, field
from typing import Dict, List, Sequence, Tuple

from .core.durations import Ending, Runs
from .core.estimates import Estimate, estimates_by
from .core.orders import Answer, Notice, orders_of
from .core.queue import QueuedBatch
from .core.words import TRIES


@dataclass
class Judged:
    """How many estimates were told, and of which landings: within the range, before it, after it; and of changes that left by then. And
    how long the ranges were, beside the time to the landing, in seconds; and how often none could be told."""

    within: int = 0
    before: int = 0
    after: int = 0
    never: int = 0
    none: int = 0
    lengths: List[Tuple[int, int]] = field(default_factory=list)

    @property
    def landed(self) -> int:
        return self.within + self.before + self.after

    def add(self, other: "Judged") -> None:
        self.within, self.before, self.after = self.within + other.within, self.before + other.before, self.after + other.after
        self.never, self.none = self.never + other.never, self.none + other.none
        self.lengths += other.lengths


class Judge:
    """Follows a journal, delivery by delivery."""

    def __init__(self) -> None:
        self.runs = Runs()
        # What was told of each change that is in the queue, and when.
        self.told: Dict[int, List[Tuple[int, Estimate]]] = {}
        self.judged = Judged()

    def take(self, at: int, line: str, answer: Answer, queue: Sequence[QueuedBatch]) -> None:
        """Takes in a delivery with its answer, and the queue after it. What is told then is judged when the change lands."""
        self.runs.take(at, line, answer)
        self.settle(at)
        for order in orders_of(answer):
            if isinstance(order, Notice) and order.why not in TRIES:
                self.judged.never += len(self.told.pop(order.change, ()))
        staging = {change for it in queue if it.branch == "staging" for change in it.changes}
        for change in [it for it in self.told if it not in staging]:
            self.judged.never += len(self.told.pop(change))
        found = estimates_by(self.runs.last, self.runs.pause(), queue, at)
        self.judged.none += len(staging - set(found))
        for change, estimate in found.items():
            self.told.setdefault(change, []).append((at, estimate))

    def settle(self, at: int) -> None:
        """Judges what was told of the changes that have just landed."""
        last = self.runs.last[-1] if self.runs.last else None
        if last is None or last.ending is not Ending.LANDED or last.ended != at:
            return
        for change in last.changes:
            for when, it in self.told.pop(change, ()):
                self.judged.within += it.earliest <= at <= it.latest
                self.judged.before += at < it.earliest
                self.judged.after += at > it.latest
                self.judged.lengths.append((it.latest - it.earliest, at - when))
