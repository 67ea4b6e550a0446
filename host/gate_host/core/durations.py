"""How long the batches on `staging` took, from the order to stage each one to its end, without the time for which the queue was frozen:
what estimates rest on.

`Runs` is a function of the deliveries and answers of a journal, in their order, each with the time at which it was written down.
"""
import json
from dataclasses import dataclass, field, replace
from enum import Enum
from typing import Dict, List, Mapping, Optional, Sequence, Set, Tuple

from .commands import Kind, commands_in
from .orders import Answer, Done, Json, Land, Notice, Stage, is_done, orders_of, table_in
from .words import TRIES

# So many batches are kept, and so many readings of the clock.
KEPT, KEPT_READINGS = 50, 20
FAILING = ("failure", "error")
# The notices by which a batch of one change ends that has failed. By all others a change has left.
FAILED = ("Conflict", "Failed", "TimedOut")


class Ending(Enum):
    """How a batch has ended: landed; failed, by a conflict, a check or its time; or cut off, so that it says only 'at least so long'."""

    LANDED = "landed"
    FAILED = "failed"
    CUT = "cut off"


@dataclass(frozen=True)
class Run:
    """A batch from the order to stage it on. It is fresh unless it has changes of a batch that failed or was cut off. The times are those
    of the journal. Of a batch that failed or was cut off `left` are the changes that left then, or since."""

    batch: int
    changes: Tuple[int, ...]
    is_fresh: bool
    ordered: int
    staged: Optional[int] = None
    ended: Optional[int] = None
    ending: Optional[Ending] = None
    left: Tuple[int, ...] = ()

    @property
    def took(self) -> int:
        """For how many seconds it ran, if it has ended."""
        return max(0, (self.ended or self.ordered) - self.ordered)


@dataclass
class Running:
    """What is known besides of the batch that runs: its commits, and what may have ended it without a word of the bot, and when."""

    commit: str = ""
    to_land: str = ""
    failed: Optional[int] = None
    taken_back: Optional[int] = None


@dataclass
class Runs:
    """The last batches in the order in which they were ordered, of which the last one may still run. And the last readings of the clock."""

    last: List[Run] = field(default_factory=list)
    running: Optional[Running] = None
    readings: List[int] = field(default_factory=list)
    # For how many seconds the queue was frozen by now, and since when it is, if it is.
    still: int = 0
    frozen: Optional[int] = None

    # What is read of them

    def time_of(self, at: int) -> int:
        """The time without that for which the queue was frozen."""
        return (at if self.frozen is None else min(at, self.frozen)) - self.still

    def run_of(self, batch: int) -> Optional[Run]:
        return next((run for run in reversed(self.last) if run.batch == batch), None)

    def has_ended(self) -> bool:
        """Whether a batch has ended."""
        return any(run.ended is not None for run in self.last)

    def is_fresh(self, changes: Sequence[int]) -> bool:
        """Whether none of these changes comes from a batch that failed or was cut off."""
        last = {change: run for run in self.last for change in run.changes}
        return not any(change in last and is_carried_on(last[change], change) for change in changes)

    def pause(self) -> int:
        """The usual pause between two readings of the clock while something waits, in seconds, or 0 if there were too few. The pauses in
        which nothing waited are longer, and fewer."""
        pauses = sorted(after - before for before, after in zip(self.readings, self.readings[1:]) if after > before)
        return pauses[len(pauses) // 2] if pauses else 0

    # What changes them

    def freeze(self, at: int) -> None:
        """Takes in that the queue is frozen. How long that lasts says nothing of a batch, so the time stands still for all of them."""
        self.frozen = at if self.frozen is None else self.frozen

    def thaw(self, at: int) -> None:
        self.still += 0 if self.frozen is None else max(0, at - self.frozen)
        self.frozen = None

    def take(self, at: int, line: str, answer: Answer) -> None:
        """Takes in a delivery with its answer. Most have no news."""
        body, orders, at = table_in(json.loads(line)), orders_of(answer), self.time_of(at)
        event = body.get("event")
        if event == "comment":
            self.take_comment(at, body, answer)
        elif self.running and is_done(answer):
            self.take_fact(at, body, self.running)
        self.leave(at, {order.change for order in orders if isinstance(order, Notice) and order.why not in TRIES}, orders)
        staged = next((order for order in orders if isinstance(order, Stage) and order.branch == "staging"), None)
        if staged:
            self.begin(at, staged)
        elif event == "tick" and is_done(answer) and self.running:
            # What runs on after a reading of the clock wasn't ended by what came before.
            self.running.failed = self.running.taken_back = None
        for order in orders:
            if isinstance(order, Land) and self.running:
                self.running.to_land = order.commit
        now = body.get("now")
        if event == "tick" and is_done(answer) and isinstance(now, int):
            self.readings = [*self.readings, now][-KEPT_READINGS:]

    def take_fact(self, at: int, body: Mapping[str, Json], running: Running) -> None:
        event, commit, is_own = body.get("event"), body.get("commit"), body.get("batch") == self.last[-1].batch
        if event == "staged" and is_own:
            self.last[-1] = replace(self.last[-1], staged=at)
            self.running = Running(str(commit))
        elif event == "status" and commit == running.commit and body.get("state") in FAILING:
            running.failed = at if running.failed is None else running.failed
        elif event == "base":
            self.close(Ending.LANDED if commit == running.to_land else Ending.CUT, at)
        elif event in ("refused", "conflict") and is_own:
            self.close(Ending.CUT if event == "refused" else Ending.FAILED, at)
        elif event == "settings" and not running.to_land:
            running.taken_back = at

    def take_comment(self, at: int, body: Mapping[str, Json], answer: Answer) -> None:
        """Commands may take a change out of the batch that runs. Whether another priority does the bot alone knows, and the next order
        shows it. A change that is landing gets neither of the two."""
        change, text = body.get("change"), body.get("text")
        if not isinstance(change, int) or not isinstance(text, str):
            return
        for command, reply in zip(commands_in(text), answer):
            if isinstance(reply, Done) and command.kind is Kind.WITHDRAW:
                self.leave(at, {change}, ())
            elif isinstance(reply, Done) and command.kind is Kind.PRIORITY and self.running and change in self.last[-1].changes:
                self.running.taken_back = at

    def leave(self, at: int, changes: Set[int], orders: Sequence[object]) -> None:
        """Changes whose approval has ended leave the batch that runs, unless that is landing. Else they leave what became of their last
        one."""
        if not changes:
            return
        if self.running and not self.running.to_land and changes & set(self.last[-1].changes):
            has_failed = any(isinstance(order, Notice) and order.why in FAILED for order in orders)
            self.close(Ending.FAILED if has_failed else Ending.CUT, at)
        for place in range(len(self.last) - 1, -1, -1):
            run = self.last[place]
            here = changes & set(run.changes)
            if here and run.ending in (Ending.FAILED, Ending.CUT):
                self.last[place] = replace(run, left=tuple(sorted({*run.left, *here})))
            changes = changes - here

    def begin(self, at: int, stage: Stage) -> None:
        """A batch is ordered. One that ran until then has ended, and nothing else said so."""
        running = self.running
        if running and running.failed is not None:
            self.close(Ending.FAILED, running.failed)
        elif running and running.taken_back is not None:
            self.close(Ending.CUT, running.taken_back)
        elif running:
            self.close(Ending.FAILED, at)
        run = Run(stage.batch, tuple(stage.changes), self.is_fresh(stage.changes), at)
        self.last, self.running = [*self.last, run][-KEPT:], Running()

    def close(self, ending: Ending, at: int) -> None:
        self.last[-1], self.running = replace(self.last[-1], ended=at, ending=ending), None


def is_carried_on(run: Run, change: int) -> bool:
    """Whether a change of a batch that has ended waits again by the same approval. One that failed alone has left, by a notice."""
    return run.ending in (Ending.FAILED, Ending.CUT) and change not in run.left


@dataclass(frozen=True)
class Outcome:
    """What a batch has led to, in seconds since its order: when it ended itself, when each of its changes has landed that did, and when
    all of them had landed or left, if that is known. What landed did so by itself, or by a half or another try at the batch."""

    run: Run
    landed: Tuple[int, ...]
    over: Optional[int]


def outcomes_of(runs: Sequence[Run]) -> List[Outcome]:
    """What each batch that has ended has led to."""
    found: List[Outcome] = []
    # When each change has landed, or left, by the batches after the one that is looked at.
    landed: Dict[int, int] = {}
    settled: Dict[int, int] = {}
    for run in reversed(runs):
        for change in run.changes:
            if run.ended is not None and not is_carried_on(run, change):
                settled[change] = run.ended
                landed.pop(change, None)
                if run.ending is Ending.LANDED:
                    landed[change] = run.ended
            elif run.ended is None:
                settled.pop(change, None)
                landed.pop(change, None)
        if run.ended is not None:
            times = [landed[change] - run.ordered for change in run.changes if change in landed]
            is_over = all(change in settled for change in run.changes)
            over = max(settled[change] for change in run.changes) - run.ordered if is_over else None
            found.append(Outcome(run, tuple(sorted(times)), over))
    return found[::-1]
