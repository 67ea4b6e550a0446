"""How often what has happened, by the facts and answers of the journal. These numbers only grow, whoever reads the journal again."""
from dataclasses import dataclass, field
from typing import TYPE_CHECKING, Dict, Sequence, Tuple

from .facts import Doubted, Ended, Fact, Faulted, Reported
from .orders import Answer, Land, Notice, Stage, is_done, orders_of

if TYPE_CHECKING:
    from .deliveries import Delivery
    from .known import Test

# So many names of checks are counted by themselves: whoever may report can report any name.
MOST_NAMES = 200
OTHERS = "(other checks)"


@dataclass
class Counts:
    """What has happened so often."""

    # The facts, and of each branch the batches that were staged.
    facts: int = 0
    staged: Dict[str, int] = field(default_factory=dict)
    # What became of batches: they landed, with so many changes, couldn't land, or couldn't be merged.
    landed: int = 0
    landed_changes: int = 0
    refused: int = 0
    conflicts: int = 0
    # The notices of the bot, by their reasons.
    notices: Dict[str, int] = field(default_factory=dict)
    # The results of checks, by the name of the check and the state; how long each took in all, from the staging of its batch; and how often
    # a check came to no verdict.
    results: Dict[Tuple[str, str], int] = field(default_factory=dict)
    seconds: Dict[str, int] = field(default_factory=dict)
    faults: Dict[str, int] = field(default_factory=dict)
    # When the last batch of each branch was staged.
    since: Dict[str, Tuple[int, int]] = field(default_factory=dict)

    def learn(self, number: int, at: int, fact: Fact, tests: Sequence["Test"]) -> None:
        """Counts a fact, by its number and time. If it is a report, these are the tests that it is about."""
        self.facts = number
        if isinstance(fact, (Ended, Doubted)):
            for batch, since in self.since.values():
                if batch == fact.batch:
                    self.take_result(fact.name, fact.state, at - since)
        elif isinstance(fact, Reported) and fact.state != "pending":
            for batch, since in [self.since[test.branch] for test in tests if test.branch in self.since]:
                self.take_result(fact.name, fact.state, at - since)
        elif isinstance(fact, Faulted):
            add(self.faults, self.counted(fact.name))

    def take_result(self, name: str, state: str, seconds: int) -> None:
        name = self.counted(name)
        self.results[(name, state)] = self.results.get((name, state), 0) + 1
        # A clock that was put back takes nothing away.
        add(self.seconds, name, max(0, seconds))

    def counted(self, name: str) -> str:
        """The name under which a check is counted."""
        names = {*self.seconds, *self.faults}
        return name if name in names or len(names) < MOST_NAMES else OTHERS

    def hear(self, at: int, delivery: "Delivery", answer: Answer) -> None:
        """Counts an answer to what was told at this time."""
        order = delivery.order
        if is_done(answer) and isinstance(order, Stage):
            if delivery.event == "staged":
                self.since[order.branch] = (order.batch, at)
                add(self.staged, order.branch)
            else:
                self.conflicts += 1
        elif is_done(answer) and isinstance(order, Land):
            if delivery.event == "base":
                self.landed += 1
                self.landed_changes += len(delivery.changes)
            else:
                self.refused += 1
        for notice in orders_of(answer):
            if isinstance(notice, Notice):
                add(self.notices, notice.why)


def add(counts: Dict[str, int], name: str, more: int = 1) -> None:
    counts[name] = counts.get(name, 0) + more
