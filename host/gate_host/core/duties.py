"""What the bot says is to be done for the batch that runs on each branch, and what of that comes next by what is known.

The host does nothing else for a batch. What the bot says has to fit the orders that it gave before: a batch or a commit that isn't the one
known is never acted on.
"""
import json
import re
from dataclasses import dataclass
from typing import List, Optional, Union

from .known import Batch, Known, Test
from .orders import Land, Unread

BRANCHES = ("staging", "trying")
# A line of the bot: the answer, which is a list, and what is to be done on each branch. It has no spaces, and its names have this order.
NUMBER, COMMIT, DUTY = "[1-9][0-9]*", "[0-9a-f]{40}", r"null|\{[^{}]*\}"
LINE = re.compile(rf'\{{"answer":(\[.*\]),"staging":({DUTY}),"trying":({DUTY})\}}')
MERGE = re.compile(rf'\{{"do":"merge","batch":({NUMBER})\}}')
TEST = re.compile(rf'\{{"do":"test","batch":({NUMBER}),"commit":"({COMMIT})"\}}')
LAND = re.compile(rf'\{{"do":"land","batch":({NUMBER}),"base":"({COMMIT})","commit":"({COMMIT})"\}}')


# What the bot says


@dataclass(frozen=True)
class ToMerge:
    """The heads that the order to stage this batch names are to be merged onto its base, and the branch is to be moved to the merge."""

    batch: int


@dataclass(frozen=True)
class ToTest:
    """The merge of this batch is tested: its statuses are waited for."""

    batch: int
    commit: str


@dataclass(frozen=True)
class ToLand:
    """The main branch is to be moved from exactly the base to exactly the commit."""

    batch: int
    base: str
    commit: str


Duty = Union[None, ToMerge, ToTest, ToLand]


@dataclass(frozen=True)
class Duties:
    """What is to be done for the batch that runs on each branch, or none if there is none."""

    staging: Duty = None
    trying: Duty = None

    def of(self, branch: str) -> Duty:
        return self.staging if branch == "staging" else self.trying


@dataclass(frozen=True)
class Answered:
    """An answer of the bot, as it stands in its line, and what is to be done after it."""

    text: str
    duties: Duties


def answered_in(line: str) -> Answered:
    """Reads what the bot says to a delivery. Anything else is refused, byte for byte."""
    found = LINE.fullmatch(line)
    if found is None or not is_json(found[1]):
        raise Unread(f"no answer with what is to be done: {line[:200]}")
    return Answered(found[1], Duties(duty_in(found[2], "staging"), duty_in(found[3], "trying")))


def is_json(text: str) -> bool:
    try:
        json.loads(text)
    except ValueError:
        return False
    return True


def duty_in(text: str, branch: str) -> Duty:
    """Reads what is to be done on a branch. Nothing lands from `trying`."""
    merge, test, land = (form.fullmatch(text) for form in (MERGE, TEST, LAND))
    if merge:
        return ToMerge(int(merge[1]))
    if test:
        return ToTest(int(test[1]), test[2])
    if land and branch == "staging":
        return ToLand(int(land[1]), land[2], land[3])
    if text == "null":
        return None
    raise Unread(f"nothing that is done for a batch on {branch}: {text[:200]}")


# What comes next


@dataclass(frozen=True)
class Merge:
    """Make the merge of an order to stage. Done again, it is the same commit."""

    order: str
    batch: Batch


@dataclass(frozen=True)
class Point:
    """Move the branch on which a batch is tested to its merge."""

    order: str
    batch: Batch


@dataclass(frozen=True)
class Move:
    """Move the main branch from exactly the base of an order to land to exactly its commit."""

    order: str
    land: Land
    batch: Batch


Step = Union[Merge, Point, Move]


def steps_of(known: Known, duties: Duties) -> List[Step]:
    """What has to be done now. Any of it may be done again after a start. While the queue is frozen nothing is staged, also if that was
    ordered before."""
    steps = [step for branch in BRANCHES for step in [step_of(known, branch, duties.of(branch))] if step]
    return [step for step in steps if isinstance(step, Move) or known.freeze is None]


def step_of(known: Known, branch: str, duty: Duty) -> Optional[Step]:
    """What has to be done for the batch that runs on a branch, unless it is tested."""
    if isinstance(duty, ToMerge):
        batch = known.batch_of(duty.batch)
        if batch is None or batch.stage.branch != branch or batch.order not in known.orders:
            raise Unread(f"batch {duty.batch} is to be merged for {branch}, and no order to stage it there is open")
        return Point(batch.order, batch) if batch.commit else Merge(batch.order, batch)
    if isinstance(duty, ToLand):
        return move_of(known, duty)
    return None


def move_of(known: Known, duty: ToLand) -> Move:
    land, batch = Land(duty.batch, duty.base, duty.commit), known.batch_of(duty.batch)
    name = next((name for name, order in known.orders.items() if order == land), None)
    if name is None or batch is None or batch.commit != duty.commit or batch.stage.base != duty.base:
        raise Unread(f"batch {duty.batch} is to land as {duty.commit} on {duty.base}, and no order to land its merge there is open")
    return Move(name, land, batch)


def tests_of(known: Known, duties: Duties) -> List[Test]:
    """What is tested now."""
    return [test for branch in BRANCHES for test in [test_of(known, branch, duties.of(branch))] if test]


def test_of(known: Known, branch: str, duty: Duty) -> Optional[Test]:
    if not isinstance(duty, ToTest):
        return None
    test = Test(branch, duty.batch, duty.commit)
    if known.tests.get(branch) != test:
        raise Unread(f"batch {duty.batch} is to be tested on {branch} as {duty.commit}, and wasn't told as staged so")
    return test
