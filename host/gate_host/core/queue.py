"""The report of the queue, as the program prints it: a line for each batch, in the order of service."""
import re
from dataclasses import dataclass
from typing import List, Tuple

# A line of a batch: its number, its branch, its state, its priority and its changes.
BATCH = re.compile(r" *([0-9]+) ([a-z]+) +([a-z]+) +(-?[0-9]+) ([0-9,]+)")


@dataclass(frozen=True)
class QueuedBatch:
    """A batch of the queue: `waiting`, `ordered`, `staged` or `landing`."""

    number: int
    branch: str
    state: str
    priority: int
    changes: Tuple[int, ...]


def batches_in(report: str) -> List[QueuedBatch]:
    """The batches of both branches. The lines above them and below say other things."""
    found = filter(None, map(BATCH.fullmatch, report.split("\n")))
    return [QueuedBatch(int(it[1]), it[2], it[3], int(it[4]), tuple(map(int, it[5].split(",")))) for it in found]
