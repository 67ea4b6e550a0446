"""When the changes of the queue will probably land, in words."""
import time
from typing import List, Sequence

from .core.estimates import Estimate, estimates_of
from .core.known import Known
from .core.queue import QueuedBatch
from .core.words import basis, listed

# So many batches have a line of their own.
MOST_LINES = 20
MINUTE = 60


def lines_of_estimates(known: Known, queue: Sequence[QueuedBatch], now: int) -> List[str]:
    """What the report of the queue says of that. While the queue is frozen or empty it says nothing."""
    staging = [it for it in queue if it.branch == "staging"]
    found = estimates_of(known, staging[:MOST_LINES], now)
    if not staging or not found and known.runs.has_ended():
        return []
    if not found:
        return ["when it lands can't be estimated yet: no batch has ended"]
    rests_on = basis(next(iter(found.values())).batches)
    lines = [
        f"  batch {it.number} ({listed(it.changes)}): {range_in_words(found[it.changes[0]], now)}{remark_on(known, it, now)}"
        for it in staging[:MOST_LINES] if it.changes[0] in found
    ]
    more = len(staging) - len(lines)
    return [f"will probably land, {rests_on}:", *lines, *([f"  and {more} more"] if more else [])]


def remark_on(known: Known, batch: QueuedBatch, now: int) -> str:
    """That a batch that runs takes longer than each one before, so that these say little about it."""
    run = known.runs.run_of(batch.number)
    took = [it.took for it in known.runs.last if it.ended is not None]
    is_late = run is not None and batch.state in ("ordered", "staged") and known.runs.time_of(now) - run.ordered > max(took, default=0)
    return "; it runs longer than each of these did" if is_late else ""


def range_in_words(estimate: Estimate, now: int) -> str:
    """A range in full minutes, with the day if that is another one."""
    return f"between {minute_of(estimate.earliest, now)} and {minute_of(estimate.latest + MINUTE - 1, now)}"


def minute_of(at: int, now: int) -> str:
    moment = time.localtime(at)
    is_today = time.strftime("%Y-%m-%d", moment) == time.strftime("%Y-%m-%d", time.localtime(now))
    return time.strftime("%H:%M" if is_today else "%Y-%m-%d %H:%M", moment)
