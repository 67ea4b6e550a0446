"""When a change will land, by how long the last batches took.

Of each batch that waits or runs there is a spread: after how many seconds it may be over, or its changes may have landed, each as likely
as the other. What comes one after the other has the sums of two spreads.
"""
from dataclasses import dataclass
from typing import TYPE_CHECKING, Dict, List, Sequence, Tuple

from .durations import Outcome, Run, Runs, outcomes_of
from .queue import QueuedBatch

if TYPE_CHECKING:
    from .known import Known

# So many values a spread has at the most, and of so many batches of the queue there is an estimate.
POINTS, MOST_BATCHES = 24, 100
# If fewer batches of a kind have ended, all count.
ENOUGH = 4
# With so few batches in all the range is wide: from half of the shortest to twice the longest.
FEW = 2
# Of a hundred times so many lie below the range, and as many above it.
OUTSIDE = 2

# Numbers of seconds, sorted.
Spread = Tuple[int, ...]


@dataclass(frozen=True)
class Estimate:
    """Between which times a change will probably land, in seconds since 1970, and on how many batches of before that rests."""

    earliest: int
    latest: int
    batches: int


def estimates_of(known: "Known", queue: Sequence[QueuedBatch], now: int) -> Dict[int, Estimate]:
    """Of each change that is in the queue for the main branch, by its number. There is none while the queue is frozen, and none if no
    batch has ended yet."""
    if known.freeze:
        return {}
    return estimates_at(known.runs, queue, now)


def estimates_at(runs: Runs, queue: Sequence[QueuedBatch], now: int) -> Dict[int, Estimate]:
    """The same by what is known of the batches at a time. What these say is without the time for which the queue was frozen."""
    time = runs.time_of(now)
    found = estimates_by(runs.last, runs.pause(), queue, time)
    return {change: Estimate(it.earliest + now - time, it.latest + now - time, it.batches) for change, it in found.items()}


def estimates_by(runs: Sequence[Run], pause: int, queue: Sequence[QueuedBatch], now: int) -> Dict[int, Estimate]:
    """The same by the batches of before, of which the last one may still run, and the usual pause between two readings of the clock."""
    outcomes = [it for it in outcomes_of(runs) if it.over is not None or it.landed]
    staging = [it for it in queue if it.branch == "staging"][:MOST_BATCHES]
    if not outcomes or not staging:
        return {}
    found: Dict[int, Estimate] = {}
    # When the next batch is ordered, from now on. If none runs, that takes a reading of the clock.
    start: Spread = (0,) if staging[0].state != "waiting" else (0, pause)
    for batch in staging:
        run = next((it for it in runs if it.batch == batch.number and batch.state != "waiting"), None)
        is_fresh = run.is_fresh if run else not any(is_part(batch, it) for it in runs)
        alike = alike_of(outcomes, is_fresh, len(batch.changes))
        landing, over = landing_of(alike), over_of(alike)
        if batch.state == "landing":
            landing, over = (0,), (0,)
        elif run:
            landing, over = rest_of(alike, outcomes, max(0, now - run.ordered))
        earliest, latest = range_of(joined(start, landing), len(outcomes))
        for change in batch.changes:
            found[change] = Estimate(now + earliest, now + latest, len(outcomes))
        start = joined(start, over)
    return found


def is_part(batch: QueuedBatch, run: Run) -> bool:
    """Whether a batch that waits comes of one that has failed or was cut off."""
    return run.ending is not None and set(batch.changes) <= set(run.changes) - set(run.left) and batch.number > run.batch


def alike_of(outcomes: Sequence[Outcome], is_fresh: bool, size: int) -> Sequence[Outcome]:
    """The batches of before that are of the same kind: fresh or not, and of one change or of several. If there are too few, those that are
    as fresh; if these are too few, all."""
    as_fresh = [it for it in outcomes if it.run.is_fresh == is_fresh]
    alike = [it for it in as_fresh if (len(it.run.changes) == 1) == (size == 1)]
    return next((some for some in (alike, as_fresh) if len(some) >= ENOUGH), outcomes)


def landing_of(outcomes: Sequence[Outcome]) -> Spread:
    """After how many seconds changes landed."""
    return thinned([time for it in outcomes for time in it.landed]) or over_of(outcomes)


def over_of(outcomes: Sequence[Outcome]) -> Spread:
    """After how many seconds all that came of a batch was over."""
    return thinned([it.over for it in outcomes if it.over is not None]) or thinned([it.run.took for it in outcomes]) or (0,)


def rest_of(alike: Sequence[Outcome], outcomes: Sequence[Outcome], elapsed: int) -> Tuple[Spread, Spread]:
    """The same from now on for a batch that has run for some time: by those that took longer. If none did, it may take as long again."""
    longer = [it for it in alike if it.run.took > elapsed] or [it for it in outcomes if it.run.took > elapsed]
    if not longer:
        return (0, elapsed), (0, elapsed)
    landing, over = landing_of(longer), over_of(longer)
    return tuple(max(0, it - elapsed) for it in landing), tuple(max(0, it - elapsed) for it in over)


def thinned(values: List[int]) -> Spread:
    """Some of many values, which stand for all."""
    values = sorted(values)
    if len(values) <= POINTS:
        return tuple(values)
    return tuple(values[(2 * place + 1) * len(values) // (2 * POINTS)] for place in range(POINTS))


def joined(one: Spread, other: Spread) -> Spread:
    """The spread of what comes one after the other."""
    return thinned([first + second for first in one for second in other])


def range_of(spread: Spread, batches: int) -> Tuple[int, int]:
    """Between which values most of a spread lies. The fewer batches it rests on, the wider it is."""
    if batches <= FEW:
        return spread[0] // 2, 2 * spread[-1]
    earliest, latest = at_share(spread, OUTSIDE), at_share(spread, 100 - OUTSIDE)
    more = (latest - earliest) // batches + latest // (4 * batches)
    return max(0, earliest - more), latest + more


def at_share(spread: Spread, share: int) -> int:
    """The value below which a share of a hundred of a spread lies."""
    place = share * (len(spread) - 1) / 100
    below = int(place)
    above = min(below + 1, len(spread) - 1)
    return round(spread[below] + (place - below) * (spread[above] - spread[below]))
