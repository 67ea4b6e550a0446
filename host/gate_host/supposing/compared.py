"""What differs between two plays of a history, and how near a play comes to what truly happened."""
from dataclasses import dataclass
from typing import List, Mapping, Optional, Sequence, Tuple

from .evidence import Basis
from .tally import Landed, Tally
from .world import Played


@dataclass(frozen=True)
class Difference:
    """A change that lands at another time, or in one of the plays alone: when in each, what keeps it from landing, and on what that rests.
    What truly happened stands beside."""

    change: int
    before: Optional[int]
    after: Optional[int]
    why: str
    basis: Basis
    truly: Optional[int]

    @property
    def seconds(self) -> int:
        """How much later it lands."""
        return (self.after or 0) - (self.before or 0)


@dataclass(frozen=True)
class Counts:
    """What a play came to, in numbers: the mean of the batches in which a change at fault was, times 100, is 0 if there is none."""

    landed: int
    batches: int
    checks: int
    found: int
    batches_of_found: int
    waiting: int
    mean_seconds: int


@dataclass(frozen=True)
class Nearness:
    """How near a play comes to what truly happened: how many changes landed in both, or in one of the two alone; by how many seconds the
    landings are apart, in the middle and at the most."""

    both: int
    alone: int
    middle: int
    most: int


@dataclass(frozen=True)
class Comparison:
    """All that is told."""

    truly: Counts
    before: Counts
    after: Counts
    nearness: Nearness
    differences: Sequence[Difference]
    merges: Mapping[Basis, int]
    checks: Mapping[Basis, int]
    unseen: Tuple[str, ...]
    replaced: int
    found: Sequence[Tuple[int, str, int]]
    since: Optional[int]
    # How often the queue was frozen. A play knows no freeze.
    freezes: int = 0


def compared(truly: Tally, before: Played, after: Played, since: Optional[int]) -> Comparison:
    """What differs, the surest first. With a time, landings of before it aren't told."""
    found = differences_of(truly, before, after)
    told = [it for it in found if since is None or max(it.before or 0, it.after or 0) >= since]
    return Comparison(
        counts_of(truly, tuple(truly.approved)), counts_of(before.tally, before.waiting), counts_of(after.tally, after.waiting),
        nearness_of(truly, before.tally), told, after.guesses.merges, after.guesses.checks, tuple(sorted(after.guesses.unseen)),
        after.guesses.replaced, [(it.change, it.why, it.batches) for it in after.tally.found], since,
    )


def differences_of(truly: Tally, before: Played, after: Played) -> List[Difference]:
    found = []
    for change in sorted({*before.tally.landed, *after.tally.landed}):
        one, other = before.tally.landed.get(change), after.tally.landed.get(change)
        if at_of(one) == at_of(other):
            continue
        basis = max(basis_of(before, change), basis_of(after, change))
        why = "" if other else why_not(after, change)
        found.append(Difference(change, at_of(one), at_of(other), why, basis, at_of(truly.landed.get(change))))
    return sorted(found, key=lambda it: (it.basis, it.after if it.after is not None else it.before or 0, it.change))


def at_of(landed: Optional[Landed]) -> Optional[int]:
    return landed.at if landed else None


def basis_of(played: Played, change: int) -> Basis:
    """On what it rests whether a change lands in a play, and when. One that waits rests on all before."""
    if change in played.waiting:
        return max(played.tally.basis.values(), default=Basis.KNOWN)
    return played.tally.basis.get(change, Basis.KNOWN)


def why_not(played: Played, change: int) -> str:
    if change in played.waiting:
        return "it still waits at the end"
    return f"it {played.tally.ends.get(change, 'is never approved')}"


def counts_of(tally: Tally, waiting: Sequence[int]) -> Counts:
    batches = [it.batches for it in tally.found]
    times = [it.at - tally.since.get(change, it.at) for change, it in tally.landed.items()]
    return Counts(
        len(tally.landed), tally.batches, tally.checks, len(batches), 100 * sum(batches) // len(batches) if batches else 0, len(waiting),
        sum(times) // len(times) if times else 0,
    )


def nearness_of(truly: Tally, played: Tally) -> Nearness:
    both = sorted(abs(played.landed[it].at - truly.landed[it].at) for it in truly.landed if it in played.landed)
    alone = len(set(truly.landed) ^ set(played.landed))
    return Nearness(len(both), alone, both[len(both) // 2] if both else 0, both[-1] if both else 0)
