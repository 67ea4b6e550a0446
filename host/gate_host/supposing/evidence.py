"""What a history tells of a batch under other settings: whether it merges, how its checks end, and after how long.

Each answer says on what it rests. It is known if exactly these heads were tried onto exactly the same content. It follows from other
batches if each bad part and each good part shows itself whatever it is tested with. Else it is a guess.
"""
from dataclasses import dataclass
from enum import IntEnum
from typing import Dict, List, Optional, Sequence, Set, Tuple

from .history import Content, Head, Seen, Trial, Verdict

NEVER = "never"


class Basis(IntEnum):
    """On what something rests, the surest first."""

    KNOWN = 0
    INFERRED = 1
    GUESSED = 2


@dataclass(frozen=True)
class Merge:
    """Whether a batch merges, after how many seconds that is told, and on what that rests."""

    is_clean: bool
    after: int
    basis: Basis
    seen: Optional[Seen] = None


@dataclass(frozen=True)
class Check:
    """How a check ends, so many seconds after its batch was staged, and on what that rests. One that never ends has the state `never`. And
    whether a check of this name was never seen."""

    name: str
    state: str
    after: int
    basis: Basis
    is_unseen: bool = False
    seen: Optional[Seen] = None


@dataclass(frozen=True)
class Conflict:
    """Heads of which one didn't merge with the others: all of them, or one and those that it may conflict with."""

    heads: Set[Head]


@dataclass(frozen=True)
class Failure:
    """Heads with which a check failed or never ended, and in the how manieth batch."""

    heads: Set[Head]
    verdict: Verdict
    place: int


class Evidence:
    """All that a history tells of merges and checks."""

    def __init__(self, trials: Sequence[Trial]):
        self.exact: Dict[Tuple[Content, Tuple[Head, ...]], List[Trial]] = {}
        self.merged: Dict[Head, List[Trial]] = {}
        self.passed: Dict[Tuple[str, Head], List[Tuple[int, Set[Head]]]] = {}
        self.failed: Dict[Tuple[str, Head], List[Failure]] = {}
        self.durations: Dict[str, List[int]] = {}
        self.landed = max((trial.content.landed for trial in trials), key=len, default=frozenset())
        for place, trial in enumerate(trials):
            self.exact.setdefault((trial.content, trial.heads), []).append(trial)
            if trial.staged is not None:
                self.take_checks(place, trial)
        self.conflicts = [self.conflict_of(trial) for trial in trials if trial.conflict is not None]
        self.to_stage = middle([trial.staged for trial in trials if trial.staged is not None]) or 0
        self.to_conflict = middle([trial.conflict for trial in trials if trial.conflict is not None]) or self.to_stage
        self.usual = middle([seconds for times in self.durations.values() for seconds in times])

    def take_checks(self, place: int, trial: Trial) -> None:
        heads = set(trial.heads)
        for head in heads:
            self.merged.setdefault(head, []).append(trial)
        for name, verdict in trial.verdicts.items():
            if verdict.state == "success":
                self.durations.setdefault(name, []).append(verdict.after)
            for head in heads:
                if verdict.state == "success":
                    self.passed.setdefault((name, head), []).append((place, heads))
                else:
                    self.failed.setdefault((name, head), []).append(Failure(heads, verdict, place))
        if trial.has_timed_out:
            # Of which check it waited isn't known by name, so it counts for each that has no success.
            for head in heads:
                self.failed.setdefault(("", head), []).append(Failure(heads, Verdict(NEVER, trial.lasted), place))

    def conflict_of(self, trial: Trial) -> Conflict:
        """Heads that were seen to merge with the one that didn't are out of suspicion."""
        culprit = next((head for head in trial.heads if head[0] == trial.culprit), None)
        if culprit is None:
            return Conflict({*trial.content.landed, *trial.heads})
        before = trial.heads[:trial.heads.index(culprit)]
        innocent = {head for it in self.merged.get(culprit, ()) for head in (*it.heads, *it.content.landed)}
        return Conflict({*({*trial.content.landed, *before} - innocent), culprit})

    # Merges

    def trial_of(self, content: Content, heads: Tuple[Head, ...], time: int) -> Optional[Trial]:
        """What became of exactly this batch when it was tried so many times before, or the last time."""
        trials = self.exact.get((content, heads), [])
        return trials[min(time, len(trials) - 1)] if trials else None

    def merge_of(self, content: Content, heads: Tuple[Head, ...], time: int = 0) -> Merge:
        trial = self.trial_of(content, heads, time)
        if trial and trial.conflict is not None:
            return Merge(False, trial.conflict, Basis.KNOWN, trial.told)
        if trial and trial.staged is not None:
            return Merge(True, trial.staged, Basis.KNOWN, trial.told)
        there = content.landed | set(heads)
        if any(it.heads <= there and it.heads & set(heads) for it in self.conflicts):
            return Merge(False, self.to_conflict, Basis.INFERRED)
        trials = {id(it): it for head in heads for it in self.merged.get(head, ())}
        is_seen = there <= self.landed or any(there <= it.content.landed | set(it.heads) for it in trials.values())
        return Merge(True, self.to_stage, Basis.INFERRED if is_seen else Basis.GUESSED)

    # Checks

    def check_of(self, name: str, content: Content, heads: Tuple[Head, ...], time: int = 0) -> Check:
        """How a check of a batch ends that was staged."""
        trial = self.trial_of(content, heads, time)
        verdict = trial.verdicts.get(name) if trial else None
        if verdict:
            return Check(name, verdict.state, verdict.after, Basis.KNOWN, seen=verdict.seen)
        found = self.inferred(name, content, heads)
        # It was stopped before it had a verdict, so it takes longer than that.
        least = trial.lasted + 1 if trial and trial.staged is not None and not found.is_unseen else 0
        return Check(found.name, found.state, max(found.after, least), found.basis, found.is_unseen)

    def inferred(self, name: str, content: Content, heads: Tuple[Head, ...]) -> Check:
        failure = self.failure_of(name, content, heads)
        if failure:
            return Check(name, failure.verdict.state, failure.verdict.after, Basis.INFERRED)
        usual = middle(self.durations.get(name, []))
        if usual is None:
            # Whoever reads of it is told that its time is made up, too.
            return Check(name, "success", self.usual or 0, Basis.GUESSED, True)
        has_passed = all((name, head) in self.passed for head in heads)
        return Check(name, "success", usual, Basis.INFERRED if has_passed else Basis.GUESSED)

    def failure_of(self, name: str, content: Content, heads: Tuple[Head, ...]) -> Optional[Failure]:
        """Heads of this batch, if need be with some that have landed, with which the check failed or never ended, and never succeeded
        since."""
        for head in heads:
            failures: List[Failure] = [*self.failed.get((name, head), []), *self.failed.get(("", head), [])]
            for failure in failures:
                is_here = all(it in heads or it in content.landed for it in failure.heads)
                later = [them for place, them in self.passed.get((name, head), ()) if place > failure.place]
                if is_here and not any(failure.heads <= them for them in later):
                    return failure
        return None


def middle(values: Sequence[int]) -> Optional[int]:
    """The median, or none of no values."""
    return sorted(values)[len(values) // 2] if values else None
