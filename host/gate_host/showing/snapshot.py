"""A snapshot: what is to be shown of the queue at one moment, as a value."""
from dataclasses import dataclass, field, replace
from itertools import islice
from typing import Dict, List, Mapping, Optional, Sequence, Tuple

from ..core.broken import Broken
from ..core.estimates import Estimate
from ..core.freeze import Freeze
from ..core.known import Known, Landing, Member
from ..core.queue import QueuedBatch, batches_in
from ..core.words import DIGITS, FROZEN_SINCE, MAIN_IS_BROKEN, WITHDRAWN, plain, why_ended

# So many of the last landings are shown.
MOST_LANDINGS = 20
TROUBLE = "trouble: "
# What stands below the report of the queue and has a place of its own here.
SHOWN_ELSEWHERE = (TROUBLE, FROZEN_SINCE, MAIN_IS_BROKEN)
# What a batch waits for that is ready, while the queue is frozen.
END_OF_FREEZE = "the end of the freeze"
# The batches of a branch that don't wait for another one.
RUNNING = ("ordered", "staged", "landing")


@dataclass(frozen=True)
class ShownCheck:
    """A required check of a batch: `open` if it has no result, or the state that was reported last."""

    name: str
    state: str


@dataclass(frozen=True)
class ShownBatch:
    """A batch: its number, branch, state and priority, as the bot reports them, with its changes in their order. And its commit, if it has
    one. Since when it is in this state, and until when it can be at the latest, if that is known. And what it waits for, in words."""

    number: int
    branch: str
    state: str
    priority: int
    changes: Tuple[int, ...]
    commit: str = ""
    since: Optional[int] = None
    until: Optional[int] = None
    checks: Tuple[ShownCheck, ...] = ()
    waits_for: str = ""


@dataclass(frozen=True)
class ShownMember:
    """A change as it was put into a batch, or is now: its number, its title, if that is known, its head and author, and who approved it, by
    whose word."""

    number: int
    title: str
    head: str
    author: str
    approvers: Tuple[str, ...] = ()
    said_by: str = ""


@dataclass(frozen=True)
class ShownChange(ShownMember):
    """A change that is open: its labels, whether and since when it is approved, and why it left the queue last, if it did at this head."""

    labels: Tuple[str, ...] = ()
    is_approved: bool = False
    approved_at: Optional[int] = None
    left: str = ""


@dataclass(frozen=True)
class ShownLanding:
    """A batch that has landed: from which commit the main branch moved to which, when, if that is known, and its changes."""

    batch: int
    base: str
    commit: str
    at: Optional[int]
    changes: Tuple[ShownMember, ...]


@dataclass(frozen=True)
class ShownSettings:
    """The settings in force: the text of bors.toml that was taken last, the commit whose text was looked at last, and why that isn't taken,
    if it isn't. Which checks the text requires and after how many seconds a batch fails, if that is known. Which checks the host runs
    itself, and who reports others."""

    text: str
    commit: str
    refusal: str
    required: Optional[Tuple[str, ...]]
    timeout: Optional[int]
    checks: Tuple[str, ...]
    reporters: Tuple[Tuple[str, Tuple[str, ...]], ...]


@dataclass(frozen=True)
class Beside:
    """What is shown that the journal doesn't have: the names of the repository and of its main branch, the time, and the bot's report of
    its queue. Which checks the settings require and after how many seconds a batch fails, if that is known. The checks of the host, and who
    reports others. What stands below the queue. The titles by the heads. The address of the repository at its code host, if it has one;
    how often the time is told; and when the host ended, if it did."""

    repository: str
    main: str
    at: int
    report: str
    required: Optional[Tuple[str, ...]] = None
    timeout: int = 0
    checks: Tuple[str, ...] = ()
    reporters: Tuple[Tuple[str, Tuple[str, ...]], ...] = ()
    remarks: Tuple[str, ...] = ()
    titles: Mapping[str, str] = field(default_factory=dict)
    code: str = ""
    tick_seconds: float = 10.0
    ended: Optional[int] = None


@dataclass(frozen=True)
class Snapshot:
    """What is to be shown now. The batches are in the order of service, and the open changes that aren't approved are named by their
    numbers. `ended` is when the host ended, if it did."""

    repository: str
    main: str
    base: str
    clock: int
    at: int
    ended: Optional[int]
    code: str
    tick_seconds: float
    batches: Tuple[ShownBatch, ...]
    changes: Tuple[ShownChange, ...]
    not_approved: Tuple[int, ...]
    landed: Tuple[ShownLanding, ...]
    settings: ShownSettings
    remarks: Tuple[str, ...]
    troubles: Tuple[str, ...]
    freeze: Optional[Freeze] = None
    broken: Optional[Broken] = None
    estimates: Mapping[int, Estimate] = field(default_factory=dict)

    def by_number(self) -> Dict[int, ShownChange]:
        return {it.number: it for it in self.changes}


def snapshot_of(
    known: Known, beside: Beside, freeze: Optional[Freeze] = None, broken: Optional[Broken] = None,
    estimates: Optional[Mapping[int, Estimate]] = None,
) -> Snapshot:
    """What is to be shown, by what is known and by what is beside that."""
    queue = batches_in(beside.report)
    queued = {change for it in queue if it.branch == "staging" for change in it.changes}
    opened = known.open_changes()
    changes = {change: change_of(known, beside, change, change in queued) for change in sorted({*opened, *all_in(queue)})}
    return Snapshot(
        beside.repository, beside.main, known.base, known.clock, beside.at, beside.ended, beside.code, beside.tick_seconds,
        tuple(batch_of(known, beside, queue, place, freeze) for place in range(len(queue))), tuple(changes.values()),
        tuple(change for change in opened if not changes[change].is_approved),
        tuple(landing_of(it, beside.titles) for it in islice(reversed(known.landings.values()), MOST_LANDINGS)),
        settings_of(known, beside),
        tuple(it for it in beside.remarks if not it.startswith(SHOWN_ELSEWHERE)),
        tuple(it[len(TROUBLE):] for it in beside.remarks if it.startswith(TROUBLE)),
        freeze, broken, dict(estimates or {}),
    )


def all_in(queue: Sequence[QueuedBatch]) -> List[int]:
    return [change for batch in queue for change in batch.changes]


# Changes


def change_of(known: Known, beside: Beside, number: int, is_queued: bool) -> ShownChange:
    """A change as it is now. What is in the queue for the main branch is approved, whatever has no answer yet."""
    people, head, end = known.people_of(number), known.head_of(number), known.ends.get(number)
    is_approved = is_queued or number in known.approved
    return ShownChange(
        number, beside.titles.get(head, ""), head, people.author, people.approvers if is_approved else (),
        people.said_by if is_approved else "", tuple(sorted(known.labels.get(number, ()))), is_approved,
        known.approved_at.get(number) if is_approved else None, left_in_words(end.why, end.name) if end and not is_approved else "",
    )


def left_in_words(why: str, name: str) -> str:
    """Why an approval ended, in a few words."""
    said = plain(why_ended(why, name))
    return said if why == WITHDRAWN else f"{said} ({why})"


def landing_of(landing: Landing, titles: Mapping[str, str]) -> ShownLanding:
    members = tuple(member_of(it, titles) for it in landing.members)
    return ShownLanding(landing.batch, landing.base, landing.commit, landing.at or None, members)


def member_of(member: Member, titles: Mapping[str, str]) -> ShownMember:
    title = titles.get(member.head, "")
    return ShownMember(member.change, title, member.head, member.author, member.approvers, member.said_by)


# Batches


def batch_of(known: Known, beside: Beside, queue: Sequence[QueuedBatch], place: int, freeze: Optional[Freeze]) -> ShownBatch:
    """The batch at a place of the report."""
    it = queue[place]
    found = known.batch_of(it.number) if it.state in RUNNING else None
    since = {"ordered": found.now, "staged": found.staged or None}.get(it.state) if found else None
    if it.state == "waiting" and it.branch == "staging":
        since = min((known.approved_at[change] for change in it.changes if change in known.approved_at), default=None)
    # While the queue is frozen no time is over.
    is_timed = since is not None and it.state in ("ordered", "staged") and beside.timeout > 0 and freeze is None
    checks = checks_of(known, beside, it) if it.state in ("staged", "landing") else ()
    shown = ShownBatch(
        it.number, it.branch, it.state, it.priority, it.changes, found.commit if found else "", since,
        since + beside.timeout if since is not None and is_timed else None, checks,
    )
    before = [other for other in queue[:place] if other.branch == it.branch]
    return replace(shown, waits_for=waits_for(shown, beside.main, [other.number for other in before], freeze))


def checks_of(known: Known, beside: Beside, batch: QueuedBatch) -> Tuple[ShownCheck, ...]:
    """The required checks of a batch that runs; or those of which something is reported, if it isn't known which ones are required."""
    test = known.tests.get(batch.branch)
    results = known.results.get(batch.branch, {}) if test and test.batch == batch.number else {}
    names = beside.required if beside.required is not None else tuple(results)
    return tuple(ShownCheck(name, results.get(name, "open")) for name in names)


def waits_for(batch: ShownBatch, main: str, before: Sequence[int], freeze: Optional[Freeze]) -> str:
    """What a batch waits for, in words."""
    if freeze and batch.state in ("waiting", "ordered"):
        return END_OF_FREEZE
    if batch.state == "ordered":
        return f"its commit on {batch.branch}"
    if batch.state == "staged":
        left = [check.name for check in batch.checks if check.state != "success"]
        return listed_checks(left) if left else END_OF_FREEZE if freeze else "its checks"
    if batch.state == "landing":
        return f"{main} to move to {batch.commit[:DIGITS]}"
    if not before:
        return "the next reading of the clock"
    return f"batch {before[0]}" if len(before) == 1 else f"the {len(before)} batches before it"


def listed_checks(names: Sequence[str]) -> str:
    return ("the check " if len(names) == 1 else "the checks ") + ", ".join(map(plain, names))


# Settings


def settings_of(known: Known, beside: Beside) -> ShownSettings:
    return ShownSettings(
        known.taken, known.settings_of, known.refusal, beside.required, beside.timeout or None, beside.checks, beside.reporters,
    )


def changes_with_titles(known: Known, report: str) -> List[Tuple[int, str, str]]:
    """The changes of which a title is shown, each with its head and the base that is before it: what is in the queue or open, and what
    landed last."""
    heads = [(change, known.base, known.head_of(change)) for change in [*all_in(batches_in(report)), *known.open_changes()]]
    landed = islice(reversed(known.landings.values()), MOST_LANDINGS)
    return [*heads, *((member.change, it.base, member.head) for it in landed for member in it.members)]
