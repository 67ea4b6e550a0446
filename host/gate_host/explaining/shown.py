"""What people are shown of an explanation: some lines of text, or one document of JSON."""
import json
from dataclasses import asdict
from enum import Enum
from typing import Iterator, List, Optional, Sequence

from ..audit.shown import plain, time_of_day
from ..core.estimates import MOST_BATCHES
from ..core.freeze import Freeze
from ..core.words import DIGITS, WITHDRAWN, basis, listed, why_ended
from .courses import End
from .events import Mark
from .explained import Answered, Check, Explanation, Left, Run, Step
from .records import Phase

# What each rule that judges `r+` refuses, in the words of docs/commands.md, and what to do about it. `{detail}` is that of the answer.
REFUSALS = {
    "UnknownChange": ("the change was never opened", "It has to be opened first."),
    "NotPermitted": ("the person lacks the level that the command needs", "Reviewers, and delegates of this change, have it."),
    "NotOpen": ("the change is closed or has landed", "It has to be opened again first."),
    "Landing": ("the landing of the change is ordered and not settled", "How that goes has to be waited for."),
    "NoSettings": ("no settings have been accepted so far", "The main branch needs a bors.toml that is accepted."),
    "NoBase": ("no base has been handed in so far", "The host has to have seen the main branch."),
    "AlreadyApproved": ("the change stands", "Nothing has to be done for its approval."),
    "Blocked": ("the change carries a label of block_labels", "The label {detail} has to be taken away."),
    "TooFewReviews": ("the change has fewer reviews than required_approvals", "It has {detail}: more people have to approve its head."),
    "HeadStatus": ("a status of pr_status hasn't succeeded on the head of the change", "The status {detail} has to succeed on {head}."),
}
RUNNING = {"ordered": "is about to be tested", "staged": "is being tested", "landing": "is landing", "waiting": "waits"}


def text_of(found: Explanation) -> str:
    """The lines, without anything that a terminal obeys."""
    return "".join(f"{plain(line)}\n" for line in lines_of(found))


def lines_of(found: Explanation) -> Iterator[str]:
    yield heading_of(found)
    yield from lines_of_phase(found)
    for answered in found.answered:
        yield line_of_answered(answered, found.change.head)
    if found.freeze:
        yield line_of_freeze(found.freeze)
    yield from lines_of_place(found)
    if found.place and not found.freeze:
        yield line_of_estimate(found)
    if found.trying:
        yield f"It is tried by batch {found.trying.number} on trying, which {RUNNING.get(found.trying.state, found.trying.state)}."
    if found.left:
        yield line_of_left(found.left)
    if found.steps:
        yield "What became of its batch:"
        yield from (f"{'  ' * (step.depth + 1)}{line_of_step(step)}" for step in found.steps)
    if found.has_more_steps:
        yield "  and so on"
    if found.waiting:
        are = "deliveries of the journal have" if found.waiting > 1 else "delivery of the journal has"
        yield f"{found.waiting} {are} no answer yet, so this may be another way soon."


def heading_of(found: Explanation) -> str:
    of = f" ({found.change.head[:DIGITS]}, by {found.change.author})" if found.change.phase is not Phase.NEVER else ""
    return f"change {found.number}{of}, " + (f"after {place_in_words(found.moment)}" if found.moment else "before the first delivery")


def place_in_words(mark: Mark) -> str:
    return f"delivery {mark.number} ({mark.id}){when(mark)}"


def by(mark: Optional[Mark]) -> str:
    """Which delivery said so, and when, in brackets."""
    return f" [{mark.id}{when(mark)}]" if mark else ""


def when(mark: Mark) -> str:
    return f" of {time_of_day(mark.at)}" if mark.at is not None else ""


def lines_of_phase(found: Explanation) -> Iterator[str]:
    phase, landed, approved = found.change.phase, found.landed, found.approved
    if phase is Phase.NEVER:
        yield "It was never opened."
    elif landed:
        yield f"It has landed as {landed.commit}, with batch {landed.batch} ({listed(landed.changes)}){by(landed.mark)}."
        if approved:
            yield f"It was approved by {approvers_in_words(approved.approvers, approved.said_by)}{by(approved.mark)}."
    elif phase is Phase.LANDED:
        yield "It has landed."
    elif approved:
        yield f"It is open, and approved by {approvers_in_words(approved.approvers, approved.said_by)}{by(approved.mark)}."
    else:
        yield f"It is {'closed' if phase is Phase.CLOSED else 'open'}, and not approved{by(found.closed)}."


def approvers_in_words(approvers: Sequence[str], said_by: str) -> str:
    return ", ".join(approvers) + ("" if tuple(approvers) == (said_by,) else f" (said by {said_by})")


def line_of_freeze(freeze: Freeze) -> str:
    since, reason = time_of_day(freeze.at), freeze.reason.strip().rstrip(".")
    return (
        f"The queue is frozen since {since} by {freeze.person}: {reason}. Until it is thawed nothing is staged and nothing lands; what "
        f"succeeds meanwhile counts then."
    )


# Who could approve


def line_of_answered(answered: Answered, head: str) -> str:
    who = people_in_words(answered)
    if not answered.rule:
        return f"bors r+ would approve it now if {who} said so."
    why, what = REFUSALS.get(answered.rule, ("a rule refuses it", ""))
    rule = f"{answered.rule}, {answered.detail}" if answered.detail else answered.rule
    return f"bors r+ of {who} would be denied now: {why} ({rule}). {what.format(detail=answered.detail, head=head[:DIGITS])}".rstrip()


def people_in_words(answered: Answered) -> str:
    if answered.has_others:
        return f"{', '.join(answered.people)} or anybody else" if answered.people else "anybody else"
    return " or ".join(filter(None, (", ".join(answered.people[:-1]), answered.people[-1])))


# The queue


def lines_of_place(found: Explanation) -> Iterator[str]:
    place, run = found.place, found.run
    if place is None:
        return
    batch = f"batch {place.batch} ({listed(place.changes)})"
    if place.state != "waiting" and run:
        yield f"It is in {batch}, which {RUNNING.get(place.state, place.state)}."
        yield from lines_of_run(run)
        return
    yield f"It waits in {batch}, at place {len(place.ahead) + 1} of the queue."
    for it in place.ahead:
        yield f"  before it: batch {it.number} ({listed(it.changes)}), which {RUNNING.get(it.state, it.state)}"
    if run:
        yield f"Batch {run.batch} has to be over first."
        yield from lines_of_run(run)
    else:
        yield f"The queue waits for a reading of the clock, at which batch {place.first} is ordered."


def line_of_estimate(found: Explanation) -> str:
    it = found.estimate
    if it is None and found.place and len(found.place.ahead) >= MOST_BATCHES:
        return f"When it lands can't be estimated: {len(found.place.ahead)} batches come before it."
    if it is None:
        return "When it lands can't be estimated yet: no batch has ended."
    return f"It will probably land between {time_of_day(it.earliest)} and {time_of_day(it.latest)}, {basis(it.batches)}."


def lines_of_run(run: Run) -> Iterator[str]:
    """What a batch that runs waits for, and until when."""
    if run.state == "ordered":
        yield f"The queue waits for the commit of batch {run.batch} on staging."
    elif run.state == "staged":
        missing = ", ".join(it.name for it in run.checks if it.state != "success")
        yield f"The queue waits for these checks of batch {run.batch} at {run.commit[:DIGITS]}: {missing}."
    else:
        yield f"The queue waits for the main branch to move to {run.commit[:DIGITS]}, as ordered for batch {run.batch}."
    if run.until is not None:
        over = f"its time is over at the first reading of the clock from {time_of_day(run.until)} on"
        yield f"  {run.state} at {time_of_day(run.since)}; {over}"
    if run.delay:
        yield f"  the host can't stage it yet: {run.delay}"
    yield from (f"  {line_of_check(check)}" for check in run.checks)


def line_of_check(check: Check) -> str:
    said = {"success": "has succeeded", "pending": "runs again, after a success or not", "open": "is open"}[check.state]
    return f"the check {check.name} {said}{by(check.mark)}"


# What was before


def line_of_left(left: Left) -> str:
    return f"It left the queue last since {left_in_words(left)}{by(left.mark)}."


def left_in_words(left: Left) -> str:
    """Why a change left, by the reason of its notice; and by whom or what."""
    named = left.name if left.why == "Failed" else ""
    reason = f"{left.why}, {named}" if named else left.why
    why = f"{why_ended(left.why, named)}" + ("" if left.why == WITHDRAWN else f" ({reason})")
    return why + "".join(f", {more}" for more in more_of_left(left) if more)


def more_of_left(left: Left) -> List[str]:
    commit, of_person = left.commit[:DIGITS], f"by {left.person}" if left.person else ""
    if left.why == "Pushed":
        return [f"to {commit}", of_person]
    if left.why == "Labeled":
        return [f"the label {left.name}"]
    if left.why == "Reviews":
        return [f"{left.person} approves it no more"]
    if left.why in ("Failed", "TimedOut", "Conflict"):
        return [f"in batch {left.batch}" + (f" at {commit}" if commit else ""), left.said]
    return [of_person]


def line_of_step(step: Step) -> str:
    if step.end == "gone":
        left = Left(step.kind, step.name, step.person, step.commit, Mark(0, "", None), 0, step.said)
        return f"change {step.change} left: {left_in_words(left)}{by(step.mark)}"
    if step.end == "unknown":
        return f"{listed(step.changes)}: the journal says no more"
    batch = f"batch {step.batch} ({listed(step.changes)})"
    if step.end in RUNNING:
        return f"{batch} {RUNNING[step.end]}" + (f", at {step.commit[:DIGITS]}" if step.commit else "")
    return f"{batch} {end_in_words(step)}{by(step.mark)}"


def end_in_words(step: Step) -> str:
    """How a batch ended. Of several changes its halves come next."""
    commit, said = step.commit[:DIGITS], f": {step.said}" if step.said else ""
    return {
        End.LANDED.value: f"landed as {commit}",
        End.REFUSED.value: f"couldn't land as {commit}: the host reported its landing as refused. Its changes that stand wait again",
        End.OVERTAKEN.value: f"couldn't land: the main branch moved to {commit} first. Its changes that stand wait again",
        End.MOVED.value: f"was taken back: the main branch moved to {commit}. It waits again",
        End.CONFLICT.value: f"couldn't be merged{said}",
        End.FAILED.value: f"failed: the check {step.name} at {commit} was {step.state}{said}",
        End.TIMED_OUT.value: f"failed: its time was over{f' at {commit}' if commit else ''}",
        End.LEFT.value: f"was taken back: {act_in_words(step)}. Its other changes wait again",
        End.SETTINGS.value: "was taken back: other settings came. It waits again",
    }.get(step.end, step.end)


def act_in_words(step: Step) -> str:
    """By which act a change left a batch."""
    change, who = f"change {step.change}", f" by {step.person}" if step.person else ""
    return {
        "comment": f"a command of {step.person} took {change} out", "pushed": f"{change} was pushed to {step.commit[:DIGITS]}{who}",
        "closed": f"{change} was closed", "labeled": f"{change} got the label {step.name}",
        "review": f"{step.person} approves {change} no more", "settings": "new settings are against a change of it",
    }.get(step.kind, f"{change} left it")


def json_of(found: Explanation) -> str:
    """One document with all that the text has, for programs. Times are whole seconds since 1970."""
    return json.dumps(asdict(found), indent=1, default=value_of) + "\n"


def value_of(it: object) -> object:
    """What JSON has for a value that it doesn't know."""
    if isinstance(it, Enum):
        return it.value
    raise TypeError(f"{it!r} has no JSON")
