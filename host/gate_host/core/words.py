"""What people are told: the words for the bot's answers, its notices and batches."""
import re
from typing import TYPE_CHECKING, Mapping, Optional, Sequence

from .commands import Command, Kind
from .orders import Answer, Denied, Notice, Reply, Stage

if TYPE_CHECKING:
    from .freeze import Freeze
    from .known import Batch, Landing, Member

# The first digits of a commit, by which people know it, and how much of a title they are shown.
DIGITS = 7
MOST_IN_TITLE = 200
SKIPS = re.compile(r"\[([^\[\]]*\b(?:skip|no)\b[^\[\]]*)\]", re.IGNORECASE)
# The text of bors.toml is read up to so many bytes.
MOST_IN_SETTINGS = 10000
NO_SETTINGS = f"there is no bors.toml of at most {MOST_IN_SETTINGS} bytes"
NO_SETTINGS_LEFT = f"with this there would be no bors.toml of at most {MOST_IN_SETTINGS} bytes any more"
DENIALS = {
    "UnknownChange": "this change was never opened",
    "NotACommand": "this is no command",
    "NotPermitted": "that needs more rights than you have",
    "NotOpen": "the change isn't open, or has landed",
    "NothingToRetry": "there is nothing to repeat",
    "Landing": "the change is landing",
    "NoSettings": "the main branch has had no good bors.toml yet",
    "NoBase": "there is no main branch yet",
    "AlreadyApproved": "the change is approved already",
    "NotApproved": "the change isn't approved",
    "AlreadyTrying": "the change is tried already",
    "NotTrying": "the change isn't tried",
    "Blocked": "the change has a label that blocks it",
    "TooFewReviews": "the change has too few reviews",
    "HeadStatus": "a status hasn't succeeded on the head of the change",
}
NOTICES = {
    "Conflict": "it can't be merged. Merge the main branch into it or rebase it, push, and have it approved again",
    "Failed": "it fails the check {name}. Mend it, push, and have it approved again; or have it retried by bors retry",
    "TimedOut": "no verdict of all required checks came in time. bors retry has it tested again",
    "Pushed": "it was pushed. What is there now has to be approved anew",
    "Closed": "it is no open change any more",
    "Labeled": "it has a label that blocks it",
    "Reviews": "it has too few reviews",
    "Settings": "by the new settings it may not be approved",
}
WITHDRAWN = "Withdrawn"
TRIES = {"TryPassed": "The try has passed: all required checks succeed", "TryFailed": "The try has failed"}
ENDS = {"success": "succeeded", "failure": "failed", "error": "failed"}


def notice(order: Notice) -> str:
    """What a notice of the bot tells the people of a change."""
    if order.why in TRIES:
        return f"{TRIES[order.why]} ({order.why})."
    return f"The approval or the try has ended ({order.why}): {NOTICES.get(order.why, 'it says no more').format(name=order.name)}."


def notice_of_main(order: Notice) -> str:
    """What a notice tells if the main branch alone fails the check as well. The bot ends the approval all the same."""
    return (
        f"The approval has ended ({order.why}), as always if a check of a batch of one change fails. But the main branch alone fails the "
        f"check {plain(order.name)} as well, so this says nothing against the change. When main is mended, have it retried by bors retry."
    )


def why_ended(why: str, name: str) -> str:
    """Why an approval has ended, in a few words: the first sentence of the notice."""
    if why == WITHDRAWN:
        return "its approval was taken back"
    return NOTICES.get(why, why).partition(". ")[0].format(name=name)


def acted(command: Command, is_again: bool, head: str, author: str) -> str:
    """What became of a command that has acted, on a change with this head and author. `retry` has done one again."""
    again, at, people = (" again" if is_again else ""), head[:DIGITS], ", ".join(command.people)
    said = {
        Kind.PING: "pong", Kind.APPROVE: f"approved{again} at {at}", Kind.APPROVE_FOR: f"approved{again} at {at} for {people}",
        Kind.WITHDRAW: "the approval is taken back", Kind.PRIORITY: f"priority {command.number}",
        Kind.TRY: f"to be tried{again} at {at}", Kind.TRY_CANCEL: "the try is over",
        Kind.DELEGATE_AUTHOR: f"{author or 'the author'} may approve it now", Kind.DELEGATE_TO: f"{people} may approve it now",
        Kind.DELEGATE_NONE: "nobody is a delegate of it any more",
    }
    return f"gate: {said.get(command.kind, 'done')}"


def reply_in_words(reply: Reply) -> str:
    if not isinstance(reply, Denied):
        return "gate: done"
    rule, detail = reply.rule, reply.detail
    if isinstance(detail, tuple):
        detail = f"{detail[0]} of {detail[1]}"
    return f"gate: denied, {DENIALS.get(rule, rule)} ({rule if detail is None else f'{rule}, {detail}'})"


def first_denial(answer: Answer) -> str:
    """Why something was denied, or nothing."""
    return next((reply_in_words(reply) for reply in answer if isinstance(reply, Denied)), "")


def quoted(person: str, text: str) -> str:
    """A comment, so that no line of it can be taken for one of the host's."""
    return "\n".join([f"{person} wrote:", *(f"> {plain(line)}" for line in text.splitlines())])


def plain(text: str) -> str:
    """A text without the characters that a terminal obeys."""
    return "".join(it if it.isprintable() or it in "\t\n" else "?" for it in text)


def listed(changes: Sequence[int]) -> str:
    """The numbers of changes, in words."""
    return ("change " if len(changes) == 1 else "changes ") + ", ".join(map(str, changes))


def queued(batch: int, freeze: "Optional[Freeze]" = None) -> str:
    return f"It waits in batch {batch}.{f' {frozen(freeze)}' if freeze else ''}"


def frozen(freeze: "Freeze") -> str:
    """That nothing is staged and nothing lands, as whom it wants so, and why."""
    reason = plain(freeze.reason).strip().rstrip(".")
    return f"The queue is frozen by {freeze.person}: {reason}. Nothing is staged and nothing lands until it is thawed; approvals go on."


# How the lines begin by which the report of the queue says so.
FROZEN_SINCE, MAIN_IS_BROKEN = "frozen since ", "the main branch is broken: "


def frozen_since(freeze: "Freeze", at: str) -> str:
    """That the queue is frozen, for the report of it."""
    reason = plain(freeze.reason).strip().rstrip(".")
    return f"{FROZEN_SINCE}{at} by {freeze.person}: {reason}. Nothing is staged and nothing lands until gate-host thaw"


def thawed(person: str) -> str:
    return f"The queue goes on: {person} has ended the freeze."


def staged(stage: Stage, commit: str) -> str:
    return f"Batch {stage.batch} ({listed(stage.changes)}) is merged onto {stage.base[:DIGITS]} as {commit[:DIGITS]}, which is tested now."


def approval(member: "Member") -> str:
    """Who approved a change, by whose word if that was somebody else's; or nothing."""
    return ", ".join(approvals(member))


def approvals(member: "Member") -> Sequence[str]:
    """Each who approved a change. An `r=` asks nothing of those whom it names, so who said it stands there too."""
    said = f" (said by {member.said_by})" if member.said_by else ""
    return [name if name == member.said_by else f"{name}{said}" for name in member.approvers]


def approved_by(people: str) -> str:
    """Who approved something, as a sentence more, or nothing."""
    return f" Approved by {people}." if people else ""


def landing_of(landing: "Optional[Landing]", change: int) -> str:
    """What is said of a change that has landed, below the lines of the bot."""
    if landing is None:
        return ""
    member = next((it for it in landing.members if it.change == change), None)
    by = f", approved by {approval(member)}" if member and member.approvers else ""
    return f"\nlanded as {landing.commit} with batch {landing.batch}{by}\n"


def reported(person: str, description: str) -> str:
    """How a check has ended, as somebody reports it."""
    return f"as {person} reports{': ' if description else ''}{' '.join(plain(description).split())}"


def merge_message(batch: "Batch", titles: Mapping[int, str]) -> str:
    """The message of the merge of a batch. No line but the last ones can be taken for a trailer: those of people have words before them."""
    stage = batch.stage
    lines = [f"Batch {stage.batch}: " + ", ".join(f"change {change}" for change in stage.changes), ""]
    for it in batch.members:
        lines.append(f"change {it.change}: {without_marks(titles.get(it.change, ''))[:MOST_IN_TITLE]}".rstrip())
        by = [f"by {it.author}"] * bool(it.author) + [f"approved by {approval(it)}"] * bool(it.approvers)
        lines.append(f"  {', '.join([it.head, *by])}")
    people = dict.fromkeys(person for it in batch.members for person in approvals(it))
    trailers = [*(f"Approved-by: {person}" for person in people), f"Batch: {stage.batch}"]
    return "\n".join([*lines, *([""] if batch.members else []), *trailers]) + "\n"


def without_marks(title: str) -> str:
    """A title without the brackets by which CI would test nothing, as [skip ci]: a batch with that would wait for its checks until its time
    is over."""
    return SKIPS.sub(r"(\1)", plain(title))


def without_reporter(names: Sequence[str]) -> str:
    """That some required statuses never come."""
    return f"{statuses(names)}, for which there is neither a command in the settings of the host nor a reporter"


def without_reporter_of_heads(names: Sequence[str]) -> str:
    """That some statuses never come which the heads of changes have to have."""
    return f"{statuses(names)} of heads of changes, for which there is no reporter"


def statuses(names: Sequence[str]) -> str:
    return ("the status " if len(names) == 1 else "the statuses ") + ", ".join(map(plain, names))


def conflict(stage: Stage, which: int, why: str) -> str:
    split = "" if len(stage.changes) == 1 else " Its halves are tried next."
    return f"Batch {stage.batch} ({listed(stage.changes)}) can't be merged. Change {which} doesn't: {plain(why)}.{split}"


def delayed(stage: Stage, why: str) -> str:
    return f"Batch {stage.batch} ({listed(stage.changes)}) can't be staged yet, for a reason of the host: {why}"


def result(stage: Stage, name: str, state: str, said: str) -> str:
    return f"The check {name} of batch {stage.batch} ({listed(stage.changes)}) {ENDS[state]}: {said}."


def output_at(name: str) -> str:
    """Where the output of a check is, as a line more, or nothing."""
    return f"\noutput: {name}" if name else ""


def doubted(stage: Stage, name: str) -> str:
    return f"Before that counts, the check {name} is to run on the main branch alone, at {stage.base[:DIGITS]}."


def on_base(stage: Stage, name: str, state: str, said: str, since: str) -> str:
    """How a check has ended on the main branch alone, which a batch of one change has failed."""
    ran = f"The check {name} of the main branch alone, at {stage.base[:DIGITS]},"
    if state == "success":
        return f"{ran} succeeded: {said}. So it isn't main alone that fails it."
    if state == "failure":
        return f"{ran} failed as well: {said}. So the main branch is broken, and {listed(stage.changes)} isn't blamed. {since}"
    return f"{ran} came to no verdict: {said}. So it isn't known whether main alone fails it."


SINCE_PUSH = "It wasn't a landing by which the main branch came to that commit."


def since_landing(batch: int, changes: Sequence[int]) -> str:
    """That the main branch has been at a commit since a landing. Then the check had succeeded."""
    return f"It came to that commit by the landing of batch {batch} ({listed(changes)}), for which all that was required had succeeded."


def broken(name: str, base: str, said: str, since: str) -> str:
    """That the main branch is broken."""
    return f"{MAIN_IS_BROKEN}the check {name} fails on {base[:DIGITS]} alone: {said}. {since}"


def faulted(stage: Stage, name: str, said: str, is_of_main: bool = False) -> str:
    of = "the main branch alone" if is_of_main else f"batch {stage.batch} ({listed(stage.changes)})"
    return (
        f"The check {name} of {of} has come to no verdict, by a fault of the host, and is tried "
        f"again: {said}."
    )


def landed(stage: Stage, main: str, commit: str) -> str:
    return f"Landed on {main} as {commit}, with {listed(stage.changes)}."


def pushed_late(change: int, head: str) -> str:
    return f"Change {change} has landed, and {head} won't. Push it as another change."


def stray(at: str, before: str, target: str) -> str:
    """A move of the main branch that nobody made who may, seen at a time."""
    return (
        f"the main branch was moved from {before} to {target}, as seen at {at}, and nobody who may said so. If that is right, "
        f"gate-host doctor --accept {target}"
    )


def basis(batches: int) -> str:
    """On how many batches an estimate rests."""
    if batches <= 2:
        return f"by how long {'two batches' if batches == 2 else 'one batch'} took, which says little"
    return f"by how long the last {batches} batches took"
