"""Each step of the main branch, and what isn't right with it, as a function of the history of the branch and of what was said."""
from dataclasses import dataclass, field
from typing import Collection, Dict, Iterator, List, Mapping, NamedTuple, Optional, Sequence, Set, Tuple, Union

from .entries import Finding, Stage
from .story import Approval, Base, Landing, Story


class Commit(NamedTuple):
    """A commit of the history, its tree and its parents."""

    name: str
    tree: str
    parents: Tuple[str, ...]


class Remade(NamedTuple):
    """The merge of an order to stage, made again: its tree, or why there is none."""

    tree: str = ""
    why: str = ""


@dataclass(frozen=True)
class Written:
    """What stands in the repository about a landing: the text of the bot's settings in its base, or none if there is none that the bot
    takes; and the message of its commit."""

    settings: Optional[str] = None
    message: str = ""


@dataclass(frozen=True)
class Known:
    """All that the steps are held against: the branch from its beginning, each commit the first parent of the next; what was said; who
    moved it; the merges, made again, by their commits; the required statuses by the texts of settings, or the number of the refusal; whose
    pushes past the queue are no findings; and what is written about landings, by their commits."""

    branch: str
    walk: Sequence[Commit]
    story: Story
    movers: Mapping[int, str]
    remade: Mapping[str, Remade]
    required: Mapping[str, Union[List[str], int]]
    allowed: Collection[str] = ()
    written: Mapping[str, Written] = field(default_factory=dict)


@dataclass(frozen=True)
class Move:
    """A move of the main branch that no order to land named: by which delivery it was told, when, from where to where, and by whom. The
    person is none if the journal doesn't say it, and empty if nobody moved it who may."""

    base: Base
    before: str
    person: Optional[str]


@dataclass
class Step:
    """A step of the main branch: `landing`, `push`, `stray`, or `no order`. Or a move to a commit that is no step of its own, since the
    branch was set back by it or after it."""

    commit: str
    kind: str
    at: Optional[int] = None
    landing: Optional[Landing] = None
    move: Optional[Move] = None
    required: Sequence[str] = ()
    is_step: bool = True
    findings: List[Finding] = field(default_factory=list)


def first_place(known: Known, start: Optional[str]) -> Tuple[int, int]:
    """From where on the branch is looked at: the place of a commit on it, and the place among the bases that were handed in. That is the
    first base; or the commit that was named, and the base of the time at which the branch came there first."""
    places = {commit.name: place for place, commit in enumerate(known.walk)}
    bases = [places.get(base.commit, -1) for base in known.story.bases]
    if start is None:
        return max(bases[0], 0) if bases else 0, 0
    first = next((number for number, place in enumerate(bases) if place >= places[start]), len(bases))
    is_there = first < len(bases) and bases[first] == places[start]
    return places[start], first if is_there else max(first - 1, 0)


def landings_by_commit(story: Story) -> Dict[str, Landing]:
    """The order to land that names a commit. The one that was reported as done counts, and else the last."""
    found: Dict[str, Landing] = {}
    for landing in story.landings:
        before = found.get(landing.land.commit)
        if before is None or story.outcomes.get(before.name) != "base":
            found[landing.land.commit] = landing
    return found


def to_be_made(walk: Sequence[Commit], story: Story, start: Optional[str] = None) -> Dict[str, Stage]:
    """The orders whose merges have to be made again, by their commits: those of which each parent is the one that was named. If the branch
    is looked at from a commit on, those after it will do."""
    by_commit = landings_by_commit(story)
    first = next((place for place, commit in enumerate(walk, 1) if commit.name == start), 0)
    found = {}
    for commit in walk[first:]:
        landing = by_commit.get(commit.name)
        if landing and landing.stage and commit.parents == parents_of(landing.stage):
            found[commit.name] = landing.stage
    return found


def parents_of(stage: Stage) -> Tuple[str, ...]:
    """The parents of the merge that was ordered. Git names no parent twice."""
    return tuple(dict.fromkeys((stage.base, *(head for _, head in stage.heads))))


def moves_in(known: Known, first: int) -> List[Move]:
    """The moves that no order to land named, after a base."""
    bases = known.story.bases
    return [
        Move(base, before.commit, known.movers.get(base.fact) if base.fact else None)
        for before, base in zip(bases[first:], bases[first + 1:]) if not base.is_landing
    ]


def steps_of(known: Known, start: Optional[str] = None) -> List[Step]:
    """Each step of the branch from the first base that was handed in, or from a commit; and then the moves that left no step."""
    place, first = first_place(known, start)
    by_commit, moves = landings_by_commit(known.story), moves_in(known, first)
    brought = brought_by(known.walk, moves)
    steps = []
    for before, commit in zip(known.walk[place:], known.walk[place + 1:]):
        landing, move = by_commit.get(commit.name), brought.get(commit.name)
        if landing:
            steps.append(step_of_landing(known, before, commit, landing))
        else:
            steps.append(step_of_move(known, commit.name, move) if move else without_order(known, commit.name))
    used = {step.move.base.id for step in steps if step.move}
    gone = [step_of_move(known, move.base.commit, move, is_step=False) for move in moves if move.base.id not in used]
    tell_once(steps)
    return steps + gone


def brought_by(walk: Sequence[Commit], moves: Sequence[Move]) -> Dict[str, Move]:
    """Which move brought a commit onto the branch. One move may bring many, and the first one counts."""
    places = {commit.name: place for place, commit in enumerate(walk)}
    found: Dict[str, Move] = {}
    for move in moves:
        for commit in walk[places.get(move.before, -1) + 1:places.get(move.base.commit, -1) + 1]:
            found.setdefault(commit.name, move)
    return found


def tell_once(steps: Sequence[Step]) -> None:
    """A move that brought many commits is one finding, of the last of them."""
    last = {step.move.base.id: step.commit for step in steps if step.move}
    for step in steps:
        if step.move and last[step.move.base.id] != step.commit:
            step.findings = []


# Steps past the queue


def step_of_move(known: Known, commit: str, move: Move, is_step: bool = True) -> Step:
    kind = "stray" if move.person == "" else "push"
    step = Step(commit, kind, move.base.at, move=move, is_step=is_step)
    if not move.person or move.person.lower() not in known.allowed:
        to = f"the {known.branch} branch was moved from {move.before} to {move.base.commit}, and no order to land said so"
        if move.person:
            step.findings.append(Finding("past the queue", f"{to}: the host has {move.person} down for it, as who may push there", commit))
        elif move.person is None:
            step.findings.append(Finding("past the queue", f"{to}: the journal doesn't say who did that ({move.base.id})", commit))
        else:
            step.findings.append(Finding("past the hook", f"{to}, nor anybody who may push there ({move.base.id})", commit))
    return step


def without_order(known: Known, commit: str) -> Step:
    said = f"{commit} is on the {known.branch} branch, and no order to land names it, nor has the journal a push of it"
    report = next((base for base in known.story.bases if base.commit == commit), None)
    if report:
        said = f"{commit} was handed in as landed ({report.id}), and no order to land names it"
    return Step(commit, "no order", report.at if report else None, findings=[Finding("no order", said, commit)])


# Landings


def step_of_landing(known: Known, before: Commit, commit: Commit, landing: Landing) -> Step:
    """A step by an order to land: the commit is the merge that was ordered, it was tested, and each head was approved."""
    found = known.required.get(landing.settings) if landing.settings is not None else None
    required = found if isinstance(found, list) else []
    findings = [
        *wrong_report(known.story, commit.name, landing), *wrong_merge(known, before, commit, landing),
        *not_tested(commit.name, landing, found), *not_approved(commit.name, landing),
        *wrong_words(known.written.get(commit.name, Written()), commit.name, landing),
    ]
    return Step(commit.name, "landing", landing.at, landing=landing, required=required, findings=findings)


def wrong_report(story: Story, commit: str, landing: Landing) -> Iterator[Finding]:
    outcome = story.outcomes.get(landing.name)
    if outcome in ("refused", "over"):
        how = "refused" if outcome == "refused" else "over, since another base came first"
        yield Finding("other report", f"{commit} is on the branch, and its order to land {landing.name} was handed in as {how}", commit)


def wrong_merge(known: Known, before: Commit, commit: Commit, landing: Landing) -> Iterator[Finding]:
    """Whether a commit is the merge of the named heads onto the named base, in this order, and that base is the commit before."""
    if landing.land.base != before.name:
        said = f"{commit.name} was to land on {landing.land.base}, and the branch was at {before.name}"
        yield Finding("other base", said, commit.name)
    if landing.stage is None:
        said = f"{commit.name} landed by {landing.name}, and batch {landing.land.batch} was never ordered to be staged"
        yield Finding("other parents", said, commit.name)
        return
    if commit.parents != parents_of(landing.stage):
        said = (
            f"the parents of {commit.name} are {' '.join(commit.parents)}, and those of batch {landing.stage.batch} have to be "
            f"{' '.join(parents_of(landing.stage))}"
        )
        yield Finding("other parents", said, commit.name)
        return
    made = known.remade.get(commit.name, Remade(why="nobody made it again"))
    if made.tree != commit.tree:
        why = f"git makes the tree {made.tree} of them" if made.tree else made.why
        said = f"the files of {commit.name} aren't those of the merge that was ordered: it has the tree {commit.tree}, and {why}"
        yield Finding("other files", said, commit.name)


def not_tested(commit: str, landing: Landing, required: Union[None, List[str], int]) -> Iterator[Finding]:
    """Whether each required status of a commit was a success, by its last word between the report of staging and the order."""
    if not landing.is_staged:
        said = f"{commit} wasn't handed in as the staged commit of batch {landing.land.batch} before its order to land {landing.name}"
        yield Finding("not tested", said, commit)
    if not isinstance(required, list):
        why = "no settings were taken before it" if required is None else f"the program refuses the settings of then (number {required})"
        yield Finding("not tested", f"which statuses {commit} needed can't be told: {why}", commit)
        return
    for name in required:
        state = landing.states.get(name)
        if state != "success":
            how = f"was {state} at last" if state else "wasn't reported"
            said = f"the required status {name} of {commit} {how} between its staging and its order to land {landing.name}"
            yield Finding("not tested", said, commit)


def not_approved(commit: str, landing: Landing) -> Iterator[Finding]:
    """Whether each head of a batch had an approval at the order to land."""
    for change, head in landing.stage.heads if landing.stage else ():
        approval = landing.approvals.get(change)
        if approval is None or approval.head != head:
            said = f"change {change} landed with {commit} at the head {head}, and no approval of this head stood at {landing.name}"
            yield Finding("not approved", said, commit)


# What is written in the repository


def wrong_words(written: Written, commit: str, landing: Landing) -> Iterator[Finding]:
    """Whether a landing went by the settings of its base, and whether its message names who approved it. The message of a host of before
    names nobody."""
    if written.settings is not None and written.settings != landing.settings:
        said = f"{commit} landed by other settings than those that bors.toml has in its base {landing.land.base}"
        yield Finding("other settings", said, commit)
    told = trailers_in(written.message)
    if "Batch" not in told:
        return
    due = {"Batch": {str(landing.land.batch)}, "Approved-by": {it for approval in landing.approvals.values() for it in words_of(approval)}}
    for name, texts in due.items():
        if told.get(name, set()) != texts:
            found = ", ".join(sorted(told.get(name, set()))) or "nothing"
            said = f"the message of {commit} says {name}: {found}, and it has to be {', '.join(sorted(texts)) or 'nothing'}"
            yield Finding("other message", said, commit)


def words_of(approval: Approval) -> List[str]:
    """Each who approved, as a message names them: with who said it, if that was somebody else."""
    return [name if name == approval.person else f"{name} (said by {approval.person})" for name in approval.approvers]


def trailers_in(message: str) -> Dict[str, Set[str]]:
    """The trailers of a message: the lines of its last part."""
    last = message.strip("\n").split("\n\n")[-1]
    found: Dict[str, Set[str]] = {}
    for name, colon, text in (line.partition(": ") for line in last.split("\n")):
        if colon:
            found.setdefault(name, set()).add(text)
    return found


# What was lost


def lost(known: Known, start: Optional[str] = None) -> List[Finding]:
    """What the main branch had, by what was handed in, and has no more: a commit that isn't on its way by first parents. What somebody
    whose pushes are no findings has put another commit in the place of isn't lost, unless it had landed."""
    there = {commit.name for commit in known.walk}
    landed = {landing.land.commit: landing for landing in known.story.landings}
    first = first_place(known, start)[1]
    replaced = {move.before for move in moves_in(known, first) if move.person and move.person.lower() in known.allowed}
    found = {}
    for base in known.story.bases[first:]:
        landing = landed.get(base.commit)
        if base.commit not in there and (landing or base.commit not in replaced):
            what = f"batch {landing.land.batch} landed as {base.commit}" if landing else f"the {known.branch} branch was at {base.commit}"
            said = f"{what} ({base.id}), and the history of the branch has that no more"
            found[base.commit] = Finding("lost", said, base.commit)
    return list(found.values())
