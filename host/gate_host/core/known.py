"""What the host knows, as a function of the facts that were written down and of the answers to what they told the bot.

`learn` takes a fact in, and `hear` an answer. Each gives what people are told by it. Whoever reads the facts and answers from the
beginning knows the same as a host that never ended.
"""
from dataclasses import dataclass, field, replace
from typing import Dict, List, NamedTuple, Optional, Set, Tuple, Union

from . import words
from .broken import Broken, is_failure_of_main
from .commands import REPEATED, Command, Kind, commands_in
from .counts import Counts
from .deliveries import Delivery, delivered
from .durations import Runs
from .earlier import restore
from .events import Events
from .facts import (
    BaseEnded, Closed, Conflicted, Delayed, Doubted, Ended, Fact, Faulted, Frozen, HeadDated, Labeled, MainSeen, Merged, Moved, MoverFound,
    NotMoved, NotTaken, Opened, Pushed, PushesForgotten, PushTold, Queued, Reported, Reviewed, RoleGiven, Said, Staged, Thawed, Ticked,
    Unlabeled,
)
from .freeze import Freeze, Held, passed_on, released
from .notes import objection_to
from .orders import Answer, Denied, Json, Land, Notice, Order, Stage, Unread, is_done, orders_of


# So much of what one person tells of pushes is kept.
MOST_CLAIMS = 10000
MOST_TOLD_MOVES = 100
# The notices by which a batch ends that no delivery ends.
ENDS = ("TimedOut", "TryPassed", "TryFailed")


class Told(NamedTuple):
    """What the people of a change are told."""

    change: int
    text: str


@dataclass(frozen=True)
class Change:
    """A change as it was told to the bot: `open`, `closed` or `landed`, and its head."""

    phase: str
    head: str


@dataclass(frozen=True)
class People:
    """The people of a change: its author, and who has approved it last, if anybody has since its head came, by whose word. And which
    command `retry` repeats: the last approval or try that has acted."""

    author: str = ""
    approvers: Tuple[str, ...] = ()
    said_by: str = ""
    last: Optional[Command] = None


@dataclass(frozen=True)
class Member:
    """A change of a batch as it was ordered to be staged: its head, its author, and who approved it, by whose word. A try needs no
    approval."""

    change: int
    head: str
    author: str
    approvers: Tuple[str, ...] = ()
    said_by: str = ""


@dataclass(frozen=True)
class Batch:
    """A batch that was ordered to be staged: by which order, at which reading of the clock, and its merge, if that is made. And its changes
    with their people, unless it is of a journal of an earlier version; and at which reading of the clock it was staged, or 0."""

    order: str
    stage: Stage
    now: int
    commit: str = ""
    members: Tuple[Member, ...] = ()
    staged: int = field(default=0, compare=False)


@dataclass(frozen=True)
class End:
    """Why a change that was approved isn't on its way any more: by the reason of a notice, with the name of a status if that names one, or
    since the approval was taken back. And the merge of its last batch, if there is one; and whether the main branch itself fails the
    status."""

    why: str
    name: str = ""
    commit: str = ""
    is_of_main: bool = False


@dataclass(frozen=True)
class Landing:
    """A batch that has landed: from which commit the main branch moved to which, the changes, and when, or 0 if that isn't known."""

    batch: int
    base: str
    commit: str
    members: Tuple[Member, ...]
    at: int = field(default=0, compare=False)


@dataclass(frozen=True)
class Test:
    """A staged commit that is to be tested for a batch."""

    branch: str
    batch: int
    commit: str


@dataclass(frozen=True)
class Move:
    """A move of the main branch that the host didn't make, by the number of the fact that told of it. The person is none before somebody
    has looked into it, and empty if nobody made it who may."""

    number: int
    at: int
    before: str
    target: str
    person: Optional[str] = None


@dataclass
class Known:
    """What is known after some facts and answers."""

    # The role of each person, by what was told last.
    roles: Dict[str, str] = field(default_factory=dict)
    # The commit of the main branch, the one whose settings were handed in last, and why settings aren't taken; each may be empty.
    base: str = ""
    settings_of: str = ""
    refusal: str = ""
    # The text of the settings that were told last, or none if there were none; and of those that were taken last.
    settings: Optional[str] = None
    taken: str = ""
    clock: int = 0
    # When the last fact was written down.
    at: int = field(default=0, compare=False)
    # The branch on which something landed last, by its name.
    landed_on: str = ""
    # How many batches have ended, each of which may let another one be staged.
    ended: int = 0
    changes: Dict[int, Change] = field(default_factory=dict)
    people: Dict[int, People] = field(default_factory=dict)
    # The labels of each change, and whose last review of the head that it has approves it, or not.
    labels: Dict[int, Set[str]] = field(default_factory=dict)
    reviews: Dict[int, Dict[str, bool]] = field(default_factory=dict)
    # Since when each change is at the head that it has, by the clock of the code host.
    dated: Dict[int, Tuple[str, int]] = field(default_factory=dict)
    # What was reported of commits that are tested, or heads of open changes: the states by the names.
    reported: Dict[str, Dict[str, str]] = field(default_factory=dict)
    # In which batch each change was seen to wait last.
    queued: Dict[int, int] = field(default_factory=dict)
    # The changes that are approved, when each was approved last, and why others aren't any more at the heads that they have.
    approved: Set[int] = field(default_factory=set)
    approved_at: Dict[int, int] = field(default_factory=dict)
    ends: Dict[int, End] = field(default_factory=dict)
    # What has landed, by its commits, in their order; and by which commit each change has.
    landings: Dict[str, Landing] = field(default_factory=dict)
    landed_by: Dict[int, str] = field(default_factory=dict)
    # Who told first of a push of a head, of each change in the order in which that was told; and what each person has told so.
    pushers: Dict[int, Dict[str, str]] = field(default_factory=dict)
    claims: Dict[str, Dict[Tuple[int, str], None]] = field(default_factory=dict)
    # Which commits the host has made.
    made: Set[str] = field(default_factory=set)
    # Who told of moves of the main branch from one commit to another, and when; and the moves that nobody has looked into or nobody made.
    told_moves: Dict[Tuple[str, str, str], int] = field(default_factory=dict)
    moves: Dict[int, Move] = field(default_factory=dict)
    # The last batch of each branch, and the orders that are open, by their names, in the order in which they were given.
    batches: Dict[str, Batch] = field(default_factory=dict)
    orders: Dict[str, Union[Stage, Land]] = field(default_factory=dict)
    # What is to be tested on each branch, which batches of these are surely over, and how the checks of each have ended.
    over: Set[int] = field(default_factory=set)
    tests: Dict[str, Test] = field(default_factory=dict)
    results: Dict[str, Dict[str, str]] = field(default_factory=dict)
    # Which faults of a check people were told of already.
    faulted: Set[Tuple[int, str]] = field(default_factory=set)
    # Why nothing is staged and nothing lands at present, if somebody wants that, and what is held back meanwhile: what has succeeded, by
    # the number of the batch and the name of the status.
    freeze: Optional[Freeze] = None
    held: Dict[Tuple[int, str], Held] = field(default_factory=dict)
    # What has failed, by the number of the batch and the name of the check, and isn't told the bot before the base was tested; how checks
    # ended on the base that the main branch has; and whether it is known to be broken.
    doubts: Dict[Tuple[int, str], Doubted] = field(default_factory=dict)
    base_states: Dict[str, Dict[str, str]] = field(default_factory=dict)
    broken: Optional[Broken] = None
    # How long the last batches took, and what a command of the owner's is told.
    runs: Runs = field(default_factory=Runs)
    events: Events = field(default_factory=Events)
    # What was told the bot and has no answer yet.
    waiting: List[Delivery] = field(default_factory=list)
    # How often what has happened.
    counts: Counts = field(default_factory=Counts, compare=False)

    # What is read of it

    def phase(self, change: int) -> str:
        """The phase of a change. One that was never there is as a closed one."""
        found = self.changes.get(change)
        return found.phase if found else "closed"

    def head_of(self, change: int) -> str:
        found = self.changes.get(change)
        return found.head if found else ""

    def open_changes(self) -> List[int]:
        return sorted(change for change, it in self.changes.items() if it.phase == "open")

    def pusher(self, change: int, head: str) -> Optional[str]:
        """Who told first of a push of a head."""
        return self.pushers.get(change, {}).get(head)

    def unknown_moves(self) -> List[Move]:
        """The moves that nobody has looked into."""
        return [move for move in self.moves.values() if move.person is None]

    def strays(self) -> List[Move]:
        """The moves that nobody made who may."""
        return [move for move in self.moves.values() if move.person == ""]

    def batch_of(self, number: int) -> Optional[Batch]:
        """A batch, if it is the last one of its branch."""
        return next((batch for batch in self.batches.values() if batch.stage.batch == number), None)

    def people_of(self, change: int) -> People:
        return self.people.get(change, People())

    def landing_of(self, change: int) -> Optional[Landing]:
        """By which landing a change has landed."""
        return self.landings.get(self.landed_by.get(change, ""))

    def tests_of(self, commit: str) -> List[Test]:
        """What is tested by a commit, and isn't over."""
        return [test for test in self.tests.values() if test.commit == commit and test.batch not in self.over]

    def changes_at(self, commit: str) -> List[int]:
        """The changes of the batches that are tested by a commit, and the open changes of which it is the head."""
        batches = [batch for test in self.tests_of(commit) for batch in [self.batch_of(test.batch)] if batch]
        heads = [change for change, it in self.changes.items() if it.phase == "open" and it.head == commit]
        return sorted({*heads, *(change for batch in batches for change in batch.stage.changes)})

    # What changes it

    def learn(self, number: int, at: int, fact: Fact) -> List[Told]:
        """Takes in a fact, with its number and the time at which it was written down. What it tells the bot waits for its answer."""
        self.at = at
        self.waiting += passed_on(self, fact, delivered(number, fact, self))
        self.counts.learn(number, at, fact, self.tests_of(fact.commit) if isinstance(fact, Reported) else [])
        if isinstance(fact, (Merged, Conflicted, Delayed, Staged, Moved, NotMoved)):
            return self.take_outcome(fact)
        if isinstance(fact, (Opened, Pushed, Closed)):
            return self.take_change(fact)
        if isinstance(fact, (Ended, Faulted, Doubted, BaseEnded)):
            return self.take_check(fact)
        if isinstance(fact, (Said, NotTaken, Reported, Queued, Frozen, Thawed)):
            return self.take_news(fact)
        if isinstance(fact, (Labeled, Unlabeled, Reviewed, HeadDated)):
            return self.take_opinion(fact)
        if isinstance(fact, (PushTold, MoverFound, PushesForgotten)):
            self.take_push(at, fact)
        elif isinstance(fact, RoleGiven):
            self.roles[fact.person] = fact.role
        elif isinstance(fact, MainSeen):
            self.take_main(number, at, fact)
        elif isinstance(fact, Ticked):
            self.clock = fact.now
        else:
            restore(self, fact)
        return []

    def take_news(self, fact: Union[Said, NotTaken, Reported, Queued, Frozen, Thawed]) -> List[Told]:
        if isinstance(fact, Reported):
            return self.take_report(fact)
        if isinstance(fact, (Frozen, Thawed)):
            return self.take_freeze(fact)
        if isinstance(fact, Queued):
            self.queued[fact.change] = fact.batch
            return [Told(fact.change, words.queued(fact.batch, self.freeze))]
        why = fact.why if isinstance(fact, NotTaken) else objection_to(self, fact)
        objection = [Told(fact.change, f"Not taken: {why}")] if why else []
        return [Told(fact.change, words.quoted(fact.person, fact.text)), *objection]

    def take_opinion(self, fact: Union[Labeled, Unlabeled, Reviewed, HeadDated]) -> List[Told]:
        if isinstance(fact, HeadDated):
            self.dated[fact.change] = (fact.head, fact.at)
        elif isinstance(fact, Reviewed):
            self.reviews.setdefault(fact.change, {})[fact.person] = fact.approves
        elif isinstance(fact, Labeled):
            self.labels.setdefault(fact.change, set()).add(fact.label)
        else:
            self.labels.get(fact.change, set()).discard(fact.label)
        return []

    def take_main(self, number: int, at: int, fact: MainSeen) -> None:
        if self.base and fact.commit != self.base:
            self.moves[number] = Move(number, at, self.base, fact.commit)
        self.move_base(fact.commit)
        self.settings_of = fact.commit
        self.settings = fact.settings
        if fact.settings is None:
            self.refusal = words.NO_SETTINGS

    def take_change(self, fact: Union[Opened, Pushed, Closed]) -> List[Told]:
        before = self.changes.get(fact.change)
        people = self.people_of(fact.change)
        author = fact.author if isinstance(fact, Opened) else people.author
        self.people[fact.change] = replace(people, approvers=(), said_by="", author=author)
        # A head that moves ends all reviews, also if it comes back.
        self.reviews.pop(fact.change, None)
        if not isinstance(fact, Closed) and before and before.head != fact.head:
            self.ends.pop(fact.change, None)
        self.forget_reports(before.head if before else "", "" if isinstance(fact, Closed) else fact.head)
        if isinstance(fact, Closed):
            # It may have had other heads before it is opened again.
            self.dated.pop(fact.change, None)
            self.changes[fact.change] = Change("closed", before.head if before else "")
            return []
        if before and before.phase == "landed":
            self.changes[fact.change] = Change("landed", fact.head)
            return [Told(fact.change, words.pushed_late(fact.change, fact.head))]
        self.changes[fact.change] = Change("open", fact.head)
        self.drop_pushers(fact.change, fact.head)
        return []

    def forget_reports(self, *heads: str) -> None:
        """Has told anew what is reported of heads: the bot forgets it when a change leaves its head or is closed."""
        for head in heads:
            if not self.tests_of(head):
                self.reported.pop(head, None)

    def drop_pushers(self, change: int, head: str) -> None:
        """Drops who told of pushes of a change up to a head."""
        heads = list(self.pushers.get(change, {}))
        for it in heads[:heads.index(head) + 1] if head in heads else []:
            self.drop_claim(self.pushers[change][it], change, it)

    def drop_claim(self, person: str, change: int, head: str) -> None:
        del self.claims[person][(change, head)]
        del self.pushers[change][head]
        if not self.pushers[change]:
            del self.pushers[change]
        if not self.claims[person]:
            del self.claims[person]

    def take_claim(self, person: str, change: int, head: str) -> None:
        """Keeps who told of a push. Of what one person has told so the oldest goes, if there is much: anybody may tell anything."""
        if head in self.pushers.get(change, {}):
            return
        if len(self.claims.get(person, {})) >= MOST_CLAIMS:
            self.drop_claim(person, *next(iter(self.claims[person])))
        self.pushers.setdefault(change, {})[head] = person
        self.claims.setdefault(person, {})[(change, head)] = None

    def take_told_move(self, at: int, before: str, target: str, person: str) -> None:
        """Keeps who told of a move of the main branch, in the same way."""
        told = [move for move in self.told_moves if move[2] == person]
        if len(told) >= MOST_TOLD_MOVES and (before, target, person) not in told:
            del self.told_moves[told[0]]
        self.told_moves[(before, target, person)] = at

    def take_push(self, at: int, fact: Union[PushTold, MoverFound, PushesForgotten]) -> None:
        if isinstance(fact, PushTold):
            for change, head in fact.heads:
                self.take_claim(fact.person, change, head)
            for before, target in fact.moves[-MOST_TOLD_MOVES:]:
                self.take_told_move(at, before, target, fact.person)
        elif isinstance(fact, PushesForgotten):
            self.told_moves = {move: when for move, when in self.told_moves.items() if when > fact.up_to}
        else:
            move = self.moves.pop(fact.move, None)
            if move and not fact.person:
                self.moves[move.number] = Move(move.number, move.at, move.before, move.target, "")
            self.told_moves = {key: when for key, when in self.told_moves.items() if key[1] not in fact.used}

    def take_outcome(self, fact: Union[Merged, Conflicted, Delayed, Staged, Moved, NotMoved]) -> List[Told]:
        """Takes in what became of an order. One that isn't open, as it was replaced by a later one, has no outcome any more; a merge of it
        is still one of the host's."""
        order = self.orders.get(fact.order)
        if isinstance(fact, Merged):
            self.made.add(fact.commit)
        if isinstance(order, Land) and isinstance(fact, (Moved, NotMoved)):
            del self.orders[fact.order]
            if isinstance(fact, Moved):
                self.move_base(order.commit)
                self.landed_on = fact.branch
        batch = self.batch_of(order.batch) if isinstance(order, Stage) else None
        if batch is None:
            return []
        if isinstance(fact, Merged):
            self.batches[batch.stage.branch] = replace(batch, commit=fact.commit)
        elif isinstance(fact, Conflicted) or (isinstance(fact, Staged) and batch.commit):
            del self.orders[fact.order]
        if isinstance(fact, Conflicted):
            self.note_event("conflict", batch=batch.stage.batch, changes=batch.stage.changes, change=fact.change, said=fact.why)
            return [Told(change, words.conflict(batch.stage, fact.change, fact.why)) for change in batch.stage.changes]
        if isinstance(fact, Delayed):
            return [Told(change, words.delayed(batch.stage, fact.why)) for change in batch.stage.changes]
        return []

    def take_check(self, fact: Union[Ended, Faulted, Doubted, BaseEnded]) -> List[Told]:
        batch = self.batch_of(fact.batch)
        if batch is None:
            return []
        if isinstance(fact, Doubted):
            return self.take_doubt(batch, fact)
        if isinstance(fact, BaseEnded):
            return self.take_base_end(batch, fact)
        stage = batch.stage
        if isinstance(fact, Ended):
            self.results.setdefault(stage.branch, {})[fact.name] = fact.state
            self.note_check(batch, fact.name, fact.state, fact.said)
            text = f"{words.result(stage, fact.name, fact.state, fact.said)}{words.output_at(fact.output)}"
            return [Told(change, text) for change in stage.changes]
        if (fact.batch, fact.name) in self.faulted:
            return []
        self.faulted.add((fact.batch, fact.name))
        return [Told(change, words.faulted(stage, fact.name, fact.said)) for change in stage.changes]

    def take_doubt(self, batch: Batch, fact: Doubted) -> List[Told]:
        """Takes in that a check has failed, and that this is told the bot when the base was tested."""
        stage = batch.stage
        self.doubts = {key: it for key, it in self.doubts.items() if key[0] == fact.batch}
        self.doubts[(fact.batch, fact.name)] = fact
        self.results.setdefault(stage.branch, {})[fact.name] = fact.state
        self.note_check(batch, fact.name, fact.state, fact.said)
        text = f"{words.result(stage, fact.name, fact.state, fact.said)} {words.doubted(stage, fact.name)}{words.output_at(fact.output)}"
        return [Told(change, text) for change in stage.changes]

    def take_base_end(self, batch: Batch, fact: BaseEnded) -> List[Told]:
        """Takes in how a check has ended on the base alone. People are told if the batch has failed it; and if the main branch is broken,
        all whose changes are approved."""
        stage = batch.stage
        if stage.base == self.base:
            self.base_states.setdefault(stage.base, {})[fact.name] = fact.state
        if self.doubts.pop((fact.batch, fact.name), None) is None:
            return []
        told = {*self.approved, *stage.changes} if self.note_broken(stage, fact) else {*stage.changes}
        text = words.on_base(stage, fact.name, fact.state, fact.said, self.since_of(stage.base)) + words.output_at(fact.output)
        return [Told(change, text) for change in sorted(told)]

    def note_broken(self, stage: Stage, fact: BaseEnded) -> bool:
        """Notes whether the main branch is broken, by a check of its commit alone. The first such check stands for all."""
        if fact.state != "failure" or stage.base != self.base:
            return False
        since = self.since_of(stage.base)
        self.broken = self.broken or Broken(fact.name, stage.base, fact.said, fact.output, self.at, since)
        self.note_event("broken", name=fact.name, base=stage.base, said=fact.said, since=since)
        return True

    def since_of(self, base: str) -> str:
        """How the main branch came to a commit."""
        landing = self.landings.get(base)
        return words.since_landing(landing.batch, [it.change for it in landing.members]) if landing else words.SINCE_PUSH

    def move_base(self, commit: str) -> None:
        """Takes the main branch to a commit. Nothing is known of that by itself before a check has run there."""
        if commit != self.base:
            self.base, self.base_states, self.broken = commit, {}, None

    def take_freeze(self, fact: Union[Frozen, Thawed]) -> List[Told]:
        if isinstance(fact, Frozen):
            self.freeze = Freeze(fact.person, fact.reason, self.freeze.at if self.freeze else self.at)
            self.runs.freeze(self.at)
            self.note_event("frozen", person=fact.person, reason=fact.reason)
            text = words.frozen(self.freeze)
        else:
            self.waiting += released(self)
            self.runs.thaw(self.at)
            self.freeze = None
            self.held.clear()
            self.note_event("thawed", person=fact.person)
            text = words.thawed(fact.person)
        return [Told(change, text) for change in sorted(self.approved)]

    def note_event(self, kind: str, **fields: Json) -> None:
        self.events.add(self.at, kind, fields)

    def note_check(self, batch: Batch, name: str, state: str, said: str) -> None:
        """Notes that a check of a batch has failed, if it has."""
        if state in ("failure", "error"):
            stage = batch.stage
            self.note_event(
                "failure", batch=stage.batch, branch=stage.branch, changes=stage.changes, commit=batch.commit, name=name, state=state,
                said=said,
            )

    def take_report(self, fact: Reported) -> List[Told]:
        """Takes in what somebody reports of a commit. That a check has begun isn't told."""
        told: List[Told] = []
        self.reported = {commit: states for commit, states in self.reported.items() if self.changes_at(commit)}
        self.reported.setdefault(fact.commit, {})[fact.name] = fact.state
        for test in self.tests_of(fact.commit):
            self.results.setdefault(test.branch, {})[fact.name] = fact.state
            batch = self.batch_of(test.batch)
            said = words.reported(fact.person, fact.description)
            if batch and fact.state != "pending":
                self.note_check(batch, fact.name, fact.state, said)
                text = words.result(batch.stage, fact.name, fact.state, said)
                told += [Told(change, text) for change in batch.stage.changes]
        return told

    def hear(self, answer: Answer) -> List[Told]:
        """Takes in the answer to the first delivery that has none."""
        delivery = self.waiting.pop(0)
        self.counts.hear(self.at, delivery, answer)
        told: List[Told] = []
        if delivery.event == "comment":
            told += self.take_replies(delivery, answer)
        elif delivery.event == "settings":
            self.refusal = "" if is_done(answer) else words.first_denial(answer)
            self.taken = self.taken if self.refusal else delivery.text
        elif delivery.event == "staged" and is_done(answer) and isinstance(delivery.order, Stage):
            told += self.begin_test(delivery.order)
        elif delivery.event == "base" and is_done(answer) and isinstance(delivery.order, Land):
            told += self.note_landing(delivery.order)
        for place, order in enumerate(orders_of(answer)):
            told += self.take_order(f"{delivery.id}.{place}", delivery, order)
        self.note_end(delivery, answer)
        self.runs.take(self.at, delivery.line, answer)
        return told

    def take_replies(self, delivery: Delivery, answer: Answer) -> List[Told]:
        """Tells what became of each command of a comment. If there aren't as many as there are replies, it tells the replies alone."""
        change, text = delivery.changes[0], []
        commands: List[Optional[Command]] = [*commands_in(delivery.text)]
        if len(commands) != len(answer):
            # Who approved can't be told then, and nobody is named.
            commands = [None] * len(answer)
            self.people[change] = replace(self.people_of(change), approvers=(), said_by="")
        for command, reply in zip(commands, answer):
            people = self.people_of(change)
            if isinstance(reply, Denied) or command is None:
                text.append(words.reply_in_words(reply))
            else:
                again = people.last if command.kind is Kind.RETRY else None
                text.append(words.acted(again or command, again is not None, self.head_of(change), people.author))
                self.people[change] = after_command(people, command, delivery.person)
                self.note_approval(change, (again or command).kind)
        return [Told(change, "\n".join(text))]

    def note_approval(self, change: int, kind: Kind) -> None:
        """Notes whether a change is approved after a command that has acted."""
        if kind in (Kind.APPROVE, Kind.APPROVE_FOR):
            self.approved.add(change)
            self.approved_at[change] = self.at
            self.ends.pop(change, None)
        elif kind is Kind.WITHDRAW:
            self.note_end_of_approval(change, End(words.WITHDRAWN))

    def note_end_of_approval(self, change: int, end: End) -> None:
        """Notes why a change isn't approved any more. A notice may be about a try alone."""
        if change in self.approved:
            self.approved.discard(change)
            self.ends[change] = end

    def begin_test(self, stage: Stage) -> List[Told]:
        batch = self.batch_of(stage.batch)
        if batch is None or not batch.commit:
            return []
        self.batches[stage.branch] = replace(batch, staged=self.clock)
        self.tests[stage.branch] = Test(stage.branch, stage.batch, batch.commit)
        self.results[stage.branch] = {}
        # What was reported of the commit before was told of a head at the most, and is news again.
        self.reported.pop(batch.commit, None)
        return [Told(change, words.staged(stage, batch.commit)) for change in stage.changes]

    def note_landing(self, land: Land) -> List[Told]:
        """Notes which changes have landed."""
        batch = self.batch_of(land.batch)
        if batch is None:
            return []
        for change, head in batch.stage.heads:
            self.changes[change] = Change("landed", head)
            self.landed_by[change] = land.commit
            self.approved.discard(change)
        self.landings[land.commit] = Landing(land.batch, land.base, land.commit, batch.members, self.at)
        approvals = {member.change: words.approval(member) for member in batch.members}
        self.note_event(
            "landing", batch=land.batch, changes=batch.stage.changes, base=land.base, commit=land.commit, branch=self.landed_on,
            approvals={str(member.change): words.approval(member) for member in batch.members},
        )
        text = words.landed(batch.stage, self.landed_on, land.commit)
        return [Told(change, f"{text}{words.approved_by(approvals.get(change, ''))}") for change in batch.stage.changes]

    def take_order(self, name: str, delivery: Delivery, order: Order) -> List[Told]:
        """Takes in an order. A batch on a branch replaces the one before it there, with its order and its test."""
        if isinstance(order, Notice):
            return [self.take_notice(order)]
        if isinstance(order, Land):
            if self.batch_of(order.batch) is None:
                raise Unread(f"an order to land batch {order.batch}, which isn't the last one that was to be staged")
            self.orders[name] = order
            return []
        self.orders = {it: other for it, other in self.orders.items() if isinstance(other, Land) or other.branch != order.branch}
        self.orders[name] = order
        self.batches[order.branch] = Batch(name, order, delivery.now, members=self.members_of(order))
        self.tests.pop(order.branch, None)
        self.results.pop(order.branch, None)
        self.faulted = {(batch, it) for batch, it in self.faulted if self.batch_of(batch)}
        return []

    def take_notice(self, order: Notice) -> Told:
        batch, is_of_main = self.batches.get("staging"), False
        if order.why not in words.TRIES:
            own = batch if batch and order.change in batch.stage.changes else None
            is_of_main = order.why == "Failed" and is_failure_of_main(self, own, order.name)
            self.note_end_of_approval(order.change, End(order.why, order.name, own.commit if own else "", is_of_main))
        text = words.notice_of_main(order) if is_of_main else words.notice(order)
        self.note_event("notice", change=order.change, why=order.why, name=order.name, text=text)
        return Told(order.change, text)

    def members_of(self, stage: Stage) -> Tuple[Member, ...]:
        """The changes of a batch with their people, as they are now."""
        people = {change: self.people_of(change) for change in stage.changes}
        is_try = stage.branch == "trying"
        if is_try:
            return tuple(Member(it, head, people[it].author) for it, head in stage.heads)
        return tuple(Member(it, head, people[it].author, people[it].approvers, people[it].said_by) for it, head in stage.heads)

    def note_end(self, delivery: Delivery, answer: Answer) -> None:
        """Notes whether a batch has ended by this, so that the next one needn't wait for its reading of the clock: it has landed, was
        refused, can't be merged, has failed or took too long, or was a try that has passed."""
        is_end = delivery.order is not None and delivery.event in ("base", "refused", "conflict")
        has_failed = delivery.event == "status" and delivery.state in ("failure", "error")
        notices = [order for order in orders_of(answer) if isinstance(order, Notice)]
        self.ended += is_end or has_failed or any(notice.why in ENDS for notice in notices)
        self.over = {batch for batch in self.over if self.batch_of(batch)}
        if is_end and isinstance(delivery.order, (Stage, Land)):
            self.over.add(delivery.order.batch)
        for notice in notices:
            batch = self.batches.get("trying" if notice.why in words.TRIES else "staging")
            if batch and batch.commit and notice.change in batch.stage.changes and notice.why in (*ENDS, "Failed"):
                self.over.add(batch.stage.batch)


def after_command(people: People, command: Command, person: str) -> People:
    """The people of a change after a command of somebody that has acted."""
    meant = people.last if command.kind is Kind.RETRY and people.last else command
    last = meant if meant.kind in REPEATED else people.last
    if meant.kind is Kind.APPROVE:
        return replace(people, approvers=(person,), said_by=person, last=last)
    if meant.kind is Kind.APPROVE_FOR:
        return replace(people, approvers=meant.people, said_by=person, last=last)
    return replace(people, approvers=(), said_by="", last=last) if meant.kind is Kind.WITHDRAW else replace(people, last=last)
