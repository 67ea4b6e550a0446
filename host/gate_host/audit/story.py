"""What was said and ordered up to each order to land, as a function of the deliveries and their answers."""
import re
from dataclasses import dataclass, field
from typing import Dict, List, Mapping, Optional, Sequence, Tuple

from .entries import Entry, Fact, Finding, Land, Notice, Order, Stage, number_of, table_in, text_of
from .grammar import Act, acts_in

# The notices of a try, which end no approval.
OF_TRIES = ("TryPassed", "TryFailed")
# A delivery that isn't the report of an order is named so.
OF_FACT = re.compile(r"[a-z]+-[0-9]+")


@dataclass(frozen=True)
class Approval:
    """That a head was approved: for whom, by whom, by which delivery, and when."""

    head: str
    approvers: Tuple[str, ...]
    person: str
    id: str
    at: Optional[int]


@dataclass(frozen=True)
class Landing:
    """An order to land, by its name, with what was said before it: the order to stage its batch, whether its commit was handed in as
    staged, the last word of each status of it, the settings, and the approvals."""

    name: str
    at: Optional[int]
    land: Land
    stage: Optional[Stage]
    is_staged: bool
    states: Mapping[str, str]
    settings: Optional[str]
    approvals: Mapping[int, Approval]


@dataclass(frozen=True)
class Base:
    """A base that was handed in and taken: by which delivery, of which fact, when, and whether it is told as a landing. That is so if it
    reports an order, or is the commit of the one that was open."""

    id: str
    fact: int
    at: Optional[int]
    commit: str
    is_landing: bool


@dataclass
class Story:
    """All that was said, up to some delivery. The orders to land are in the order in which they were given."""

    landings: List[Landing] = field(default_factory=list)
    bases: List[Base] = field(default_factory=list)
    # What became of an order to land: `base`, `refused`, or `over` if another base came first.
    outcomes: Dict[str, str] = field(default_factory=dict)
    findings: List[Finding] = field(default_factory=list)
    heads: Dict[int, str] = field(default_factory=dict)
    approvals: Dict[int, Approval] = field(default_factory=dict)
    last_acts: Dict[int, Act] = field(default_factory=dict)
    stages: Dict[int, Stage] = field(default_factory=dict)
    # The commit of each batch that was handed in as staged, and the last word of each status of a commit since then.
    staged: Dict[int, str] = field(default_factory=dict)
    states: Dict[str, Dict[str, str]] = field(default_factory=dict)
    settings: Optional[str] = None

    def follow(self, entry: Entry) -> None:
        """Takes in a delivery, and then what was ordered by it. Of a comment each act is taken in with its reply."""
        if entry.event == "comment":
            self.take_comment(entry)
            return
        if entry.is_done:
            self.take_fact(entry)
        self.take_orders(entry, [order for reply in entry.replies for order in reply.orders])

    def take_fact(self, entry: Entry) -> None:
        body = entry.body
        change, commit = number_of(body.get("change")), text_of(body.get("commit"))
        if entry.event in ("opened", "pushed"):
            self.take_head(change, text_of(body.get("head")), entry.event == "opened")
        elif entry.event == "closed":
            self.approvals.pop(change, None)
        elif entry.event == "settings":
            self.settings = text_of(body.get("text"))
        elif entry.event == "staged":
            self.staged[number_of(body.get("batch"))] = commit
            self.states[commit] = {}
        elif entry.event == "status":
            self.states.setdefault(commit, {})[text_of(body.get("name"))] = text_of(body.get("state"))
        elif entry.event == "base":
            self.take_base(entry, commit)
        elif entry.event == "refused":
            self.settle("refused")

    def take_head(self, change: int, head: str, is_opened: bool) -> None:
        if is_opened or self.heads.get(change) != head:
            self.approvals.pop(change, None)
        self.heads[change] = head

    def take_base(self, entry: Entry, commit: str) -> None:
        """A base that is the commit of the order to land is its landing, whoever tells of it."""
        landing = self.open_landing()
        has_landed = landing is not None and landing.land.commit == commit
        self.bases.append(Base(entry.id, entry.fact, entry.at, commit, has_landed or not OF_FACT.fullmatch(entry.id)))
        if landing and has_landed:
            for change, _ in landing.stage.heads if landing.stage else ():
                self.approvals.pop(change, None)
            self.settle("base")
        else:
            self.settle("over")

    def open_landing(self) -> Optional[Landing]:
        """The last order to land, if nothing has settled it."""
        return self.landings[-1] if self.landings and self.landings[-1].name not in self.outcomes else None

    def settle(self, how: str) -> None:
        landing = self.open_landing()
        if landing:
            self.outcomes[landing.name] = how

    def take_comment(self, entry: Entry) -> None:
        change, acts = number_of(entry.body.get("change")), acts_in(text_of(entry.body.get("text")))
        if len(acts) != len(entry.replies):
            said = f"the comment {entry.id} has {len(acts)} commands, and its answer {len(entry.replies)} replies"
            self.findings.append(Finding("altered", said, entry.id))
        for act, reply in zip(acts, entry.replies):
            if reply.is_done:
                self.take_act(entry, change, act)
        # A command gives no orders. If an answer has some all the same, they come after it.
        self.take_orders(entry, [order for reply in entry.replies for order in reply.orders])

    def take_act(self, entry: Entry, change: int, act: Act) -> None:
        """An act that was done. A `retry` does what the last act was that it can repeat, and isn't one itself."""
        meant = self.last_acts.get(change, act) if act.word == "retry" else act
        if meant.word in ("r+", "r="):
            person = text_of(entry.body.get("person")).lower()
            person = person[1:] if person.startswith("@") else person
            approvers = meant.names or (person,)
            self.approvals[change] = Approval(self.heads.get(change, ""), approvers, person, entry.id, entry.at)
        elif meant.word == "r-":
            self.approvals.pop(change, None)
        if act.word in ("r+", "r=", "try"):
            self.last_acts[change] = act

    def take_orders(self, entry: Entry, orders: Sequence[Order]) -> None:
        """Takes in the orders of an answer. Each is named by its place among them."""
        for place, order in enumerate(orders):
            self.take_order(entry, f"{entry.id}.{place}", order)

    def take_order(self, entry: Entry, name: str, order: Order) -> None:
        if isinstance(order, Stage):
            self.stages[order.batch] = order
        elif isinstance(order, Notice):
            if order.why not in OF_TRIES:
                self.approvals.pop(order.change, None)
        else:
            stage = self.stages.get(order.batch)
            changes = [change for change, _ in stage.heads] if stage else []
            self.landings.append(Landing(
                name, entry.at, order, stage, self.staged.get(order.batch) == order.commit, dict(self.states.get(order.commit, {})),
                self.settings, {change: self.approvals[change] for change in changes if change in self.approvals},
            ))


def story_of(entries: Sequence[Entry]) -> Story:
    """All that was said and ordered."""
    story = Story()
    for entry in entries:
        story.follow(entry)
    return story


def movers_in(facts: Sequence[Fact]) -> Dict[int, str]:
    """Whom the host has down for each move of the main branch, by the number of the fact that told of it. It is empty if nobody moved the
    branch who may. The last word counts, as the owner may take a move for right later."""
    found = [table_in(fact.body) or {} for fact in facts if fact.kind == "MoverFound"]
    return {number_of(body.get("move")): text_of(body.get("person")) for body in found}
