"""What became of the changes by deliveries and answers: of the journal, or of a play of it."""
from dataclasses import dataclass, field
from typing import Dict, List, Mapping, Set, Tuple

from ..audit.entries import number_of, table_in, text_of
from ..core.commands import REPEATED, Command, Kind, commands_in
from ..core.orders import Answer, Done, Json, Land, Notice, Stage, is_done, orders_of
from ..core.words import TRIES
from .evidence import Basis
from .history import TERMINAL

# The notices by which a change is found to be at fault.
AT_FAULT = ("Conflict", "Failed", "TimedOut")
APPROVALS = (Kind.APPROVE, Kind.APPROVE_FOR)


@dataclass(frozen=True)
class Landed:
    """When a change landed, in a batch of how many, and on what that rests."""

    at: int
    size: int
    basis: Basis


@dataclass(frozen=True)
class Found:
    """That a change was found to be at fault: when, why, and in how many batches it was for that."""

    change: int
    at: int
    why: str
    batches: int


@dataclass
class Tally:
    """What became of all changes so far."""

    landed: Dict[int, Landed] = field(default_factory=dict)
    found: List[Found] = field(default_factory=list)
    batches: int = 0
    checks: int = 0
    # Why the approval of each change has ended last, or why it wasn't approved last; and on what the last word about each change rests.
    ends: Dict[int, str] = field(default_factory=dict)
    basis: Dict[int, Basis] = field(default_factory=dict)
    approved: Set[int] = field(default_factory=set)
    # When each change was approved last.
    since: Dict[int, int] = field(default_factory=dict)
    tried: Set[int] = field(default_factory=set)
    last: Dict[int, Command] = field(default_factory=dict)
    # In how many batches each change was since it was approved, what each batch has, and which commit lands which.
    times: Dict[int, int] = field(default_factory=dict)
    members: Dict[int, Tuple[int, ...]] = field(default_factory=dict)
    lands: Dict[str, int] = field(default_factory=dict)
    staged: Set[str] = field(default_factory=set)

    @property
    def is_busy(self) -> bool:
        """Whether a change is approved or tried, so that a batch waits or runs."""
        return bool(self.approved or self.tried)

    def take(self, at: int, body: Mapping[str, Json], answer: Answer, basis: Basis = Basis.KNOWN) -> None:
        """Takes in a delivery with its answer. All that it brings about rests on the same."""
        event = text_of(body.get("event"))
        if event == "comment":
            self.take_comment(at, body, answer, basis)
        elif event == "staged" and is_done(answer):
            self.staged.add(text_of(body.get("commit")))
        elif event == "status" and is_done(answer) and text_of(body.get("commit")) in self.staged:
            self.checks += text_of(body.get("state")) in TERMINAL
        elif event == "base" and is_done(answer) and text_of(body.get("commit")) in self.lands:
            self.land(at, self.members.get(self.lands[text_of(body.get("commit"))], ()), basis)
        for order in orders_of(answer):
            if isinstance(order, Stage) and order.branch == "staging":
                self.batches += 1
                self.members[order.batch] = tuple(order.changes)
                for change in order.changes:
                    self.times[change] = self.times.get(change, 0) + 1
            elif isinstance(order, Land):
                self.lands[order.commit] = order.batch
            elif isinstance(order, Notice):
                self.take_notice(at, order, basis)

    def take_line(self, at: int, line: str, answer: Answer) -> None:
        """The same of a line of a journal."""
        self.take(at, table_in(line) or {}, answer)

    def take_comment(self, at: int, body: Mapping[str, Json], answer: Answer, basis: Basis) -> None:
        change = number_of(body.get("change"))
        for command, reply in zip(commands_in(text_of(body.get("text"))), answer):
            meant = self.last.get(change, command) if command.kind is Kind.RETRY else command
            if not isinstance(reply, Done):
                if meant.kind in APPROVALS and change not in self.approved and change not in self.landed:
                    self.ends[change], self.basis[change] = f"isn't approved ({reply.rule})", basis
                continue
            if meant.kind in APPROVALS:
                self.approved.add(change)
                self.times[change], self.since[change] = 0, at
                self.ends.pop(change, None)
            elif meant.kind is Kind.TRY:
                self.tried.add(change)
            elif meant.kind is Kind.WITHDRAW:
                self.approved.discard(change)
                self.ends[change] = "its approval is taken back"
            elif meant.kind is Kind.TRY_CANCEL:
                self.tried.discard(change)
            if command.kind in REPEATED:
                self.last[change] = command
            self.basis[change] = basis

    def take_notice(self, at: int, notice: Notice, basis: Basis) -> None:
        change = notice.change
        if notice.why in TRIES or notice.why in ("Pushed", "Closed"):
            self.tried.discard(change)
        if notice.why in TRIES:
            return
        why = f"{notice.why}, {notice.name}" if notice.name else notice.why
        if change in self.approved and notice.why in AT_FAULT:
            self.found.append(Found(change, at, why, self.times.get(change, 0)))
        self.approved.discard(change)
        self.ends[change], self.basis[change] = f"leaves the queue ({why})", basis

    def land(self, at: int, changes: Tuple[int, ...], basis: Basis) -> None:
        for change in changes:
            self.landed[change] = Landed(at, len(changes), basis)
            self.basis[change] = basis
            self.approved.discard(change)
            self.tried.discard(change)
            self.ends.pop(change, None)
