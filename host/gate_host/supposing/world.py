"""Plays what happened once more: what people and the world did comes at the same times, and what the bot orders a made-up world does."""
import heapq
import json
from dataclasses import dataclass, field
from hashlib import sha1
from typing import Callable, Dict, List, Mapping, Optional, Sequence, Set, Tuple

from ..audit.entries import number_of, text_of
from ..core.orders import Answer, Json, Land, Notice, Order, Stage, answer_in, is_done, orders_of
from .evidence import NEVER, Basis, Evidence
from .history import Content, Happening, Head, History, Seen
from .tally import Tally

FAILING = ("failure", "error")
# The notices by which a batch ends that no delivery ends.
ENDS = ("TimedOut", "TryPassed", "TryFailed")
# After a batch has ended the clock is read at once, which is a second later; and a reading that the journal has soon after stands for it.
SECOND = 1
# For so long a play goes on after the end of the journal, while a batch waits or runs.
MOST_AFTER = 86400
# What was made up comes after what happened in the same second.
LAST = 1 << 62


@dataclass(frozen=True)
class Rules:
    """Which settings count: the text that stands in place of each that was taken, or none if they stay. And which statuses each text
    requires, unless it is refused."""

    text: Optional[str]
    required: Mapping[str, Sequence[str]]


@dataclass(order=True)
class Due:
    """Something that the made-up world has to tell: when, and in which order of those of the same second."""

    at: int
    rank: int
    number: int
    id: str = field(compare=False)
    fields: Mapping[str, Json] = field(compare=False)
    basis: Basis = field(compare=False, default=Basis.KNOWN)


@dataclass
class Batch:
    """The batch that runs on a branch: its order, and onto which content it is."""

    stage: Stage
    content: Content
    # How often it was ordered before, and the commit as which it is staged.
    time: int
    commit: str


@dataclass
class Guesses:
    """On what the answers of the made-up world rest: how many merges and checks on each, and which checks were never seen."""

    merges: Dict[Basis, int] = field(default_factory=dict)
    checks: Dict[Basis, int] = field(default_factory=dict)
    unseen: Set[str] = field(default_factory=set)
    replaced: int = 0

    def count(self, of: Dict[Basis, int], basis: Basis) -> None:
        of[basis] = of.get(basis, 0) + 1


@dataclass(frozen=True)
class Played:
    """What a play came to: what became of the changes, on what that rests, which changes still wait, and when it ended."""

    tally: Tally
    guesses: Guesses
    waiting: Tuple[int, ...]
    end: int


class World:
    """A play of a history under some settings, with a bot that answers lines."""

    def __init__(self, history: History, evidence: Evidence, rules: Rules, hand_in: Callable[[str], str]):
        self.history, self.evidence, self.rules, self.hand_in = history, evidence, rules, hand_in
        self.tally, self.guesses = Tally(), Guesses()
        self.content = Content()
        self.running: Dict[str, Batch] = {}
        self.due: List[Due] = []
        self.tried: Dict[Tuple[Content, Tuple[Head, ...]], int] = {}
        self.names = {it.id for it in history.happenings}
        self.made = 0
        self.required: Sequence[str] = ()
        # On what everything rests since nothing waited.
        self.basis = Basis.KNOWN
        # The last reading of the clock, at which time, and the next one that is made up.
        self.clock, self.read_at, self.next_reading = 0, 0, 0
        self.ticks = [it.at for it in history.happenings if it.event == "tick"]
        self.ticks_seen = 0

    def play(self) -> Played:
        """Lets all happen, and goes on until nothing waits."""
        at = self.history.begin
        for happening in self.history.happenings:
            at = max(at, happening.at)
            self.pass_until(at, happening.place)
            self.take(happening, at)
        at = self.pass_until(self.history.end + MOST_AFTER, LAST)
        return Played(self.tally, self.guesses, tuple(sorted(self.tally.approved)), at)

    def pass_until(self, at: int, rank: int) -> int:
        """Has the made-up world tell what is due before a time. Gives when it has told the last of it."""
        last = self.history.begin
        while True:
            reading = self.next_reading if self.tally.is_busy and self.next_reading else None
            first = self.due[0] if self.due else None
            if first and (first.at, first.rank) < (at, rank) and (reading is None or first.at <= reading):
                heapq.heappop(self.due)
                last = first.at
                self.tell(first)
            elif reading is not None and reading < at:
                last = reading
                self.read_clock(reading)
            else:
                return last

    # What happens

    def take(self, happening: Happening, at: int) -> None:
        """Hands in what people or the world did."""
        fields, event = happening.fields, happening.event
        if event == "tick":
            self.ticks_seen += 1
            self.take_tick(happening, at)
            return
        if event == "settings":
            fields = self.settings_in(happening)
        answer = self.give(happening.id, fields, at)
        if event == "base" and is_done(answer):
            self.content = Content(text_of(fields.get("commit")), self.content.landed)
            self.end_batch("staging")
        elif event == "settings" and is_done(answer):
            self.required = self.rules.required.get(text_of(fields.get("text")), ())

    def take_tick(self, happening: Happening, at: int) -> None:
        """A reading of the clock that the journal has. While nothing waits none is told."""
        now = number_of(happening.fields.get("now"))
        if not self.tally.is_busy:
            self.clock, self.read_at = max(self.clock, now), at
            return
        self.tick(happening.id, max(self.clock, now), at)

    def settings_in(self, happening: Happening) -> Mapping[str, Json]:
        """The settings that are handed in in place of those that were taken. Those that were refused stay as they are."""
        if self.rules.text is None or not happening.is_done:
            return happening.fields
        self.guesses.replaced += 1
        return {**happening.fields, "text": self.rules.text}

    # The clock

    def read_clock(self, at: int) -> None:
        """A reading of the clock that the journal hasn't."""
        self.tick(self.new_name("tick"), max(self.clock, self.clock + at - self.read_at), at)

    def tick(self, id: str, now: int, at: int) -> None:
        self.clock, self.read_at = now, at
        self.plan_reading(at + self.history.pause, self.history.pause // 2)
        self.give(id, {"event": "tick", "now": now}, at)

    def plan_reading(self, at: int, slack: int) -> None:
        """Plans the next reading. One that the journal has until soon after that stands for it."""
        coming = self.ticks[self.ticks_seen] if self.ticks_seen < len(self.ticks) else None
        is_coming = coming is not None and coming <= at + slack
        self.next_reading = coming + 1 if is_coming and coming is not None else at

    # The made-up world

    def tell(self, due: Due) -> None:
        """Tells what became of an order or of a check, unless the batch is over."""
        event, batch = text_of(due.fields.get("event")), number_of(due.fields.get("batch"))
        branch = next((it for it, run in self.running.items() if run.stage.batch == batch), None)
        if branch is None:
            return
        fields = {name: value for name, value in due.fields.items() if event != "status" or name != "batch"}
        self.basis = max(self.basis, due.basis)
        answer = self.give(due.id, fields, due.at)
        if event == "staged" and is_done(answer) and branch in self.running:
            self.stage_checks(self.running[branch], due.at)
        elif event == "conflict" and is_done(answer):
            self.end_batch(branch)
            self.hurry(due.at)
        elif event == "status" and due.fields.get("state") in FAILING and is_done(answer) and due.fields.get("name") in self.required:
            self.end_batch(branch)
            self.hurry(due.at)

    def stage_checks(self, run: Batch, at: int) -> None:
        """Has the required checks of a staged commit run."""
        for name in self.required:
            check = self.evidence.check_of(name, run.content, run.stage.heads, run.time)
            self.guesses.count(self.guesses.checks, check.basis)
            self.guesses.unseen |= {name} if check.is_unseen else set()
            if check.state == NEVER:
                # That it never ends has its batch wait for its time.
                self.basis = max(self.basis, check.basis)
                continue
            fields: Dict[str, Json] = {
                "event": "status", "commit": run.commit, "name": name, "state": check.state, "batch": run.stage.batch,
            }
            self.plan(self.new_name("status"), at + check.after, fields, check.basis, check.seen)

    def do(self, name: str, order: Order, at: int) -> None:
        """Does what the bot orders."""
        if isinstance(order, Stage):
            self.stage(name, order, at)
        elif isinstance(order, Land):
            self.land(name, order, at)
        elif isinstance(order, Notice) and order.why in ENDS:
            self.hurry(at)

    def stage(self, name: str, order: Stage, at: int) -> None:
        heads = tuple(order.heads)
        time = self.tried.get((self.content, heads), 0)
        self.tried[(self.content, heads)] = time + 1
        merge = self.evidence.merge_of(self.content, heads, time)
        self.guesses.count(self.guesses.merges, merge.basis)
        commit = made_up(f"{name} {order.base} {heads}")
        self.running[order.branch] = Batch(order, self.content, time, commit)
        fields: Dict[str, Json] = {"event": "staged" if merge.is_clean else "conflict", "batch": order.batch}
        self.plan(name, at + merge.after, {**fields, "commit": commit} if merge.is_clean else fields, merge.basis, merge.seen)

    def land(self, name: str, order: Land, at: int) -> None:
        """A landing comes at once. The content has the heads from then on."""
        run = next((it for it in self.running.values() if it.stage.batch == order.batch), None)
        if run is None:
            return
        if is_done(self.give(name, {"event": "base", "commit": order.commit}, at)):
            self.content = self.content.with_heads(run.stage.heads)
            self.end_batch("staging")
            self.hurry(at)

    def end_batch(self, branch: str) -> None:
        self.running.pop(branch, None)

    def hurry(self, at: int) -> None:
        """A batch has ended, so the clock is read at once."""
        self.plan_reading(at + SECOND, SECOND)

    # Handing in

    def give(self, id: str, fields: Mapping[str, Json], at: int) -> Answer:
        """Hands a delivery in, and does what is ordered."""
        if not self.tally.is_busy:
            self.basis = Basis.KNOWN
        was_busy = self.tally.is_busy
        answer = answer_in(self.hand_in(json.dumps({"id": id, **fields}, ensure_ascii=False)))
        self.tally.take(at, fields, answer, self.basis)
        if self.tally.is_busy and not was_busy:
            self.plan_reading(max(at, self.read_at + self.history.pause), self.history.pause)
        for place, order in enumerate(orders_of(answer)):
            self.do(f"{id}.{place}", order, at)
        return answer

    def plan(self, id: str, at: int, fields: Mapping[str, Json], basis: Basis, seen: Optional[Seen]) -> None:
        """Plans what the made-up world tells. If the journal has it at that time, it comes there, and else after what has happened in that
        second."""
        self.made += 1
        rank = seen.place if seen and seen.at == at else LAST - 1
        heapq.heappush(self.due, Due(at, rank, self.made, id, fields, basis))

    def new_name(self, event: str) -> str:
        """An identifier that no delivery of the journal has: one that was used gets its kept answer."""
        while True:
            self.made += 1
            name = f"supposed-{event}-{self.made}"
            if name not in self.names:
                return name


def made_up(text: str) -> str:
    """The name of a commit that nobody has made."""
    return sha1(text.encode()).hexdigest()
