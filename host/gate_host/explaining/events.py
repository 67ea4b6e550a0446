"""The deliveries of a journal up to a moment, each with its answer and with what the host wrote down beside it."""
import json
import re
from dataclasses import dataclass
from typing import Dict, List, Mapping, NamedTuple, Optional, Sequence, Tuple, Union

from ..audit.entries import Fact, Journal, Row, number_of, text_of
from ..core.facts import BaseEnded, Conflicted, Delayed, Doubted, Ended, Frozen, PushTold, Reported, fact_in
from ..core.freeze import Freeze
from ..core.orders import Answer, Denied, Json, Order, Unread, answer_in, orders_of, table_in
from ..core.words import reported
from ..faults import Trouble

# The facts of the host that say more than their deliveries do.
TELLING = ("BaseEnded", "Conflicted", "Delayed", "Ended", "PushTold", "Reported")
# The identifier of a status that isn't the report of an order: it has the number of its fact.
HELD = re.compile(r"status-([0-9]+)")
OF_BASE = {"success": "succeeded", "failure": "failed as well"}


class Mark(NamedTuple):
    """A place in the journal: the number and the identifier of a delivery, and the time at which it was written down, if that is known."""

    number: int
    id: str
    at: Optional[int]


@dataclass(frozen=True)
class Event:
    """A delivery with its answer. What its event doesn't have is empty. `said` is what the host wrote down of it besides."""

    mark: Mark
    kind: str
    answer: Answer
    change: int = 0
    person: str = ""
    text: str = ""
    commit: str = ""
    name: str = ""
    state: str = ""
    batch: int = 0
    said: str = ""

    @property
    def is_done(self) -> bool:
        """Whether it is a fact that wasn't denied."""
        return bool(self.answer) and not isinstance(self.answer[-1], Denied)

    @property
    def orders(self) -> List[Order]:
        return orders_of(self.answer)


@dataclass(frozen=True)
class Delay:
    """That the host can't stage a batch yet: the order's name, and why."""

    order: str
    why: str


@dataclass(frozen=True)
class Moment:
    """All up to a moment: the deliveries that have an answer by then, how many have none, what delays the host, and whether the queue is
    frozen; and the facts by which it was frozen or thawed."""

    rows: Sequence[Row]
    events: Sequence[Event]
    waiting: int
    delays: Sequence[Delay]
    freeze: Optional[Freeze] = None
    freezes: Sequence[Fact] = ()

    @property
    def last(self) -> Optional[Mark]:
        return self.events[-1].mark if self.events else None


def moment_of(journal: Journal, after: Optional[str]) -> Moment:
    """The moment after a delivery, which is named by its identifier or its number, or the end of the journal."""
    given = journal.rows if after is None else journal.rows[:place_of(journal.rows, after) + 1]
    rows = [row for row in given if row.answer is not None]
    # By then what was written down later wasn't known.
    up_to = journal.rows[len(given)].fact - 1 if len(given) < len(journal.rows) else None
    up_to = max(up_to, given[-1].fact) if up_to is not None and given else up_to
    facts = [fact for fact in journal.facts if up_to is None or fact.number <= up_to]
    try:
        return Moment(rows, events_of(rows, facts), len(given) - len(rows), delays_in(facts), freeze_in(facts), freezes_in(facts))
    except (Unread, ValueError, TypeError) as fault:
        raise Trouble(f"the journal can't be read: {fault}") from fault


def place_of(rows: Sequence[Row], after: str) -> int:
    """The place of a delivery among the rows. An identifier that is a number goes before the number of another one."""
    found = [place for place, row in enumerate(rows) if row.id == after]
    if not found and after.isascii() and after.isdigit():
        found = [place for place, row in enumerate(rows) if row.number == int(after)]
    if not found:
        raise Trouble(f"the journal has no delivery {after}")
    if rows[found[0]].answer is None:
        raise Trouble(f"delivery {after} has no answer yet, so there is nothing after it")
    return found[0]


def events_of(rows: Sequence[Row], facts: Sequence[Fact]) -> List[Event]:
    by_number = {fact.number: fact for fact in facts}
    own = [own_fact(row, by_number) for row in rows]
    pushers, doubts = pushers_in(facts), doubts_in(facts)
    return [event_of(row, fact, pushers, doubts) for row, fact in zip(rows, own)]


def own_fact(row: Row, by_number: Mapping[int, Fact]) -> Optional[Fact]:
    """The fact that a delivery tells. What was held back while the queue was frozen was handed in with the end of that."""
    fact, held = by_number.get(row.fact), HELD.fullmatch(row.id)
    return by_number.get(int(held[1]), fact) if fact and fact.kind == "Thawed" and held else fact


def event_of(
    row: Row, fact: Optional[Fact], pushers: Mapping[Tuple[int, str], str], doubts: Mapping[Tuple[int, str], str],
) -> Event:
    body = table_in(json.loads(row.line))
    change, head = number_of(body.get("change")), text_of(body.get("head"))
    kind = text_of(body.get("event"))
    person = pushers.get((change, head), "") if kind == "pushed" else text_of(body.get("person"))
    return Event(
        Mark(row.number, row.id, fact.at if fact else None), kind, answer_in(row.answer or "[]"), change, name_in(person),
        text_of(body.get("text")), head or text_of(body.get("commit")), text_of(body.get("name")) or text_of(body.get("label")),
        state_in(body), number_of(body.get("batch")), said_of(fact, doubts),
    )


def name_in(written: str) -> str:
    """A name as the bot keeps it."""
    return (written[1:] if written.startswith("@") else written).lower()


def state_in(body: Mapping[str, Json]) -> str:
    return text_of(body.get("state")) or text_of(body.get("role"))


def said_of(fact: Optional[Fact], doubts: Mapping[Tuple[int, str], str]) -> str:
    """What the host wrote down of a check that ended, of a report, or of a conflict. A failure that was told when the base had been tested
    has its own words, and how the base did."""
    found = fact_in(fact.kind, fact.body) if fact and fact.kind in TELLING else None
    if isinstance(found, Conflicted):
        return f"change {found.change} doesn't merge: {found.why}"
    if isinstance(found, Ended):
        return said_of_check(found)
    if isinstance(found, BaseEnded):
        of_base = OF_BASE.get(found.state, "came to no verdict")
        return f"{doubts.get((found.batch, found.name), found.said)}; the main branch alone {of_base}"
    return reported(found.person, found.description) if isinstance(found, Reported) else ""


def said_of_check(found: Union[Ended, Doubted]) -> str:
    return f"{found.said}; output: {found.output}" if found.output else found.said


def doubts_in(facts: Sequence[Fact]) -> Dict[Tuple[int, str], str]:
    """How checks failed that ran on the base alone before the bot was told, by the number of the batch and the name of the check."""
    told = [fact_in(fact.kind, fact.body) for fact in facts if fact.kind == "Doubted"]
    return {(it.batch, it.name): said_of_check(it) for it in told if isinstance(it, Doubted)}


def freeze_in(facts: Sequence[Fact]) -> Optional[Freeze]:
    """The freeze that lasts, if one does. Who froze it again has the last word, and not the time."""
    freeze: Optional[Freeze] = None
    for fact in freezes_in(facts):
        found = fact_in(fact.kind, fact.body)
        freeze = Freeze(found.person, found.reason, freeze.at if freeze else fact.at) if isinstance(found, Frozen) else None
    return freeze


def freezes_in(facts: Sequence[Fact]) -> List[Fact]:
    """The facts by which the queue was frozen or thawed."""
    return [fact for fact in facts if fact.kind in ("Frozen", "Thawed")]


def pushers_in(facts: Sequence[Fact]) -> Dict[Tuple[int, str], str]:
    """Who told first of a push of each head of a change."""
    told = [fact_in(fact.kind, fact.body) for fact in facts if fact.kind == "PushTold"]
    pushers: Dict[Tuple[int, str], str] = {}
    for it in told:
        for change, head in it.heads if isinstance(it, PushTold) else ():
            pushers.setdefault((change, head), it.person if isinstance(it, PushTold) else "")
    return pushers


def delays_in(facts: Sequence[Fact]) -> List[Delay]:
    told = [fact_in(fact.kind, fact.body) for fact in facts if fact.kind == "Delayed"]
    return [Delay(it.order, it.why) for it in told if isinstance(it, Delayed)]
