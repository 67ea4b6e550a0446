"""What a fact tells the bot: no delivery, one, or several. Their identifiers have the number of the fact, which never comes again."""
import json
from dataclasses import dataclass, replace
from typing import TYPE_CHECKING, Dict, List, Mapping, Optional, Sequence, Tuple, Union

from .commands import command_lines
from .facts import (
    BaseEnded, Closed, Conflicted, Ended, Fact, Labeled, MainSeen, Moved, NotMoved, Opened, Pushed, Reported, Reviewed, RoleGiven, Said,
    Staged, Ticked, Unlabeled,
)
from .notes import objection_to
from .orders import Json, Land, Order, Stage

if TYPE_CHECKING:
    from .known import Known

# A line that is handed in has at most so many bytes.
MOST_IN_LINE = 65536


@dataclass(frozen=True)
class Delivery:
    """A delivery to the bot: its identifier, its event and its line; of which changes it speaks, and which order it reports, if it does.
    A reading of the clock says when it is, and a status its state. A comment has its writer, and it and settings have a text."""

    id: str
    event: str
    line: str
    changes: Tuple[int, ...] = ()
    order: Optional[Order] = None
    now: int = 0
    state: str = ""
    person: str = ""
    text: str = ""


def delivered(number: int, fact: Fact, known: "Known") -> List[Delivery]:
    """What a fact tells the bot, by what was known before it."""
    if isinstance(fact, MainSeen):
        return delivered_of_main(number, fact, known)
    if isinstance(fact, (Opened, Pushed, Closed)):
        return delivered_of_change(number, fact, known)
    if isinstance(fact, (Labeled, Unlabeled, Reviewed)):
        return [delivered_of_people(number, fact)]
    if isinstance(fact, (Staged, Conflicted, Moved, NotMoved)):
        return delivered_of_outcome(fact, known)
    if isinstance(fact, (Ended, BaseEnded)):
        return delivered_of_check(number, fact, known)
    if isinstance(fact, Reported):
        return delivered_of_report(number, fact, known)
    if isinstance(fact, RoleGiven):
        return [made("role", number, person=fact.person, role=fact.role)]
    if isinstance(fact, Ticked):
        return [made("tick", number, now=fact.now)]
    if isinstance(fact, Said) and not objection_to(known, fact):
        lines = command_lines(fact.text)
        return [made("comment", number, change=fact.change, person=fact.person, text="\n".join(lines))] if lines else []
    return []


def delivered_of_main(number: int, fact: MainSeen, known: "Known") -> List[Delivery]:
    """First the base, if it is another one, and then its settings."""
    base = [made("base", number, commit=fact.commit)] if fact.commit != known.base else []
    settings = [made("settings", number, text=fact.settings)] if fact.settings is not None else []
    return base + settings


def delivered_of_change(number: int, fact: Union[Opened, Pushed, Closed], known: "Known") -> List[Delivery]:
    if isinstance(fact, Opened):
        return [made("opened", number, change=fact.change, author=fact.author, head=fact.head)]
    # A change that has landed stays landed, whatever is pushed there.
    if isinstance(fact, Pushed) and known.phase(fact.change) != "landed":
        return [made("pushed", number, change=fact.change, head=fact.head)]
    return [made("closed", number, change=fact.change)] if isinstance(fact, Closed) else []


def delivered_of_people(number: int, fact: Union[Labeled, Unlabeled, Reviewed]) -> Delivery:
    if isinstance(fact, Reviewed):
        return made("review", number, change=fact.change, person=fact.person, head=fact.head, approves=fact.approves)
    return made("labeled" if isinstance(fact, Labeled) else "unlabeled", number, change=fact.change, label=fact.label)


def delivered_of_outcome(fact: Union[Staged, Conflicted, Moved, NotMoved], known: "Known") -> List[Delivery]:
    """The report of an order, which has the name of the order as its identifier. An order that isn't open is reported no more."""
    order = known.orders.get(fact.order)
    batch = known.batch_of(order.batch) if order else None
    changes = batch.stage.changes if batch else []
    if isinstance(order, Stage) and isinstance(fact, Conflicted):
        return [report("conflict", fact.order, order, changes, batch=order.batch)]
    if isinstance(order, Stage) and isinstance(fact, Staged) and batch and batch.commit:
        return [report("staged", fact.order, order, changes, batch=order.batch, commit=batch.commit)]
    if isinstance(order, Land) and isinstance(fact, Moved):
        return [report("base", fact.order, order, changes, commit=order.commit)]
    if isinstance(order, Land) and isinstance(fact, NotMoved):
        return [report("refused", fact.order, order, changes, batch=order.batch)]
    return []


def delivered_of_check(number: int, fact: Union[Ended, BaseEnded], known: "Known") -> List[Delivery]:
    """How a check of a batch has ended, if the batch is still tested. What was doubted is told when the base was tested."""
    batch = known.batch_of(fact.batch)
    test = known.tests.get(batch.stage.branch) if batch else None
    told = fact if isinstance(fact, Ended) else known.doubts.get((fact.batch, fact.name))
    if batch is None or test is None or test.batch != fact.batch or told is None:
        return []
    return [status_of(number, test.commit, told.name, told.state, batch.stage.changes)]


def delivered_of_report(number: int, fact: Reported, known: "Known") -> List[Delivery]:
    """A report counts for the batches that are tested by this commit, and for the open changes of which it is the head. There may be none
    any more."""
    changes = known.changes_at(fact.commit)
    return [status_of(number, fact.commit, fact.name, fact.state, changes)] if changes else []


def status_of(number: int, commit: str, name: str, state: str, changes: Sequence[int]) -> Delivery:
    return replace(made("status", number, commit=commit, name=name, state=state), changes=tuple(changes))


def made(event: str, number: int, **fields: Json) -> Delivery:
    """A delivery that isn't the report of an order."""
    return with_id(f"{event}-{number}", event, fields)


def report(event: str, name: str, order: Order, changes: Sequence[int], **fields: Json) -> Delivery:
    one = with_id(name, event, fields)
    return Delivery(one.id, one.event, one.line, tuple(changes), order)


def with_id(id: str, event: str, fields: Dict[str, Json]) -> Delivery:
    line = json.dumps({"id": id, "event": event, **fields}, ensure_ascii=False)
    if len(line.encode()) > MOST_IN_LINE:
        raise ValueError("a line is too long")
    return delivery_of(id, event, line, fields)


def delivery_of(
    id: str, event: str, line: str, fields: Dict[str, Json], order: Optional[Order] = None, changes: Sequence[int] = (),
) -> Delivery:
    """A delivery by its line and the fields in it, and by the changes of the batch that it reports."""
    change, now = fields.get("change"), fields.get("now")
    return Delivery(
        id, event, line, (change,) if isinstance(change, int) else tuple(changes), order, now if isinstance(now, int) else 0,
        text_of(fields, "state"), text_of(fields, "person"), text_of(fields, "text"),
    )


def text_of(fields: Mapping[str, Json], name: str) -> str:
    found = fields.get(name)
    return found if isinstance(found, str) else ""


def touched(delivery: Delivery, orders: Sequence[Order], known: "Known") -> List[int]:
    """The changes of which something may be another way after a delivery and its answer. Settings may end the approval of each change that
    is open."""
    found = {*delivery.changes, *(known.open_changes() if delivery.event == "settings" else ())}
    for order in orders:
        if isinstance(order, Stage):
            found.update(order.changes)
        elif not isinstance(order, Land):
            found.add(order.change)
    return sorted(found)
