"""What a journal of an earlier version knew, written down as one fact, with which the list of facts then begins."""
import json
from dataclasses import asdict, astuple, replace
from typing import TYPE_CHECKING, Any, Dict, List, Mapping, Tuple, Union

from .commands import Command, Kind
from .deliveries import Delivery, delivery_of
from .facts import Upgraded
from .orders import Json, Land, Order, Stage, order_in, table_in

if TYPE_CHECKING:
    from .known import Known


def upgraded(known: "Known") -> Upgraded:
    """The fact that has all that is known."""
    table = {
        "roles": known.roles, "base": known.base, "settings_of": known.settings_of, "refusal": known.refusal, "clock": known.clock,
        "landed_on": known.landed_on,
        "changes": [[number, it.phase, it.head] for number, it in known.changes.items()],
        "pushers": [[change, head, person] for change, heads in known.pushers.items() for head, person in heads.items()],
        "made": sorted(known.made),
        "told_moves": [[*move, at] for move, at in known.told_moves.items()],
        "moves": [[it.number, it.at, it.before, it.target, it.person] for it in known.moves.values()],
        "batches": [[it.order, table_of(it.stage), it.now, it.commit] for it in known.batches.values()],
        "orders": [[name, table_of(order)] for name, order in known.orders.items()],
        "tests": [[it.branch, it.batch, it.commit] for it in known.tests.values()],
        "results": known.results,
        "waiting": [[it.line, table_of(it.order) if it.order else None, it.changes] for it in known.waiting],
        "settings": known.settings, "taken": known.taken, "queued": list(known.queued.items()),
        "dated": [[change, *it] for change, it in known.dated.items()], "reported": known.reported,
        "labels": [[change, sorted(it)] for change, it in known.labels.items()],
        "reviews": [[change, it] for change, it in known.reviews.items()],
        "over": sorted(known.over),
        "people": [[change, it.author, it.approvers, it.said_by, it.last and list_of(it.last)] for change, it in known.people.items()],
        "members": [[branch, [astuple(it) for it in batch.members]] for branch, batch in known.batches.items()],
        "landings": [[it.batch, it.base, it.commit, [astuple(member) for member in it.members]] for it in known.landings.values()],
        "landed_by": list(known.landed_by.items()), "approved": sorted(known.approved),
        "ends": [[change, *astuple(it)] for change, it in known.ends.items()],
    }
    return Upgraded(json.dumps(table, ensure_ascii=False))


def list_of(command: Command) -> List[Json]:
    return [command.kind.name, command.people, command.number]


def table_of(order: Order) -> Dict[str, Json]:
    """An order as it stands in an answer."""
    return {"order": type(order).__name__.lower(), **asdict(order)}


def restore(known: "Known", fact: Upgraded) -> None:
    """Takes in all that was known."""
    from .known import Batch, Change, Move, Test
    table = json.loads(fact.known)
    known.roles = dict(table["roles"])
    known.base, known.settings_of, known.refusal = table["base"], table["settings_of"], table["refusal"]
    known.clock, known.landed_on = table["clock"], table["landed_on"]
    known.changes = {number: Change(phase, head) for number, phase, head in table["changes"]}
    for change, head, person in table["pushers"]:
        known.take_claim(person, change, head)
    known.made = set(table["made"])
    known.told_moves = {(before, target, person): at for before, target, person, at in table["told_moves"]}
    known.moves = {it[0]: Move(*it) for it in table["moves"]}
    for name, stage, now, commit in table["batches"]:
        order = order_in(stage)
        if isinstance(order, Stage):
            known.batches[order.branch] = Batch(name, order, now, commit)
    known.orders = {name: order for name, it in table["orders"] for order in orders_to_do(it)}
    known.tests = {it[0]: Test(*it) for it in table["tests"]}
    known.results = {branch: dict(of) for branch, of in table["results"].items()}
    known.waiting = [waiting_in(line, order, changes) for line, order, changes in table["waiting"]]
    restore_people(known, table)


def restore_people(known: "Known", table: Mapping[str, Any]) -> None:
    """Takes in what a fact has that was written by a later host alone."""
    from .known import End, Landing, Member, People

    def members_in(found: List[List[Any]]) -> Tuple[Member, ...]:
        return tuple(Member(change, head, author, tuple(approvers), by) for change, head, author, approvers, by in found)
    known.settings, known.taken = table.get("settings"), table.get("taken", "")
    if "taken" not in table:
        # They are told again, which does nothing, and are known then.
        known.settings_of = ""
    known.queued = dict(table.get("queued", []))
    known.dated = {change: (head, at) for change, head, at in table.get("dated", [])}
    known.reported = {commit: dict(states) for commit, states in table.get("reported", {}).items()}
    known.labels = {change: set(it) for change, it in table.get("labels", [])}
    known.reviews = {change: dict(it) for change, it in table.get("reviews", [])}
    known.over = set(table.get("over", []))
    for change, author, approvers, said_by, last in table.get("people", []):
        known.people[change] = People(author, tuple(approvers), said_by, last and Command(Kind[last[0]], tuple(last[1]), last[2]))
    for branch, members in table.get("members", []):
        known.batches[branch] = replace(known.batches[branch], members=members_in(members))
    for batch, base, commit, members in table.get("landings", []):
        known.landings[commit] = Landing(batch, base, commit, members_in(members))
    known.landed_by = dict(table.get("landed_by", []))
    known.approved = set(table.get("approved", []))
    known.ends = {change: End(*it) for change, *it in table.get("ends", [])}


def orders_to_do(found: Json) -> List[Union[Stage, Land]]:
    order = order_in(found)
    return [order] if isinstance(order, (Stage, Land)) else []


def waiting_in(line: str, order: Json, changes: List[int]) -> Delivery:
    body = table_in(json.loads(line))
    return delivery_of(str(body["id"]), str(body["event"]), line, body, order_in(order) if order else None, changes)
