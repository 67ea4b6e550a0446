"""What the bot answers and orders, as values. They are read once, where an answer is read."""
import json
from dataclasses import dataclass
from typing import Dict, List, Mapping, Tuple, Union

# A value of JSON, of which the reader looks at what it is.
Json = object


@dataclass(frozen=True)
class Stage:
    """An order to merge the heads of changes onto a base, and to have the result tested on a branch: `staging` or `trying`."""

    batch: int
    branch: str
    base: str
    heads: Tuple[Tuple[int, str], ...]

    @property
    def changes(self) -> List[int]:
        return [change for change, _ in self.heads]


@dataclass(frozen=True)
class Land:
    """An order to move the main branch from exactly the base to exactly the commit."""

    batch: int
    base: str
    commit: str


@dataclass(frozen=True)
class Notice:
    """An order to tell the people of a change why its approval or its try has ended: by which reason, and of `Failed` by which status."""

    change: int
    why: str
    name: str = ""


Order = Union[Stage, Land, Notice]


@dataclass(frozen=True)
class Done:
    """What a reply says if a command or an event has acted."""

    orders: Tuple[Order, ...] = ()


@dataclass(frozen=True)
class Denied:
    """What a reply says if a command or an event was denied: the rule, and its detail."""

    rule: str
    detail: Union[None, str, Tuple[int, int]] = None


Reply = Union[Done, Denied]
Answer = Tuple[Reply, ...]


class Unread(Exception):
    """What was read isn't what it should be."""


def answer_in(text: str) -> Answer:
    """Reads an answer of the bot."""
    try:
        found: Json = json.loads(text)
    except ValueError as fault:
        raise Unread(f"an answer that is no JSON: {text[:200]}") from fault
    return tuple(reply_in(table_in(it)) for it in list_in(found))


def reply_in(table: Mapping[str, Json]) -> Reply:
    if table.get("verdict") == "done":
        return Done(tuple(order_in(it) for it in list_in(table.get("orders"))))
    detail = table.get("detail")
    if isinstance(detail, list) and len(detail) == 2:
        return Denied(text_in(table, "rule"), (number_of(detail[0]), number_of(detail[1])))
    return Denied(text_in(table, "rule"), detail if isinstance(detail, str) else None)


def order_in(found: Json) -> Order:
    """Reads an order."""
    table = table_in(found)
    kind = table.get("order")
    if kind == "stage":
        heads = tuple(head_in(it) for it in list_in(table.get("heads")))
        return Stage(number_in(table, "batch"), text_in(table, "branch"), text_in(table, "base"), heads)
    if kind == "land":
        return Land(number_in(table, "batch"), text_in(table, "base"), text_in(table, "commit"))
    if kind == "notice":
        return Notice(number_in(table, "change"), text_in(table, "why"), text_in(table, "name") if "name" in table else "")
    raise Unread(f"an order that isn't known: {kind!r}")


def head_in(found: Json) -> Tuple[int, str]:
    pair = list_in(found)
    if len(pair) == 2 and isinstance(pair[1], str):
        return number_of(pair[0]), pair[1]
    raise Unread(f"no change with its head: {found!r}")


def orders_of(answer: Answer) -> List[Order]:
    """The orders of an answer. Each is known by its place among them."""
    return [order for reply in answer if isinstance(reply, Done) for order in reply.orders]


def is_done(answer: Answer) -> bool:
    """Whether nothing in an answer was denied."""
    return all(isinstance(reply, Done) for reply in answer)


# What a value of JSON is


def table_in(found: Json) -> Dict[str, Json]:
    if isinstance(found, dict):
        return found
    raise Unread(f"no object: {found!r}")


def list_in(found: Json) -> List[Json]:
    if isinstance(found, list):
        return found
    raise Unread(f"no list: {found!r}")


def number_of(found: Json) -> int:
    # True is no number here, although it is an int.
    if isinstance(found, int) and not isinstance(found, bool):
        return found
    raise Unread(f"no number: {found!r}")


def number_in(table: Mapping[str, Json], name: str) -> int:
    return number_of(table.get(name))


def text_in(table: Mapping[str, Json], name: str) -> str:
    found = table.get(name)
    if isinstance(found, str):
        return found
    raise Unread(f"no text {name}: {found!r}")
