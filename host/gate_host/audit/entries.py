"""The rows of a journal, and what stands in them. Whoever wrote a journal may have written anything, so nothing is taken for granted."""
import json
from dataclasses import dataclass
from typing import Dict, List, Mapping, NamedTuple, Optional, Sequence, Tuple, Union

# A value of JSON, of which the reader looks at what it is.
Json = object
# So much of a text is shown.
MOST_SHOWN = 300


class Fact(NamedTuple):
    """A fact as it was written down."""

    number: int
    at: int
    kind: str
    body: str


class Row(NamedTuple):
    """A delivery as it was written down, with the fact that told it and the answer, if it has one."""

    number: int
    fact: int
    id: str
    line: str
    answer: Optional[str]


class Journal(NamedTuple):
    """All that is read of a journal, each in the order of its numbers."""

    facts: List[Fact]
    rows: List[Row]


@dataclass(frozen=True)
class Finding:
    """What isn't as it should be: of which kind, in plain words, and which commit or delivery it is about."""

    kind: str
    said: str
    about: str = ""


@dataclass(frozen=True)
class Stage:
    """An order to merge heads of changes onto a base."""

    batch: int
    branch: str
    base: str
    heads: Tuple[Tuple[int, str], ...]


@dataclass(frozen=True)
class Land:
    """An order to move the main branch from a base to a commit."""

    batch: int
    base: str
    commit: str


@dataclass(frozen=True)
class Notice:
    """An order to tell why the approval or the try of a change has ended."""

    change: int
    why: str


Order = Union[Stage, Land, Notice]


@dataclass(frozen=True)
class Reply:
    """What the bot said to one act, and what it ordered by that."""

    is_done: bool
    orders: Tuple[Order, ...] = ()


@dataclass(frozen=True)
class Entry:
    """A delivery that was read: what stands in its line, the replies to it, and the time of its fact, if that is known."""

    id: str
    fact: int
    at: Optional[int]
    body: Mapping[str, Json]
    replies: Tuple[Reply, ...]

    @property
    def event(self) -> str:
        return text_of(self.body.get("event"))

    @property
    def is_done(self) -> bool:
        """Whether it is a fact that wasn't denied."""
        return bool(self.replies) and self.replies[-1].is_done


def entries_of(journal: Journal) -> Tuple[List[Entry], List[Finding]]:
    """The deliveries of a journal that have an answer, and what of them can't be read."""
    times = {fact.number: fact.at for fact in journal.facts}
    entries, found = [], []
    for row in journal.rows:
        if row.answer is None:
            continue
        body, replies = table_in(row.line), replies_in(row.answer)
        if body is None or body.get("id") != row.id:
            said = f"delivery {row.number} is kept as {row.id}, and its line is another: {shown(row.line)}"
            found.append(Finding("altered", said, row.id))
        elif replies is None:
            found.append(Finding("altered", f"the answer that is kept for {row.id} is none: {shown(row.answer)}", row.id))
        else:
            entries.append(Entry(row.id, row.fact, times.get(row.fact), body, replies))
    return entries, found


def gaps_in(journal: Journal) -> List[Finding]:
    """What was taken out: numbers that are missing among the deliveries and the facts, facts of which deliveries tell, and answers."""
    found = [missing("delivery", "deliveries", *gap) for gap in gaps([row.number for row in journal.rows], 1)]
    facts = [fact.number for fact in journal.facts]
    # What an earlier version knew is one fact, with the number that came next.
    is_upgraded = bool(journal.facts) and journal.facts[0].kind == "Upgraded"
    found += [missing("fact", "facts", *gap) for gap in gaps(facts, facts[0] if is_upgraded else 1)]
    there = {*facts, *([0] if is_upgraded else [])}
    found += [
        Finding("missing fact", f"{row.id} was told by fact {row.fact}, which the journal hasn't", row.id)
        for row in journal.rows if row.fact not in there
    ]
    answered = [place for place, row in enumerate(journal.rows) if row.answer is not None]
    found += [
        Finding("missing answer", f"{row.id} has no answer, and a later delivery has one", row.id)
        for row in journal.rows[:answered[-1] if answered else 0] if row.answer is None
    ]
    return found


def gaps(numbers: Sequence[int], first: int) -> List[Tuple[int, int]]:
    """The first and the last number of each gap."""
    return [(before + 1, after - 1) for before, after in zip([first - 1, *numbers], numbers) if after > before + 1]


def missing(one: str, several: str, first: int, last: int) -> Finding:
    """That some numbers aren't there."""
    which = f"{one} {first} of the journal isn't there" if first == last else f"{several} {first} to {last} of the journal aren't there"
    return Finding(f"missing {one}", f"{which}, so something was taken out")


def shown(text: str) -> str:
    """A text, or its beginning."""
    return text if len(text) <= MOST_SHOWN else f"{text[:MOST_SHOWN]}.."


# What a text of JSON has


def value_in(text: str) -> Json:
    """The value of a text of JSON, or none."""
    try:
        found: Json = json.loads(text)
    except (ValueError, RecursionError):
        return None
    return found


def table_in(text: str) -> Optional[Dict[str, Json]]:
    found = value_in(text)
    return found if isinstance(found, dict) else None


def replies_in(text: str) -> Optional[Tuple[Reply, ...]]:
    """The replies of an answer, or none if it is no answer."""
    found = value_in(text)
    if not isinstance(found, list):
        return None
    replies = [reply_in(it) for it in found]
    return None if None in replies else tuple(it for it in replies if it)


def reply_in(found: Json) -> Optional[Reply]:
    if not isinstance(found, dict) or found.get("verdict") not in ("done", "denied"):
        return None
    if found["verdict"] == "denied":
        return Reply(False)
    given = found.get("orders")
    orders = [order_in(it) for it in given] if isinstance(given, list) else [None]
    return None if None in orders else Reply(True, tuple(it for it in orders if it))


def order_in(found: Json) -> Optional[Order]:
    if not isinstance(found, dict):
        return None
    kind, batch = found.get("order"), number_of(found.get("batch"))
    if kind == "stage":
        heads = heads_in(found.get("heads"))
        return None if heads is None else Stage(batch, text_of(found.get("branch")), text_of(found.get("base")), heads)
    if kind == "land":
        return Land(batch, text_of(found.get("base")), text_of(found.get("commit")))
    return Notice(number_of(found.get("change")), text_of(found.get("why"))) if kind == "notice" else None


def heads_in(found: Json) -> Optional[Tuple[Tuple[int, str], ...]]:
    """The changes of an order with their heads, or none if they aren't such."""
    if not isinstance(found, list) or not all(isinstance(it, list) and len(it) == 2 for it in found):
        return None
    return tuple((number_of(change), text_of(head)) for change, head in found)


def number_of(found: Json) -> int:
    """A number, or 0, which no batch and no change has."""
    return found if isinstance(found, int) and not isinstance(found, bool) else 0


def text_of(found: Json) -> str:
    """A text, or an empty one."""
    return found if isinstance(found, str) else ""
