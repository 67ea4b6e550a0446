"""Brings a journal of version 1 or 2 over. What it knew stood in many tables; that becomes one fact, and its deliveries stay."""
import json
import time
from typing import TYPE_CHECKING, Any, Dict, List, Optional, Tuple

from .core.deliveries import Delivery, delivery_of
from .core.earlier import upgraded
from .core.known import Batch, Change, Known, Move, Test, Told
from .core.orders import Json, Land, Notice, Order, Stage, Unread, order_in, table_in
from .core.words import notice
from .faults import Trouble

if TYPE_CHECKING:
    from .journal import Journal

# The tables of before. `facts` had other facts then.
OLD = ("orders", "changes", "pushes", "people", "tests", "results", "facts", "made", "said_moves", "moves")
# Of each column the tables say of which kind it is.
Rows = List[Tuple[Any, ...]]


def bring_over(journal: "Journal") -> None:
    """Brings a journal over in one step."""
    from .journal import TABLES, VERSION
    with journal.step():
        found = earlier_in(journal)
        known = found.known()
        last = journal.number("SELECT max(number) FROM deliveries") + 1
        log = found.fact("log written up to")
        at, notices = int(time.time()), found.notices()
        for table in OLD:
            journal.database.execute(f"DROP TABLE IF EXISTS {table}")
        journal.database.execute("ALTER TABLE deliveries RENAME TO earlier")
        journal.database.execute("ALTER TABLE told RENAME TO earlier_told")
        journal.database.execute("ALTER TABLE notes RENAME TO earlier_notes")
        for index in ("without_answer", "of_change", "left_undone", "of_batch", "of_target", "strays"):
            journal.database.execute(f"DROP INDEX IF EXISTS {index}")
        journal.make(TABLES)
        # What has no answer yet was told by the fact that is written now.
        journal.database.execute("""
            INSERT INTO deliveries SELECT number, CASE WHEN answer IS NULL THEN ? ELSE 0 END, id, line, answer FROM earlier ORDER BY number
        """, (last,))
        journal.database.execute("INSERT INTO told SELECT number, change, at, text FROM earlier_told ORDER BY number")
        journal.database.execute("INSERT INTO notes SELECT name FROM earlier_notes")
        for table in ("earlier", "earlier_told", "earlier_notes"):
            journal.database.execute(f"DROP TABLE {table}")
        journal.set_mark("log written up to", log or "0")
        # Its deliveries are written already.
        fact = upgraded(known)
        row = (last, at, "Upgraded", json.dumps({"known": fact.known}, ensure_ascii=False))
        journal.database.execute("INSERT INTO facts VALUES (?, ?, ?, ?)", row)
        journal.tell(at, notices)
        journal.database.execute(f"PRAGMA user_version = {VERSION}")


def earlier_in(journal: "Journal") -> "Earlier":
    try:
        return Earlier(journal)
    except (Unread, ValueError) as fault:
        raise Trouble(f"{journal.path} can't be brought over: {fault}") from fault


class Earlier:
    """A journal of version 1 or 2, as far as it is read here."""

    def __init__(self, journal: "Journal"):
        self.journal = journal
        self.tables = {name for name, in self.rows("SELECT name FROM sqlite_master WHERE type = 'table'")}
        query = """SELECT deliveries.id, orders.place, orders.body, orders.done, deliveries.line FROM orders
                   JOIN deliveries ON deliveries.number = orders.delivery ORDER BY orders.delivery, orders.place"""
        self.orders: List[Tuple[str, Order, bool, int]] = []
        for id, place, body, done, line in self.rows(query):
            now = json.loads(line).get("now", 0)
            self.orders.append((f"{id}.{place}", order_in(json.loads(body)), bool(done), now))

    def rows(self, query: str) -> Rows:
        return self.journal.database.execute(query).fetchall()

    def rows_of(self, table: str, columns: str, order: str) -> Rows:
        """The rows of a table, which the first version may not have."""
        return self.rows(f"SELECT {columns} FROM {table} ORDER BY {order}") if table in self.tables else []

    def fact(self, name: str) -> str:
        found = self.journal.one("SELECT value FROM facts WHERE name = ?", name)
        return found if isinstance(found, str) else ""

    def notices(self) -> List[Told]:
        """The notices that nobody was told yet."""
        return [Told(it.change, notice(it)) for _, it, is_done, _ in self.orders if isinstance(it, Notice) and not is_done]

    def known(self) -> Known:
        known = Known(
            roles={name: role for name, role in self.rows("SELECT name, role FROM people")},
            base=self.fact("base"), settings_of=self.fact("settings of"), refusal=self.fact("settings refused"),
            clock=int(self.fact("clock") or 0), waiting=self.waiting(),
            # It doesn't say which branch that is.
            landed_on="the main branch",
        )
        for number, phase, head in self.rows("SELECT number, phase, head FROM changes"):
            known.changes[number] = Change(phase, head)
        for change, head, person in self.rows_of("pushes", "change, head, person", "number"):
            known.take_claim(person, change, head)
        known.made = {target for target, in self.rows_of("made", "target", "target")} | self.staged_commits()
        for before, target, person, at in self.rows_of("said_moves", "before, target, person, at", "at"):
            known.told_moves[(before, target, person)] = at
        self.take_moves(known)
        self.take_batches(known)
        return known

    def take_moves(self, known: Known) -> None:
        """The moves that nobody has looked into, or nobody made who may. They get numbers that no later fact has."""
        query = "number, at, before, target, person"
        for number, at, before, target, person in self.rows_of("moves", query, "number"):
            if not person:
                move = Move(-number, at, before, target, None if person is None else "")
                known.moves[move.number] = move

    def take_batches(self, known: Known) -> None:
        commits = self.commits()
        for name, order, is_done, now in self.orders:
            if isinstance(order, Stage):
                known.batches[order.branch] = Batch(name, order, now, commits.get(name, ""))
            if not is_done and isinstance(order, (Stage, Land)):
                known.orders[name] = order
        last = {batch.order for batch in known.batches.values()}
        known.orders = {name: order for name, order in known.orders.items() if isinstance(order, Land) or name in last}
        for branch, batch, target in self.rows("SELECT branch, batch, target FROM tests"):
            known.tests[branch] = Test(branch, batch, target)
            rows = self.rows(f"SELECT name, state FROM results WHERE batch = {batch}")
            known.results[branch] = {name: state for name, state in rows}

    def bodies(self, condition: str) -> Dict[str, Tuple[str, Dict[str, Json]]]:
        """The lines of some deliveries and what stands in them, by their identifiers."""
        rows = self.rows(f"SELECT id, line FROM deliveries WHERE {condition} ORDER BY number")
        return {id: (line, table_in(json.loads(line))) for id, line in rows}

    def commits(self) -> Dict[str, str]:
        """The commit that was reported for each order to stage."""
        found = self.bodies("line LIKE '%\"event\": \"staged\"%'")
        return {id: str(body["commit"]) for id, (_, body) in found.items() if body["event"] == "staged"}

    def staged_commits(self) -> "set[str]":
        return set(self.commits().values())

    def waiting(self) -> List[Delivery]:
        orders = {name: order for name, order, _, _ in self.orders}
        found = self.bodies("answer IS NULL")
        return [
            delivery_of(id, str(body["event"]), line, body, orders.get(id), self.changes_of(orders.get(id)))
            for id, (line, body) in found.items()
        ]

    def changes_of(self, order: Optional[Order]) -> List[int]:
        """The changes of the batch that an order is about."""
        number = order.batch if isinstance(order, (Stage, Land)) else None
        return next((it.changes for _, it, _, _ in self.orders if isinstance(it, Stage) and it.batch == number), [])
