"""The journal: the facts in the order in which they were written down, what they told the bot, what it answered, what people were told.

It is a database of SQLite that nobody but the host opens. Whatever belongs together is written in one step, which is on the disk when it
ends: a fact with its deliveries, an answer with what it has people told. All else that the host knows is a function of these.
"""
import sqlite3
import time
from contextlib import contextmanager
from dataclasses import dataclass
from pathlib import Path
from typing import Callable, Dict, Iterator, List, NamedTuple, Optional, Sequence, Tuple, Union

from .core.deliveries import Delivery
from .core.facts import Fact, Frozen, NotTaken, PushTold, Reported, Said, Thawed, fact_in, kind_of, written
from .core.known import Known, Told
from .core.orders import Answer, Order, Unread, answer_in, orders_of
from .faults import Trouble
from .journal_of_2 import bring_over, earlier_in

VERSION = 3
TABLES = """
CREATE TABLE facts (number INTEGER PRIMARY KEY, at INTEGER NOT NULL, kind TEXT NOT NULL, body TEXT NOT NULL);
CREATE TABLE deliveries (number INTEGER PRIMARY KEY, fact INTEGER NOT NULL, id TEXT NOT NULL UNIQUE, line TEXT NOT NULL, answer TEXT);
CREATE INDEX without_answer ON deliveries (number) WHERE answer IS NULL;
CREATE TABLE told (number INTEGER PRIMARY KEY, change INTEGER NOT NULL, at INTEGER NOT NULL, text TEXT NOT NULL);
CREATE INDEX of_change ON told (change);
CREATE TABLE marks (name TEXT PRIMARY KEY, value TEXT NOT NULL);
CREATE TABLE notes (name TEXT PRIMARY KEY) WITHOUT ROWID;
"""
Value = Union[None, int, str]
# For so long somebody else may be opening a new journal.
SECONDS_TO_OPEN = 5


class Row(NamedTuple):
    """A delivery as it was written down."""

    id: str
    line: str
    answer: Optional[str]


@dataclass(frozen=True)
class Heard:
    """A delivery that has its answer."""

    delivery: Delivery
    answer: Answer

    @property
    def orders(self) -> List[Order]:
        return orders_of(self.answer)


class Journal:
    """All that the host has to know when it is started again."""

    def __init__(self, path: Path, is_hosts: bool = True):
        """Opens a journal. One of an earlier version is brought over by a host alone, and else read as it is: a host of then may be at
        work with it."""
        self.path = path
        self.database = sqlite3.connect(path, isolation_level=None)
        self.begin_log()
        self.database.execute("PRAGMA synchronous = FULL")
        version = self.version() or self.begin()
        if version in (1, 2) and is_hosts:
            bring_over(self)
        elif version not in (1, 2, VERSION):
            raise Trouble(f"{path} is a journal of version {version}, and not {VERSION}")

    def begin_log(self) -> None:
        """Has SQLite write its steps to a log. If somebody else is at that too, it may say so at once, and not wait as it does else."""
        late = time.monotonic() + SECONDS_TO_OPEN
        while True:
            try:
                self.database.execute("PRAGMA journal_mode = WAL")
                return
            except sqlite3.OperationalError as fault:
                if "locked" not in str(fault) or time.monotonic() > late:
                    raise
            time.sleep(0.01)

    def version(self) -> int:
        return self.number("PRAGMA user_version")

    def begin(self) -> int:
        """Makes the tables of a new journal, unless somebody else has made them meanwhile. Gives the version that it has then."""
        with self.step():
            if not self.version():
                self.make(TABLES)
                self.database.execute(f"PRAGMA user_version = {VERSION}")
            return self.version()

    def make(self, tables: str) -> None:
        for statement in tables.split(";\n"):
            self.database.execute(statement)

    @contextmanager
    def step(self) -> Iterator[None]:
        """All that is written within is written at once, or not at all."""
        self.database.execute("BEGIN IMMEDIATE")
        try:
            yield
        except BaseException:
            self.database.execute("ROLLBACK")
            raise
        self.database.execute("COMMIT")

    def one(self, query: str, *values: Value) -> Value:
        """The first value that a query finds, or none."""
        row: Optional[Tuple[Value, ...]] = self.database.execute(query, values).fetchone()
        return row[0] if row else None

    def number(self, query: str, *values: Value) -> int:
        """The first value that a query finds, which is a number, or 0."""
        found = self.one(query, *values)
        return found if isinstance(found, int) else 0

    def close(self) -> None:
        self.database.close()

    # Facts and answers

    def known(self, heard: Optional[Callable[[Known, Heard], None]] = None) -> Known:
        """What is known by all that was written down. Tells of each answer, if somebody wants to know."""
        if self.version() < VERSION:
            return earlier_in(self).known()
        known = Known()
        query = "SELECT id, line, answer FROM deliveries WHERE fact > 0 ORDER BY number"
        rows = (Row(*row) for row in self.database.cursor().execute(query))
        try:
            for number, at, kind, body in self.database.cursor().execute("SELECT number, at, kind, body FROM facts ORDER BY number"):
                known.learn(number, at, fact_in(kind, body))
                for it in self.hear_all(known, rows):
                    if heard:
                        heard(known, it)
        except (Unread, ValueError) as fault:
            raise Trouble(f"{self.path} can't be read: {fault}") from fault
        return known

    def hear_all(self, known: Known, rows: Iterator[Row]) -> Iterator[Heard]:
        """Takes in the answers to what a fact told the bot. The last ones may have none yet."""
        waiting = list(known.waiting)
        for delivery in waiting:
            row = next(rows, None)
            if row is None or (row.id, row.line) != (delivery.id, delivery.line):
                found = row.line if row else "nothing"
                why = f"it has {found} in the place of {delivery.line}"
                raise Trouble(f"{self.path} was altered, or is of a host that tells otherwise: {why}")
            if row.answer is None:
                return
            answer = answer_in(row.answer)
            known.hear(answer)
            yield Heard(delivery, answer)

    def record(self, known: Known, at: int, fact: Fact) -> None:
        """Writes a fact down, with what it tells the bot and people."""
        if known.waiting:
            raise RuntimeError(f"{kind_of(fact)} can't be written down before {known.waiting[0].id} has its answer")
        with self.step():
            self.write(known, 1 + self.number("SELECT max(number) FROM facts"), at, fact)

    def write(self, known: Known, number: int, at: int, fact: Fact) -> None:
        """Writes a fact down within a step. What is told of it is written with it."""
        before = len(known.waiting)
        told = known.learn(number, at, fact)
        self.database.execute("INSERT INTO facts VALUES (?, ?, ?, ?)", (number, at, kind_of(fact), written(fact)))
        if isinstance(fact, (Said, NotTaken, PushTold, Reported, Frozen, Thawed)):
            self.database.execute("INSERT OR IGNORE INTO notes VALUES (?)", (fact.note,))
        for delivery in known.waiting[before:]:
            row = (number, delivery.id, delivery.line)
            self.database.execute("INSERT INTO deliveries (fact, id, line) VALUES (?, ?, ?)", row)
        self.tell(at, told)

    def keep_answer(self, known: Known, at: int, answer: str) -> Heard:
        """Writes down the answer to the first delivery that has none, with what people are told by it."""
        delivery = known.waiting[0]
        try:
            read = answer_in(answer)
            told = known.hear(read)
        except Unread as fault:
            raise Trouble(f"what the bot answers to {delivery.id} isn't understood: {fault}") from fault
        with self.step():
            self.database.execute("UPDATE deliveries SET answer = ? WHERE id = ?", (answer, delivery.id))
            self.tell(at, told)
        return Heard(delivery, read)

    def has_taken(self, note: str) -> bool:
        """Whether a note was taken before. The names are many and stay on the disk."""
        return self.one("SELECT 1 FROM notes WHERE name = ?", note) is not None

    def answered(self) -> Iterator[Tuple[str, str]]:
        """The line of each delivery that has an answer, with that, in their order."""
        query = "SELECT line, answer FROM deliveries WHERE answer IS NOT NULL ORDER BY number"
        for line, answer in self.database.cursor().execute(query):
            yield line, answer

    def answered_last(self) -> List[Tuple[str, str]]:
        """The same of the last delivery that has an answer, if there is one."""
        query = "SELECT line, answer FROM deliveries WHERE answer IS NOT NULL ORDER BY number DESC LIMIT 1"
        return self.database.execute(query).fetchall()

    def count_answered(self) -> int:
        return self.number("SELECT count(*) FROM deliveries WHERE answer IS NOT NULL")

    def last_answered(self, most: int) -> Dict[str, str]:
        """The answers of the last deliveries that have one, by their identifiers."""
        query = "SELECT id, answer FROM deliveries WHERE answer IS NOT NULL ORDER BY number DESC LIMIT ?"
        return dict(self.database.execute(query, (most,)))

    def without_answer(self) -> Optional[str]:
        """The identifier of the first delivery that has no answer."""
        found = self.one("SELECT id FROM deliveries WHERE answer IS NULL ORDER BY number LIMIT 1")
        return found if isinstance(found, str) else None

    def is_empty(self) -> bool:
        """Whether nothing was ever handed in."""
        return not self.number("SELECT count(*) FROM deliveries")

    # Marks: how far something has come that is made of the journal

    def mark(self, name: str) -> str:
        found = self.one("SELECT value FROM marks WHERE name = ?", name)
        return found if isinstance(found, str) else ""

    def marks(self, beginning: str) -> List[Tuple[str, str]]:
        """The marks whose names begin so, with their values."""
        query = "SELECT name, value FROM marks WHERE substr(name, 1, ?) = ?"
        return self.database.execute(query, (len(beginning), beginning)).fetchall()

    def set_mark(self, name: str, value: str) -> None:
        self.database.execute("INSERT OR REPLACE INTO marks VALUES (?, ?)", (name, value))

    def put_mark(self, name: str, value: str) -> None:
        """Sets a mark, in a step of its own."""
        with self.step():
            self.set_mark(name, value)

    # What people are told

    def told_after(self, number: int, most: int) -> List[Tuple[int, int, str]]:
        """What was told after so many, up to a number of them: each with its number, and of which change."""
        query = "SELECT number, change, text FROM told WHERE number > ? ORDER BY number LIMIT ?"
        return self.database.execute(query, (number, most)).fetchall()

    def tell(self, at: int, told: Sequence[Told]) -> None:
        rows = [(change, at, text) for change, text in told]
        self.database.executemany("INSERT INTO told (change, at, text) VALUES (?, ?, ?)", rows)

    def told(self, change: int, since: int = 0) -> List[Tuple[int, str]]:
        """What was told of a change after so many, each with its time."""
        query = "SELECT at, text FROM told WHERE change = ? AND number > ? ORDER BY number"
        return self.database.execute(query, (change, since)).fetchall()

    def told_since(self, number: int) -> List[int]:
        """The changes of which something was told after so many."""
        return [change for change, in self.database.execute("SELECT DISTINCT change FROM told WHERE number > ?", (number,))]

    def count_told(self) -> int:
        return self.number("SELECT max(number) FROM told")
