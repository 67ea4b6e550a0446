"""Journals for the tests of what-if: each is told delivery by delivery at times of its own, and has the answers of the built program."""
import json
import sys
import tempfile
from pathlib import Path

sys.path.insert(0, str(Path(__file__).resolve().parent.parent))

from gate_host.audit.entries import Fact, Journal, Row  # noqa: E402
from gate_host.client import Bot  # noqa: E402
from gate_host.core.orders import orders_of, answer_in  # noqa: E402
from gate_host.supposing.asking import comparison_of  # noqa: E402
from stand_in import PROGRAM  # noqa: E402

SETTINGS = 'status = ["build"]\nmax_batch_size = 8\n'
BASE, NEXT_BASE = "0" * 40, "9" * 40


def head(change, push=0):
    return f"{push:x}" * 20 + f"{change:020x}"


def merge(batch):
    return f"{batch:040d}".replace("0", "d", 20)


class Days:
    """A journal. `at` is the time of what comes next, in seconds; the clock of its readings says the same."""

    def __init__(self, settings=SETTINGS, changes=(), conflicts=()):
        self.at, self.facts, self.rows = 1000, [], []
        self.bot = Bot(str(PROGRAM), None)
        # The name of the order of each batch, and what each lands.
        self.orders, self.lands = {}, {}
        self.tell("role", person="rosa", role="reviewer")
        self.tell("role", person="milo", role="member")
        self.tell("settings", text=settings)
        self.tell("base", commit=BASE)
        for change in changes:
            self.tell("opened", change=change, author="otto", head=head(change))

    def tell(self, event, id=None, fact=None, **fields):
        """A delivery, which the program answers. A fact says more, if it is named."""
        number = len(self.facts) + 1
        kind, body = fact or ("Ticked", {"now": self.at})
        self.facts.append(Fact(number, self.at, kind, json.dumps(body)))
        id = id or f"{event}-{number}"
        line = json.dumps({"id": id, "event": event, **fields})
        answer = self.bot.hand_in(line)
        self.rows.append(Row(number, number, id, line, answer))
        for place, order in enumerate(orders_of(answer_in(answer))):
            if type(order).__name__ == "Stage":
                self.orders[order.batch] = f"{id}.{place}"
            elif type(order).__name__ == "Land":
                self.lands[order.batch] = f"{id}.{place}"
        return id

    def approve(self, *changes):
        for change in changes:
            self.tell("comment", change=change, person="rosa", text="bors r+")

    def tick(self, at):
        self.at = at
        self.tell("tick", now=at)

    def staged(self, batch):
        self.tell("staged", id=self.orders[batch], batch=batch, commit=merge(batch))

    def conflict(self, batch, change):
        told = ("Conflicted", {"order": self.orders[batch], "change": change, "why": "both change a file"})
        self.tell("conflict", id=self.orders[batch], fact=told, batch=batch)

    def status(self, batch, at, name="build", state="success"):
        self.at = at
        self.tell("status", commit=merge(batch), name=name, state=state)

    def landed(self, batch):
        self.tell("base", id=self.lands[batch], commit=merge(batch))

    def passes(self, batch, tick, done):
        """A batch is ordered and staged at a reading of the clock, and lands when its check is done."""
        self.tick(tick)
        self.staged(batch)
        self.status(batch, done)
        self.landed(batch)

    def fails(self, batch, tick, done):
        self.tick(tick)
        self.staged(batch)
        self.status(batch, done, state="failure")

    def journal(self):
        self.bot.close()
        return Journal(self.facts, self.rows)


def supposed(days, settings, since=None):
    """What would have differed under other settings."""
    with tempfile.TemporaryDirectory() as room:
        return comparison_of(days.journal(), settings, str(PROGRAM), since, Path(room))


def landings(found):
    """When each change that differs lands in the two plays, and on what that rests."""
    return {it.change: (it.before, it.after, it.basis.name) for it in found.differences}
