"""What the tests of the core share: commits, answers, and a play of facts with the answers to what they tell the bot."""
import json
import sys
from pathlib import Path

sys.path.insert(0, str(Path(__file__).resolve().parent.parent))

from gate_host.core.duties import BRANCHES, Duties, ToLand, ToMerge, ToTest  # noqa: E402
from gate_host.core.facts import Ended, MainSeen, Merged, Moved, Opened, RoleGiven, Said, Staged, Ticked  # noqa: E402
from gate_host.core.known import Known  # noqa: E402
from gate_host.core.orders import Land, answer_in  # noqa: E402

A, B, C, D, E = (digit * 40 for digit in "abcde")
DONE = '[{"orders":[],"verdict":"done"}]'
DENIED = '[{"number":3,"rule":"NotPermitted","detail":"ReviewerOrDelegate","verdict":"denied"}]'


def with_orders(*orders):
    return json.dumps([{"orders": list(orders), "verdict": "done"}])


def stage(batch=1, branch="staging", base=A, heads=((7, B),)):
    return {"order": "stage", "batch": batch, "branch": branch, "base": base, "heads": [list(it) for it in heads]}


LAND = {"order": "land", "batch": 1, "base": A, "commit": C}
NOTICE = {"order": "notice", "change": 7, "why": "Failed", "name": "build"}


class Play:
    """What is known after some facts, each with the answers to what it tells the bot."""

    def __init__(self, *steps):
        self.known, self.lines, self.told, self.number = Known(), [], [], 0
        for step in steps:
            self.add(*step)

    def add(self, fact, *answers):
        self.number += 1
        self.told += self.known.learn(self.number, 100 + self.number, fact)
        assert len(self.known.waiting) == len(answers), (fact, self.known.waiting)
        for answer in answers:
            self.lines.append(self.known.waiting[0].line)
            self.told += self.known.hear(answer_in(answer))


def open_in(known):
    """What is open by the orders and the facts that settle them, without what the bot says of it. A batch that it has put back or dropped
    without a report counts here until the next order for its branch."""
    return Duties(*(open_on(known, branch) for branch in BRANCHES))


def open_on(known, branch):
    batch, test = known.batches.get(branch), known.tests.get(branch)
    if batch is None:
        return None
    land = next((it for it in known.orders.values() if isinstance(it, Land) and it.batch == batch.stage.batch), None)
    if batch.order in known.orders:
        return ToMerge(batch.stage.batch)
    if land:
        return ToLand(land.batch, land.base, land.commit)
    return ToTest(test.batch, test.commit) if test and test.batch not in known.over else None


def said_by(number, person, text, *replies):
    """A comment on change 7, with the answer of these replies."""
    return Said(f"n{number}", 7, person, text), f"[{','.join(it[1:-1] for it in replies)}]"


# A change that lands: the host has a base, a change, its approval, and an order to stage.
BEFORE = [
    (RoleGiven("rosa", "reviewer"), DONE), (MainSeen(A, 'status = ["build"]\n'), DONE, DONE), (Opened(7, "ines", B), DONE),
    (Said("n1", 7, "rosa", "bors r+"), DONE),
]
ORDERED = [*BEFORE, (Ticked(50), with_orders(stage()))]
MADE = [*ORDERED, (Merged("tick-5.0", C),)]
STAGED = [*MADE, (Staged("tick-5.0"), DONE)]
LANDING = [*STAGED, (Ended(1, "build", "success", "it ended", "1-0-build"), with_orders(LAND))]
LANDED = [*LANDING, (Moved("status-8.0", "main"), DONE)]
