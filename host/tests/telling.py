"""What the tests of the audit share: a journal that is told delivery by delivery."""
import json
import sys
from pathlib import Path

sys.path.insert(0, str(Path(__file__).resolve().parent.parent))

from gate_host.audit.entries import Fact, Journal, Row  # noqa: E402

DONE = {"orders": [], "verdict": "done"}
DENIED = {"number": 9, "rule": "NotApproved", "verdict": "denied"}
BASE, HEAD, OTHER, MERGED, NEXT = (digit * 40 for digit in "0ab1d")


def stage(batch=1, base=BASE, heads=((1, HEAD),), branch="staging"):
    return {"base": base, "batch": batch, "branch": branch, "heads": [list(it) for it in heads], "order": "stage"}


def land(batch=1, base=BASE, commit=MERGED):
    return {"base": base, "batch": batch, "commit": commit, "order": "land"}


def notice(change, why):
    return {"change": change, "order": "notice", "why": why}


class Told:
    """A journal, with a fact for each delivery. Its times are the numbers of the facts and 100."""

    def __init__(self):
        self.facts, self.rows = [], []

    def fact(self, kind="Ticked", **body):
        self.facts.append(Fact(len(self.facts) + 1, len(self.facts) + 101, kind, json.dumps(body)))
        return len(self.facts)

    def tell(self, event, *orders, id=None, replies=None, **fields):
        """A delivery that is answered done, with these orders, unless the replies are named."""
        fact = self.fact()
        id = id or f"{event}-{fact}"
        answer = replies if replies is not None else [{**DONE, "orders": list(orders)}]
        line = json.dumps({"id": id, "event": event, **fields})
        self.rows.append(Row(len(self.rows) + 1, fact, id, line, json.dumps(answer, separators=(",", ":"))))
        return id

    def begin(self, heads=((1, HEAD),)):
        """A main branch with settings, and some changes."""
        self.tell("base", commit=BASE)
        self.tell("settings", text="S")
        for change, head in heads:
            self.tell("opened", change=change, author="otto", head=head)

    def approve(self, change=1, text="bors r+", person="rosa", replies=None):
        return self.tell("comment", change=change, person=person, text=text, replies=replies)

    def test(self, batch=1, base=BASE, heads=((1, HEAD),), commit=MERGED, states=(("build", "success"), ("lint", "success"))):
        """Has a batch staged and tested. Its last status orders to land it. Gives the name of the order."""
        ordered = self.tell("tick", stage(batch, base, heads), now=5)
        self.tell("staged", id=f"{ordered}.0", batch=batch, commit=commit)
        *before, last = states
        for name, state in before:
            self.tell("status", commit=commit, name=name, state=state)
        return self.tell("status", land(batch, base, commit), commit=commit, name=last[0], state=last[1]) + ".0"

    def landed(self, name, commit=MERGED):
        self.tell("base", id=name, commit=commit)

    def journal(self):
        return Journal(self.facts, self.rows)
