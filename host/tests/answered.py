"""Journals for the tests of explanations: each is told delivery by delivery, and has the answers of the built program. Unless a test says
otherwise, a story begins as those of docs/behaviour.md do."""
import tempfile
import time
from pathlib import Path

from stand_in import PROGRAM
from telling import Told

from gate_host.audit.entries import Journal
from gate_host.audit.replay import answers_of
from gate_host.explaining.asking import explanation_of
from gate_host.explaining.events import moment_of
from gate_host.explaining.shown import lines_of, text_of

SETTINGS = 'status = ["build", "test"]\nblock_labels = ["wip"]\n'
ROOT = "0" * 40
ESTIMATED = ("It will probably land ", "When it lands can't be estimated")


def commit(digit):
    return digit * 40


class Story(Told):
    """What is handed in, and what the host wrote down besides. The time of the n-th fact is n + 100 seconds after the start of 1970."""

    def __init__(self, settings=SETTINGS, base=ROOT, changes=((11, "ines", "a"), (12, "otto", "b"), (13, "otto", "c"))):
        super().__init__()
        self.answers = []
        self.happens("role", person="rosa", role="reviewer")
        self.happens("role", person="milo", role="member")
        if settings:
            self.happens("settings", text=settings)
        if base:
            self.happens("base", commit=base)
        for change, author, digit in changes:
            self.happens("opened", change=change, author=author, head=commit(digit))

    def happens(self, event, kind="Ticked", told=None, **fields):
        """A delivery. The host may have written more down in its fact. Gives the identifier of the delivery."""
        number = len(self.facts) + 1
        id = f"{event}-{number}"
        self.tell(event, id=id, **fields)
        if told:
            fact = self.facts.pop()
            self.fact(kind, **told)
            assert self.facts[-1].number == fact.number
        return id

    def says(self, person, change, text):
        return self.happens("comment", change=change, person=person, text=text)

    def approves(self, *changes, person="rosa"):
        return [self.says(person, change, "bors r+") for change in changes][-1]

    def ticks(self, now):
        return self.happens("tick", now=now)

    def staged(self, batch, digit):
        return self.happens("staged", batch=batch, commit=commit(digit))

    def status(self, digit, name, state="success", **more):
        return self.happens("status", commit=commit(digit), name=name, state=state, **more)

    def passes(self, batch, digit, now):
        """A batch is ordered, staged, tested and landed."""
        self.ticks(now)
        self.staged(batch, digit)
        self.status(digit, "build")
        self.status(digit, "test")
        return self.happens("base", commit=commit(digit))

    def journal(self):
        """The journal, with the answers that the program gives."""
        if len(self.answers) != len(self.rows):
            self.answers = answers_of(str(PROGRAM), [row.line for row in self.rows])
        return Journal(self.facts, [row._replace(answer=answer) for row, answer in zip(self.rows, self.answers)])

    def explained(self, change, at=None, program=PROGRAM):
        with tempfile.TemporaryDirectory() as room:
            return explanation_of(change, moment_of(self.journal(), at), str(program), Path(room))

    def lines(self, change, at=None):
        """What is said of a change below the heading, but for when it lands."""
        return [line for line in text_of(self.explained(change, at)).splitlines()[1:] if not line.startswith(ESTIMATED)]

    def estimate(self, change, at=None):
        """What is said of when a change lands."""
        return [line for line in text_of(self.explained(change, at)).splitlines() if line.startswith(ESTIMATED)]


def heading(found):
    return next(lines_of(found))


def at(fact):
    """The time of a fact, as people read it."""
    return clock(fact + 100)


def clock(now):
    return time.strftime("%Y-%m-%d %H:%M:%S %z", time.localtime(now))


def mark(id):
    """How a line names a delivery whose identifier ends with the number of its fact."""
    return f"[{id} of {at(int(id.rpartition('-')[2]))}]"
