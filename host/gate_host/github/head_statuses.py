"""The status of the host's own on the head of each change that is or was on its way: how it stands."""
from itertools import islice
from typing import Dict, Iterable, Mapping, Protocol, Sequence, Set

from ..core.known import Known
from ..core.head_status import Place, HeadStatus, head_status_of
from ..faults import Unable
from ..journal import Journal
from .api import Api, Later, Refused

# The marks of the journal that tell which status was set last begin so, with the number of the change behind that.
MARK = "status of "
# How many batches had landed before the host first set statuses. Nothing is said of what landed with them.
BEFORE = "landings without a status"
# So many are set in a refresh, so that many hold nobody up.
MOST_AT_ONCE = 3
# A status that is another one by its place alone is set so long after the last such one: there may be many, and GitHub counts them.
SECONDS_BETWEEN_PLACES = 20.0
UNSURE = "? "
OTHER_HEAD = "not landed: the change is at another head now"
# What GitHub refuses is tried again after so long.
SECONDS_AFTER_REFUSAL = 60.0


class Queue(Protocol):
    """The queue, as it was reported last."""

    @property
    def is_current(self) -> bool:
        """Whether the report has all that was answered."""

    def places_in_queue(self) -> Mapping[int, Place]:
        """Where each approved change is."""


class HeadStatuses:
    """Sets the statuses, and remembers in the journal which it has set. One that is set twice does no harm."""

    def __init__(self, known: Known, queue: Queue, journal: Journal, api: Api, path: str, pages: str, name: str, own: str = ""):
        self.known, self.queue, self.journal, self.api, self.path = known, queue, journal, api, path
        # Where the page of a commit is, without its name; and the name of the status, or none if none is wanted. And where the pages of the
        # host's own are, if they are anywhere.
        self.pages, self.status, self.own = pages, name, own
        self.name = f"the status {name} of heads"
        marks = {int(it[len(MARK):]): value for it, value in journal.marks(MARK)}
        self.shown: Dict[int, HeadStatus] = {change: status_in_mark(value) for change, value in marks.items()}
        # Those of which it isn't known whether they were set.
        self.unsure: Set[int] = {change for change, value in marks.items() if value.startswith(UNSURE)}
        if name and not journal.mark(BEFORE):
            journal.put_mark(BEFORE, str(len(known.landings)))
        # The changes that may stand another way, and those that only have another place.
        self.due: Dict[int, None] = dict.fromkeys([*self.shown, *self.landed(), *known.open_changes()] if name else [])
        self.moved: Dict[int, None] = {}
        self.places: Mapping[int, Place] = {}
        self.not_before = self.next_place = 0.0

    def landed(self) -> Iterable[int]:
        """The changes that have landed since the host sets statuses. It may have died before it set any of one."""
        landings = islice(self.known.landings.values(), int(self.journal.mark(BEFORE)), None)
        return [member.change for landing in landings for member in landing.members]

    @property
    def is_behind(self) -> bool:
        now = self.api.now()
        is_due = bool(self.due) or (bool(self.moved) and now >= self.next_place)
        return is_due and self.queue.is_current and now >= max(self.not_before, self.api.not_before)

    def note(self, changes: Sequence[int]) -> None:
        self.due.update(dict.fromkeys(changes if self.status else ()))

    def post_some(self) -> None:
        if not self.queue.is_current or not self.status:
            return
        places = self.queue.places_in_queue()
        if places != self.places:
            self.note([change for change, it in places.items() if self.places.get(change) != it])
            self.places = places
        posted = 0
        for change in list(self.due):
            posted += self.post(change)
            if posted >= MOST_AT_ONCE:
                return
        self.post_place()

    def post(self, change: int) -> bool:
        """Sets the status of a change, if it is another one, and not only by its place. Gives whether anything was set."""
        before, now = self.shown.get(change), head_status_of(self.known, self.places, change)
        is_due = now is not None and (now != before or change in self.unsure)
        if now and before and is_due and is_same_but_place(before, now) and change not in self.unsure:
            self.moved[change] = None
            is_due = False
        if now and is_due:
            if before and before.head != now.head and before.state == "pending":
                self.send(change, HeadStatus(before.head, "failure", OTHER_HEAD))
            self.put(change, now)
        del self.due[change]
        return is_due

    def post_place(self) -> None:
        """Sets the status of one change that has only another place."""
        if not self.moved or self.api.now() < self.next_place:
            return
        change = next(iter(self.moved))
        now = head_status_of(self.known, self.places, change)
        if now and now.is_waiting and now != self.shown.get(change):
            self.put(change, now)
            self.next_place = self.api.now() + SECONDS_BETWEEN_PLACES
        self.moved.pop(change, None)

    def put(self, change: int, wanted: HeadStatus) -> None:
        self.keep(change, wanted, UNSURE)
        self.send(change, wanted)
        self.keep(change, wanted)
        self.moved.pop(change, None)

    def keep(self, change: int, wanted: HeadStatus, unsure: str = "") -> None:
        """Writes down which status is about to be set, or was. So the next host sets one that may not be there, or not be the last."""
        self.journal.put_mark(f"{MARK}{change}", f"{unsure}{text_of(wanted)}")
        self.shown[change] = wanted
        (self.unsure.add if unsure else self.unsure.discard)(change)

    def target_of(self, change: int, wanted: HeadStatus) -> str:
        """Where more can be read: on the page of the change, or else on that of the commit, if there is one."""
        if self.own:
            return f"{self.own}/change-{change}.html"
        return f"{self.pages}{wanted.commit}" if wanted.commit else ""

    def send(self, change: int, wanted: HeadStatus) -> None:
        """Sets a status. A commit that GitHub doesn't have, or that has too many of them, goes without."""
        if self.api.now() < self.not_before:
            raise Later(f"it is tried again in {self.not_before - self.api.now():.0f} seconds")
        target = self.target_of(change, wanted)
        more = {"target_url": target} if target else {}
        body = {"state": wanted.state, "context": self.status, "description": wanted.text, **more}
        try:
            self.api.post(f"{self.path}/statuses/{wanted.head}", body)
        except Refused as refused:
            if refused.status != 422:
                self.not_before = self.api.now() + SECONDS_AFTER_REFUSAL
                raise Unable(str(refused)) from refused


def is_same_but_place(one: HeadStatus, other: HeadStatus) -> bool:
    """Whether two say that a change waits at the same head."""
    return one.is_waiting and other.is_waiting and one.head == other.head


def text_of(wanted: HeadStatus) -> str:
    return " ".join([wanted.head, wanted.state, wanted.commit or "-", wanted.text])


def status_in_mark(mark: str) -> HeadStatus:
    """What `text_of` has written, behind whether it is sure."""
    head, state, commit, text = (mark[len(UNSURE):] if mark.startswith(UNSURE) else mark).split(" ", 3)
    return HeadStatus(head, state, text, "" if commit == "-" else commit)
