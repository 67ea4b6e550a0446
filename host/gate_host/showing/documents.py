"""Documents of JSON for programs, one for each question. Times are whole seconds since 1970."""
import json
from dataclasses import asdict, dataclass
from typing import Dict, Optional, Sequence, Tuple

from ..core.known import Known
from ..core.orders import Json
from .logs import Entry, outputs_in
from .snapshot import Snapshot

VERSION = 1


@dataclass(frozen=True)
class ChangeDocument:
    """What is known of a change, with how it landed, if it did. `phase` is `open`, `closed` or `landed`, and `report` the bot's own report
    of it."""

    version: int
    change: int
    title: str
    phase: str
    head: str
    author: str
    labels: Tuple[str, ...]
    reviews: Tuple[str, ...]
    approvers: Tuple[str, ...]
    said_by: str
    approved_at: Optional[int]
    landed: Optional["LandedDocument"]
    report: str


@dataclass(frozen=True)
class LandedDocument:
    """How a change has landed: by which batch and commit, at which head, who approved it, and when, if that is known."""

    batch: int
    commit: str
    head: str
    approvers: Tuple[str, ...]
    said_by: str
    at: Optional[int]


def json_of_queue(snapshot: Snapshot) -> str:
    found = asdict(snapshot)
    found["settings"]["reporters"] = {name: people for name, people in snapshot.settings.reporters}
    return json_of({"version": VERSION, **found})


def document_of_change(known: Known, number: int, title: str, report: str) -> ChangeDocument:
    people = known.people_of(number)
    reviews = known.reviews.get(number, {})
    is_approved = number in known.approved
    return ChangeDocument(
        VERSION, number, title, known.phase(number), known.head_of(number), people.author, tuple(sorted(known.labels.get(number, ()))),
        tuple(sorted(person for person, approves in reviews.items() if approves)), people.approvers if is_approved else (),
        people.said_by if is_approved else "", known.approved_at.get(number) if is_approved else None, landed_of(known, number), report,
    )


def title_in(document: str, head: str) -> str:
    """The title that a document of a change has, if it is of this head; or nothing."""
    try:
        found = json.loads(document)
        return str(found["title"]) if found["head"] == head else ""
    except (ValueError, LookupError, TypeError):
        return ""


def landed_of(known: Known, number: int) -> Optional[LandedDocument]:
    landing = known.landing_of(number)
    member = next((it for it in landing.members if it.change == number), None) if landing else None
    if landing is None:
        return None
    head, approvers, said_by = (member.head, member.approvers, member.said_by) if member else ("", (), "")
    return LandedDocument(landing.batch, landing.commit, head, approvers, said_by, landing.at or None)


def log_document(change: int, entries: Sequence[Entry]) -> Dict[str, Json]:
    told = [{"at": it.at, "text": it.text, "outputs": outputs_in(it.text)} for it in entries]
    return {"version": VERSION, "change": change, "entries": told}


def json_of(document: Json) -> str:
    """The text of a document. What isn't of ASCII is escaped, so no character of it means anything to a terminal."""
    return json.dumps(document, indent=1) + "\n"


def json_of_change(document: ChangeDocument) -> str:
    return json_of(asdict(document))
