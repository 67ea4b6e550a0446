"""Where people are told: the files of reports, and beside them what GitHub shows."""
from typing import Dict, Mapping, Protocol, Sequence

from ..core.deliveries import Delivery
from ..faults import Unable
from ..reports import Reports
from ..troubles import complain


class Poster(Protocol):
    """What is posted to GitHub, some at a time."""

    # What it posts, in words.
    name: str

    @property
    def is_behind(self) -> bool:
        """Whether something is left to post that can be posted now."""

    def note(self, changes: Sequence[int]) -> None:
        """Notes of which changes something may be another way now."""

    def post_some(self) -> None:
        """Posts some of what is left. What can't be posted for now raises `Unable`."""


class Board:
    """The reports, and what is posted. What can't be posted waits, and that is complained of once."""

    def __init__(self, reports: Reports, posters: Sequence[Poster]):
        self.reports, self.posters = reports, posters
        self.lost: Dict[str, str] = {}

    @property
    def is_waiting(self) -> bool:
        return self.reports.is_waiting

    @property
    def is_behind(self) -> bool:
        return self.reports.is_behind or any(it.is_behind for it in self.posters)

    def note(self, delivery: Delivery, changes: Sequence[int]) -> None:
        self.reports.note(delivery, changes)
        for poster in self.posters:
            poster.note(changes)

    def waiting(self) -> Mapping[int, int]:
        return self.reports.waiting()

    def refresh(self, program: str, remarks: Sequence[str]) -> None:
        """Writes the reports, which tell what GitHub keeps from being posted, and posts some."""
        self.reports.refresh(program, [*remarks, *(f"trouble: {it}" for it in self.lost.values())])
        for poster in self.posters:
            try:
                poster.post_some()
                self.lost.pop(poster.name, None)
            except Unable as fault:
                said = f"{poster.name} waits: {fault}"
                if poster.name not in self.lost:
                    complain(said)
                self.lost[poster.name] = said

    def close(self) -> None:
        self.reports.close()
