"""The source of a host of a repository on GitHub: what happens there, and what the owner says on this machine."""
from typing import Optional, Sequence

from ..core.notes import Acceptance, Freezing, Note, Thawing
from ..ports import Look
from ..spool import Spool
from ..troubles import complain
from .pulls import PullRequests


class WithNotesOfOwner:
    """Pull requests and comments, and from the spool that the owner accepts a move, or freezes the queue. No other note counts: a user of
    this system is nobody on GitHub."""

    def __init__(self, pulls: PullRequests, spool: Spool, owner: Optional[str]):
        self.pulls, self.spool, self.owner = pulls, spool, owner

    @property
    def has_more(self) -> bool:
        return self.spool.has_more

    def look(self) -> Look:
        return self.pulls.look()

    def take(self) -> Sequence[Note]:
        left = [it.said for it in self.spool.take()]
        taken = [note for note in left if self.counts(note)]
        for note in left:
            if note not in taken:
                complain(f"a note of {note.person} doesn't count: what is said of changes is said on GitHub")
                self.spool.remove(note.note)
        return [*taken, *self.pulls.take()]

    def counts(self, note: Note) -> bool:
        """Whether a note is one that is left here. Who may accept a move, the loop knows; a name of this system may be that of a reviewer
        there, so whoever else freezes the queue isn't heard."""
        return isinstance(note, Acceptance) or (isinstance(note, (Freezing, Thawing)) and note.person == self.owner)

    def remove(self, name: str) -> None:
        if name in self.spool.seen:
            self.spool.remove(name)
        else:
            self.pulls.remove(name)
