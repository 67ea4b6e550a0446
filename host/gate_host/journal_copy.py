"""A copy of the journal, and the program, for whoever asks about what has happened. Nothing is written in the repository."""
import os
import tempfile
from contextlib import contextmanager
from pathlib import Path
from typing import Iterator

from .audit.entries import Journal
from .audit.journal_file import read_journal
from .faults import Trouble
from .places import Places
from .settings import read_settings

PREFIX = "gate-journal-"
# In memory the many steps of the program's file needn't wait for a disk. The room has to hold so many times the journal.
MEMORY, TIMES = Path("/dev/shm"), 6


def program_of(places: Places) -> str:
    program = read_settings(places.settings, places.owner).program
    if not os.access(program, os.X_OK):
        raise Trouble(f"there is no program of the bot at {program}, and without it nothing can be told of the journal")
    return str(program)


@contextmanager
def room_for(places: Places) -> Iterator[Path]:
    """A folder that nobody else may read, for as long as it is needed."""
    path = journal_at(places)
    try:
        due = TIMES * sum(it.stat().st_size for it in path.parent.glob(f"{path.name}*"))
    except PermissionError:
        raise Trouble(f"nobody but the owner of {places.repository} can read its journal; ask them, or ask by ssh") from None
    is_fit = MEMORY.is_dir() and os.access(MEMORY, os.W_OK) and os.statvfs(MEMORY).f_bavail * os.statvfs(MEMORY).f_frsize > due
    with tempfile.TemporaryDirectory(prefix=PREFIX, dir=MEMORY if is_fit else None) as room:
        yield Path(room)


def journal_at(places: Places) -> Path:
    return places.records / "journal.db"


def journal_of(places: Places, room: Path) -> Journal:
    path = journal_at(places)
    try:
        if not path.is_file():
            raise Trouble(f"there is no journal {path}: no host has run yet")
        return read_journal(path, room)
    except PermissionError:
        raise Trouble(f"nobody but the owner of {places.repository} can read its journal; ask them, or ask by ssh") from None
