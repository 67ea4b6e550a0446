"""The locks by which a host knows that it is the only one, and that no git of an earlier one still runs."""
import fcntl
import os

from .faults import Trouble
from .git import HELD
from .places import Places


def take_lock(places: Places) -> int:
    """The lock of the repository. It lasts as long as this process."""
    file = os.open(places.records / "lock", os.O_RDWR | os.O_CREAT | os.O_CLOEXEC, 0o600)
    try:
        fcntl.flock(file, fcntl.LOCK_EX | fcntl.LOCK_NB)
    except OSError:
        os.close(file)
        raise Trouble(f"another host runs on {places.repository}") from None
    return file


def is_locked(places: Places) -> bool:
    """Whether a host runs, as only the owner can tell."""
    try:
        os.close(take_lock(places))
    except Trouble:
        return True
    return False


def take_lock_of_git(places: Places) -> bool:
    """A lock that each git of this host keeps. True if no git of an earlier host has it any more."""
    file = os.open(places.records / "git.lock", os.O_RDWR | os.O_CREAT | os.O_CLOEXEC, 0o600)
    try:
        fcntl.flock(file, fcntl.LOCK_EX | fcntl.LOCK_NB)
        is_alone = True
    except OSError:
        is_alone = False
    fcntl.flock(file, fcntl.LOCK_SH)
    HELD[:] = [file]
    return is_alone
