"""What the promise of the host rests on, looked at one by one, for `gate-host doctor`."""
import os
import sqlite3
import sys
import time
from contextlib import closing
from dataclasses import dataclass
from pathlib import Path
from typing import Iterator, List

from . import VERSION
from .bot_file import lacks_answers
from .hook_file import SCRIPT, is_for_all, python_for_all
from .inspection import findings
from .journal import Journal
from .loop import time_of_day
from .marks import mark_is_strong
from .core.words import plain, stray
from .faults import Trouble
from .places import Places, name_of_repository
from .release import PROGRAM, PROVED, commit_of_checkout, release_in, sum_in, sum_of, text_of_proved
from .repository import BRANCHES
from .sandbox import sandbox_of
from .settings import Settings, read_reporters, read_roles, read_settings

# A lock of git's that is older was left by a git that has died.
SECONDS_OF_LOCK = 60
# What the report of the queue says of a host that runs.
TROUBLE = "trouble: "


@dataclass(frozen=True)
class Checked:
    """What was looked at, and what to do if it isn't right. A note is neither right nor wrong: it says what can't be looked at, or what may
    matter to somebody."""

    is_right: bool
    said: str
    is_note: bool = False

    @property
    def line(self) -> str:
        return f"{'note' if self.is_note else 'right' if self.is_right else 'WRONG'}: {plain(self.said)}"


def note(said: str) -> Checked:
    return Checked(True, said, True)


def release_checked() -> Checked:
    """Which version this is, and of which commit."""
    try:
        text = text_of_proved()
        if text is not None:
            return Checked(True, f"this is {release_in(text)}; {PROVED} says what was proved of its program")
        commit = commit_of_checkout()
    except Trouble as fault:
        return Checked(False, str(fault))
    return note(f"this is gate-host {VERSION}, " + (f"in a checkout of commit {commit}" if commit else "and of which commit isn't known"))


def checks_of(places: Places, is_running: bool) -> List[Checked]:
    """All that can be looked at without disturbing a host that runs."""
    try:
        settings = read_settings(places.settings, os.geteuid())
        read_roles(places.roles, os.geteuid())
        read_reporters(places.reporters, os.geteuid())
        name_of_repository(places)
    except Trouble as fault:
        return [Checked(False, str(fault))]
    return [
        Checked(True, "settings, roles, reporters and folders are the owner's alone"),
        *in_repository(places, settings), *locks_of(places, settings), *in_system(places, settings), *in_records(places, is_running),
        *told_by_host(places, is_running),
    ]


def in_repository(places: Places, settings: Settings) -> List[Checked]:
    found = findings(places, settings)
    if found:
        return [Checked(False, finding.said) for finding in found]
    return [Checked(True, f"{settings.main} has one name, the hook guards it, and git reads the objects that are named")]


def locks_of(places: Places, settings: Settings) -> Iterator[Checked]:
    """Files that git leaves if it dies, and that keep the host from moving a branch."""
    names = [f"{BRANCHES}{name}.lock" for name in (settings.main, settings.staging, settings.trying)] + ["packed-refs.lock"]
    for path in (places.repository / name for name in names):
        if path.exists() and path.stat().st_mtime < time.time() - SECONDS_OF_LOCK:
            yield Checked(False, f"{path} is a lock of git's that has stood for long; if no git runs there, remove it")


def in_system(places: Places, settings: Settings) -> Iterator[Checked]:
    yield from programs(settings)
    for path in (SCRIPT, Path(python_for_all())):
        is_right = is_for_all(path)
        yield Checked(is_right, f"{path} can be run by {'all' if is_right else 'some alone, and the hook needs that of whoever pushes'}")
    try:
        sandbox = sandbox_of(settings)
        yield Checked(sandbox.is_on or settings.sandbox == "off", f"checks run {sandbox.said}")
    except Trouble as fault:
        yield Checked(False, str(fault))
    said = "nobody can foretell" if mark_is_strong(places.spool) else "can be foretold, so links in folders of others are best avoided"
    yield Checked(True, f"the marks of files on the file system of {places.spool} {said}")


def programs(settings: Settings) -> Iterator[Checked]:
    """What runs: the program of the bot, and Python with SQLite."""
    is_built = os.access(settings.program, os.X_OK)
    yield Checked(is_built, f"the program of the bot is {settings.program}" + ("" if is_built else ", and isn't there; build it"))
    if is_built:
        yield from program_checked(Path(settings.program))
    yield Checked(sys.version_info >= (3, 9) and sqlite3.sqlite_version_info >= (3, 37), "Python and SQLite are new enough")


def program_checked(program: Path) -> Iterator[Checked]:
    """Whether the program is the one that was proved, if this host was installed by a package."""
    try:
        text = text_of_proved()
        if text is None:
            return
        is_same = sum_of(program) == sum_in(text)
    except (OSError, Trouble) as fault:
        yield Checked(False, f"whether the program is the one that was proved can't be told: {fault}")
        return
    if is_same:
        yield Checked(True, f"it is the program that was proved, by the sum in {PROVED}")
    elif program.resolve() == PROGRAM.resolve():
        yield Checked(False, f"it isn't the program that was proved: {PROVED} has another sum; install the package again")
    else:
        yield note(f"it isn't the program of the package, which is {PROGRAM}")


def in_records(places: Places, is_running: bool) -> Iterator[Checked]:
    """What the journal tells. A host that runs holds the bot's file, and has compared it."""
    path = places.records / "journal.db"
    if not path.exists():
        yield Checked(True, "the host hasn't run yet, so there are no records")
        return
    with closing(Journal(path, is_hosts=False)) as journal:
        for move in journal.known().strays():
            yield Checked(False, stray(time_of_day(move.at), move.before, move.target))
        if not is_running:
            try:
                is_behind = bool(journal.count_answered()) and lacks_answers(places, journal)
                said = "is behind the journal; the host brings it up to date" if is_behind else "has all answers of the journal"
                yield Checked(True, f"the bot's file {said}")
            except (Trouble, sqlite3.Error) as fault:
                yield Checked(False, str(fault))


def stray_named(places: Places, named: str) -> str:
    """The commit to which the main branch was moved by nobody who may, by the beginning of its name."""
    path = places.records / "journal.db"
    strays = []
    if path.exists():
        with closing(Journal(path, is_hosts=False)) as journal:
            strays = [move.target for move in journal.known().strays() if move.target.startswith(named)]
    if len(set(strays)) != 1:
        raise Trouble(f"there is no move of the main branch to {named} that has to be accepted")
    return strays[0]


def told_by_host(places: Places, is_running: bool) -> Iterator[Checked]:
    """Whether a host runs, and what it is troubled by."""
    if not is_running:
        yield Checked(False, f"no host runs; gate-host run {places.repository} starts one")
        return
    yield Checked(True, "a host runs")
    queue = places.reports / "queue"
    for line in queue.read_text(encoding="utf-8").splitlines() if queue.exists() else []:
        if line.startswith(TROUBLE):
            yield Checked(False, line[len(TROUBLE):])
