"""The bot's own file, of which the host makes copies: the bot keeps the file locked. A copy is made while the bot has nothing to do, since
the host alone gives it work. So it is whole, and of one moment. docs/formats.md describes its tables, of which the host reads one."""
import os
import shutil
import sqlite3
from contextlib import closing, contextmanager
from pathlib import Path
from typing import Iterator, List, Tuple

from .journal import Journal
from .faults import Trouble
from .places import Places

# So many of the last answers are compared at each start of the bot.
MOST_COMPARED = 200
# The file and its log, which are the records together.
NAMES = ("bot.db", "bot.db-wal")


def copy_records(places: Places, folder: Path) -> None:
    """Copies the bot's file and its log into a folder."""
    for name in NAMES:
        if (places.records / name).exists():
            shutil.copyfile(places.records / name, folder / name)


@contextmanager
def copy_of_records(places: Places) -> Iterator[sqlite3.Connection]:
    """A copy of the bot's file, for as long as it is read."""
    folder = places.records / "copy"
    shutil.rmtree(folder, ignore_errors=True)
    folder.mkdir(mode=0o700)
    copy_records(places, folder)
    with closing(sqlite3.connect(folder / "bot.db")) as bot:
        yield bot
    shutil.rmtree(folder, ignore_errors=True)


def has_file(places: Places) -> bool:
    return places.bot.exists() and places.bot.stat().st_size > 0


def lacks_answers(places: Places, journal: Journal) -> bool:
    """Whether the bot's file is missing or older than the journal, as a copy that was put back. It may have one answer more, which the
    host hasn't written down. A file of another history is refused."""
    if not has_file(places):
        return True
    with copy_of_records(places) as bot:
        return lacks(bot, places, journal)


def lacks(bot: sqlite3.Connection, places: Places, journal: Journal) -> bool:
    """Whether a copy of the bot's file is older than the journal."""
    last = journal.last_answered(MOST_COMPARED)
    coming = journal.without_answer()
    if not bot.execute("SELECT count(*) FROM sqlite_master WHERE name = 'answers'").fetchone()[0]:
        return True
    kept = {id: bot.execute("SELECT body FROM answers WHERE id = ?", (id,)).fetchone() for id in last}
    count = bot.execute("SELECT count(*) FROM answers").fetchone()[0]
    if coming and bot.execute("SELECT 1 FROM answers WHERE id = ?", (coming,)).fetchone():
        count -= 1
    for id, answer in last.items():
        if kept[id] and kept[id][0] != answer:
            raise Trouble(f"{places.bot} has another answer to {id} than the journal: they aren't of one history")
    if count > journal.count_answered():
        raise Trouble(f"{places.bot} has answers that the journal lacks: the journal is older, and the two have to be of one moment")
    return count < journal.count_answered() or not all(kept.values())


def copy_up_to_date(places: Places, journal: Journal, folder: Path) -> bool:
    """Copies the bot's file for another bot, which goes on with the copy. False if it is behind the journal, or if somebody has written it
    meanwhile, as the bot of a host that died, which is still about to end."""
    before = marks_of_writing(places)
    if not has_file(places):
        return False
    copy_records(places, folder)
    if marks_of_writing(places) != before:
        return False
    with closing(sqlite3.connect(folder / "bot.db")) as bot:
        # SQLite puts the log into the copy at its end. Nobody needs the copy after a crash, so that isn't waited for.
        bot.execute("PRAGMA synchronous = OFF")
        return not lacks(bot, places, journal)


def marks_of_writing(places: Places) -> List[Tuple[int, int, int]]:
    """What is another one after the bot's file was written."""
    found = [os.stat(places.records / name) for name in NAMES if (places.records / name).exists()]
    return [(it.st_ino, it.st_size, it.st_mtime_ns) for it in found]
