"""Reads a journal, or a copy of one. A host may be at work with it, so it is copied first, and nothing is written beside it."""
import shutil
import sqlite3
import time
from contextlib import closing
from pathlib import Path
from typing import List, Optional, Tuple

from ..faults import Trouble
from .entries import Fact, Journal, Row

VERSION = 3
# How often it is tried to copy a journal that is being written, and the pause between.
ATTEMPTS = 50
PAUSE = 0.1
# A file with the newest of a database stands beside it until SQLite puts the two together.
LOG = "-wal"


def read_journal(path: Path, folder: Path) -> Journal:
    """Reads a journal by way of a copy in a folder."""
    copied = copy(path, folder)
    try:
        with closing(sqlite3.connect(copied)) as database:
            must_be_journal(path, database.execute("PRAGMA user_version").fetchone()[0])
            facts = database.execute("SELECT number, at, kind, body FROM facts ORDER BY number")
            rows = database.execute("SELECT number, fact, id, line, answer FROM deliveries ORDER BY number")
            return Journal([fact_in(path, *it) for it in facts], [row_in(path, *it) for it in rows])
    except (sqlite3.Error, UnicodeError) as fault:
        raise Trouble(f"{path} can't be read as a journal: {fault}") from fault


def must_be_journal(path: Path, version: int) -> None:
    if version in (1, 2):
        raise Trouble(
            f"{path} is a journal of version {version}; start the host of today once on it (gate-host run), which brings it to version "
            f"{VERSION}"
        )
    if version != VERSION:
        raise Trouble(f"{path} is no journal of version {VERSION}: it says that it is of version {version}")


def fact_in(path: Path, number: object, at: object, kind: object, body: object) -> Fact:
    if isinstance(number, int) and isinstance(at, int) and isinstance(kind, str) and isinstance(body, str):
        return Fact(number, at, kind, body)
    raise Trouble(f"{path} has a fact {number} that no host has written")


def row_in(path: Path, number: object, fact: object, id: object, line: object, answer: object) -> Row:
    if isinstance(number, int) and isinstance(fact, int) and isinstance(id, str) and isinstance(line, str):
        if answer is None or isinstance(answer, str):
            return Row(number, fact, id, line, answer)
    raise Trouble(f"{path} has a delivery {number} that no host has written")


def copy(path: Path, folder: Path) -> Path:
    """Copies a database with its log, of one moment: nothing is written while it is copied."""
    log = path.with_name(path.name + LOG)
    if not path.is_file():
        raise Trouble(f"there is no journal {path}; name a copy of it by --journal")
    copied = folder / "journal.db"
    for _ in range(ATTEMPTS):
        before = marks_of(path, log)
        shutil.copyfile(path, copied)
        copied.with_name(copied.name + LOG).unlink(missing_ok=True)
        if log.exists():
            shutil.copyfile(log, copied.with_name(copied.name + LOG))
        if marks_of(path, log) == before:
            return copied
        time.sleep(PAUSE)
    raise Trouble(f"{path} is written all the time; try again, or with a copy that was made while no host ran")


def marks_of(*paths: Path) -> List[Optional[Tuple[int, int, int]]]:
    """What is another one after a file was written."""
    found = [path.stat() if path.exists() else None for path in paths]
    return [(it.st_ino, it.st_size, it.st_mtime_ns) if it else None for it in found]
