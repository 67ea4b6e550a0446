"""Runs the cases of the tables over database files: `gate run --db`, with what stands in the file as the stock SQLite reads it.

What is told of a file is written as in rows/: a row of a table as `people|alice|2`, a row change as `put people|alice|2`. docs/testing.md
says what each kind of run shows. A script that imports this sets `sys.dont_write_bytecode` before, so that nothing is left in the folder.
"""
import os
import re
import shutil
import sqlite3
import subprocess
from contextlib import closing, contextmanager
from dataclasses import dataclass
from pathlib import Path
from threading import Timer
from typing import Dict, Iterable, Iterator, List, Set, Tuple

from programs import Failed, Program, made_shim, over, run_apart, want
from stops import FILE, LOG, NAMES, Call, Held, Moment, calls_in, left_by_stops, states_after
from tables import Case, Row

# The tables, in their order, and how many of their first columns are the key.
KEYS = {"desk": 1, "people": 1, "changes": 1, "marks": 3, "batches": 1, "members": 2, "statuses": 2, "answers": 1, "wanted": 2}
# No row change tells of the answers.
OF_STATE = [table for table in KEYS if table != "answers"]

# What a run may take before its program counts as one that never ends. In a run of all checks much runs beside it, and goes first.
SECONDS = 1200
# In how many pieces the input of a case is handed in at the most, if the program is ended behind each.
MOST_PIECES = 64

# Rows as SQLite gives them. A text whose bytes are none in UTF-8 has a surrogate for each such byte.
Values = Tuple[object, ...]
State = Dict[str, List[Values]]


@dataclass
class Found:
    """What came of a run: how it ended, a part for each row that is due, and what stands on standard error."""

    status: int
    parts: List[bytes]
    errors: bytes = b""


# --- What is told of rows


def told(words: str, values: Values) -> bytes:
    """A row, or the key of one, behind these words."""
    return "|".join([words, *map(text_of, values)]).encode(errors="surrogateescape") + b"\n"


def text_of(value: object) -> str:
    # No column may have another value.
    return str(value) if isinstance(value, (int, str)) else "?"


def rows_told(state: State) -> List[bytes]:
    return [told(table, values) for table, rows in state.items() for values in rows]


def changes_told(old: State, new: State) -> List[bytes]:
    """The row changes that lead from one state to another: first deletions, then puts, each in the order of the tables and by key."""
    deletions, puts = [], []
    for table in OF_STATE:
        keys = {values[: KEYS[table]] for values in new[table]}
        gone = [values[: KEYS[table]] for values in old[table] if values[: KEYS[table]] not in keys]
        deletions += [told(f"delete {table}", key) for key in gone]
        puts += [told(f"put {table}", values) for values in new[table] if values not in old[table]]
    return deletions + puts


# --- Database files


@contextmanager
def opened(file: Path) -> Iterator[sqlite3.Connection]:
    """A file as the stock SQLite opens it, each statement a transaction of its own. It is closed in the end."""
    with closing(sqlite3.connect(file, isolation_level=None)) as database:
        database.text_factory = lambda text: text.decode(errors="surrogateescape")
        yield database


def make_database(file: Path, statements: Iterable[str]) -> None:
    """Makes a database by the stock SQLite, with a write-ahead log as the program has one. Its last statement is in the log alone if the
    files are copied now."""
    with opened(file) as database:
        make_tables(database, statements)


def make_tables(database: sqlite3.Connection, statements: Iterable[str]) -> None:
    database.execute("PRAGMA journal_mode = WAL")
    database.execute("PRAGMA wal_autocheckpoint = 0")
    for statement in statements:
        # What stands in the log is copied into the file.
        database.execute("PRAGMA wal_checkpoint")
        database.execute(statement)


def left_database(file: Path, statements: Iterable[str]) -> Dict[str, bytes]:
    """What the files of a database hold if the program that makes it is killed: the last statement is in the log alone."""
    with opened(file) as database:
        make_tables(database, statements)
        return {end: Path(f"{file}{end}").read_bytes() for end in (FILE, LOG)}


def state_in(database: sqlite3.Connection) -> State:
    """The rows of each table, by their key."""
    orders = {table: ", ".join(map(str, range(1, many + 1))) for table, many in KEYS.items()}
    return {table: database.execute(f"SELECT * FROM {table} ORDER BY {order}").fetchall() for table, order in orders.items()}


def state_of(file: Path) -> State:
    """The rows of a file that nobody else has open, which has to be whole."""
    with opened(file) as database:
        want("what the stock SQLite says of the file", database.execute("PRAGMA integrity_check").fetchall(), [("ok",)])
        return state_in(database)


def all_found(file: Path) -> List[bytes]:
    """What a file holds that was refused: what was created in it, and the rows of each table in the order in which they were added."""
    with opened(file) as database:
        schema = database.execute("SELECT type, name FROM sqlite_schema WHERE sql IS NOT NULL").fetchall()
        rows = [told("sqlite_schema", values) for values in schema]
        for table in (name for kind, name in schema if kind == "table"):
            rows += [told(table, values) for values in database.execute(f"SELECT * FROM {table} ORDER BY rowid")]
        return rows


# --- At once: one run, and the rows in the end


def due_at_once(case: Case) -> List[Row]:
    return (case.opening or []) + case.rows + case.tables


def at_once(program: Program, case: Case) -> Found:
    """The answers of a run over a file that the statements of the case have made, or over a new one, and then the rows. Of one that is
    refused comes why, and then what it holds."""
    file = program.file()
    if case.statements:
        make_database(file, case.statements)
    status, answers, errors = run_over(program, file, case.input())
    refused = re.fullmatch(b"gate: (Foreign|Store)\n", errors)
    if case.opening and status == 1 and refused and not answers:
        return Found(0, [b"refused: " + refused[1] + b"\n", *all_found(file)])
    return Found(status, lines_in(answers) + end_of(case, file, status), errors)


def run_over(program: Program, file: Path, given: bytes) -> Tuple[int, bytes, bytes]:
    return run_apart([program.path, "run", *over(file)], given, SECONDS)


def end_of(case: Case, file: Path, status: int) -> List[bytes]:
    """The rows in the end, if the case tells them. After any run that came to its end the file is whole."""
    rows = rows_told(state_of(file)) if status == 0 else []
    return rows if case.tables else []


def lines_in(written: bytes) -> List[bytes]:
    return re.findall(b"[^\n]*\n|[^\n]+", written)


# --- In pieces: the program is ended, and started again over the same file


def due_in_pieces(case: Case) -> List[Row]:
    return case.rows + case.tables


def in_pieces(program: Program, case: Case) -> Found:
    """The answers of a run for each line, and then the rows. The lines of a long case come in pieces of several lines."""
    return ended_between(program, case, MOST_PIECES)


def in_two_pieces(program: Program, case: Case) -> Found:
    return ended_between(program, case, 2)


def ended_between(program: Program, case: Case, most: int) -> Found:
    file, parts = program.file(), []
    for piece in pieces_of(case.lines(), most):
        status, answers, errors = run_over(program, file, piece)
        parts += lines_in(answers)
        if status or errors:
            return Found(status, parts, errors)
    return Found(0, parts + end_of(case, file, 0))


def pieces_of(lines: List[bytes], most: int) -> List[bytes]:
    """The lines in so many pieces at the most: all but the last one have the same number of lines. No line is one piece too."""
    size = max(1, -(-len(lines) // most))
    return [b"".join(lines[at : at + size]) for at in range(0, len(lines), size)] or [b""]


# --- Line by line: the rows are read behind each line, while the program has the file


def due_by_lines(case: Case) -> List[Row]:
    """Each row, and behind it the row changes that it tells, if it does."""
    return [it for row in case.rows for it in [row, *changes_due(row)]]


def changes_due(row: Row) -> List[Row]:
    return [] if row.changes is None else [Row(row.place, b"the row changes of " + row.line, row.changes)]


@dataclass
class Seen:
    """What a file and its log hold at a moment: the rows, the table of each page that a table or its key begins with, and the page of each
    frame of the log."""

    rows: State
    tables: Dict[int, str]
    frames: List[int]


def by_lines(program: Program, case: Case) -> Found:
    """The answer to each line, and the row changes of each that tells them. What a line has written to the log is looked at too."""
    file, parts = program.file(), []
    want("a run that makes the file", run_over(program, file, b""), (0, b"", b""))
    before = seen_of(program, file)
    with fed(program, file) as bot:
        for row in case.rows:
            parts.append(answer_of(bot, row.line))
            after = seen_of(program, file)
            want(f"{row.place}: what is written besides", idle_writes(before, after), set())
            if row.changes is not None:
                parts.append(b"".join(changes_told(before.rows, after.rows)) + b"\n")
            before = after
        answers, errors = bot.communicate()
        return Found(bot.returncode, parts + lines_in(answers), errors)


@contextmanager
def fed(program: Program, file: Path) -> "Iterator[subprocess.Popen[bytes]]":
    """A program that is running over a file. It is killed in the end, or if it takes too long."""
    pipe = subprocess.PIPE
    with subprocess.Popen([program.path, "run", *over(file)], stdin=pipe, stdout=pipe, stderr=pipe) as bot:
        late = Timer(SECONDS, bot.kill)
        late.start()
        try:
            yield bot
        finally:
            late.cancel()
            bot.kill()


def answer_of(bot: "subprocess.Popen[bytes]", line: bytes) -> bytes:
    if not bot.stdin or not bot.stdout:
        raise Failed("the program has no pipes")
    bot.stdin.write(line + b"\n")
    bot.stdin.flush()
    return bot.stdout.readline()


def seen_of(program: Program, file: Path) -> Seen:
    """Reads a copy of a file and its log, since the program has both locked."""
    copy = Path(program.room, "copy")
    for end in (FILE, LOG):
        shutil.copyfile(f"{file}{end}", f"{copy}{end}")
    frames = frames_in(Path(f"{copy}{LOG}").read_bytes())
    with opened(copy) as database:
        tables = database.execute("SELECT rootpage, tbl_name FROM sqlite_schema").fetchall()
        return Seen(state_in(database), dict(tables), frames)


def frames_in(log: bytes) -> List[int]:
    """The page of each frame of a log, as SQLite's format says: behind a head come the frames, each with the salt of the head."""
    head, head_of_frame = 32, 24
    size, salt = int.from_bytes(log[8:12], "big"), log[16:24]
    pages: List[int] = []
    at = head
    while len(log) >= at + head_of_frame + size and log[at + 8 : at + 16] == salt:
        pages.append(int.from_bytes(log[at : at + 4], "big"))
        at += head_of_frame + size
    return pages


def idle_writes(before: Seen, after: Seen) -> Set[str]:
    """The tables that were written though their rows are the same, and `the log` if it has grown though all are. A table of many rows
    has more pages than the one that it begins with; these aren't told apart."""
    if before.frames != after.frames[: len(before.frames)]:
        raise Failed("the log was begun anew")
    frames = after.frames[len(before.frames) :]
    changed = {table for table in KEYS if before.rows[table] != after.rows[table]}
    idle = {after.tables[page] for page in frames if page in after.tables} - changed
    return idle | ({"the log"} if frames and not changed else set())


# --- With stops: what the files may hold behind each call is opened


def due_with_stops(case: Case) -> List[Row]:
    return case.tables


def with_stops(program: Program, case: Case) -> Found:
    """The rows that a run leaves which isn't stopped. Whatever a stop may leave behind each call that changes the file or its log is
    opened, and has to have the same rows."""
    file, trace = program.file(), program.file()
    left = left_database(program.file(), case.statements)
    put_files(file, left)
    environment = {**os.environ, "LD_PRELOAD": str(made_shim(program.room)), "FAULTS_TRACE": str(trace)}
    want("a run that isn't stopped", program.run(["run", *over(file)], env=environment), (0, b"", b""))
    calls = list(calls_in(trace.read_bytes(), os.path.realpath(file).encode()))
    states = list(states_after(calls, {end: Held(it, it) for end, it in left.items()}))
    want_whole(file, calls, states[-1])
    rows = rows_told(state_of(file))
    for when, files in left_by_stops(states):
        put_files(file, files)
        want(f"a run after a stop {when}", program.run(["run", *over(file)]), (0, b"", b""))
        want(f"the rows after a stop {when}", rows_told(state_of(file)), rows)
    return Found(0, rows)


def put_files(file: Path, files: Dict[str, bytes]) -> None:
    for end, held in files.items():
        Path(f"{file}{end}").write_bytes(held)


def want_whole(file: Path, calls: List[Call], last: Moment) -> None:
    """The trace has all that was written: it leads to what the files have. Both were written and synced."""
    for end, name in NAMES.items():
        want(f"whether the trace leads to what the {name} has", last.files[end].written == Path(f"{file}{end}").read_bytes(), True)
        want(f"how the {name} was changed", {it.word for it in calls if it.end == end}, {"write", "cut", "sync"})
