"""`gate-host explain`: reads a copy of the journal, runs the program over it, and asks it who could approve a change. It writes nothing in
the repository."""
import argparse
import json
import shutil
import sqlite3
import subprocess
import sys
from contextlib import closing
from pathlib import Path
from typing import Iterator, List, Mapping, Optional, Sequence, Tuple, Union

from ..audit.replay import answers_of, differences
from ..client import Bot, BotEnded
from ..core.orders import Denied, Unread, answer_in
from ..core.queue import batches_in
from ..faults import Trouble, Unable
from ..journal_copy import journal_of, program_of, room_for
from ..places import find_places
from ..required import STATUS, required_statuses
from .courses import courses_of, texts_to_ask
from .events import Moment, moment_of
from .explained import Explanation, Story, changes_of_interest, explained
from .lives import lives_of
from .records import Asked, BatchRow, ChangeRow, Phase, Records, people_to_ask
from .shown import json_of, text_of

# Each person whose `bors r+` would act is asked for over a copy of its own. So many are asked for.
MOST_WHO_MAY = 50
SECONDS = 6 * 3600
# What stands in the records, by docs/formats.md.
PHASES = {1: Phase.OPEN, 2: Phase.CLOSED, 3: Phase.LANDED}
DELEGATE, APPROVER = 3, 4
SUCCEEDED = 1


def explain(arguments: argparse.Namespace) -> int:
    """Says what stands between a change and the main branch."""
    places = find_places(arguments.repository)
    program = program_of(places)
    try:
        with room_for(places) as room:
            found = explanation_of(arguments.change, moment_of(journal_of(places, room), arguments.at), program, room)
    except Unable as fault:
        raise Trouble(str(fault)) from fault
    print(json_of(found) if arguments.json else text_of(found), end="")
    sys.stdout.flush()
    return 0


def explanation_of(change: int, moment: Moment, program: str, room: Path) -> Explanation:
    """What is to be said of a change at a moment, by runs of the program in a room."""
    file = room / "bot.db"
    run_journal(program, moment, file)
    records = records_in(file, change, queue_after(program, moment, room))
    running = {it.number for it in records.queue if it.state != "waiting"}
    courses = courses_of(moment.events, {}, running)
    texts = texts_to_ask(courses, changes_of_interest(change, courses))
    if texts:
        courses = courses_of(moment.events, required_by(program, texts), running)
    is_to_ask = records.change.phase in (Phase.OPEN, Phase.CLOSED) and not records.change.is_approved
    asked = ask_all(program, change, moment, file, people_to_ask(records)) if is_to_ask else []
    return explained(change, Story(moment, courses, lives_of(moment.events, courses), records), asked)


def run_journal(program: str, moment: Moment, file: Path) -> None:
    """Hands the deliveries in to the program, which leaves its records in a file, and has to answer as it did then."""
    found = differences(moment.rows, answers_of(program, [row.line for row in moment.rows], file))
    if found:
        raise Trouble(f"{program} isn't the program of this journal, or the journal was altered: {found[0].said}")


def required_by(program: str, texts: Sequence[str]) -> Mapping[str, Sequence[str]]:
    """Which statuses each text of settings requires."""
    found: List[Tuple[str, Union[List[str], int]]] = [(text, required_statuses(program, text)) for text in texts]
    return {text: names for text, names in found if isinstance(names, list)}


# What the program says of the moment


def queue_after(program: str, moment: Moment, room: Path) -> str:
    """The report of the queue, as `gate report` prints it of these deliveries."""
    file = room / "deliveries"
    file.write_bytes(b"".join(row.line.encode("utf-8", "replace") + b"\n" for row in moment.rows))
    return reported(program, file)


def reported(program: str, file: Path) -> str:
    try:
        ran = subprocess.run([program, "report", str(file)], stdin=subprocess.DEVNULL, capture_output=True, timeout=SECONDS, check=False)
    except (OSError, subprocess.TimeoutExpired) as fault:
        raise Trouble(f"{program} can't be run: {fault}") from fault
    if ran.returncode != 0:
        raise Trouble(f"{program} gives no report: {' '.join(ran.stderr.decode(errors='replace').split())}")
    return ran.stdout.decode(errors="replace")


def records_in(file: Path, change: int, queue: str) -> Records:
    """The records that the program has left."""
    try:
        with closing(sqlite3.connect(file)) as records:
            ask = records.execute
            timeout, = ask("SELECT timeout_sec FROM desk").fetchone()
            people = tuple(name for name, in ask("SELECT name FROM people ORDER BY role, name"))
            required = tuple(word for word, in ask("SELECT word FROM wanted WHERE kind = ? ORDER BY place", (STATUS,)))
            batches = tuple(batch_in(records, *row) for row in ask("SELECT number, since, sha FROM batches ORDER BY number").fetchall())
            return Records(change_in(records, change), people, required, timeout, batches, tuple(batches_in(queue)))
    except (sqlite3.Error, TypeError) as fault:
        raise Trouble(f"the records that the program has left can't be read: {fault}") from fault


def change_in(records: sqlite3.Connection, change: int) -> ChangeRow:
    row = records.execute("SELECT phase, author, head, approved FROM changes WHERE number = ?", (change,)).fetchone()
    if row is None:
        return ChangeRow(Phase.NEVER)
    phase, author, head, approved = row
    query = "SELECT word FROM marks WHERE change_no = ? AND kind = ? ORDER BY place, word"
    approvers, delegates = (tuple(word for word, in records.execute(query, (change, kind))) for kind in (APPROVER, DELEGATE))
    return ChangeRow(PHASES[phase], author, head, approved == 1, approvers, delegates)


def batch_in(records: sqlite3.Connection, number: int, since: int, commit: str) -> BatchRow:
    rows = records.execute("SELECT name, report FROM statuses WHERE batch = ? ORDER BY name", (number,)).fetchall()
    succeeded = tuple(name for name, report in rows if report == SUCCEEDED)
    return BatchRow(number, since, commit, succeeded, tuple(name for name, report in rows if report != SUCCEEDED))


# Who could approve


def ask_all(program: str, change: int, moment: Moment, file: Path, people: Sequence[str]) -> List[Asked]:
    """What the program answers to `bors r+` of each of these people. What it denies changes nothing, so the next one may be asked for over
    the same copy of the records. After one that acts comes a new copy."""
    asked: List[Asked] = []
    bot: Optional[Bot] = None
    names = names_besides(moment)
    try:
        for person in people:
            if sum(it.denial is None for it in asked) == MOST_WHO_MAY:
                break
            bot = bot or bot_over_copy(program, file)
            line = {"id": next(names), "event": "comment", "change": change, "person": person, "text": "bors r+"}
            asked.append(Asked(person, denial_in(bot.hand_in(json.dumps(line)))))
            if asked[-1].denial is None:
                bot.close()
                bot = None
    except (BotEnded, Unread, ValueError) as fault:
        raise Trouble(f"the program can't be asked who could approve the change: {fault}") from fault
    finally:
        if bot:
            bot.close()
    return asked


def names_besides(moment: Moment) -> Iterator[str]:
    """Identifiers that no delivery has: one that was used gets its kept answer."""
    used = {row.id for row in moment.rows}
    number = 0
    while True:
        number += 1
        if f"asked-{number}" not in used:
            yield f"asked-{number}"


def bot_over_copy(program: str, file: Path) -> Bot:
    """A bot over a copy of the records."""
    copied = file.with_name("asked.db")
    for ending in ("", "-wal", "-shm"):
        Path(f"{copied}{ending}").unlink(missing_ok=True)
    shutil.copyfile(file, copied)
    log = Path(f"{file}-wal")
    if log.exists():
        shutil.copyfile(log, f"{copied}-wal")
    return Bot(program, copied)


def denial_in(answer: str) -> Optional[Denied]:
    """The denial of the one command of a comment, or none if it acted."""
    reply, = answer_in(answer)
    return reply if isinstance(reply, Denied) else None
