"""Which statuses a text of settings requires: asked of the bot's program itself, which reads such a text in proved code.

The program gets one delivery with the text, in a folder that goes away with it, and leaves its records there. docs/formats.md describes
their tables, of which `wanted` has the lists of the settings.
"""
import json
import os
import signal
import sqlite3
import subprocess
import tempfile
from contextlib import closing, suppress
from dataclasses import dataclass
from pathlib import Path
from typing import List, Optional, Union

from .faults import Unable

# A start of a program takes some seconds at the most, if nothing else keeps the machine busy.
SECONDS = 120
# How the folder of a run is called.
FOLDER = "required-"
# What the lists in the table `wanted` are.
STATUS, PR_STATUS = 1, 3


@dataclass(frozen=True)
class Wanted:
    """What a text of settings asks for: the statuses of a staging commit and those of the head of a change, each list in its order, how
    many reviews, and after how many seconds a batch fails."""

    statuses: List[str]
    pr_statuses: List[str]
    approvals: int
    timeout: int


def required_statuses(program: str, text: str) -> Union[List[str], int]:
    """The statuses that a staging commit needs, or the number of the refusal if the text is refused. `Unable` says that the program
    can't tell."""
    found = wanted_of(program, text)
    return found.statuses if isinstance(found, Wanted) else found


def wanted_of(program: str, text: str, room: Optional[Path] = None) -> Union[Wanted, int]:
    """What a text of settings asks for, or the number of the refusal if the text is refused. The folder of the run is made in a room, or
    else where all have their temporary files."""
    line = json.dumps({"id": "settings", "event": "settings", "text": text}, ensure_ascii=False)
    try:
        with tempfile.TemporaryDirectory(prefix=FOLDER, dir=room) as folder:
            file = Path(folder, "settings.db")
            number = refusal_in(answer_to(program, file, line.encode("utf-8", "replace")))
            return wanted_in(file) if number == 0 else number
    except OSError as fault:
        raise Unable(f"the program can't be asked what settings mean: {fault}") from fault


def answer_to(program: str, file: Path, line: bytes) -> str:
    """What the program answers to one line, with its records in a file. Whatever it has started is killed with it if it takes too long."""
    try:
        process = subprocess.Popen(
            [program, "run", "--db", str(file)], stdin=subprocess.PIPE, stdout=subprocess.PIPE, stderr=subprocess.PIPE,
            start_new_session=True,
        )
    except OSError as fault:
        raise Unable(f"{program} can't be started: {fault.strerror}") from fault
    with process:
        try:
            answer, said = process.communicate(line + b"\n", timeout=SECONDS)
        except subprocess.TimeoutExpired:
            with suppress(ProcessLookupError):
                os.killpg(process.pid, signal.SIGKILL)
            raise Unable(f"{program} gave no answer for {SECONDS} seconds") from None
    if process.returncode != 0:
        words = " ".join(said.decode(errors="replace").split())
        raise Unable(f"{program} ended with status {process.returncode}: {words}")
    return answer.decode(errors="replace").strip()


def refusal_in(answer: str) -> int:
    """The number of the refusal that an answer has, or 0 if the settings were taken."""
    try:
        reply = json.loads(answer)[0]
        number = 0 if reply["verdict"] == "done" else reply["detail"]
    except (ValueError, LookupError, TypeError) as fault:
        raise Unable(f"the program takes the settings for no delivery, and says {answer}") from fault
    if not isinstance(number, int):
        raise Unable(f"the program refuses the settings in a way that isn't known: {answer}")
    return number


def wanted_in(file: Path) -> Wanted:
    """The lists in the records that the program has left."""
    try:
        with closing(sqlite3.connect(file)) as records:
            rows = records.execute("SELECT kind, word FROM wanted ORDER BY kind, place").fetchall()
            approvals, timeout = records.execute("SELECT required_approvals, timeout_sec FROM desk").fetchone()
    except sqlite3.Error as fault:
        raise Unable(f"the records that the program has left can't be read: {fault}") from fault
    statuses, of_heads = ([word for kind, word in rows if kind == wanted] for wanted in (STATUS, PR_STATUS))
    return Wanted(statuses, of_heads, int(approvals), int(timeout))
