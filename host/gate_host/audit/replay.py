"""Hands the deliveries of a journal to the program once more, and compares its answers with those that were kept."""
import os
import subprocess
import tempfile
from pathlib import Path
from typing import List, Optional, Sequence

from ..faults import Trouble
from .entries import Finding, Row, shown

# Some ten thousand deliveries a second are usual, and a program with checks is slower.
SECONDS = 6 * 3600
# Of what two answers have in common no more is shown.
MOST_SAME = 100


def replayed(program: str, rows: Sequence[Row]) -> List[Finding]:
    """What the program answers otherwise than was kept. The last deliveries may have no answer yet, and aren't handed in."""
    last = max((place for place, row in enumerate(rows) if row.answer is not None), default=-1)
    given = rows[:last + 1]
    return differences(given, answers_of(program, [row.line for row in given]))


def differences(rows: Sequence[Row], answers: Sequence[str]) -> List[Finding]:
    """The first answer that is another one, and how many there are."""
    found = [(row, answer) for row, answer in zip(rows, answers) if row.answer is not None and row.answer != answer]
    if not found:
        return []
    row, answer = found[0]
    kept = row.answer or ""
    others = f" Of the later answers {len(found) - 1} differ too." if len(found) > 1 else ""
    one, other = beginning_at_difference(answer, kept), beginning_at_difference(kept, answer)
    said = f"the program answers {row.id} by {one}, and the journal has {other}."
    return [Finding("answer", said + others, row.id)]


def beginning_at_difference(text: str, other: str) -> str:
    """A text, or what of it stands around the first place at which another one differs."""
    same = len(os.path.commonprefix([text, other]))
    return shown(text) if same < MOST_SAME else f"..{shown(text[same - MOST_SAME // 2:])}"


def answers_of(program: str, lines: Sequence[str], records: Optional[Path] = None) -> List[str]:
    """What the program answers to each line, all of one run without records of before. It leaves its records in a file, if one is named."""
    command = [program, "run", *(["--db", str(records)] if records else [])]
    with tempfile.TemporaryFile() as given, tempfile.TemporaryFile() as written, tempfile.TemporaryFile() as said:
        for line in lines:
            # One that breaks in two would give two answers. As it stands it is no delivery, and so it is none with a space there.
            given.write(line.replace("\n", " ").encode("utf-8", "replace") + b"\n")
        given.seek(0)
        try:
            ran = subprocess.run(command, stdin=given, stdout=written, stderr=said, timeout=SECONDS, check=False)
        except OSError as fault:
            raise Trouble(f"{program} can't be started: {fault.strerror}") from fault
        except subprocess.TimeoutExpired:
            raise Trouble(f"{program} took more than {SECONDS} seconds for {len(lines)} deliveries") from None
        written.seek(0)
        said.seek(0)
        answers = written.read().decode("utf-8", "replace").split("\n")[:-1]
        if ran.returncode != 0 or len(answers) != len(lines):
            words = " ".join(said.read(1000).decode(errors="replace").split())
            raise Trouble(f"{program} ended with status {ran.returncode} after {len(answers)} of {len(lines)} deliveries: {words}")
        return answers
