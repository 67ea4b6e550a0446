"""The log of a change as a text, and as what stands in such a text. Nothing is lost on either way."""
import re
import time
from datetime import datetime
from typing import List, NamedTuple, Sequence, Tuple

# The first line of an entry has the time before the text, and each further line of the text stands behind four spaces.
BEGINNING = re.compile(r"([0-9]{4,}-[0-9]{2}-[0-9]{2} [0-9]{2}:[0-9]{2}:[0-9]{2} [+-][0-9]{4})  (.*)", re.DOTALL)
TIME = "%Y-%m-%d %H:%M:%S %z"
MORE = "    "
OUTPUT = re.compile(r"output: ([0-9]+-[0-9]+-[A-Za-z0-9._-]+)")


class Entry(NamedTuple):
    """What people were told of a change at one time, in seconds since 1970."""

    at: int
    text: str


class NoLog(Exception):
    """A text that is no log, with the line that isn't one of a log."""


def log_text(told: Sequence[Tuple[int, str]]) -> str:
    """What people were told of a change, each with its time."""
    lines = []
    for at, text in told:
        first, *more = text.split("\n")
        lines.append(f"{time.strftime(TIME, time.localtime(at))}  {first}")
        lines += [f"{MORE}{line}" for line in more]
    return "".join(f"{line}\n" for line in lines)


def entries_in(log: str) -> List[Entry]:
    """What stands in a log. A last line without an end is left out: the host may be writing it."""
    entries: List[Tuple[int, List[str]]] = []
    for line in log.split("\n")[:-1]:
        begun = BEGINNING.fullmatch(line)
        if begun:
            entries.append((int(datetime.strptime(begun[1], TIME).timestamp()), [begun[2]]))
        elif line.startswith(MORE) and entries:
            entries[-1][1].append(line[len(MORE):])
        else:
            raise NoLog(line)
    return [Entry(at, "\n".join(lines)) for at, lines in entries]


def outputs_in(text: str) -> List[str]:
    """The names of the files with outputs of checks that an entry names."""
    return [found[1] for line in text.split("\n")[1:] if (found := OUTPUT.fullmatch(line))]
