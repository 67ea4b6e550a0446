"""The commands in a comment, read as the bot reads them, for the words that people get. What a comment does the bot alone decides.

docs/formats.md has the grammar. Each command has one reply in the answer, in the same order.
"""
import re
from dataclasses import dataclass
from enum import Enum, auto
from typing import Dict, List, Optional, Tuple

# Without ASCII a long s would be one as well.
COMMAND_LINE = re.compile(r"bors[ :]", re.IGNORECASE | re.ASCII)
NUMBER = r"p=(-?[0-9]{1,4})"
PRIORITY = re.compile(NUMBER)
APPROVAL = re.compile(rf"(?:r\+|merge)(?: +{NUMBER})?")
APPROVAL_FOR = re.compile(r"(?:r|merge)=(.*)", re.DOTALL)
ENDS_WITH_PRIORITY = re.compile(rf"(.*?) +{NUMBER}", re.DOTALL)
DELEGATION = re.compile(r"(?:delegate|d)=(.*)", re.DOTALL)
NAME = re.compile(r"[A-Za-z0-9._\[\]-]{1,64}")


class Kind(Enum):
    """What a command asks for."""

    PING = auto()
    APPROVE = auto()
    APPROVE_FOR = auto()
    WITHDRAW = auto()
    PRIORITY = auto()
    TRY = auto()
    TRY_CANCEL = auto()
    DELEGATE_AUTHOR = auto()
    DELEGATE_TO = auto()
    DELEGATE_NONE = auto()
    RETRY = auto()
    UNKNOWN = auto()


# What `retry` repeats.
REPEATED = (Kind.APPROVE, Kind.APPROVE_FOR, Kind.TRY)
WORDS: Dict[str, Kind] = {
    "ping": Kind.PING, "r-": Kind.WITHDRAW, "merge-": Kind.WITHDRAW, "try": Kind.TRY, "try-": Kind.TRY_CANCEL,
    "delegate+": Kind.DELEGATE_AUTHOR, "d+": Kind.DELEGATE_AUTHOR, "delegate-": Kind.DELEGATE_NONE, "d-": Kind.DELEGATE_NONE,
    "retry": Kind.RETRY,
}


@dataclass(frozen=True)
class Command:
    """A command: what it asks for, the people whom it names, and its number."""

    kind: Kind
    people: Tuple[str, ...] = ()
    number: int = 0


def command_lines(text: str) -> List[str]:
    """The lines of a comment that are commands. The bot needs no others."""
    return [line for line in text.split("\n") if COMMAND_LINE.match(line)]


def commands_in(text: str) -> List[Command]:
    """The commands of a comment, one for each reply."""
    return [command for line in command_lines(text) for command in commands_of(line)]


def commands_of(line: str) -> List[Command]:
    """The commands of a line that is addressed to the bot: one, or two if it has a priority besides."""
    body = (line[:-1] if line.endswith("\r") else line)[len("bors "):].strip(" ")
    if body in WORDS or body.startswith("try "):
        return [Command(WORDS.get(body, Kind.TRY))]
    approval, priority = APPROVAL.fullmatch(body), PRIORITY.fullmatch(body)
    if approval:
        return [*priority_of(approval[1]), Command(Kind.APPROVE)]
    if priority:
        return priority_of(priority[1])
    return named(body) or [Command(Kind.UNKNOWN)]


def named(body: str) -> List[Command]:
    """The commands of a body that names people, or none."""
    delegation = DELEGATION.fullmatch(body)
    if delegation:
        people = people_in(delegation[1])
        return [Command(Kind.DELEGATE_TO, people)] if people else []
    if not APPROVAL_FOR.fullmatch(body):
        return []
    cut = ENDS_WITH_PRIORITY.fullmatch(body)
    approval = APPROVAL_FOR.fullmatch(cut[1] if cut else body)
    people = people_in(approval[1]) if approval else ()
    return [*priority_of(cut[2] if cut else None), Command(Kind.APPROVE_FOR, people)] if people else []


def priority_of(number: Optional[str]) -> List[Command]:
    return [Command(Kind.PRIORITY, (), int(number))] if number is not None else []


def people_in(written: str) -> Tuple[str, ...]:
    """The people of a list, each once, or none if an item is no name."""
    people: Dict[str, None] = {}
    for item in written.split(","):
        name = item.strip(" ")
        name = name[1:] if name.startswith("@") else name
        if not NAME.fullmatch(name):
            return ()
        people[name.lower()] = None
    return tuple(people)
