"""The spool of webhooks: a folder in which the receiver leaves what came, and from which the host takes it. A webhook says only where to
look. So one that is lost, or comes twice, late or out of order, costs time and nothing else."""
import json
import os
import secrets
import time
from dataclasses import dataclass
from pathlib import Path
from typing import FrozenSet, Mapping, Set

from ..core.notes import is_number
from ..core.orders import Json

# While no host takes them, so many lie there. What is more is refused: a host that starts looks at everything.
MOST_WAITING = 5000
# So many are taken in a round.
MOST_AT_ONCE = 500
NAME_OF_PART = ".part-"


@dataclass(frozen=True)
class Hint:
    """Which changes webhooks name, and whether any came at all."""

    changes: FrozenSet[int] = frozenset()
    is_some: bool = False


class Full(Exception):
    """Too many webhooks wait."""


def leave(folder: Path, body: bytes) -> None:
    """Leaves a webhook. When this is over, it is on the disk."""
    with os.scandir(folder) as entries:
        if sum(1 for _ in entries) >= MOST_WAITING:
            raise Full
    name = f"{time.time_ns():020d}-{secrets.token_hex(8)}"
    part = folder / f"{NAME_OF_PART}{name}"
    try:
        with open(part, "xb") as file:
            file.write(body)
            file.flush()
            os.fsync(file.fileno())
        os.rename(part, folder / name)
    except BaseException:
        part.unlink(missing_ok=True)
        raise
    opened = os.open(folder, os.O_RDONLY | os.O_DIRECTORY)
    try:
        os.fsync(opened)
    finally:
        os.close(opened)


def take(folder: Path) -> Hint:
    """Takes what lies there, and gives where to look by all of it. The host looks before anything rests on it, so nothing has to stay."""
    names = sorted(it for it in os.listdir(folder) if not it.startswith("."))[:MOST_AT_ONCE]
    changes: Set[int] = set()
    for name in names:
        changes |= changes_in((folder / name).read_bytes())
        (folder / name).unlink()
    return Hint(frozenset(changes), bool(names))


def changes_in(body: bytes) -> Set[int]:
    """The changes that a webhook names. What isn't as GitHub sends it names none."""
    try:
        found = json.loads(body)
    except (ValueError, RecursionError):
        return set()
    if not isinstance(found, dict):
        return set()
    numbers = [value_in(found, *path) for path in (("number",), ("pull_request", "number"), ("issue", "number"))]
    return {it for it in numbers if isinstance(it, int) and is_number(it)}


def value_in(table: Mapping[str, Json], *path: str) -> Json:
    """What stands at the end of a path of names, or none."""
    found: Json = table
    for name in path:
        found = found.get(name) if isinstance(found, dict) else None
    return found
