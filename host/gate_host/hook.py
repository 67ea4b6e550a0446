"""What git runs before a push moves branches: it refuses what goes past the queue, and notes who pushes what.

It runs as whoever pushes. The host believes a note only for who left it, and looks at the branches itself. So a note that isn't true
claims at most to have pushed what somebody else pushed.
"""
import re
import sys
from typing import Iterator, List, Tuple

from .core.notes import LAST_CHANGE, PushLeft
from .faults import Trouble
from .places import Places, person_here, pointed_to
from .settings import Settings, read_roles, read_settings
from .spool import leave

CHANGE = re.compile(r"refs/heads/change/([1-9][0-9]{0,9})")
# A note may not be too long.
MOST_IN_NOTE = 300
BRANCHES = "refs/heads/"
Update = Tuple[str, str, str]


def change_in(branch: str) -> int:
    """The number of the change whose branch this is, or 0."""
    found = CHANGE.fullmatch(branch)
    return int(found[1]) if found and int(found[1]) <= LAST_CHANGE else 0


def is_nothing(commit: str) -> bool:
    return set(commit) == {"0"}


def complaints(updates: List[Update], places: Places) -> List[str]:
    """Why a push is refused, if it is."""
    settings = read_settings(places.settings, places.owner)
    pusher = person_here(places.owner)
    if pusher is None:
        return ["your user has no name that the bot takes"]
    return [why for update in updates for why in complaints_of(update, pusher, places, settings)]


def complaints_of(update: Update, pusher: str, places: Places, settings: Settings) -> Iterator[str]:
    """Why one update is refused, if it is."""
    before, after, branch = update
    # A push to another name of a branch moves that branch.
    _, target = pointed_to(places.repository, branch)
    if target != branch:
        yield f"{branch} is another name of {target}, and a push to it would move that"
    if branch == f"{BRANCHES}{settings.main}" and not may_move_main(before, after, pusher, places, settings):
        yield f"{settings.main} moves by the queue alone. Push to a branch change/NUMBER, and have that approved"
    for name in (settings.staging, settings.trying):
        if branch == BRANCHES + name:
            yield f"{branch} is moved by the host alone"
    if branch.startswith("refs/gate/"):
        yield f"{branch} has a name that is the host's"
    # What else shouldn't be there may be taken away.
    if not is_nothing(after):
        yield from complaints_of_name(branch, settings)


def may_move_main(before: str, after: str, pusher: str, places: Places, settings: Settings) -> bool:
    """Whether somebody may move the main branch from a commit. The first push makes the branch, and there is no queue yet. In the place of
    the commit with which `init` has made it a reviewer may push another history."""
    if is_nothing(before) or pusher in settings.may_push:
        return True
    return not is_nothing(after) and before == places.first_commit() and read_roles(places.roles, places.owner).get(pusher) == "reviewer"


def complaints_of_name(branch: str, settings: Settings) -> Iterator[str]:
    """Why there may be no reference of this name, if so."""
    for name in (settings.main, settings.staging, settings.trying):
        if branch.startswith(f"{BRANCHES}{name}/") or f"{BRANCHES}{name}".startswith(f"{branch}/"):
            yield f"{branch} would be in the way of the branch {name}"
    if branch == f"{BRANCHES}change" or branch.startswith(f"{BRANCHES}change/") and not change_in(branch):
        yield f"{branch} is no change: behind change/ there has to be a number from 1 to {LAST_CHANGE}"
    if branch.startswith("refs/replace/"):
        yield f"{branch} would have git show another object than the one that is named"


def tell_of(updates: List[Update], places: Places) -> None:
    """Leaves notes of the heads that are pushed, and of moves of the main branch. A note without any has the
    host look at the branches."""
    person = person_here(places.owner)
    heads = tuple((change_in(branch), after) for _, after, branch in updates if change_in(branch) and not is_nothing(after))
    main = BRANCHES + read_settings(places.settings, places.owner).main
    moves = tuple((before, after) for before, after, branch in updates if branch == main)
    for start in range(0, max(1, len(heads)), MOST_IN_NOTE):
        leave(places, PushLeft(person, heads[start:start + MOST_IN_NOTE], moves))


def updates_in(given: bytes) -> List[Update]:
    """The updates that git tells, one on each line. A name of a branch may have characters that end lines elsewhere."""
    return [update_in(line) for line in given.decode(errors="replace").split("\n") if line]


def update_in(line: str) -> Update:
    before, after, branch = line.split(" ", 2)
    return before, after, branch


def before_push(places: Places) -> int:
    """Looks at a push. The status says whether git goes on with it."""
    updates = updates_in(sys.stdin.buffer.read())
    try:
        refusals = complaints(updates, places)
        if not refusals:
            tell_of(updates, places)
    except (Trouble, OSError) as fault:
        refusals = [str(fault)]
    except Exception as fault:  # Whoever pushes sees a line of what went wrong here, and no traceback.
        refusals = [f"this push can't be looked at, by a fault of the host; tell its owner: {type(fault).__name__}: {fault}"]
    for refusal in refusals:
        print(f"gate: {refusal}", file=sys.stderr)
    return 1 if refusals else 0
