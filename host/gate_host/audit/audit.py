"""The audit, put together of its parts: what `gate-host audit` does."""
import argparse
import re
import sys
import tempfile
from pathlib import Path
from typing import Dict, List, Mapping, Optional, Sequence, Tuple, Union

from ..faults import Trouble, Unable
from ..places import text_of_reference
from ..required import required_statuses
from .entries import Finding, Journal, entries_of, gaps_in
from .journal_file import read_journal
from .objects import Objects, full_name, head_of
from .replay import replayed
from .shown import Result, json_of_result, text_of_result
from .steps import Commit, Known, Step, Written, landings_by_commit, lost, steps_of, to_be_made
from .story import Story, movers_in, story_of

# The file with the bot's settings, and up to how many bytes a host reads it.
SETTINGS, MOST_IN_SETTINGS = "bors.toml", 10000
# How often a branch may move while the journal is read.
ATTEMPTS = 10


def audit(arguments: argparse.Namespace) -> int:
    """Looks at each step of the main branch. The status is 1 if something isn't as it should be."""
    repository = Path(arguments.repository).resolve()
    if not (repository / "objects").is_dir() or not (repository / "HEAD").is_file():
        raise Trouble(f"{repository} is no bare repository of git")
    branch = arguments.main or main_in(text_of_reference(repository / "gate/settings") or "") or head_of(repository)
    if not branch:
        raise Trouble("which branch is the main branch can't be told; name it by --main")
    # What the settings name for a program is the host's, and nothing of the host is run.
    program = str(Path(arguments.program).resolve())
    path = Path(arguments.journal) if arguments.journal else repository / "gate/records/journal.db"
    with tempfile.TemporaryDirectory(prefix="gate-audit-") as room:
        try:
            journal, objects = read_both(path, Path(room), repository, branch)
            result = result_of(journal, objects, program, arguments.start, [name.lower() for name in arguments.allow])
        except Unable as fault:
            raise Trouble(str(fault)) from fault
    print(json_of_result(result) if arguments.json else text_of_result(result), end="")
    sys.stdout.flush()
    return 1 if result.findings else 0


def read_both(path: Path, folder: Path, repository: Path, branch: str) -> Tuple[Journal, Objects]:
    """A journal and a repository of one moment: a host at work may land something between a look at the one and at the other."""
    for _ in range(ATTEMPTS):
        objects = Objects(folder, repository, branch)
        journal = read_journal(path, folder)
        if objects.is_at_tip():
            return journal, objects
    raise Trouble(f"{branch} moves all the time; audit copies that were made while no host ran")


def result_of(journal: Journal, objects: Objects, program: str, start: Optional[str], allowed: List[str]) -> Result:
    """What is found out of a journal and a repository."""
    entries, unread = entries_of(journal)
    story = story_of(entries)
    others = [*gaps_in(journal), *unread, *story.findings, *replayed(program, journal.rows), *objects.replacements()]
    not_there = objects.fetch()
    steps: List[Step] = []
    if not not_there:
        walk = objects.walk()
        beginning = full_name(walk, start) if start else None
        made = objects.remake_all(to_be_made(walk, story, beginning))
        required = required_by_text(program, story)
        written = written_of(program, walk, story, objects, required)
        known = Known(objects.branch, walk, story, movers_in(journal.facts), made, required, allowed, written)
        steps = steps_of(known, beginning)
        others += [*without_beginning(known), *lost(known, beginning)]
    answers = sum(row.answer is not None for row in journal.rows)
    return Result(objects.branch, objects.tip, len(journal.facts), len(journal.rows), answers, steps, [*others, *not_there])


def without_beginning(known: Known) -> List[Finding]:
    """A journal without a base says nothing of any step."""
    return [] if known.story.bases else [Finding("missing delivery", "the journal has no base, so it says of no commit how it came there")]


def required_by_text(program: str, story: Story) -> Mapping[str, Union[List[str], int]]:
    """The statuses that each text of settings requires that counted at an order to land. Each is asked for once."""
    found: Dict[str, Union[List[str], int]] = {}
    for landing in landings_by_commit(story).values():
        if landing.settings is not None and landing.settings not in found:
            found[landing.settings] = required_statuses(program, landing.settings)
    return found


def written_of(
    program: str, walk: Sequence[Commit], story: Story, objects: Objects, required: Mapping[str, Union[List[str], int]],
) -> Dict[str, Written]:
    """What stands in the repository about each landing of the branch. A text of settings counts only if the program takes it: else those of
    before stay."""
    landings, taken = landings_by_commit(story), {text: isinstance(found, list) for text, found in required.items()}
    found = {}
    for before, commit in zip(walk, walk[1:]):
        landing = landings.get(commit.name)
        if landing and landing.land.base == before.name:
            text = objects.text_at(before.name, SETTINGS, MOST_IN_SETTINGS)
            if text is not None and text not in taken:
                taken[text] = isinstance(required_statuses(program, text), list)
            found[commit.name] = Written(text if text is not None and taken[text] else None, objects.message_of(commit.name))
    return found


def main_in(text: str) -> Optional[str]:
    """The main branch that a text of the host's settings names in its part [host]."""
    part = re.search(r"^\[host\]$(.*?)(?=^\[|\Z)", text, re.MULTILINE | re.DOTALL)
    found = re.search(r"^main *= *(.+?) *$", part[1], re.MULTILINE) if part else None
    return found[1] if found else None
