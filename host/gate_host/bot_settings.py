"""What the bot reads in a text of its settings, and what the writer of the text should know of it.

Whether a text is taken, and which statuses it requires, the program itself says. Here that is put into words: which key it is, with its
value, and which keys mean nothing to the bot. For that the text is cut into its keys by simple means, so the words may be wrong about
strange texts. Nothing is decided by them.
"""
import difflib
import importlib
import re
from pathlib import Path
from typing import Dict, List, Optional, Tuple

from .core.words import plain
from .ports import Reading
from .required import Wanted, wanted_of

# The keys of the bot, and what each takes.
KEYS = {
    "status": "1 to 64 different names of statuses, as in [\"build\"]", "timeout_sec": "a whole number from 1 to 2147483647",
    "block_labels": "at most 64 labels, as in [\"wip\"]", "required_approvals": "a whole number from 0 to 100",
    "max_batch_size": "a whole number from 1 to 1000", "pr_status": "at most 64 names of statuses, as in [\"format\"]",
}
# The keys of bors-ng that this bot passes over.
PASSED_OVER = {
    "cut_body_after", "delete_merged_branches", "use_squash_merge", "update_base_for_deletes", "committer", "commit_title",
    "use_codeowners", "up_to_date_approvals", "prerun_timeout_sec",
}
KEY = re.compile(r"""[ \t]*(?:([A-Za-z0-9_-]+)|"([^"\\\n]*)"|'([^'\n]*)')[ \t]*=""")
HEADER = re.compile(r"""[ \t]*\[\[?[ \t]*[A-Za-z0-9_."'-][^\]\n=,]*\]\]?[ \t]*(#.*)?""")
# So much of a value is shown.
MOST_SHOWN = 100
NO_TOML, NO_STATUS = 1, 2


def read_settings(program: str, text: str, room: Optional[Path] = None) -> Reading:
    """What the bot reads in a text, by runs of the program in a room. `Unable` says that it can't tell."""
    found = wanted_of(program, text, room)
    remarks = tuple(map(remark_on, unknown_keys(text)))
    if isinstance(found, Wanted):
        return Reading(tuple(found.statuses), tuple(found.pr_statuses), found.approvals, "", remarks, found.timeout)
    return Reading(refusal=refusal_in_words(program, text, found, room), remarks=remarks)


def refusal_in_words(program: str, text: str, number: int, room: Optional[Path]) -> str:
    """Why a text is refused."""
    if number == NO_TOML:
        return f"it is no TOML{fault_in(text)}"
    if number == NO_STATUS:
        return "it has no key status, which names what has to succeed"
    for key, part in parts_of(text).items():
        alone = part if key == "status" else f'status = ["x"]\n{part}'
        if key in KEYS and not isinstance(wanted_of(program, alone, room), Wanted):
            value = " ".join(part.partition("=")[2].split())[:MOST_SHOWN]
            return f"{key} = {plain(value)} isn't taken; it has to be {KEYS[key]}"
    return "a key of it has a value that isn't taken"


def fault_in(text: str) -> str:
    """What is wrong with a text that is no TOML, if this Python can tell."""
    try:
        tomllib = importlib.import_module("tomllib")
    except ImportError:
        return ""
    try:
        tomllib.loads(text)
    except (ValueError, RecursionError) as fault:
        return f": {plain(str(fault))[:MOST_SHOWN]}"
    return ""


def parts_of(text: str) -> Dict[str, str]:
    """The keys of the top table, each with the lines in which it stands."""
    parts: Dict[str, List[str]] = {}
    key = ""
    for line in text.split("\n"):
        if HEADER.fullmatch(line):
            break
        found = KEY.match(line)
        if found:
            key = found[1] or found[2] or found[3] or ""
            parts[key] = []
        if key:
            parts[key].append(line)
    return {name: "\n".join(lines) + "\n" for name, lines in parts.items()}


def unknown_keys(text: str) -> List[Tuple[str, str]]:
    """The keys of the top table that mean nothing to the bot, each with the known one that is nearest, if one is near."""
    found = []
    for key in parts_of(text):
        if key not in KEYS and key not in PASSED_OVER:
            near = difflib.get_close_matches(key.lower().replace("-", "_"), list(KEYS), 1)
            found.append((key, near[0] if near else ""))
    return found


def remark_on(unknown: Tuple[str, str]) -> str:
    key, near = unknown
    return f"{plain(key)} is no key of the bot's, which passes it over" + (f"; did you mean {near}?" if near else "")
