"""The commands of a comment, read anew after docs/formats.md, as far as an approval depends on them."""
import re
from dataclasses import dataclass
from typing import List, Optional, Tuple

COMMAND_LINE = re.compile(r"bors[ :](.*)", re.IGNORECASE | re.ASCII | re.DOTALL)
NAME = re.compile(r"@?([A-Za-z0-9_.\[\]-]{1,64})")
APPROVAL = re.compile(r"(?:r\+|merge)( +p=-?[0-9]{1,4})?")
APPROVAL_FOR = re.compile(r"(?:r|merge)=(.*?)( +p=-?[0-9]{1,4})?", re.DOTALL)


@dataclass(frozen=True)
class Act:
    """A command: `r+`, `r=` with its names, `r-`, `try`, `retry`, or `other`, which neither gives an approval nor ends one."""

    word: str
    names: Tuple[str, ...] = ()


OTHER = Act("other")
WORDS = {"r-": "r-", "merge-": "r-", "try": "try", "retry": "retry"}


def acts_in(text: str) -> List[Act]:
    """The acts of a comment, each of which gets a reply."""
    found = []
    for line in text.split("\n"):
        matched = COMMAND_LINE.fullmatch(line[:-1] if line.endswith("\r") else line)
        if matched:
            found += acts_of(matched[1].strip(" "))
    return found


def acts_of(body: str) -> List[Act]:
    """The acts of what follows the word `bors`. A priority before an approval is an act of its own, and so is what has no form."""
    plain = APPROVAL.fullmatch(body)
    if plain:
        return [*([OTHER] if plain[1] else []), Act("r+")]
    listed = APPROVAL_FOR.fullmatch(body)
    names = names_in(listed[1]) if listed else None
    if listed and names:
        return [*([OTHER] if listed[2] else []), Act("r=", names)]
    return [Act("try") if body.startswith("try ") else Act(WORDS.get(body, "other"))]


def names_in(listed: str) -> Optional[Tuple[str, ...]]:
    """The names of a list, each once, or none if one of them is no name."""
    found = [NAME.fullmatch(item.strip(" ")) for item in listed.split(",")]
    names = [it[1].lower() for it in found if it]
    return tuple(dict.fromkeys(names)) if len(names) == len(found) else None
