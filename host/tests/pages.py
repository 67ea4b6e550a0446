"""The pages as the tests read them: their sections, the blocks of code in these, and what stands in backquotes between the blocks."""
import re
import textwrap
from pathlib import Path
from typing import Iterator, List, NamedTuple

TOP = Path(__file__).resolve().parent.parent.parent
PAGES = sorted([*TOP.glob("*.md"), *TOP.glob("docs/*.md")])
HEADING = re.compile(r"#{1,6} ")
FENCE = re.compile(r" *```([a-z]*)$")
# The kind of a block that stands between no fences.
INDENTED = "indented"


class Block(NamedTuple):
    """A block of code: what its fence says of it, and its lines."""

    kind: str
    text: str


class Step(NamedTuple):
    """A command, and what it prints."""

    command: str
    due: str


class Section:
    """A part of a page under a heading."""

    def __init__(self, title: str, lines: List[str]):
        self.title = title
        self.blocks, between = read_blocks(lines)
        # What stands between its blocks.
        self.text = "\n".join(between)

    def all(self, kind: str) -> List[str]:
        return [block.text for block in self.blocks if block.kind == kind]

    def spans(self) -> List[str]:
        """What stands in backquotes."""
        return re.findall(r"`([^`\n]+)`", self.text)


def read_blocks(lines: List[str]) -> "tuple[List[Block], List[str]]":
    """The blocks of a section, and the lines between them."""
    blocks: List[Block] = []
    between: List[str] = []
    kind, found = "", None
    for line in [*lines, ""]:
        fence = FENCE.match(line)
        if found is not None and kind != INDENTED:
            if fence:
                blocks.append(block_of(kind, found))
                found = None
            else:
                found.append(line)
        elif not fence and line.startswith("    "):
            kind, found = INDENTED, [*(found or []), line]
        else:
            if found:
                blocks.append(block_of(kind, found))
            kind, found = (fence[1], []) if fence else ("", None)
            between += [] if fence else [line]
    return blocks, between


def block_of(kind: str, lines: List[str]) -> Block:
    return Block(kind, textwrap.dedent("".join(f"{line}\n" for line in lines)))


def sections_of(page: str) -> List[Section]:
    """The sections of a page, the first of which is what stands before its first heading."""
    found: List["tuple[str, List[str]]"] = [("", [])]
    is_fenced = False
    for line in page.splitlines():
        is_fenced ^= FENCE.match(line) is not None
        if HEADING.match(line) and not is_fenced:
            found.append((line.lstrip("# "), []))
        else:
            found[-1][1].append(line)
    return [Section(*it) for it in found]


def steps_of(block: str) -> Iterator[Step]:
    """The commands of a block, each with what it prints. A command begins behind `$ `, and goes on behind `> `."""
    command, due = None, ""
    for line in block.splitlines(keepends=True):
        if line.startswith("> ") and command is not None and not due:
            command += "\n" + line[2:].rstrip("\n")
        elif line.startswith("$ "):
            if command is not None:
                yield Step(command, due)
            command, due = line[2:].rstrip("\n"), ""
        else:
            due += line
    if command is not None:
        yield Step(command, due)
