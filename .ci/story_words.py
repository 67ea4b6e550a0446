"""What the tables of .ci/test_stories say, and the words in which they tell an answer, a change, settings and a queue. Nothing here runs a
program: the tables are read, and all else is made of values.
"""
import re
from dataclasses import dataclass, field, replace
from itertools import product
from pathlib import Path
from typing import Any, Dict, Iterator, List, Optional, Tuple, Union

TABLES = Path(__file__).resolve().parent.parent / "rows"

# The rows of each table of a database, as docs/formats.md has them. What SQLite gives has no type that is known before.
Tables = Dict[str, List[Tuple[Any, ...]]]
Delivery = Dict[str, Union[str, int, bool]]
# A line of a table, with its place.
Line = Tuple[str, str]

# The fields of each event, in the order in which an act gives their values.
EVENTS = {
    "role": "person role",
    "settings": "text",
    "base": "commit",
    "opened": "change author head",
    "pushed": "change head",
    "closed": "change",
    "labeled": "change label",
    "unlabeled": "change label",
    "review": "change person head approves",
    "staged": "batch commit",
    "conflict": "batch",
    "status": "commit name state",
    "refused": "batch",
    "tick": "now",
}
NUMBERS, COMMITS = ("change", "batch", "now"), ("commit", "head")
COMMIT_LEN = 40
REVIEWS = {"yes": True, "no": False}

# What the numbers in the tables of a database stand for.
PHASES = {1: "opened", 2: "closed", 3: "landed"}
ON_STAGING, ON_TRYING, IS_LANDING = 1, 2, 4
LABEL, REVIEW, DELEGATE, APPROVER, LAST_NAME, PASSED = 1, 2, 3, 4, 5, 8
STATUS, BLOCK_LABEL, PR_STATUS = 1, 2, 3


class BadTable(Exception):
    """What is wrong with a table."""


# --- Lines


def lines_of(file: str) -> List[Line]:
    """The lines of a table that say something, each with its place. Spaces at both ends of a line count."""
    lines = []
    for number, line in enumerate((TABLES / file).read_text(encoding="utf-8").split("\n"), 1):
        if not line.isprintable():
            raise BadTable(f"rows/{file}:{number}: there is a character that doesn't show")
        if line and not line.startswith("//"):
            lines.append((f"rows/{file}:{number}", line))
    return lines


def parts_of(file: str) -> Tuple[List[Line], Dict[str, List[Line]]]:
    """The lines of a table before its first title, and those below each `== TITLE`."""
    front: List[Line] = []
    parts: Dict[str, List[Line]] = {}
    lines = front
    for place, line in lines_of(file):
        if line.startswith("== "):
            lines = parts.setdefault(line[3:], [])
        else:
            lines.append((place, line))
    return front, parts


def sides_of(place: str, line: str) -> Tuple[str, str]:
    """The two sides of a row. What stands behind the arrow begins at the first character that is no space."""
    left, arrow, right = line.partition(" =>")
    if not arrow:
        raise BadTable(f"{place}: {line!r} is no row")
    return left, right.lstrip(" ")


def with_code_points(text: str) -> str:
    r"""A text in which each `\u{a0}` is that character."""
    return re.sub(r"\\u\{([0-9a-f]+)\}", lambda found: chr(int(found[1], 16)), text)


def with_characters(text: str) -> str:
    r"""A text in which each `\t`, `\r`, `\0` and `\u{a0}` is that character."""
    return with_code_points(re.sub(r"\\([tr0])", lambda found: {"t": "\t", "r": "\r", "0": "\0"}[found[1]], text))


def with_times(text: str) -> str:
    """A text, in which `64 x a;` is the letter so many times."""
    return re.sub(r"([0-9]+) x (.);", lambda found: found[2] * int(found[1]), text)


# --- Acts


def delivery_of(act: str) -> Delivery:
    """The delivery of an act: of an event and the values of its fields, or of a change, a person and a comment."""
    word, _, rest = act.partition(" ")
    if word.isdigit():
        person, _, text = rest.partition(" ")
        return {"event": "comment", "change": int(word), "person": person, "text": text}
    names = EVENTS.get(word, "").split()
    values = rest.split(" ", len(names) - 1)
    if not names or len(names) != len(values):
        raise BadTable(f"{act!r} is no act")
    return {"event": word, **{name: value_of(name, value) for name, value in zip(names, values)}}


def value_of(name: str, value: str) -> Union[str, int, bool]:
    if name in NUMBERS:
        return int(value)
    if name in COMMITS:
        return value * COMMIT_LEN if len(value) == 1 else value
    return REVIEWS[value] if name == "approves" else value.replace("|", "\n")


def acts_in(text: str) -> List[str]:
    return text.split("; ")


# --- Answers, in words


def digit(commit: str) -> str:
    """A commit by its digit if all of it are the same, and else whole."""
    return commit[0] if commit == commit[0] * COMMIT_LEN else commit


def reply_words(reply: Dict[str, Any]) -> str:
    """`done` with the orders, or a rule with what it names."""
    if reply["verdict"] == "done":
        return " ".join(["done", *map(order_words, reply["orders"])])
    detail = reply.get("detail", [])
    return " ".join([reply["rule"], *(map(str, detail) if isinstance(detail, list) else [str(detail)])])


def numbered_words(reply: Dict[str, Any]) -> str:
    """The same, with the number of a rule before its name."""
    return f"{reply['number']} {reply_words(reply)}" if reply["verdict"] == "denied" else reply_words(reply)


def order_words(order: Dict[str, Any]) -> str:
    """A notice as the change and the reason; an order to stage as the number, the first digit of the base, and the heads; an order to
    land as the number, and the first digits of the base and of the commit."""
    if order["order"] == "notice":
        return " ".join([str(order["change"]), order["why"], *([order["name"]] if "name" in order else [])])
    front = f"{order['order']} {order['batch']} on {digit(order['base'])}:"
    if order["order"] == "land":
        return f"{front} {digit(order['commit'])}"
    return " ".join([front, *(f"{change}{digit(head)}" for change, head in order["heads"])])


# --- Rows of a database, in words


def list_words(words: List[str]) -> str:
    """A list with a comma between two, and `-` for an empty one. An item that reads as no item or as two is in quotation marks."""
    return ",".join(f'"{it}"' if it == "-" or re.search("[, ]", it) else it for it in words) or "-"


def marks_of(tables: Tables, change: int, kind: int) -> List[str]:
    """The words of a kind that a change has, by their place, and within a set by their bytes."""
    rows = [(place, word.encode(), word) for number, of_kind, word, place in tables["marks"] if (number, of_kind) == (change, kind)]
    return [word for _, _, word in sorted(rows)]


def wanted_of(tables: Tables, kind: int) -> List[str]:
    return [word for of_kind, _, word in sorted(tables["wanted"]) if of_kind == kind]


def is_in(tables: Tables, change: int, branch: int, phase: Optional[int] = None) -> bool:
    """Whether a change is in a batch of this branch, in this phase if one is named."""
    batches = {row[0] for row in tables["batches"] if row[1] == branch and phase in (None, row[4])}
    return any(batch in batches and number == change for batch, _, number in tables["members"])


def phase_word(tables: Tables, change: int, phase: str) -> str:
    marks = ["trying"] * is_in(tables, change, ON_TRYING) + ["landing"] * is_in(tables, change, ON_STAGING, IS_LANDING)
    if phase == "landed" and marks:
        return "landed, and yet in test"
    return "-".join(([] if phase == "opened" and marks else [phase]) + marks)


def last_word(tables: Tables, change: int, last: int) -> str:
    names = ",".join(marks_of(tables, change, LAST_NAME))
    return {0: "-", 1: "r+", 2: f"r={names}", 3: "try"}[last]


def change_words(tables: Tables, number: int) -> str:
    """A change in words, or `none`: author, head, phase, priority, labels, reviews, delegates, approvers and last command, with `-` for
    none. The phase is `opened`, `closed` or `landed`; an open change that is trying or landing has `trying`, `landing` or
    `trying-landing`, and a closed one `closed-trying` or `closed-landing`."""
    for row in tables["changes"]:
        if row[0] == number:
            _, author, head, phase, priority, approved, last = row
            lists = [list_words(marks_of(tables, number, kind)) for kind in (LABEL, REVIEW, DELEGATE)]
            approvers = list_words(marks_of(tables, number, APPROVER)) if approved else "-"
            phase = phase_word(tables, number, PHASES[phase])
            return " ".join([author, digit(head), phase, str(priority), *lists, approvers, last_word(tables, number, last)])
    return "none"


def set_words(tables: Tables, number: int) -> str:
    """The same, and behind it the statuses that have succeeded on its head, if there are any."""
    return " ".join([change_words(tables, number), *([",".join(passed)] if (passed := marks_of(tables, number, PASSED)) else [])])


def settings_words(tables: Tables) -> str:
    """Settings in words, as `ci,lint; 3600; hold; 0; no limit`. The statuses that a change needs of its own stand behind, if any."""
    ((*_, timeout, approvals, size),) = tables["desk"]
    lists = [",".join(wanted_of(tables, kind)) for kind in (STATUS, BLOCK_LABEL, PR_STATUS)]
    words = [lists[0], str(timeout), lists[1], str(approvals), str(size) if size else "no limit", lists[2]]
    return "; ".join(words if lists[2] else words[:-1])


def batches_in(report: str) -> List[Tuple[int, List[str]]]:
    """The batches in the report of a queue, in its order, each with its changes."""
    rows = [line.split() for line in report.split("\n")[3:-1]]
    return [(int(row[0]), row[-1].split(",")) for row in rows]


def queue_words(report: str, tables: Tables) -> str:
    """All batches of a report, and the next number."""
    words = [f"{number}: {' '.join(changes)}" for number, changes in batches_in(report)]
    return " ".join([*words, f"next {tables['desk'][0][2]}"])


# --- What comments say


@dataclass(frozen=True)
class Said:
    """What of a change a comment may alter. The last command is its word and its names."""

    priority: int = 0
    approvers: Optional[Tuple[str, ...]] = None
    delegates: Tuple[str, ...] = ()
    is_trying: bool = False
    last: Optional[Tuple[str, Tuple[str, ...]]] = None


def said_in(tables: Tables, number: int) -> Said:
    """What a change has of it in a database."""
    (_, _, _, _, priority, approved, last), = [row for row in tables["changes"] if row[0] == number]
    approvers = tuple(marks_of(tables, number, APPROVER)) if approved else None
    word = {0: "", 1: "approve", 2: "approve for", 3: "try"}[last]
    repeated = (word, tuple(marks_of(tables, number, LAST_NAME))) if word else None
    delegates = tuple(marks_of(tables, number, DELEGATE))
    return Said(priority, approvers, delegates, is_in(tables, number, ON_TRYING), repeated)


def after(said: Said, words: str, author: str, person: str) -> Tuple[Said, List[str]]:
    """What commands in words make of an open change, if a reviewer says them, and what each is answered."""
    answers = []
    for command in words.split("; ") if words else []:
        said, answer = after_one(said, command, author, person)
        answers.append(answer)
    return said, answers


def after_one(said: Said, command: str, author: str, person: str) -> Tuple[Said, str]:
    found = re.fullmatch("(approve for|delegate to|priority) (.+)", command)
    word, names = (found[1], tuple(found[2].split(", "))) if found else (command, ())
    if word == "retry":
        if said.last is None:
            return said, "5 NothingToRetry"
        word, names = said.last
    if word in ("approve", "approve for"):
        new = replace(said, approvers=names or (person,), last=(word, names))
        return (new, "done") if said.approvers is None else (said, "9 AlreadyApproved")
    if word == "try":
        return (said, "9 AlreadyTrying") if said.is_trying else (replace(said, is_trying=True, last=(word, ())), "done")
    if word == "withdraw":
        return (said, "9 NotApproved") if said.approvers is None else (replace(said, approvers=None), "done")
    if word == "cancel the try":
        return (replace(said, is_trying=False), "done") if said.is_trying else (said, "9 NotTrying")
    return plain_after(said, word, names, author)


def plain_after(said: Said, word: str, names: Tuple[str, ...], author: str) -> Tuple[Said, str]:
    """The same of commands that need nothing of the change."""
    if word == "priority":
        return replace(said, priority=int(names[0])), "done"
    if word in ("delegate to", "delegate the author"):
        return replace(said, delegates=tuple(sorted({*said.delegates, *(names or (author,))}))), "done"
    if word == "delegate no one":
        return replace(said, delegates=()), "done"
    if word == "ping":
        return said, "done"
    if word == "unknown":
        return said, "2 NotACommand"
    raise BadTable(f"{word!r} is no command")


def comments_in(file: str) -> Iterator[Tuple[str, str, str]]:
    """The comments of a table, each with its place and the commands that it says."""
    _, parts = parts_of(file)
    for title, lines in parts.items():
        for place, line in lines:
            for comment, words in comments_of(title, place, line):
                yield place, with_characters(comment), words


def comments_of(title: str, place: str, line: str) -> List[Tuple[str, str]]:
    if title == "texts without a command":
        return [(text, "") for text in line.split("|")]
    left, right = sides_of(place, line)
    if title == "fronts and bodies that are no command":
        return [(front + body, "unknown") for front, body in product(left.split("/"), right.split("|"))]
    return [(left.replace("|", "\n"), right)]


# --- The other tables


@dataclass(frozen=True)
class Text:
    """A text of settings or of a small text, and what is kept of it."""

    place: str
    kind: str
    text: str
    words: str


def settings_in(file: str) -> Iterator[Text]:
    """The texts of settings of a table, each behind its front."""
    values, fronts = ["#"], [""]
    for place, line in lines_of(file):
        if line.startswith("#= "):
            values = line[3:].split(" | ")
        elif line.startswith("front: "):
            fronts = [line[7:].removesuffix("<").replace("#", value) for value in values]
        else:
            left, right = sides_of(place, line)
            for front in fronts:
                yield Text(place, "settings", with_code_points(front + left).replace("|", "\n"), with_code_points(right))


def texts_in(file: str) -> Iterator[Text]:
    """The small texts of a table."""
    for place, line in lines_of(file):
        left, right = sides_of(place, line)
        found = re.fullmatch("([a-z]+) <(.*)>", left)
        if not found:
            raise BadTable(f"{place}: {left!r} has no kind, or no text in brackets")
        yield Text(place, found[1], with_times(with_characters(found[2])), with_times(with_characters(right)))


@dataclass
class Desk:
    """The acts that make a desk, what its changes are after so many of them, and what is asked after so many."""

    title: str
    acts: List[str] = field(default_factory=list)
    changes: List[Tuple[int, str, str]] = field(default_factory=list)
    questions: List[Tuple[int, str, str, str]] = field(default_factory=list)


def desks_in(file: str) -> Iterator[Desk]:
    for title, lines in parts_of(file)[1].items():
        desk = Desk(title)
        for place, line in lines:
            if line.startswith("do "):
                desk.acts += acts_in(line[3:])
                continue
            left, right = sides_of(place, line)
            if right == "set":
                desk.changes.append((len(desk.acts), place, left))
            else:
                desk.questions.append((len(desk.acts), place, left, right))
        yield desk


@dataclass(frozen=True)
class Step:
    """An act of a story, what it is answered, and what the gate shows then."""

    place: str
    act: str
    reply: str
    shown: str


def stories_in(file: str) -> Tuple[List[str], Dict[str, List[Union[str, Step]]]]:
    """The usual start, and the stories by their titles. An act of the start has no step."""
    front, parts = parts_of(file)
    start = [line.removeprefix("start: ") for _, line in front]
    stories: Dict[str, List[Union[str, Step]]] = {}
    for title, lines in parts.items():
        story = stories.setdefault(title, [])
        for place, line in lines:
            if line == "start":
                story += start
                continue
            act, rest = sides_of(place, line)
            reply, arrow, shown = rest.partition(" => ")
            if not arrow:
                raise BadTable(f"{place}: it isn't told what the gate shows")
            story.append(Step(place, act, reply, shown))
    return start, stories


@dataclass
class Report:
    """Acts, the target of a report, and its text, or none."""

    title: str
    acts: List[str] = field(default_factory=list)
    target: str = ""
    text: str = ""


def reports_in(file: str) -> Iterator[Report]:
    for title, lines in parts_of(file)[1].items():
        report = Report(title)
        for place, line in lines:
            if line.startswith("do "):
                report.acts += acts_in(line[3:])
            elif line.startswith("show "):
                report.target = "/queue" if line == "show queue" else f"/changes/{line[5:]}"
            elif line.startswith("> "):
                report.text += f"{line[2:]}\n"
            elif line != "none":
                raise BadTable(f"{place}: {line!r} is no line of a report")
        yield report


@dataclass
class Many:
    """Acts for each number of a range, the rows of sizes, and what changes are in the end of the first row."""

    acts: List[str] = field(default_factory=list)
    rows: List[Tuple[str, str, List[str], str]] = field(default_factory=list)
    changes: List[Tuple[str, str]] = field(default_factory=list)


def many_in(file: str) -> Many:
    many = Many()
    for place, line in lines_of(file):
        if found := re.fullmatch(r"each ([0-9]+)\.\.([0-9]+): (.+)", line):
            many.acts += [found[3].replace("#", str(number)) for number in range(int(found[1]), int(found[2]) + 1)]
        elif " => " in line:
            settings, acts, words = line.split(" => ")
            many.rows.append((place, settings, acts_in(acts), words))
        else:
            many.changes.append((place, line))
    return many
