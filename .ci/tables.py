"""What the tables in rows/ say: their cases, each with its input and with all that is due of it. How a table is written stands in
docs/testing.md.

A script that imports this sets `sys.dont_write_bytecode` before, so that nothing is left in the folder.
"""
import re
from dataclasses import dataclass, field
from pathlib import Path
from typing import Iterator, List, Optional, Tuple

from programs import TOP

TABLES = TOP / "rows"

# The fields of each event, in the order of docs/formats.md.
FIELDS = {
    "comment": ("change", "person", "text"),
    "role": ("person", "role"),
    "settings": ("text",),
    "base": ("commit",),
    "opened": ("change", "author", "head"),
    "pushed": ("change", "head"),
    "closed": ("change",),
    "labeled": ("change", "label"),
    "unlabeled": ("change", "label"),
    "review": ("change", "person", "head", "approves"),
    "staged": ("batch", "commit"),
    "conflict": ("batch",),
    "status": ("commit", "name", "state"),
    "refused": ("batch",),
    "tick": ("now",),
}
# The fields that JSON writes without quotation marks.
BARE_FIELDS = ("change", "approves", "batch", "now")

COMMIT_LEN = 40


class BadTable(Exception):
    """What is wrong with a table."""


@dataclass
class Row:
    place: str
    line: bytes
    answer: bytes
    # Its row changes, a line each; None if the case doesn't tell them.
    changes: Optional[bytes] = None
    # What is to be done behind it on staging and on trying, as JSON; None if the case doesn't tell it.
    duties: Optional[Tuple[bytes, bytes]] = None


@dataclass
class Case:
    place: str
    title: str
    rows: List[Row] = field(default_factory=list)
    # All rows of the tables in the end, if the case tells them.
    tables: List[Row] = field(default_factory=list)
    # What stands in place of a `#`.
    values: List[str] = field(default_factory=lambda: ["#"])
    # The lines of SQL that make its database, and how the opening of that ends, if the case is one of opening.
    statements: List[str] = field(default_factory=list)
    opening: Optional[List[Row]] = None
    # Whether it is also opened with a stop behind each call that changes its files.
    is_stopped: bool = False
    # Whether its answers are those of `gate guard` alone, whole lines.
    is_guarded: bool = False
    # The rows of the line above, each with what stands in place of a `#` in its row changes.
    newest: List[Tuple[Row, List[str]]] = field(default_factory=list)
    has_input: bool = True
    has_final_line_feed: bool = True

    def lines(self) -> List[bytes]:
        """The lines of its input."""
        lines = [row.line + b"\n" for row in self.rows]
        if lines and not self.has_final_line_feed:
            lines[-1] = self.rows[-1].line
        return lines

    def input(self) -> bytes:
        return b"".join(self.lines())

    def tells_changes(self) -> bool:
        return any(row.changes is not None for row in self.rows)


# --- What stands between two tildes


def without_tildes(text: str) -> str:
    parts = text.split("~")
    if len(parts) % 2 == 0:
        raise BadTable("a tilde has no second one")
    parts[1::2] = map(meant, parts[1::2])
    return "".join(parts)


def meant(text: str) -> str:
    """One character stands for forty of it, `0xff` for the byte, and `TEXT*3` for the text three times."""
    if len(text) == 1:
        return text * COMMIT_LEN
    if re.fullmatch("0x[0-9a-f]{2}", text):
        # A byte past 0x7f becomes a lone surrogate, which `encoded` makes that byte again.
        return bytes([int(text, 16)]).decode(errors="surrogateescape")
    repeated, _, times = text.rpartition("*")
    if not repeated or not re.fullmatch("[0-9]+", times):
        raise BadTable(f"~{text}~ stands for nothing")
    return "".join(repeated.replace("#", str(number)) for number in range(1, int(times) + 1))


def encoded(text: str) -> bytes:
    return text.encode(errors="surrogateescape")


# --- The left side of a row


def input_line(text: str, number: int) -> str:
    """A delivery in short, the fields of one, or the line as it stands. A delivery that names no identifier has one of its
    own."""
    named = re.fullmatch("identifier ([^ ]+): (.+)", text)
    identifier, text = named.groups() if named else (f"r{number}", text)
    event, _, values = text.partition(" ")
    if event in FIELDS and values:
        text = fields_of(event, values)
    return f'{{"id":"{identifier}",{text}}}' if text.startswith('"event":') else text


def fields_of(event: str, values: str) -> str:
    """The last field takes the rest of the values."""
    names = FIELDS[event]
    parts = values.split(" ", len(names) - 1)
    if len(parts) < len(names):
        raise BadTable(f"{event} has the fields {', '.join(names)}")
    return f'"event":"{event}",' + ",".join(map(field_of, names, parts))


def field_of(name: str, value: str) -> str:
    if name in BARE_FIELDS:
        return f'"{name}":{value}'
    value = value.replace('"', '\\"')
    return f'"{name}":"{value}"'


# --- The right side of a row


def answer_line(text: str) -> str:
    """An error or replies in short, or the answer as it stands."""
    if text.startswith(("[", "{")):
        return text
    if bad := re.fullmatch("bad ([a-z]+)", text):
        return f'{{"error":"BadField","field":"{bad[1]}","number":2}}'
    if error := re.fullmatch("error ([0-9]+) ([A-Za-z]+)", text):
        return f'{{"error":"{error[2]}","number":{error[1]}}}'
    return "[" + ",".join(map(reply, text.split(" / "))) + "]"


def reply(text: str) -> str:
    if denial := re.fullmatch("([0-9]+) ([A-Z][A-Za-z]+)(?: (.+))?", text):
        number, rule, detail = denial.groups()
        detail = f'"detail":{detail},' if detail else ""
        return f'{{{detail}"number":{number},"rule":"{rule}","verdict":"denied"}}'
    orders = "" if text == "done" else ",".join(map(order, text.split("; ")))
    return f'{{"orders":[{orders}],"verdict":"done"}}'


def order(text: str) -> str:
    if notice := re.fullmatch("([0-9]+) told ([A-Z][A-Za-z]+)", text):
        return f'{{"change":{notice[1]},"order":"notice","why":"{notice[2]}"}}'
    if failed := re.fullmatch("([0-9]+) told Failed (.+)", text):
        return f'{{"change":{failed[1]},"name":"{failed[2]}","order":"notice","why":"Failed"}}'
    if land := re.fullmatch("land ([0-9]+) from ([^ ]+) to ([^ ]+)", text):
        return f'{{"base":"{land[2]}","batch":{land[1]},"commit":"{land[3]}","order":"land"}}'
    if stage := re.fullmatch("stage ([0-9]+) in ([a-z]+) on ([^ ]+): (.+)", text):
        number, branch, base, heads = stage.groups()
        heads = ",".join(map(head, heads.split(", ")))
        return f'{{"base":"{base}","batch":{number},"branch":"{branch}","heads":[{heads}],"order":"stage"}}'
    raise BadTable(f"{text!r} is no answer")


def head(text: str) -> str:
    """A change and its head, as a pair."""
    change, _, commit = text.partition(" ")
    return f'[{change},"{commit}"]'


# --- Tables


def lines_of(file: Path) -> Iterator[Tuple[str, str]]:
    """What a table says, line by line, with the parts that it includes, each line with its place."""
    for number, line in enumerate(file.read_text(encoding="utf-8").split("\n"), 1):
        place, line = f"{file.relative_to(TOP)}:{number}", line.strip(" ")
        if not line.isprintable():
            raise BadTable(f"{place}: there is a character that doesn't show; write its bytes, as ~0x09~")
        if part := re.fullmatch("include ([a-z_]+)", line):
            yield from lines_of(part_called(part[1], place))
        elif line and not line.startswith("//"):
            yield place, line


def part_called(name: str, place: str) -> Path:
    file = TABLES / f"{name}.part"
    if not file.is_file():
        raise BadTable(f"{place}: there is no {file.relative_to(TOP)}")
    return file


def cases_of(file: Path) -> List[Case]:
    cases: List[Case] = []
    for place, line in lines_of(file):
        try:
            if line.startswith("== "):
                cases.append(Case(place, line[3:]))
            elif cases:
                take_line(cases[-1], place, line)
            else:
                raise BadTable("a case begins with its title")
        except BadTable as why:
            raise BadTable(f"{place}: {why}") from None
    check_cases(file, cases)
    return cases


def take_line(case: Case, place: str, line: str) -> None:
    if line == "no input":
        case.has_input = False
    elif line == "no final line feed":
        case.has_final_line_feed = False
    elif line.startswith("#= "):
        case.values = values_of(line[3:])
    elif line.startswith("! "):
        case.statements.append(without_tildes(line[2:]))
    elif opening := re.fullmatch("opens|refused ([A-Z][a-z]+)", line):
        take_opening(case, place, opening[1])
    elif line == "opens after each stop":
        take_opening(case, place, None)
        case.is_stopped = True
    elif line.startswith("| "):
        take_table_row(case, place, line[2:])
    elif line.startswith("+ "):
        take_change(case, without_tildes(line[2:]))
    elif told := re.fullmatch("(staging|trying): (.+)", line):
        take_duty(case, told[1], without_tildes(told[2]))
    else:
        take_row(case, place, line)


def values_of(text: str) -> List[str]:
    """The values that stand in place of a `#`: those of a list, or the numbers of a range."""
    numbers = re.fullmatch(r"([0-9]+)\.\.([0-9]+)", text)
    if not numbers:
        return [without_tildes(value.strip(" ")) for value in text.split(" | ")]
    first, last = int(numbers[1]), int(numbers[2])
    if last < first:
        raise BadTable(f"{text} has no number")
    return [str(number) for number in range(first, last + 1)]


def take_row(case: Case, place: str, line: str) -> None:
    """A row with a `#` stands once for each value of its case."""
    left, arrow, right = f" {line}".partition(" => ")
    if not arrow:
        raise BadTable(f"{line!r} is no row")
    left, right = without_tildes(left.strip(" ")), without_tildes(right.strip(" "))
    has_value = "#" in left + right
    case.newest = []
    for value in case.values if has_value else [""]:
        text = input_line(left.replace("#", value), len(case.rows) + 1)
        answer = answer_line(right.replace("#", value))
        case.rows.append(Row(place, encoded(text), encoded(answer)))
        case.newest.append((case.rows[-1], [value] if has_value else case.values))


def take_opening(case: Case, place: str, fault: Optional[str]) -> None:
    """How the opening ends: of a refusal a line tells the fault."""
    if case.opening is not None:
        raise BadTable("a database is opened once")
    case.opening = [Row(place, b"the opening", encoded(f"refused: {fault}"))] if fault else []


def take_change(case: Case, text: str) -> None:
    """A row change of the row above, or that there is none. Below a row with a `#`, a `#` is the value of that row."""
    if not case.newest:
        raise BadTable("there is no row above it")
    for row, values in case.newest:
        more = changes_in(text, values)
        if row.changes is not None and b"" in (row.changes, more):
            raise BadTable("a row has changes, or it has none")
        row.changes = (row.changes or b"") + more


def changes_in(text: str, values: List[str]) -> bytes:
    """The lines that a row change stands for: one, or one for each value."""
    if text == "none":
        return b""
    return b"".join(encoded(text.replace("#", value)) + b"\n" for value in (values if "#" in text else [""]))


# How a duty is told, and its line of JSON.
DUTIES = {
    "merge ([0-9]+)": r'{"do":"merge","batch":\1}',
    "test ([0-9]+) as ([^ ]+)": r'{"do":"test","batch":\1,"commit":"\2"}',
    "land ([0-9]+) from ([^ ]+) to ([^ ]+)": r'{"do":"land","batch":\1,"base":"\2","commit":"\3"}',
    "nothing": "null",
}


def take_duty(case: Case, branch: str, text: str) -> None:
    """What is to be done on a branch behind the row above. On a branch that isn't told nothing is."""
    if not case.newest:
        raise BadTable("there is no row above it")
    found = [re.sub(told, duty, text) for told, duty in DUTIES.items() if re.fullmatch(told, text)]
    if not found:
        raise BadTable(f"{text} is no duty")
    for row, _ in case.newest:
        staging, trying = row.duties or (b"null", b"null")
        row.duties = (encoded(found[0]), trying) if branch == "staging" else (staging, encoded(found[0]))


def take_table_row(case: Case, place: str, text: str) -> None:
    """A row of a table: its name and its values. The body of an answer is told as on the right side of a row."""
    text = without_tildes(text)
    for value in case.values if "#" in text else [""]:
        words = text.replace("#", value)
        table, _, values = words.partition("|")
        if table == "answers":
            identifier, _, answer = values.partition("|")
            words = f"answers|{identifier}|{answer_line(answer)}"
        case.tables.append(Row(place, encoded(f"a row of {table}"), encoded(words)))


def check_cases(file: Path, cases: List[Case]) -> None:
    if not cases:
        raise BadTable(f"{file.relative_to(TOP)}: there is no case")
    for case in cases:
        if case.opening is None and case.statements:
            raise BadTable(f"{case.place}: it isn't told how the opening ends")
        if case.opening and case.rows:
            raise BadTable(f"{case.place}: over a database that is refused no row is answered")
        if case.is_stopped and case.rows:
            raise BadTable(f"{case.place}: over a database whose opening is stopped no row is answered")
        if case.opening is None and case.has_input != bool(case.rows):
            raise BadTable(f"{case.place}: there {'is no row' if case.has_input else 'are rows, and no input'}")
