"""What the two files of a database may hold after a stop of the machine, by a trace of the calls that changed them.

.ci/faults.c writes a trace: each write, cut and sync of a file, in the order of the calls. A stop loses what was written since the last
sync of the file: all of it, none, or each second sector. Nothing here touches a file.
"""
import re
from dataclasses import dataclass, replace
from typing import Dict, Iterable, Iterator, Tuple

from programs import Failed

# A database file, and its log: the ends of their names.
FILE, LOG = "", "-wal"
NAMES = {FILE: "database", LOG: "log"}
# How many bytes of a file are written together.
SECTOR = 512

RECORD = re.compile(rb"(?P<call>open|write|cut|sync) (?P<number>[0-9]+) (?P<size>[0-9]+) (?P<place>[0-9]+)\n")


@dataclass(frozen=True)
class Call:
    """A call that changed a file, or synced it. `size` is that of what is written, or of the file that is cut."""

    word: str
    end: str
    place: int = 0
    size: int = 0
    written: bytes = b""

    def __str__(self) -> str:
        return f"a {self.word} of the {NAMES[self.end]}"


@dataclass(frozen=True)
class Held:
    """What a file has: all that was written, and what a sync has made sure of."""

    written: bytes = b""
    synced: bytes = b""

    def after(self, call: Call) -> "Held":
        if call.word == "sync":
            return replace(self, synced=self.written)
        if call.word == "cut":
            return replace(self, written=self.written[: call.size].ljust(call.size, b"\0"))
        before = self.written.ljust(call.place, b"\0")
        return replace(self, written=before[: call.place] + call.written + before[call.place + len(call.written) :])

    def outcomes(self) -> Dict[str, bytes]:
        """What the file may have after a stop, by how it came about."""
        if self.written == self.synced:
            return {"written": self.written}
        return {"torn": torn(self.written, self.synced), "synced": self.synced, "written": self.written}


def torn(written: bytes, synced: bytes) -> bytes:
    """Both in turn, sector by sector. What only one of them has stays."""
    parts = []
    for at in range(0, max(len(written), len(synced)), SECTOR):
        first, second = (written, synced) if at // SECTOR % 2 == 0 else (synced, written)
        part = first[at : at + SECTOR]
        parts.append(part + second[at + len(part) : at + SECTOR])
    return b"".join(parts)


@dataclass(frozen=True)
class Moment:
    """What both files have, and when, in words."""

    when: str
    files: Dict[str, Held]


def calls_in(trace: bytes, name: bytes) -> Iterator[Call]:
    """The calls of a trace that are of the database file of this name, or of its log. What else was opened by its name isn't followed."""
    ends = {name + end.encode(): end for end in NAMES}
    opened: Dict[bytes, str] = {}
    at = 0
    while at < len(trace):
        record = RECORD.match(trace, at)
        if not record:
            raise Failed(f"no call stands at byte {at} of the trace")
        at = record.end()
        word, number, size, place = record["call"].decode(), record["number"], int(record["size"]), int(record["place"])
        given = trace[at : at + size] if word in ("open", "write") else b""
        at += len(given)
        if word == "open":
            opened.pop(number, None)
            opened.update({number: ends[given]} if given in ends else {})
        elif number in opened:
            yield Call(word, opened[number], place, size, given)


def states_after(calls: Iterable[Call], first: Dict[str, Held]) -> Iterator[Moment]:
    """What the files hold before the first call, and behind each."""
    files = first
    yield Moment("before the first call", files)
    for number, call in enumerate(calls, 1):
        files = {**files, call.end: files[call.end].after(call)}
        yield Moment(f"behind call {number}, {call}", files)


def left_by_stops(moments: Iterable[Moment]) -> Iterator[Tuple[str, Dict[str, bytes]]]:
    """What the files may hold after a stop at these moments: each combination of both, once, and how it came about."""
    seen = set()
    for moment in moments:
        for log_how, log in moment.files[LOG].outcomes().items():
            for how, file in moment.files[FILE].outcomes().items():
                if (file, log) not in seen:
                    seen.add((file, log))
                    yield f"{moment.when}, log {log_how}, database {how}", {FILE: file, LOG: log}
