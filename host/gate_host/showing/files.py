"""The files of what is shown: `index.html`, `queue.json` and `metrics.prom`, and for each change `change-N.html` and `change-N.json`.

A file is written if its text has changed, apart from the time at which it was made. Those of a change are due when its report or its log
was written. So a refresh costs as much as what was touched, however many changes there are.
"""
import hashlib
import os
import re
import time
from dataclasses import dataclass, replace
from pathlib import Path
from typing import Callable, Collection, Dict, Optional, Sequence

from .. import VERSION
from ..core.estimates import estimates_of
from ..core.known import Known
from ..core.queue import batches_in
from ..git import GitFailed
from ..journal import Journal
from ..ports import Owner, Reading
from .change_page import AroundChange, page_of_change
from .documents import document_of_change, json_of_change, json_of_queue, title_in
from .logs import Entry
from .looks import POLICY
from .markup import MADE
from .metrics import Starts, mark_of, metrics_of, starts_in
from .pages import page_of_queue
from .snapshot import Beside, Snapshot, changes_with_titles, snapshot_of

# So long a refresh goes on to write pages of changes, and to ask for titles. The others come with the next ones.
SECONDS_OF_WRITING = 0.05
SECONDS_OF_TITLES = 0.05
# A title that can't be told is asked for again after so long. So many are kept.
SECONDS_TO_ASK_AGAIN = 60.0
MOST_TITLES = 5000
MOST_IN_TITLE = 200
# The file that has up to which number all that was told stands on the pages, and how these looked.
MARK = ".pages-written-up-to"
# The mark of the journal with the starts of the host and the bot.
STARTS = "starts"
# When the page was made. How near other times are depends on that.
MADE_AT = re.compile(f"<time {MADE}[^>]*>")
TIMES = re.compile(r"(<time[^>]*>)[^<]*</time>")
AT = re.compile(r'(?m)^ "at": [0-9]+,$')


@dataclass(frozen=True)
class Around:
    """What is around the journal: the name of the repository and its address at its code host, if it has one; what the owner has written;
    what the bot reads in a text of settings, if it has read that before, and how often it was started; the title of a head above a base;
    and the time."""

    repository: str
    code: str
    owner: Owner
    read: Callable[[str], Optional[Reading]]
    bot_starts: Callable[[], int]
    title: Callable[[str, str], str]
    now: Callable[[], int]


class Pages:
    """The files, kept up to date."""

    def __init__(self, folder: Path, journal: Journal, known: Known, around: Around):
        self.folder, self.journal, self.known, self.around = folder, journal, known, around
        # The changes whose pages may be old. The one that was noted last is written first.
        self.due: Dict[int, None] = {}
        # What was shown last, but for the time, and the numbers to watch.
        self.shown: Optional[Snapshot] = None
        self.numbers = self.marked = ""
        self.titles: Dict[str, str] = {}
        self.not_before: Dict[str, float] = {}
        # The starts before this one.
        self.before = Starts(0, 0)
        self.kept = Starts(0, 0)

    # When something is written

    def begin(self, changes: Collection[int]) -> None:
        """Begins with the pages that aren't there, and those of what was told since all were written. That may be each, if they looked
        another way then, or if the journal is older than the mark, as a copy that was put back."""
        self.before = starts_in(self.journal.mark(STARTS)) or Starts(0, 0)
        told = self.written_up_to()
        with os.scandir(self.folder) as files:
            there = {it.name for it in files if it.stat(follow_symlinks=False).st_size}
        logs = {int(it[4:]) for it in there if it.startswith("log-") and it[4:].isdecimal()}
        is_old = told is None or told > self.journal.count_told()
        for change in sorted({*changes, *logs}):
            if is_old or not {f"change-{change}.html", f"change-{change}.json"} <= there:
                self.due[change] = None
        self.due.update(dict.fromkeys(self.journal.told_since(told) if told is not None else ()))

    def note(self, change: int) -> None:
        """Takes note that the page of a change may be old."""
        self.due.pop(change, None)
        self.due[change] = None

    def refresh(self, report: Optional[str], remarks: Sequence[str]) -> None:
        """Writes what has changed, as much as there is time for."""
        self.keep_starts()
        if report is not None:
            self.ask_titles(report)
            self.write_queue(report, remarks)
        self.write_changes()

    def end(self, report: Optional[str], remarks: Sequence[str]) -> None:
        """Says that the host has ended."""
        if report is not None:
            self.write_queue(report, remarks, self.around.now())

    # The queue

    def write_queue(self, report: str, remarks: Sequence[str], ended: Optional[int] = None) -> None:
        now = self.around.now()
        estimates = estimates_of(self.known, batches_in(report), now)
        snapshot = snapshot_of(self.known, self.beside(report, remarks, now, ended), self.known.freeze, self.known.broken, estimates)
        if replace(snapshot, at=0) != self.shown:
            self.put("queue.json", json_of_queue(snapshot), lambda text: AT.sub("", text))
            self.put("index.html", page_of_queue(snapshot), without_times)
            self.shown = replace(snapshot, at=0)
        numbers = metrics_of(snapshot, self.known.counts, self.known.at, self.starts())
        if numbers != self.numbers:
            self.put("metrics.prom", numbers)
            self.numbers = numbers

    def beside(self, report: str, remarks: Sequence[str], now: int, ended: Optional[int]) -> Beside:
        owner = self.around.owner
        read = self.around.read(self.known.taken) if self.known.taken else Reading()
        reporters = tuple(sorted((name, tuple(sorted(owner.reporters[name]))) for name in owner.reporters))
        return Beside(
            self.around.repository, owner.main, now, report, read.required if read else None, read.timeout if read else 0,
            tuple(owner.settings.checks), reporters, tuple(remarks), self.titles, self.around.code, owner.settings.tick_seconds, ended,
        )

    # Changes

    def write_changes(self) -> None:
        """Writes pages that are due, as many as there is time for. When none is left, the mark says so."""
        late = time.monotonic() + SECONDS_OF_WRITING
        for change in reversed(list(self.due)):
            self.write_change(change)
            del self.due[change]
            if time.monotonic() > late:
                break
        mark = f"{self.journal.count_told()} {form()}\n"
        if not self.due and mark != self.marked:
            write(self.folder / MARK, mark)
            self.marked = mark

    def write_change(self, change: int) -> None:
        report = self.text_at(f"change-{change}").partition("\n\n")[0]
        landing = self.known.landing_of(change)
        base, head = (landing.base if landing else self.known.base), self.known.head_of(change)
        document = document_of_change(self.known, change, self.title_of(change, base, head), report)
        around = AroundChange(self.around.repository, self.around.owner.main, self.around.code, self.around.now())
        entries = [Entry(at, text) for at, text in self.journal.told(change)]
        self.put(f"change-{change}.json", json_of_change(document))
        self.put(f"change-{change}.html", page_of_change(document, entries, around), without_times)

    def written_up_to(self) -> Optional[int]:
        """Up to which number all that was told stands on pages that look as they do now, or none if that isn't known."""
        try:
            told, looks = (self.folder / MARK).read_text(encoding="utf-8").split()
            return int(told) if looks == form() else None
        except (OSError, ValueError):
            return None

    # Titles

    def ask_titles(self, report: str) -> None:
        """Asks for titles that are shown and aren't known, as many as there is time for."""
        wanted = changes_with_titles(self.known, report)
        late = time.monotonic() + SECONDS_OF_TITLES
        for change, base, head in wanted:
            self.title_of(change, base, head)
            if time.monotonic() > late:
                break
        if len(self.titles) > MOST_TITLES:
            heads = {head for _, _, head in wanted}
            self.titles = {head: title for head, title in self.titles.items() if head in heads}

    def title_of(self, change: int, base: str, head: str) -> str:
        """The title of a change at a head, which is asked for once: a host of before may have written it down. Git may not be able to
        tell."""
        if head in self.titles or not head or not base:
            return self.titles.get(head, "")
        before = title_in(self.text_at(f"change-{change}.json"), head)
        if before:
            self.titles[head] = before
            return before
        if time.monotonic() < self.not_before.get(head, 0.0):
            return ""
        try:
            self.titles[head] = self.around.title(base, head)[:MOST_IN_TITLE]
            self.not_before.pop(head, None)
        except GitFailed:
            self.not_before[head] = time.monotonic() + SECONDS_TO_ASK_AGAIN
        return self.titles.get(head, "")

    # Starts

    def starts(self) -> Starts:
        return Starts(self.before.host + 1, self.before.bot + self.around.bot_starts())

    def keep_starts(self) -> None:
        """Writes the starts down before they are shown, so that their numbers don't go back."""
        if self.starts() != self.kept:
            self.journal.put_mark(STARTS, mark_of(self.starts()))
            self.kept = self.starts()

    # Files

    def text_at(self, name: str) -> str:
        path = self.folder / name
        return path.read_bytes().decode("utf-8", "replace") if path.exists() else ""

    def put(self, name: str, text: str, core: Callable[[str], str] = lambda text: text) -> None:
        """Writes a file, unless it has this text already, as far as its core goes."""
        there = self.text_at(name)
        if not there or core(there) != core(text):
            write(self.folder / name, text)


def without_times(page: str) -> str:
    """What of a page doesn't depend on when it was made."""
    return MADE_AT.sub("", TIMES.sub(r"\1", page))


def form() -> str:
    """What names how pages look: another version may write them another way."""
    return hashlib.sha256(f"{VERSION} {POLICY}".encode()).hexdigest()[:16]


def write(path: Path, text: str) -> None:
    """Puts a text in place of a file at once, for everybody to read."""
    part = path.with_name(f".{path.name}")
    part.write_bytes(text.encode())
    part.chmod(0o644)
    os.replace(part, path)
