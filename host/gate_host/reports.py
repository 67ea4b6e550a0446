"""The reports: files that everybody may read, also while no host runs.

The queue and the changes are texts of the bot, byte for byte. Since the bot that decides gives answers and no reports, a second one runs
beside it for that, over a copy of its file. It is handed in what was answered when a report is due. If it is lost, it is made again.
"""
import os
import shutil
import sqlite3
import tempfile
import time
from pathlib import Path
from typing import Callable, Collection, Dict, List, Optional, Sequence, Set

from .bot_file import copy_up_to_date, has_file
from .core.deliveries import Delivery
from .core.head_status import Place
from .core.queue import QueuedBatch, batches_in
from .core.words import plain
from .faults import Trouble
from .journal import Journal
from .places import Places
from .report_bot import NoReport, ReportBot
from .showing.files import Pages, write
from .showing.logs import log_text

# The folders with a copy of the bot's file begin so.
COPY = "reports-"
# How long a refresh waits for a bot that starts. If it takes longer, a later one goes on.
SECONDS_OF_STARTING = 0.3
# So long after a start comes the next one at the earliest, and twice as long with each that comes soon after another. So whoever keeps the
# bot for reports from answering keeps the host from its work for two seconds of each minute, and no longer.
PAUSE = 2.0
MOST_PAUSE = 60.0
SOON = 120.0
# So long a refresh goes on to hand in what was answered.
SECONDS_OF_HANDING_IN = 1.0
# So long a refresh goes on to ask for changes. The others come with the next ones, so that many of them hold nobody up.
SECONDS_OF_ASKING = 0.05
# The base, the clock and the heading. Below them is a line for each batch.
LINES_WITHOUT_BATCH = 3
# The file that has the identifier of the delivery up to which all is written, and what names the start of the system by then.
MARK = ".written-up-to"
BOOT = Path("/proc/sys/kernel/random/boot_id")


class Reports:
    """The files of reports, and whether something waits in the queue."""

    def __init__(self, places: Places, journal: Journal, complain: Callable[[str], None]):
        self.places = places
        self.journal = journal
        self.complain = complain
        self.whole_logs: Set[int] = set()
        self.bot: Optional[ReportBot] = None
        self.folder: Optional[Path] = None
        # When the last start was, how long the pause after it is, and when the next one may come.
        self.last_start, self.pause, self.next_start = -SOON, PAUSE, 0.0
        # The last report of the queue, whether it is the one of the bot that runs, and what that hasn't been handed in yet.
        self.queue: Optional[str] = None
        self.is_known = False
        self.lines: List[str] = []
        # Why the bot for reports is lost, or why the files can't be written. Each is complained of once, and forgotten when all is well.
        self.lost = self.unwritten = ""
        self.next_write = 0.0
        # The changes whose reports may be old. The one that was noted last is asked for first.
        self.due: Dict[int, None] = {}
        # The identifier of the last delivery that was answered, and the mark as it was written last.
        self.last = self.marked = ""
        self.boot = boot()
        # Up to which delivery a host of before has written all; whether that one was noted, or all that was answered before.
        self.written = self.written_up_to()
        self.is_behind_mark = self.has_begun = False

        # What more is to be said of a change than the bot says, and of the queue; and the pages beside the reports, if there are any.
        self.more_of: Callable[[int], str] = lambda change: ""
        self.more_of_queue: Callable[[Sequence[QueuedBatch]], Sequence[str]] = lambda queue: ()
        self.pages: Optional[Pages] = None
        self.remarks: Sequence[str] = ()

    # What the loop asks and tells

    def begin(self, changes: Collection[int]) -> None:
        """Begins, when all has been noted that was answered before. The files of these changes may be old: those that aren't there, and
        those of the deliveries behind the mark. That may be each if the system was started anew, since what wasn't on the disk is lost
        then; or if the journal is older than the mark, as a copy that was put back."""
        for left in self.places.records.glob(f"{COPY}*"):
            shutil.rmtree(left, ignore_errors=True)
        old = list(changes)
        if self.is_behind_mark:
            with os.scandir(self.places.reports) as files:
                there = {it.name for it in files if it.stat(follow_symlinks=False).st_size}
            old = [change for change in changes if f"change-{change}" not in there]
        self.due = {**dict.fromkeys(old), **self.due}
        self.has_begun = True
        if self.pages:
            self.pages.begin(changes)

    def note(self, delivery: Delivery, changes: Sequence[int]) -> None:
        """Takes note of a delivery that was answered, and of the changes whose reports it may have altered."""
        self.last = delivery.id
        # A bot that starts later begins with a copy that has it.
        if self.bot:
            self.lines.append(delivery.line)
        for change in changes if self.has_begun or self.is_behind_mark else ():
            self.due.pop(change, None)
            self.due[change] = None
        self.is_behind_mark = self.is_behind_mark or delivery.id == self.written

    @property
    def is_waiting(self) -> bool:
        """Whether something waits in the queue. If that isn't known, it may."""
        return not self.is_known or bool(self.lines) or self.queue is None or self.queue.count("\n") > LINES_WITHOUT_BATCH

    def waiting(self) -> Dict[int, int]:
        """In which batch each approved change waits, as the report of the queue had it last."""
        return {change: it.batch for change, it in self.places_in_queue().items() if it.state == "waiting"}

    def places_in_queue(self) -> Dict[int, Place]:
        """Where each approved change is in the queue, as the report of that had it last."""
        found = [it for it in batches_in(self.queue or "") if it.branch == "staging"]
        return {change: Place(it.number, it.state, number) for number, it in enumerate(found, 1) for change in it.changes}

    @property
    def is_current(self) -> bool:
        """Whether the report of the queue has all that was answered."""
        return self.is_known and not self.lines and self.queue is not None

    @property
    def is_behind(self) -> bool:
        """Whether a refresh has something to do that was left by the last one."""
        is_left = not self.is_known or self.lines or self.due or self.unwritten or self.has_pages_due
        return bool(is_left) and time.monotonic() >= max(self.next_write, 0.0 if self.bot else self.next_start)

    def refresh(self, program: str, remarks: Sequence[str]) -> None:
        """Writes what has changed. What can't be written now is left for a later call."""
        texts: Dict[int, str] = {}
        try:
            texts = self.asked(program)
        except (NoReport, OSError) as fault:
            self.lose(f"{fault}; it is started again, and the reports may be old until then")
        try:
            self.remarks = [*remarks, *([f"trouble: {plain(self.lost)}"] if self.lost else [])]
            self.write_files(texts)
            self.write_logs()
            if self.pages:
                self.pages.refresh(self.queue, self.remarks)
            self.write_mark()
            self.unwritten = ""
        except (OSError, sqlite3.Error) as fault:
            self.next_write = time.monotonic() + PAUSE
            why = f"the reports can't be written: {fault}"
            if why != self.unwritten:
                self.complain(why)
            self.unwritten = why

    def close(self) -> None:
        """Ends, which the page of the queue says then."""
        self.end_bot()
        try:
            if self.pages:
                self.pages.end(self.queue, self.remarks)
        except (OSError, sqlite3.Error) as fault:
            self.complain(f"the page doesn't say that the host has ended: {fault}")

    def end_bot(self) -> None:
        """Ends the bot for reports."""
        self.is_known = False
        self.lines.clear()
        if self.bot:
            self.bot.close()
        if self.folder:
            shutil.rmtree(self.folder, ignore_errors=True)
        self.bot = self.folder = None

    # The bot for reports

    def asked(self, program: str) -> Dict[int, str]:
        """The reports of changes that are due, as many as there is time for. The queue comes first. A change that was never opened has an
        empty one."""
        bot = self.running_bot(program)
        if bot is None:
            return {}
        late = time.monotonic() + SECONDS_OF_HANDING_IN
        while self.lines:
            if time.monotonic() > late:
                return {}
            bot.hand_in(self.lines[0])
            del self.lines[0]
        self.queue = bot.queue()
        texts: Dict[int, str] = {}
        late = time.monotonic() + SECONDS_OF_ASKING
        for change in reversed(list(self.due)):
            texts[change] = bot.change(change) or ""
            if time.monotonic() > late:
                break
        self.is_known, self.lost = True, ""
        return texts

    def running_bot(self, program: str) -> Optional[ReportBot]:
        """The bot for reports, or none as long as it can't be asked."""
        seconds = 0.0
        if self.bot is None and has_file(self.places) and time.monotonic() >= self.next_start:
            seconds = SECONDS_OF_STARTING
            self.start(program)
        return self.bot if self.bot and self.bot.is_ready(seconds) else None

    def start(self, program: str) -> None:
        """Starts a bot for reports over a new copy, which has all that was answered. If the bot's file hasn't, it is filled when the next
        delivery is handed in; and what is wrong with the file is told then."""
        now = time.monotonic()
        self.pause = min(MOST_PAUSE, 2 * self.pause) if now < self.last_start + SOON else PAUSE
        self.last_start, self.next_start = now, now + self.pause
        try:
            folder = self.folder = Path(tempfile.mkdtemp(prefix=COPY, dir=self.places.records))
            is_up_to_date = copy_up_to_date(self.places, self.journal, folder)
        except Trouble:
            is_up_to_date = False
        except (OSError, sqlite3.Error) as fault:
            raise NoReport(f"the bot for reports gets no copy of {self.places.bot}: {fault}") from fault
        if is_up_to_date:
            self.bot = ReportBot(program, folder)
        else:
            self.end_bot()

    def lose(self, why: str) -> None:
        """Gives the bot for reports up. What it was told is lost without harm: the next one begins with a copy that has it."""
        self.end_bot()
        if why != self.lost:
            self.complain(why)
        self.lost = why

    # The files

    @property
    def has_pages_due(self) -> bool:
        return self.pages is not None and bool(self.pages.due)

    def write_files(self, texts: Dict[int, str]) -> None:
        """Writes the queue and these changes."""
        if self.queue is not None:
            below = [*self.more_of_queue(batches_in(self.queue)), *self.remarks]
            self.put("queue", self.queue + "".join(f"\n{remark}" for remark in below) + "\n" * bool(below))
        for change, text in texts.items():
            if text:
                self.put(f"change-{change}", text + self.more_of(change))
            if self.pages:
                self.pages.note(change)
            self.due.pop(change, None)

    def write_mark(self) -> None:
        """Has the mark say that all is written, if that is so."""
        mark = f"{self.last} {self.boot}\n"
        if self.is_known and not self.due and not self.has_pages_due and mark != self.marked:
            write(self.places.reports / MARK, mark)
            self.marked = mark

    def written_up_to(self) -> str:
        """The delivery up to which a host of before has written all, since the system was started; or none if that isn't known."""
        try:
            last, started = (self.places.reports / MARK).read_text(encoding="utf-8").split()
            return last if started == self.boot else ""
        except (OSError, ValueError):
            return ""

    def write_logs(self) -> None:
        """Writes at the end of each log what was told since. What was written right before a start may not be whole, so the first time a
        log is written anew."""
        last = self.journal.count_told()
        written = int(self.journal.mark("log written up to") or 0)
        for change in self.journal.told_since(written):
            path = self.places.reports / f"log-{change}"
            is_whole = change in self.whole_logs and path.exists()
            # If this fails on the way, the log is written anew the next time.
            self.whole_logs.discard(change)
            if is_whole:
                with open(path, "a", encoding="utf-8") as log:
                    log.write(log_text(self.journal.told(change, written)))
            else:
                write(path, log_text(self.journal.told(change)))
            self.whole_logs.add(change)
            if self.pages:
                self.pages.note(change)
        if last > written:
            with self.journal.step():
                self.journal.set_mark("log written up to", str(last))

    def put(self, name: str, text: str) -> None:
        """Writes a report, unless its file has this text."""
        path = self.places.reports / name
        if not path.exists() or path.read_bytes() != text.encode():
            write(path, text)


def boot() -> str:
    """What names this start of the system."""
    try:
        return BOOT.read_text(encoding="utf-8").strip()
    except OSError:
        return ""
