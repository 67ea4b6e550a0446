"""What is told of events, if the settings name a command: notices, landings, failures, and what is said of the whole queue.

The command gets a line of JSON for each event on its standard input. It runs beside the host, so it holds nothing up, and one time after
the other: what happens meanwhile comes with the next run. If it fails, the same lines come again after a pause. The journal has a mark of
how far that has come, which is written when a run has succeeded. So if the host dies, the lines come again, with the same numbers.
"""
import os
import subprocess
import sys
import time
from typing import Optional, Sequence, Tuple

from .checks import RUNNER, end_group, has_ended, verdict_in
from .core.events import Event, Events
from .git import clean_environment
from .journal import Journal
from .places import Places
from .settings import Settings

MARK = "told of events"
# What the mark has as long as there is no command. What happens meanwhile isn't made up for.
NOBODY = "nobody"
# So many are told at a time, in so many seconds at the most.
MOST_AT_ONCE, SECONDS = 100, 60
# The first pause after a failure. Each is twice as long as the one before, up to the last.
PAUSE, MOST_PAUSE = 5.0, 300.0
# Hands the lines to the command that is the last word.
SCRIPT = 'exec <"$GATE_EVENTS" && exec /bin/sh -c "$1"'


class OnEvents:
    """What was told of events, and what is told now."""

    def __init__(self, places: Places, journal: Journal):
        self.places, self.journal = places, journal
        mark = journal.mark(MARK)
        # The number of the last event that was told, or none if there was no command.
        self.told: Optional[int] = None if mark in ("", NOBODY) else int(mark)
        # What runs, and up to which event; why the last run failed, if it did, and when the next one may come.
        self.running: Optional[Tuple["subprocess.Popen[bytes]", int]] = None
        self.failed = ""
        self.pause = self.next_start = 0.0

    def go_on(self, settings: Settings, events: Events) -> str:
        """Has it run for what has happened since the last time. Gives how the last time failed, or nothing."""
        self.note_end()
        if self.running:
            return self.failed
        if not settings.on_event:
            if self.told is not None:
                self.set_told(None)
            self.failed = ""
        elif self.told is None:
            self.set_told(events.count)
        elif self.told < events.count and time.monotonic() >= self.next_start:
            try:
                self.start(settings, events.after(self.told)[:MOST_AT_ONCE])
            except OSError as fault:
                self.fail(f"it can't be started: {fault}")
        return self.failed

    def start(self, settings: Settings, events: Sequence[Event]) -> None:
        lines = self.places.records / "events"
        part = lines.with_name("events.part")
        part.write_text("".join(f"{it.line}\n" for it in events), encoding="utf-8", errors="replace")
        os.replace(part, lines)
        environment = {**clean_environment(), "GATE_EVENTS": str(lines)}
        command = ["/bin/sh", "-c", SCRIPT, "sh", settings.on_event]
        process = subprocess.Popen(
            [sys.executable, str(RUNNER), str(SECONDS), str(self.places.outputs / "on-event"), *command], cwd=self.places.repository,
            env=environment, stdin=subprocess.PIPE, stdout=subprocess.PIPE, start_new_session=True,
        )
        self.running = (process, events[-1].number)

    def note_end(self) -> None:
        """Notes how a run has ended, if it has."""
        if self.running is None or not has_ended(self.running[0]):
            return
        process, last = self.running
        self.running = None
        state, said = verdict_in(end_group(process))
        if state == "success":
            self.set_told(last)
            self.failed, self.pause = "", 0.0
        else:
            self.fail(f"{said}; see {self.places.outputs / 'on-event'}")

    def fail(self, why: str) -> None:
        """Has it tried again after a pause."""
        self.pause = min(MOST_PAUSE, 2 * self.pause or PAUSE)
        self.next_start = time.monotonic() + self.pause
        self.failed = f"the command that is told of events failed, and is tried again: {why}"

    def set_told(self, number: Optional[int]) -> None:
        self.journal.put_mark(MARK, NOBODY if number is None else str(number))
        self.told = number

    def close(self) -> None:
        """Stops what runs. It comes again with the next host."""
        if self.running:
            end_group(self.running[0])
        self.running = None
