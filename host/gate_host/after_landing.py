"""What runs after a landing, if the settings name a command: git calls no hook for what the host moves.

It runs beside the host, so it holds nothing up, and one time after the other. If several batches have landed meanwhile, the next time is
for all of them. The journal has a mark of how far that has come, which is written when a run has ended. So if the host dies, the run comes
again.
"""
import subprocess
import sys
from typing import Dict, Optional, Tuple

from .checks import RUNNER, end_group, has_ended, verdict_in
from .core.known import Landing
from .git import clean_environment
from .journal import Journal
from .places import Places
from .settings import Settings

MARK = "after landing"
# What the mark has as long as nothing has landed.
NOTHING = "nothing"
# Hands the line to the command that is the last word.
SCRIPT = 'printf "%s %s %s\\n" "$GATE_BASE" "$GATE_COMMIT" "$GATE_BRANCH" | /bin/sh -c "$1"'


class AfterLandings:
    """What was run after landings, and what runs now."""

    def __init__(self, places: Places, journal: Journal, branch: str):
        self.places, self.journal, self.branch = places, journal, branch
        self.mark = journal.mark(MARK)
        # What runs, and for which landing at the latest; and how the last one failed, if it did.
        self.running: Optional[Tuple["subprocess.Popen[bytes]", Landing]] = None
        self.failed = ""

    def go_on(self, settings: Settings, landings: Dict[str, Landing]) -> str:
        """Has it run for what has landed since the last time. Gives how the last time failed, or nothing."""
        self.note_end()
        last = next(reversed(landings), NOTHING)
        if self.running or self.mark == last:
            return self.failed
        if not settings.after_landing or not self.mark:
            # What landed while there was no command isn't made up for.
            self.set_mark(last)
        else:
            self.start(settings, self.base_of_new(landings), landings[last])
        return self.failed

    def base_of_new(self, landings: Dict[str, Landing]) -> str:
        """Where the main branch was before the first landing since the last time."""
        base = ""
        for landing in reversed(landings.values()):
            if landing.commit == self.mark:
                break
            base = landing.base
        return base

    def start(self, settings: Settings, base: str, landing: Landing) -> None:
        output = self.places.outputs / f"landing-{landing.batch}"
        environment = {
            **clean_environment(), "GIT_DIR": ".", "GATE_BASE": base, "GATE_COMMIT": landing.commit,
            "GATE_BRANCH": f"refs/heads/{self.branch}",
        }
        command = ["/bin/sh", "-c", SCRIPT, "sh", settings.after_landing]
        words = [sys.executable, str(RUNNER), f"{settings.check_seconds:g}", str(output), *command]
        process = subprocess.Popen(
            words, cwd=self.places.repository, env=environment, stdin=subprocess.PIPE, stdout=subprocess.PIPE, start_new_session=True,
        )
        self.running = (process, landing)

    def note_end(self) -> None:
        """Notes how a run has ended, if it has. A failed one doesn't come again: nobody knows what of it was done."""
        if self.running is None or not has_ended(self.running[0]):
            return
        process, landing = self.running
        self.running = None
        state, said = verdict_in(end_group(process))
        output = self.places.outputs / f"landing-{landing.batch}"
        self.failed = "" if state == "success" else f"the command after the landing of batch {landing.batch} failed: {said}; see {output}"
        self.set_mark(landing.commit)

    def set_mark(self, mark: str) -> None:
        self.journal.put_mark(MARK, mark)
        self.mark = mark

    def close(self) -> None:
        """Stops what runs. It comes again with the next host."""
        if self.running:
            end_group(self.running[0])
        self.running = None
