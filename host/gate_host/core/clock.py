"""Which readings of the clock are told."""
from dataclasses import dataclass
from typing import Optional, Tuple

# A clock that goes ahead by more has jumped.
SECONDS_OF_JUMP = 86400


@dataclass
class ClockWatch:
    """What the readings were until now."""

    # A reading that is far ahead of the last one, until the next reading says the same.
    jumped_to: Optional[int] = None
    # The last good reading, and for how long the system had been running by then.
    seen: Optional[Tuple[int, float]] = None
    # What is wrong with the clock, or nothing.
    trouble: str = ""

    def reading(self, last: int, now: int, running: float) -> Optional[int]:
        """What is told, or none if the clock has jumped ahead and not yet stood there for two readings. It never goes back. The time that
        goes by by itself is no jump, also if nothing was told meanwhile."""
        before, at = self.seen or (last or now, running)
        due = before + running - at
        if now - due > SECONDS_OF_JUMP and (self.jumped_to is None or not 0 <= now - self.jumped_to <= SECONDS_OF_JUMP):
            self.jumped_to = now
            days = int(now - due) // SECONDS_OF_JUMP
            self.trouble = f"the clock is {days} days ahead of what it should be; that counts if the next reading says the same"
            return None
        self.jumped_to, self.seen, self.trouble = None, (now, running), ""
        return max(last, now)
