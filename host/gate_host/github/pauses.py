"""How long GitHub isn't asked after an answer, by what its documentation asks of clients."""
import re
from typing import Mapping, Optional

# After a fault of the server, or a broken connection, the pauses grow from one to the other.
FIRST_PAUSE, MOST_PAUSE = 1.0, 60.0
# Without a word on how long, and at the most: a strange word must not keep the host from asking for a day.
USUAL_PAUSE, LONGEST = 60.0, 3600.0
LIMIT = re.compile(r"rate limit|abuse detection", re.IGNORECASE)


def pause_after(status: int, headers: Mapping[str, str], now: float, faults: int, said: str = "") -> Optional[float]:
    """How long nothing is asked after a response, or none if it was answered. Headers have names in lower case, and `now` is in seconds
    since 1970. `faults` says how many faults of the server there were in a row before, and `said` is the message of a refusal."""
    if status >= 500:
        return pause_after_fault(faults)
    if status not in (403, 429):
        return None
    after = seconds_in(headers.get("retry-after", ""))
    if after is not None:
        return min(after, LONGEST)
    if headers.get("x-ratelimit-remaining") == "0":
        reset = seconds_in(headers.get("x-ratelimit-reset", ""))
        return USUAL_PAUSE if reset is None else min(max(reset - now, FIRST_PAUSE), LONGEST)
    # Without a limit 403 says that the credentials don't permit it, which no pause mends. Some limits are told by words alone.
    return USUAL_PAUSE if status == 429 or LIMIT.search(said) else None


def pause_after_fault(faults: int) -> float:
    """How long nothing is asked after a fault of the server, or a connection that broke."""
    return min(FIRST_PAUSE * 2.0 ** min(faults, 10), MOST_PAUSE)


def seconds_in(text: str) -> Optional[float]:
    return float(text) if text.isdecimal() and text.isascii() and len(text) < 16 else None
