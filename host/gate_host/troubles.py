"""What isn't as it should be, as the owner is told it."""
import sys
from typing import Dict, List

from .core.words import plain


def complain(text: str) -> None:
    print(f"gate-host: {plain(text)}", file=sys.stderr, flush=True)


class Troubles:
    """What isn't as it should be, by what it is about. Each is complained of once, and stands in the report of the queue while it lasts."""

    def __init__(self) -> None:
        self.said: Dict[str, str] = {}
        # Whether something has changed since the last report.
        self.is_news = False

    def say(self, about: str, text: str) -> None:
        if self.said.get(about) != text:
            complain(text)
            self.said[about] = text
            self.is_news = True

    def end(self, about: str) -> None:
        """Says no more of something."""
        if self.said.pop(about, None):
            self.is_news = True

    def put(self, about: str, text: str) -> None:
        """Says this of something, or no more if it is nothing."""
        if text:
            self.say(about, text)
        else:
            self.end(about)

    def texts(self) -> List[str]:
        return list(self.said.values())
