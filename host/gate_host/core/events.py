"""What a command of the owner's is told as it happens: notices, landings, failures, and what is said of the whole queue.

Each event has a number, which is a function of the journal: whoever reads the facts and answers again gives each event the same one. So a
command that is told of an event twice can know that.
"""
import json
from collections import deque
from dataclasses import dataclass, field
from typing import Deque, Dict, List, Mapping

from .orders import Json

# So many events are kept for a command that doesn't take them. Older ones are lost to it.
MOST_EVENTS = 1000


@dataclass(frozen=True)
class Event:
    """What happened: its number, when that was written down, of which kind it is, and what else belongs to it."""

    number: int
    at: int
    kind: str
    fields: Mapping[str, Json]

    @property
    def line(self) -> str:
        """The event as one line of JSON, without its end."""
        return json.dumps({"event": self.number, "at": self.at, "kind": self.kind, **self.fields}, ensure_ascii=False)


@dataclass
class Events:
    """The last events, and how many there were."""

    last: Deque[Event] = field(default_factory=lambda: deque(maxlen=MOST_EVENTS))
    count: int = 0

    def add(self, at: int, kind: str, fields: Dict[str, Json]) -> None:
        self.count += 1
        self.last.append(Event(self.count, at, kind, fields))

    def after(self, number: int) -> List[Event]:
        """The events after one, those that are still kept."""
        return [it for it in self.last if it.number > number]
