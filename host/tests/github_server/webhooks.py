"""Webhooks on their way to a receiver, by a thread; and how a test has them lost, doubled, late or out of order."""
import heapq
import hmac
import http.client
import itertools
import json
import threading
import time
import urllib.parse
import uuid
from dataclasses import dataclass, field
from typing import Callable, Optional, Union

from .model import Hook, World

# So long a receiver may take to answer, as GitHub says.
MOST_SECONDS = 10
# What a test sets: the same for all, or a function of the event's name and its payload.
Choice = Union[bool, float, Callable[[str, dict], Union[bool, float]]]


@dataclass(eq=False)
class Delivery:
    """A webhook, as it was when its event happened."""

    id: int
    guid: str
    hook: Hook
    event: str
    payload: dict
    # What goes over the wire, byte for byte.
    body: bytes = b""
    redelivery: bool = False
    # The status of each attempt; 0 is no answer, and there is none as long as it wasn't sent.
    statuses: list = field(default_factory=list)
    lost: bool = False
    delivered_at: float = 0.0

    @property
    def action(self) -> Optional[str]:
        return self.payload.get("action")


def signature_of(secret: str, body: bytes, kind: str = "sha256") -> str:
    return f"{kind}=" + hmac.new(secret.encode(), body, kind).hexdigest()


def headers_of(delivery: Delivery, target: int) -> dict:
    hook = delivery.hook
    headers = {
        "Accept": "*/*", "Content-Type": "application/json", "User-Agent": "GitHub-Hookshot/044aadd", "X-GitHub-Delivery": delivery.guid,
        "X-GitHub-Event": delivery.event, "X-GitHub-Hook-ID": str(hook.id),
        "X-GitHub-Hook-Installation-Target-ID": str(target),
        "X-GitHub-Hook-Installation-Target-Type": "repository" if hook.repository else "integration",
    }
    if hook.secret:
        headers["X-Hub-Signature"] = signature_of(hook.secret, delivery.body, "sha1")
        headers["X-Hub-Signature-256"] = signature_of(hook.secret, delivery.body)
    return headers


def choose(choice: Choice, delivery: Delivery) -> float:
    return float(choice(delivery.event, delivery.payload) if callable(choice) else choice)


class Webhooks:
    """All webhooks. What tests set counts for events that happen from then on."""

    def __init__(self, world: World) -> None:
        self.world = world
        # Webhooks that never come, those that come twice, and how many seconds late the others are. Later ones overtake those.
        self.lost: Choice = False
        self.doubled: Choice = False
        self.late: Choice = 0.0
        # As long as it is set nothing is sent; `release` sends what has gathered.
        self.held = False
        self.deliveries: list = []
        self.gathered: list = []
        self.waiting: list = []
        self.busy = 0
        # Its own numbers: who holds its lock never waits for the one of the world.
        self.turns = itertools.count()
        self.changed = threading.Condition()
        self.is_open = True
        self.thread = threading.Thread(target=self.work, name="webhooks", daemon=True)
        self.thread.start()

    # What tests do

    def release(self, order: Callable[[list], list] = lambda them: them[::-1]) -> None:
        """Sends what has gathered, the last one first, or in the order that is given; and holds no more."""
        with self.changed:
            self.held, gathered, self.gathered = False, self.gathered, []
            for delivery in order(gathered):
                self.line_up(delivery, 0.0)

    def wait(self, seconds: float = 20) -> None:
        """Waits until all that is to be sent was answered. What is held isn't to be sent."""
        with self.changed:
            if not self.changed.wait_for(lambda: not self.waiting and not self.busy, seconds):
                raise TimeoutError(f"{len(self.waiting)} webhooks are still to be sent")

    def close(self) -> None:
        with self.changed:
            self.is_open = False
            self.changed.notify_all()
        self.thread.join(MOST_SECONDS)

    # What happens

    def tell(self, hook: Hook, event: str, payload: dict) -> None:
        """Sends an event to a hook."""
        body = json.dumps(payload).encode()
        delivery = Delivery(self.world.next_id(), str(uuid.uuid4()), hook, event, payload, body)
        delivery.delivered_at = self.world.clock.now()
        with self.changed:
            self.deliveries.append(delivery)
            delivery.lost = bool(choose(self.lost, delivery))
            if delivery.lost:
                return
            late = choose(self.late, delivery)
            for _ in range(2 if choose(self.doubled, delivery) else 1):
                if self.held:
                    self.gathered.append(delivery)
                else:
                    self.line_up(delivery, late)

    def again(self, delivery: Delivery) -> None:
        """Sends one again, with the same identifier, as people can ask for."""
        with self.changed:
            delivery.redelivery = True
            self.line_up(delivery, 0.0)

    def line_up(self, delivery: Delivery, late: float) -> None:
        heapq.heappush(self.waiting, (time.monotonic() + late, next(self.turns), delivery))
        self.changed.notify_all()

    def work(self) -> None:
        while True:
            with self.changed:
                while self.is_open and (not self.waiting or self.waiting[0][0] > time.monotonic()):
                    self.changed.wait(max(0.0, self.waiting[0][0] - time.monotonic()) if self.waiting else None)
                if not self.is_open:
                    return
                delivery = heapq.heappop(self.waiting)[2]
                self.busy += 1
            status = self.send(delivery)
            with self.changed:
                delivery.statuses.append(status)
                delivery.hook.last_status = status
                self.busy -= 1
                self.changed.notify_all()

    def send(self, delivery: Delivery) -> int:
        """Posts a webhook, and gives the status of the answer, or 0."""
        address = urllib.parse.urlsplit(delivery.hook.url)
        target = delivery.hook.repository.id if delivery.hook.repository else (self.world.app.id if self.world.app else 0)
        kind = http.client.HTTPSConnection if address.scheme == "https" else http.client.HTTPConnection
        connection = kind(address.hostname or "", address.port, timeout=MOST_SECONDS)
        try:
            path = (address.path or "/") + (f"?{address.query}" if address.query else "")
            connection.request("POST", path, delivery.body, headers_of(delivery, target))
            answer = connection.getresponse()
            answer.read()
            return answer.status
        except (OSError, http.client.HTTPException):
            return 0
        finally:
            connection.close()
