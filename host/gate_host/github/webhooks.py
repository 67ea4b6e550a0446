"""Whether webhooks come, and whether the clocks agree: decisions over what GitHub says, for the doctor."""
from dataclasses import dataclass
from email.utils import parsedate_to_datetime
from typing import FrozenSet, Iterable, Iterator, Optional

from ..core.orders import Json, number_in, table_in, text_in
from ..doctor import Checked, note
from .permissions import names_in

# GitHub refuses what an app signs if the clocks differ by more than about a minute.
MOST_SECONDS_OFF = 30
# What an answer to a webhook means, besides that it wasn't taken.
MEANINGS = {
    0: "GitHub doesn't reach {url}, so look at the name, at the firewall and at the proxy",
    301: "{url} leads elsewhere, and GitHub doesn't follow: give GitHub the address that it leads to",
    400: "the receiver takes JSON alone: choose the content type application/json at {place}",
    401: "GitHub and the receiver have different secrets: write the same one into {secret} and at {place} under Secret, and start "
         "gate-host receive again",
    404: "the proxy doesn't hand it to /webhook of the receiver",
    405: "the proxy makes another request of it than a POST",
    413: "it was longer than the receiver or the proxy takes, which does no harm if it stays with that",
    502: "the proxy doesn't reach the receiver: see that gate-host receive runs, and that the proxy hands on to {listen}",
    503: "the receiver can't keep it: see that gate-host run is at work, and that the disk isn't full",
    504: "it took too long: see that gate-host receive runs, and that the proxy hands on to {listen}",
}
SAME = {302: 301, 303: 301, 307: 301, 308: 301, 499: 504, 408: 504}


@dataclass(frozen=True)
class Webhook:
    """A webhook as GitHub has it. The status of the last answer is 0 if there was no answer, and none if nothing was sent yet."""

    url: str
    content_type: str
    has_secret: bool
    is_active: bool
    events: FrozenSet[str]
    last: Optional[int]


@dataclass(frozen=True)
class Ends:
    """Both ends of the webhooks: where they are set on GitHub's pages, and here the file of the secret and the receiver's address."""

    place: str
    secret: str
    listen: str


# Reading


def webhook_of_app(config: Json, events: FrozenSet[str], deliveries: Iterable[Json]) -> Webhook:
    """The webhook of an app. Whether it is active GitHub doesn't say."""
    table = table_in(config)
    return Webhook(
        text_of(table.get("url")), text_of(table.get("content_type")), bool(table.get("secret")), True, events, last_status(deliveries))


def webhook_of_repository(found: Json) -> Webhook:
    table = table_in(found)
    config, last = table_in(table.get("config")), table_in(table.get("last_response", {})).get("code")
    return Webhook(
        text_of(config.get("url")), text_of(config.get("content_type")), bool(config.get("secret")), table.get("active") is True,
        names_in(table, "events"), last if isinstance(last, int) else None,
    )


def last_status(deliveries: Iterable[Json]) -> Optional[int]:
    """The status by which the last webhook was answered."""
    found = [(text_in(it, "delivered_at"), number_in(it, "id"), it.get("status_code")) for it in map(table_in, deliveries)]
    status = max(found)[2] if found else None
    return status if isinstance(status, int) else 0 if found else None


def text_of(found: Json) -> str:
    return found if isinstance(found, str) else ""


# Webhooks


def webhook_checked(hook: Webhook, ends: Ends) -> Iterator[Checked]:
    """How a webhook is set, and what became of the last one."""
    if not hook.is_active:
        yield Checked(False, f"the webhook to {hook.url} isn't active: choose Active at {ends.place}")
    if hook.content_type != "json":
        yield Checked(False, f"the webhook to {hook.url} doesn't send JSON: choose the content type application/json at {ends.place}")
    if not hook.has_secret:
        yield Checked(False, f"the webhook to {hook.url} has no secret: write the one of {ends.secret} at {ends.place} under Secret")
    if hook.is_active and hook.content_type == "json" and hook.has_secret:
        yield Checked(True, f"the webhook to {hook.url} sends JSON, signed by a secret")
    if hook.last is None:
        yield note(f"GitHub has sent no webhook to {hook.url} yet. If that stays so, see that Active is chosen at {ends.place}")
    elif 200 <= hook.last < 300:
        yield Checked(True, "the last webhook was taken")
    else:
        answer = f"taken, but answered {hook.last}" if hook.last else "answered"
        yield Checked(False, f"the last webhook wasn't {answer}: {meaning_of(hook, ends)}")


def meaning_of(hook: Webhook, ends: Ends) -> str:
    status = hook.last or 0
    said = MEANINGS.get(SAME.get(status, status), "the receiver answers 202 if it has taken one, so look at the proxy")
    return said.format(url=hook.url, place=ends.place, secret=ends.secret, listen=ends.listen)


def no_webhooks(reason: str, seconds: float) -> Checked:
    """Nothing is wrong without webhooks."""
    return note(f"{reason}. Without webhooks the host asks GitHub every {seconds:g} seconds, and all else is the same")


# The clock


def seconds_ahead(date: str, now: float) -> Optional[float]:
    """How far this machine's clock is ahead of the one whose time a header tells, or none if the header tells no time."""
    try:
        return now - parsedate_to_datetime(date).timestamp()
    except (TypeError, ValueError):
        return None


def clock_checked(ahead: float) -> Checked:
    if abs(ahead) <= MOST_SECONDS_OFF:
        return Checked(True, f"this machine's clock agrees with GitHub's, to {MOST_SECONDS_OFF} seconds")
    return Checked(False, (
        f"this machine's clock is {abs(ahead):.0f} seconds {'ahead of' if ahead > 0 else 'behind'} GitHub's. GitHub refuses what an app "
        "signs by a wrong clock, and comments could be taken for older or newer than they are: set it, as by timedatectl set-ntp true"))
