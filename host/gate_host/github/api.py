"""GitHub's API over HTTPS. Each request is one question, and nothing waits here: if GitHub wants to be left alone for a while, or doesn't
answer, `Later` says so, and whoever asked goes on with other work."""
import time
from dataclasses import dataclass, replace
from itertools import islice
from typing import Callable, Dict, Iterator, Mapping, Optional, Union

import httpx

from ..core.orders import Json, list_in, table_in
from ..faults import Unable
from .credentials import Credentials
from .pauses import USUAL_PAUSE, pause_after, pause_after_fault

ACCEPTED = "application/vnd.github+json"
VERSION = "2022-11-28"
USER_AGENT = "gate-host"
SECONDS = 20.0
# A list has at most so many pages. More than that nobody has open at a time.
MOST_PAGES = 200
PER_PAGE = 100
# What was answered before is kept, so that an answer which is the same costs nothing of the limit: for so long after it was asked for last,
# as places of lists alter and answers may be long.
SECONDS_KEPT = 600.0
Value = Union[str, int]


class Later(Unable):
    """GitHub can't be asked for now."""


class NotTaken(Later):
    """GitHub doesn't take the credentials."""


class Unanswered(Later):
    """A request was sent and not answered: it may have acted, or not."""


class Refused(Unable):
    """GitHub refuses what was asked, with its status and its words."""

    def __init__(self, status: int, said: str):
        super().__init__(f"GitHub answers {status}: {said}")
        self.status = status


@dataclass(frozen=True)
class Kept:
    """An answer with the tag by which GitHub knows it, and where the next page is."""

    tag: str
    body: Json
    next: Optional[str]
    # When it was asked for last.
    at: float

    @property
    def may_go_on(self) -> bool:
        """Whether this is a full page that is the last one. When a next one comes, this one stays as it is, and so may its tag."""
        return isinstance(self.body, list) and len(self.body) >= PER_PAGE and self.next is None


class Api:
    """The API of one GitHub."""

    def __init__(
        self, address: str, credentials: Credentials, client: Optional[httpx.Client] = None, now: Callable[[], float] = time.time,
    ):
        self.address = address.rstrip("/")
        self.credentials = credentials
        # Nothing of the environment leads a request elsewhere, and no answer sends it on with its token.
        self.client = client or httpx.Client(timeout=SECONDS, trust_env=False, follow_redirects=False)
        self.now = now
        self.not_before, self.faults = 0.0, 0
        # The headers of the last answer, whatever its status, and when it came.
        self.headers: Mapping[str, str] = {}
        self.answered = 0.0
        self.kept: Dict[str, Kept] = {}

    def get(self, path: str, **query: Value) -> Json:
        """What GitHub answers to a question."""
        return self.page(self.place_of(path, query)).body

    def all(self, path: str, **query: Value) -> Iterator[Json]:
        """The entries of a list, on however many pages it stands."""
        place: Optional[str] = self.place_of(path, {"per_page": PER_PAGE, **query})
        for _ in range(MOST_PAGES):
            if place is None:
                return
            page = self.page(place)
            if not isinstance(page.body, list):
                raise Refused(200, f"no list at {path}")
            yield from page.body
            place = page.next
        raise Refused(200, f"more than {MOST_PAGES} pages at {path}")

    def entries(self, path: str, name: str, **query: Value) -> Iterator[Json]:
        """The entries of a list that stands within an object, under a name."""
        place: Optional[str] = self.place_of(path, {"per_page": PER_PAGE, **query})
        for _ in range(MOST_PAGES):
            if place is None:
                return
            page = self.page(place)
            yield from list_in(table_in(page.body).get(name))
            place = page.next
        raise Refused(200, f"more than {MOST_PAGES} pages at {path}")

    def post(self, path: str, body: Mapping[str, Json]) -> Json:
        """Has something made. `Unanswered` says that it may have been."""
        response = self.sent("POST", self.place_of(path, {}), {}, body)
        return json_of(response)

    def close(self) -> None:
        self.client.close()

    # One request

    def place_of(self, path: str, query: Mapping[str, Value]) -> str:
        return str(httpx.URL(f"{self.address}{path}", params=dict(query)) if query else f"{self.address}{path}")

    def page(self, place: str) -> Kept:
        known = self.kept.get(place)
        response = self.sent("GET", place, {"If-None-Match": known.tag} if known else {})
        if response.status_code == 304 and known:
            found = replace(known, at=self.now())
        else:
            found = Kept(response.headers.get("etag", ""), json_of(response), self.next_of(response), self.now())
        self.keep(place, found)
        return found

    def keep(self, place: str, found: Kept) -> None:
        """Keeps an answer, behind those that were asked for before, and drops what is old."""
        self.kept.pop(place, None)
        if found.tag and not found.may_go_on:
            self.kept[place] = found
        for oldest in list(islice(self.kept, 2)):
            if self.kept[oldest].at < self.now() - SECONDS_KEPT:
                del self.kept[oldest]

    def next_of(self, response: httpx.Response) -> Optional[str]:
        """Where the next page of a list is. A place elsewhere than here gets no token."""
        place = response.links.get("next", {}).get("url")
        if place is not None and not place.startswith(f"{self.address}/"):
            raise Refused(200, "the next page of a list is elsewhere")
        return place

    def sent(self, method: str, place: str, headers: Mapping[str, str], body: Optional[Mapping[str, Json]] = None) -> httpx.Response:
        """The response to a request. If the credentials weren't taken, it is sent once more with new ones: then it hasn't acted."""
        for is_again in (False, True):
            response = self.tried(method, place, {**headers, "Authorization": self.credentials.header()}, body)
            if response.status_code != 401 or is_again:
                break
            self.credentials.refused()
        if response.status_code == 401:
            # That is no word on what was asked, and GitHub shuts out who goes on so.
            self.wait(USUAL_PAUSE, False)
            raise NotTaken(f"GitHub doesn't take the credentials: {words_of(response)}")
        if response.status_code == 403:
            # If the owner gives the right that is missing, new credentials have it, and those of before may not.
            self.credentials.refused()
        if response.status_code >= 300 and response.status_code != 304:
            raise Refused(response.status_code, f"{words_of(response)} ({method} {httpx.URL(place).path})")
        return response

    def tried(self, method: str, place: str, headers: Mapping[str, str], body: Optional[Mapping[str, Json]]) -> httpx.Response:
        if self.now() < self.not_before:
            raise Later(f"GitHub is asked again in {self.not_before - self.now():.0f} seconds")
        given = {"Accept": ACCEPTED, "X-GitHub-Api-Version": VERSION, "User-Agent": USER_AGENT, **headers}
        try:
            response = self.client.request(method, place, headers=given, json=body)
        except httpx.ConnectError as fault:
            self.wait(pause_after_fault(self.faults))
            raise Later(f"GitHub can't be reached: {fault}") from fault
        except httpx.HTTPError as fault:
            self.wait(pause_after_fault(self.faults))
            raise Unanswered(f"GitHub didn't answer: {fault or type(fault).__name__}") from fault
        self.headers, self.answered = response.headers, self.now()
        said = words_of(response) if response.status_code == 403 else ""
        pause = pause_after(response.status_code, response.headers, self.now(), self.faults, said)
        if pause is not None:
            self.wait(pause, response.status_code >= 500)
            kind = Unanswered if response.status_code >= 500 else Later
            raise kind(f"GitHub answers {response.status_code}, and is asked again in {pause:.0f} seconds")
        self.faults = 0
        return response

    def wait(self, pause: float, is_fault: bool = True) -> None:
        self.not_before = self.now() + pause
        self.faults += is_fault


def json_of(response: httpx.Response) -> Json:
    try:
        return response.json()
    except ValueError as fault:
        raise Refused(response.status_code, "something that is no JSON") from fault


def words_of(response: httpx.Response) -> str:
    """The messages of a refusal, and nothing else of what came."""
    try:
        body = response.json()
    except ValueError:
        return response.reason_phrase
    if not isinstance(body, dict) or not isinstance(body.get("message"), str):
        return response.reason_phrase
    errors = body.get("errors")
    more = (it.get("message") for it in errors if isinstance(it, dict)) if isinstance(errors, list) else ()
    return "; ".join([body["message"], *(it for it in more if isinstance(it, str))])[:300]
