"""What a test may do to requests: have them refused, cut, or preceded and followed by something; and the record of what was asked.

A route is named by GitHub's own name of the operation, as `pulls/list` or `issues/create-comment`. `git/info-refs`, `git/upload-pack` and
`git/receive-pack` are those of git. A name may be a pattern, as `issues/*` or `*`. What is set counts from the next request of the route.
Of git a name may say more: `git/info-refs git-upload-pack` has the service, and `git/receive-pack refs/heads/main` the refs of a push.
"""
import fnmatch
import threading
from dataclasses import dataclass, field
from typing import Callable, Optional

SECONDARY = (
    "You have exceeded a secondary rate limit. Please wait a few minutes before you try again. If you reach out to GitHub Support for "
    "help, please include the request ID."
)
LIMITS_PAGE = "https://docs.github.com/rest/using-the-rest-api/rate-limits-for-the-rest-api#about-secondary-rate-limits"


@dataclass
class Request:
    """A request that came, without any secret."""

    number: int
    method: str
    path: str
    query: str
    operation: str
    headers: dict
    # Which token was used: `none`, `unknown`, `expired`, `user:LOGIN`, `app`, or `installation:NUMBER`.
    token: str = "none"
    # What was answered. It is none until then, and 0 if the connection was cut.
    status: Optional[int] = None
    acted: bool = False
    # What a request of git is about: a service, or the refs that a push is to move.
    about: str = ""

    @property
    def names(self) -> tuple:
        """The operation, and that with what it is about."""
        return self.operation, f"{self.operation} {self.about}"


def is_of(route: str, request: Request) -> bool:
    """Whether a request is of a route, which may be a pattern."""
    return any(fnmatch.fnmatchcase(name, route) for name in request.names)


@dataclass
class Fault:
    """What happens to some requests of a route in place of an answer."""

    route: str
    # Requests that pass before the first one to which it happens, and to how many it happens; none is to all.
    skip: int = 0
    times: Optional[int] = 1
    # An answer that is given without acting.
    status: int = 0
    headers: dict = field(default_factory=dict)
    body: Optional[dict] = None
    # A cut of the connection: `before` the request acts, `after` it, or `within` the answer.
    cut: str = ""
    # How long the request has to wait before it acts.
    seconds: float = 0.0

    def meets(self, request: Request) -> bool:
        """Whether it happens to a request, which is then counted."""
        if not is_of(self.route, request) or self.times == 0:
            return False
        if self.skip > 0:
            self.skip -= 1
            return False
        if self.times is not None:
            self.times -= 1
        return True


@dataclass
class Moment:
    """What is done before or after a request of a route."""

    route: str
    count: int
    when: str
    action: Callable[[], object]


class Switches:
    """All of these, which tests may set at any time."""

    def __init__(self) -> None:
        self.lock = threading.Lock()
        self.faults: list = []
        self.moments: list = []
        self.requests: list = []
        # No page has more entries than these, if that is a number.
        self.page_size: Optional[int] = None

    # What tests set

    def fail(self, route: str, status: int = 500, times: Optional[int] = 1, skip: int = 0, headers: Optional[dict] = None,
             body: Optional[dict] = None) -> Fault:
        """Has requests answered by a status, without acting. Of 500 and more the answer is no JSON, as from a proxy."""
        return self.add(Fault(route, skip, times, status, dict(headers or {}), body))

    def retry_after(self, route: str, seconds: int, times: Optional[int] = 1, skip: int = 0, status: int = 403) -> Fault:
        """The limit that GitHub calls secondary: 403, or 429, with Retry-After."""
        body = {"message": SECONDARY, "documentation_url": LIMITS_PAGE}
        return self.fail(route, status, times, skip, {"Retry-After": str(seconds)}, body)

    def cut(self, route: str, when: str, times: Optional[int] = 1, skip: int = 0) -> Fault:
        """Has connections cut: `before` a request acts, `after` it has acted, or `within` its answer."""
        if when not in ("before", "after", "within"):
            raise ValueError(f"a connection is cut before, after or within, and not {when}")
        return self.add(Fault(route, skip, times, cut=when))

    def delay(self, route: str, seconds: float, times: Optional[int] = 1, skip: int = 0) -> Fault:
        """Has requests wait before they act."""
        return self.add(Fault(route, skip, times, seconds=seconds))

    def before(self, route: str, action: Callable[[], object], count: int = 1) -> None:
        """Does something before the request of a route that is the first, second .. from now on."""
        self.at(Moment(route, count, "before", action))

    def after(self, route: str, action: Callable[[], object], count: int = 1) -> None:
        """Does something after such a request has acted, and before it is answered."""
        self.at(Moment(route, count, "after", action))

    def add(self, fault: Fault) -> Fault:
        with self.lock:
            self.faults.append(fault)
        return fault

    def at(self, moment: Moment) -> None:
        with self.lock:
            self.moments.append(moment)

    def clear(self) -> None:
        """Ends all faults and moments."""
        with self.lock:
            self.faults, self.moments = [], []
            self.page_size = None

    # What the server asks

    def note(self, method: str, path: str, query: str, operation: str, headers: dict, about: str = "") -> Request:
        with self.lock:
            request = Request(len(self.requests) + 1, method, path, query, operation, headers, about=about)
            self.requests.append(request)
            return request

    def plan(self, request: Request) -> tuple:
        """The fault that meets a request, or none, and what is to be done before and after it."""
        with self.lock:
            fault = next((it for it in self.faults if it.meets(request)), None)
            due = []
            for moment in self.moments:
                if is_of(moment.route, request):
                    moment.count -= 1
                    if moment.count == 0:
                        due.append(moment)
            self.moments = [it for it in self.moments if it.count > 0]
            return fault, [it.action for it in due if it.when == "before"], [it.action for it in due if it.when == "after"]

    # What tests look at

    def asked(self, route: str = "*", method: str = "*", status: Optional[int] = None) -> list:
        """The requests of a route, in their order; if a status is given, those that were answered so."""
        with self.lock:
            return [
                it for it in self.requests if is_of(route, it) and fnmatch.fnmatchcase(it.method, method)
                and (status is None or it.status == status)
            ]
