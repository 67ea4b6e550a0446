"""What all answers of the API have in common: errors, pages, ETags, and limits."""
import hashlib
import json
import math
import uuid
from dataclasses import dataclass
from typing import Optional
from urllib.parse import parse_qsl, urlencode

from .git_http import Call, Reply
from .model import World
from .routes import DOCS, Asked, Listed, Made, Route, Routes
from .switches import Switches
from .tokens import Asker, Refused

HOUR = 3600
# GitHub gives so many entries on a page, and no more than so many.
ON_PAGE, MOST_ON_PAGE = 30, 100
REASONS = {304: "Not Modified", 422: "Unprocessable Entity"}


@dataclass
class Limit:
    """How many requests somebody may make in an hour."""

    limit: int
    used: int = 0
    reset: float = 0.0

    def now(self, now: float) -> "Limit":
        if now >= self.reset:
            self.used, self.reset = 0, now + HOUR
        return self

    @property
    def remaining(self) -> int:
        return max(0, self.limit - self.used)

    def shown(self) -> dict:
        return {"limit": self.limit, "used": self.used, "remaining": self.remaining, "reset": math.ceil(self.reset)}


def account_of(asker: Asker) -> str:
    """Whose limit it is, in GitHub's words."""
    if asker.app:
        return f"installation ID {asker.app.installation}"
    return f"user ID {asker.user.id}" if asker.user else "127.0.0.1"


class Rest:
    """The API."""

    def __init__(self, world: World, routes: Routes, switches: Switches) -> None:
        self.world, self.routes, self.switches = world, routes, switches
        self.limits: dict = {}
        # The address that the API has, and the one of a list that goes on.
        self.api = ""

    # Limits

    def limit_of(self, asker: Asker) -> Limit:
        with self.world.lock:
            account = asker.label.split(":")[0] if asker.token else asker.label
            kept = self.limits.setdefault(account, Limit(60 if asker.label in ("none", "unknown", "expired") else 5000))
            return kept.now(self.world.clock.now())

    def exhaust(self, seconds: float, account: str = "installation") -> None:
        """Ends the requests of somebody for so long: of `installation`, or of `user:LOGIN`."""
        with self.world.lock:
            limit = self.limits.setdefault(account, Limit(5000))
            limit.used, limit.reset = limit.limit, self.world.clock.now() + seconds

    def headers_of(self, asker: Asker) -> dict:
        shown = self.limit_of(asker).shown()
        is_classic = asker.user is not None and asker.token is None and asker.user.scopes is not None
        scopes = {"X-OAuth-Scopes": asker.user.scopes} if is_classic else {}
        return {
            **scopes,
            "Server": "GitHub.com", "Content-Type": "application/json; charset=utf-8", "X-GitHub-Media-Type": "github.v3; format=json",
            "X-GitHub-Request-Id": uuid.uuid4().hex[:24].upper(), "X-RateLimit-Resource": "core",
            **{f"X-RateLimit-{name.capitalize()}": str(value) for name, value in shown.items()},
        }

    # Answers

    def answer(self, call: Call, asker: Asker, route: Optional[Route], names: dict) -> Reply:
        """The answer to a request whose asker is known."""
        limit = self.limit_of(asker)
        try:
            if "User-Agent" not in call.headers:
                return Reply(403, {"Content-Type": "text/html"}, b"Request forbidden by administrative rules. Please make sure your "
                             b"request has a User-Agent header")
            if asker.label in ("unknown", "expired"):
                raise Refused(401, "Bad credentials", DOCS)
            if limit.remaining == 0 and not (route and route.operation == "rate-limit/get"):
                raise Refused(403, f"API rate limit exceeded for {account_of(asker)}.", f"{DOCS}/overview/rate-limits-for-the-rest-api")
            if route is None:
                raise Refused(404, "Not Found", DOCS)
            reply = self.act(call, asker, route, names)
        except Refused as refused:
            reply = self.refusal(refused, route)
        if reply.status != 304 and not (route and route.operation == "rate-limit/get"):
            with self.world.lock:
                limit.used += 1
        return Reply(reply.status, {**self.headers_of(asker), **reply.headers}, reply.body)

    @staticmethod
    def refusal(refused: Refused, route: Optional[Route]) -> Reply:
        page = refused.page or (f"{DOCS}{route.page}" if route else DOCS)
        errors = {"errors": refused.errors} if refused.errors else {}
        shown = {"message": refused.message, **errors, "documentation_url": page, "status": str(refused.status)}
        return Reply(refused.status, {}, json.dumps(shown).encode())

    def act(self, call: Call, asker: Asker, route: Route, names: dict) -> Reply:
        query = dict(parse_qsl(call.query, keep_blank_values=True))
        with self.world.lock:
            repository = self.world.repository(names["owner"], names["repo"]) if "owner" in names else None
            asked = Asked(asker, names, query, {}, repository)
            self.routes.admit(route, asked)
            if route.method != "GET":
                asked.body = self.read(call.body)
            found = route.answer(asked)
            if isinstance(found, Made):
                return Reply(201, {"Location": found.shown.get("url", "")}, json.dumps(found.shown).encode())
            if isinstance(found, Listed):
                found, links = self.page(call, found, query, asked)
            else:
                links = {}
        if route.operation == "rate-limit/get":
            found = self.all_limits(asker)
        return self.tagged(call, found, links)

    @staticmethod
    def read(body: bytes) -> dict:
        try:
            said = json.loads(body) if body.strip() else {}
        except ValueError:
            raise Refused(400, "Problems parsing JSON") from None
        if not isinstance(said, dict):
            raise Refused(400, "Body should be a JSON object")
        return said

    @staticmethod
    def tagged(call: Call, found: object, links: dict) -> Reply:
        """An answer with its ETag; nothing but that if who asks has it already. It is another one for another token, as with GitHub."""
        body = json.dumps(found).encode()
        varies = "\n".join(call.headers.get(it, "") for it in ("Authorization", "Accept")).encode()
        tag = 'W/"' + hashlib.sha256(varies + b"\n" + str(links).encode() + b"\n" + body).hexdigest() + '"'
        headers = {
            **links, "ETag": tag, "Cache-Control": "private, max-age=60, s-maxage=60",
            "Vary": "Accept, Authorization, Cookie, X-GitHub-OTP",
        }
        known = [it.strip().removeprefix("W/") for it in call.headers.get("If-None-Match", "").split(",")]
        return Reply(304, headers) if tag.removeprefix("W/") in known else Reply(200, headers, body)

    def page(self, call: Call, listed: Listed, query: dict, asked: Asked) -> tuple:
        """A page of a list, with the header Link. Its addresses name a repository by its number, as GitHub's do."""
        size = max(1, min(self.number(query, "per_page", ON_PAGE), MOST_ON_PAGE, self.switches.page_size or MOST_ON_PAGE))
        at = max(1, self.number(query, "page", 1))
        last = max(1, math.ceil(len(listed.items) / size))
        shown = [listed.shape(it) for it in listed.items[(at - 1) * size:at * size]]
        path = call.path
        if asked.repository:
            path = f"/repositories/{asked.repository.id}" + path[len(f"/repos/{asked.names['owner']}/{asked.names['repo']}"):]
        pages = {"prev": at - 1, "next": at + 1, "last": last, "first": 1}
        named = {
            name: page for name, page in pages.items() if (at > 1 if name in ("prev", "first") else at < last)
        }
        parts = [f"<{self.api}{path}?{urlencode({**query, 'page': page})}>; rel=\"{name}\"" for name, page in named.items()]
        found = {**listed.within, listed.key: shown} if listed.within is not None else shown
        return found, {"Link": ", ".join(parts)} if parts else {}

    @staticmethod
    def number(query: dict, name: str, default: int) -> int:
        text = query.get(name, "")
        return int(text) if text.isdecimal() else default

    def all_limits(self, asker: Asker) -> dict:
        core = self.limit_of(asker).shown()
        rest = {"limit": 5000, "used": 0, "remaining": 5000, "reset": core["reset"]}
        few = {"limit": 30, "used": 0, "remaining": 30, "reset": core["reset"]}
        return {"resources": {"core": core, "search": few, "graphql": rest, "integration_manifest": rest}, "rate": core}
