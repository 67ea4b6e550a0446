"""What the doctor asks GitHub. It only reads. What the answers mean is decided in permissions.py, webhooks.py and protection.py."""
import base64
from typing import Dict, FrozenSet, Iterator, List, Mapping, Optional, Tuple
from urllib.parse import urlsplit

from ..bot_settings import read_settings
from ..core.orders import Json, Unread, list_in, number_in, table_in, text_in
from ..doctor import Checked, note
from ..faults import Trouble, Unable
from ..places import Places
from ..settings import Settings
from .api import Api, NotTaken, Refused, Value
from .credentials import AppItself, AppWithKey
from .hosting import credentials_of
from .permissions import (
    EVENTS, App, Installation, app_checked, app_in, events_checked, installation_in, permissions_checked, reads_checked, scopes_checked,
    scopes_in, token_checked, writes_not_known,
)
from .protection import Branch, Host, Older, main_checked, older_in, rule_in, ruleset_in, tests_checked
from .receiver import PLACE
from .settings import GitHubSettings
from .webhooks import Ends, clock_checked, no_webhooks, seconds_ahead, webhook_checked, webhook_of_app, webhook_of_repository

# So many of the last webhooks are looked at.
DELIVERIES = 30
WEBHOOKS = "the repository's Settings > Webhooks"


def asked_of_github(places: Places, settings: Settings, given: GitHubSettings, has_receiver: bool) -> List[Checked]:
    """All that GitHub says of the host. If GitHub can't be asked any more, what it has said until then counts."""
    questions = Questions(places, settings, given, has_receiver)
    found: List[Checked] = []
    try:
        for checked in questions.all():
            found.append(checked)
    except NotTaken as fault:
        found.append(Checked(False, f"{fault}. {remedy_of_credentials(given)}"))
    except (Unable, Unread, Trouble) as fault:
        found.append(Checked(False, f"what GitHub says can't be looked at: {fault}"))
    finally:
        questions.close()
    return [*found, *questions.clock()]


def remedy_of_credentials(given: GitHubSettings) -> str:
    if given.token:
        return f"The token may have ended: write another one into {given.token}"
    return (
        f"See that app = {given.app} is the App ID of the app's page General, that {given.key} is one of the private keys which stand "
        "there, and that this machine's clock is right")


class Questions:
    """What is asked, by an app and by a token."""

    def __init__(self, places: Places, settings: Settings, given: GitHubSettings, has_receiver: bool):
        self.places, self.settings, self.given, self.has_receiver = places, settings, given, has_receiver
        credentials = credentials_of(given)
        self.api = Api(given.api, credentials)
        self.own = Api(given.api, AppItself(credentials)) if isinstance(credentials, AppWithKey) else None

    def close(self) -> None:
        for api in self.apis():
            api.close()

    def apis(self) -> List[Api]:
        return [self.api, *([self.own] if self.own else [])]

    def all(self) -> Iterator[Checked]:
        return self.of_app(self.own) if self.own else self.of_token()

    def clock(self) -> Iterator[Checked]:
        """How the clocks differ by the first answer that there is."""
        found = (seconds_ahead(it.headers.get("date", ""), it.answered) for it in self.apis())
        ahead = next((it for it in found if it is not None), None)
        if ahead is not None:
            yield clock_checked(ahead)

    # An app

    def of_app(self, own: Api) -> Iterator[Checked]:
        shown = unless_missing(own, "/app")
        if shown is None:
            yield Checked(False, f"GitHub knows no app {self.given.app}. {remedy_of_credentials(self.given)}")
            return
        app = app_in(shown)
        here = unless_missing(own, f"{self.given.path}/installation")
        number = number_in(table_in(here), "id") if here is not None else None
        named = self.given.installation or number
        found = unless_missing(own, f"/app/installations/{named}") if named else None
        if found is None:
            yield self.not_installed(app, number)
            return
        installation = installation_in(found)
        yield from app_checked(app, installation, self.given.repository, number, self.places.settings)
        yield from permissions_checked(app, installation)
        if self.has_receiver:
            yield from unless_refused("the webhooks", self.webhooks_of_app(own, app, installation))
        if number == installation.id and not installation.is_suspended:
            yield from self.in_repository(Host(app.slug, True))

    def not_installed(self, app: App, number: Optional[int]) -> Checked:
        """That there is no installation as the settings name it, or none at all."""
        if not self.given.installation:
            return Checked(False, f"the app {app.slug} isn't installed for {self.given.repository}: choose Install App at {app.page}")
        right = f"write installation = {number}" if number else "take the line installation away"
        said = f"the app {app.slug} has no installation {self.given.installation}: {right} in {self.places.settings}"
        return Checked(False, said if number else f"{said}, and choose Install App at {app.page}")

    def webhooks_of_app(self, own: Api, app: App, installation: Installation) -> Iterator[Checked]:
        config = unless_missing(own, "/app/hook/config")
        place = f"{app.page} > General > Webhook"
        if config is None or not table_in(config).get("url"):
            yield no_webhooks(f"the app has no webhook, which is set at {place}", self.given.poll_seconds)
            return
        deliveries = list_in(own.get("/app/hook/deliveries", per_page=DELIVERIES))
        yield from webhook_checked(webhook_of_app(config, installation.events, deliveries), self.ends(place))
        subscribed = f"{app.page} > Permissions & events > Subscribe to events"
        yield from events_checked(installation.events, subscribed, self.given.poll_seconds, True)

    def ends(self, place: str) -> Ends:
        return Ends(place, str(self.given.webhook_secret), self.given.listen)

    # A token

    def of_token(self) -> Iterator[Checked]:
        shown = unless_missing(self.api, self.given.path)
        if shown is None:
            yield Checked(False, f"with this token GitHub shows no {self.given.repository}: see that the name is right in "
                                 f"{self.places.settings}, that the token's user may read it, and that the token is for it")
            return
        repository = table_in(shown)
        scopes = scopes_in(self.api.headers.get("x-oauth-scopes"))
        may = table_in(repository.get("permissions") or {})
        login = self.login()
        yield from token_checked(login, self.given.repository, may.get("push") is True)
        if scopes is None:
            yield from reads_checked(self.tried())
            yield writes_not_known()
        else:
            yield from scopes_checked(scopes, repository.get("private") is True)
        if self.has_receiver:
            yield from self.webhooks_of_repository()
        yield from self.in_repository(Host(login or "", False, may.get("admin") is True))

    def login(self) -> Optional[str]:
        """Whose token it is. GitHub doesn't say so of a token of an installation."""
        try:
            return text_in(table_in(self.api.get("/user")), "login")
        except Refused:
            return None

    def tried(self) -> Dict[str, Optional[int]]:
        """The status by which GitHub refuses a read, for each permission that can be tried so."""
        path, main = self.given.path, self.settings.main
        tries = {
            "Contents": f"{path}/branches/{main}", "Pull requests": f"{path}/pulls", "Issues": f"{path}/issues/comments",
            "Commit statuses": f"{path}/commits/{main}/status", "Checks": f"{path}/commits/{main}/check-runs",
        }
        return {page: refusal(self.api, place) for page, place in tries.items()}

    def webhooks_of_repository(self) -> Iterator[Checked]:
        try:
            shown = [webhook_of_repository(it) for it in self.api.all(f"{self.given.path}/hooks")]
        except Refused:
            pages = ", ".join(of_webhook for _, of_webhook, _ in EVENTS.values())
            yield note(f"the webhooks can't be looked at with this token. At {WEBHOOKS} one has to send JSON by the secret of "
                       f"{self.given.webhook_secret}, and these events: {pages}")
            return
        hooks = [it for it in shown if urlsplit(it.url).path.endswith(PLACE)]
        if not hooks:
            yield no_webhooks(f"at {WEBHOOKS} none leads to an address that ends in {PLACE}", self.given.poll_seconds)
        for hook in hooks:
            yield from webhook_checked(hook, self.ends(f"{WEBHOOKS} > {hook.url}"))
            yield from events_checked(hook.events, f"{WEBHOOKS} > {hook.url}", self.given.poll_seconds, False)

    # The repository

    def in_repository(self, host: Host) -> Iterator[Checked]:
        required, said = self.required()
        yield said
        for name in (self.settings.main, self.settings.staging, self.settings.trying):
            yield from unless_refused(f"the rules of {name}", self.rules_of(name, host, required))

    def rules_of(self, name: str, host: Host, required: Optional[FrozenSet[str]]) -> Iterator[Checked]:
        branch = self.branch(name, host)
        if name != self.settings.main:
            yield from tests_checked(branch, host)
        elif branch.is_there:
            yield from main_checked(branch, host, required)
        else:
            yield Checked(False, f"{self.given.repository} has no branch {name}: main = {name} stands in {self.places.settings}")

    def required(self) -> Tuple[Optional[FrozenSet[str]], Checked]:
        """The statuses that bors.toml of the main branch asks for, if they are known, and what there is to say of it."""
        main = self.settings.main
        try:
            found = unless_missing(self.api, f"{self.given.path}/contents/bors.toml", ref=main)
        except Refused as refused:
            return None, note(f"bors.toml of {main} can't be looked at: {refused}")
        if found is None:
            return None, Checked(False, f"{main} has no bors.toml, so nothing can land: add one with a line as status = [\"build\"]")
        try:
            text = base64.b64decode(text_in(table_in(found), "content")).decode("utf-8")
            read = read_settings(self.settings.program, text)
        except ValueError:
            return None, Checked(False, f"bors.toml of {main} isn't written in UTF-8")
        except Unable as fault:
            return None, note(f"what bors.toml of {main} asks for can't be told: {fault}")
        if read.refusal:
            return None, Checked(False, f"bors.toml of {main} isn't taken: {read.refusal}")
        return frozenset(read.required), Checked(True, f"bors.toml of {main} asks for {', '.join(read.required)}")

    def branch(self, name: str, host: Host) -> Branch:
        """A branch with all rules for it. It needn't be there."""
        path = self.given.path
        shown = unless_missing(self.api, f"{path}/branches/{name}")
        rules = tuple(rule_in(it) for it in self.api.all(f"{path}/rules/branches/{name}"))
        table: Mapping[str, Json] = table_in(shown) if shown is not None else {}
        has_older = table_in(table.get("protection") or {}).get("enabled", table.get("protected") is True and not rules) is True
        rulesets = {}
        for number in sorted({rule.ruleset for rule in rules}):
            found = unless_missing(self.api, f"{path}/rulesets/{number}")
            if found is not None:
                rulesets[number] = ruleset_in(found, int(self.given.app) if self.given.app else None)
        older = self.older(name, host) if has_older else None
        return Branch(name, shown is not None, rules, rulesets, has_older, older)

    def older(self, name: str, host: Host) -> Optional[Older]:
        """The older protection of a branch, which GitHub shows to few."""
        try:
            return older_in(self.api.get(f"{self.given.path}/branches/{name}/protection"), host)
        except Refused:
            return None


def unless_missing(api: Api, path: str, **query: Value) -> Optional[Json]:
    """What GitHub answers, or none if it says that there is no such thing."""
    try:
        return api.get(path, **query)
    except Refused as refused:
        if refused.status != 404:
            raise
        return None


def unless_refused(what: str, checks: Iterator[Checked]) -> Iterator[Checked]:
    """What was found. What GitHub refuses to show, or shows in a way that isn't known, keeps nothing else from being looked at."""
    try:
        yield from checks
    except (Refused, Unread) as fault:
        yield note(f"{what} can't be looked at: {fault}")


def refusal(api: Api, path: str) -> Optional[int]:
    try:
        api.get(path, per_page=1)
    except Refused as refused:
        return refused.status
    return None
