"""A host of a repository on GitHub, put together of its ports."""
import os
from collections import ChainMap
from datetime import datetime
from typing import Dict, FrozenSet, Iterator, Mapping, Sequence, Tuple, Union

import httpx

from ..after_landing import AfterLandings
from ..bare import OwnerFiles, SystemClock
from ..core.deliveries import touched
from ..core.known import Known, Test
from ..core.orders import Json, Unread, number_in, table_in, text_in
from ..core.words import landing_of
from ..faults import Trouble, Unable
from ..guarded import Guarded
from ..journal import Journal
from ..kept_bot import KeptBot
from ..landing_times import lines_of_estimates
from ..locks import take_lock
from ..loop import Host
from ..on_event import OnEvents
from ..places import Places, name_of_user
from ..ports import Fault, Ports, Result
from ..reports import Reports
from ..settings import Settings
from ..showing.files import Around, Pages
from ..spool import ROUNDS_FOR_ALL, Spool
from ..troubles import Troubles, complain
from .notes_of_owner import WithNotesOfOwner
from .api import ACCEPTED, SECONDS, USER_AGENT, VERSION, Api, words_of
from .board import Board
from .comments import Comments
from .credentials import AppWithKey, Credentials, TokenInFile
from .head_statuses import HeadStatuses
from .pulls import REPORTER, PullRequests
from .remote import RemoteRepository
from .settings import GitHubSettings
from .starting import webhooks_of


class AnyStatus(Mapping[str, FrozenSet[str]]):
    """Who reports which status: GitHub may report each, and nobody can list them."""

    def __getitem__(self, name: str) -> FrozenSet[str]:
        return frozenset({REPORTER})

    def __contains__(self, name: object) -> bool:
        return True

    def __iter__(self) -> Iterator[str]:
        return iter(())

    def __len__(self) -> int:
        return 0


class OwnerOnGitHub(OwnerFiles):
    """The owner's files, with the roles that people have by their permissions. A name in the file goes before."""

    def __init__(self, places: Places, owner: int, roles: Dict[str, str], own_status: str):
        self.by_permission = roles
        super().__init__(places, owner)
        self.reporters: Mapping[str, FrozenSet[str]] = AnyStatus()
        self.has_reviews, self.own_status = True, own_status
        self.with_permissions()

    def with_permissions(self) -> None:
        """Has the roles found from now on count at once."""
        self.roles = ChainMap(dict(self.roles), self.by_permission)

    def read_roles(self) -> None:
        super().read_roles()
        self.with_permissions()

    def read_reporters(self) -> None:
        """There is no such file here."""


class NoChecks:
    """Checks run on GitHub, or where GitHub has them run."""

    def clear(self) -> None:
        pass

    def ended(self, wanted: Sequence[Test]) -> Sequence[Union[Result, Fault]]:
        return ()

    def lasting(self) -> Sequence[Fault]:
        return ()

    def begin(self, test: Test, settings: Settings, done: Mapping[str, str]) -> None:
        pass

    def close(self) -> None:
        pass


def credentials_of(given: GitHubSettings) -> Credentials:
    if given.token:
        return TokenInFile(given.token)
    if given.key is None:
        raise Trouble("settings: neither a token nor a key is named")
    return AppWithKey(given.app, given.key, lambda word: token_of(given, word))


def token_of(given: GitHubSettings, word: str) -> Tuple[str, float]:
    """A token of the app's installation, with the time of its end."""
    headers = {"Authorization": f"Bearer {word}", "Accept": ACCEPTED, "X-GitHub-Api-Version": VERSION, "User-Agent": USER_AGENT}
    with httpx.Client(timeout=SECONDS, trust_env=False, headers=headers) as client:
        try:
            installation = given.installation or number_in(body_of(client.get(f"{given.api}{given.path}/installation"), 200), "id")
            found = body_of(client.post(f"{given.api}/app/installations/{installation}/access_tokens"), 201)
            end = datetime.fromisoformat(text_in(found, "expires_at").replace("Z", "+00:00")).timestamp()
            return text_in(found, "token"), end
        except (httpx.HTTPError, ValueError, Unread) as fault:
            raise Unable(f"the app gets no token of its installation: {fault}") from fault


def body_of(response: httpx.Response, due: int) -> Mapping[str, Json]:
    """What GitHub answers to an app, if it does what was asked."""
    if response.status_code != due:
        raise Unable(f"the app gets no token of its installation: GitHub answers {response.status_code}: {words_of(response)}")
    return table_in(response.json())


def run_on_github(places: Places, given: GitHubSettings, is_all_again: bool) -> None:
    """Guards a repository on GitHub until a signal ends it."""
    lock = take_lock(places)
    journal = Journal(places.records / "journal.db")
    api = Api(given.api, credentials_of(given))
    reports = Reports(places, journal, complain)
    known = journal.known(lambda then, it: reports.note(it.delivery, touched(it.delivery, it.orders, then)))
    reports.more_of = lambda change: landing_of(known.landing_of(change), change)
    reports.more_of_queue = lambda queue: lines_of_estimates(known, queue, SystemClock().now())
    files = OwnerOnGitHub(places, os.geteuid(), {}, given.status)
    bot = KeptBot(places, journal, lambda: files.settings.program, is_all_again, lambda: host.ending)
    remote = RemoteRepository(places, given.git, api.credentials, files.main, files.settings.staging, files.settings.trying)
    code = f"{given.web}/{given.repository}"
    around = Around(given.repository, code, files, bot.has_read, lambda: bot.starts, remote.title_of, SystemClock().now)
    reports.pages = Pages(places.reports, journal, known, around)
    reports.begin(known.changes)
    ports = ports_of(places, given, files, journal, known, api, reports, bot, remote)
    host = Host(ports, known, name_of_user(files.owner), ROUNDS_FOR_ALL, Troubles())
    try:
        host.begin()
        bot.must_belong_to_journal()
        host.clear()
        (places.reports / "process").write_text(f"{os.getpid()}\n", encoding="utf-8")
        complain(f"guards {files.main} of {given.git}")
        host.run()
    finally:
        host.close()
        api.close()
        (places.reports / "process").unlink(missing_ok=True)
        os.close(lock)


def ports_of(
    places: Places, given: GitHubSettings, files: OwnerOnGitHub, journal: Journal, known: Known, api: Api, reports: Reports, bot: KeptBot,
    remote: RemoteRepository,
) -> Ports:
    pulls = PullRequests(
        api, given.path, files.main, webhooks_of(places), journal, known, given.poll_seconds, own_status=given.status,
    )
    files.by_permission = pulls.roles.found
    commits = f"{given.web}/{given.repository}/commit/"
    statuses = HeadStatuses(known, reports, journal, api, given.path, commits, given.status, given.page)
    return Ports(
        source=WithNotesOfOwner(pulls, Spool(places, files.owner, complain), name_of_user(files.owner)),
        repository=Guarded(remote), runner=NoChecks(), bot=bot,
        journal=journal, clock=SystemClock(), owner=files, after=AfterLandings(places, journal, files.main),
        board=Board(reports, [Comments(journal, api, given.path), statuses]), on_event=OnEvents(places, journal),
    )
