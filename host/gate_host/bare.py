"""A host of a bare repository on this machine, put together of its ports."""
import os
import time
from typing import Callable, FrozenSet, List, Mapping, Tuple, TypeVar

from .after_landing import AfterLandings
from .checks import Checks
from .core.broken import MAIN
from .core.deliveries import touched
from .core.known import Known, Test
from .core.words import landing_of
from .faults import Trouble
from .guarded import BranchesAndNotes, Guarded
from .inspection import findings, must_be_guarded
from .journal import Journal
from .kept_bot import KeptBot
from .landing_times import lines_of_estimates
from .locks import take_lock, take_lock_of_git
from .loop import Host
from .on_event import OnEvents
from .places import Places, must_be_safe, name_of_user
from .ports import Ports
from .reports import Reports
from .repository import Repository
from .sandbox import sandbox_of
from .setting_up import mend_hook
from .settings import Settings, read_reporters, read_roles, read_settings
from .showing.files import Around, Pages
from .spool import ROUNDS_FOR_ALL, Spool
from .troubles import Troubles, complain

Read = TypeVar("Read")


class SystemClock:
    """The clock of the system."""

    def now(self) -> int:
        return int(time.time())

    def running(self) -> float:
        return time.clock_gettime(time.CLOCK_BOOTTIME)


class OwnerFiles:
    """The settings and roles, as they were read last and were good. The owner is never asked of the folder again: who may write the
    repository's folder could put another one in its place."""

    def __init__(self, places: Places, owner: int):
        self.places, self.owner = places, owner
        self.settings: Settings = read_settings(places.settings, owner)
        self.roles: Mapping[str, str] = read_roles(places.roles, owner)
        self.reporters: Mapping[str, FrozenSet[str]] = read_reporters(places.reporters, owner)
        self.main = self.settings.main
        self.first = places.first_commit()
        # Nobody can review a branch.
        self.has_reviews = False
        self.own_status = ""

    def read(self) -> List[Tuple[str, str]]:
        must_be_safe(self.places)
        reads = {"settings": self.read_settings, "roles": self.read_roles, "reporters": self.read_reporters}
        return [(name, fault_of(read)) for name, read in reads.items()]

    def read_settings(self) -> None:
        self.settings = read_settings(self.places.settings, self.owner)

    def read_roles(self) -> None:
        self.roles = read_roles(self.places.roles, self.owner)

    def read_reporters(self) -> None:
        self.reporters = read_reporters(self.places.reporters, self.owner)


def fault_of(read: Callable[[], None]) -> str:
    """Why something can't be read, or nothing."""
    try:
        read()
    except Trouble as fault:
        return str(fault)
    return ""


def run_host(places: Places, is_all_again: bool) -> None:
    """Guards a repository until a signal ends it."""
    owner = os.geteuid()
    lock = take_lock(places)
    is_alone = take_lock_of_git(places)
    journal = Journal(places.records / "journal.db")
    files = OwnerFiles(places, owner)
    repository = Repository(places, files.settings.main, files.settings.staging, files.settings.trying)
    if is_alone:
        repository.remove_locks()
    reports = Reports(places, journal, complain)
    known = journal.known(lambda then, it: reports.note(it.delivery, touched(it.delivery, it.orders, then)))
    reports.more_of = lambda change: landing_of(known.landing_of(change), change)
    reports.more_of_queue = lambda queue: lines_of_estimates(known, queue, SystemClock().now())
    troubles = Troubles()
    bot = KeptBot(places, journal, lambda: files.settings.program, is_all_again, lambda: host.ending)
    around = Around(places.repository.name, "", files, bot.has_read, lambda: bot.starts, repository.title_of, SystemClock().now)
    reports.pages = Pages(places.reports, journal, known, around)
    reports.begin(known.changes)
    ports = ports_of(places, files, repository, journal, known, bot, reports)
    host = Host(ports, known, name_of_user(owner), ROUNDS_FOR_ALL, troubles)
    try:
        begin(host, places, files.settings, bot)
        host.run()
    finally:
        host.close()
        (places.reports / "process").unlink(missing_ok=True)
        os.close(lock)


def ports_of(
    places: Places, files: OwnerFiles, repository: Repository, journal: Journal, known: Known, bot: KeptBot, reports: Reports,
) -> Ports:
    guarded = Guarded(repository)

    def bring(test: Test) -> None:
        batch = known.batch_of(test.batch)
        if test.branch == MAIN:
            repository.must_have("main", test.commit)
        elif batch:
            guarded.bring(batch)

    return Ports(
        source=BranchesAndNotes(places, repository, Spool(places, files.owner, complain)), repository=guarded,
        runner=Checks(places, repository, bring), bot=bot, journal=journal, clock=SystemClock(),
        board=reports, owner=files, after=AfterLandings(places, journal, files.main), on_event=OnEvents(places, journal),
    )


def begin(host: Host, places: Places, settings: Settings, bot: KeptBot) -> None:
    """Looks at what stands in the repository besides branches, and says that the host runs. It doesn't if the main branch isn't guarded."""
    host.begin()
    mend_hook(places.repository)
    found = findings(places, settings)
    must_be_guarded(found)
    for number, finding in enumerate(found):
        host.troubles.say(f"finding {number}", finding.said)
    bot.must_belong_to_journal()
    host.clear()
    (places.reports / "process").write_text(f"{os.getpid()}\n", encoding="utf-8")
    complain(f"guards {settings.main} of {places.repository}; checks run {sandbox_of(settings).said}")
