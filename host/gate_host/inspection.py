"""What stands in the guarded repository and has it be another one than it seems. The files of git are read as texts; none is obeyed."""
import os
import re
from dataclasses import dataclass
from pathlib import Path
from typing import Dict, Iterator, List, Mapping

from .git import settings_in_file
from .hook_file import is_hook
from .faults import Trouble
from .places import Places, pointed_to
from .repository import BRANCHES, Branch
from .settings import Settings

# Settings that name commands, or other places of objects. The host obeys none of them.
COMMANDS = re.compile(
    r"filter\..*\.(clean|smudge|process)|remote\..*\.(uploadpack|receivepack|vcs)|merge\..*\.driver|diff\.external|"
    r"diff\..*\.(command|textconv)|core\.(fsmonitor|sshcommand|gitproxy|alternaterefscommand)|extensions\.partialclone|"
    r"uploadpack\.packobjectshook"
)


TRUE = ("true", "yes", "on", "1")


@dataclass(frozen=True)
class Finding:
    """What was found, and what to do about it. If the main branch isn't guarded with it, the host doesn't start."""

    said: str
    is_grave: bool = False


def findings(places: Places, settings: Settings) -> List[Finding]:
    """All that was found in a repository. What can't be looked at is found as such."""
    try:
        return all_findings(places, settings)
    except OSError as fault:
        return [Finding(f"something in {places.repository} can't be looked at: {fault}", True)]


def all_findings(places: Places, settings: Settings) -> List[Finding]:
    given = settings_of_git(places.repository)
    return [
        *kind_of_repository(places.repository, given), *hooks_of(places.repository, given), *names_of_main(places, settings),
        *names_in_the_way(places, settings), *what_git_reads_besides(places.repository, given), *links_in(places.repository),
    ]


def must_be_guarded(found: List[Finding]) -> None:
    grave = [finding.said for finding in found if finding.is_grave]
    if grave:
        raise Trouble("; ".join(grave))


def settings_of_git(repository: Path) -> Dict[str, str]:
    """The settings of the repository itself, which count for all who push to it."""
    given = settings_in_file(repository / "config")
    if given.get("extensions.worktreeconfig", "").lower() == "true":
        given.update(settings_in_file(repository / "config.worktree"))
    return given


def kind_of_repository(repository: Path, given: Mapping[str, str]) -> Iterator[Finding]:
    if not (repository / "HEAD").is_file() or not (repository / "objects").is_dir() or given.get("core.bare", "").lower() not in TRUE:
        yield Finding(f"{repository} is no bare repository of git", True)
    if given.get("extensions.objectformat", "sha1") != "sha1":
        yield Finding(f"{repository} has names of commits that the bot doesn't take; they have to be SHA-1", True)
    if given.get("extensions.refstorage", "files") != "files":
        yield Finding(f"{repository} keeps its branches in another way than in files, which the host can't read", True)
    if os.path.lexists(repository / "shallow"):
        yield Finding(f"{repository} is shallow: it lacks the history. git fetch --unshallow brings it", True)
    if os.path.lexists(repository / "commondir"):
        yield Finding(f"{repository}/commondir has git read branches, settings and hooks of another repository; remove it", True)
    conditions = sorted(name for name in given if name.startswith("includeif."))
    if conditions:
        yield Finding(f"{repository}/config has settings that count only at times, as {conditions[0]}; remove them", True)


def hooks_of(repository: Path, given: Mapping[str, str]) -> Iterator[Finding]:
    """The hook is what keeps pushes from the main branch, so git has to run it."""
    folder = repository / "hooks"
    elsewhere = given.get("core.hookspath")
    if elsewhere is not None and (repository / os.path.expanduser(elsewhere)).resolve() != folder.resolve():
        yield Finding(f"core.hooksPath in {repository}/config has git run the hooks in {elsewhere}; remove that setting", True)
    path = folder / "pre-receive"
    try:
        text, mode, user = path.read_text(encoding="utf-8", errors="replace"), path.stat().st_mode, path.stat().st_uid
    except OSError:
        yield Finding(f"the hook {path} isn't there; gate-host init {repository} makes it", True)
        return
    if not is_hook(text):
        yield Finding(f"the hook {path} doesn't run gate-host; gate-host init {repository} says what it needs", True)
    if mode & 0o111 != 0o111 or not os.access(path, os.X_OK):
        yield Finding(f"the hook {path} can't be executed by all; chmod a+rx it", True)
    if (mode | folder.stat().st_mode) & 0o022 or not {user, folder.stat().st_uid} <= {0, repository.stat().st_uid}:
        yield Finding(f"others may write the hook {path}; gate-host init {repository} mends that", True)


def names_of_main(places: Places, settings: Settings) -> Iterator[Finding]:
    """Whoever pushes to another name of a branch moves that branch, and the hook is told the other name."""
    guarded = {BRANCHES + name for name in (settings.main, settings.staging, settings.trying)}
    _, head = pointed_to(places.repository, "HEAD")
    if head != BRANCHES + settings.main:
        yield Finding(f"HEAD names {head}, so clones begin with that; the host guards {settings.main}")
    for name, target in sorted(other_names(places.repository).items()):
        is_grave = name in guarded or target in guarded
        remedy = f"git -C {places.repository} symbolic-ref --delete {name}"
        yield Finding(f"{name} is another name of {target}, so a push to it moves that; {remedy} takes it away", is_grave)


def other_names(repository: Path) -> Dict[str, str]:
    """Each reference that is only another name of one. Such names are never packed."""
    found = {}
    for folder, _, files in os.walk(repository / "refs"):
        for file in files:
            name = str(Path(folder, file).relative_to(repository))
            target = pointed_to(repository, name)[1]
            if target != name:
                found[name] = target
    return found


def blocking(branches: Mapping[str, Branch], branch: str) -> List[str]:
    """The branches because of which git can't make this one: its name is a folder of theirs, or theirs is one of its name."""
    return sorted(name for name in branches if name.startswith(f"{branch}/") or branch.startswith(f"{name}/"))


def names_in_the_way(places: Places, settings: Settings) -> Iterator[Finding]:
    names = {name: Branch("", "") for name in names_of_branches(places.repository)}
    for branch in (settings.main, settings.staging, settings.trying, "change/1"):
        for name in blocking(names, BRANCHES + branch):
            yield Finding(f"{name} is in the way of the branch {branch}, which git can't make beside it; rename it")


def names_of_branches(repository: Path) -> List[str]:
    """The names of all branches, by the files of git."""
    found = {str(Path(folder, file).relative_to(repository)) for folder, _, files in os.walk(repository / "refs/heads") for file in files}
    try:
        with open(repository / "packed-refs", encoding="utf-8", errors="replace", newline="\n") as lines:
            found.update(line[41:].rstrip("\n") for line in lines if line[40:].startswith(f" {BRANCHES}"))
    except OSError:
        pass
    return sorted(name for name in found if not name.endswith(".lock"))


def what_git_reads_besides(repository: Path, given: Mapping[str, str]) -> Iterator[Finding]:
    """What has git read other objects than those that are named. The host and its checks read none of it but alternates, which the owner
    alone may set; others who work there may."""
    replaced = repository / "refs/replace"
    packed = (repository / "packed-refs").read_text(encoding="utf-8", errors="replace") if (repository / "packed-refs").is_file() else ""
    if (replaced.is_dir() and any(replaced.iterdir())) or " refs/replace/" in packed:
        yield Finding(f"{replaced} has objects that stand for others: with them git shows other commits than those that are tested")
    if os.path.lexists(repository / "info/grafts"):
        yield Finding(f"{repository}/info/grafts has git show other parents of commits than they have")
    if os.path.lexists(repository / "objects/info/alternates"):
        yield Finding(f"{repository}/objects/info/alternates has git read objects from elsewhere; if they go, commits are lost")
    if os.path.lexists(repository / "info/attributes"):
        yield Finding(f"{repository}/info/attributes counts for git there, and not for the merges and checks of the host")
    named = sorted(filter(COMMANDS.fullmatch, given))
    if named:
        yield Finding(f"{repository}/config names commands or other places of objects, which the host doesn't obey: {', '.join(named)}")


def links_in(repository: Path) -> Iterator[Finding]:
    """A symbolic link in the place of a folder has git write elsewhere."""
    for name in ("refs", "refs/heads", "objects", "objects/pack", "logs", "hooks", "packed-refs"):
        if (repository / name).is_symlink():
            yield Finding(f"{repository / name} is a symbolic link; what git writes there goes to {os.readlink(repository / name)}")
