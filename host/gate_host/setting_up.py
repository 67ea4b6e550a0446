"""How a bare repository is set up: its settings and roles, its folders, its hook, and the settings of the bot on its main branch."""
import argparse
import os
import shlex
import stat
from contextlib import closing
from pathlib import Path
from typing import List, Optional, Set

from .git import ask_git
from .hook_file import MARK, SCRIPT, hook_command, hook_text, is_for_all, is_present, python_for_all, words_of_init
from .inspection import findings, kind_of_repository, must_be_guarded, names_of_branches, settings_of_git
from .journal import Journal
from .core.notes import PushLeft
from .core.words import MOST_IN_SETTINGS
from .faults import Trouble
from .troubles import complain
from .places import Places, is_open_to_others, make_identity, must_be_safe, name_of_user, person, pointed_to
from .release import PROGRAM, command_of
from .repository import BRANCHES, Repository
from .settings import (
    FIRST_REPORTERS, FIRST_ROLES, FIRST_SETTINGS, Settings, read_reporters, read_roles, read_settings, reporters_in, roles_in, settings_in,
)
from .spool import leave


def set_up(repository: Path, arguments: argparse.Namespace) -> None:
    """Sets a repository up, or adds what is named to one that is set up."""
    must_be_own(repository)
    must_be_guarded(list(kind_of_repository(repository, settings_of_git(repository))))
    places = Places(repository)
    is_new = not places.settings.exists()
    settings = first_settings(arguments, repository) if is_new else with_checks(places, arguments)
    roles = first_roles(arguments) if is_new or not places.roles.exists() else with_people(places, arguments)
    kept = settings_in(settings)
    must_be_free(places, kept, arguments.take)
    close_to_others(repository)
    make_folders(places)
    make_identity(places)
    for path, text in ((places.settings, settings), (places.roles, roles), (places.reporters, reporters_of(places, arguments))):
        replace(path, text, 0o644)
    must_be_safe(places)
    write_hook(repository)
    found = findings(places, kept)
    must_be_guarded(found)
    for finding in found:
        complain(finding.said)
    print(f"{repository} is set up. Its checks are: {', '.join(kept.checks) or 'none yet; write them down in ' + str(places.settings)}.")
    guarded = Repository(places, kept.main, kept.staging, kept.trying)
    give_other_names(guarded, places, kept)
    add_settings_of_bot(guarded, places, kept)
    tell_what_is_missing(kept)
    print(f"To begin: {command_of()} run {shlex.quote(str(repository))}")


def must_be_own(repository: Path) -> None:
    if not repository.is_dir():
        remedy = f"git init --bare --initial-branch=main {shlex.quote(str(repository))}"
        raise Trouble(f"{repository} is no bare repository of git; {remedy} makes one")
    if repository.stat().st_uid != os.geteuid():
        raise Trouble(f"{repository} isn't yours; the host runs as the owner of the repository")
    if name_of_user(os.geteuid()) is None:
        raise Trouble("your user has no name that the bot takes")


def replace(path: Path, text: str, mode: int) -> None:
    """Puts a text in place of a file at once, unless it has this text."""
    if path.exists() and path.read_text(encoding="utf-8") == text:
        return
    part = path.with_name(f".{path.name}")
    part.write_text(text, encoding="utf-8")
    part.chmod(mode)
    os.replace(part, path)


# Settings and roles


def branch_to_guard(repository: Path, named: Optional[str]) -> str:
    """The branch of HEAD, unless another one is named. One that isn't there is guarded only if there is none at all."""
    _, head = pointed_to(repository, "HEAD")
    branch = named or (head[len(BRANCHES):] if head.startswith(BRANCHES) else "main")
    there = [name[len(BRANCHES):] for name in names_of_branches(repository)]
    if there and branch not in there:
        raise Trouble(f"HEAD names the branch {branch}, which isn't there; name the one to guard by --main: {', '.join(there)}")
    return branch


def lines_of_checks(arguments: argparse.Namespace) -> List[str]:
    """A line of settings for each check that is named."""
    checks = [check.partition("=") for check in arguments.check]
    for name, equals, command in checks:
        if not name.strip() or not equals or not command.strip() or "\n" in name + command:
            raise Trouble(f"--check takes NAME=COMMAND on one line, and not {name}{equals}{command}")
    return [f"{name.strip()} = {command.strip()}\n" for name, _, command in checks]


def first_settings(arguments: argparse.Namespace, repository: Path) -> str:
    text = FIRST_SETTINGS.format(
        main=branch_to_guard(repository, arguments.main), staging=arguments.staging or "staging", trying=arguments.trying or "trying",
        program=Path(arguments.program or PROGRAM).resolve(), may_push=" ".join(arguments.may_push),
        checks="".join(lines_of_checks(arguments)),
    )
    settings_in(text)
    return text


def with_checks(places: Places, arguments: argparse.Namespace) -> str:
    """The settings that are there, with the checks that are named."""
    if arguments.program or arguments.main or arguments.staging or arguments.trying or arguments.may_push:
        raise Trouble(f"the repository is set up already; change its settings in {places.settings}")
    kept = read_settings(places.settings, os.geteuid())
    text = places.settings.read_text(encoding="utf-8")
    new = []
    for line in lines_of_checks(arguments):
        name, _, command = line.rstrip("\n").partition(" = ")
        if kept.checks.get(name, command) != command:
            raise Trouble(f"the check {name} is there with another command; change it in {places.settings}")
        if name not in kept.checks:
            new.append(line)
    if not new:
        return text
    before, heading, after = text.partition("\n[checks]\n")
    text = f"{before}\n[checks]\n{after}{'' if not after or after.endswith(chr(10)) else chr(10)}{''.join(new)}"
    if not heading:
        text = f"{before.rstrip()}\n\n[checks]\n{''.join(new)}"
    settings_in(text)
    return text


def first_roles(arguments: argparse.Namespace) -> str:
    reviewers = arguments.reviewer or [name_of_user(os.geteuid())]
    return with_lines(FIRST_ROLES.format(lines=""), reviewers, arguments.member)


def with_people(places: Places, arguments: argparse.Namespace) -> str:
    """The roles that are there, with the people who are named. The last line about somebody counts."""
    kept = read_roles(places.roles, os.geteuid())
    reviewers = [name for name in arguments.reviewer if kept.get(person(name) or name) != "reviewer"]
    members = [name for name in arguments.member if kept.get(person(name) or name) != "member"]
    return with_lines(places.roles.read_text(encoding="utf-8"), reviewers, members)


def reporters_of(places: Places, arguments: argparse.Namespace) -> str:
    """The reporters that are there, with those who are named."""
    kept = read_reporters(places.reporters, os.geteuid())
    text = places.reporters.read_text(encoding="utf-8") if places.reporters.exists() else FIRST_REPORTERS.format(lines="")
    for named in arguments.reporter:
        name, equals, status = named.partition("=")
        if not name.strip() or not equals or not status.strip() or "\n" in named:
            raise Trouble(f"--reporter takes NAME=STATUS, and not {named}")
        if (person(name.strip().lstrip("@")) or name) not in kept.get(status.strip(), ()):
            text = f"{text}{'' if text.endswith(chr(10)) else chr(10)}{name.strip()} {status.strip()}\n"
    reporters_in(text)
    return text


def with_lines(text: str, reviewers: List[str], members: List[str]) -> str:
    lines = [f"{name} reviewer\n" for name in reviewers] + [f"{name} member\n" for name in members]
    text = f"{text}{'' if text.endswith(chr(10)) else chr(10)}{''.join(lines)}"
    roles_in(text)
    return text


# Folders, hook and branches


def close_to_others(repository: Path) -> None:
    """In a repository that others may write, nobody else may exchange the folders of the owner, or write the hooks. Then git can't put
    branches together in one file there, which it would replace."""
    for path in (repository, repository / "objects"):
        if is_open_to_others(path):
            change_mode(path, stat.S_IMODE(path.stat().st_mode) | stat.S_ISVTX)
            ask_git(None, "config", "--file", str(repository / "config"), "gc.packRefs", "false")
    for name in ("hooks", "objects/info"):
        (repository / name).mkdir(exist_ok=True)
    for name in ("hooks", "hooks/pre-receive", "objects/info"):
        path = repository / name
        if path.exists() and is_open_to_others(path):
            change_mode(path, stat.S_IMODE(path.stat().st_mode) & ~0o022)


def change_mode(path: Path, mode: int) -> None:
    try:
        path.chmod(mode)
    except PermissionError:
        raise Trouble(f"{path} has to have the mode {mode:o}, and belongs to user {path.stat().st_uid}, who has to change that") from None


def make_folders(places: Places) -> None:
    """Makes the folders. In the spool everybody may leave a file, and nobody but the owner sees which are there."""
    modes = [(places.folder, 0o755), (places.records, 0o700), (places.reports, 0o755), (places.outputs, 0o755), (places.spool, 0o1733)]
    for folder, mode in modes:
        folder.mkdir(exist_ok=True)
        folder.chmod(mode)
    places.clones.mkdir(exist_ok=True)


def write_hook(repository: Path) -> None:
    """Writes the hook, which git runs in the repository. Another one that is there isn't replaced."""
    path = repository / "hooks/pre-receive"
    command = f"{shlex.quote(python_for_all())} {hook_command()} --repository ."
    found = path.read_text(encoding="utf-8", errors="replace") if path.exists() else None
    if found and MARK not in found and hook_command() not in found:
        raise Trouble(f"{path} is there already; have it run this, with its input and its status, and init again: {command}")
    if found and MARK in found and words_of_init(found) is None:
        raise Trouble(f"{path} has more than what init wrote; to keep it as a hook of your own, take out the line {MARK!r}")
    if found is None or MARK in found:
        path.parent.mkdir(exist_ok=True)
        replace(path, hook_text(python_for_all()), 0o755)
        if stat.S_IMODE(path.stat().st_mode) != 0o755:
            change_mode(path, 0o755)


def mend_hook(repository: Path) -> None:
    """Writes the hook anew if it is that of `init` and runs a host or a Python that isn't this one any more."""
    path = repository / "hooks/pre-receive"
    found = path.read_text(encoding="utf-8", errors="replace") if path.exists() else ""
    words = words_of_init(found)
    if words and (words[1] != str(SCRIPT) or not os.access(words[0], os.X_OK) or not is_present(found)):
        write_hook(repository)
        complain(f"the hook runs {SCRIPT} from now on; before it ran {words[1]} by {words[0]}")


def others_branches(places: Places, settings: Settings) -> List[str]:
    """The branches with the names of the host's on which somebody else has put something."""
    found = []
    made = commits_made(places)
    for name in (settings.staging, settings.trying):
        commit, _ = pointed_to(places.repository, BRANCHES + name)
        if commit and commit not in made:
            found.append(name)
    return found


def commits_made(places: Places) -> Set[str]:
    """The commits that the host has made."""
    path = places.records / "journal.db"
    if not path.exists():
        return set()
    with closing(Journal(path, is_hosts=False)) as journal:
        return journal.known().made


def must_be_free(places: Places, settings: Settings, is_taken: bool) -> None:
    """The host overwrites its branches, so nobody else's may stand there."""
    others = others_branches(places, settings)
    if others and not is_taken:
        raise Trouble(
            f"there is a branch {' and a branch '.join(others)}, which the host would overwrite. Name others by --staging and --trying, or "
            f"say --take: then what is there gets another name"
        )


def give_other_names(guarded: Repository, places: Places, settings: Settings) -> None:
    """Gives what stands on the branches of the host other names."""
    for name in others_branches(places, settings):
        there = guarded.branches()
        names = [f"{name}-before-gate", *(f"{name}-before-gate-{number}" for number in range(2, len(there) + 3))]
        new = next(it for it in names if BRANCHES + it not in there)
        guarded.rename(BRANCHES + name, BRANCHES + new)
        print(f"The branch {name} is called {new} now.")


# What the team gets


def add_settings_of_bot(guarded: Repository, places: Places, settings: Settings) -> None:
    """Adds bors.toml to the main branch, unless it has one: from now on nothing gets there without. A host that runs is told of it."""
    commit = guarded.branches().get(guarded.main)
    if commit:
        guarded.must_have("main", commit)
    if commit and guarded.text_at(commit, "bors.toml", MOST_IN_SETTINGS) is not None:
        print(f"The branch {settings.main} has its bors.toml already. What it names under status has to be a check.")
    elif not settings.checks:
        print(f"The branch {settings.main} has no bors.toml. With a check, init again adds it.")
    else:
        text = f"# Each of these has to succeed before something lands.\nstatus = [{', '.join(quoted(name) for name in settings.checks)}]\n"
        made = guarded.commit_with("bors.toml", text, commit)
        leave(places, PushLeft(name_of_user(os.geteuid()), moves=((commit, made),) if commit else ()))
        if commit is None:
            # Before the branch is there: nobody may push in its place if this can't be told.
            replace(places.first, f"{made}\n", 0o644)
        guarded.move_main(made, commit)
        print(f"A commit adds bors.toml, which names them, to the branch {settings.main}.")
        if commit is None:
            print(
                f"It is the only one there. If you have a history already, a reviewer may push it in the place of that, before anything "
                f"lands, and best with a bors.toml: git push --force {shlex.quote(str(places.repository))} {settings.main}"
            )


def quoted(name: str) -> str:
    """A name of a check as a text of TOML."""
    return '"' + name.replace("\\", "\\\\").replace('"', '\\"') + '"'


def tell_what_is_missing(settings: Settings) -> None:
    """Says what the host can't do without, or others can't."""
    if not os.access(settings.program, os.X_OK):
        complain(f"there is no program of the bot at {settings.program} yet, and the host doesn't start without; build it, or name another")
    for path in (SCRIPT, Path(python_for_all())):
        if not is_for_all(path):
            complain(f"not everybody can run {path}, and the hook needs that of whoever pushes; put a copy where all can read it")
