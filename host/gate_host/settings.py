"""The settings of the host and the roles of people: two files that only the owner of the repository may write."""
import configparser
import os
import re
from dataclasses import dataclass
from pathlib import Path
from typing import Dict, FrozenSet, List, Mapping, Tuple

from .core.notes import is_name_of_status
from .faults import Trouble
from .places import person, trusted_text

ROLES = ("member", "reviewer", "nobody")
KEYS = {
    "main", "program", "tick_seconds", "look_seconds", "check_seconds", "retry_seconds", "parallel", "may_push", "staging", "trying",
    "sandbox", "sandbox_network", "sandbox_reads", "sandbox_writes", "after_landing", "delete_branches", "on_event",
    "retest_base",
}

# Names that git takes for branches, without those that its commands read in another way.
BRANCH = re.compile(r"(?!.*(\.\.|//|\.lock/|@\{))[A-Za-z0-9_][A-Za-z0-9_./+@-]*(?<![./])(?<!\.lock)")

# What the first settings of each host have in common.
FIRST_OF_ALL = """\
# The branches on which the host puts what is tested: for landings, and for tries. They are the host's alone.
staging = {staging}
trying = {trying}

# The built program of the bot. Another one counts when the bot is started.
program = {program}

# How often the bot is told the time while something waits. Changes that are approved meanwhile are tested together.
tick_seconds = 10
"""

FIRST_SETTINGS = """\
# The settings of gate-host. Nobody but the owner of the repository may write this file. The host reads it again when it has changed.

[host]
# The branch that is guarded. Its bors.toml says which checks have to succeed. If it becomes another one, start the host again: the hook
# guards that one from then on, and the host lands on this one until it is started.
main = {main}

""" + FIRST_OF_ALL + """
# How often the host looks at the branches, if no hook calls it before.
look_seconds = 1

# How long a check may take.
check_seconds = 3600

# How long the host waits before it runs a check again that came to no verdict by a fault of the host: it was killed, its clone or its
# sandbox couldn't be made, or the disk is full. Each pause is twice as long as the one before, up to a minute. A check that was tried five
# times fails with the reason; but while the disk is full it goes on being tried.
retry_seconds = 5

# Whether the checks of one commit run side by side: yes or no. Then each has a clone of its own, and finds nothing that another one made.
parallel = no

# Who may push to the main branch past the queue: names with spaces between them.
may_push = {may_push}

# Whether checks run in a sandbox of bubblewrap: `auto` if it is there, `required`, or `off`. Within, a check sees the programs of the
# system, its own clone and /tmp, and nothing else; what it starts ends with it.
sandbox = auto

# Whether checks in the sandbox reach the network: yes or no.
sandbox_network = no

# What else they may read, and what they may write: paths with spaces between them.
sandbox_reads =
sandbox_writes =

# A command that runs in the repository after each landing, as git runs the hook post-receive: on its standard input stand the commit of
# before, the one of now, and the name of the branch. It runs as the owner, outside of the sandbox. It may be the hook itself.
#after_landing = hooks/post-receive

# A command that is told on its standard input of notices, landings and failures, each as one line of JSON. It runs as the owner, outside of
# the sandbox, beside the host. If it fails, it is told the same lines again later.
#on_event = /usr/local/bin/tell-the-team

# Whether a check that fails a batch of one change runs on the main branch alone, before the change is blamed: yes or no.
retest_base = no

# Whether the branch of a change is deleted when it has landed: yes or no.
delete_branches = no

# Each check is a command, by the name that bors.toml has under `status`. The shell runs it in a clone of the commit that is tested.
# They run as the owner of the repository, and one after the other in the same clone, unless `parallel` is yes.
[checks]
{checks}"""

FIRST_REPORTERS = """\
# Who reports which status, for those that no command of the settings tests. Nobody but the owner of the repository may write this file. On
# each line stand the name of a person and the name of a status, as bors.toml has it under `status`. Several may report the same one.
{lines}"""

FIRST_ROLES = """\
# Who may do what. Nobody but the owner of the repository may write this file. On each line stand a name and `reviewer` or `member`:
# a reviewer approves changes, and a member has them tried.
{lines}"""


@dataclass(frozen=True)
class Settings:
    """What the file of settings says."""

    main: str
    program: str
    tick_seconds: float
    look_seconds: float
    check_seconds: float
    # How long the first pause is before a check is run again that came to no verdict, and whether checks run side by side.
    retry_seconds: float
    parallel: bool
    may_push: FrozenSet[str]
    staging: str
    trying: str
    # `auto`, `required` or `off`; and what a check in the sandbox may reach.
    sandbox: str
    sandbox_network: bool
    sandbox_reads: Tuple[str, ...]
    sandbox_writes: Tuple[str, ...]
    # What runs after a landing, and what is told of events, if anything is; and whether the branches of what has landed are deleted.
    after_landing: str
    on_event: str
    delete_branches: bool
    # Whether the base alone is tested before a change that failed alone is blamed.
    retest_base: bool
    # The command of each check, by its name, in the order of the file.
    checks: Dict[str, str]


def seconds_in(table: Mapping[str, str], key: str, usual: str) -> float:
    try:
        seconds = float(table.get(key, usual))
    except ValueError as fault:
        raise Trouble(f"settings: {key} isn't a number") from fault
    if not 0 < seconds < 10_000_000:
        raise Trouble(f"settings: {key} has to be more than 0")
    return seconds


def word_in(table: Mapping[str, str], key: str, words: Tuple[str, ...]) -> str:
    """One of some words, of which the first is the usual one."""
    word = table.get(key, words[0])
    if word not in words:
        raise Trouble(f"settings: {key} has to be {' or '.join(words)}")
    return word


def branches_in(table: Mapping[str, str]) -> Tuple[str, str, str]:
    """The names of the three branches, which differ, and of which none is a folder of another or of the changes."""
    names = (table["main"], table.get("staging", "staging"), table.get("trying", "trying"))
    folders = [f"{name}/" for name in (*names, "change")]
    if len(set(names)) < 3 or any(f"{name}/".startswith(folder) and name + "/" != folder for name in names for folder in folders):
        raise Trouble("settings: main, staging and trying have to be three branches, none of them in the way of another or of change/1")
    if "change" in names or not all(BRANCH.fullmatch(name) for name in names):
        raise Trouble("settings: main, staging and trying have to be names of branches")
    return names


def paths_in(table: Mapping[str, str], key: str) -> Tuple[str, ...]:
    paths = tuple(table.get(key, "").split())
    for path in paths:
        if not path.startswith("/"):
            raise Trouble(f"settings: {key} has paths that begin with /, and not {path}")
    return paths


class Reader(configparser.ConfigParser):
    """A reader of settings. Names of checks are compared as they stand."""

    def optionxform(self, optionstr: str) -> str:
        return optionstr


def settings_in(text: str) -> Settings:
    """Reads the text of a file of settings."""
    parser = Reader(delimiters=("=",), interpolation=None, empty_lines_in_values=False)
    try:
        parser.read_string(text)
    except configparser.Error as fault:
        raise Trouble(f"settings: {fault}") from fault
    if not parser.has_section("host"):
        raise Trouble("settings: there is no part [host]")
    host = parser["host"]
    for key in host:
        if key not in KEYS:
            raise Trouble(f"settings: {key} is no setting")
    checks = dict(parser["checks"]) if parser.has_section("checks") else {}
    for name, command in checks.items():
        if not command.strip() or len(name.encode()) > 255 or not name.isprintable():
            raise Trouble(f"settings: the check {name!r} has no command, or no name that the bot takes")
    if not host.get("main") or not host.get("program"):
        raise Trouble("settings: main and program are needed")
    main, staging, trying = branches_in(host)
    return Settings(
        main=main, program=host["program"], tick_seconds=seconds_in(host, "tick_seconds", "10"),
        look_seconds=seconds_in(host, "look_seconds", "1"), check_seconds=seconds_in(host, "check_seconds", "3600"),
        retry_seconds=seconds_in(host, "retry_seconds", "5"), parallel=word_in(host, "parallel", ("no", "yes")) == "yes",
        may_push=frozenset(name.lower() for name in host.get("may_push", "").split()), staging=staging,
        trying=trying, sandbox=word_in(host, "sandbox", ("auto", "required", "off")),
        sandbox_network=word_in(host, "sandbox_network", ("no", "yes")) == "yes", sandbox_reads=paths_in(host, "sandbox_reads"),
        sandbox_writes=paths_in(host, "sandbox_writes"), after_landing=host.get("after_landing", "").strip(),
        on_event=host.get("on_event", "").strip(), retest_base=word_in(host, "retest_base", ("no", "yes")) == "yes",
        delete_branches=word_in(host, "delete_branches", ("no", "yes")) == "yes", checks=checks,
    )


def read_settings(path: Path, owner: int) -> Settings:
    return settings_in(trusted_text(path, owner))


def roles_in(text: str) -> Dict[str, str]:
    """The role of each person whom the text of a file of roles names."""
    roles: Dict[str, str] = {}
    for number, line in enumerate(text.splitlines(), 1):
        words = line.partition("#")[0].split()
        if not words:
            continue
        name = person(words[0].lstrip("@"))
        if len(words) != 2 or name is None or words[1] not in ROLES:
            raise Trouble(f"roles: line {number} isn't a name and `reviewer`, `member` or `nobody`")
        roles[name] = words[1]
    return roles


def read_roles(path: Path, owner: int) -> Dict[str, str]:
    return roles_in(trusted_text(path, owner))


def reporters_in(text: str) -> Dict[str, FrozenSet[str]]:
    """Who reports each status, by the text of a file of reporters."""
    found: Dict[str, List[str]] = {}
    for number, line in enumerate(text.splitlines(), 1):
        name, *status = line.split(None, 1)[:2] or [""]
        if not name or name.startswith("#"):
            continue
        who = person(name.lstrip("@"))
        if who is None or not status or not is_name_of_status(status[0].strip()):
            raise Trouble(f"reporters: line {number} isn't the name of a person and that of a status")
        found.setdefault(status[0].strip(), []).append(who)
    return {status: frozenset(people) for status, people in found.items()}


def read_reporters(path: Path, owner: int) -> Dict[str, FrozenSet[str]]:
    """Who reports each status. Without the file nobody does."""
    return reporters_in(trusted_text(path, owner)) if os.path.lexists(path) else {}
