"""The command line of gate-host."""
import argparse
import json
import os
import re
import sqlite3
import sys
from pathlib import Path
from typing import Dict, List, Mapping, NoReturn, Optional

from . import VERSION, ssh_command
from .audit.audit import audit
from .bare import run_host
from .doctor import checks_of, release_checked, stray_named
from .explaining.asking import explain
from .git import GitFailed
from .github import starting
from .github.doctor import checks_on_github
from .github.settings import read_github
from .hook import before_push
from .core.commands import command_lines
from .core.notes import (
    LAST_CHANGE, MOST_IN_COMMENT, MOST_IN_DESCRIPTION, STATES, AcceptanceLeft, CommentLeft, FreezeLeft, ReportLeft, ThawLeft, is_commit,
    is_description, is_name_of_status, is_reason,
)
from .core.orders import Json, Unread, table_in
from .core.words import plain
from .locks import is_locked
from .troubles import complain
from .faults import Trouble
from .places import Places, asked_of_git, find_places, must_be_safe, name_of_user, person_here, pointed_to
from .release import PROGRAM
from .settings import read_reporters, read_roles, read_settings
from .setting_up import must_be_own, set_up
from .showing.documents import json_of, log_document
from .showing.logs import NoLog, entries_in
from .spool import leave
from .supposing.asking import suppose

OUTPUT = re.compile(r"    output: ([0-9]+-[0-9]+-[A-Za-z0-9._-]+)")
# A shorter beginning of the name of a commit says too little.
SHORTEST_NAME = 7

EXPLAINED = """\
Guards the main branch of a bare git repository on this machine: nothing lands on it that wasn't approved and tested as it lands.

  gate-host init project.git --check build='make test'
  gate-host run project.git
  gate-host say 1 'bors r+'
  gate-host log 1

A change is a branch change/NUMBER, which anybody pushes who may push. A person is a user of this system. A reviewer approves a change
by `gate-host say`, in a clone or with --repository. The file bors.toml of the main branch says which checks have to succeed, as in
status = ["build"], and the file gate/settings of the repository which command each check is. The file gate/roles says who is a reviewer."""


def arguments_of(words: List[str]) -> argparse.Namespace:
    """Reads the arguments. argparse ends with status 2 if they are wrong."""
    shape = argparse.RawDescriptionHelpFormatter
    parser = argparse.ArgumentParser(prog="gate-host", description=EXPLAINED, formatter_class=shape)
    parser.add_argument("--version", action="version", version=f"gate-host {VERSION}")
    jobs = parser.add_subparsers(dest="job", required=True, metavar="COMMAND")
    add_jobs_of_owner(jobs)
    add_jobs_of_people(jobs)
    return parser.parse_args(words)


def add_jobs_of_owner(jobs: "argparse._SubParsersAction[argparse.ArgumentParser]") -> None:
    job = jobs.add_parser("init", help="set a bare repository up: settings, roles, hook", description=(
        "Makes the folder gate in a bare repository that is yours, and its hook. If they are there, it adds the checks and people that are "
        "named, and leaves the rest as it is. If the main branch has no bors.toml, a commit adds one that names the checks."))
    job.add_argument("repository", metavar="REPOSITORY")
    job.add_argument("--program", help=f"the built program of the bot (usually {PROGRAM})")
    job.add_argument("--check", action="append", default=[], metavar="NAME=COMMAND", help="a check; may be given several times")
    job.add_argument("--reviewer", action="append", default=[], metavar="NAME", help="a reviewer; without any, you are the one")
    job.add_argument("--member", action="append", default=[], metavar="NAME", help="who may have changes tried")
    job.add_argument("--reporter", action="append", default=[], metavar="NAME=STATUS", help="who reports a status that isn't tested here")
    job.add_argument("--may-push", action="append", default=[], metavar="NAME", help="who may push to the main branch past the queue")
    job.add_argument("--main", metavar="BRANCH", help="the branch to guard (usually that of HEAD)")
    job.add_argument("--staging", metavar="BRANCH", help="where the host puts what is tested for landings (usually staging)")
    job.add_argument("--trying", metavar="BRANCH", help="where the host puts what is tested for tries (usually trying)")
    job.add_argument("--github", metavar="OWNER/REPOSITORY", help="the repository is on GitHub, and REPOSITORY a new folder for its host")
    job.add_argument("--app", metavar="NUMBER", help="the number of the app as which GitHub knows the host; without it, it has a token")
    job.add_argument("--web", metavar="URL", help="the address of a GitHub that isn't github.com")
    job.add_argument("--take", action="store_true", help="take the branches staging and trying, and give those that are there other names")

    job = jobs.add_parser("run", help="guard a repository until a signal ends it", description=(
        "Starts the bot and guards the repository. SIGTERM ends it in order; killed in any other way, it goes on at the next start."))
    job.add_argument("repository", metavar="REPOSITORY")
    job.add_argument("--again", action="store_true", help="hand the whole journal in again, whatever the bot's file has")

    job = jobs.add_parser("receive", help="take the webhooks of GitHub", description=(
        "Takes webhooks at an address of this machine, and leaves them for the host. It is a process of its own, with nothing but the "
        "secret of the webhook."))
    job.add_argument("repository", metavar="REPOSITORY")

    job = jobs.add_parser("doctor", help="say what is right with a repository and its host, and what to do", description=(
        "Looks at all that the promise of the host rests on: the hook, the branches, what git reads, the records, the sandbox; on GitHub "
        "the credentials, permissions, events, webhooks, rules of branches and clocks. The status is 1 if something isn't right."))
    job.add_argument("repository", metavar="REPOSITORY")
    job.add_argument("--accept", metavar="COMMIT", help="a move of the main branch to this commit was right after all")

    add_audit(jobs)
    job = jobs.add_parser("ssh", help="what sshd runs for a person", description=(
        "Runs what a person asks for by ssh: git, and what people use of this program. It is the command in authorized_keys."))
    job.add_argument("person", metavar="PERSON")
    job.add_argument("repository", nargs="+", metavar="REPOSITORY")


def add_audit(jobs: "argparse._SubParsersAction[argparse.ArgumentParser]") -> None:
    job = jobs.add_parser("audit", help="check each step of the main branch, without trusting the host", description=(
        "Checks by a repository, a copy of the journal and the program of the bot that each step of the main branch is a merge that was "
        "ordered, tested and approved. Writes nothing there. The status is 1 if something isn't as it should be."))
    job.add_argument("repository", metavar="REPOSITORY")
    job.add_argument("--journal", metavar="FILE", help="a copy of journal.db, with its -wal beside it (usually that of the repository)")
    job.add_argument("--program", default=PROGRAM, help=f"the built program of the bot, of the host's version (usually {PROGRAM})")
    job.add_argument("--main", metavar="BRANCH", help="the main branch (usually that of gate/settings, or that of HEAD)")
    job.add_argument("--from", dest="start", metavar="COMMIT", help="look at the steps after this commit alone")
    job.add_argument("--allow", action="append", default=[], metavar="NAME", help="pushes past the queue by this person are no findings")
    job.add_argument("--json", action="store_true", help="print one document of JSON")


def add_jobs_of_people(jobs: "argparse._SubParsersAction[argparse.ArgumentParser]") -> None:
    def add(name: str, what: str, more: str) -> argparse.ArgumentParser:
        job: argparse.ArgumentParser = jobs.add_parser(name, help=what, description=more)
        job.add_argument("--repository", metavar="REPOSITORY", help="the bare repository; else it is the one of the folder you stand in")
        return job

    job = add("say", "comment on a change", (
        "Leaves a comment on a change: one or more lines, of which those that begin with bors are commands. In a clone it is about the "
        "change as you have last fetched it, and else about the change as it is."))
    job.add_argument("change", type=int, metavar="CHANGE")
    job.add_argument("text", metavar="TEXT", help="the comment, as in 'bors r+'; - reads it from standard input")
    job.add_argument("--head", metavar="COMMIT", help="the commit that you have looked at, or the beginning of its name")
    job = add("status", "report how a check of a commit stands", (
        "Reports a status of a commit, as a build engine does that tests what is staged. The file gate/reporters of the repository says "
        "who may report which one."))
    job.add_argument("commit", metavar="COMMIT", help="the commit, with its 40 digits")
    job.add_argument("name", metavar="NAME", help="the name of the status, as bors.toml has it")
    job.add_argument("state", choices=STATES, help="how it stands")
    job.add_argument("--description", default="", metavar="TEXT", help="more about it, as the address of the build")
    job = add("queue", "show the queue", "Shows the main branch, the batches that wait or run, and the open changes.")
    job.add_argument("--json", action="store_true", help="print one document of JSON")
    job = add("change", "show a change", "Shows a change as the bot has it.")
    job.add_argument("change", type=int, metavar="CHANGE")
    job.add_argument("--json", action="store_true", help="print one document of JSON")
    job = add("log", "show what people were told of a change", (
        "Shows what was said of a change, and the output of the last check of it that has failed."))
    job.add_argument("change", type=int, metavar="CHANGE")
    job.add_argument("--all", action="store_true", help="show the outputs of all its checks")
    job.add_argument("--json", action="store_true", help="print one document of JSON, which names the outputs and has none")
    job = add("explain", "say what stands between a change and the main branch", (
        "Says who could approve a change that isn't approved, what one that is approved waits for, and why it left the queue last: by the "
        "journal and the program of the bot, so for the owner of the repository, and for who asks by ssh."))
    job.add_argument("change", type=number_of_change, metavar="CHANGE")
    job.add_argument("--at", metavar="DELIVERY", help="say it for the moment after this delivery, by its identifier or number")
    job.add_argument("--json", action="store_true", help="print one document of JSON")
    add_what_if(add("what-if", "say what other settings would have done", (
        "Plays the journal once more with other settings in place of those that were taken, and says what would have differed: which "
        "changes land earlier, later or not, and how many batches and checks that takes. By the journal and the program of the bot, so for "
        "the owner of the repository, and for who asks by ssh.")))
    job = add("freeze", "stop staging and landing for a while", (
        "Freezes the queue: nothing new is staged and nothing lands until gate-host thaw. Approvals go on, and what is tested is tested to "
        "its end. Reviewers may do this, and the owner of the repository; on GitHub the owner of the host's folder alone."))
    job.add_argument("reason", metavar="REASON", help="why, in one line that everybody is shown")
    add("thaw", "let a frozen queue go on", (
        "Ends a freeze. What has succeeded meanwhile counts then, and the next batch is staged."))
    add("hook", "what git runs before a push", "Looks at a push, whose updates stand on standard input. Git runs this.")


def add_what_if(job: argparse.ArgumentParser) -> None:
    job.add_argument("--settings", required=True, metavar="FILE", help="a text as bors.toml; - reads it from standard input")
    job.add_argument("--since", metavar="DATE", help="tell what lands from this date on, as 2026-11-30T12:00, or from this delivery on")
    job.add_argument("--json", action="store_true", help="print one document of JSON")


def number_of_change(word: str) -> int:
    """The number of a change, for argparse, which tells of it if it is none."""
    if not (word.isascii() and word.isdigit()) or not 0 < int(word) <= LAST_CHANGE:
        raise argparse.ArgumentTypeError(f"{word!r} is no number of a change")
    return int(word)


def entry() -> NoReturn:
    """The program `gate-host`, if it is installed as a package."""
    sys.dont_write_bytecode = True
    sys.exit(main(sys.argv[1:]))


def main(words: List[str]) -> int:
    """Does what the arguments ask for, and gives the exit status."""
    arguments = arguments_of(words)
    try:
        return JOBS[arguments.job](arguments)
    except (Trouble, GitFailed) as trouble:
        complain(str(trouble))
    except BrokenPipeError:
        # Who reads the report has seen enough.
        os.dup2(os.open(os.devnull, os.O_WRONLY), sys.stdout.fileno())
    except (OSError, sqlite3.Error) as fault:
        complain(str(fault))
    return 1


# What the owner uses


def init(arguments: argparse.Namespace) -> int:
    os.umask(0o022)
    must_read_tables()
    if arguments.github:
        starting.set_up_github(Path(arguments.repository).resolve(), arguments)
    else:
        set_up(Path(arguments.repository).resolve(), arguments)
    return 0


def must_read_tables() -> None:
    """The tables of the bot are strict, and SQLite reads such tables from 3.37 on."""
    if sqlite3.sqlite_version_info < (3, 37):
        raise Trouble(f"SQLite 3.37 or later is needed, and this Python has {sqlite3.sqlite_version}")


def run(arguments: argparse.Namespace) -> int:
    os.umask(0o022)
    places = Places(Path(arguments.repository).resolve())
    must_be_own(places.repository)
    must_be_safe(places)
    must_read_tables()
    if os.geteuid() == 0:
        complain("this runs as root, and so does each check; better let a user of its own own the repository")
    github = read_github(places.settings, os.geteuid())
    if github:
        starting.run(places, github, arguments.again)
    else:
        run_host(places, arguments.again)
    return 0


def receive(arguments: argparse.Namespace) -> int:
    places = Places(Path(arguments.repository).resolve())
    must_be_own(places.repository)
    must_be_safe(places)
    github = read_github(places.settings, os.geteuid())
    if github is None:
        raise Trouble(f"{places.settings} says nothing of GitHub; gate-host init --github begins with that")
    starting.receive(places, github)
    return 0


def look_after(arguments: argparse.Namespace) -> int:
    """Says what is right and what isn't. The status is 1 if something isn't."""
    places = Places(Path(arguments.repository).resolve())
    must_be_own(places.repository)
    must_be_safe(places)
    github = read_github(places.settings, os.geteuid())
    if arguments.accept:
        commit = stray_named(places, arguments.accept)
        leave(places, AcceptanceLeft(name_of_user(os.geteuid()), commit))
        print(f"the host takes it that the move to {commit} was right" + ("" if is_running(places) else ", when it runs again"))
        return 0
    is_at_work = is_locked(places)
    checked = [release_checked(), *(checks_on_github(places, github, is_at_work) if github else checks_of(places, is_at_work))]
    for check in checked:
        print(check.line)
    return 0 if all(check.is_right for check in checked) else 1


def serve_by_ssh(arguments: argparse.Namespace) -> int:
    # They count as they are written: a repository may be asked for by the name of a link to it.
    repositories = [Path(it) for it in arguments.repository]
    return ssh_command.serve(arguments.person, repositories, os.environ.get("SSH_ORIGINAL_COMMAND", ""))


def look_at_push(arguments: argparse.Namespace) -> int:
    return before_push(find_places(arguments.repository))


# What people use


def say(arguments: argparse.Namespace) -> int:
    places = places_of_bare(arguments)
    text = sys.stdin.read() if arguments.text == "-" else arguments.text
    if len(text) > MOST_IN_COMMENT:
        raise Trouble(f"a comment has at most {MOST_IN_COMMENT} characters")
    who = person_here(places.owner)
    if who is None:
        raise Trouble("your user has no name that the bot takes")
    head, _ = pointed_to(places.repository, f"refs/heads/change/{arguments.change}")
    if head is None:
        raise Trouble(f"there is no branch change/{arguments.change}")
    fetched = head_in_clone(arguments, places)
    seen = arguments.head or fetched or head
    if not is_beginning(seen.lower(), head):
        raise Trouble(f"change/{arguments.change} is at {head} now, and you have looked at {seen}; fetch it, and look again")
    leave(places, CommentLeft(who, arguments.change, text, head))
    print(f"said by {who} of change {arguments.change} of {places.repository} at {head}; gate-host log {arguments.change} shows the answer")
    if not arguments.head and not fetched:
        complain("you stand in no clone that has fetched this change, so it counts as if you had looked at this head; --head names another")
    if not command_lines(text):
        complain("this has no command; a line that begins with bors is one, as in 'bors r+'")
    if not is_running(places):
        complain(f"no host runs at present, so this waits; the owner starts it by gate-host run {places.repository}")
        tell_if_not_built(places)
    return 0


def report_status(arguments: argparse.Namespace) -> int:
    """Leaves a report for the host. What can be told at once that doesn't count is refused."""
    places = places_of_bare(arguments)
    who = person_here(places.owner)
    commit, name, more = arguments.commit.lower(), arguments.name, arguments.description
    if not is_commit(commit):
        raise Trouble("a commit has 40 digits here")
    if not is_name_of_status(name) or not is_description(more):
        raise Trouble(f"the bot takes no such name of a status, or the description isn't a line of {MOST_IN_DESCRIPTION} characters")
    if who is None or who not in read_reporters(places.reporters, places.owner).get(name, ()):
        raise Trouble(f"{who or 'your user'} isn't named as a reporter of {name}; the owner adds a line to {places.reporters}")
    if name in read_settings(places.settings, places.owner).checks:
        complain(f"the host has a command for {name}, so of what it stages this doesn't count")
    leave(places, ReportLeft(who, commit, name, arguments.state, more))
    print(f"{who} reports {name} of {commit}: {arguments.state}")
    return tell_if_it_waits(places)


def freeze(arguments: argparse.Namespace) -> int:
    """Leaves word for the host that the queue is to be frozen."""
    if not is_reason(arguments.reason):
        raise Trouble(f"a reason is one line of at most {MOST_IN_DESCRIPTION} characters")
    places = find_places(arguments.repository)
    who = who_may_freeze(places)
    leave(places, FreezeLeft(who, arguments.reason.strip()))
    print(f"{who} freezes the queue of {places.repository}: {arguments.reason.strip()}")
    return tell_if_it_waits(places)


def thaw(arguments: argparse.Namespace) -> int:
    places = find_places(arguments.repository)
    who = who_may_freeze(places)
    leave(places, ThawLeft(who))
    print(f"{who} lets the queue of {places.repository} go on")
    return tell_if_it_waits(places)


def who_may_freeze(places: Places) -> str:
    """Who freezes a queue or thaws it. The host decides by what it knows; what it would leave out is refused here."""
    who, owner = person_here(places.owner), name_of_user(places.owner)
    is_on_github = read_github(places.settings, places.owner) is not None
    is_reviewer = not is_on_github and who is not None and read_roles(places.roles, places.owner).get(who) == "reviewer"
    if who is None or not (is_reviewer or who == owner):
        may = "the owner of the host" if is_on_github else "reviewers and the owner of the repository"
        raise Trouble(f"{who or 'your user'} may not freeze this queue or thaw it; {may} may")
    return who


def tell_if_it_waits(places: Places) -> int:
    if not is_running(places):
        complain("no host runs at present, so this waits")
    return 0


def places_of_bare(arguments: argparse.Namespace) -> Places:
    """The places of a repository about which people speak here. About one on GitHub they do so there."""
    places = find_places(arguments.repository)
    github = read_github(places.settings, places.owner)
    if github:
        raise Trouble(f"what is said of {github.repository} is said on GitHub: comment on the pull request there")
    return places


def is_beginning(seen: str, head: str) -> bool:
    """Whether a commit was named by its name, or by the beginning of it."""
    return len(seen) >= SHORTEST_NAME and head.startswith(seen)


def tell_if_not_built(places: Places) -> None:
    program = read_settings(places.settings, places.owner).program
    if not os.access(program, os.X_OK):
        complain(f"nor can the host start: there is no program of the bot at {program}")


def head_in_clone(arguments: argparse.Namespace, places: Places) -> Optional[str]:
    """The head of the change as it was fetched last, if the user stands in a clone of the repository."""
    name = f"change/{arguments.change}"
    remotes = remotes_of(Path.cwd(), places)
    seen = (asked_of_git(Path.cwd(), "rev-parse", "--verify", "--quiet", f"refs/remotes/{remote}/{name}") for remote in remotes)
    return next(filter(None, seen), None)


def remotes_of(folder: Path, places: Places) -> List[str]:
    """The remotes of a clone that lead to a repository on this machine."""
    found = []
    for line in (asked_of_git(folder, "config", "--get-regexp", r"^remote\..*\.url$") or "").split("\n"):
        key, _, url = line.partition(" ")
        path = Path(url[len("file://"):] if url.startswith("file://") else url)
        if path.is_absolute() and path.resolve() == places.repository:
            found.append(key[len("remote."):-len(".url")])
    return found


def show(places: Places, name: str, missing: str) -> str:
    """The text of a report. Says so if no host keeps it up to date."""
    try:
        text = (places.reports / name).read_text(encoding="utf-8")
    except FileNotFoundError:
        raise Trouble(missing) from None
    if not is_running(places):
        complain("no host runs at present; this is how it was when the last one ended")
    return text


def is_running(places: Places) -> bool:
    """Whether the process is there that has last said to be the host."""
    try:
        number = int((places.reports / "process").read_text(encoding="utf-8"))
        os.kill(number, 0)
    except PermissionError:
        return True
    except (OSError, ValueError):
        return False
    return True


def show_queue(arguments: argparse.Namespace) -> int:
    places = find_places(arguments.repository)
    if arguments.json:
        return print_document(places, document_at(places, "queue.json", "the host hasn't run yet"))
    print(show(places, "queue", "the host hasn't run yet"), end="")
    return 0


def show_change(arguments: argparse.Namespace) -> int:
    number, places = arguments.change, find_places(arguments.repository)
    if arguments.json:
        return print_document(places, document_at(places, f"change-{number}.json", f"there is no change {number}"))
    print(show(places, f"change-{number}", f"there is no change {number}"), end="")
    return 0


def document_at(places: Places, name: str, missing: str) -> Dict[str, Json]:
    """A document that the host has written."""
    try:
        return table_in(json.loads((places.reports / name).read_bytes()))
    except FileNotFoundError:
        raise Trouble(f"{missing}, or its host is of a version that writes no such document") from None
    except (ValueError, Unread) as fault:
        raise Trouble(f"{places.reports / name} can't be read: {fault}") from fault


def print_document(places: Places, document: Mapping[str, Json]) -> int:
    """Prints a document, which says whether a host keeps it up to date."""
    print(json_of(dict(document, host_runs=is_running(places))), end="")
    return 0


def explain_change(arguments: argparse.Namespace) -> int:
    status = explain(arguments)
    if arguments.at is None and not is_running(find_places(arguments.repository)):
        complain("no host runs at present, so nothing goes on; this is how it was when the last one ended")
    return status


def show_log(arguments: argparse.Namespace) -> int:
    number = arguments.change
    places = find_places(arguments.repository)
    if arguments.json:
        return print_document(places, log_at(places, number))
    text = show(places, f"log-{number}", f"of change {number} nothing was said")
    print(text, end="")
    lines = text.splitlines()
    outputs = [(before, found[1]) for before, line in zip(lines, lines[1:]) if (found := OUTPUT.fullmatch(line))]
    if not arguments.all:
        outputs = [it for it in outputs if " failed: " in it[0]][-1:]
    for _, name in outputs:
        path = places.outputs / name
        kept = path.read_text(encoding="utf-8", errors="replace") if path.exists() else "it isn't kept any more\n"
        print(f"\n--- {name}\n{plain_lines(kept)}", end="")
    return 0


def log_at(places: Places, number: int) -> Dict[str, Json]:
    """The document of a log, which is made of the log as it stands."""
    path = places.reports / f"log-{number}"
    try:
        return log_document(number, entries_in(path.read_bytes().decode("utf-8")))
    except FileNotFoundError:
        raise Trouble(f"of change {number} nothing was said") from None
    except (ValueError, NoLog) as fault:
        raise Trouble(f"{path} can't be read: {fault}") from fault


def plain_lines(text: str) -> str:
    return "".join(f"{plain(line)}\n" for line in text.split("\n"))


JOBS = {
    "init": init, "run": run, "doctor": look_after, "say": say, "queue": show_queue, "change": show_change, "log": show_log,
    "hook": look_at_push, "ssh": serve_by_ssh, "status": report_status, "audit": audit,
    "receive": receive, "explain": explain_change, "what-if": suppose, "freeze": freeze, "thaw": thaw,
}
