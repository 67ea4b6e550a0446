"""What people may ask for over ssh, if all of them use one account, which owns the repositories.

The key of each person stands in the account's authorized_keys with the command `gate-host ssh PERSON REPOSITORY..`. sshd runs that
whatever the person's client asks for, and tells it in SSH_ORIGINAL_COMMAND what that was. It is a text from outside, and so:

- No shell sees it. It is split into words. Each of them has to be a word that is known, a number, a commit, the path of a repository
  that the command of the key names, or a part of a comment.
- A path is compared as a text, and nothing is looked up by it. So neither `..` nor a link leads anywhere else, and nobody learns by it
  which files there are. What is opened is the repository as the command of the key names it.
- The environment is made anew, of what sshd says itself. A client can send variables, and git obeys many.
"""
import io
import os
import re
import shlex
import sys
from dataclasses import dataclass
from pathlib import Path
from typing import Dict, FrozenSet, List, NoReturn, Optional, Sequence, Tuple, Union

from . import places
from .core.notes import MOST_IN_COMMENT, STATES, is_reason
from .faults import Trouble
from .troubles import complain

MOST_ASKED = 16384
SERVICES = ("receive-pack", "upload-pack", "upload-archive")
# How each job of gate-host is asked for, and with which options.
USES = {
    "say": "say CHANGE [TEXT] [--head COMMIT]", "queue": "queue [--json]", "change": "change NUMBER [--json]",
    "log": "log NUMBER [--all] [--json]",
    "status": "status COMMIT NAME STATE [--description TEXT]", "explain": "explain NUMBER [--at DELIVERY] [--json]",
    "what-if": "what-if --settings - [--since DATE] [--json]",
    "freeze": "freeze REASON", "thaw": "thaw",
}
OPTIONS = {
    "say": ("--repository", "--head"), "queue": ("--repository", "--json"), "change": ("--repository", "--json"),
    "log": ("--repository", "--all", "--json"),
    "status": ("--repository", "--description"), "explain": ("--repository", "--at", "--json"),
    "what-if": ("--repository", "--settings", "--since", "--json"),
    "freeze": ("--repository",), "thaw": ("--repository",),
}
# Those that have no value.
FLAGS = ("--all", "--json")
NUMBER = re.compile(r"[1-9][0-9]{0,9}")
COMMIT = re.compile(r"[0-9a-f]{40}")
# The jobs that are about no change.
WITHOUT_NUMBER = ("queue", "what-if", "thaw")
# A delivery is named by its identifier or its number, and a date has no other characters.
DELIVERY = re.compile(r"[!-~]{1,128}")
PROTOCOL = re.compile(r"version=[012]")
# What sshd says of the account and of the connection. It says so after what a client sends, which therefore doesn't count.
KEPT = ("HOME", "LOGNAME", "PATH", "SSH_CLIENT", "SSH_CONNECTION", "USER")


@dataclass(frozen=True)
class Service:
    """A service of git that is asked for."""

    name: str
    repository: Path


@dataclass(frozen=True)
class Job:
    """A job of gate-host that is asked for: its arguments, and what is to be said, unless that comes on standard input."""

    words: List[str]
    text: Optional[str] = None


def serve(person: str, repositories: List[Path], asked: str) -> int:
    """Does what a person asks for, and gives the exit status. A service of git takes the place of this process."""
    os.umask(0o022)
    try:
        who = places.person(person)
        if who is None:
            raise Trouble("the command of your key names a person whose name the bot doesn't take")
        if not asked.strip():
            return greet(who, repositories)
        wanted = request_in(asked, repositories)
        environment = environment_of(who)
        if isinstance(wanted, Service):
            become_git(wanted, environment)
        return run_job(wanted, environment)
    except (Trouble, OSError) as trouble:
        complain(str(trouble))
    return 1


def greet(who: str, repositories: Sequence[Path]) -> int:
    """Answers a client that asks for nothing. It wants a shell and gets none, so it is told by the status that nothing was done: a script
    that writes commands to that shell must not take them for done."""
    jobs = f"gate-host {', '.join(list(USES)[:-1])} or {list(USES)[-1]}"
    complain(f"you are {who} here. Clone, fetch and push {listed(repositories)}, or ask for {jobs}.")
    return 1


def listed(repositories: Sequence[Path]) -> str:
    return ", ".join(str(it) for it in repositories)


# What is asked for


def request_in(asked: str, repositories: Sequence[Path]) -> Union[Service, Job]:
    """What a client asks for. Whatever isn't known is refused."""
    words = words_in(asked)
    for service in SERVICES:
        for beginning in ([f"git-{service}"], ["git", service]):
            if words[:len(beginning)] == beginning:
                return service_in(service, words[len(beginning):], repositories)
    if words[:1] == ["gate-host"]:
        del words[0]
    if not words or words[0] not in USES:
        jobs = f"{', '.join(list(USES)[:-1])} and {list(USES)[-1]}"
        raise Trouble(f"this account runs git and gate-host {jobs}, and no other command")
    return job_in(words[0], words[1:], repositories)


def words_in(asked: str) -> List[str]:
    """The words, as a shell would split them. A line break ends no word: ssh takes quotes away, and a comment may have several lines."""
    if len(asked) > MOST_ASKED:
        raise Trouble(f"what is asked for has more than {MOST_ASKED} characters; a long text comes on standard input")
    lexer = shlex.shlex(asked, posix=True)
    lexer.whitespace, lexer.whitespace_split, lexer.commenters = " \t", True, ""
    try:
        return list(lexer)
    except ValueError as fault:
        raise Trouble("a quote in it isn't closed. ssh takes quotes away; a text that has some comes on standard input") from fault


def service_in(service: str, words: Sequence[str], repositories: Sequence[Path]) -> Service:
    if len(words) != 1 or words[0].startswith("-"):
        raise Trouble(f"git {service} takes the path of a repository here, and nothing else")
    return Service(service, repository_at(words[0], repositories))


def job_in(job: str, words: Sequence[str], repositories: Sequence[Path]) -> Job:
    """A job of gate-host, with the repository that is meant. All words behind the number of `say` are its text."""
    options, others = options_in(job, words)
    if job == "status":
        return report_in(options, others, repositories)
    if job == "freeze":
        return freeze_in(options, others, repositories)
    texts = others[1:] if job == "say" else []
    numbers = others[:len(others) - len(texts)]
    if len(numbers) != (0 if job in WITHOUT_NUMBER else 1) or not all(NUMBER.fullmatch(it) for it in numbers):
        raise misuse(job)
    if not COMMIT.fullmatch(options.get("--head", "0" * 40)):
        raise Trouble("--head takes a commit with its 40 digits")
    more = ["--head", options["--head"]] if "--head" in options else []
    if not DELIVERY.fullmatch(options.get("--at", "1")):
        raise Trouble("--at takes the identifier of a delivery or its number")
    more += [f"--at={options['--at']}"] if "--at" in options else []
    if not DELIVERY.fullmatch(options.get("--since", "1")):
        raise Trouble("--since takes a date, as in 2026-11-30T12:00, or the identifier of a delivery")
    more += [f"--since={options['--since']}"] if "--since" in options else []
    more += settings_in(options) if job == "what-if" else []
    more += [flag for flag in FLAGS if flag in options]
    # A text goes to the job on standard input, so no word of it can be taken for an option.
    more += [*numbers, "-"] if job == "say" else numbers
    text = " ".join(texts) if texts and texts != ["-"] else None
    return Job([job, "--repository", str(repository_in(options, repositories)), *more], text)


def settings_in(options: Dict[str, str]) -> List[str]:
    """Settings come on standard input. A file of this machine isn't the client's."""
    if options.get("--settings", "-") != "-":
        raise Trouble("by ssh settings come on standard input: ask for what-if --settings -, with the file behind <")
    return ["--settings=-"]


def report_in(options: Dict[str, str], words: Sequence[str], repositories: Sequence[Path]) -> Job:
    """A report of a status. None of its words can be taken for an option."""
    if len(words) != 3 or not COMMIT.fullmatch(words[0]) or words[1].startswith("-") or words[2] not in STATES:
        raise misuse("status")
    more = [f"--description={options['--description']}"] if "--description" in options else []
    return Job(["status", "--repository", str(repository_in(options, repositories)), *more, *words])


def freeze_in(options: Dict[str, str], words: Sequence[str], repositories: Sequence[Path]) -> Job:
    """That the queue is to be frozen. All words are the reason, and it can't be taken for an option."""
    reason = " ".join(words)
    if not is_reason(reason) or reason.startswith("-"):
        raise misuse("freeze")
    return Job(["freeze", "--repository", str(repository_in(options, repositories)), reason])


def misuse(job: str) -> Trouble:
    more = ". A text in which a word begins with - comes on standard input" if job == "say" else ""
    return Trouble(f"ask for it as gate-host {USES[job]}, if need be with --repository NAME{more}")


def options_in(job: str, words: Sequence[str]) -> Tuple[Dict[str, str], List[str]]:
    """The options among some words, with their values, and the other words. In a text a word that looks like an option isn't taken for
    text: who wrote it may have meant the option, and without it would have said something else."""
    options: Dict[str, str] = {}
    others: List[str] = []
    rest = iter(words)
    for word in rest:
        name, equals, value = word.partition("=")
        if not word.startswith("-") or word == "-" or (name not in OPTIONS[job] and re.search(r"\s", word)):
            others.append(word)
            continue
        if name not in OPTIONS[job] or name in options or (name in FLAGS and equals):
            raise misuse(job)
        options[name] = value if equals or name in FLAGS else next(rest, "")
    return options, others


def repository_in(options: Dict[str, str], repositories: Sequence[Path]) -> Path:
    """The repository that a job is about. It has to be named if there are several."""
    if "--repository" in options:
        return repository_at(options["--repository"], repositories)
    if len(repositories) != 1:
        raise Trouble(f"say by --repository which one you mean of {listed(repositories)}")
    return Path(os.path.realpath(repositories[0]))


def repository_at(path: str, repositories: Sequence[Path]) -> Path:
    """The named repository that a path means: as it was named or as it is found, by its whole path, from the home folder of the account,
    or by its last name if no other one has that."""
    found = [it for it in repositories if places_of(path) & {os.path.abspath(it), os.path.realpath(it)}]
    found = found or [it for it in repositories if it.name == path]
    if len({os.path.realpath(it) for it in found}) != 1:
        raise Trouble(f"there is no such repository here, but {listed(repositories)}")
    return Path(os.path.realpath(found[0]))


def places_of(path: str) -> FrozenSet[str]:
    """The absolute paths that a path means. If it doesn't begin with /, it is one from the home folder of the account, as git has it."""
    home = os.path.expanduser("~")
    folders = ["/"] if path.startswith("/") else [os.path.abspath(home), os.path.realpath(home)]
    parts = [it for it in (path[2:] if path.startswith("~/") else path).split("/") if it not in ("", ".")]
    # If `..` is among them, it is so in none of the paths with which these are compared.
    return frozenset(os.path.join(folder, *parts) for folder in folders)


# Doing it


def environment_of(who: str) -> Dict[str, str]:
    """The environment of all that runs: what sshd says, who is there, and of what the client sent only how it wants to speak to git."""
    kept = {name: os.environ[name] for name in KEPT if name in os.environ}
    protocol = os.environ.get("GIT_PROTOCOL", "")
    if PROTOCOL.fullmatch(protocol):
        kept["GIT_PROTOCOL"] = protocol
    return {**kept, "LC_ALL": "C.UTF-8", "GL_USER": who}


def become_git(wanted: Service, environment: Dict[str, str]) -> NoReturn:
    """Puts git in the place of this process."""
    repository = wanted.repository
    settings: List[str] = []
    options: List[str] = []
    if wanted.name == "receive-pack":
        must_see_pushes(repository)
        # Neither the account nor the repository has the hook looked for elsewhere.
        settings = ["-c", f"core.hooksPath={repository}/hooks"]
    elif wanted.name == "upload-pack":
        # Not a repository within this one, either.
        options = ["--strict"]
    # An object is what its name says, and none that somebody pushed in its place.
    os.execvpe("git", ["git", "--no-replace-objects", *settings, wanted.name, *options, str(repository)], environment)


def must_see_pushes(repository: Path) -> None:
    """Refuses a repository in which a push would count for the account and not for the person, or be seen by no hook."""
    places.must_be_safe(places.Places(repository))
    if not os.access(repository / "hooks/pre-receive", os.X_OK):
        raise Trouble(f"{repository} has no hook, so nobody pushes there; gate-host init {repository} makes it")


def run_job(wanted: Job, environment: Dict[str, str]) -> int:
    """Runs a job of gate-host in this process."""
    # Here and not above, since that file has this one among its parts.
    from .commands import main
    os.environ.clear()
    os.environ.update(environment)
    for stream in (sys.stdout, sys.stderr):
        if isinstance(stream, io.TextIOWrapper):
            # A client may have sent the name of a language in which some text can't be written.
            stream.reconfigure(encoding="utf-8", errors="backslashreplace")
    if wanted.words[0] in ("say", "status", "freeze", "thaw"):
        places.must_be_safe(places.find_places(wanted.words[2]))
    if wanted.words[0] == "say":
        sys.stdin = io.StringIO(text_of(wanted))
    return main(wanted.words)


def text_of(wanted: Job) -> str:
    """What is to be said. Of standard input no more is read than a comment may have, since it may never end."""
    # What came in the environment gets the bytes back that the client sent. They are UTF-8, whatever language the client has named.
    content = sys.stdin.buffer.read(4 * MOST_IN_COMMENT + 1) if wanted.text is None else os.fsencode(wanted.text)
    text = content.decode("utf-8", "replace")
    if not text.strip():
        raise Trouble("there is no text to say")
    return text
